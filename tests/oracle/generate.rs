//! Random valid listings. Few names and few line numbers, so that loops meet and jumps both
//! hit and miss. Names are of one another's neighbourhood: some are one once they are cut, and
//! some differ in their kind or their second character alone.

use crate::listing::{Branch, Form, Line, Listing, BARE};
use crate::lower;
use crate::random::Random;

/// Cut, no two of one kind have the same 16-bit hash in the original; `collisions` checks it.
pub const NAMES: [&[&str]; 10] = [
    &["I", "J", "K", "X"],
    &["I%", "J%", "N%", "I$", "I", "J"],
    &["COUNT", "COUNTER", "J"],
    &["CO", "CO1", "CO2", "COUNT", "COUNTER", "COUNTERS"],
    &["COUNT%", "COUNTER%", "CO%", "COUNT", "COUNTER", "COUNTERS$", "C%", "C", "CP", "CP%"],
    &["A1", "A1B2", "A1B2C3D4", "A1B2%", "A2B2", "A", "A%", "A$"],
    &["LOOPVAR1", "LOOPVAR2", "LO", "LOOPVAR1$", "L1", "L"],
    &["ABCDEFGH", "ABCDEFG", "ABCDEFGH%", "AB%", "ACDEFGH", "AC%"],
    &["Z9$", "Z9999999$", "Z9", "Z$", "Z9Z%", "Z99%"],
    &["N%", "NO%", "NOTE%", "NOTES%", "N", "NN%"],
];

const NUMBERS: [u16; 12] = [0, 1, 5, 10, 20, 30, 40, 50, 100, 999, 65534, 65535];

/// Words that belong together; a listing takes some of these families more often.
const FAMILIES: [&[&str]; 8] = [
    &["gosub", "ongosub", "return", "gosub", "return"],
    &["gosub", "ongosub", "return", "return", "ifelse", "if", "plain"],
    &["for", "next", "next", "for", "plain"],
    &["repeat", "loop", "until", "endloop", "exit", "exitif"],
    &["doif", "else", "done", "else", "plain"],
    &["goto", "ongoto", "if", "run", "clr", "any"],
    &["if", "ifelse", "rcomp", "plain"],
    &["for", "next", "next", "gosub", "return", "if"],
];

const HOLDERS_AND_WORDED: [&str; 10] =
    ["if", "ifelse", "rcomp", "goto", "gosub", "run", "ongoto", "ongosub", "for", "next"];

pub fn small(random: &mut Random) -> Listing {
    let mut make = Make::new(random, 3, 4);
    make.left = make.random.between(0, 12);
    let lines = make.random.between(1, make.left / 2 + 1).min(6);
    let numbers = make.few_numbers(lines);
    make.listing(numbers)
}

pub fn medium(random: &mut Random) -> Listing {
    let mut make = Make::new(random, 6, 6);
    make.left = make.random.between(50, 400);
    let lines = make.random.between(5, 90);
    let mut numbers = Vec::new();
    let mut last = 0;
    for _ in 0..lines {
        last += make.random.between(1, 9) as u16;
        numbers.push(last);
    }
    make.listing(numbers)
}

struct Make<'a> {
    random: &'a mut Random,
    /// The words to draw from; a word that stands here more often comes more often.
    words: Vec<&'static str>,
    names: Vec<&'static str>,
    targets: Vec<u16>,
    /// Statements that may still be made.
    left: usize,
    depth: usize,
    /// At most this many numbers or slots.
    wide: usize,
}

impl<'a> Make<'a> {
    fn new(random: &'a mut Random, depth: usize, wide: usize) -> Self {
        let mut words = [&BARE[..], &HOLDERS_AND_WORDED[..]].concat();
        for _ in 0..*random.pick(&[0, 1, 1, 1, 2, 3]) {
            let family = *random.pick(&FAMILIES);
            for _ in 0..10 {
                words.extend(family);
            }
        }
        let mut names = Vec::new();
        for _ in 0..*random.pick(&[1, 1, 2]) {
            let near = *random.pick(&NAMES);
            names.extend((0..*random.pick(&[1, 2, 3, 5])).map(|_| *random.pick(near)));
        }
        Make { random, words, names, targets: Vec::new(), left: 0, depth, wide }
    }

    /// Some of the fixed numbers, ascending.
    fn few_numbers(&mut self, count: usize) -> Vec<u16> {
        let mut numbers = NUMBERS.to_vec();
        while numbers.len() > count {
            numbers.remove(self.random.below(numbers.len()));
        }
        numbers
    }

    fn listing(&mut self, numbers: Vec<u16>) -> Listing {
        self.targets = numbers.clone();
        let mut lines = Vec::new();
        for (i, &number) in numbers.iter().enumerate() {
            let fair = self.left / (numbers.len() - i);
            let count = self.random.between((fair + 1) / 2, fair + fair / 2 + 1);
            let body = if self.random.chance(15) { Vec::new() } else { self.body(count, 0) };
            lines.push(Line { number, body });
        }
        if self.random.chance(40) {
            self.routine(&mut lines);
        }
        if self.random.chance(35) {
            self.named_loop(&mut lines, "static", "plain");
        }
        if self.random.chance(15) {
            self.named_loop(&mut lines, "dispatched", "orphan");
        }
        let handlers = self.random.chance(35);
        let mut listing = Listing { handlers, lines };
        if handlers && lower::handler_room(&listing) == 0 {
            // Without such a word no original module has handlers.
            let word = *self.random.pick(&["plain", "any"]);
            let line = self.random.below(numbers.len());
            listing.lines[line].body.push(Form::Bare(word));
        }
        listing
    }

    /// Ends a line with RETURN and calls it, so that RETURN lists are seldom empty.
    fn routine(&mut self, lines: &mut [Line]) {
        let called = self.random.below(lines.len());
        lines[called].body.push(Form::Bare("return"));
        let number = lines[called].number;
        for _ in 0..self.random.between(1, 2) {
            let twice = self.random.chance(30);
            let call = if twice { Form::OnGosub(vec![number; 2]) } else { Form::Gosub(number) };
            self.insert(lines, call);
        }
    }

    /// A FOR and a NEXT that can name it, in any order; the name may be written otherwise there.
    fn named_loop(&mut self, lines: &mut [Line], tier: &str, mark: &str) {
        let name = self.name();
        let slot = if self.random.chance(30) { None } else { Some(self.same_cut(&name)) };
        self.insert(lines, Form::For(name, tier.to_string()));
        self.insert(lines, Form::Next(mark.to_string(), vec![slot]));
    }

    fn insert(&mut self, lines: &mut [Line], form: Form) {
        let line = self.random.below(lines.len());
        let at = self.random.between(0, lines[line].body.len());
        lines[line].body.insert(at, form);
    }

    fn body(&mut self, count: usize, depth: usize) -> Vec<Form> {
        let mut body = Vec::new();
        for _ in 0..count {
            if self.left == 0 {
                break;
            }
            self.left -= 1;
            body.push(self.form(depth));
        }
        body
    }

    fn form(&mut self, depth: usize) -> Form {
        match *self.random.pick(&self.words) {
            "if" => Form::If(self.branch(depth)),
            "ifelse" => Form::IfElse(self.branch(depth), self.branch(depth)),
            "rcomp" => {
                let then = self.branch(depth);
                let two = self.random.chance(50);
                Form::Rcomp(then, if two { Some(self.branch(depth)) } else { None })
            }
            "goto" => Form::Goto(self.target()),
            "gosub" => Form::Gosub(self.target()),
            "run" => Form::Run(if self.random.chance(50) { Some(self.target()) } else { None }),
            "ongoto" => Form::OnGoto(self.some_targets()),
            "ongosub" => Form::OnGosub(self.some_targets()),
            "for" => {
                let tier = *self.random.pick(&["static", "framed", "dispatched", "dispatched"]);
                Form::For(self.name(), tier.to_string())
            }
            "next" => self.next_form(),
            word => Form::Bare(word),
        }
    }

    fn next_form(&mut self) -> Form {
        let mark = *self.random.pick(&["plain", "orphan"]);
        let count = self.random.between(0, self.wide);
        // One slot is the usual case.
        let count = if self.random.chance(50) { 1 } else { count };
        let mut slots = Vec::new();
        for _ in 0..count {
            slots.push(if self.random.chance(35) { None } else { Some(self.name()) });
        }
        Form::Next(mark.to_string(), slots)
    }

    fn branch(&mut self, depth: usize) -> Branch {
        if self.random.chance(35) || depth == self.depth {
            return if self.random.chance(80) {
                Branch::To(self.target())
            } else {
                Branch::Stmts(Vec::new())
            };
        }
        let count = self.random.between(0, 3);
        Branch::Stmts(self.body(count, depth + 1))
    }

    fn target(&mut self) -> u16 {
        if self.random.chance(12) {
            *self.random.pick(&NUMBERS)
        } else {
            *self.random.pick(&self.targets)
        }
    }

    fn some_targets(&mut self) -> Vec<u16> {
        let count = self.random.between(0, self.wide);
        (0..count).map(|_| self.target()).collect()
    }

    fn name(&mut self) -> String {
        // A name outside the listing's few seldom meets a frame.
        let foreign = self.random.chance(8);
        let from = if foreign { *self.random.pick(&NAMES) } else { &self.names[..] };
        let name = *self.random.pick(from);
        if self.random.chance(35) { self.same_cut(name) } else { name.to_string() }
    }

    /// A name that is cut as this one is.
    fn same_cut(&mut self, name: &str) -> String {
        let cut = lower::cut(name);
        let all = NAMES.concat();
        let same: Vec<&str> = all.into_iter().filter(|n| lower::cut(n) == cut).collect();
        self.random.pick(&same).to_string()
    }
}
