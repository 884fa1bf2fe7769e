//! Listings at the limits. The first `SHAPES.len()` are fixed; further ones repeat the shapes
//! with seeded changes.

use crate::listing::{Branch, Form, Line, Listing};
use crate::lower;
use crate::random::Random;
use std::collections::HashSet;
use std::hash::{DefaultHasher, Hash, Hasher};

type Shape = fn() -> Listing;

/// What each is, and how it is made.
pub const SHAPES: [(&str, Shape); 30] = [
    ("4,096 plain statements in 1,024 lines", || plain(1_024, 4)),
    ("32,768 edges of `any`", || any(32, 1_024, 0)),
    ("32,769 edges of `any`", || any(32, 1_024, 1)),
    ("180 calls, 176 RETURNs", || calls(180, 176, false, false)),
    ("180 calls through 180 entries, 176 RETURNs", || calls(180, 176, true, false)),
    ("180 calls, 176 RETURNs, handlers", || calls(180, 176, false, true)),
    ("3,500 calls, 8 RETURNs", || calls(3_500, 8, false, false)),
    ("3,500 calls, 8 RETURNs, handlers", || calls(3_500, 8, false, true)),
    ("2,000 calls, 1,000 RETURNs by `any`", || many_returns(2_000, 1_000)),
    ("2,048 calls, 2,046 RETURNs, handlers", || calls(2_048, 2_046, false, true)),
    ("1,024 regions", || regions(0)),
    ("1,024 regions, 10 `any`", || regions(9)),
    ("1,024 regions, 205 `any`", || regions(200)),
    ("528 statements, NEXTs of 64 `*` slots", || slots(78, 450, "plain", "static")),
    ("450 orphan NEXTs of 64 `*` slots, 60 dispatched FORs", || slots(60, 450, "orphan", "dispatched")),
    ("440 orphan NEXTs of 64 `*` slots, 90 dispatched FORs", || slots(90, 440, "orphan", "dispatched")),
    ("4,093 ELSEs in one DOIF", || elses(4_093)),
    ("4,096 `any` in 1,024 lines", || listing(vec![vec![bare("any"); 4]; 1_024])),
    ("one nest of depth 16", || deep(16, 1)),
    ("150 nests of depth 16", || deep(16, 150)),
    ("2,000 FORs, closed one by one", || names(2_000, false)),
    ("2,000 FORs, closed at once", || names(2_000, true)),
    ("2,047 REPEATs", || frames("repeat", "until")),
    ("2,047 LOOPs", || frames("loop", "endloop")),
    ("4,093 EXITs in one LOOP", || exits(4_093)),
    ("320 ONs of 64 numbers", || numbers()),
    ("1,024 empty lines", || listing(vec![Vec::new(); 1_024])),
    ("1,023 empty lines", last_line_only),
    ("65,536 bytes", || padded(65_536)),
    ("2,048 jumps and calls between far numbers", spread_numbers),
];

pub fn listing_text(index: u64, random: &mut Random) -> Vec<u8> {
    let count = SHAPES.len() as u64;
    let mut found = SHAPES[(index % count) as usize].1();
    if index >= count {
        vary(&mut found, random);
    }
    found.text()
}

/// Changes some statements to others of no more bytes; the limits stay kept.
fn vary(listing: &mut Listing, random: &mut Random) {
    let share = *random.pick(&[1, 5, 20]);
    for line in &mut listing.lines {
        for form in &mut line.body {
            if random.chance(share) {
                let word = *random.pick(&["exit", "else", "done", "loop", "any", "clr", "stop"]);
                let other = bare(word);
                if matches!(form, Form::Bare("plain") | Form::Gosub(_) | Form::Next(..)) {
                    *form = other;
                }
            }
        }
    }
    let possible = lower::handler_room(listing) > 0;
    listing.handlers = possible && (listing.handlers || random.chance(20));
}

fn bare(word: &'static str) -> Form {
    Form::Bare(word)
}

/// Lines numbered from 0.
fn listing(bodies: Vec<Vec<Form>>) -> Listing {
    let numbered = bodies.into_iter().zip(0..);
    let lines = numbered.map(|(body, number)| Line { number, body }).collect();
    Listing { handlers: false, lines }
}

fn plain(lines: usize, each: usize) -> Listing {
    listing(vec![vec![bare("plain"); each]; lines])
}

/// `count` computed jumps over `lines` entries, and some edges more.
fn any(count: usize, lines: usize, more: usize) -> Listing {
    let word = |i| if i < count { "any" } else { "stop" };
    let mut bodies: Vec<Vec<Form>> = (0..lines).map(|i| vec![bare(word(i))]).collect();
    (0..more).for_each(|i| bodies[lines - 1 - i] = vec![Form::Goto(0)]);
    listing(bodies)
}

/// Calls of one routine with many RETURNs, through one entry or through many.
fn calls(calls: usize, returns: usize, entries: bool, handlers: bool) -> Listing {
    let routine = 1_000;
    let mut lines: Vec<Line> = Vec::new();
    let target = |i: usize| if entries { 100 + i as u16 } else { routine };
    let mut body: Vec<Form> = (0..calls).map(|i| Form::Gosub(target(i))).collect();
    body.push(bare(if handlers { "plain" } else { "stop" }));
    lines.push(Line { number: 0, body });
    if entries {
        lines.extend((0..calls).map(|i| {
            Line { number: 100 + i as u16, body: vec![Form::Goto(routine)] }
        }));
    }
    // Each RETURN in an IF of its own is reached; where there is no room for IFs, one is.
    let inner = || Form::If(Branch::Stmts(vec![bare("return")]));
    let roomy = calls + 2 * returns + 2 + lines.len() <= 4_096;
    let body = if roomy {
        (1..returns).map(|_| inner()).chain([bare("return")]).collect()
    } else {
        vec![bare("return"); returns]
    };
    lines.push(Line { number: routine, body });
    Listing { handlers, lines }
}

/// RETURNs in lines of their own, all reached by one computed jump.
fn many_returns(calls: usize, returns: usize) -> Listing {
    let mut bodies = vec![vec![Form::Gosub(1); calls], vec![bare("any")]];
    bodies.extend(vec![vec![bare("return")]; returns]);
    listing(bodies)
}

/// 1,024 entries, each called, over 3,000 nodes; `jumps` of the statements go anywhere.
fn regions(jumps: usize) -> Listing {
    let mut bodies: Vec<Vec<Form>> = Vec::new();
    for i in 0..1_024u16 {
        let jump = jumps > 0 && usize::from(i) % (1_024 / jumps) == 0;
        let third = if i == 1_023 { "return" } else if jump { "any" } else { "plain" };
        bodies.push(vec![Form::Gosub(i), bare("plain"), bare(third)]);
    }
    listing(bodies)
}

/// FORs, then NEXTs of 64 slots without a name.
fn slots(fors: usize, nexts: usize, mark: &str, tier: &str) -> Listing {
    let names = distinct(fors);
    let mut body: Vec<Form> =
        names.into_iter().map(|name| Form::For(name, tier.to_string())).collect();
    body.extend(vec![Form::Next(mark.to_string(), vec![None; 64]); nexts]);
    listing(vec![body])
}

fn elses(count: usize) -> Listing {
    let mut body = vec![bare("doif")];
    body.extend(vec![bare("else"); count]);
    body.extend([bare("done"), bare("stop")]);
    listing(vec![body])
}

/// Branches inside branches, `copies` of them.
fn deep(depth: usize, copies: usize) -> Listing {
    let words = ["for", "repeat", "doif", "gosub", "next", "until", "done", "return"];
    let mut bodies = Vec::new();
    for copy in 0..copies {
        let mut body = vec![bare("plain")];
        for level in 0..depth {
            let form = match words[(copy + level) % words.len()] {
                "for" => Form::For("I".to_string(), "dispatched".to_string()),
                "next" => Form::Next("orphan".to_string(), vec![None]),
                "gosub" => Form::Gosub(0),
                word => bare(crate::listing::BARE.iter().find(|b| **b == word).unwrap()),
            };
            let inner = Branch::Stmts(body);
            body = match (copy + level) % 3 {
                0 => vec![Form::If(inner)],
                1 => vec![Form::IfElse(Branch::To(copy as u16), inner)],
                _ => vec![Form::Rcomp(inner, None)],
            };
            // A listing of many copies has room for the holders alone.
            if copies == 1 || level % 4 == 0 {
                body.push(form);
            }
        }
        bodies.push(body);
    }
    listing(bodies)
}

/// Many open FORs, closed one by one from the top, or all at once by the first name; a NEXT writes its name otherwise than its FOR.
fn names(count: usize, at_once: bool) -> Listing {
    let names = distinct(count);
    let open = names.iter().map(|n| Form::For(written(n, 'F'), "framed".to_string()));
    let mut body: Vec<Form> = open.collect();
    let close = |n: &String| Form::Next("plain".to_string(), vec![Some(written(n, 'N'))]);
    if at_once {
        body.extend(names[..1].iter().map(close));
        body.push(Form::Next("plain".to_string(), vec![None]));
    } else {
        body.extend(names.iter().rev().take(1_500).map(close));
    }
    listing(vec![body])
}

/// A longer name that is cut to this one.
fn written(cut: &str, third: char) -> String {
    let (base, kind) = cut.split_at(2);
    format!("{base}{third}{kind}")
}

/// Names of two characters and a kind whose 16-bit hashes differ in the original, as its domain asks; of the 2,808 of them few do not.
fn distinct(count: usize) -> Vec<String> {
    let digits = "0123456789ABCDEFGHIJKLMNOPQRSTUVWXYZ".as_bytes();
    let mut seen = HashSet::new();
    let names = (0..2_808).map(|i: usize| {
        let (a, b) = (i / 108 + 10, i / 3 % 36);
        let base = String::from_utf8(vec![digits[a], digits[b]]).expect("letters");
        (base, ["", "%", "$"][i % 3])
    });
    let found: Vec<String> = names
        .filter(|(base, kind)| {
            let mut hasher = DefaultHasher::new();
            base.hash(&mut hasher);
            seen.insert((hasher.finish() as u16, *kind))
        })
        .map(|(base, kind)| format!("{base}{kind}"))
        .take(count)
        .collect();
    assert_eq!(found.len(), count, "names enough");
    found
}

fn frames(open: &'static str, close: &'static str) -> Listing {
    let mut body = vec![bare(open); 2_047];
    body.extend(vec![bare("exitif"); 1]);
    body.extend(vec![bare(close); 2_047]);
    body.push(bare("stop"));
    listing(vec![body])
}

fn exits(count: usize) -> Listing {
    let mut body = vec![bare("loop")];
    body.extend(vec![bare("exitif"); count]);
    body.extend([bare("endloop"), bare("stop")]);
    listing(vec![body])
}

/// Statements of 64 numbers over 64 lines.
fn numbers() -> Listing {
    let all: Vec<u16> = (0..64).collect();
    let form = |i| if i % 2 == 0 { Form::OnGoto(all.clone()) } else { Form::OnGosub(all.clone()) };
    listing((0..64).map(|i| (0..5).map(|j| form(i + j)).collect()).collect())
}

fn last_line_only() -> Listing {
    let mut bodies = vec![Vec::new(); 1_024];
    bodies[1_023] = vec![bare("any"), Form::Goto(0), Form::Gosub(500), bare("return")];
    listing(bodies)
}

/// A listing of exactly so many bytes.
fn padded(bytes: usize) -> Listing {
    let wide = Form::OnGoto(vec![0; 64]);
    let mut found = listing(vec![vec![wide; 430], Vec::new()]);
    // Rows of 8 and of 9 bytes make up every length from 56 on.
    let left = bytes - found.text().len();
    let nines = left % 8;
    found.lines[1].body.extend(vec![bare("return"); nines]);
    found.lines[1].body.extend(vec![bare("plain"); (left - 9 * nines) / 8]);
    assert_eq!(found.text().len(), bytes);
    found
}

/// Numbers up to 65535, far apart.
fn spread_numbers() -> Listing {
    let lines = (0..1_024u32).map(|i| Line {
        number: (i * 64 + 63) as u16,
        body: vec![Form::Goto((i * 7 % 1_024 * 64 + 63) as u16), Form::Gosub(65_535)],
    });
    Listing { handlers: false, lines: lines.collect() }
}
