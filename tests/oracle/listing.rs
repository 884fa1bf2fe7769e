//! A listing as a tree, its text in the bracket form, and the way back for valid texts.

#[derive(Debug, Clone, PartialEq)]
pub struct Listing {
    pub handlers: bool,
    pub lines: Vec<Line>,
}

#[derive(Debug, Clone, PartialEq)]
pub struct Line {
    pub number: u16,
    pub body: Vec<Form>,
}

#[derive(Debug, Clone, PartialEq)]
pub enum Form {
    If(Branch),
    IfElse(Branch, Branch),
    Rcomp(Branch, Option<Branch>),
    Goto(u16),
    Gosub(u16),
    Run(Option<u16>),
    OnGoto(Vec<u16>),
    OnGosub(Vec<u16>),
    For(String, String),
    /// The mark, then the slots; `None` is `*`.
    Next(String, Vec<Option<String>>),
    /// A form of one word.
    Bare(&'static str),
}

#[derive(Debug, Clone, PartialEq)]
pub enum Branch {
    To(u16),
    Stmts(Vec<Form>),
}

pub const BARE: [&str; 14] = [
    "return", "repeat", "loop", "until", "endloop", "exit", "exitif", "doif", "else", "done",
    "clr", "stop", "any", "plain",
];

impl Listing {
    pub fn text(&self) -> Vec<u8> {
        let mut out = format!("(module {}\n", u8::from(self.handlers));
        for line in &self.lines {
            out += &format!("(line {}\n", line.number);
            line.body.iter().for_each(|f| f.put(&mut out));
            out += ")\n";
        }
        out += ")\n";
        out.into_bytes()
    }
}

impl Form {
    pub fn word(&self) -> &'static str {
        match self {
            Form::If(_) => "if",
            Form::IfElse(..) => "ifelse",
            Form::Rcomp(..) => "rcomp",
            Form::Goto(_) => "goto",
            Form::Gosub(_) => "gosub",
            Form::Run(_) => "run",
            Form::OnGoto(_) => "ongoto",
            Form::OnGosub(_) => "ongosub",
            Form::For(..) => "for",
            Form::Next(..) => "next",
            Form::Bare(word) => word,
        }
    }

    pub fn branches(&self) -> Vec<&Branch> {
        match self {
            Form::If(a) | Form::Rcomp(a, None) => vec![a],
            Form::IfElse(a, b) | Form::Rcomp(a, Some(b)) => vec![a, b],
            _ => Vec::new(),
        }
    }

    /// The words after the opening one.
    fn words(&self) -> Vec<String> {
        match self {
            Form::Goto(n) | Form::Gosub(n) | Form::Run(Some(n)) => vec![n.to_string()],
            Form::OnGoto(ns) | Form::OnGosub(ns) => ns.iter().map(u16::to_string).collect(),
            Form::For(name, tier) => vec![name.clone(), tier.clone()],
            Form::Next(mark, slots) => {
                let slot = |s: &Option<String>| s.clone().unwrap_or("*".to_string());
                std::iter::once(mark.clone()).chain(slots.iter().map(slot)).collect()
            }
            _ => Vec::new(),
        }
    }

    fn put(&self, out: &mut String) {
        *out += "(";
        *out += self.word();
        for word in self.words() {
            *out += " ";
            *out += &word;
        }
        let branches = self.branches();
        if branches.is_empty() {
            *out += ")\n";
            return;
        }
        *out += "\n";
        branches.into_iter().for_each(|b| b.put(out));
        *out += ")\n";
    }
}

impl Branch {
    fn put(&self, out: &mut String) {
        match self {
            Branch::To(n) => *out += &format!("(to {n})\n"),
            Branch::Stmts(inner) => {
                *out += "(stmts\n";
                inner.iter().for_each(|f| f.put(out));
                *out += ")\n";
            }
        }
    }
}

/// The rows still to be read.
struct Rows<'a> {
    rows: Vec<&'a str>,
    at: usize,
}

/// Reads a valid listing; on any other text, the row where it gave up (0 for a limit).
pub fn read(text: &[u8]) -> Result<Listing, usize> {
    let listing = read_long(text)?;
    if text.len() <= 65_536 { Ok(listing) } else { Err(0) }
}

/// The same of a text of any length: a program file may mean a longer one.
pub fn read_long(text: &[u8]) -> Result<Listing, usize> {
    let text = std::str::from_utf8(text).map_err(|_| 0usize)?;
    let mut rows = Rows { rows: text.split_inclusive('\n').collect(), at: 0 };
    let listing = rows.listing().ok_or(rows.at)?;
    let fits = listing.lines.len() <= 1_024 && ascending(&listing.lines);
    let statements = listing.lines.iter().try_fold(0, |n, l| Some(n + size(&l.body, 0)?));
    let fits = fits && statements.is_some_and(|n| n <= 4_096);
    if fits { Ok(listing) } else { Err(0) }
}

fn ascending(lines: &[Line]) -> bool {
    lines.windows(2).all(|w| w[0].number < w[1].number)
}

/// The count of statements; none where one is too deep or too wide.
fn size(body: &[Form], depth: usize) -> Option<usize> {
    let mut count = body.len();
    for form in body {
        let wide = match form {
            Form::OnGoto(ns) | Form::OnGosub(ns) => ns.len() > 64,
            Form::Next(_, slots) => slots.len() > 64,
            _ => false,
        };
        if wide || depth > 16 {
            return None;
        }
        for branch in form.branches() {
            if let Branch::Stmts(inner) = branch {
                count += size(inner, depth + 1)?;
            }
        }
    }
    Some(count)
}

impl<'a> Rows<'a> {
    fn peek(&self) -> Option<&'a str> {
        self.rows.get(self.at)?.strip_suffix('\n')
    }

    fn take(&mut self) -> Option<&'a str> {
        let row = self.peek()?;
        self.at += 1;
        Some(row)
    }

    /// Takes a `)` row if that is what comes.
    fn closed(&mut self) -> Option<bool> {
        let closed = self.peek()? == ")";
        self.at += usize::from(closed);
        Some(closed)
    }

    fn listing(&mut self) -> Option<Listing> {
        let handlers = match self.take()? {
            "(module 0" => false,
            "(module 1" => true,
            _ => return None,
        };
        let mut lines = Vec::new();
        while !self.closed()? {
            let number = number(self.take()?.strip_prefix("(line ")?)?;
            lines.push(Line { number, body: self.body()? });
        }
        (self.at == self.rows.len()).then_some(Listing { handlers, lines })
    }

    /// Statements up to and with their `)` row.
    fn body(&mut self) -> Option<Vec<Form>> {
        let mut body = Vec::new();
        while !self.closed()? {
            body.push(self.form()?);
        }
        Some(body)
    }

    fn form(&mut self) -> Option<Form> {
        let row = self.take()?;
        let Some(leaf) = row.strip_suffix(')') else {
            return self.holder(row);
        };
        let words: Vec<&str> = leaf.strip_prefix('(')?.split(' ').collect();
        leaf_form(&words)
    }

    fn holder(&mut self, row: &str) -> Option<Form> {
        let first = self.branch()?;
        let second = if self.closed()? { None } else { Some(self.branch()?) };
        let form = match (row, second) {
            ("(if", None) => return Some(Form::If(first)),
            ("(rcomp", None) => return Some(Form::Rcomp(first, None)),
            ("(ifelse", Some(second)) => Form::IfElse(first, second),
            ("(rcomp", Some(second)) => Form::Rcomp(first, Some(second)),
            _ => return None,
        };
        self.closed()?.then_some(form)
    }

    fn branch(&mut self) -> Option<Branch> {
        let row = self.take()?;
        if row == "(stmts" {
            return Some(Branch::Stmts(self.body()?));
        }
        Some(Branch::To(number(row.strip_prefix("(to ")?.strip_suffix(')')?)?))
    }
}

fn leaf_form(words: &[&str]) -> Option<Form> {
    let numbers = || words[1..].iter().map(|w| number(w)).collect::<Option<Vec<u16>>>();
    match words {
        ["goto", n] => Some(Form::Goto(number(n)?)),
        ["gosub", n] => Some(Form::Gosub(number(n)?)),
        ["run"] => Some(Form::Run(None)),
        ["run", n] => Some(Form::Run(Some(number(n)?))),
        ["ongoto", ..] => Some(Form::OnGoto(numbers()?)),
        ["ongosub", ..] => Some(Form::OnGosub(numbers()?)),
        ["for", name, tier @ ("static" | "framed" | "dispatched")] => {
            Some(Form::For(var_name(name)?, tier.to_string()))
        }
        ["next", mark @ ("plain" | "orphan"), slots @ ..] => {
            let slot = |s: &&str| if *s == "*" { Some(None) } else { var_name(s).map(Some) };
            Some(Form::Next(mark.to_string(), slots.iter().map(slot).collect::<Option<_>>()?))
        }
        [word] => BARE.iter().find(|b| *b == word).map(|b| Form::Bare(b)),
        _ => None,
    }
}

fn number(word: &str) -> Option<u16> {
    let digits = !word.is_empty() && word.bytes().all(|b| b.is_ascii_digit());
    (digits && (word == "0" || !word.starts_with('0'))).then(|| word.parse().ok())?
}

fn var_name(word: &str) -> Option<String> {
    let base = word.strip_suffix(['%', '$']).unwrap_or(word);
    let capital = base.starts_with(|c: char| c.is_ascii_uppercase());
    let rest = base.bytes().all(|b| b.is_ascii_uppercase() || b.is_ascii_digit());
    (capital && rest && base.len() <= 8).then(|| word.to_string())
}
