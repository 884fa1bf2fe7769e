//! How large the tables for a text or a program file must be, by a look at its rows or its bytes.

use crate::ffi::{MAX_BYTES, MAX_EDGES, MAX_LINES, MAX_STATEMENTS};

/// Lines, statements and edges that suffice. For a listing in form the first two are exact, for a program file the first is.
#[derive(Debug, Clone, Copy, PartialEq, Eq)]
pub(crate) struct Size {
    pub lines: usize,
    pub statements: usize,
    pub edges: usize,
}

/// What decides how many edges there can be.
#[derive(Default)]
struct Rows {
    lines: usize,
    statements: usize,
    /// Written numbers, slots and the like.
    words: usize,
    calls: usize,
    returns: usize,
    anys: usize,
    orphans: usize,
    dispatched: usize,
}

impl Rows {
    fn count(&mut self, row: &[u8]) {
        if row.starts_with(b"(line ") {
            self.lines += 1;
            return;
        }
        let held = [&b"(module "[..], b"(to ", b"(stmts"].iter().any(|w| row.starts_with(w));
        if held || !row.starts_with(b"(") {
            return;
        }
        self.statements += 1;
        self.words += row.iter().filter(|&&b| b == b' ').count();
        self.calls += usize::from(row.starts_with(b"(gosub ") || row.starts_with(b"(ongosub"));
        self.returns += usize::from(row.starts_with(b"(return"));
        self.anys += usize::from(row.starts_with(b"(any"));
        self.orphans += usize::from(row.starts_with(b"(next orphan"));
        self.dispatched += usize::from(row.ends_with(b" dispatched)"));
    }

    /// Two for each statement (an ELSE and a DONE also add one to their DOIF), one for each written word, and the statements
    /// that lead to many: none of them more than once to one node.
    fn edges(&self) -> usize {
        let many = self.anys * self.lines + self.orphans * self.dispatched + self.returns * self.calls;
        2 * self.statements + self.words + many
    }
}

/// A longer text is refused before its tables are looked at, and so is one with more lines or statements.
pub(crate) fn of(text: &[u8]) -> Size {
    let mut rows = Rows::default();
    if text.len() <= MAX_BYTES {
        text.split(|&b| b == b'\n').for_each(|row| rows.count(row));
    }
    Size {
        lines: rows.lines.min(MAX_LINES),
        statements: rows.statements.min(MAX_STATEMENTS),
        edges: rows.edges().min(MAX_EDGES),
    }
}

/// What decides the sizes for a program file. Covered bytes are counted too: a few entries more.
#[derive(Default)]
struct Bytes {
    lines: usize,
    colons: usize,
    thens: usize,
    commas: usize,
    gosubs: usize,
    returns: usize,
}

impl Bytes {
    fn count(&mut self, line: &[u8]) {
        self.lines += 1;
        for byte in line {
            match byte {
                b':' => self.colons += 1,
                b',' => self.commas += 1,
                0x8d => self.gosubs += 1,
                0x8e => self.returns += 1,
                0xa7 => self.thens += 1,
                _ => {}
            }
        }
    }

    /// One begins a line, or stands behind a colon or a THEN.
    fn statements(&self) -> usize {
        self.lines + self.colons + self.thens
    }

    /// Two for each statement, two for words that it may be written with, one for each further number or slot behind its comma, and
    /// what RETURNs lead to.
    fn edges(&self) -> usize {
        4 * self.statements() + self.commas + self.returns * self.gosubs
    }
}

/// A longer file is refused before its tables are looked at, and so is one with more lines or statements.
pub(crate) fn of_program(file: &[u8]) -> Size {
    let mut bytes = Bytes::default();
    let mut rest = if file.len() <= MAX_BYTES { file.get(2..).unwrap_or_default() } else { b"" };
    // A link of two zeros ends the reading; what a file that ends early lacks is refused too.
    while let [a, b, _, _, line @ ..] = rest {
        if (*a, *b) == (0, 0) {
            break;
        }
        let end = line.iter().position(|&byte| byte == 0).unwrap_or(line.len());
        bytes.count(&line[..end]);
        rest = line.get(end + 1..).unwrap_or_default();
    }
    Size {
        lines: bytes.lines.min(MAX_LINES),
        statements: bytes.statements().min(MAX_STATEMENTS),
        edges: bytes.edges().min(MAX_EDGES),
    }
}
