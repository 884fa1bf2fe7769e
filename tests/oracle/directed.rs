//! The fixed list of `directed.txt`: one case a row, several forms to a row.

const CASES: &str = include_str!("directed.txt");

pub fn texts() -> Vec<Vec<u8>> {
    let cases = CASES.lines().filter(|row| row.starts_with('('));
    cases.map(|row| spread(row).into_bytes()).collect()
}

/// One form a row: a form that holds others ends with a row `)`.
fn spread(case: &str) -> String {
    let mut out = String::new();
    // For each open form, whether it holds others.
    let mut open: Vec<bool> = Vec::new();
    for piece in case.split_inclusive(['(', ')']) {
        let (words, bracket) = piece.split_at(piece.len() - 1);
        let words = words.trim();
        out += words;
        if bracket == "(" {
            if !words.is_empty() {
                out += "\n";
                *open.last_mut().expect("a holder") = true;
            }
            out += "(";
            open.push(false);
        } else {
            let holds = open.pop().expect("an open form") || is_holder(words);
            out += if holds && !words.is_empty() { "\n)\n" } else { ")\n" };
        }
    }
    out
}

/// A form that may hold none: an empty line, branch or module.
fn is_holder(words: &str) -> bool {
    ["module", "line", "stmts"].contains(&words.split(' ').next().unwrap_or(""))
}
