//! Damaged copies of small listings, and now and then a text just over a limit.

use crate::generate;
use crate::listing::{Branch, Form, Line, Listing};
use crate::random::Random;

type Rows = Vec<Vec<u8>>;

/// Words to put where another stood: opening words, good and bad numbers, good and bad names.
const WORDS: [&str; 84] = [
    "module", "line", "if", "ifelse", "rcomp", "to", "stmts", "goto", "gosub", "return", "run",
    "ongoto", "ongosub", "for", "next", "repeat", "loop", "until", "endloop", "exit", "exitif",
    "doif", "else", "done", "clr", "stop", "any", "plain", "orphan", "static", "framed",
    "dispatched", "Static", "bogus", "GOTO", "0", "1", "10", "65535", "007", "00", "01", "65536",
    "99999", "1234567890123456789012345678901234567890", "000000000000000000000000000000000000",
    "18446744073709551616", "4294967306", "-1", "1x", "x1", "+5", "1.0", "*", "**", "A", "a", "I",
    "I%", "I%$", "%", "$", "A%%", "9A", "A_B", "ABCDEFGH", "ABCDEFGH$", "ABCDEFGHI", "ABCDEFGHI%",
    "A B", "A)", "", "A\r", "A\t", "\0", "1\r", "\u{c4}", "plain\r", "COUNT", "COUNTER%", "COUNTERS%",
    "COUNTERSX", "COunt", "CO%UNT",
];

pub fn damaged(random: &mut Random) -> Vec<u8> {
    if random.below(400) == 0 {
        return over_limit(random);
    }
    let mut listing = generate::small(random);
    if random.chance(8) {
        deepen(&mut listing, random);
    }
    if random.chance(8) {
        widen(&mut listing, random);
    }
    let mut text = listing.text();
    for _ in 0..*random.pick(&[0, 1, 1, 1, 1, 2, 3]) {
        text = one(text, random);
    }
    text
}

fn one(text: Vec<u8>, random: &mut Random) -> Vec<u8> {
    match random.below(10) {
        0 => bytes(text, random),
        1 => ends(text, random),
        2 | 3 => join(rows_moved(split(&text), random)),
        4 => join(line_number(split(&text), random)),
        5 => join(row_edges(split(&text), random)),
        _ => join(words(split(&text), random)),
    }
}

fn split(text: &[u8]) -> Rows {
    let mut rows: Rows = text.split(|&b| b == b'\n').map(<[u8]>::to_vec).collect();
    rows.pop();
    if rows.is_empty() {
        rows.push(Vec::new());
    }
    rows
}

fn join(rows: Rows) -> Vec<u8> {
    rows.into_iter().flat_map(|mut r| { r.push(b'\n'); r }).collect()
}

/// One byte changed, put in or taken out.
fn bytes(mut text: Vec<u8>, random: &mut Random) -> Vec<u8> {
    let odd = [0, 9, 10, 13, 32, 40, 41, 42, 48, 57, 65, 90, 97, 127, 128, 255];
    let byte = if random.chance(70) { *random.pick(&odd) } else { random.below(256) as u8 };
    let at = random.below(text.len().max(1));
    match random.below(4) {
        0 if !text.is_empty() => text[at] = byte,
        1 if !text.is_empty() => text[at] ^= 1 << random.below(8),
        2 if !text.is_empty() => drop(text.remove(at)),
        _ => text.insert(at, byte),
    }
    text
}

/// The text cut, its last byte 10 lost, or something after its end.
fn ends(mut text: Vec<u8>, random: &mut Random) -> Vec<u8> {
    let after = ["\n", ")\n", "(plain)\n", "x", "(module 0\n)\n", ")", " \n", "(line 7\n)\n"];
    match random.below(4) {
        0 => text.truncate(random.below(text.len() + 1)),
        1 => drop(text.pop()),
        2 => {
            let cut = text.iter().rposition(|&b| b == b'\n').unwrap_or(0);
            let keep = text[..cut].iter().rposition(|&b| b == b'\n').map_or(0, |p| p + 1);
            text.truncate(keep);
        }
        _ => text.extend(random.pick(&after).bytes()),
    }
    text
}

/// Rows dropped, doubled, swapped, put elsewhere, or a good row put in a wrong place.
fn rows_moved(mut rows: Rows, random: &mut Random) -> Rows {
    let (a, b) = (random.below(rows.len()), random.below(rows.len()));
    let put = [
        "(plain)", ")", "(to 10)", "(stmts", "(if", "(ifelse", "(rcomp", "(line 20", "(line 10)",
        "(if)", "(stmts)", "(else)", "", "(to 007)", "(goto 65536)", "(module 0", "(to)", "(line",
        "(to 65536)", "(line 007", "(next orphan a)", "(for 1 static)", "(rcomp)", "(plain",
    ];
    match random.below(5) {
        0 => drop(rows.remove(a)),
        1 => rows.insert(a, rows[a].clone()),
        2 => rows.swap(a, b),
        3 => {
            let row = rows.remove(a);
            rows.insert(b.min(rows.len()), row);
        }
        _ => rows.insert(a, random.pick(&put).as_bytes().to_vec()),
    }
    rows
}

/// Another number for some line, most often one that does not ascend.
fn line_number(mut rows: Rows, random: &mut Random) -> Rows {
    let lines: Vec<usize> = (0..rows.len()).filter(|&i| rows[i].starts_with(b"(line ")).collect();
    if lines.is_empty() {
        return rows;
    }
    let at = *random.pick(&lines);
    let other = rows[*random.pick(&lines)].clone();
    let numbers = ["0", "1", "9", "10", "65535", "65536", "007", "x", "010"];
    rows[at] = if random.chance(50) {
        other
    } else {
        format!("(line {}", random.pick(&numbers)).into_bytes()
    };
    rows
}

/// Spaces, brackets and odd bytes at the ends of a row.
fn row_edges(mut rows: Rows, random: &mut Random) -> Rows {
    let at = random.below(rows.len());
    let row = &mut rows[at];
    match random.below(8) {
        0 => row.insert(0, b' '),
        1 => row.push(*random.pick(&[b' ', b'\r', b'\t', 0, b')', b'(', 200])),
        2 => drop(row.pop()),
        3 if !row.is_empty() => drop(row.remove(0)),
        4 => row.insert(0, b'('),
        5 => row.push(b')'),
        6 if row.ends_with(b")") => row.insert(row.len() - 1, b' '),
        _ => {
            let at = row.iter().position(|&b| b == b' ').unwrap_or(0);
            row.insert(at, *random.pick(&[b' ', b'\t', b'\r', 0, 160]));
        }
    }
    rows
}

/// A word of a row changed, dropped, doubled or added; rows with more words come more often.
fn words(mut rows: Rows, random: &mut Random) -> Rows {
    let mut at = random.below(rows.len());
    for _ in 0..3 {
        if !rows[at].contains(&b' ') {
            at = random.below(rows.len());
        }
    }
    let closed = rows[at].ends_with(b")");
    let row = String::from_utf8_lossy(&rows[at]).into_owned();
    let inner = row.trim_start_matches('(').trim_end_matches(')');
    let mut words: Vec<&str> = inner.split(' ').collect();
    let i = random.below(words.len());
    match random.below(6) {
        0 => drop(words.remove(i)),
        1 => words.insert(i, words[i]),
        2 => words.push(*random.pick(&WORDS)),
        3 => words.insert(i, *random.pick(&WORDS)),
        4 if words.len() > 1 => words[random.between(1, i.max(1))] = *random.pick(&WORDS),
        _ => words[i] = *random.pick(&WORDS),
    }
    rows[at] = format!("({}{}", words.join(" "), if closed { ")" } else { "" }).into_bytes();
    rows
}

/// Wraps some line's statements until they stand at depth 16 or 17.
fn deepen(listing: &mut Listing, random: &mut Random) {
    let Some(line) = listing.lines.iter().position(|_| random.chance(50)) else {
        return;
    };
    let mut body = std::mem::take(&mut listing.lines[line].body);
    if body.is_empty() {
        body.push(Form::Bare("plain"));
    }
    for _ in 0..random.between(14, 17) {
        let inner = Branch::Stmts(body);
        let other = if random.chance(50) { Branch::To(10) } else { Branch::Stmts(Vec::new()) };
        body = vec![match random.below(5) {
            0 => Form::IfElse(inner, other),
            1 => Form::IfElse(other, inner),
            2 => Form::Rcomp(inner, None),
            3 => Form::Rcomp(other, Some(inner)),
            _ => Form::If(inner),
        }];
    }
    listing.lines[line].body = body;
}

/// A statement with 64 or 65 numbers or slots.
fn widen(listing: &mut Listing, random: &mut Random) {
    if listing.lines.is_empty() {
        return;
    }
    let count = random.between(64, 65);
    let number = *random.pick(&[0, 9, 10]);
    let form = match random.below(4) {
        0 => Form::OnGoto(vec![number; count]),
        1 => Form::OnGosub(vec![number; count]),
        _ => {
            let slot = if random.chance(50) { None } else { Some("I".to_string()) };
            Form::Next("plain".to_string(), vec![slot; count])
        }
    };
    let line = random.below(listing.lines.len());
    listing.lines[line].body.push(form);
}

/// Around the limits of lines, statements and bytes, at times with a second fault.
fn over_limit(random: &mut Random) -> Vec<u8> {
    let bare = |word, n| vec![Form::Bare(word); n];
    let lines: Vec<Line> = match random.below(3) {
        0 => {
            let count = random.between(1024, 1025) as u16;
            (0..count).map(|number| Line { number, body: Vec::new() }).collect()
        }
        1 => {
            let mut body = bare("clr", random.between(4096, 4097));
            let last = random.pick(&[Form::OnGoto(vec![1; 65]), Form::Bare("plain")]).clone();
            *body.last_mut().expect("statements") = last;
            vec![Line { number: 0, body }]
        }
        _ => vec![Line { number: 0, body: bare("plain", 4096) }],
    };
    let mut text = Listing { handlers: false, lines }.text();
    match random.below(6) {
        0 => text = join(line_number(split(&text), random)),
        1 => text = ends(text, random),
        2 => text.resize(random.between(65535, 65538), b' '),
        3 => text.resize(random.between(65535, 70000), b'\n'),
        _ => {}
    }
    text
}
