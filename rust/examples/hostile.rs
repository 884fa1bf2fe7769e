//! Damaged and random texts through the library.
//!
//! usage: hostile SEED COUNT [alone]
//!
//! Writes each text framed (its byte count in a row, then its bytes) and a row with the answer: `accepted` or
//! `(refused NUMBER PLACE)`; `tests/hostile.py` judges them by the second reading. Tables hold garbage before each build and end
//! where their memory does. Checked here: a refused build leaves every entry zero, an accepted one the entries past the used
//! parts; too short tables are refused with the need; graphs are the original's, where it is at hand (`alone`: not compared).

use flowgraph::{Refusal, Tables};
use oracle::random::Random;
use oracle::{damage, generate};
use std::io::Write;

fn main() {
    let args: Vec<String> = std::env::args().skip(1).collect();
    let words: Vec<&str> = args.iter().map(String::as_str).collect();
    let number = |word: &str| word.parse::<u64>().expect("a number");
    let (seed, count, alone) = match words[..] {
        [seed, count] => (number(seed), number(count), false),
        [seed, count, "alone"] => (number(seed), number(count), true),
        _ => panic!("usage: hostile SEED COUNT [alone]"),
    };
    let mut random = Random::new(seed);
    let mut out = std::io::BufWriter::new(std::io::stdout().lock());
    for _ in 0..count {
        let text = text(&mut random).into_boxed_slice();
        let answer = answer(&text, &mut random);
        if !alone {
            as_the_original(&text, &answer);
        }
        writeln!(out, "{}", text.len()).expect("standard output");
        out.write_all(&text).expect("standard output");
        match answer {
            Ok(_) => writeln!(out, "accepted"),
            Err(Refusal { number, place }) => writeln!(out, "(refused {number} {place})"),
        }
        .expect("standard output");
    }
    out.flush().expect("standard output");
}

// ---- texts

fn text(random: &mut Random) -> Vec<u8> {
    match random.below(100) {
        0..=49 => damage::damaged(random),
        50..=54 => bytes(random, &(0..=255).collect::<Vec<u8>>()),
        55..=62 => bytes(random, b"()\n\n 01239AZaz%$*modulelinestmtsgoto"),
        63..=77 => rows(random),
        78..=86 => spliced(random),
        87..=97 => flipped(random),
        98 => generate::small(random).text(),
        _ => long(random),
    }
}

fn bytes(random: &mut Random, of: &[u8]) -> Vec<u8> {
    let begun = if random.chance(50) { &b"(module 0\n(line 1\n"[..] } else { b"" };
    let count = *random.pick(&[0, 1, 2, 5, 20, 60, 300]);
    begun.iter().copied().chain((0..count).map(|_| *random.pick(of))).collect()
}

const OPENING: [&str; 28] = [
    "module", "line", "if", "ifelse", "rcomp", "to", "stmts", "goto", "gosub", "return", "run", "ongoto", "ongosub", "for",
    "next", "repeat", "loop", "until", "endloop", "exit", "exitif", "doif", "else", "done", "clr", "stop", "any", "plain",
];

const FURTHER: [&str; 22] = [
    "0", "1", "10", "65535", "65536", "007", "x", "I", "J%", "a", "ABCDEFGHI", "*", "plain", "orphan", "static", "framed",
    "dispatched", "", "-1", "A$", "99999999999999999999", "\u{e9}",
];

/// Rows of some opening words and some others; a `)` now and then, so that forms close.
fn rows(random: &mut Random) -> Vec<u8> {
    let mut text = String::from(if random.chance(90) { "(module 0\n" } else { "" });
    let bare = random.chance(60);
    for _ in 0..random.below(30) {
        let word = *random.pick(&OPENING);
        let held = ["module", "line", "if", "ifelse", "rcomp", "stmts"].contains(&word);
        let wants = match word {
            "module" | "line" | "to" | "goto" | "gosub" => 1,
            "ongoto" | "ongosub" => random.below(4),
            "run" => random.below(2),
            "for" => 2,
            "next" => 1 + random.below(3),
            _ => 0,
        };
        let wants = if bare || random.chance(80) { wants } else { random.below(4) };
        text += if random.chance(97) { "(" } else { "" };
        text += word;
        for _ in 0..wants {
            text += " ";
            text += *random.pick(&FURTHER);
        }
        text += if held == random.chance(3) { ")" } else { "" };
        text += if random.chance(98) { "\n" } else { " " };
        for _ in 0..random.below(3) {
            text += ")\n";
        }
    }
    text.into_bytes()
}

/// The front of one listing and the back of another.
fn spliced(random: &mut Random) -> Vec<u8> {
    let (one, other) = (generate::small(random).text(), generate::small(random).text());
    let ends = |text: &[u8]| text.iter().enumerate().filter(|(_, &b)| b == b'\n').map(|(i, _)| i + 1).collect::<Vec<_>>();
    let (front, back) = if random.chance(80) {
        (*random.pick(&ends(&one)), *random.pick(&ends(&other)))
    } else {
        (random.below(one.len()), random.below(other.len()))
    };
    [&one[..front], &other[back..]].concat()
}

fn flipped(random: &mut Random) -> Vec<u8> {
    let mut text = generate::small(random).text();
    for _ in 0..random.between(1, 10) {
        let at = random.below(text.len());
        if random.chance(50) {
            text[at] ^= 1 << random.below(8);
        } else {
            let other = random.below(text.len());
            text.swap(at, other);
        }
    }
    text
}

/// Around the greatest length, in form or not.
fn long(random: &mut Random) -> Vec<u8> {
    if random.chance(90) {
        return damage::damaged(random);
    }
    let row = *random.pick(&["(plain)\n", ")\n", "(if\n(stmts\n", "(line 1\n)\n", "(ongoto 1 1 1 1)\n", "\n", "((((", "          "]);
    let mut text = b"(module 0\n(line 0\n".to_vec();
    let len = *random.pick(&[65_535, 65_536, 65_537, 20_000, 40_000]);
    while text.len() < len {
        text.extend(row.bytes());
    }
    text.truncate(len);
    text
}

// ---- answers

fn fill(tables: &mut Tables) {
    tables.counts = [u32::MAX; 6];
    tables.args.fill(u64::MAX);
    each(tables, |table| table.fill(65535));
}

fn each(t: &mut Tables, mut what: impl FnMut(&mut [u16])) {
    let tables = [
        &mut t.lines, &mut t.stmts, &mut t.entries, &mut t.falls, &mut t.links, &mut t.lists,
        &mut t.returns, &mut t.succ, &mut t.pred,
    ];
    tables.into_iter().for_each(|table| what(table));
}

fn zero(part: &[u16]) -> bool {
    part.iter().all(|&e| e == 0)
}

fn all_zero(tables: &mut Tables) -> bool {
    let mut all = tables.counts == [0; 6] && tables.args.iter().all(|&e| e == 0);
    each(tables, |table| all &= zero(table));
    all
}

fn zero_past_the_used(t: &Tables) -> bool {
    let [lines, n, _, edges, returns, rows] = t.counts.map(|n| n as usize);
    let of_statements = [(&t.stmts, 12), (&t.falls, 3), (&t.links, 64), (&t.lists, 4)];
    of_statements.iter().all(|(table, each)| zero(&table[n * each..]))
        && t.args[n * 64..].iter().all(|&e| e == 0)
        && zero(&t.lines[lines..])
        && zero(&t.entries[rows * 2..])
        && [&t.succ, &t.pred].iter().all(|table| zero(&table[edges..]))
        && zero(&t.returns[returns..])
}

/// Into tables full of garbage.
fn build(mut tables: Tables, text: &[u8]) -> Result<Tables, Refusal> {
    fill(&mut tables);
    match tables.build(text) {
        Ok(()) => {
            assert!(zero_past_the_used(&tables), "an entry past the used parts");
            Ok(tables)
        }
        Err(refusal) => {
            assert!(all_zero(&mut tables), "a refused build left an entry");
            Err(refusal)
        }
    }
}

fn answer(text: &[u8], random: &mut Random) -> Result<Tables, Refusal> {
    let answer = build(Tables::for_listing(text).clone(), text);
    if random.chance(10) {
        shortened(text, &answer, random);
    }
    answer
}

/// Too short tables: 21, 22, 23, in this order, the count as place; but only for a text that is accepted.
fn shortened(text: &[u8], answer: &Result<Tables, Refusal>, random: &mut Random) {
    let need = match answer {
        Ok(tables) => tables.counts.map(|n| n as usize),
        Err(_) => [0; 6],
    };
    let [lines, statements, _, edges, _, _] = need;
    let room = [random.below(lines + 2), random.below(statements + 2), random.below(edges + 2)];
    let found = build(Tables::with_room(room[0], room[1], room[2]).clone(), text);
    let due = match answer {
        // With too many edges the need of the line tables and the node tables comes first.
        Err(refusal) if refusal.number == 23 => return,
        Err(refusal) => Some(*refusal),
        Ok(_) => [(21, lines), (22, statements), (23, edges)]
            .into_iter()
            .zip(room)
            .find(|((_, need), room)| need > room)
            .map(|((number, place), _)| Refusal { number, place }),
    };
    assert_eq!(found.err(), due, "room for {room:?}");
}

#[cfg(not(original))]
fn as_the_original(_: &[u8], _: &Result<Tables, Refusal>) {}

/// The graph, or the exact count of its edges.
#[cfg(original)]
fn as_the_original(text: &[u8], answer: &Result<Tables, Refusal>) {
    let Ok(listing) = oracle::listing::read(text) else {
        return;
    };
    let module = oracle::lower::module(&listing, 0);
    let original = oracle::cfg::Cfg::build_with(&module, &module.marks);
    let edges = original.nodes.iter().map(|n| n.successors.len()).sum();
    match answer {
        Err(refusal) => assert_eq!(*refusal, Refusal { number: 23, place: edges }),
        Ok(tables) => {
            assert_eq!(tables.counts[1] as usize, original.nodes.len());
            for (id, node) in original.nodes.iter().enumerate() {
                let same = |found: Result<&[u16], Refusal>, due: &[usize]| {
                    assert!(found.expect("a list").iter().map(|&n| usize::from(n)).eq(due.iter().copied()), "node {id}");
                };
                same(tables.successors(id), &node.successors);
                same(tables.predecessors(id), &node.predecessors);
            }
            for line in &listing.lines {
                let due = original.line_first.get(&line.number).copied();
                assert_eq!(tables.line_first(line.number), Ok(due));
            }
        }
    }
}
