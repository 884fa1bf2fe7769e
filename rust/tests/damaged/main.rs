//! Questions on tables that no build wrote: each count and each entry pushed out of range, one at a time and several at once,
//! tables cut short. The answers are the model's, and no call faults.

mod model;

use flowgraph::{Refusal, Tables};
use model::Refused;
use oracle::random::Random;
use std::collections::BTreeMap;

const LISTINGS: [&str; 5] = [
    include_str!("../../../tests/c12.listing"),
    // Branches in branches, each kind of holder, a second branch whose numbers go on.
    "(module 0\n(line 1\n(ifelse\n(stmts\n(plain)\n(rcomp\n(to 9)\n(stmts\n(clr)\n)\n)\n)\n(stmts\n(if\n(stmts\n(stop)\n)\n)\n)\n)\n)\n(line 9\n(run)\n)\n)\n",
    // A loop with its frame, a call in it, an ON GOSUB; a name that is asked for otherwise than it is written.
    "(module 1\n(line 5\n(for I dispatched)\n(gosub 7)\n(next orphan I *)\n(for COUNT% static)\n(ongosub 5 7)\n)\n(line 6\n)\n(line 7\n(return)\n(next plain)\n)\n)\n",
    // The other frames, a computed jump, an empty line at the end.
    "(module 0\n(line 0\n(doif)\n(else)\n(done)\n(repeat)\n(exitif)\n(until)\n(any)\n)\n(line 65535\n)\n)\n",
    "(module 0\n)\n",
];

const NAMES: [&[u8]; 4] = [b"I", b"COUNTER%", b"ABCDEFGH$", b"COUNTERSX%"];

/// What was asked and how often each refusal was given.
#[derive(Default)]
struct Tally {
    asked: usize,
    refused: BTreeMap<u8, usize>,
}

impl Tally {
    fn same<T: PartialEq + std::fmt::Debug>(&mut self, found: Result<T, Refusal>, due: Result<T, Refused>, what: &str) {
        self.asked += 1;
        if let Err((number, _)) = due {
            *self.refused.entry(number).or_default() += 1;
        }
        let found = found.map_err(|r| (r.number, r.place));
        assert_eq!(found, due, "{what}");
    }
}

/// The paths of the listing's nodes, and some at which nothing stands.
fn paths(t: &Tables) -> Vec<(usize, Vec<u16>)> {
    let mut paths = vec![(0, vec![]), (0, vec![65535]), (0, vec![0, 0, 0, 0]), (usize::MAX, vec![0]), (1, vec![0]), (65536, vec![0])];
    paths.push((0, vec![0; 40]));
    for node in 0..t.stmts.len() / 12 {
        let mut path = Vec::new();
        let mut at = node;
        loop {
            path.insert(0, t.stmts[12 * at + 3]);
            match t.stmts[12 * at + 2] {
                0 => break,
                holder => at = usize::from(holder) - 1,
            }
        }
        paths.push((t.stmts[12 * node + 1].into(), path));
    }
    paths
}

/// The questions asked of one listing's tables, however damaged.
struct Questions {
    nodes: Vec<usize>,
    numbers: Vec<u16>,
    paths: Vec<(usize, Vec<u16>)>,
    rooms: Vec<usize>,
}

impl Questions {
    fn new(t: &Tables) -> Questions {
        let count = t.counts[1] as usize;
        let nodes = (0..count + 2).chain([65535, usize::MAX]).collect();
        let mut numbers = t.lines.clone();
        numbers.extend([0, 3, 65535]);
        Questions { nodes, numbers, paths: paths(t), rooms: vec![0, 1, count] }
    }

    fn ask(&self, t: &Tables, tally: &mut Tally) {
        let stmt = |s: flowgraph::Stmt| (s.node, s.word as u16);
        for &node in &self.nodes {
            tally.same(t.successors(node).map(<[u16]>::to_vec), model::successors(t, node), "successors");
            tally.same(t.predecessors(node).map(<[u16]>::to_vec), model::predecessors(t, node), "predecessors");
            tally.same(t.stmt_at(node).map(stmt), model::statement(t, node), "statement");
        }
        for &number in &self.numbers {
            tally.same(t.line_first(number), model::entry(t, number), "entry");
        }
        for (line, path) in &self.paths {
            tally.same(t.stmt_at_path(*line, path).map(stmt), model::path(t, *line, path), "path");
        }
        for &header in &self.nodes {
            for &node in &self.nodes {
                for (i, name) in NAMES.iter().enumerate() {
                    let room = self.rooms[(header ^ node ^ i) % self.rooms.len()];
                    self.ask_frame(t, header, node, name, i % 2 == 0, room, tally);
                    self.ask_frame(t, header, node, name, i % 2 == 1, room, tally);
                }
            }
        }
    }

    /// The slice too: list and zeros, or as it was.
    fn ask_frame(&self, t: &Tables, header: usize, node: usize, name: &[u8], flag: bool, room: usize, tally: &mut Tally) {
        let mut out = vec![0xabcd; room];
        let due = model::frame(t, header, node, name, flag, room);
        let found = t.frame_successors(header, node, name, flag, &mut out);
        tally.same(found, due.as_ref().map(Vec::len).map_err(|&r| r), "frame");
        let slice = match due {
            Ok(mut list) => {
                list.resize(room, 0);
                list
            }
            Err(_) => vec![0xabcd; room],
        };
        assert_eq!(out, slice, "slice of frame {header} {node}");
    }
}

/// Zero-sized, one short, exact, with spare room.
fn built(text: &str, spare: usize) -> Tables {
    let text = text.as_bytes();
    let mut tables = Tables::at_limits();
    tables.build(text).expect("a graph");
    let [lines, statements, _, edges, _, _] = tables.counts.map(|n| n as usize);
    let mut tables = Tables::with_room(lines + spare, statements + spare, edges + spare);
    tables.build(text).expect("a graph");
    // The memory ends where the table does.
    tables.clone()
}

/// The tables of 16-bit entries, by number.
fn table(t: &mut Tables, i: usize) -> &mut Vec<u16> {
    match i {
        0 => &mut t.lines,
        1 => &mut t.stmts,
        2 => &mut t.entries,
        3 => &mut t.falls,
        4 => &mut t.links,
        5 => &mut t.lists,
        6 => &mut t.returns,
        7 => &mut t.succ,
        _ => &mut t.pred,
    }
}

const TABLES: usize = 9;

/// Values at which an entry may begin to point outside.
fn values(t: &Tables, old: u16) -> Vec<u16> {
    let counted = t.counts.map(|n| n as u16);
    let mut values = vec![65535, 32768, 0, 1, 4, 5, 6, 7, 27, 28, old.wrapping_add(1), old.wrapping_sub(1)];
    values.extend(counted.iter().flat_map(|&n| [n.wrapping_sub(1), n, n.wrapping_add(1)]));
    values.sort_unstable();
    values.dedup();
    values.retain(|&v| v != old);
    values
}

fn report(what: &str, tally: &Tally) {
    println!("{what}: {} questions, refused {:?}", tally.asked, tally.refused);
}

#[test]
fn built_tables_answer() {
    let mut tally = Tally::default();
    for text in LISTINGS {
        for spare in [0, 3] {
            let t = built(text, spare);
            Questions::new(&t).ask(&t, &mut tally);
        }
    }
    report("as built", &tally);
    assert_eq!(tally.refused.keys().copied().collect::<Vec<_>>(), [3, 24, 26, 28]);
}

#[test]
fn each_count() {
    let mut tally = Tally::default();
    for text in LISTINGS {
        for spare in [0, 3] {
            let mut t = built(text, spare);
            let questions = Questions::new(&t);
            for i in 0..6 {
                let old = t.counts[i];
                let near = [old.wrapping_sub(1), old + 1, old + 2, old + 3, old + 4, 0, 1];
                let far = [4096, 4097, 65535, 65536, 1 << 26, 0x1555_5555, 0x1555_5556, 0x4000_0000, u32::MAX - 1, u32::MAX];
                for value in near.into_iter().chain(far) {
                    t.counts[i] = value;
                    questions.ask(&t, &mut tally);
                }
                t.counts[i] = old;
            }
        }
    }
    report("counts", &tally);
    assert!([3, 24, 25, 26, 28].iter().all(|n| tally.refused.contains_key(n)));
}

#[test]
fn each_entry() {
    let mut tally = Tally::default();
    for text in LISTINGS {
        let mut t = built(text, 0);
        let questions = Questions::new(&t);
        for i in 0..TABLES {
            for at in 0..table(&mut t, i).len() {
                let old = table(&mut t, i)[at];
                for value in values(&t, old) {
                    table(&mut t, i)[at] = value;
                    questions.ask(&t, &mut tally);
                }
                table(&mut t, i)[at] = old;
            }
        }
        for at in 0..t.args.len() {
            let old = t.args[at];
            // The key of a name that was not cut is none that is asked for.
            for value in [0, u64::MAX, model::key(b"I"), model::key(b"CO%"), model::key(b"COUNTER%"), old ^ 1 << 63] {
                t.args[at] = value;
                questions.ask(&t, &mut tally);
            }
            t.args[at] = old;
        }
    }
    report("entries", &tally);
    assert!([3, 24, 25, 26, 28].iter().all(|n| tally.refused.contains_key(n)));
}

/// A build writes the keys of cut names, and the frame question cuts its own: without the model.
#[test]
fn long_names() {
    let t = built(LISTINGS[2], 0);
    assert_eq!((t.args[0], t.args[64 * 3]), (model::key(b"I"), model::key(b"CO%")));
    let frame = |name: &str| t.frame_successors(3, 3, name.as_bytes(), false, &mut [0; 64]);
    for name in ["CO%", "COUNT%", "COUNTER%", "CO123456%"] {
        assert_eq!(frame(name), Ok(0), "{name}");
    }
    for name in ["CO", "COUNT", "COUNTER$", "C%", "CP%", "I"] {
        assert_eq!(frame(name), Ok(1), "{name}");
    }
    assert_eq!(frame("COUNTERSX%"), Err(Refusal { number: 3, place: 0 }));
}

/// An entry that a question reads and that points outside its table: 25, without the model.
#[test]
fn entries_that_point_outside() {
    let outside = |t: &Tables, ask: &dyn Fn(&Tables) -> Option<Refusal>, what: &str| {
        assert_eq!(ask(t), Some(Refusal { number: 25, place: 0 }), "{what}");
    };
    for text in LISTINGS {
        let t = built(text, 0);
        let n = t.counts[1] as usize;
        let edges = t.counts[3] as u16;
        let frame = |t: &Tables, h, i| t.frame_successors(h, i, b"I", true, &mut [0; 64]).err();
        for value in [65535, edges + 1] {
            for node in 0..n {
                for column in 0..4 {
                    let mut t = t.clone();
                    t.lists[4 * node + column] = value;
                    // Even an empty list points outside if it starts past the end.
                    if column % 2 == 0 && value == edges + 1 {
                        t.lists[4 * node + column + 1] = 0;
                    }
                    if column < 2 {
                        outside(&t, &|t| t.successors(node).err(), "successors");
                        outside(&t, &|t| frame(t, node, (node + 1) % n), "header of a frame");
                        outside(&t, &|t| frame(t, (node + 1) % n, node), "node of a frame");
                    } else {
                        outside(&t, &|t| t.predecessors(node).err(), "predecessors");
                    }
                }
            }
        }
        for value in [65535, n as u16 + 1] {
            for line in 0..t.lines.len() {
                let mut t = t.clone();
                t.entries[2 * line + 1] = value;
                outside(&t, &|t| t.line_first(t.lines[line]).err(), "entry");
            }
            for node in 0..n {
                let mut t = t.clone();
                t.stmts[12 * node + 2] = value;
                outside(&t, &|t| t.stmt_at(node).err(), "holder");
                outside(&t, &|t| frame(t, node, node), "holder of a frame's node");
                t.stmts[12 * node] = 8;
                t.falls[3 * node] = value;
                outside(&t, &|t| frame(t, node, node), "fall of a call");
            }
        }
        let paths = paths(&t);
        for node in 0..n {
            let (line, path) = &paths[paths.len() - n + node];
            // `module`, `line`, `to`, `stmts`, and one past the last word.
            for word in [0, 1, 5, 6, 28] {
                let mut t = t.clone();
                t.stmts[12 * node] = word;
                outside(&t, &|t| t.stmt_at(node).err(), "word");
                outside(&t, &|t| t.stmt_at_path(*line, path).err(), "word of the statement at a path");
                outside(&t, &|t| frame(t, node, node), "word of a frame's node");
                for held in (0..n).filter(|&i| usize::from(t.stmts[12 * i + 2]) == node + 1) {
                    outside(&t, &|t| t.stmt_at(held).err(), "word of a holder");
                }
            }
            let mut t = t.clone();
            let lines = t.counts[0] as u16;
            t.stmts[12 * node + 1] = lines;
            outside(&t, &|t| t.stmt_at(node).err(), "line");
            outside(&t, &|t| frame(t, node, node), "line of a frame's node");
            // Asked by its own line it is not found, or in an IF by the IF's line; no path begins with a line that is none.
            let due = if path.len() == 1 { 26 } else { 25 };
            assert_eq!(t.stmt_at_path(*line, path).map_err(|r| r.number), Err(due), "line of the statement at a path");
            assert_eq!(t.stmt_at_path(lines.into(), path).map_err(|r| r.number), Err(26), "a path without a line");
        }
    }
}

/// Records without a path: 26, without the model.
#[test]
fn no_path() {
    let nowhere = Some(Refusal { number: 26, place: 0 });
    let frame = |t: &Tables, i| t.frame_successors(0, i, b"I", true, &mut [0; 64]).err();
    // IF 0 and the statement 1 stand on line 1; on line 2 the IFs 2 to 17, each in the one before, and in the last the statement 18.
    let deep = format!("(module 0\n(line 1\n(if\n(stmts\n)\n)\n(plain)\n)\n(line 2\n{}(plain)\n{})\n)\n", "(if\n(stmts\n".repeat(16), ")\n)\n".repeat(16));
    let mut t = built(&deep, 0);
    assert_eq!((t.stmt_at(18).map(|s| s.node), frame(&t, 18)), (Ok(18), None));
    assert_eq!(t.stmt_at_path(1, &[0; 17]).map(|s| s.node), Ok(18));
    // The outermost IF of line 2, put into the one of line 1.
    t.stmts[12 * 2 + 2] = 1;
    assert_eq!((t.stmt_at(17).map(|s| s.node), frame(&t, 17)), (Ok(17), None));
    assert_eq!((t.stmt_at(18).err(), frame(&t, 18)), (nowhere, nowhere));
    // Into the statement after it, which holds nothing.
    t.stmts[12 * 2 + 2] = 2;
    assert_eq!((t.stmt_at(2).err(), frame(&t, 2)), (nowhere, nowhere));
    assert_eq!(t.stmt_at_path(0, &[1, 0]).err(), nowhere);
    // An IF in itself.
    t.stmts[2] = 1;
    assert_eq!((t.stmt_at(0).err(), frame(&t, 0)), (nowhere, nowhere));
}

#[test]
fn each_length() {
    let mut tally = Tally::default();
    for text in LISTINGS {
        let t = built(text, 0);
        let questions = Questions::new(&t);
        for i in 0..=TABLES {
            let len = if i == TABLES { t.args.len() } else { table(&mut t.clone(), i).len() };
            for cut in [0, 1, len / 2, len.saturating_sub(13), len.saturating_sub(2), len.saturating_sub(1)] {
                let mut short = t.clone();
                if i == TABLES {
                    short.args.truncate(cut);
                } else {
                    table(&mut short, i).truncate(cut);
                }
                questions.ask(&short.clone(), &mut tally);
            }
        }
    }
    report("lengths", &tally);
    assert!(tally.refused.contains_key(&25));
}

/// Several entries at once, also whole tables of random entries.
#[test]
fn many_entries() {
    let mut tally = Tally::default();
    let mut random = Random::new(1983);
    for round in 0..1500 {
        let t = built(LISTINGS[round % LISTINGS.len()], random.below(2));
        let questions = Questions::new(&t);
        let mut t = t;
        let small = t.counts.iter().map(|&n| n as usize).max().unwrap_or(0) + 3;
        for _ in 0..*random.pick(&[2, 5, 20, 200]) {
            let i = random.below(TABLES);
            let len = table(&mut t, i).len();
            if len > 0 {
                let at = random.below(len);
                let value = if random.chance(10) { random.next() as u16 } else { random.below(small) as u16 };
                table(&mut t, i)[at] = value;
            }
        }
        if random.chance(20) {
            t.counts[*random.pick(&[0, 1, 5])] = random.below(small) as u32;
        }
        questions.ask(&t, &mut tally);
    }
    report("many at once", &tally);
    assert!([24, 25, 26, 28].iter().all(|n| tally.refused.contains_key(n)));
}

/// Whatever the tables held, a build writes the same; each table one entry short is refused with the need, and all is zero.
#[test]
fn builds_into_any_tables() {
    let texts = LISTINGS.iter().chain(&["(module 0\n(line 2\n)\n(line 1\n)\n)\n", ""]);
    for text in texts.map(|t| t.as_bytes()) {
        let mut due = Tables::for_listing(text);
        let answer = due.build(text);
        let mut full = Tables::for_listing(text);
        full.counts = [u32::MAX; 6];
        (0..TABLES).for_each(|i| table(&mut full, i).fill(65535));
        full.args.fill(u64::MAX);
        assert_eq!(full.build(text), answer);
        assert_eq!(full, due);
    }
    for text in LISTINGS {
        let exact = built(text, 0);
        let [lines, statements, _, edges, _, _] = exact.counts.map(|n| n as usize);
        for i in 0..=TABLES {
            let mut short = exact.clone();
            let popped = if i == TABLES { short.args.pop().is_some() } else { table(&mut short, i).pop().is_some() };
            if !popped {
                continue;
            }
            let (number, place) = match i {
                0 | 2 => (21, lines),
                7 | 8 => (23, edges),
                _ => (22, statements),
            };
            assert_eq!(short.build(text.as_bytes()), Err(Refusal { number, place }), "table {i}");
            let zero = short.args.iter().all(|&e| e == 0) && (0..TABLES).all(|i| table(&mut short, i).iter().all(|&e| e == 0));
            assert!(zero && short.counts == [0; 6], "table {i}: a refused build leaves an entry");
        }
    }
}
