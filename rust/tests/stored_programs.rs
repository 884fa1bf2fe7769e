//! Saved programs: the stored files, files at the limits, cut and random ones, short tables.

mod framed;

use flowgraph::{check, Cfg, Refusal, Tables, MAX_BYTES, MAX_EDGES, MAX_LINES, MAX_STATEMENTS};
use oracle::random::Random;

/// A file, what `prglist` prints for it and what `flowprg` prints.
fn stored() -> Vec<[&'static [u8]; 3]> {
    framed::groups(include_bytes!("../../tests/programs.framed"))
}

/// The refusal of a row `(refused NUMBER PLACE)`; none for a listing.
fn refusal_of(answer: &[u8]) -> Option<Refusal> {
    let row = std::str::from_utf8(answer).expect("ASCII").strip_prefix("(refused ")?;
    let (number, place) = row.strip_suffix(")\n").and_then(|row| row.split_once(' ')).expect("two numbers");
    Some(Refusal { number: number.parse().expect("a number"), place: place.parse().expect("a place") })
}

fn refused(number: u8, place: usize) -> Result<(), Refusal> {
    Err(Refusal { number, place })
}

/// Tables full of garbage.
fn filled(mut tables: Tables) -> Tables {
    tables.counts = [u32::MAX; 6];
    tables.args.fill(u64::MAX);
    for table in shorts(&mut tables) {
        table.fill(u16::MAX);
    }
    tables
}

fn shorts(tables: &mut Tables) -> [&mut Vec<u16>; 9] {
    let Tables { lines, stmts, entries, falls, links, lists, returns, succ, pred, .. } = tables;
    [lines, stmts, entries, falls, links, lists, returns, succ, pred]
}

/// Every entry zero, the lengths kept.
fn zeroed(mut tables: Tables) -> Tables {
    tables.counts = [0; 6];
    tables.args.fill(0);
    for table in shorts(&mut tables) {
        table.fill(0);
    }
    tables
}

/// A table's entries up to the last that is not zero.
fn used<T: PartialEq + Default>(table: &[T]) -> &[T] {
    &table[..table.iter().rposition(|entry| *entry != T::default()).map_or(0, |last| last + 1)]
}

/// The same graph, in tables that may be of other lengths.
fn assert_same(a: &Cfg, b: &Cfg) {
    let (mut a, mut b) = (a.tables().clone(), b.tables().clone());
    assert_eq!(a.counts, b.counts);
    assert_eq!(used(&a.args), used(&b.args));
    for (a, b) in shorts(&mut a).into_iter().zip(shorts(&mut b)) {
        assert_eq!(used(a), used(b));
    }
}

/// The answer, after the tables were found to be as long as they were and, of a refused file, zero.
fn built(tables: Tables, file: &[u8]) -> (Tables, Result<(), Refusal>) {
    let mut found = filled(tables.clone());
    let answer = found.build_program(file);
    if answer.is_err() {
        assert!(found == zeroed(tables), "a refused file leaves an entry");
    }
    assert_eq!(Cfg::build_program(file).err(), answer.err(), "the answer hangs on the tables");
    (found, answer)
}

/// A file and its listing are one: the same tables, whole, or the same refusal.
fn assert_means(file: &[u8], listing: &[u8]) {
    let (found, answer) = built(Tables::at_limits(), file);
    let mut due = filled(Tables::at_limits());
    assert_eq!(answer, due.build(listing), "{}", String::from_utf8_lossy(listing));
    assert!(found == due, "not the tables of\n{}", String::from_utf8_lossy(listing));
}

/// The file of lines, each with its bytes; links that are not followed.
fn saved<'a>(lines: impl IntoIterator<Item = (u16, &'a [u8])>) -> Vec<u8> {
    let mut file = vec![1, 8];
    for (number, bytes) in lines {
        file.extend([1, 8]);
        file.extend(number.to_le_bytes());
        file.extend(bytes);
        file.push(0);
    }
    file.extend([0, 0]);
    file
}

/// The bytes of line 10, alone.
fn line10(bytes: &[u8]) -> Vec<u8> {
    saved([(10, bytes)])
}

fn answer(file: &[u8]) -> Result<(), Refusal> {
    built(Tables::at_limits(), file).1
}

#[test]
fn stored_files() {
    for [file, listing, graph] in stored() {
        if let Some(refusal) = refusal_of(listing) {
            assert_eq!(answer(file), Err(refusal), "{file:02x?}");
            assert_eq!(Cfg::build_program(file).unwrap_err(), refusal);
            continue;
        }
        assert_means(file, listing);
        assert_same(&Cfg::build_program(file).expect("a graph"), &Cfg::build(listing).expect("a graph"));
        assert_eq!(check(listing, graph), Ok(()));
    }
}

/// Where the file's link of 0 ends.
fn end_of(file: &[u8]) -> usize {
    let mut link = 2;
    while file[link..link + 2] != [0, 0] {
        link += 5 + file[link + 4..].iter().position(|&b| b == 0).expect("a line's zero");
    }
    link + 2
}

/// What is read of an accepted file, cut anywhere, ends early.
#[test]
fn cut_files() {
    for [file, listing, _] in stored().into_iter().filter(|case| case[0].len() <= 100) {
        if refusal_of(listing).is_none() {
            for cut in 0..end_of(file) {
                assert_eq!(Cfg::build_program(&file[..cut]).err(), Some(Refusal { number: 33, place: cut }), "{file:02x?}");
            }
        }
    }
}

/// Load address, links and what follows the end say nothing.
#[test]
fn what_is_not_read() {
    for [file, listing, _] in stored().into_iter().filter(|case| case[0].len() > 4 && refusal_of(case[1]).is_none()) {
        let mut other = file[..end_of(file)].to_vec();
        other.extend(b"\x64\x00\x01");
        other[..2].copy_from_slice(&[0, 0]);
        if other[2..4] != [0, 0] {
            other[2..4].copy_from_slice(&[0xff, 0]);
        }
        assert_means(&other, listing);
    }
}

#[test]
fn limits() {
    let many = |count: usize, piece: &[u8]| piece.repeat(count);
    let lines = |count: u16| saved((0..count).map(|number| (number, &b""[..])));
    // A load address, link and number, the line's zero and the last link take nine bytes.
    assert_eq!(answer(&line10(&many(MAX_BYTES - 9, b":"))), Ok(()));
    assert_eq!(answer(&line10(&many(MAX_BYTES - 8, b":"))), refused(1, 0));
    assert_eq!(answer(&vec![0; MAX_BYTES]), Ok(()));
    assert_eq!(answer(&vec![0; MAX_BYTES + 1]), refused(1, 0));
    assert_eq!(answer(&vec![1; 1 << 20]), refused(1, 0));
    assert_eq!(answer(b""), refused(33, 0));
    assert_eq!(answer(&lines(MAX_LINES as u16)), Ok(()));
    assert_eq!(answer(&lines(MAX_LINES as u16 + 1)), refused(5, MAX_LINES));
    assert_eq!(answer(&line10(&many(MAX_STATEMENTS, b"A:"))), Ok(()));
    assert_eq!(answer(&line10(&many(MAX_STATEMENTS + 1, b"A:"))), refused(6, 0));
    assert_eq!(answer(&line10(&[many(16, b"\x8b\xa7"), many(1, b"A")].concat())), Ok(()));
    assert_eq!(answer(&line10(&[many(17, b"\x8b\xa7"), many(1, b"A")].concat())), refused(7, 0));
    assert_eq!(answer(&line10(&[b"\x91\x89", &many(63, b"1,")[..], b"1"].concat())), Ok(()));
    assert_eq!(answer(&line10(&[b"\x91\x89", &many(64, b"1,")[..], b"1"].concat())), refused(8, 0));
    assert_eq!(answer(&line10(&[b"\x82", &many(63, b"A,")[..], b"B$"].concat())), Ok(()));
    assert_eq!(answer(&line10(&[b"\x82", &many(64, b"A,")[..], b"B$"].concat())), refused(8, 0));
    assert_eq!(answer(&line10(b"\x8963999")), Ok(()));
    assert_eq!(answer(&line10(b"\x8964000")), refused(35, 7));
    assert_eq!(answer(&saved([(63999, &b"A"[..])])), Ok(()));
    assert_eq!(answer(&saved([(64000, &b"A"[..])])), refused(35, 4));
    assert_eq!(answer(&line10(b"A\x64")), refused(34, 7));
    assert_eq!(answer(&saved([(10, &b"A"[..]), (10, &b"A"[..])])), refused(4, 1));
}

/// Line 4 calls line 5 so many times; behind it so many RETURNs, each in an IF, and one line with further statements.
fn calls(calls: usize, returns: u16, further: usize) -> (Vec<u8>, String) {
    let (call, tail) = (b"\x8d5:".repeat(calls), b"A:".repeat(further));
    let held = (5..5 + returns).map(|number| (number, &b"\x8b\xa7\x8e"[..]));
    let file = saved([(4, &call[..])].into_iter().chain(held).chain([(5 + returns, &tail[..])]));
    let ifs: String = (5..5 + returns).map(|n| format!("(line {n}\n(if\n(stmts\n(return)\n)\n)\n)\n")).collect();
    let (call, tail) = ("(gosub 5)\n".repeat(calls), "(plain)\n".repeat(further));
    (file, format!("(module 0\n(line 4\n{call})\n{ifs}(line {}\n{tail})\n)\n", 5 + returns))
}

#[test]
fn edges() {
    for (further, due) in [(9, MAX_EDGES - 1), (10, MAX_EDGES), (11, MAX_EDGES + 1)] {
        let (file, listing) = calls(179, 180, further);
        assert_means(&file, listing.as_bytes());
        match Cfg::build_program(&file) {
            Ok(cfg) => assert!(cfg.tables().counts[3] as usize == due && due <= MAX_EDGES),
            Err(refusal) => assert!(refusal == Refusal { number: 23, place: due } && due > MAX_EDGES),
        }
    }
    let (file, listing) = calls(181, 181, 0);
    assert_means(&file, listing.as_bytes());
}

/// The meant listing's own text is not judged: this one has 73,654 bytes.
#[test]
fn a_listing_that_is_too_long_a_text() {
    let file = saved((0..1024).map(|number| (number, &b"\x8b\xa7\x8b\xa7\x8b\xa7\x82"[..])));
    let (ifs, ends) = ("(if\n(stmts\n".repeat(3), ")\n)\n".repeat(3));
    let lines: String = (0..1024).map(|n| format!("(line {n}\n{ifs}(next plain *)\n{ends})\n")).collect();
    let listing = format!("(module 0\n{lines})\n");
    assert!(listing.len() > MAX_BYTES);
    assert_eq!(Cfg::build(listing.as_bytes()).err(), Some(Refusal { number: 1, place: 0 }));
    let cfg = Cfg::build_program(&file).expect("a graph");
    assert_eq!((cfg.node_count(), cfg.line_numbers().len()), (MAX_STATEMENTS, MAX_LINES));
    // Half of the lines are a text that can be built.
    let half = saved((0..512).map(|number| (number, &b"\x8b\xa7\x8b\xa7\x8b\xa7\x82"[..])));
    let lines: String = (0..512).map(|n| format!("(line {n}\n{ifs}(next plain *)\n{ends})\n")).collect();
    assert_means(&half, format!("(module 0\n{lines})\n").as_bytes());
    // But for its last line, which falls nowhere, it is the first half of the graph.
    let first = Cfg::build_program(&half).expect("a graph");
    for node in 0..first.node_count() - 4 {
        assert_eq!(cfg.successors(node), first.successors(node));
        assert_eq!(cfg.predecessors(node), first.predecessors(node));
    }
    assert_eq!((cfg.successors(4091), cfg.successors(4095), cfg.line_first(1023)), (&[4092][..], &[][..], Some(4092)));
}

fn short<T>(table: &mut Vec<T>) {
    table.pop();
}

/// Each table by one entry, then all of them: the need as a build says it, and every entry zero.
#[test]
fn short_tables() {
    let file = saved([(10, &b"\x8d30:A"[..]), (20, b"\x80"), (30, b"\x8b\xa720:\x8e"), (40, b"\x8e")]);
    let cfg = Cfg::build_program(&file).expect("a graph");
    let (lines, statements, edges) = (4, 5, cfg.tables().counts[3] as usize);
    let cuts: [(fn(&mut Tables), u8, usize); 11] = [
        (|t| short(&mut t.lines), 21, lines),
        (|t| short(&mut t.entries), 21, lines),
        (|t| short(&mut t.stmts), 22, statements),
        (|t| short(&mut t.args), 22, statements),
        (|t| short(&mut t.falls), 22, statements),
        (|t| short(&mut t.links), 22, statements),
        (|t| short(&mut t.lists), 22, statements),
        (|t| short(&mut t.returns), 22, statements),
        (|t| short(&mut t.succ), 23, edges),
        (|t| short(&mut t.pred), 23, edges),
        (|t| *t = Tables::default(), 21, lines),
    ];
    assert_eq!((cfg.node_count(), cfg.line_numbers().len()), (statements, lines));
    for (cut, number, place) in cuts {
        let mut tables = Tables::with_room(lines, statements, edges);
        assert_eq!(tables.build_program(&file), Ok(()));
        cut(&mut tables);
        let mut found = filled(tables.clone());
        assert_eq!(found.build_program(&file), refused(number, place));
        assert!(found == zeroed(tables.clone()), "an entry is left");
        // A refused file comes before short tables.
        found = filled(found);
        assert_eq!(found.build_program(&file[..file.len() - 1]), refused(33, file.len() - 1));
        assert!(found == zeroed(tables), "an entry is left");
    }
}

/// Whatever the bytes, there is an answer; a graph or one of the numbers due.
#[test]
fn random_bytes() {
    let telling = b"\x00\x00\x00\x01\x08\x80\x81\x82\x83\x89\x8a\x8b\x8d\x8e\x8f\x90\x91\x9c\xa4\xa7\xcb\x64\x22\x3a\x2c\x20AB%$0196";
    let (mut random, mut accepted) = (Random::new(64), 0);
    let mut tables = filled(Tables::at_limits());
    let zero = Tables::at_limits();
    for _ in 0..3_000 {
        let mut file = vec![1, 8, 1, 8, 10, 0];
        for _ in 0..random.below(40) {
            file.push(telling[random.below(telling.len())]);
        }
        file.extend([0, 0, 0]);
        let most = file.len() - random.below(3);
        match tables.build_program(&file[..most]) {
            Ok(()) => accepted += 1,
            Err(Refusal { number, place }) => {
                assert!([4, 33, 34, 35].contains(&number) && place <= most, "{number} {place}");
                assert!(tables == zero, "an entry is left");
            }
        }
    }
    assert!(accepted > 100, "{accepted}");
}
