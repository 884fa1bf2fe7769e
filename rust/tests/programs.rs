//! Saved programs: the graph of the listing that they mean, refusals with their places, tables sized to a file.

use flowgraph::{Builder, Cfg, Refusal, Tables};
use oracle::random::Random;

const STOCK: [&[u8]; 2] = [include_bytes!("../../crates/flowprg/stdin"), include_bytes!("../../crates/flowprg/stdout")];

const LISTING: &[u8] = b"\
(module 0
(line 10
(for CO static)
(gosub 100)
(next plain *)
)
(line 20
(if
(to 10)
)
)
(line 30
(ongoto 10 100)
(stop)
)
(line 100
(plain)
(return)
(plain)
)
)
";

/// The program that means it.
fn saved() -> Vec<u8> {
    file(&[
        line(10, b"\x81 COUNT\xb21 \xa4 9:\x8d 100:\x82"),
        line(20, b"\x8b A \xa7 10:\x80"),
        line(30, b"\x91 A \x89 10,100:\x80"),
        line(100, b"\x99 \"X:Y\":\x8e:\x8f :\x64"),
    ])
}

fn line(number: u16, bytes: &[u8]) -> Vec<u8> {
    [&[1, 8], &number.to_le_bytes()[..], bytes, &[0]].concat()
}

fn file(lines: &[Vec<u8>]) -> Vec<u8> {
    [&[1, 8], &lines.concat()[..], &[0, 0]].concat()
}

fn refused(number: u8, place: usize) -> Option<Refusal> {
    Some(Refusal { number, place })
}

#[test]
fn a_saved_program_is_its_listing() {
    let (mut by_file, mut by_text) = (Tables::at_limits(), Tables::at_limits());
    assert_eq!(by_file.build_program(&saved()), Ok(()));
    assert_eq!(by_text.build(LISTING), Ok(()));
    assert!(by_file == by_text, "the tables differ");
    // Neither is taken for the other.
    assert_eq!(Cfg::build(&saved()).err(), refused(2, 0));
    assert!(Cfg::build_program(LISTING).is_err());
}

#[test]
fn the_graph_that_flowprg_prints() {
    let [saved, graph] = STOCK;
    let cfg = Cfg::build_program(saved).expect("a graph");
    assert!(!cfg.has_handlers());
    let graph = std::str::from_utf8(graph).expect("rows");
    let rows: Vec<_> = graph.lines().filter(|row| row.starts_with("(node ")).collect();
    assert_eq!(cfg.node_count(), rows.len());
    for (node, row) in rows.into_iter().enumerate() {
        let list = |word: &str, nodes: &[u16]| {
            let nodes: String = nodes.iter().map(|n| format!(" {n}")).collect();
            format!(" ({word}{nodes})")
        };
        let lists = list("succ", cfg.successors(node)) + &list("pred", cfg.predecessors(node)) + ")";
        assert!(row.ends_with(&lists), "{row}");
    }
}

#[test]
fn refusals() {
    let of = |file: &[u8]| Cfg::build_program(file).err();
    assert_eq!(of(b""), refused(33, 0));
    assert_eq!(of(b"\x01\x08\x00"), refused(33, 3));
    assert_eq!(of(b"\x01\x08\x00\x00"), None);
    assert_eq!(of(&vec![0; 65_537]), refused(1, 0));
    assert_eq!(of(&vec![0; 65_536]), None);
    assert_eq!(of(&vec![1; 65_536]), refused(33, 65_536));
    assert_eq!(of(&file(&[line(10, b"A\x64")])), refused(34, 7));
    assert_eq!(of(&file(&[line(10, b"\"\x64\":\x8f\x64")])), None);
    assert_eq!(of(&file(&[line(10, b"\x89X")])), refused(35, 7));
    assert_eq!(of(&file(&[line(64_000, b"\x80")])), refused(35, 4));
    assert_eq!(of(&file(&[line(20, b"\x80"), line(10, b"\x80")])), refused(4, 1));
    let lines = |count: u16| (0..count).map(|n| line(n, b"\x80")).collect::<Vec<_>>();
    assert_eq!(of(&file(&lines(1_024))), None);
    assert_eq!(of(&file(&lines(1_025))), refused(5, 1_024));
    let shown = refused(33, 3).expect("a refusal").to_string();
    assert_eq!(shown, "refused 33 at 3: program file ends early");
}

/// Each table by one entry, then all of them: the need as a listing's build says it, and every entry zero.
#[test]
fn short_tables() {
    let need = Cfg::build_program(&saved()).expect("a graph").into_tables().counts.map(|n| n as usize);
    let [lines, statements, _, edges, ..] = need;
    let rooms = [(lines - 1, statements, edges), (lines, statements - 1, edges), (lines, statements, edges - 1), (0, 0, 0)];
    for (lines, statements, edges) in rooms {
        let mut tables = Tables::with_room(lines, statements, edges);
        let mut text = tables.clone();
        assert_eq!(tables.build_program(&saved()), text.build(LISTING));
        assert!(tables == Tables::with_room(lines, statements, edges), "an entry is left");
    }
    assert_eq!(Tables::with_room(lines, statements, edges).build_program(&saved()), Ok(()));
}

/// Pieces of lines, some of them in no right order.
fn soup(random: &mut Random) -> Vec<u8> {
    const PIECES: [&[u8]; 22] = [
        b"\x80", b"\x81I\xb20\xa49", b"\x82", b"\x82I", b"\x82I,J", b"\x89 10", b"\xcb\xa4 20", b"\x8d30", b"\x8e", b"\x8bA\xa7",
        b"\x8bA\xa710", b"\x8bA\x8920", b"\x91A\x8910,20,30", b"\x91A\x8d30,20", b"\x8a", b"\x8a10", b"\x9c", b"\x8f:\x64", b"\x83 1,2:",
        b"\x99\"A:B\"", b"A", b"",
    ];
    let lines = random.between(0, 6);
    let mut lines: Vec<_> = (1..=lines)
        .map(|i| {
            let pieces: Vec<&[u8]> = (0..random.between(1, 6)).map(|_| *random.pick(&PIECES)).collect();
            line(10 * i as u16, &pieces.join(&b':'))
        })
        .collect();
    if random.chance(5) {
        lines.pop();
        let mut cut = file(&lines);
        cut.truncate(random.below(cut.len()));
        return cut;
    }
    file(&lines)
}

/// The answer does not hang on the tables that are sized to a file.
#[test]
fn sizes_suffice() {
    let mut random = Random::new(3);
    let (mut at_limits, mut builder) = (Tables::at_limits(), Builder::new());
    let mut accepted = 0;
    for _ in 0..1_000 {
        let file = soup(&mut random);
        let answer = at_limits.build_program(&file);
        assert_eq!(Tables::for_program(&file).build_program(&file), answer, "{file:02x?}");
        match builder.build_program(&file) {
            Ok(cfg) => assert_eq!(cfg.tables().counts, at_limits.counts),
            Err(refusal) => assert_eq!(Err(refusal), answer),
        }
        accepted += usize::from(answer.is_ok());
    }
    assert!(accepted > 500, "{accepted} accepted");
}

/// Every RETURN leads to every call's continuation.
#[test]
fn the_most_edges() {
    let lines: Vec<_> = (1..=120).map(|i| line(i, b"\x8d1:\x8bA\xa7\x8e")).collect();
    let file = file(&lines);
    let mut at_limits = Tables::at_limits();
    assert_eq!(at_limits.build_program(&file), Ok(()));
    assert!(at_limits.counts[3] > 14_000);
    assert_eq!(Tables::for_program(&file).build_program(&file), Ok(()));
}
