//! Graphs that came from elsewhere, beside their listings: the stored pairs, long rows, short tables, the original's graphs.

mod framed;

use flowgraph::{check, Refusal, Tables, PAGE_SIZE};

const EMPTY: &[u8] = b"(module 0\n)\n";
const C12: [&[u8]; 2] = [include_bytes!("../../tests/c12.listing"), include_bytes!("../../tests/c12.graph")];

/// A listing, what `flowlist` prints for it, a graph and the answer.
fn stored() -> Vec<[&'static [u8]; 4]> {
    framed::groups(include_bytes!("../../tests/checks.framed"))
}

fn shown(answer: Result<(), Refusal>) -> String {
    match answer {
        Ok(()) => "(right)\n".to_string(),
        Err(Refusal { number, place }) => format!("(refused {number} {place})\n"),
    }
}

fn refused(number: u8, place: usize) -> Result<(), Refusal> {
    Err(Refusal { number, place })
}

/// Tables full of garbage, as long as the listing needs.
fn filled(listing: &[u8]) -> Tables {
    let mut tables = Tables::for_listing(listing);
    tables.counts = [u32::MAX; 6];
    tables.args.fill(u64::MAX);
    for table in [&mut tables.lines, &mut tables.stmts, &mut tables.entries, &mut tables.falls, &mut tables.links] {
        table.fill(u16::MAX);
    }
    tables
}

/// A page full of garbage.
fn page() -> Box<[u8; PAGE_SIZE]> {
    vec![0xa5; PAGE_SIZE].try_into().expect("so many bytes")
}

/// The answer, after tables and page were found to be those of a build and of `flowlist`.
fn checked(listing: &[u8], printed: &[u8], graph: &[u8]) -> Result<(), Refusal> {
    let (mut built, mut tables, mut page) = (filled(listing), filled(listing), page());
    let listed = built.build(listing);
    let answer = tables.check(listing, graph, &mut page);
    assert!(tables == built, "the tables are not a build's");
    assert!(page.starts_with(printed), "the page is not the printed graph");
    assert!(page[printed.len()..].iter().all(|&b| b == 0xa5), "the page past the printed graph");
    assert!(listed.is_ok() || answer == listed, "the listing's refusal comes first");
    answer
}

#[test]
fn stored_pairs() {
    for [listing, printed, graph, answer] in stored() {
        let answer = String::from_utf8_lossy(answer);
        assert_eq!(shown(check(listing, graph)), answer, "{}", String::from_utf8_lossy(graph));
        assert_eq!(shown(checked(listing, printed, graph)), answer);
    }
}

#[test]
fn c12() {
    let [listing, graph] = C12;
    assert_eq!(check(listing, graph), Ok(()));
    assert_eq!(check(listing, &graph[..graph.len() - 1]), refused(31, 11));
    assert_eq!(check(listing, b""), refused(32, 0));
    assert_eq!(check(b"", graph), refused(2, 0));
    assert_eq!(check(graph, listing), refused(2, 0));
    assert_eq!(check(&[listing, &vec![b' '; 1 << 20]].concat(), graph), refused(1, 0));
    assert_eq!(check(listing, graph.repeat(10_000).as_slice()), refused(32, 12));
}

/// Only the end of a row tells whether it is in form, however long it is.
#[test]
fn a_row_of_megabytes() {
    let with = |last: &str| format!("(graph 0 0\n(returns{} {last})\n)\n", " 0".repeat(2_000_000));
    assert_eq!(check(EMPTY, with("0").as_bytes()), refused(32, 1));
    assert_eq!(check(EMPTY, with("65536").as_bytes()), refused(31, 1));
    assert_eq!(check(EMPTY, with("00").as_bytes()), refused(31, 1));
    assert_eq!(check(EMPTY, with("").as_bytes()), refused(31, 1));
}

fn short<T>(table: &mut Vec<T>) {
    table.pop();
}

/// Each table by one entry, then all of them: the need as a build says it, and every entry zero.
#[test]
fn short_tables() {
    let [listing, graph] = C12;
    let cuts: [(fn(&mut Tables), u8, usize); 11] = [
        (|t| short(&mut t.lines), 21, 3),
        (|t| short(&mut t.entries), 21, 3),
        (|t| short(&mut t.stmts), 22, 5),
        (|t| short(&mut t.args), 22, 5),
        (|t| short(&mut t.falls), 22, 5),
        (|t| short(&mut t.links), 22, 5),
        (|t| short(&mut t.lists), 22, 5),
        (|t| short(&mut t.returns), 22, 5),
        (|t| short(&mut t.succ), 23, 5),
        (|t| short(&mut t.pred), 23, 5),
        (|t| *t = Tables::default(), 21, 3),
    ];
    for (cut, number, place) in cuts {
        let mut tables = Tables::with_room(3, 5, 5);
        let mut page = page();
        assert_eq!(tables.check(listing, graph, &mut page), Ok(()));
        cut(&mut tables);
        let mut built = tables.clone();
        for graph in [graph, b"", b"x"] {
            assert_eq!(tables.check(listing, graph, &mut page), refused(number, place));
        }
        assert_eq!(built.build(listing), refused(number, place));
        assert_eq!(tables, built);
        // A refused text comes before short tables.
        assert_eq!(tables.check(b"(module 2\n)\n", graph, &mut page), refused(2, 0));
    }
}

#[cfg(not(original))]
#[test]
fn the_original_is_not_at_hand() {
    eprintln!("graphs of the original are not checked: no ../shared/docs/src here");
}

/// The original's graphs are right; with one byte changed the row in which it stands is refused.
#[cfg(original)]
#[test]
fn graphs_of_the_original() {
    use oracle::random::Random;
    use oracle::{directed, generate, limits, listing, print};
    let mut random = Random::new(31);
    let mut texts = directed::texts();
    texts.extend((0..500).map(|_| generate::small(&mut random).text()));
    texts.extend((0..10).map(|_| generate::medium(&mut random).text()));
    texts.extend((0..limits::SHAPES.len() as u64).map(|i| limits::listing_text(i, &mut random)));
    for text in texts {
        // More than 32,768 edges take the original its time, and have no graph.
        if Tables::at_limits().build(&text).is_err() {
            continue;
        }
        let mut graph = print::graph(&listing::read(&text).expect("a listing"), 0).into_bytes();
        assert_eq!(checked(&text, &graph.clone(), &graph), Ok(()));
        for _ in 0..5 {
            let at = random.below(graph.len());
            let (was, row) = (graph[at], graph[..at].iter().filter(|&&b| b == b'\n').count());
            graph[at] ^= 1 << random.below(8);
            let answer = check(&text, &graph);
            assert!([refused(31, row), refused(32, row)].contains(&answer), "byte {at}: {answer:?}");
            graph[at] = was;
        }
    }
}
