//! Tables sized to a text suffice, and are not much too large.

use flowgraph::{Builder, Cfg, Refusal, Tables, MAX_EDGES};
use oracle::random::Random;
use oracle::{damage, directed, generate, limits};

fn texts() -> Vec<Vec<u8>> {
    let mut random = Random::new(64);
    let mut texts = directed::texts();
    texts.extend((0..3_000).map(|_| generate::small(&mut random).text()));
    texts.extend((0..30).map(|_| generate::medium(&mut random).text()));
    texts.extend((0..90).map(|i| limits::listing_text(i, &mut random)));
    texts
}

/// Only more edges than any table may hold are refused.
#[test]
fn suffice() {
    let mut at_limits = Tables::at_limits();
    for text in texts() {
        match Cfg::build(&text) {
            Ok(cfg) => {
                assert_eq!(cfg.tables().stmts.len(), 12 * cfg.node_count());
                assert_eq!(cfg.tables().lines.len(), cfg.line_numbers().len());
            }
            Err(Refusal { number, place }) => assert!(number == 23 && place > MAX_EDGES, "{number} {place}"),
        }
        assert_eq!(Tables::for_listing(&text).build(&text), at_limits.build(&text));
    }
}

/// On refused texts too the answer does not hang on the tables.
#[test]
fn refusals_are_those_of_long_tables() {
    let mut random = Random::new(65);
    let mut at_limits = Tables::at_limits();
    let mut builder = Builder::new();
    for _ in 0..2_000 {
        let text = damage::damaged(&mut random);
        assert_eq!(builder.build(&text).err(), at_limits.build(&text).err());
    }
}

#[test]
fn odd_sizes() {
    assert_eq!(Tables::with_room(usize::MAX, usize::MAX, usize::MAX), Tables::at_limits());
    assert_eq!(Tables::with_room(0, 0, 0), Tables::default());
    assert_eq!(Tables::default().build(b"(module 1\n)\n"), Ok(()));
    assert_eq!(Cfg::build(&vec![b'('; 1 << 20]).unwrap_err(), Refusal { number: 1, place: 0 });
    assert_eq!(Cfg::build(b"").unwrap_err(), Refusal { number: 2, place: 0 });
    let refused = Cfg::build(b"(module 0\n(line 007\n").unwrap_err();
    assert_eq!(refused.to_string(), "refused 3 at 1: number above 65535 or with a leading zero, or no name where one is due");
}

/// What a refused build left is the graph without nodes.
#[test]
fn a_builder_goes_on_after_a_refusal() {
    let mut builder = Builder::new();
    let good = b"(module 0\n(line 1\n(goto 1)\n)\n)\n";
    assert_eq!(builder.build(good).expect("a graph").successors(0), [0]);
    assert!(builder.build(b"(module 0\n(line 1\n(goto x)\n)\n)\n").is_err());
    assert_eq!(builder.build(good).expect("a graph").successors(0), [0]);
}
