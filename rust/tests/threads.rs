//! From a thread with 2 MiB of stack, and from many threads at once.

use flowgraph::{Builder, Cfg, Refusal, Tables, PAGE_SIZE};
use oracle::random::Random;
use oracle::{damage, generate, limits};
use std::thread;

/// A whole graph as numbers, or its refusal.
type Answer = Result<Vec<Vec<u16>>, Refusal>;

fn answer(cfg: &Cfg) -> Vec<Vec<u16>> {
    let nodes = 0..cfg.node_count();
    let lists = nodes.clone().flat_map(|n| [cfg.successors(n).to_vec(), cfg.predecessors(n).to_vec()]);
    let words = nodes.clone().map(|n| vec![cfg.stmt_at(n).expect("a statement").word as u16]);
    let frames = nodes.clone().map(|n| cfg.frame_successors(n, n, "I", true).expect("a list"));
    let entries = cfg.line_numbers().iter().map(|&l| cfg.line_first(l).map_or(0, |n| n as u16 + 1)).collect();
    lists.chain(words).chain(frames).chain([entries, cfg.return_targets().to_vec()]).collect()
}

fn texts() -> Vec<Vec<u8>> {
    let mut random = Random::new(1982);
    let mut texts: Vec<_> = (0..300).map(|_| generate::small(&mut random).text()).collect();
    texts.extend((0..100).map(|_| damage::damaged(&mut random)));
    texts.extend((0..5).map(|_| generate::medium(&mut random).text()));
    texts
}

/// Every shape at the limits, with tables of all sizes, on 2 MiB.
#[test]
fn two_mib_of_stack() {
    let asked = thread::Builder::new().stack_size(2 << 20).spawn(|| {
        let mut random = Random::new(0);
        let mut tables = Tables::at_limits();
        for shape in 0..limits::SHAPES.len() as u64 {
            let text = limits::listing_text(shape, &mut random);
            let found = Cfg::build(&text);
            assert_eq!(found.as_ref().err().copied(), tables.build(&text).err());
            let Ok(cfg) = found else { continue };
            assert_eq!(cfg.tables().counts, tables.counts);
            for node in [0, cfg.node_count() / 2, cfg.node_count().saturating_sub(1)] {
                assert_eq!(cfg.successors(node), tables.successors(node).unwrap_or_default());
                assert_eq!(cfg.stmt_at(node), tables.stmt_at(node));
                let kept = cfg.frame_successors(node, node, "I", true);
                let mut out = vec![0; 4096];
                assert_eq!(kept.map(|k| k.len()), tables.frame_successors(node, node, b"I", true, &mut out));
            }
        }
    });
    asked.expect("a thread").join().expect("no fault");
}

/// The calls alone, with what lib.rs promises.
#[test]
fn a_quarter_mib_for_the_calls() {
    let mut random = Random::new(0);
    for shape in 0..limits::SHAPES.len() as u64 {
        let text = limits::listing_text(shape, &mut random);
        let mut tables = Tables::for_listing(&text);
        let mut page: Box<[u8; PAGE_SIZE]> = vec![0; PAGE_SIZE].try_into().expect("so many bytes");
        let asked = thread::Builder::new().stack_size(256 << 10).spawn(move || {
            let missing = Refusal { number: 32, place: 0 };
            let checked = tables.check(&text, b"", &mut page);
            let nodes = match tables.build(&text) {
                Ok(()) if checked != Err(missing) => return false,
                Ok(()) => tables.counts[1] as usize,
                Err(refusal) => return refusal.number == 23 && checked == Err(refusal),
            };
            let mut out = vec![0; 4096];
            nodes == 0
                || tables.stmt_at(nodes - 1).is_ok()
                    && tables.frame_successors(0, nodes - 1, b"ABCDEFGH$", true, &mut out).is_ok()
        });
        assert!(asked.expect("a thread").join().expect("no fault"), "shape {shape}");
    }
}

#[test]
fn many_threads_at_once() {
    let texts = texts();
    let alone: Vec<Answer> = texts.iter().map(|t| Cfg::build(t).map(|c| answer(&c))).collect();
    thread::scope(|scope| {
        for id in 0..16 {
            let (texts, alone) = (&texts, &alone);
            scope.spawn(move || {
                let mut builder = Builder::new();
                for i in 0..texts.len() {
                    // Each thread in an order of its own.
                    let i = (i * 7 + id * 31) % texts.len();
                    let found = builder.build(&texts[i]).map(answer);
                    assert_eq!(found, alone[i], "text {i} in thread {id}");
                }
            });
        }
    });
}

/// One graph, asked by all.
#[test]
fn one_graph_for_all_threads() {
    let mut random = Random::new(7);
    let cfg = Cfg::build(&generate::medium(&mut random).text()).expect("a graph");
    let due = answer(&cfg);
    thread::scope(|scope| {
        for _ in 0..16 {
            scope.spawn(|| assert_eq!(answer(&cfg), due));
        }
    });
}
