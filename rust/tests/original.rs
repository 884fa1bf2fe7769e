//! The original beside the library in one process, on random listings.
//!
//! FLOW_COUNT small listings (and a share of longer ones) from FLOW_SEED. Where the original is not at hand the test says so.
//! The library gets names as written, the original cut ones (`lower::var`), in listings and in frame questions.

#[cfg(not(original))]
#[test]
fn the_original_is_not_at_hand() {
    eprintln!("the original is not compared: no ../shared/docs/src here");
}

#[cfg(original)]
mod compared {
    use flowgraph::{Builder, Cfg, Refusal, StmtPath, MAX_EDGES};
    use oracle::cfg::Cfg as Original;
    use oracle::ir::Module;
    use oracle::listing::Listing;
    use oracle::random::Random;
    use oracle::{directed, frames, generate, limits, listing, lower};

    /// Above this many nodes only some of them serve as headers.
    const HEADERS: usize = 24;

    fn set(name: &str, or: u64) -> u64 {
        std::env::var(name).map_or(or, |n| n.parse().unwrap_or_else(|_| panic!("{name} is a number")))
    }

    /// A listing, its text, and both graphs of it.
    struct Pair<'a> {
        cfg: &'a Cfg,
        original: Original,
        module: Module,
        names: Vec<String>,
    }

    /// How many answers were compared.
    #[derive(Default)]
    struct Tally {
        listings: usize,
        nodes: usize,
        edges: usize,
        frames: usize,
        refused: usize,
    }

    fn wide(ids: &[u16]) -> Vec<usize> {
        ids.iter().map(|&id| id.into()).collect()
    }

    impl Pair<'_> {
        fn graph(&self) {
            let (cfg, original) = (self.cfg, &self.original);
            assert_eq!(cfg.node_count(), original.nodes.len(), "nodes");
            assert_eq!(cfg.entry(), original.entry, "entry");
            assert_eq!(wide(cfg.return_targets()), original.return_targets, "return targets");
            let mut due: Vec<_> = original.gosub_continuations.iter().map(|(&c, &n)| (c, n)).collect();
            due.sort_unstable();
            assert_eq!(cfg.gosub_continuations().collect::<Vec<_>>(), due, "continuations");
            for (id, node) in original.nodes.iter().enumerate() {
                assert_eq!(wide(cfg.successors(id)), node.successors, "successors of {id}");
                assert_eq!(wide(cfg.predecessors(id)), node.predecessors, "predecessors of {id}");
                assert_eq!(cfg.line_no(id), Some(node.line_no), "line of {id}");
                assert_eq!(cfg.gosub_continuation(id), original.gosub_continuations.get(&id).copied());
            }
        }

        /// Every line's number, and the numbers beside it.
        fn lines(&self) {
            let written = self.module.lines.iter().map(|l| l.number);
            assert!(written.clone().eq(self.cfg.line_numbers().iter().copied()), "line numbers");
            for n in written.flat_map(|n| [n.wrapping_sub(1), n, n.wrapping_add(1)]) {
                assert_eq!(self.cfg.line_first(n), self.original.line_first.get(&n).copied(), "entry of {n}");
            }
        }

        fn statements(&self) {
            for (id, node) in self.original.nodes.iter().enumerate() {
                let word = frames::word(self.original.stmt_at(id, &self.module));
                let StmtPath { line_idx, mut path } = self.cfg.stmt_path(id).expect("a path");
                assert_eq!((line_idx, &wide(&path)), (node.stmt.line_idx, &node.stmt.path), "path of {id}");
                for found in [self.cfg.stmt_at(id), self.cfg.stmt_at_path(line_idx, &path)] {
                    let found = found.expect("a statement");
                    assert_eq!((found.node, found.word.as_str()), (id, word), "statement of {id}");
                }
                // No statement has this number there.
                path.push(4096);
                self.missing(line_idx, &path);
                path.pop();
                *path.last_mut().expect("a number") = 4096;
                self.missing(line_idx, &path);
                self.missing(usize::MAX, &path);
            }
            let nodes = self.original.nodes.len();
            assert_eq!(self.cfg.stmt_path(nodes), None);
            assert_eq!(self.cfg.line_no(nodes), None);
            self.missing(0, &[]);
        }

        fn missing(&self, line_idx: usize, path: &[u16]) {
            let refused = Refusal { number: 26, place: 0 };
            assert_eq!(self.cfg.stmt_at_path(line_idx, path), Err(refused), "path {line_idx} {path:?}");
        }

        fn frame_questions(&self) -> usize {
            let nodes = self.original.nodes.len();
            let mut asked = 0;
            for header in (0..nodes).step_by(nodes / HEADERS + 1) {
                for node in 0..nodes {
                    for name in &self.names {
                        for flag in [false, true] {
                            let due = self.original.frame_successors(&self.module, header, node, &lower::var(name), flag);
                            let found = self.cfg.frame_successors(header, node, name, flag).expect("a list");
                            assert_eq!(wide(&found), due, "frame {header} {node} {name} {flag}");
                            asked += 1;
                        }
                    }
                }
            }
            asked
        }

        /// Ids that no node has, and names that are none.
        fn refusals(&self) {
            let nodes = self.original.nodes.len();
            let no_node = |place| Refusal { number: 24, place };
            for id in [nodes, nodes + 1, 65536, usize::MAX] {
                assert_eq!(self.cfg.successors(id), []);
                assert_eq!(self.cfg.predecessors(id), []);
                assert_eq!(self.cfg.tables().successors(id), Err(no_node(id)));
                assert_eq!(self.cfg.tables().predecessors(id), Err(no_node(id)));
                assert_eq!(self.cfg.stmt_at(id), Err(no_node(id)));
                assert_eq!(self.cfg.gosub_continuation(id), None);
                assert_eq!(self.cfg.frame_successors(id, nodes, "I", true), Err(no_node(id)));
                if nodes > 0 {
                    assert_eq!(self.cfg.frame_successors(0, id, "I", true), Err(no_node(id)));
                }
            }
            for name in ["", "i", "1", "*", "A%%", "ABCDEFGHI", "A B", "COUNTERSX", "COunt", "CO%UNT"] {
                let refused = Refusal { number: 3, place: 0 };
                assert_eq!(self.cfg.frame_successors(nodes, 0, name, false), Err(refused), "name {name:?}");
            }
        }
    }

    /// One listing, or the exact count of its edges where there are too many.
    fn compare(builder: &mut Builder, listing: &Listing, salt: u64, frames: bool, tally: &mut Tally) {
        let text = listing.text();
        let module = lower::module(listing, salt);
        let original = Original::build_with(&module, &module.marks);
        let edges: usize = original.nodes.iter().map(|n| n.successors.len()).sum();
        tally.listings += 1;
        if edges > MAX_EDGES {
            let refused = Refusal { number: 23, place: edges };
            assert_eq!(builder.build(&text).err(), Some(refused));
            tally.refused += 1;
            return;
        }
        let fresh = Cfg::build(&text).expect("a graph");
        let cfg = builder.build(&text).expect("a graph");
        assert!(fresh.tables() == cfg.tables(), "used memory gives other tables");
        assert_eq!(cfg.has_handlers(), listing.handlers);
        let names = frames::names(listing).into_iter().collect();
        let pair = Pair { cfg, original, module, names };
        pair.graph();
        pair.lines();
        pair.refusals();
        pair.statements();
        tally.nodes += pair.original.nodes.len();
        tally.edges += edges;
        tally.frames += if frames { pair.frame_questions() } else { 0 };
    }

    /// Names the listing that differs.
    fn compare_all(kind: &str, listings: impl Iterator<Item = Listing>, frames: bool) {
        let mut builder = Builder::new();
        let mut tally = Tally::default();
        for (i, listing) in listings.enumerate() {
            let salt = i as u64;
            let text = listing.text();
            let shown = || String::from_utf8_lossy(&text[..text.len().min(2_000)]).into_owned();
            let differs = std::panic::AssertUnwindSafe(|| compare(&mut builder, &listing, salt, frames, &mut tally));
            if std::panic::catch_unwind(differs).is_err() {
                panic!("{kind} {i} differs:\n{}", shown());
            }
        }
        let Tally { listings, nodes, edges, frames, refused } = tally;
        assert!(listings > 0, "nothing compared");
        println!("{kind}: {listings} listings, {nodes} nodes, {edges} edges, {frames} frame lists, {refused} refused 23; 0 different");
    }

    #[test]
    fn small_listings() {
        let (seed, count) = (set("FLOW_SEED", 6375), set("FLOW_COUNT", 500));
        let mut random = Random::new(seed);
        compare_all(&format!("small {seed}"), (0..count).map(|_| generate::small(&mut random)), true);
    }

    #[test]
    fn medium_listings() {
        let (seed, count) = (set("FLOW_SEED", 6375), set("FLOW_COUNT", 500).div_ceil(100));
        let mut random = Random::new(seed);
        compare_all(&format!("medium {seed}"), (0..count).map(|_| generate::medium(&mut random)), true);
    }

    #[test]
    fn directed_listings() {
        let read = |text: Vec<u8>| listing::read(&text).expect("a listing");
        compare_all("directed", directed::texts().into_iter().map(read), true);
    }

    /// The fixed shapes at the limits; frame questions would be millions.
    #[test]
    fn limit_listings() {
        let mut random = Random::new(set("FLOW_SEED", 6375));
        let texts = (0..limits::SHAPES.len() as u64).map(|i| limits::listing_text(i, &mut random));
        compare_all("limit", texts.map(|text| listing::read(&text).expect("a listing")), false);
    }
}
