//! A built graph.

use crate::ffi;
use crate::refusal::Refusal;
use crate::tables::{Stmt, Tables};

/// Where a statement stands: the index of its line, and a number for the line's list and for each IF on the way down.
#[derive(Debug, Clone, PartialEq, Eq, Hash)]
pub struct StmtPath {
    /// The index of the line, from 0.
    pub line_idx: usize,
    /// The numbers; those of a second branch go on after the first branch's.
    pub path: Vec<u16>,
}

/// The control-flow graph of a listing. Nodes are its statements, numbered in reading order.
#[derive(Debug, Clone, Default)]
pub struct Cfg {
    tables: Tables,
}

impl Cfg {
    /// Builds the graph of a listing. The refusals are 1 to 8, for the text, and 23, for more than 32,768 edges.
    ///
    /// ```
    /// let cfg = flowgraph::Cfg::build(b"(module 0\n(line 10\n(goto 10)\n)\n)\n")?;
    /// assert_eq!(cfg.successors(0), [0]);
    /// # Ok::<(), flowgraph::Refusal>(())
    /// ```
    pub fn build(text: &[u8]) -> Result<Cfg, Refusal> {
        let mut tables = Tables::for_listing(text);
        tables.build(text)?;
        Ok(Cfg { tables })
    }

    /// Builds the graph of the listing that a saved BASIC V2 program means: two load address bytes, then the lines as the machine's
    /// SAVE writes them. The refusals are 1, 4 to 8 and 33 to 35, for the file, and 23, for more than 32,768 edges.
    ///
    /// ```
    /// // 10 GOTO 10
    /// let file = b"\x01\x08\x0a\x08\x0a\x00\x89 10\x00\x00\x00";
    /// let cfg = flowgraph::Cfg::build_program(file)?;
    /// assert_eq!(cfg.successors(0), [0]);
    ///
    /// let refused = flowgraph::Cfg::build_program(&file[..10]).unwrap_err();
    /// assert_eq!((refused.number, refused.place), (33, 10));
    /// # Ok::<(), flowgraph::Refusal>(())
    /// ```
    pub fn build_program(file: &[u8]) -> Result<Cfg, Refusal> {
        let mut tables = Tables::for_program(file);
        tables.build_program(file)?;
        Ok(Cfg { tables })
    }

    /// How many nodes there are; their ids are the numbers below.
    pub fn node_count(&self) -> usize {
        self.tables.count(ffi::COUNT_STATEMENTS)
    }

    /// The node where the listing starts.
    pub fn entry(&self) -> usize {
        0
    }

    /// Whether the listing says that it has handlers (ON KEY, ON ERROR, RESUME).
    pub fn has_handlers(&self) -> bool {
        self.tables.count(ffi::COUNT_HANDLERS) != 0
    }

    /// The nodes that may run next, in the order of the wiring rules; none for an id that no node has.
    pub fn successors(&self, node: usize) -> &[u16] {
        self.tables.successors(node).unwrap_or_default()
    }

    /// The nodes that have this one as a successor, ascending; none for an id that no node has.
    pub fn predecessors(&self, node: usize) -> &[u16] {
        self.tables.predecessors(node).unwrap_or_default()
    }

    /// The node where a jump to a line number starts: none where no line has it, or nothing follows an empty one.
    pub fn line_first(&self, number: u16) -> Option<usize> {
        self.tables.line_first(number).unwrap_or_default()
    }

    /// The numbers of the listing's lines, ascending.
    pub fn line_numbers(&self) -> &[u16] {
        self.tables.lines.get(..self.tables.count(ffi::COUNT_LINES)).unwrap_or_default()
    }

    /// The nodes that calls fall to, each once, in the order of the calls.
    pub fn return_targets(&self) -> &[u16] {
        self.tables.returns.get(..self.tables.count(ffi::COUNT_RETURNS)).unwrap_or_default()
    }

    /// Where each call (GOSUB or ON GOSUB) that falls to a node does so: call and node, by call.
    pub fn gosub_continuations(&self) -> impl Iterator<Item = (usize, usize)> + '_ {
        (0..self.node_count()).filter_map(|node| Some((node, self.gosub_continuation(node)?)))
    }

    /// The continuation of one call; none for other nodes.
    pub fn gosub_continuation(&self, node: usize) -> Option<usize> {
        let word = self.tables.record(node, ffi::STMT_WORD)?;
        if node >= self.node_count() || !matches!(word, ffi::WORD_GOSUB | ffi::WORD_ONGOSUB) {
            return None;
        }
        let falls = *self.tables.falls.get(node * ffi::FALLS_EACH + ffi::FALL_NEXT)?;
        usize::from(falls).checked_sub(1)
    }

    /// A node's statement. Refused is an id that no node has (24).
    pub fn stmt_at(&self, node: usize) -> Result<Stmt, Refusal> {
        self.tables.stmt_at(node)
    }

    /// The statement at a path, a line index and numbers. Refused is a path at which none stands (26).
    pub fn stmt_at_path(&self, line_idx: usize, path: &[u16]) -> Result<Stmt, Refusal> {
        self.tables.stmt_at_path(line_idx, path)
    }

    /// Where a node's statement stands; none for an id that no node has.
    pub fn stmt_path(&self, node: usize) -> Option<StmtPath> {
        if node >= self.node_count() {
            return None;
        }
        let line_idx = self.tables.record(node, ffi::STMT_LINE)?.into();
        let mut path = Vec::new();
        let mut at = node;
        // Depth 0 to the deepest: so many numbers.
        for _ in 0..=ffi::MAX_DEPTH {
            path.push(self.tables.record(at, ffi::STMT_INDEX)?);
            match self.tables.record(at, ffi::STMT_HOLDER)? {
                0 => break,
                holder => at = usize::from(holder) - 1,
            }
        }
        path.reverse();
        Some(StmtPath { line_idx, path })
    }

    /// The number of the line that a node stands in; none for an id that no node has.
    pub fn line_no(&self, node: usize) -> Option<u16> {
        if node >= self.node_count() {
            return None;
        }
        let line = self.tables.record(node, ffi::STMT_LINE)?;
        self.tables.lines.get(usize::from(line)).copied()
    }

    /// The successors of a node that keep the FOR frame of the loop at `header` over the variable `var`. Of its name the first
    /// two characters and the kind count, as in the listing. Refused are a `var` that is no name (3) and ids that no node has (24).
    ///
    /// ```
    /// let cfg = flowgraph::Cfg::build(b"(module 0\n(line 10\n(for COUNT static)\n(plain)\n(next plain COUNTER)\n(stop)\n)\n)\n")?;
    /// assert_eq!(cfg.successors(2), [1, 3]);
    /// assert_eq!(cfg.frame_successors(0, 2, "CO", true)?, [1]);
    /// assert_eq!(cfg.frame_successors(0, 0, "COUNTER", true)?, []);
    /// assert_eq!(cfg.frame_successors(0, 0, "COUNTER%", true)?, [1]);
    /// # Ok::<(), flowgraph::Refusal>(())
    /// ```
    pub fn frame_successors(
        &self,
        header: usize,
        node: usize,
        var: impl AsRef<[u8]>,
        next_uses_frame: bool,
    ) -> Result<Vec<u16>, Refusal> {
        // A call's list is its continuation, which need not be a successor.
        let mut kept = vec![0; self.successors(node).len().max(1)];
        let len = self.tables.frame_successors(header, node, var.as_ref(), next_uses_frame, &mut kept)?;
        kept.truncate(len);
        Ok(kept)
    }

    /// The tables of the graph.
    pub fn tables(&self) -> &Tables {
        &self.tables
    }

    /// The tables, for a further use of their memory.
    pub fn into_tables(self) -> Tables {
        self.tables
    }
}

/// Builds one graph after the other in the same memory.
///
/// ```
/// let mut builder = flowgraph::Builder::new();
/// for text in [&b"(module 0\n)\n"[..], b"(module 0\n(line 1\n(plain)\n)\n)\n"] {
///     let cfg = builder.build(text)?;
///     println!("{} nodes", cfg.node_count());
/// }
/// # Ok::<(), flowgraph::Refusal>(())
/// ```
#[derive(Debug, Clone, Default)]
pub struct Builder {
    cfg: Cfg,
}

impl Builder {
    /// A builder that has no memory yet.
    pub fn new() -> Builder {
        Builder::default()
    }

    /// The graph of a listing, as [`Cfg::build`]; the last one is gone, after a refusal too.
    pub fn build(&mut self, text: &[u8]) -> Result<&Cfg, Refusal> {
        self.cfg.tables.fit(text);
        self.cfg.tables.build(text)?;
        Ok(&self.cfg)
    }

    /// The graph of the listing that a saved program means, as [`Cfg::build_program`]; the last one is gone, after a refusal too.
    pub fn build_program(&mut self, file: &[u8]) -> Result<&Cfg, Refusal> {
        self.cfg.tables.fit_program(file);
        self.cfg.tables.build_program(file)?;
        Ok(&self.cfg)
    }
}
