//! The tables that a build writes and that the questions read.

use crate::ffi;
use crate::refusal::Refusal;
use crate::size::{self, Size};
use crate::word::Word;

/// A statement as a question answers it.
#[derive(Debug, Clone, Copy, PartialEq, Eq, Hash)]
pub struct Stmt {
    /// The node's id.
    pub node: usize,
    /// The statement's opening word.
    pub word: Word,
}

/// The tables of one graph, with the calls of the library on them.
///
/// Every field may hold anything and be of any length: a call meets one of the refusals or is carried out. Most callers want
/// [`Cfg`](crate::Cfg), whose tables are always a graph. What each entry says is in the repository's `docs/DECISIONS.md`.
#[derive(Debug, Clone, Default, PartialEq, Eq)]
pub struct Tables {
    /// Lines, statements, handlers (0 or 1), edges, return targets, rows of `entries`.
    pub counts: [u32; ffi::COUNTS],
    /// The number of each line.
    pub lines: Vec<u16>,
    /// 12 entries a statement: its record.
    pub stmts: Vec<u16>,
    /// 64 entries a statement: its numbers, names or slots.
    pub args: Vec<u64>,
    /// 2 entries a line, ascending by number: the line's number, and one more than the node of its entry, or 0.
    pub entries: Vec<u16>,
    /// 3 entries a statement: where it falls, and where its branches lead.
    pub falls: Vec<u16>,
    /// 64 entries a statement: where its arguments lead.
    pub links: Vec<u16>,
    /// 4 entries a statement: start and count of its successors and of its predecessors.
    pub lists: Vec<u16>,
    /// The return targets.
    pub returns: Vec<u16>,
    /// The successor lists.
    pub succ: Vec<u16>,
    /// The predecessor lists.
    pub pred: Vec<u16>,
}

/// The answer of a call that gives 0, or its refusal.
fn answered<T>(number: u8, place: usize, answer: T) -> Result<T, Refusal> {
    match number {
        0 => Ok(answer),
        _ => Err(Refusal { number, place }),
    }
}

impl Tables {
    /// Zeroed tables for so many lines, statements and edges; more than the limits of a listing are never needed.
    pub fn with_room(lines: usize, statements: usize, edges: usize) -> Tables {
        let mut tables = Tables::default();
        tables.resize(Size { lines, statements, edges });
        tables
    }

    /// Zeroed tables that suffice for every listing, about 2.9 MB.
    pub fn at_limits() -> Tables {
        Tables::with_room(ffi::MAX_LINES, ffi::MAX_STATEMENTS, ffi::MAX_EDGES)
    }

    /// Zeroed tables that suffice for the graph of this text.
    pub fn for_listing(text: &[u8]) -> Tables {
        let mut tables = Tables::default();
        tables.fit(text);
        tables
    }

    /// Zeroed tables that suffice for the graph of the listing that this saved program means.
    pub fn for_program(file: &[u8]) -> Tables {
        let mut tables = Tables::default();
        tables.fit_program(file);
        tables
    }

    /// Makes the tables as long as [`for_listing`](Tables::for_listing) does, in the memory that they have where it suffices.
    pub fn fit(&mut self, text: &[u8]) {
        self.resize(size::of(text));
    }

    /// Makes the tables as long as [`for_program`](Tables::for_program) does, in the memory that they have where it suffices.
    pub fn fit_program(&mut self, file: &[u8]) {
        self.resize(size::of_program(file));
    }

    fn resize(&mut self, size: Size) {
        let lines = size.lines.min(ffi::MAX_LINES);
        let statements = size.statements.min(ffi::MAX_STATEMENTS);
        let edges = size.edges.min(ffi::MAX_EDGES);
        self.lines.resize(lines * ffi::LINES_EACH, 0);
        self.stmts.resize(statements * ffi::STMTS_EACH, 0);
        self.args.resize(statements * ffi::ARGS_EACH, 0);
        self.entries.resize(lines * ffi::ENTRIES_EACH, 0);
        self.falls.resize(statements * ffi::FALLS_EACH, 0);
        self.links.resize(statements * ffi::LINKS_EACH, 0);
        self.lists.resize(statements * ffi::LISTS_EACH, 0);
        self.returns.resize(statements * ffi::RETURNS_EACH, 0);
        self.succ.resize(edges * ffi::SUCC_EACH, 0);
        self.pred.resize(edges * ffi::PRED_EACH, 0);
    }

    /// Reads the text and writes its graph into the tables as they are. A refused build leaves every entry zero; 21, 22 and 23
    /// say by their place how many lines, statements or edges there are.
    pub fn build(&mut self, text: &[u8]) -> Result<(), Refusal> {
        let mut place = [0];
        // SAFETY: each pointer and length is a slice's own, and the written ones are distinct fields of `self`.
        let number = unsafe {
            ffi::flow_build(
                text.as_ptr(), text.len(),
                &mut self.counts,
                self.lines.as_mut_ptr(), self.lines.len(),
                self.stmts.as_mut_ptr(), self.stmts.len(),
                self.args.as_mut_ptr(), self.args.len(),
                self.entries.as_mut_ptr(), self.entries.len(),
                self.falls.as_mut_ptr(), self.falls.len(),
                self.links.as_mut_ptr(), self.links.len(),
                self.lists.as_mut_ptr(), self.lists.len(),
                self.returns.as_mut_ptr(), self.returns.len(),
                self.succ.as_mut_ptr(), self.succ.len(),
                self.pred.as_mut_ptr(), self.pred.len(),
                &mut place,
            )
        };
        answered(number, place[0], ())
    }

    /// The same of a saved BASIC V2 program: the graph of the listing that it means.
    pub fn build_program(&mut self, file: &[u8]) -> Result<(), Refusal> {
        let mut place = [0];
        // SAFETY: each pointer and length is a slice's own, and the written ones are distinct fields of `self`.
        let number = unsafe {
            ffi::flow_build_program(
                file.as_ptr(), file.len(),
                &mut self.counts,
                self.lines.as_mut_ptr(), self.lines.len(),
                self.stmts.as_mut_ptr(), self.stmts.len(),
                self.args.as_mut_ptr(), self.args.len(),
                self.entries.as_mut_ptr(), self.entries.len(),
                self.falls.as_mut_ptr(), self.falls.len(),
                self.links.as_mut_ptr(), self.links.len(),
                self.lists.as_mut_ptr(), self.lists.len(),
                self.returns.as_mut_ptr(), self.returns.len(),
                self.succ.as_mut_ptr(), self.succ.len(),
                self.pred.as_mut_ptr(), self.pred.len(),
                &mut place,
            )
        };
        answered(number, place[0], ())
    }

    /// Builds as [`build`](Tables::build), with the same tables after, and compares the graph with the listing's printed graph. The
    /// refusals are the listing's, or 31 or 32 with the first row of the graph that is not the one due. What was printed for the
    /// listing, its graph or `(refused NUMBER PLACE)`, then stands at the front of the page; what stands past it is as it was.
    pub fn check(&mut self, text: &[u8], graph: &[u8], page: &mut [u8; ffi::PAGE_SIZE]) -> Result<(), Refusal> {
        let mut place = [0];
        // SAFETY: each pointer and length is a slice's own, and the written ones are distinct fields of `self` or borrowed apart.
        let number = unsafe {
            ffi::flow_check(
                text.as_ptr(), text.len(),
                graph.as_ptr(), graph.len(),
                &mut self.counts,
                self.lines.as_mut_ptr(), self.lines.len(),
                self.stmts.as_mut_ptr(), self.stmts.len(),
                self.args.as_mut_ptr(), self.args.len(),
                self.entries.as_mut_ptr(), self.entries.len(),
                self.falls.as_mut_ptr(), self.falls.len(),
                self.links.as_mut_ptr(), self.links.len(),
                self.lists.as_mut_ptr(), self.lists.len(),
                self.returns.as_mut_ptr(), self.returns.len(),
                self.succ.as_mut_ptr(), self.succ.len(),
                self.pred.as_mut_ptr(), self.pred.len(),
                page,
                &mut place,
            )
        };
        answered(number, place[0], ())
    }

    /// A node's successors, in their order.
    pub fn successors(&self, node: usize) -> Result<&[u16], Refusal> {
        let mut answer = [0; 2];
        // SAFETY: each pointer and length is a slice's own.
        let number = unsafe {
            ffi::flow_successors(
                &self.counts,
                self.lists.as_ptr(), self.lists.len(),
                self.succ.as_ptr(), self.succ.len(),
                node,
                &mut answer,
            )
        };
        part(&self.succ, answered(number, answer[0], answer)?)
    }

    /// A node's predecessors, ascending.
    pub fn predecessors(&self, node: usize) -> Result<&[u16], Refusal> {
        let mut answer = [0; 2];
        // SAFETY: each pointer and length is a slice's own.
        let number = unsafe {
            ffi::flow_predecessors(
                &self.counts,
                self.lists.as_ptr(), self.lists.len(),
                self.pred.as_ptr(), self.pred.len(),
                node,
                &mut answer,
            )
        };
        part(&self.pred, answered(number, answer[0], answer)?)
    }

    /// A node's statement.
    pub fn stmt_at(&self, node: usize) -> Result<Stmt, Refusal> {
        let mut answer = [0; 2];
        // SAFETY: each pointer and length is a slice's own.
        let number = unsafe {
            ffi::flow_statement(
                &self.counts,
                self.stmts.as_ptr(), self.stmts.len(),
                node,
                &mut answer,
            )
        };
        stmt(answered(number, answer[0], answer)?)
    }

    /// The statement at a path: a line index and numbers.
    pub fn stmt_at_path(&self, line_idx: usize, path: &[u16]) -> Result<Stmt, Refusal> {
        let mut answer = [0; 2];
        // SAFETY: each pointer and length is a slice's own.
        let number = unsafe {
            ffi::flow_path(
                &self.counts,
                self.stmts.as_ptr(), self.stmts.len(),
                line_idx,
                path.as_ptr(), path.len(),
                &mut answer,
            )
        };
        stmt(answered(number, answer[0], answer)?)
    }

    /// The node where a jump to a line number starts, if there is one.
    pub fn line_first(&self, number: u16) -> Result<Option<usize>, Refusal> {
        let mut answer = [0; 2];
        // SAFETY: each pointer and length is a slice's own.
        let refused = unsafe {
            ffi::flow_entry(
                &self.counts,
                self.entries.as_ptr(), self.entries.len(),
                number,
                &mut answer,
            )
        };
        let [node, found] = answered(refused, answer[0], answer)?;
        Ok((found != 0).then_some(node))
    }

    /// The frame list into a slice, zeros after it: answers its length. A refused question writes nothing.
    pub fn frame_successors(
        &self,
        header: usize,
        node: usize,
        var: &[u8],
        next_uses_frame: bool,
        out: &mut [u16],
    ) -> Result<usize, Refusal> {
        let mut answer = [0; 2];
        // SAFETY: each pointer and length is a slice's own; `out` is borrowed apart from `self`.
        let number = unsafe {
            ffi::flow_frame(
                &self.counts,
                self.stmts.as_ptr(), self.stmts.len(),
                self.args.as_ptr(), self.args.len(),
                self.falls.as_ptr(), self.falls.len(),
                self.lists.as_ptr(), self.lists.len(),
                self.succ.as_ptr(), self.succ.len(),
                header,
                node,
                var.as_ptr(), var.len(),
                next_uses_frame,
                out.as_mut_ptr(), out.len(),
                &mut answer,
            )
        };
        answered(number, answer[0], answer[0])
    }

    /// A used count.
    pub(crate) fn count(&self, of: usize) -> usize {
        self.counts.get(of).map_or(0, |&n| n as usize)
    }

    /// An entry of a statement's record in `stmts`.
    pub(crate) fn record(&self, node: usize, column: usize) -> Option<u16> {
        self.stmts.get(node.checked_mul(ffi::STMTS_EACH)?.checked_add(column)?).copied()
    }
}

/// Start and length as a part of an edge table.
fn part(table: &[u16], [start, len]: [usize; 2]) -> Result<&[u16], Refusal> {
    let end = start.checked_add(len);
    end.and_then(|end| table.get(start..end)).ok_or(Refusal { number: ffi::OUTSIDE, place: 0 })
}

fn stmt([node, word]: [usize; 2]) -> Result<Stmt, Refusal> {
    let word = Word::at(word).ok_or(Refusal { number: ffi::OUTSIDE, place: 0 })?;
    Ok(Stmt { node, word })
}
