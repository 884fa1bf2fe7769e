//! The library's calls and the layout of its tables, as `include/flowgraph.h` has them.
//! `tests/header.py` holds both to the sources of the library.

/// The longest text, and the longest program file.
pub const MAX_BYTES: usize = 65536;
/// The most lines of a listing.
pub const MAX_LINES: usize = 1024;
/// The most statements of a listing.
pub const MAX_STATEMENTS: usize = 4096;
/// The most edges of a graph.
pub const MAX_EDGES: usize = 32768;
/// The greatest depth of a statement.
pub const MAX_DEPTH: usize = 16;

pub const COUNTS: usize = 6;
pub const COUNT_LINES: usize = 0;
pub const COUNT_STATEMENTS: usize = 1;
pub const COUNT_HANDLERS: usize = 2;
pub const COUNT_RETURNS: usize = 4;

pub const LINES_EACH: usize = 1;
pub const STMTS_EACH: usize = 12;
pub const ARGS_EACH: usize = 64;
pub const ENTRIES_EACH: usize = 2;
pub const FALLS_EACH: usize = 3;
pub const LINKS_EACH: usize = 64;
pub const LISTS_EACH: usize = 4;
pub const RETURNS_EACH: usize = 1;
pub const SUCC_EACH: usize = 1;
pub const PRED_EACH: usize = 1;

/// The longest printed graph takes less.
pub const PAGE_SIZE: usize = 1048576;

pub const STMT_WORD: usize = 0;
pub const STMT_LINE: usize = 1;
pub const STMT_HOLDER: usize = 2;
pub const STMT_INDEX: usize = 3;

pub const FALL_NEXT: usize = 0;

pub const WORD_GOSUB: u16 = 8;
pub const WORD_ONGOSUB: u16 = 12;

pub const OUTSIDE: u8 = 25;

extern "C" {
    pub fn flow_build(
        text: *const u8, text_len: usize,
        counts: *mut [u32; 6],
        lines: *mut u16, lines_len: usize,
        stmts: *mut u16, stmts_len: usize,
        args: *mut u64, args_len: usize,
        entries: *mut u16, entries_len: usize,
        falls: *mut u16, falls_len: usize,
        links: *mut u16, links_len: usize,
        lists: *mut u16, lists_len: usize,
        returns: *mut u16, returns_len: usize,
        succ: *mut u16, succ_len: usize,
        pred: *mut u16, pred_len: usize,
        place: *mut [usize; 1],
    ) -> u8;

    pub fn flow_build_program(
        program: *const u8, program_len: usize,
        counts: *mut [u32; 6],
        lines: *mut u16, lines_len: usize,
        stmts: *mut u16, stmts_len: usize,
        args: *mut u64, args_len: usize,
        entries: *mut u16, entries_len: usize,
        falls: *mut u16, falls_len: usize,
        links: *mut u16, links_len: usize,
        lists: *mut u16, lists_len: usize,
        returns: *mut u16, returns_len: usize,
        succ: *mut u16, succ_len: usize,
        pred: *mut u16, pred_len: usize,
        place: *mut [usize; 1],
    ) -> u8;

    pub fn flow_check(
        text: *const u8, text_len: usize,
        graph: *const u8, graph_len: usize,
        counts: *mut [u32; 6],
        lines: *mut u16, lines_len: usize,
        stmts: *mut u16, stmts_len: usize,
        args: *mut u64, args_len: usize,
        entries: *mut u16, entries_len: usize,
        falls: *mut u16, falls_len: usize,
        links: *mut u16, links_len: usize,
        lists: *mut u16, lists_len: usize,
        returns: *mut u16, returns_len: usize,
        succ: *mut u16, succ_len: usize,
        pred: *mut u16, pred_len: usize,
        page: *mut [u8; 1048576],
        place: *mut [usize; 1],
    ) -> u8;

    pub fn flow_successors(
        counts: *const [u32; 6],
        lists: *const u16, lists_len: usize,
        succ: *const u16, succ_len: usize,
        node: usize,
        answer: *mut [usize; 2],
    ) -> u8;

    pub fn flow_predecessors(
        counts: *const [u32; 6],
        lists: *const u16, lists_len: usize,
        pred: *const u16, pred_len: usize,
        node: usize,
        answer: *mut [usize; 2],
    ) -> u8;

    pub fn flow_statement(
        counts: *const [u32; 6],
        stmts: *const u16, stmts_len: usize,
        node: usize,
        answer: *mut [usize; 2],
    ) -> u8;

    pub fn flow_path(
        counts: *const [u32; 6],
        stmts: *const u16, stmts_len: usize,
        line: usize,
        path: *const u16, path_len: usize,
        answer: *mut [usize; 2],
    ) -> u8;

    pub fn flow_entry(
        counts: *const [u32; 6],
        entries: *const u16, entries_len: usize,
        number: u16,
        answer: *mut [usize; 2],
    ) -> u8;

    pub fn flow_frame(
        counts: *const [u32; 6],
        stmts: *const u16, stmts_len: usize,
        args: *const u64, args_len: usize,
        falls: *const u16, falls_len: usize,
        lists: *const u16, lists_len: usize,
        succ: *const u16, succ_len: usize,
        header: usize,
        node: usize,
        name: *const u8, name_len: usize,
        flag: bool,
        out: *mut u16, out_len: usize,
        answer: *mut [usize; 2],
    ) -> u8;
}
