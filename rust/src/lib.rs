//! The flow graph of a Commodore BASIC listing.
//!
//! The work is done by a library whose every function is proved against a definition; this crate lends it tables and makes its
//! calls safe Rust. A listing comes in the bracket form:
//!
//! ```
//! use flowgraph::{Cfg, Word};
//!
//! let listing = b"\
//! (module 0
//! (line 10
//! (gosub 100)
//! (plain)
//! )
//! (line 20
//! (stop)
//! )
//! (line 100
//! (if
//! (to 20)
//! )
//! (return)
//! )
//! )
//! ";
//! let cfg = Cfg::build(listing)?;
//! assert_eq!(cfg.node_count(), 5);
//! assert_eq!(cfg.successors(3), [2, 4]);
//! assert_eq!(cfg.predecessors(2), [1, 3]);
//! assert_eq!(cfg.line_first(100), Some(3));
//! assert_eq!(cfg.return_targets(), [1]);
//! assert_eq!(cfg.gosub_continuations().collect::<Vec<_>>(), [(0, 1)]);
//! assert_eq!(cfg.stmt_at(4)?.word, Word::Return);
//! // RETURN closes the frames of its routine's loops.
//! assert_eq!(cfg.frame_successors(0, 4, "I", true)?, []);
//!
//! let refused = Cfg::build(b"(module 0\n(line 20\n)\n(line 10\n)\n)\n").unwrap_err();
//! assert_eq!((refused.number, refused.place), (4, 3));
//! # Ok::<(), flowgraph::Refusal>(())
//! ```
//!
//! [`Cfg::build_program`] takes a program as BASIC V2 saves it. [`check`] holds a printed graph that came from elsewhere to its
//! listing.
//!
//! No call panics, whatever it is given. Nothing is shared between graphs, so threads may build and ask as they like; a build or a
//! check takes less than 256 KiB of stack.

#![warn(missing_docs)]

mod cfg;
mod check;
mod ffi;
mod refusal;
mod size;
mod tables;
mod word;

pub use cfg::{Builder, Cfg, StmtPath};
pub use check::check;
pub use ffi::{MAX_BYTES, MAX_DEPTH, MAX_EDGES, MAX_LINES, MAX_STATEMENTS, PAGE_SIZE};
pub use refusal::Refusal;
pub use tables::{Stmt, Tables};
pub use word::Word;
