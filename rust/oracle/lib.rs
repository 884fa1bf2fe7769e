//! The harness of `tests/oracle` as a library: generators, and the original `cfg.rs`, compiled unchanged, where it is at hand.
#![allow(dead_code)]

#[cfg(original)]
#[path = "../../../shared/docs/src/crates/core/src/cfg.rs"]
pub mod cfg;
#[cfg(original)]
#[path = "../../tests/oracle/frames.rs"]
pub mod frames;
#[cfg(original)]
#[path = "../../tests/oracle/print.rs"]
pub mod print;

#[path = "../../tests/oracle/damage.rs"]
pub mod damage;
#[path = "../../tests/oracle/directed.rs"]
pub mod directed;
#[path = "../../tests/oracle/generate.rs"]
pub mod generate;
#[path = "../../tests/oracle/limits.rs"]
pub mod limits;
#[path = "../../tests/oracle/listing.rs"]
pub mod listing;
#[path = "../../tests/oracle/lower.rs"]
pub mod lower;
#[path = "../../tests/oracle/random.rs"]
pub mod random;
#[path = "../../tests/oracle/stand_ins.rs"]
pub mod stand_ins;

// `cfg.rs` names these from the crate's root.
pub use stand_ins::{analysis, ast, for_next_runtime, ir};
