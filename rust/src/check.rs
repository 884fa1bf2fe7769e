//! A printed graph that came from elsewhere.

use crate::ffi;
use crate::refusal::Refusal;
use crate::tables::Tables;

/// Holds a printed graph to a listing: right exactly when it is the listing's graph, byte for byte. The refusals are the
/// listing's, those of [`Cfg::build`](crate::Cfg::build), whatever the graph is; then 31, for a row that no graph prints or that
/// lacks its byte 10, and 32, for one that is in form but wrong, missing or one too many. The first row that is not the one due
/// decides.
///
/// ```
/// let listing = b"(module 0\n(line 10\n(goto 10)\n)\n)\n";
/// let graph = b"(graph 0 1\n(node 0 10 0 (0) (in) (succ 0) (pred 0))\n(entry 10 0)\n(returns)\n)\n";
/// assert_eq!(flowgraph::check(listing, graph), Ok(()));
///
/// let wrong = b"(graph 0 1\n(node 0 10 0 (0) (in) (succ) (pred))\n(entry 10 0)\n(returns)\n)\n";
/// let refused = flowgraph::check(listing, wrong).unwrap_err();
/// assert_eq!((refused.number, refused.place), (32, 1));
/// ```
pub fn check(listing: &[u8], graph: &[u8]) -> Result<(), Refusal> {
    Tables::for_listing(listing).check(listing, graph, &mut page())
}

/// On the heap: a thread's stack may be too short for it.
fn page() -> Box<[u8; ffi::PAGE_SIZE]> {
    vec![0; ffi::PAGE_SIZE].try_into().expect("so many bytes")
}
