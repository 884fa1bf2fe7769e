//! The graph as document 01 prints it, with each node's holder (document 02, L5).

use crate::cfg::{Cfg, CfgNode};
use crate::listing::Listing;
use crate::lower;
use std::collections::HashMap;
use std::fmt::{Display, Write};

/// More edges than this are refusal 23, which is the port's own.
const EDGES: usize = 32_768;

pub fn graph(listing: &Listing, salt: u64) -> String {
    let module = lower::module(listing, salt);
    let cfg = Cfg::build_with(&module, &module.marks);
    let edges: usize = cfg.nodes.iter().map(|n| n.successors.len()).sum();
    if edges > EDGES {
        return format!("(refused 23 {edges})\n");
    }
    let mut out = format!("(graph {} {}\n", cfg.entry, cfg.nodes.len());
    for ((id, node), holder) in cfg.nodes.iter().enumerate().zip(holders(&cfg)) {
        node_row(&mut out, id, node, holder);
    }
    pairs(&mut out, "entry", &cfg.line_first);
    writeln!(out, "{}", list("returns", &cfg.return_targets)).unwrap();
    pairs(&mut out, "back", &cfg.gosub_continuations);
    out + ")\n"
}

/// Which IF holds each node: the node on its line whose path is the node's without the last number. The original has no holders,
/// so they are found by the paths that it gives.
pub fn holders(cfg: &Cfg) -> Vec<Option<usize>> {
    let place = |node: &CfgNode| (node.stmt.line_idx, node.stmt.path.clone());
    let ids: HashMap<_, usize> = cfg.nodes.iter().enumerate().map(|(id, node)| (place(node), id)).collect();
    assert_eq!(ids.len(), cfg.nodes.len(), "two nodes at one place");
    let holder = |node: &CfgNode| {
        let (line, mut path) = place(node);
        path.pop().expect("a path has a number");
        // Those of a line's own statements are of one number.
        (!path.is_empty()).then(|| *ids.get(&(line, path)).expect("a node at the path above"))
    };
    cfg.nodes.iter().map(holder).collect()
}

fn node_row(out: &mut String, id: usize, node: &CfgNode, holder: Option<usize>) {
    let path = spaced(&node.stmt.path);
    let held = list("in", holder.as_slice());
    let succ = list("succ", &node.successors);
    let pred = list("pred", &node.predecessors);
    let (number, index) = (node.line_no, node.stmt.line_idx);
    writeln!(out, "(node {id} {number} {index} ({path}) {held} {succ} {pred})").unwrap();
}

/// One row for each pair, by its first part.
fn pairs<K: Ord + Copy + Display>(out: &mut String, word: &str, map: &HashMap<K, usize>) {
    let mut sorted: Vec<(K, usize)> = map.iter().map(|(&k, &v)| (k, v)).collect();
    sorted.sort_unstable_by_key(|&(k, _)| k);
    for (key, node) in sorted {
        writeln!(out, "({word} {key} {node})").unwrap();
    }
}

fn list(word: &str, ids: &[usize]) -> String {
    ids.iter().fold(format!("({word}"), |row, id| format!("{row} {id}")) + ")"
}

pub fn spaced(ids: &[usize]) -> String {
    ids.iter().map(usize::to_string).collect::<Vec<_>>().join(" ")
}
