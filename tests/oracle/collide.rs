//! Names whose 16-bit hashes collide in the original. Found through its answers alone:
//! `(for A static) (next plain B) (stop)` loops at node 1 only where A and B are one to it.
//! It gets every name cut, so the pairs of at most two characters are all that there are.

use crate::cfg::Cfg;
use crate::generate::NAMES;
use crate::listing::{Form, Line, Listing};
use crate::lower;
use std::collections::BTreeSet;

fn pair(open: &str, close: &str) -> Listing {
    let body = vec![
        Form::For(open.to_string(), "static".to_string()),
        Form::Next("plain".to_string(), vec![Some(close.to_string())]),
        Form::Bare("stop"),
    ];
    Listing { handlers: false, lines: vec![Line { number: 10, body }] }
}

fn one_to_the_original(a: &str, b: &str) -> bool {
    let module = lower::module(&pair(a, b), 0);
    let cfg = Cfg::build_with(&module, &module.marks);
    cfg.nodes[1].successors.contains(&1)
}

/// The pairs among some names.
fn pairs(names: &[String]) -> Vec<(&str, &str)> {
    let mut found = Vec::new();
    for (i, a) in names.iter().enumerate() {
        for b in &names[..i] {
            if one_to_the_original(a, b) {
                found.push((b.as_str(), a.as_str()));
            }
        }
    }
    found
}

/// Every cut name without a suffix: a suffix is kept apart in the original.
fn cut_names() -> Vec<String> {
    let letters: Vec<String> = ('A'..='Z').map(String::from).collect();
    let longer = letters.iter().flat_map(|n| ('A'..='Z').chain('0'..='9').map(move |c| format!("{n}{c}")));
    letters.iter().cloned().chain(longer).collect()
}

pub fn report() {
    let names = cut_names();
    let found = pairs(&names);
    for (a, b) in &found {
        println!("(pair {a} {b})");
    }
    println!("(names {} pairs {})", names.len(), found.len());
    let own: BTreeSet<String> = NAMES.concat().into_iter().map(lower::cut).collect();
    assert!(pairs(&Vec::from_iter(own)).is_empty(), "names of the generator collide");
}

/// Listings outside the domain that show the difference, both ways round; long names that are cut to such a pair too.
pub fn texts() -> Vec<Vec<u8>> {
    let known = [
        ("EU", "T9"), ("FR", "UE"), ("LQ", "MR"), ("QT", "RG"),
        ("EUROPE", "T9"), ("FRAME%", "UE%"), ("LQ$", "MR12$"), ("QTY", "RGB"),
    ];
    known.iter().flat_map(|(a, b)| [pair(a, b).text(), pair(b, a).text()]).collect()
}
