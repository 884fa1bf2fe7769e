//! What a set of texts covers, so that a test that cannot fail is seen.

use crate::cfg::Cfg;
use crate::ir::Stmt;
use crate::frames;
use crate::listing::{self, Branch, Form, Listing};
use crate::lower;
use std::collections::{BTreeMap, BTreeSet, HashSet};

type Counts = BTreeMap<String, usize>;

pub fn report(texts: &[Vec<u8>]) {
    let mut counts = Counts::new();
    for text in texts {
        count(&mut counts, "texts", 1);
        match listing::read(text) {
            Err(_) => count(&mut counts, "texts no listing", 1),
            Ok(found) => {
                assert_eq!(&found.text(), text, "a listing prints as its text");
                one_listing(&mut counts, &found);
            }
        }
    }
    for (what, count) in counts {
        println!("{count:9} {what}");
    }
}

fn count(counts: &mut Counts, what: &str, by: usize) {
    *counts.entry(what.to_string()).or_default() += by;
}

fn one_listing(counts: &mut Counts, found: &Listing) {
    count(counts, "listings", 1);
    count(counts, &format!("listings with H {}", u8::from(found.handlers)), 1);
    count(counts, "lines", found.lines.len());
    let numbers: HashSet<u16> = found.lines.iter().map(|l| l.number).collect();
    let mut deepest = 0;
    for line in &found.lines {
        count(counts, "lines empty", usize::from(line.body.is_empty()));
        deepest = deepest.max(forms(counts, &numbers, &line.body, 0));
    }
    count(counts, &format!("listings of depth {deepest:02}"), 1);
    names(counts, found);
    graph(counts, found);
}

/// Written names that are one once they are cut, and whether the graph hangs on that.
fn names(counts: &mut Counts, found: &Listing) {
    let written = frames::written(found);
    let cuts: BTreeSet<String> = written.iter().map(|n| lower::cut(n)).collect();
    let fall_together = cuts.len() < written.len();
    count(counts, "listings with two names of one cut", usize::from(fall_together));
    if fall_together && written.len() <= 72 {
        let changes = successors(found) != successors(&kept_apart(found, &written));
        count(counts, "listings with another graph if names were not cut", usize::from(changes));
    }
}

fn successors(listing: &Listing) -> Vec<Vec<usize>> {
    let module = lower::module(listing, 0);
    let cfg = Cfg::build_with(&module, &module.marks);
    cfg.nodes.into_iter().map(|n| n.successors).collect()
}

/// The same listing with two characters of its own for each written name.
fn kept_apart(listing: &Listing, written: &BTreeSet<String>) -> Listing {
    let digits = "0123456789ABCDEFGHIJKLMNOPQRSTUVWXYZ".as_bytes();
    let other = |word: &str| match written.iter().position(|n| n == word) {
        Some(i) => {
            let kind = &word[word.trim_end_matches(['%', '$']).len()..];
            format!("{}{}{kind}", ["A", "B"][i / 36], char::from(digits[i % 36]))
        }
        None => word.to_string(),
    };
    let text = String::from_utf8(listing.text()).expect("a listing's bytes");
    let rows = text.lines().map(|row| {
        let words = row.trim_end_matches(')').split(' ').map(other).collect::<Vec<_>>().join(" ");
        format!("{words}{}\n", &row[row.trim_end_matches(')').len()..])
    });
    listing::read(rows.collect::<String>().as_bytes()).expect("a listing")
}

/// Counts words, branches and targets; answers the greatest depth.
fn forms(counts: &mut Counts, numbers: &HashSet<u16>, body: &[Form], depth: usize) -> usize {
    let mut deepest = depth;
    for form in body {
        count(counts, &format!("word {}", form.word()), 1);
        for target in targets(form) {
            let met = if numbers.contains(&target) { "met" } else { "missed" };
            count(counts, &format!("targets {met}"), 1);
        }
        for branch in form.branches() {
            match branch {
                Branch::To(_) => count(counts, "branches to", 1),
                Branch::Stmts(inner) if inner.is_empty() => count(counts, "branches empty", 1),
                Branch::Stmts(inner) => {
                    count(counts, "branches with statements", 1);
                    deepest = deepest.max(forms(counts, numbers, inner, depth + 1));
                }
            }
        }
    }
    deepest
}

fn targets(form: &Form) -> Vec<u16> {
    match form {
        Form::Goto(n) | Form::Gosub(n) | Form::Run(Some(n)) => vec![*n],
        Form::OnGoto(ns) | Form::OnGosub(ns) => ns.clone(),
        _ => Vec::new(),
    }
}

fn graph(counts: &mut Counts, found: &Listing) {
    let module = lower::module(found, 0);
    let cfg = Cfg::build_with(&module, &module.marks);
    let mut unmarked = module.marks.clone();
    unmarked.orphans.values_mut().flat_map(|m| m.values_mut()).for_each(|o| *o = false);
    let without = Cfg::build_with(&module, &unmarked);
    let edges = |c: &Cfg| c.nodes.iter().map(|n| n.successors.len()).sum::<usize>();
    count(counts, "nodes", cfg.nodes.len());
    count(counts, "edges", edges(&cfg));
    count(counts, "listings over 32768 edges", usize::from(edges(&cfg) > 32_768));
    count(counts, "edges by orphan NEXT", edges(&cfg) - edges(&without));
    count(counts, "listings with edges by orphan NEXT", usize::from(edges(&cfg) > edges(&without)));
    count(counts, "continuations", cfg.gosub_continuations.len());
    count(counts, "listings with H 1 outside the domain", usize::from(module.told));
    let h = u8::from(found.handlers);
    let mut longest = 0;
    for (id, node) in cfg.nodes.iter().enumerate() {
        match cfg.stmt_at(id, &module) {
            Stmt::Return => longest = longest.max(node.successors.len()),
            Stmt::Until {} | Stmt::EndLoop if node.successors.is_empty() => {
                count(counts, "closers without a way on", 1)
            }
            _ => {}
        }
    }
    let size = ["empty or none", "of one", "of two or more"][longest.min(2)];
    count(counts, &format!("listings with H {h}, longest RETURN list {size}"), 1);
    let descends = cfg.nodes.iter().any(|n| n.successors.windows(2).any(|w| w[0] > w[1]));
    count(counts, "listings with a list that is not ascending", usize::from(descends));
}
