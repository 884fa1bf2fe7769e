//! Every frame question about a listing, one row an answer, and each node's opening word.

use crate::ast::OnBranchKind;
use crate::cfg::Cfg;
use crate::ir::Stmt;
use crate::listing::{Branch, Form, Listing};
use crate::lower;
use crate::print::spaced;
use std::collections::BTreeSet;
use std::fmt::Write;

/// Above this many nodes only some of them serve as headers.
const HEADERS: usize = 16;

/// `(stmt NODE WORD)` rows, then `(frame HEADER NODE NAME FLAG (NODE ..))` rows.
pub fn answers(listing: &Listing, salt: u64) -> String {
    let module = lower::module(listing, salt);
    let cfg = Cfg::build_with(&module, &module.marks);
    let count = cfg.nodes.len();
    let mut out = String::new();
    for node in 0..count {
        writeln!(out, "(stmt {node} {})", word(cfg.stmt_at(node, &module))).unwrap();
    }
    for header in (0..count).step_by(count / HEADERS + 1) {
        for node in 0..count {
            for name in names(listing) {
                for flag in [false, true] {
                    let var = lower::var(&name);
                    let kept = cfg.frame_successors(&module, header, node, &var, flag);
                    let (flag, kept) = (u8::from(flag), spaced(&kept));
                    writeln!(out, "(frame {header} {node} {name} {flag} ({kept}))").unwrap();
                }
            }
        }
    }
    out
}

/// The names that occur, as written and cut; one that is written nowhere and is cut to one of them; and one that is not cut to
/// any: it differs in its kind only where it can.
pub fn names(listing: &Listing) -> BTreeSet<String> {
    let mut names = written(listing);
    let cuts: BTreeSet<String> = names.iter().map(|n| lower::cut(n)).collect();
    let first = names.first().map_or("QU", |n| n.trim_end_matches(['%', '$'])).to_string();
    let others = ["", "%", "$"].iter().map(|kind| format!("{first}{kind}")).chain(('A'..='Z').rev().map(String::from));
    let other = others.into_iter().find(|n| !cuts.contains(&lower::cut(n))).expect("a further name");
    let longer = cuts.iter().rev().find_map(|cut| longer(cut, &names));
    names.extend(cuts);
    names.extend(longer);
    names.insert(other);
    names
}

/// The names that occur, as written.
pub fn written(listing: &Listing) -> BTreeSet<String> {
    let mut names = BTreeSet::new();
    listing.lines.iter().for_each(|l| collect(&l.body, &mut names));
    names
}

/// A name of eight characters that is cut to this one, if it has two.
fn longer(cut: &str, written: &BTreeSet<String>) -> Option<String> {
    let base = cut.trim_end_matches(['%', '$']);
    let kind = &cut[base.len()..];
    let mut names = ["ABCDEF", "012345"].iter().map(|rest| format!("{base}{rest}{kind}"));
    if base.len() == 2 { names.find(|n| !written.contains(n)) } else { None }
}

fn collect(body: &[Form], names: &mut BTreeSet<String>) {
    for form in body {
        match form {
            Form::For(name, _) => drop(names.insert(name.clone())),
            Form::Next(_, slots) => names.extend(slots.iter().flatten().cloned()),
            _ => {}
        }
        for branch in form.branches() {
            if let Branch::Stmts(inner) = branch {
                collect(inner, names);
            }
        }
    }
}

pub fn word(stmt: &Stmt) -> &'static str {
    match stmt {
        Stmt::If { .. } => "if",
        Stmt::IfElse { .. } => "ifelse",
        Stmt::Rcomp { .. } => "rcomp",
        Stmt::Goto { .. } => "goto",
        Stmt::GoSub { .. } => "gosub",
        Stmt::Return => "return",
        Stmt::Run(_) => "run",
        Stmt::OnBranch { kind: OnBranchKind::Goto, .. } => "ongoto",
        Stmt::OnBranch { kind: OnBranchKind::GoSub, .. } => "ongosub",
        Stmt::For { .. } => "for",
        Stmt::Next { .. } => "next",
        Stmt::Repeat => "repeat",
        Stmt::Loop => "loop",
        Stmt::Until { .. } => "until",
        Stmt::EndLoop => "endloop",
        Stmt::ExitLoop { cond: None } => "exit",
        Stmt::ExitLoop { cond: Some(_) } => "exitif",
        Stmt::DoIf { .. } => "doif",
        Stmt::Else => "else",
        Stmt::Done => "done",
        Stmt::Clr => "clr",
        Stmt::End | Stmt::Stop | Stmt::RaiseError(_) | Stmt::Hang => "stop",
        Stmt::ComputedGoto { .. } | Stmt::Resume { .. } | Stmt::ErrorRaise { .. } => "any",
        _ => "plain",
    }
}
