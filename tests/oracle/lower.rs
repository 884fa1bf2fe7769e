//! From the listing to the module that `cfg.rs` reads.
//!
//! `(stop)`, `(any)` and `(plain)` each stand for several original statements. Which one is
//! taken hangs on the position and a salt, and never changes the handler fact.
//!
//! Equality with the original speaks of listings whose names were cut first (document 02, L2),
//! so a name goes to it cut, that of a frame question too.

use crate::ast::{OnBranchKind, VarKind, VarName};
use crate::for_next_runtime::{ForTier, OrphanAnalysis};
use crate::ir::{Module, ModuleLine, Stmt, ThenIr, PLAIN};
use crate::listing::{Branch, Form, Listing};
use crate::random::mix;

pub fn module(listing: &Listing, salt: u64) -> Module {
    let room = handler_room(listing);
    let mut lower = Lower {
        salt,
        handlers: listing.handlers,
        made: 0,
        handler_at: if room > 0 { Some(mix(salt) as usize % room) } else { None },
        handler_words: 0,
        marks: OrphanAnalysis::default(),
    };
    let mut lines = Vec::new();
    for (index, line) in listing.lines.iter().enumerate() {
        let stmts = lower.stmts(&line.body, index, &[], 0);
        lines.push(ModuleLine { number: line.number, stmts });
    }
    let told = listing.handlers && room == 0;
    let module = Module { lines, marks: lower.marks, told };
    let fact = module.has_on_key() || module.has_error_continuation();
    assert_eq!(fact, listing.handlers, "the handler fact is the listing's");
    module
}

/// How many statements could be a handler word.
pub fn handler_room(listing: &Listing) -> usize {
    listing.lines.iter().map(|l| handler_words(&l.body)).sum()
}

fn handler_words(body: &[Form]) -> usize {
    let inner = |form: &Form| -> usize {
        form.branches()
            .iter()
            .map(|b| if let Branch::Stmts(inner) = b { handler_words(inner) } else { 0 })
            .sum()
    };
    let own = |form: &Form| usize::from(matches!(form, Form::Bare("plain" | "any")));
    body.iter().map(|f| own(f) + inner(f)).sum()
}

/// "Cuts a name to two characters and keeps its `%` or `$`"; the name is a good one.
pub fn cut(name: &str) -> String {
    let base = name.trim_end_matches(['%', '$']);
    let kind = &name[base.len()..];
    base.chars().take(2).chain(kind.chars()).collect()
}

/// The original's variable for a written name.
pub fn var(name: &str) -> VarName {
    let name = cut(name);
    let (base, kind) = match name.as_bytes()[name.len() - 1] {
        b'%' => (&name[..name.len() - 1], VarKind::Integer),
        b'$' => (&name[..name.len() - 1], VarKind::String),
        _ => (&name[..], VarKind::Float),
    };
    VarName { base: base.to_string(), kind }
}

struct Lower {
    salt: u64,
    handlers: bool,
    /// Statements made so far.
    made: u64,
    /// With handlers: which `(plain)` or `(any)` must be a handler word.
    handler_at: Option<usize>,
    handler_words: usize,
    marks: OrphanAnalysis,
}

impl Lower {
    fn stmts(&mut self, body: &[Form], line: usize, above: &[usize], first: usize) -> Vec<Stmt> {
        let mut out = Vec::new();
        for (i, form) in body.iter().enumerate() {
            let mut path = above.to_vec();
            path.push(first + i);
            out.push(self.stmt(form, line, path));
        }
        out
    }

    fn stmt(&mut self, form: &Form, line: usize, path: Vec<usize>) -> Stmt {
        self.made += 1;
        match form {
            Form::If(then) => Stmt::If { then: self.branch(then, line, &path, 0) },
            Form::IfElse(then, other) => {
                let then_ir = self.branch(then, line, &path, 0);
                let else_then = self.branch(other, line, &path, direct(then));
                Stmt::IfElse { then: then_ir, else_then }
            }
            Form::Rcomp(then, other) => {
                let then_ir = self.branch(then, line, &path, 0);
                let first = direct(then);
                let else_then = other.as_ref().map(|b| self.branch(b, line, &path, first));
                Stmt::Rcomp { then: then_ir, else_then }
            }
            Form::Goto(n) => Stmt::Goto { target: *n },
            Form::Gosub(n) => Stmt::GoSub { target: *n },
            Form::Run(n) => Stmt::Run(*n),
            Form::OnGoto(ns) => on(OnBranchKind::Goto, ns),
            Form::OnGosub(ns) => on(OnBranchKind::GoSub, ns),
            Form::For(name, tier) => self.for_stmt(name, tier, line, path),
            Form::Next(mark, slots) => {
                self.marks.orphans.entry(line).or_default().insert(path, mark == "orphan");
                Stmt::Next { vars: slots.iter().map(|s| s.as_deref().map(var)).collect() }
            }
            Form::Bare(word) => self.bare(word),
        }
    }

    fn branch(&mut self, branch: &Branch, line: usize, path: &[usize], first: usize) -> ThenIr {
        match branch {
            Branch::To(n) => ThenIr::Goto(*n),
            Branch::Stmts(inner) => ThenIr::Stmts(self.stmts(inner, line, path, first)),
        }
    }

    fn for_stmt(&mut self, name: &str, tier: &str, line: usize, path: Vec<usize>) -> Stmt {
        let tier = match tier {
            "static" => ForTier::Static,
            "framed" => ForTier::Framed,
            _ => ForTier::Dispatched,
        };
        self.marks.tiers.entry(line).or_default().insert(path, tier);
        Stmt::For { var: var(name) }
    }

    fn bare(&mut self, word: &str) -> Stmt {
        match word {
            "return" => Stmt::Return,
            "repeat" => Stmt::Repeat,
            "loop" => Stmt::Loop,
            "until" => Stmt::Until {},
            "endloop" => Stmt::EndLoop,
            "exit" => Stmt::ExitLoop { cond: None },
            "exitif" => Stmt::ExitLoop { cond: Some(()) },
            "doif" => Stmt::DoIf {},
            "else" => Stmt::Else,
            "done" => Stmt::Done,
            "clr" => Stmt::Clr,
            "stop" => self.stop(),
            "any" => self.any(),
            _ => self.plain(),
        }
    }

    fn chosen(&self, of: usize) -> usize {
        (mix(self.made ^ (self.salt << 20)) % of as u64) as usize
    }

    fn stop(&self) -> Stmt {
        match self.chosen(4) {
            0 => Stmt::End,
            1 => Stmt::Stop,
            2 => Stmt::RaiseError(()),
            _ => Stmt::Hang,
        }
    }

    /// Whether this `(plain)` or `(any)` must be the handler word.
    fn handler_due(&mut self) -> bool {
        self.handler_words += 1;
        self.handlers && self.handler_at == Some(self.handler_words - 1)
    }

    fn any(&mut self) -> Stmt {
        if self.handler_due() {
            return Stmt::Resume {};
        }
        match self.chosen(if self.handlers { 3 } else { 2 }) {
            0 => Stmt::ComputedGoto {},
            1 => Stmt::ErrorRaise {},
            _ => Stmt::Resume {},
        }
    }

    fn plain(&mut self) -> Stmt {
        if self.handler_due() {
            return if self.chosen(2) == 0 { Stmt::OnKey } else { Stmt::OnError };
        }
        let at = self.chosen(if self.handlers { PLAIN.len() + 2 } else { PLAIN.len() });
        match at.checked_sub(PLAIN.len()) {
            None => PLAIN[at].clone(),
            Some(0) => Stmt::OnKey,
            Some(_) => Stmt::OnError,
        }
    }
}

fn direct(branch: &Branch) -> usize {
    if let Branch::Stmts(inner) = branch { inner.len() } else { 0 }
}

fn on(kind: OnBranchKind, targets: &[u16]) -> Stmt {
    Stmt::OnBranch { kind, targets: targets.to_vec() }
}
