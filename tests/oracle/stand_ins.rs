//! The few types that `cfg.rs` takes from its crate, cut down to what it reads.

pub mod ast {
    #[derive(Debug, Clone, PartialEq, Eq, Hash)]
    pub struct VarName {
        pub base: String,
        pub kind: VarKind,
    }

    #[derive(Debug, Clone, Copy, PartialEq, Eq, Hash)]
    pub enum VarKind {
        Float,
        Integer,
        String,
    }

    #[derive(Debug, Clone, Copy, PartialEq, Eq)]
    pub enum OnBranchKind {
        Goto,
        GoSub,
    }
}

pub mod for_next_runtime {
    use crate::ir::Module;
    use std::collections::HashMap;

    #[derive(Debug, Clone, Copy, PartialEq, Eq)]
    pub enum ForTier {
        Static,
        Framed,
        Dispatched,
    }

    /// By line index, then path: the listing's own tiers and marks.
    type ByPath<T> = HashMap<usize, HashMap<Vec<usize>, T>>;

    #[derive(Debug, Clone, Default)]
    pub struct OrphanAnalysis {
        pub tiers: ByPath<ForTier>,
        pub orphans: ByPath<bool>,
    }

    /// A statement that was not marked is a fault of the harness and panics.
    impl OrphanAnalysis {
        pub fn for_tier(&self, _line_no: u16, line_idx: usize, path: &[usize]) -> ForTier {
            self.tiers[&line_idx][path]
        }

        pub fn is_orphan_next(&self, _line_no: u16, line_idx: usize, path: &[usize]) -> bool {
            self.orphans[&line_idx][path]
        }
    }

    pub fn analyze(module: &Module) -> OrphanAnalysis {
        module.marks.clone()
    }

    pub struct ForNextModel;

    impl crate::analysis::Analysis for ForNextModel {
        type Output = OrphanAnalysis;
        fn name(&self) -> &'static str {
            "for_next"
        }
        fn run(&self, m: &Module, _deps: &mut crate::analysis::Registry) -> OrphanAnalysis {
            analyze(m)
        }
    }
}

/// Only so that `cfg.rs` compiles; nothing here runs an analysis.
pub mod analysis {
    use crate::ir::Module;

    #[allow(dead_code)]
    pub trait Analysis {
        type Output;
        fn name(&self) -> &'static str;
        fn run(&self, m: &Module, deps: &mut Registry) -> Self::Output;
    }

    pub struct Registry;

    impl Registry {
        pub fn get<A: Analysis>(&mut self, _m: &Module, _a: &A) -> &A::Output {
            unreachable!("no analysis is registered here")
        }
    }
}

pub mod ir {
    use super::ast::{OnBranchKind, VarName};
    use super::for_next_runtime::OrphanAnalysis;

    /// The statements that `cfg.rs` names, and as bare names all those that it does not.
    macro_rules! statements {
        ($($plain:ident)*) => {
            #[derive(Debug, Clone)]
            pub enum Stmt {
                If { then: ThenIr },
                IfElse { then: ThenIr, else_then: ThenIr },
                Rcomp { then: ThenIr, else_then: Option<ThenIr> },
                Goto { target: u16 },
                GoSub { target: u16 },
                Return,
                Run(Option<u16>),
                OnBranch { kind: OnBranchKind, targets: Vec<u16> },
                For { var: VarName },
                Next { vars: Vec<Option<VarName>> },
                Repeat,
                Loop,
                Until {},
                EndLoop,
                ExitLoop { cond: Option<()> },
                DoIf {},
                Else,
                Done,
                Clr,
                End,
                Stop,
                RaiseError(()),
                Hang,
                ComputedGoto {},
                Resume {},
                ErrorRaise {},
                OnKey,
                OnError,
                $($plain),*
            }

            /// `(plain)` without the two handler words.
            pub const PLAIN: &[Stmt] = &[$(Stmt::$plain),*];
        };
    }

    statements! {
        Let LetStr ArrayLet ArrayLetStr Reset Read Input InputFile Poke Dpoke PokeFill ScreenRect
        ScreenMove ScreenScroll Color MobEnable Multi HiCol MultiColors Hires Border Line Block
        Rec Draw DrawTo Paint Circle Char Text Rot DrawString Angl Sound Envelope Wave Music Play
        Flash Bflash LowCol Mod Dup Copy ScrSave ScrLoad ScrDef ScrRestore MemClr MemTransfer
        MemDef MemLen MemC64Addr MemReuPos MemRestore MemCont Design Mmob MmobGlide MobSet
        Rlocmob Detect Cmob Bckgnds Cset Pause Sys Wait Open Close GetFile Print PrintFile Cmd
        UseFormat UseFormatDyn Load Verify Save Disk DefFn Fetch KeySet Dim Do DoNull Disable Nrm
        HardCopy Cold Retrace MemModeOn Rem LineMark Data KeyGet DisplayKeys SwapStr Restore Get
        InsertBox
    }

    #[derive(Debug, Clone)]
    pub enum ThenIr {
        Goto(u16),
        Stmts(Vec<Stmt>),
    }

    pub struct ModuleLine {
        pub number: u16,
        pub stmts: Vec<Stmt>,
    }

    pub struct Module {
        pub lines: Vec<ModuleLine>,
        pub marks: OrphanAnalysis,
        /// The listing says 1 and has no word that could be a handler: outside the domain.
        pub told: bool,
    }

    impl Module {
        pub fn has_on_key(&self) -> bool {
            self.has(&|s| matches!(s, Stmt::OnKey))
        }

        pub fn has_error_continuation(&self) -> bool {
            self.told || self.has(&|s| matches!(s, Stmt::OnError | Stmt::Resume { .. }))
        }

        fn has(&self, wanted: &dyn Fn(&Stmt) -> bool) -> bool {
            self.lines.iter().any(|l| any_of(&l.stmts, wanted))
        }
    }

    fn any_of(stmts: &[Stmt], wanted: &dyn Fn(&Stmt) -> bool) -> bool {
        stmts.iter().any(|s| {
            wanted(s)
                || match s {
                    Stmt::If { then } => in_branch(then, wanted),
                    Stmt::IfElse { then, else_then } => {
                        in_branch(then, wanted) || in_branch(else_then, wanted)
                    }
                    Stmt::Rcomp { then, else_then } => {
                        in_branch(then, wanted)
                            || else_then.as_ref().is_some_and(|b| in_branch(b, wanted))
                    }
                    _ => false,
                }
        })
    }

    fn in_branch(branch: &ThenIr, wanted: &dyn Fn(&Stmt) -> bool) -> bool {
        match branch {
            ThenIr::Goto(_) => false,
            ThenIr::Stmts(inner) => any_of(inner, wanted),
        }
    }
}
