//! The opening words of the bracket form.

use std::fmt;

macro_rules! words {
    ($($variant:ident $text:literal,)*) => {
        /// An opening word. A statement's is any but `module`, `line`, `to` and `stmts`.
        #[derive(Debug, Clone, Copy, PartialEq, Eq, Hash)]
        pub enum Word {
            $(#[doc = concat!("`(", $text, "`")] $variant,)*
        }

        impl Word {
            /// All of them, in the library's order.
            pub const ALL: [Word; 28] = [$(Word::$variant,)*];

            /// The word as a listing has it.
            pub fn as_str(self) -> &'static str {
                match self {
                    $(Word::$variant => $text,)*
                }
            }
        }
    };
}

words! {
    Module "module",
    Line "line",
    If "if",
    IfElse "ifelse",
    Rcomp "rcomp",
    To "to",
    Stmts "stmts",
    Goto "goto",
    GoSub "gosub",
    Return "return",
    Run "run",
    OnGoto "ongoto",
    OnGoSub "ongosub",
    For "for",
    Next "next",
    Repeat "repeat",
    Loop "loop",
    Until "until",
    EndLoop "endloop",
    Exit "exit",
    ExitIf "exitif",
    DoIf "doif",
    Else "else",
    Done "done",
    Clr "clr",
    Stop "stop",
    Any "any",
    Plain "plain",
}

impl Word {
    pub(crate) fn at(index: usize) -> Option<Word> {
        Word::ALL.get(index).copied()
    }
}

impl fmt::Display for Word {
    fn fmt(&self, f: &mut fmt::Formatter<'_>) -> fmt::Result {
        f.write_str(self.as_str())
    }
}
