//! What the library refuses.

use std::fmt;

/// A refusal: its number, and its place in the text, the program file or the graph, or the count that would have been needed.
#[derive(Debug, Clone, Copy, PartialEq, Eq, Hash)]
pub struct Refusal {
    /// 1 to 8 for the text, 1, 4 to 8 and 33 to 35 for a program file, 21 to 28 for tables and questions, 31 and 32 for a graph
    /// that is checked.
    pub number: u8,
    /// Counted from 0: a row for 2 to 8, of a program file its line, of the graph the row for 31 and 32, of a program file the byte
    /// for 33 to 35 (33 its length); a count for 21 to 23 and 28, the id for 24, else 0.
    pub place: usize,
}

impl Refusal {
    /// The refusal in words.
    pub fn meaning(&self) -> &'static str {
        match self.number {
            1 => "text or program file too long",
            2 => "not a form allowed here, or the text ends early",
            3 => "number above 65535 or with a leading zero, or no name where one is due",
            4 => "line number not above the last",
            5 => "more than 1,024 lines",
            6 => "more than 4,096 statements",
            7 => "statement too deep",
            8 => "more than 64 numbers or slots",
            21 => "line tables too short",
            22 => "node tables too short",
            23 => "edge tables too short, or more than 32,768 edges",
            24 => "no such node",
            25 => "a count or a record points outside its table",
            26 => "no statement at that path",
            27 => "inner statement not found",
            28 => "frame list longer than the slice",
            31 => "row that no graph prints, or without its byte 10",
            32 => "row wrong, missing or one too many",
            33 => "program file ends early",
            34 => "a byte 64 hexadecimal outside quotes, REM and DATA",
            35 => "no name, no line number up to 63999, or an IF without THEN or GOTO or what follows it",
            _ => "unknown refusal",
        }
    }
}

impl fmt::Display for Refusal {
    fn fmt(&self, f: &mut fmt::Formatter<'_>) -> fmt::Result {
        write!(f, "refused {} at {}: {}", self.number, self.place, self.meaning())
    }
}

impl std::error::Error for Refusal {}
