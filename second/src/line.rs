//! The line and the column of a reader's refusal (02, T-01).

use crate::frame::Refusal;
use std::fmt::{self, Display, Formatter};

/// What a reader's refusal tells: its number, its place, and the line and column of that place. An acceptance is all 0.
#[derive(Clone, Copy, Debug, Default, PartialEq, Eq)]
pub struct Told {
    pub number: u32,
    pub place: u64,
    pub line: u64,
    pub column: u64,
}

/// The line and the column of a place in a text, both from 1: its end has those where the next byte would stand. LF
/// ends a line, and a column counts bytes.
pub fn line_and_column(text: &[u8], place: usize) -> (usize, usize) {
    let before: Vec<&[u8]> = text[..place].split(|byte| *byte == b'\n').collect();
    (before.len(), before[before.len() - 1].len() + 1)
}

impl Refusal {
    /// The refusal of this text, with its line and column.
    pub fn told(&self, text: &[u8]) -> Told {
        let (line, column) = line_and_column(text, self.place as usize);
        Told { number: self.number, place: self.place, line: line as u64, column: column as u64 }
    }
}

impl Display for Told {
    fn fmt(&self, out: &mut Formatter) -> fmt::Result {
        write!(out, "refused {} {} {} {}", self.number, self.place, self.line, self.column)
    }
}
