use std::fmt;
use text_block_renderer::Error;

/// Why a script isn't rendered. A number is that of the line at fault, from 1.
#[derive(Clone, Copy, Debug)]
pub enum Refusal {
    TooNarrow,
    OutOfMemory,
    NotACommand(usize),
    NothingToEnd(usize),
    RowDoesNotFit(usize),
    ReadFailed,
    WriteFailed,
}

impl Refusal {
    /// The refusal of a call for the line of this number. A line that closes something while more is open inside it
    /// isn't a command of the language.
    pub fn at(number: usize, error: Error) -> Refusal {
        match error {
            Error::TooNarrow => Refusal::TooNarrow,
            Error::OutOfMemory => Refusal::OutOfMemory,
            Error::NothingToEnd => Refusal::NothingToEnd(number),
            Error::RowDoesNotFit => Refusal::RowDoesNotFit(number),
            _ => Refusal::NotACommand(number),
        }
    }

    pub fn status(self) -> u8 {
        match self {
            Refusal::TooNarrow | Refusal::OutOfMemory => 1,
            Refusal::NotACommand(_) | Refusal::NothingToEnd(_) | Refusal::RowDoesNotFit(_) => 2,
            Refusal::ReadFailed | Refusal::WriteFailed => 3,
        }
    }
}

impl fmt::Display for Refusal {
    fn fmt(&self, f: &mut fmt::Formatter<'_>) -> fmt::Result {
        match self {
            Refusal::TooNarrow => f.write_str("too narrow"),
            Refusal::OutOfMemory => f.write_str("out of memory"),
            Refusal::NotACommand(number) => write!(f, "line {number}: not a command"),
            Refusal::NothingToEnd(number) => write!(f, "line {number}: nothing to end"),
            Refusal::RowDoesNotFit(number) => write!(f, "line {number}: row does not fit"),
            Refusal::ReadFailed => f.write_str("read failed"),
            Refusal::WriteFailed => f.write_str("write failed"),
        }
    }
}
