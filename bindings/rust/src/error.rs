use std::error;
use std::fmt;

/// Why a call did nothing.
#[derive(Clone, Copy, Debug, PartialEq, Eq, Hash)]
#[non_exhaustive]
pub enum Error {
    /// Memory was refused, or a size passes `usize`. A renderer keeps this refusal.
    OutOfMemory,
    /// A word holds a character that is wider than the line. This never happens in lines of two columns or more. A
    /// renderer keeps this refusal.
    TooNarrow,
    /// A line of a script isn't a command, or isn't allowed there.
    NotACommand,
    /// In the open level, nothing is open that the call could end.
    NothingToEnd,
    /// The cells of a row are in the way of cells that overhang from the rows above.
    RowDoesNotFit,
    /// Bytes that aren't UTF-8.
    NotUtf8,
    /// A width of 0 columns.
    BadWidth,
    /// A span of 0 rows, or a number that the library has no meaning for.
    BadArgument,
    /// Inside what the call would end, a level is open, or cells wait for a row.
    StillOpen,
    /// The renderer is finished.
    Finished,
    /// The renderer isn't finished.
    NotFinished,
    /// There is no line.
    NoLine,
    /// The line has no such piece, or the piece has no such annotation.
    NoPiece,
    /// A text has more bytes than the buffer has room for.
    BufferTooSmall,
    /// There is no renderer.
    NoRenderer,
    /// A table is open that finds its widths, and the call has to wait for its end, or for a cell.
    InTable,
    /// No such table is open that could take a cell.
    NoTable,
    /// A status of a later version of the library.
    Unknown(u32),
}

impl Error {
    /// The error of a status. Not all of them are answered by a call of this crate.
    pub(crate) fn check(status: u32) -> Result<(), Error> {
        Err(match status {
            0 => return Ok(()),
            1 => Error::OutOfMemory,
            2 => Error::TooNarrow,
            3 => Error::NotACommand,
            4 => Error::NothingToEnd,
            5 => Error::RowDoesNotFit,
            6 => Error::NotUtf8,
            7 => Error::BadWidth,
            8 => Error::BadArgument,
            9 => Error::StillOpen,
            10 => Error::Finished,
            11 => Error::NotFinished,
            12 => Error::NoLine,
            13 => Error::NoPiece,
            14 => Error::BufferTooSmall,
            15 => Error::NoRenderer,
            16 => Error::InTable,
            17 => Error::NoTable,
            other => Error::Unknown(other),
        })
    }
}

impl fmt::Display for Error {
    fn fmt(&self, f: &mut fmt::Formatter<'_>) -> fmt::Result {
        f.write_str(match self {
            Error::OutOfMemory => "out of memory",
            Error::TooNarrow => "too narrow",
            Error::NotACommand => "not a command",
            Error::NothingToEnd => "nothing to end",
            Error::RowDoesNotFit => "row does not fit",
            Error::NotUtf8 => "not UTF-8",
            Error::BadWidth => "a width of 0 columns",
            Error::BadArgument => "bad argument",
            Error::StillOpen => "a level is open or cells wait",
            Error::Finished => "the renderer is finished",
            Error::NotFinished => "the renderer is not finished",
            Error::NoLine => "no line",
            Error::NoPiece => "no such piece",
            Error::BufferTooSmall => "the buffer is too small",
            Error::NoRenderer => "no renderer",
            Error::InTable => "a table is open",
            Error::NoTable => "no table is open",
            Error::Unknown(status) => return write!(f, "status {status}"),
        })
    }
}

impl error::Error for Error {}

#[cfg(test)]
mod tests {
    use super::*;
    use crate::sys;
    use std::ffi::CStr;

    #[test]
    fn each_status_has_the_words_of_the_library() {
        for status in 1..=17 {
            // SAFETY: the library answers a text that ends by a NUL, and lives as long as the library.
            let words = unsafe { CStr::from_ptr(sys::tbr_status_text(status)) };
            assert_eq!(
                Error::check(status).map_err(|error| error.to_string()),
                Err(words.to_str().unwrap().to_owned())
            );
        }
        assert_eq!(Error::check(0), Ok(()));
        assert_eq!(Error::check(18), Err(Error::Unknown(18)));
    }
}
