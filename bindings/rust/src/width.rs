use crate::sys;
use crate::{Error, WhiteSpace};

/// How much room something can use, in columns.
#[derive(Clone, Copy, Debug, PartialEq, Eq, Hash)]
pub struct Extent {
    /// The longest word: in fewer columns it is cut.
    pub longest_word: usize,
    /// The widest line: in as many columns no line is broken.
    pub widest_line: usize,
}

impl From<sys::Extent> for Extent {
    fn from(found: sys::Extent) -> Extent {
        Extent { longest_word: found.longest_word, widest_line: found.widest_line }
    }
}

/// How much room a text can use, in a mode of white space. Nothing is drawn.
///
/// ```
/// use text_block_renderer::{measure, Extent, WhiteSpace};
///
/// let extent = measure("bread and butter", WhiteSpace::Normal)?;
/// assert_eq!(extent, Extent { longest_word: 6, widest_line: 16 });
/// # Ok::<(), text_block_renderer::Error>(())
/// ```
pub fn measure(text: &str, mode: WhiteSpace) -> Result<Extent, Error> {
    let mut found = sys::Extent::default();
    // SAFETY: the text has as many bytes as are told, and the answer lives through the call.
    Error::check(unsafe { sys::tbr_measure_n(text.as_ptr().cast(), text.len(), mode as u32, &mut found) })?;
    Ok(found.into())
}

/// The columns of a text: the sum over its characters, as a renderer counts them. Control characters, as a tab or a
/// newline, take none. It refuses with `OutOfMemory` if the columns pass `usize`, and takes no memory.
///
/// ```
/// assert_eq!(text_block_renderer::text_width("cafe\u{301} 漢字")?, 9);
/// # Ok::<(), text_block_renderer::Error>(())
/// ```
pub fn text_width(text: &str) -> Result<usize, Error> {
    let mut columns = 0;
    // SAFETY: the text has as many bytes as are told, and the answer lives through the call.
    Error::check(unsafe { sys::tbr_text_width_n(text.as_ptr().cast(), text.len(), &mut columns) })?;
    Ok(columns)
}
