use crate::handle::buffer;
use crate::sys;
use crate::Error;
use std::error;
use std::ffi::c_char;
use std::fmt;

/// Why a script isn't rendered.
#[derive(Clone, Copy, Debug, PartialEq, Eq)]
pub struct ScriptError {
    /// The number of the line at fault, from 1, if one is.
    pub line: Option<usize>,
    /// What is wrong with it.
    pub error: Error,
}

impl fmt::Display for ScriptError {
    fn fmt(&self, f: &mut fmt::Formatter<'_>) -> fmt::Result {
        match self.line {
            Some(line) => write!(f, "line {line}: {}", self.error),
            None => self.error.fmt(f),
        }
    }
}

impl error::Error for ScriptError {
    fn source(&self) -> Option<&(dyn error::Error + 'static)> {
        Some(&self.error)
    }
}

impl From<Error> for ScriptError {
    fn from(error: Error) -> ScriptError {
        ScriptError { line: None, error }
    }
}

/// The text of a script, in the language that `docs/SCRIPT.md` teaches. The script may be any bytes. The text has no
/// control characters except the newlines that end lines.
///
/// ```
/// let text = text_block_renderer::render_script(b"new 8 plain\ntext Hello, world.\n")?;
/// assert_eq!(text, "Hello,\nworld.\n");
/// let fault = text_block_renderer::render_script(b"new 8 plain\ntext\n").unwrap_err();
/// assert_eq!(fault.to_string(), "line 2: not a command");
/// # Ok::<(), text_block_renderer::ScriptError>(())
/// ```
pub fn render_script(script: &[u8]) -> Result<String, ScriptError> {
    rendered(sys::tbr_render, script)
}

/// The text of a script, as the program `blockrender` writes it: control characters of prefixes, and of the targets in
/// footnotes, stay as they are.
///
/// ```
/// let text = text_block_renderer::render_script_raw(b"new 8 plain\nsub 3\ntext a\nappend \\u{1b} | \n")?;
/// assert_eq!(text, "\u{1b}a\n");
/// # Ok::<(), text_block_renderer::ScriptError>(())
/// ```
pub fn render_script_raw(script: &[u8]) -> Result<String, ScriptError> {
    rendered(sys::tbr_render_raw, script)
}

/// A call that writes as much of the text of a script as there is room for.
type Render = unsafe extern "C" fn(*const c_char, usize, *mut c_char, usize) -> sys::Answer;

/// The text that a call writes.
fn rendered(render: Render, script: &[u8]) -> Result<String, ScriptError> {
    let mut text = buffer(script.len())?;
    let mut length = render_into(render, script, &mut text)?;
    if length > text.len() {
        text = buffer(length)?;
        length = render_into(render, script, &mut text)?;
    }
    text.truncate(length);
    Ok(String::from_utf8(text).map_err(|_| Error::NotUtf8)?)
}

/// Writes as much of the text of a script as there is room for, and answers its length.
fn render_into(render: Render, script: &[u8], out: &mut [u8]) -> Result<usize, ScriptError> {
    // SAFETY: both slices have as many bytes as are told.
    let answer = unsafe { render(script.as_ptr().cast(), script.len(), out.as_mut_ptr().cast(), out.len()) };
    let line = Some(answer.line).filter(|&line| line > 0);
    Error::check(answer.status).map_err(|error| ScriptError { line, error })?;
    Ok(answer.length)
}
