//! An owned renderer of the library, and the calls to it.

use crate::sys;
use crate::{Error, Options};
use std::ffi::c_char;
use std::ptr::{self, NonNull};

/// A renderer that is freed once.
pub struct Handle(NonNull<sys::Renderer>);

// SAFETY: a renderer may be used and freed on another thread than that which made it. The library has no state beside
// its renderers; what the parts of one share by counts that aren't atomic is inside that one alone, and what comes out
// of it is copied. Its memory comes from malloc. Calls at the same time would race, so it isn't `Sync`.
unsafe impl Send for Handle {}

/// A call without arguments.
pub type Call = unsafe extern "C" fn(*mut sys::Renderer) -> u32;
/// A call that takes a text.
pub type TextCall = unsafe extern "C" fn(*mut sys::Renderer, *const c_char, usize) -> u32;
/// A call that takes two texts.
pub type TwoTextsCall = unsafe extern "C" fn(*mut sys::Renderer, *const c_char, usize, *const c_char, usize) -> u32;

impl Handle {
    pub fn new(options: &Options) -> Result<Handle, Error> {
        let mut made = ptr::null_mut();
        // SAFETY: both references live through the call.
        Error::check(unsafe { sys::tbr_new(&options.to_sys(), &mut made) })?;
        NonNull::new(made).map(Handle).ok_or(Error::NoRenderer)
    }

    /// Makes a call with the renderer.
    pub fn call(&self, call: impl FnOnce(*mut sys::Renderer) -> u32) -> Result<(), Error> {
        Error::check(call(self.0.as_ptr()))
    }

    pub fn plain(&self, call: Call) -> Result<(), Error> {
        // SAFETY: the renderer is live until it is dropped.
        self.call(|it| unsafe { call(it) })
    }

    pub fn with_text(&self, call: TextCall, text: &str) -> Result<(), Error> {
        // SAFETY: the renderer is live, and the text has as many bytes as are told.
        self.call(|it| unsafe { call(it, text.as_ptr().cast(), text.len()) })
    }

    pub fn with_texts(&self, call: TwoTextsCall, one: &str, other: &str) -> Result<(), Error> {
        // SAFETY: as above, of both texts.
        self.call(|it| unsafe { call(it, one.as_ptr().cast(), one.len(), other.as_ptr().cast(), other.len()) })
    }

    /// The answer of a question whose call writes it.
    pub fn ask<T: Default>(&self, question: impl FnOnce(*mut sys::Renderer, &mut T) -> u32) -> Result<T, Error> {
        let mut answer = T::default();
        self.call(|it| question(it, &mut answer))?;
        Ok(answer)
    }

    /// The text that a call writes into a buffer, which has this much room at first, and then as much as the text
    /// takes.
    pub fn text(
        &self,
        room: usize,
        write: impl Fn(*mut sys::Renderer, *mut c_char, usize, &mut usize) -> u32,
    ) -> Result<String, Error> {
        let mut bytes = buffer(room)?;
        let mut length = 0;
        let mut written = self.call(|it| write(it, bytes.as_mut_ptr().cast(), bytes.len(), &mut length));
        if written == Err(Error::BufferTooSmall) {
            bytes = buffer(length)?;
            written = self.call(|it| write(it, bytes.as_mut_ptr().cast(), bytes.len(), &mut length));
        }
        written?;
        bytes.truncate(length);
        String::from_utf8(bytes).map_err(|_| Error::NotUtf8)
    }
}

/// As many zero bytes.
pub fn buffer(room: usize) -> Result<Vec<u8>, Error> {
    let mut bytes = Vec::new();
    bytes.try_reserve_exact(room).map_err(|_| Error::OutOfMemory)?;
    bytes.resize(room, 0);
    Ok(bytes)
}

impl Drop for Handle {
    fn drop(&mut self) {
        // SAFETY: the renderer is the library's, and isn't used after this.
        unsafe { sys::tbr_free(self.0.as_ptr()) }
    }
}
