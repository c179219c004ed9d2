use crate::sys;
use std::ffi::CStr;

/// The version of the library that runs, as `0.3.0`. A library that was built without its proofs has `+unproved` after
/// that.
///
/// ```
/// println!("text_block_renderer {}", text_block_renderer::version());
/// ```
pub fn version() -> &'static str {
    // SAFETY: the library answers a text that ends by a NUL, and lives as long as the library.
    unsafe { CStr::from_ptr(sys::tbr_version()) }.to_str().unwrap_or_default()
}

#[cfg(test)]
mod tests {
    use super::*;

    #[test]
    fn the_library_has_the_version_of_this_crate() {
        let version = version();
        assert_eq!(version.strip_suffix("+unproved").unwrap_or(version), env!("CARGO_PKG_VERSION"));
    }
}
