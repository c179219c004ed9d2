//! Texts and numbers of a script. Each function answers `None` where there is none.

use std::num::NonZeroUsize;

/// The text with its escapes replaced.
pub fn text(writing: &str) -> Option<String> {
    let mut text = String::with_capacity(writing.len());
    let mut rest = writing;
    while let Some((before, after)) = rest.split_once('\\') {
        let (c, later) = escape(after)?;
        text.push_str(before);
        text.push(c);
        rest = later;
    }
    text.push_str(rest);
    Some(text)
}

/// The character of the escape that begins after a backslash, and what follows the escape.
fn escape(after: &str) -> Option<(char, &str)> {
    let mut rest = after.chars();
    match rest.next()? {
        'n' => Some(('\n', rest.as_str())),
        't' => Some(('\t', rest.as_str())),
        '\\' => Some(('\\', rest.as_str())),
        'u' => {
            let (digits, rest) = rest.as_str().strip_prefix('{')?.split_once('}')?;
            Some((character(digits)?, rest))
        }
        _ => None,
    }
}

/// The character that one to six hexadecimal digits name.
fn character(digits: &str) -> Option<char> {
    let are_digits = (1..=6).contains(&digits.len()) && digits.bytes().all(|digit| digit.is_ascii_hexdigit());
    are_digits.then(|| u32::from_str_radix(digits, 16).ok())?.and_then(char::from_u32)
}

/// Two texts, with the first ` | ` between them.
pub fn two_texts(writing: &str) -> Option<(String, String)> {
    let (one, other) = writing.split_once(" | ")?;
    Some((text(one)?, text(other)?))
}

/// A number in decimal digits, and nothing else.
pub fn number(digits: &str) -> Option<usize> {
    digits.bytes().all(|digit| digit.is_ascii_digit()).then(|| digits.parse().ok())?
}

/// A number that is at least 1.
pub fn size(digits: &str) -> Option<usize> {
    NonZeroUsize::new(number(digits)?).map(NonZeroUsize::get)
}

/// A number up to 255.
pub fn byte(digits: &str) -> Option<u8> {
    number(digits)?.try_into().ok()
}
