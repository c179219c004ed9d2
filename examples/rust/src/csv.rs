//! Comma-separated values, as of RFC 4180.

use std::error::Error;
use std::fmt;
use std::iter::Peekable;
use std::str::Chars;

/// A quoted field in the record of this number, from 1, has no end.
#[derive(Debug, PartialEq, Eq)]
pub struct OpenQuote(pub usize);

impl fmt::Display for OpenQuote {
    fn fmt(&self, f: &mut fmt::Formatter<'_>) -> fmt::Result {
        write!(f, "record {} has a quote that isn't closed", self.0)
    }
}

impl Error for OpenQuote {}

/// The records of a text, each a list of fields. An empty line is none.
pub fn records(text: &str) -> Result<Vec<Vec<String>>, OpenQuote> {
    let mut rest = text.chars().peekable();
    let mut records = Vec::new();
    while rest.peek().is_some() {
        let record = record(&mut rest).ok_or(OpenQuote(records.len() + 1))?;
        if record.iter().any(|field| !field.is_empty()) {
            records.push(record);
        }
    }
    Ok(records)
}

/// The fields up to the end of a line, which is taken too.
fn record(rest: &mut Peekable<Chars<'_>>) -> Option<Vec<String>> {
    let mut fields = vec![field(rest)?];
    while rest.next_if_eq(&',').is_some() {
        fields.push(field(rest)?);
    }
    rest.next_if_eq(&'\r');
    rest.next_if_eq(&'\n');
    Some(fields)
}

/// A field, with or without quotes about it.
fn field(rest: &mut Peekable<Chars<'_>>) -> Option<String> {
    let mut field = String::new();
    if rest.next_if_eq(&'"').is_some() {
        while let Some(c) = quoted(rest)? {
            field.push(c);
        }
    }
    while let Some(c) = rest.next_if(|c| !matches!(c, ',' | '\r' | '\n')) {
        field.push(c);
    }
    Some(field)
}

/// The next character of a quoted field, where two quotes are one, or nothing at its end.
fn quoted(rest: &mut Peekable<Chars<'_>>) -> Option<Option<char>> {
    match rest.next()? {
        '"' => Some(rest.next_if_eq(&'"')),
        c => Some(Some(c)),
    }
}

#[cfg(test)]
mod tests {
    use super::*;

    #[test]
    fn fields_stand_between_commas() {
        assert_eq!(records("a,b\n\n1,\r\n"), Ok(vec![vec!["a".into(), "b".into()], vec!["1".into(), "".into()]]));
    }

    #[test]
    fn quotes_hold_commas_newlines_and_quotes() {
        assert_eq!(records("\"a, \"\"b\"\"\nc\",d"), Ok(vec![vec!["a, \"b\"\nc".into(), "d".into()]]));
        assert_eq!(records("a\n\"b"), Err(OpenQuote(2)));
    }
}
