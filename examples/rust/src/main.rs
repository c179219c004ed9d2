//! Prints a CSV file as a report: a table with columns as wide as their content, and numbers at the right.
//!
//! ```sh
//! cargo run -- [--width N] FILE
//! ```

mod csv;
mod report;

use std::env;
use std::error::Error;
use std::fs;
use std::path::PathBuf;
use std::process::ExitCode;

const USAGE: &str = "usage: report [--width N] FILE";

/// What is asked for on the command line.
struct Given {
    width: usize,
    file: PathBuf,
}

fn main() -> ExitCode {
    match run() {
        Ok(text) => {
            print!("{text}");
            ExitCode::SUCCESS
        }
        Err(error) => {
            eprintln!("report: {error}");
            ExitCode::FAILURE
        }
    }
}

fn run() -> Result<String, Box<dyn Error>> {
    let given = arguments(env::args().skip(1)).ok_or(USAGE)?;
    let records = csv::records(&fs::read_to_string(&given.file)?)?;
    let title = given.file.file_stem().unwrap_or_default().to_string_lossy();
    Ok(report::report(&title, &records, given.width)?)
}

/// The arguments, if they are right.
fn arguments(mut words: impl Iterator<Item = String>) -> Option<Given> {
    let mut width = 72;
    let mut file = None;
    while let Some(word) = words.next() {
        match word.as_str() {
            "--width" => width = words.next()?.parse().ok().filter(|&columns| columns > 0)?,
            _ if file.is_none() => file = Some(PathBuf::from(word)),
            _ => return None,
        }
    }
    Some(Given { width, file: file? })
}
