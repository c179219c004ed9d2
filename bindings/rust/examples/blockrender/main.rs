//! Reads a script from standard input, makes each of its calls by this crate, and writes the text, as `blockrender`
//! does. docs/SCRIPT.md teaches the language.

mod command;
mod refusal;
mod run;
mod text;

use refusal::Refusal;
use std::io::{self, Read, Write};
use std::process::ExitCode;

fn main() -> ExitCode {
    match answer() {
        Ok(()) => ExitCode::SUCCESS,
        Err(refusal) => {
            eprintln!("{refusal}");
            ExitCode::from(refusal.status())
        }
    }
}

fn answer() -> Result<(), Refusal> {
    let mut script = Vec::new();
    io::stdin().read_to_end(&mut script).map_err(|_| Refusal::ReadFailed)?;
    let text = run::text_of(&script)?;
    let mut out = io::stdout();
    out.write_all(text.as_bytes()).and_then(|()| out.flush()).map_err(|_| Refusal::WriteFailed)
}
