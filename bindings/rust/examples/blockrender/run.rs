use crate::command::{opening, Command};
use crate::refusal::Refusal;
use std::str;
use text_block_renderer::Renderer;

/// The text of a script.
pub fn text_of(script: &[u8]) -> Result<String, Refusal> {
    let lines: Vec<&[u8]> = script.strip_suffix(b"\n").unwrap_or(script).split(|&byte| byte == b'\n').collect();
    let end = if script.is_empty() { 1 } else { lines.len() + 1 };
    let mut commands = (1..end).zip(lines).filter(|(_, line)| !line.is_empty());
    let (number, first) = commands.next().ok_or(Refusal::NotACommand(end))?;
    let options = parsed(number, first, opening)?;
    let mut renderer = Renderer::new(&options).map_err(|error| Refusal::at(number, error))?;
    for (number, line) in commands {
        let command = parsed(number, line, Command::parse)?;
        command.run(&mut renderer).map_err(|error| Refusal::at(number, error))?;
    }
    renderer.into_string().map_err(|error| Refusal::at(end, error))
}

/// What a line is parsed as. One that isn't UTF-8 isn't a command.
fn parsed<T>(number: usize, line: &[u8], parse: fn(&str) -> Option<T>) -> Result<T, Refusal> {
    str::from_utf8(line).ok().and_then(parse).ok_or(Refusal::NotACommand(number))
}
