//! Sheets as text and back: `sheet-text write` turns text into a sheet, `sheet-text show` a sheet into text.
//! Both read standard input and write standard output; status 0 done, 2 a plain message on standard error.
//! Only the form is judged here: whether a sheet is sound, the library says.

mod read;
mod show;

use std::io::{self, Read, Write};
use std::process::ExitCode;

/// As much as the largest counts in a header can name; longer input is refused before it fills the memory.
const LONGEST: u64 = 1 << 20;

fn input() -> Result<Vec<u8>, String> {
    let mut bytes = Vec::new();
    io::stdin()
        .take(LONGEST + 1)
        .read_to_end(&mut bytes)
        .map_err(|e| format!("cannot read: {e}"))?;
    match bytes.len() as u64 > LONGEST {
        true => Err("the input is longer than a million bytes: no sheet is".to_string()),
        false => Ok(bytes),
    }
}

fn words() -> Result<String, String> {
    match String::from_utf8(input()?) {
        Ok(text) if !text.contains('\0') => Ok(text),
        _ => Err("this is not text".to_string()),
    }
}

fn convert(command: &str) -> Result<Vec<u8>, String> {
    match command {
        "write" => read::sheet(&words()?),
        "show" => show::text(&input()?).map(String::into_bytes),
        _ => Err("usage: sheet-text write | sheet-text show".to_string()),
    }
}

fn main() -> ExitCode {
    let command = std::env::args().nth(1).unwrap_or_default();
    let done = convert(&command).and_then(|bytes| {
        io::stdout()
            .write_all(&bytes)
            .map_err(|e| format!("cannot write: {e}"))
    });
    match done {
        Ok(()) => ExitCode::SUCCESS,
        Err(message) => {
            eprintln!("{message}");
            ExitCode::from(2)
        }
    }
}
