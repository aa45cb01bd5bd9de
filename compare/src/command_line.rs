//! What the judge's programs have in common: how they take arguments and how they end.

use std::error::Error;
use std::process::ExitCode;

/// Why a program cannot do what it was asked. It ends with status 2, whatever it was to find out.
pub type Trouble = Box<dyn Error + Send + Sync>;

/// Runs a program on its arguments and ends it: with its own status, or with 2 and what the trouble is.
pub fn program(name: &str, run: impl FnOnce(&[&str]) -> Result<ExitCode, Trouble>) -> ExitCode {
    let arguments: Vec<String> = std::env::args_os()
        .skip(1)
        .map(|argument| argument.to_string_lossy().into_owned())
        .collect();
    let arguments: Vec<&str> = arguments.iter().map(String::as_str).collect();
    run(&arguments).unwrap_or_else(|trouble| {
        eprintln!("{name}: {trouble}");
        ExitCode::from(2)
    })
}

/// A number that was given as an argument.
pub fn number(argument: &str) -> Result<u64, Trouble> {
    let trouble = |_| format!("`{argument}` is to be a number");
    Ok(argument.parse().map_err(trouble)?)
}

pub fn read_file(name: &str) -> Result<Vec<u8>, Trouble> {
    Ok(std::fs::read(name).map_err(|error| format!("{name}: {error}"))?)
}
