//! Answers a list by the account with a fault planted in it. Its only use is to test the judge.

use std::io::{self, Read, Write};
use std::process::ExitCode;

use judge::command_line::{program, Trouble};
use judge::faulty::{answers, FAULTS, SIZE_FAULTS};

fn run(arguments: &[&str]) -> Result<ExitCode, Trouble> {
    let faults = FAULTS.iter().map(|(_, name, wrong)| (*name, *wrong));
    let faults = faults.chain(SIZE_FAULTS);
    let Some((fault, _)) = faults.clone().find(|(name, _)| *arguments == [*name]) else {
        let usage = "usage: faulty FAULT < LIST > ANSWERS, where FAULT is one of";
        let faults = faults.map(|(name, wrong)| format!("\n  {name:24}{wrong}"));
        return Err(format!("{usage}{}", faults.collect::<String>()).into());
    };
    let mut list = Vec::new();
    io::stdin().lock().read_to_end(&mut list)?;
    io::stdout().lock().write_all(&answers(fault, list))?;
    Ok(ExitCode::SUCCESS)
}

fn main() -> ExitCode {
    program("faulty", run)
}
