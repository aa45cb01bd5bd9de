//! Compares two answerers on a list. Status 0: they agree. 1: they differ. 2: that cannot be said.

use std::process::ExitCode;
use std::time::Duration;

use judge::answerer::Answerer;
use judge::command_line::{number, program, read_file, Trouble};
use judge::difference::Pair;
use judge::format::asking_lines;

const USAGE: &str = "usage: compare [--limit SECONDS] [--rows] LEFT RIGHT LIST
  LEFT, RIGHT  `original`, `account`, `recorded:FILE`, or the program to run; its arguments may
               follow it in the same word, as in 'account --original'
  LIST         a file
  --limit      how long an answerer may take for a list (120)
  --rows       LEFT is vm-superio, and both differ where the rows say so, and nowhere else";

fn run(arguments: &[&str]) -> Result<ExitCode, Trouble> {
    let (seconds, arguments) = match arguments {
        ["--limit", seconds, others @ ..] => (number(seconds)?, others),
        _ => (120, arguments),
    };
    let (rows, [left, right, list]) = match arguments {
        ["--rows", left, right, list] => (true, [left, right, list]),
        [left, right, list] => (false, [left, right, list]),
        _ => return Err(USAGE.into()),
    };
    let pair = Pair {
        left: Answerer::named(left)?,
        right: Answerer::named(right)?,
        rows,
        limit: Duration::from_secs(seconds),
    };
    let questions = read_file(list)?;
    let Some(difference) = pair.compare(&questions)? else {
        let lines = asking_lines(&questions).count();
        println!("agree: {left} and {right} on {lines} lines");
        return Ok(ExitCode::SUCCESS);
    };
    let line = difference.line_number;
    println!("differ: {left} and {right}, first at line {line} of {list}");
    print!("{}", difference.shown);
    Ok(ExitCode::from(1))
}

fn main() -> ExitCode {
    program("compare", run)
}
