//! Prints a list of operations.

use std::io::{self, Write};
use std::process::ExitCode;

use judge::command_line::{number, program, Trouble};
use judge::format::Device;
use judge::generate::{exhaustive, format_cases, random, sizes, Options};

const USAGE: &str = "usage: generate KIND [OPTION..] > LIST
  KIND: exhaustive      every run of up to three operations, every offset
        random N SEED   N lines that get an answer, the same for the same seed
        format          every kind of line, well-formed and not
        sizes           ports of every size, filled and moved, every run of up to four operations on the smallest
  --devices NAME,..     of serial, clock and i8042; all three if it is not given
  --quiet-enable        without the writes of the interrupt enable register that announce
                        something in vm-superio 0.8.2
  --no-saves            without saved states
  --no-lines            without the question for the interrupt line
  --no-counters         without counters and lost bytes
  --no-flushes          of a random list: with no more writes of FCR than of any register
  --sizes               of a random list: with ports of all sizes, which vm-superio has not";

fn device(name: &str) -> Result<Device, Trouble> {
    let device = Device::ALL.into_iter().find(|device| device.word() == name);
    Ok(device.ok_or_else(|| format!("there is no device `{name}`"))?)
}

fn run(arguments: &[&str]) -> Result<ExitCode, Trouble> {
    let mut options = Options::default();
    let mut kind = Vec::new();
    let mut arguments = arguments.iter();
    while let Some(&argument) = arguments.next() {
        match argument {
            "--quiet-enable" => options.quiet_enable = true,
            "--no-saves" => options.saves = false,
            "--no-lines" => options.lines = false,
            "--no-counters" => options.counters = false,
            "--no-flushes" => options.flushes = false,
            "--sizes" => options.sizes = true,
            "--devices" => {
                let names = arguments.next().ok_or(USAGE)?.split(',');
                options.devices = names.map(device).collect::<Result<_, _>>()?;
            }
            _ => kind.push(argument),
        }
    }
    let list = match kind[..] {
        ["exhaustive"] => exhaustive::list(&options),
        ["random", count, seed] => random::list(&options, number(count)? as usize, number(seed)?),
        ["format"] => format_cases::list(&options),
        ["sizes"] => sizes::list(&options),
        _ => return Err(USAGE.into()),
    };
    io::stdout().lock().write_all(&list)?;
    Ok(ExitCode::SUCCESS)
}

fn main() -> ExitCode {
    program("generate", run)
}
