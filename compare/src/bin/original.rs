//! Answers a list by vm-superio itself, versions 0.7.0 to 0.8.2.

#[path = "../original/host.rs"]
mod host;

mod original {
    use vm_superio as api;
    include!("../original/monitor.rs");
    include!("../original/events.rs");
}

use std::process::ExitCode;
use std::rc::Rc;

use judge::command_line::program;
use judge::driver::{serve_ahead, Driver};

fn main() -> ExitCode {
    program("original", |arguments| {
        let monitor = original::Monitor(Rc::default());
        serve_ahead(match arguments {
            [] => Driver::new(monitor),
            ["--fetches"] => Driver::fetching(monitor),
            _ => return Err("usage: original [--fetches] < LIST > ANSWERS".into()),
        })?;
        Ok(ExitCode::SUCCESS)
    })
}
