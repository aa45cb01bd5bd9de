//! Answers a list by the account.

use std::process::ExitCode;

use judge::account::Account;
use judge::command_line::program;
use judge::driver::{serve, Driver};

fn main() -> ExitCode {
    program("account", |arguments| {
        const USAGE: &str = "usage: account [(--original | --quiet-enable) [--fetches]] < LIST";
        let (account, others) = match arguments {
            ["--original", others @ ..] => (Account::Original, others),
            ["--quiet-enable", others @ ..] => (Account::QuietEnable, others),
            [] => (Account::Ours, arguments),
            _ => return Err(USAGE.into()),
        };
        serve(match others {
            [] => Driver::new(account),
            ["--fetches"] => Driver::fetching(account),
            _ => return Err(USAGE.into()),
        })?;
        Ok(ExitCode::SUCCESS)
    })
}
