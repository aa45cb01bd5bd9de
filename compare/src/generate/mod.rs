//! Makes lists of operations.

mod accesses;
pub mod exhaustive;
pub mod format_cases;
pub mod malformed;
pub mod numbers;
pub mod random;
pub mod sizes;
pub mod states;

use crate::account::Account;
use crate::driver::Driver;
use crate::format::{self, Device, Operation};

/// What a list may hold. The default is everything that vm-superio has, too.
#[derive(Clone)]
pub struct Options {
    pub devices: Vec<Device>,
    /// Leave out the writes of the interrupt enable register that might announce.
    pub quiet_enable: bool,
    /// Save and restore states. A list without is the one that the same seed made before there were any.
    pub saves: bool,
    /// Ask for the line, and more about interrupts. As for states, a list without is an older one.
    pub lines: bool,
    /// Ask for the counters, and lose bytes. The same holds.
    pub counters: bool,
    /// Write FCR where the receiver is at a limit, and among what interrupts depend on. The same holds; but some of its
    /// writes were always there, among all others.
    pub flushes: bool,
    /// Make ports of all sizes. vm-superio has none but the usual one.
    pub sizes: bool,
}

impl Default for Options {
    fn default() -> Self {
        Options {
            devices: Device::ALL.to_vec(),
            quiet_enable: false,
            saves: true,
            lines: true,
            counters: true,
            flushes: true,
            sizes: false,
        }
    }
}

/// Whether a line, after those that the driver has answered, is a write of the interrupt enable register
/// that might announce.
///
/// Since vm-superio 0.8.2 such a write announces what is pending: received data if bytes wait, then
/// transmitter empty. Before, the register was only stored. A write that enables nothing of the
/// transmitter's while no byte waits is the same in both; all others are left out of a list on which
/// devices that announce are compared with an older original.
pub fn announces(driver: &Driver<Account>, line: &[u8]) -> bool {
    let Some(Operation::WriteByte(1, value)) = format::parse(line) else {
        return false;
    };
    driver
        .port()
        .is_some_and(|port| !port.divisor_is_open() && (value & 0x02 != 0 || port.waits()))
}

/// A list that is being written.
pub struct List {
    options: Options,
    /// The account, as the list leaves it.
    driver: Driver<Account>,
    /// How many lines get an answer.
    asking: usize,
    text: Vec<u8>,
}

impl List {
    pub fn new(options: &Options) -> Self {
        // An older list was written when nothing was thrown away.
        let driver = match (options.sizes, options.flushes) {
            (true, _) => Driver::new(Account::Ours),
            (false, true) => Driver::fetching(Account::Original),
            (false, false) => Driver::new(Account::Original),
        };
        List {
            options: options.clone(),
            driver,
            asking: 0,
            text: Vec::new(),
        }
    }

    /// Appends lines, without those that the options leave out.
    pub fn add(&mut self, lines: impl AsRef<[u8]>) {
        for line in lines.as_ref().split(|&byte| byte == b'\n') {
            if self.is_left_out(line) {
                continue;
            }
            if !format::is_passed_over(line) {
                self.driver.answer(line);
                self.asking += 1;
            }
            self.text.extend_from_slice(line);
            self.text.push(b'\n');
        }
    }

    fn is_left_out(&self, line: &[u8]) -> bool {
        match format::parse(line) {
            Some(Operation::Start(device)) => !self.has(device),
            Some(Operation::StartOf(_)) => !self.options.sizes || !self.has(Device::Serial),
            Some(Operation::Line) => !self.options.lines,
            Some(Operation::Counters | Operation::Lost) => !self.options.counters,
            Some(operation) if operation == Operation::Save || operation.brings_back() => {
                !self.options.saves
            }
            _ => self.options.quiet_enable && announces(&self.driver, line),
        }
    }

    fn has(&self, device: Device) -> bool {
        self.options.devices.contains(&device)
    }
}

#[cfg(test)]
mod tests {
    use super::*;

    #[test]
    fn left_out_lines_do_not_count() {
        let mut list = List::new(&Options {
            devices: vec![Device::Serial],
            quiet_enable: true,
            saves: false,
            lines: false,
            counters: false,
            flushes: false,
            sizes: false,
        });
        list.add("counters\nlost\nserial 64");
        list.add(
            "serial\nclock\nw 01 02\nline\nsave\nrestore\nrestore 00 00 00 00 00 00 00 00 00 -",
        );
        list.add("restore 00000000 0000000000000000 00000000 00000000 00000000");
        list.add("# no answer\nw 01 01");
        assert_eq!(list.asking, 2);
        assert_eq!(list.text, b"serial\n# no answer\nw 01 01\n");
    }

    #[test]
    fn a_write_announces_where_versions_differ() {
        for (before, line, expected) in [
            ("serial", "w 01 01", false),
            ("serial", "w 01 0d", false),
            ("serial", "w 01 02", true),
            ("serial", "w 01 ff", true),
            ("serial\nb 61", "w 01 00", true),
            ("serial\nb 61\nr 00", "w 01 00", false),
            ("serial\nb 61\nw 03 80", "w 01 ff", false),
            ("i8042", "w 01 ff", false),
            ("", "w 01 ff", false),
        ] {
            let mut list = List::new(&Options::default());
            list.add(before);
            let found = announces(&list.driver, line.as_bytes());
            assert_eq!(found, expected, "{before}, {line}");
        }
    }
}
