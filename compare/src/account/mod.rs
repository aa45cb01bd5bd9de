//! The account: what our devices do, and what vm-superio's do, each written from a description of its
//! behaviour and not from its source. It is a second witness beside each, and the only one of the
//! original where its source is not at hand. They differ in the interrupts of the serial port, and in that
//! ours has ports of seven sizes and FCR; nowhere else.

pub mod clock;
pub mod original;
pub mod ours;
pub mod reached;
pub mod serial;

use crate::devices::{self, Devices, SerialState};
use original::Original;
use ours::Ours;
use serial::Serial;

/// Whose ways the serial port's interrupts have.
#[derive(Clone, Copy)]
pub enum Account {
    Ours,
    /// vm-superio 0.8.2's.
    Original,
    /// Those of versions before.
    QuietEnable,
}

impl Devices for Account {
    fn serial(&mut self) -> Box<dyn devices::Serial> {
        let quiet_enable = matches!(self, Account::QuietEnable);
        let size = SerialState::SIZE;
        match self {
            Account::Ours => Box::new(Serial::fresh(Ours, size)),
            _ => Box::new(Serial::fresh(Original { quiet_enable }, size)),
        }
    }

    fn serial_of(&mut self, size: usize) -> Option<Box<dyn devices::Serial>> {
        match self {
            Account::Ours => Some(Box::new(Serial::fresh(Ours, size))),
            _ => None,
        }
    }

    fn clock(&mut self) -> Box<dyn devices::Clock> {
        Box::new(clock::Clock::default())
    }

    fn i8042(&mut self) -> Box<dyn devices::I8042> {
        Box::new(I8042)
    }
}

pub struct I8042;

impl devices::I8042 for I8042 {
    fn write(&mut self, offset: u8, value: u8) -> bool {
        (offset, value) == (4, 0xfe)
    }

    fn read(&mut self, _offset: u8) -> u8 {
        0
    }
}

#[cfg(test)]
mod tests {
    use super::*;
    use crate::driver::Driver;

    #[test]
    fn ours_alone_has_ports_of_other_sizes() {
        for (account, answers) in [
            (Account::Ours, "serial 16\nroom 16\n"),
            (Account::Original, "?\nroom 64\n"),
            (Account::QuietEnable, "?\nroom 64\n"),
        ] {
            let mut driver = Driver::new(account);
            driver.answer(b"serial");
            let asked = [driver.answer(b"serial 16"), driver.answer(b"room")];
            assert_eq!(asked.concat(), answers.as_bytes());
        }
    }

    /// The one thing about FCR that no list can show.
    #[test]
    fn what_ours_remembers_of_fcr_is_saved_and_brought_back() {
        let mut driver = Driver::new(Account::Ours);
        let mut remembers = |line: &str, fcr: u8| {
            driver.answer(line.as_bytes());
            assert_eq!(driver.port().unwrap().fcr, fcr, "{line}");
        };
        remembers("serial", 0);
        remembers("w 02 ff", 0xc9);
        remembers("w 02 36", 0);
        remembers("w 02 81", 0x81);
        remembers("save", 0x81);
        remembers("w 02 00", 0);
        remembers("restore", 0x81);
        remembers("restore 0c 00 00 01 03 60 08 b0 00 -", 0);
        remembers("serial", 0);
        remembers("restore", 0x81);
        let mut driver = Driver::new(Account::Original);
        driver.answer(b"serial");
        driver.answer(b"w 02 ff");
        assert_eq!(driver.port().unwrap().fcr, 0);
    }
}
