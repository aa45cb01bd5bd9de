//! Long random lists. They steer to the limits: a buffer that is empty, one short of full and full, and emptied there,
//! the divisor and the loop open and closed, offsets beyond the registers, times at the ends of 32 and 64
//! bits and going backwards, states that are saved and brought back, bytes that are lost, and lines that are
//! no operation. The counters are asked for every few lines. Where ports of all sizes are asked for, the limits are
//! those of the present one.

use super::numbers::Numbers;
use super::{malformed, states, List, Options};
use crate::devices::SerialState;
use crate::format::{parse, Device, Operation, Words};

/// A list with `count` lines that get an answer.
pub fn list(options: &Options, count: usize, seed: u64) -> Vec<u8> {
    let mut writer = Writer {
        list: List::new(options),
        numbers: Numbers::new(seed),
        count,
        now: 0,
    };
    // Nobody is there yet to answer these.
    for line in ["r 00", "state", "now 1", "save", "restore"] {
        writer.exactly(line);
    }
    while writer.goes_on() {
        writer.one_device(options);
    }
    writer.list.text
}

pub(super) struct Writer {
    pub(super) list: List,
    pub(super) numbers: Numbers,
    count: usize,
    pub(super) now: u64,
}

impl Writer {
    fn goes_on(&self) -> bool {
        self.list.asking < self.count
    }

    /// Adds a line as it is.
    fn exactly(&mut self, line: impl AsRef<[u8]>) {
        if self.goes_on() {
            self.list.add(line);
        }
    }

    /// Adds a line, and before it sometimes one with a slip of the pen in it. That may be an operation
    /// again, and another one.
    pub(super) fn add(&mut self, line: impl AsRef<[u8]>) {
        if self.numbers.once_in(60) {
            let mut slipped = line.as_ref().to_vec();
            let place = self.numbers.below(slipped.len());
            let character = self.numbers.pick(b"0123456789abcdefABCDEFgrwx# \t\r");
            match self.numbers.below(4) {
                0 => slipped[place] = character,
                1 => slipped.insert(place, character),
                2 => slipped.push(character),
                _ => drop(slipped.remove(place)),
            }
            self.exactly(slipped);
        }
        self.exactly(&line);
        if self.list.options.counters {
            self.count(line.as_ref());
        }
    }

    /// Has a byte that a line sent be lost, often, and asks for the counters where the line may have changed
    /// them. Both also elsewhere.
    fn count(&mut self, line: &[u8]) {
        let port = self.list.driver.port();
        let sends = port.is_some_and(|port| !port.divisor_is_open() && !port.loops());
        let (loses, asks) = match parse(line) {
            Some(Operation::WriteByte(0, _)) if sends => (2, 5),
            Some(Operation::WriteByte(0, _) | Operation::ReadByte(0) | Operation::Lost) => (30, 5),
            Some(Operation::WriteWord(..) | Operation::ReadWord(..)) => (200, 8),
            _ => (200, 20),
        };
        if self.numbers.once_in(loses) {
            self.add("lost");
        }
        if self.numbers.once_in(asks) {
            self.add("counters");
        }
    }

    /// One device from its start to the next one's.
    fn one_device(&mut self, options: &Options) {
        let device = self.numbers.pick(&options.devices);
        self.start(device);
        let length = self.numbers.pick(&[1, 5, 30, 200, 200, 1_000, 5_000]);
        // A short list is to have more than one device, too.
        let length = self.numbers.below(length.min(1 + self.count / 20));
        for _ in 0..length {
            if self.numbers.once_in(50) {
                self.disturb();
            }
            if options.saves && self.numbers.once_in(5) {
                self.save_or_restore(device);
            }
            // A port that a line gave has the usual size, and others are to be seen, too.
            let is_usual = device == Device::Serial && self.size() == SerialState::SIZE;
            if options.sizes && is_usual && self.numbers.once_in(20) {
                self.start(device);
            }
            match device {
                Device::Serial if options.counters && self.numbers.once_in(10) => self.talk(),
                Device::Serial if options.lines && self.numbers.once_in(3) => self.interrupts(),
                Device::Serial => self.serial(),
                Device::Clock => self.clock(),
                Device::I8042 => self.i8042(),
            }
        }
        self.add("state");
        if options.counters {
            self.add("counters");
        }
    }

    fn start(&mut self, device: Device) {
        if device == Device::Serial && self.list.options.sizes {
            self.start_of_some_size();
        } else {
            self.add(device.word());
        }
        // What a fresh device has of the one before is soon gone. (Older lists did not look.)
        if self.list.options.flushes && self.numbers.once_in(3) {
            self.add("state");
        }
        self.now = 0;
    }

    /// A port, and before it one that is refused.
    fn start_of_some_size(&mut self) {
        let line = self.numbers.pick(malformed::SIZES);
        self.exactly(line);
        if self.numbers.once_in(4) {
            self.exactly("state");
        }
        if self.numbers.once_in(8) {
            self.add("serial");
        } else {
            let size = self.numbers.pick(&SerialState::SIZES);
            self.add(format!("serial {size}"));
        }
        if self.numbers.once_in(3) {
            self.add("room");
        }
    }

    /// A line that is no operation of the device.
    fn disturb(&mut self) {
        let line: &[u8] = match self.numbers.below(8) {
            0 => b"",
            1 => b"# a line that gets no answer",
            2 => b"r 00",
            3 => b"r 0000 01020304",
            4 => b"now 18446744073709551615",
            5 => b"b 00",
            _ => self.numbers.pick(malformed::LINES),
        };
        self.exactly(line);
    }

    // ---- Saved states

    fn save_or_restore(&mut self, device: Device) {
        match self.numbers.below(8) {
            0..=1 => self.add("save"),
            2 => self.add("restore"),
            3 => {
                // The device moves into a fresh one.
                self.add("save");
                self.start(device);
                self.add("restore");
            }
            4 => {
                let line = self.numbers.pick(malformed::SAVES);
                self.exactly(line);
            }
            _ if self.list.options.sizes && !self.numbers.once_in(12) => self.add("restore"),
            _ => self.restore_made_up(),
        }
    }

    /// A state of the current device and sometimes, to be refused, of another. (A slip may have made
    /// another one current than was last asked for.)
    fn restore_made_up(&mut self) {
        let port = self.list.driver.port();
        let fits = !self.numbers.once_in(12);
        let restore = Words::start("restore");
        let line = if port.is_some() == fits {
            let state = states::port(&mut self.numbers, port);
            restore.registers(&state).waiting(&state)
        } else {
            let near = self.list.driver.clock().map(|(state, _)| state);
            restore.clock(&states::clock(&mut self.numbers, near.unwrap_or_default()))
        };
        self.add(line.0);
    }
}

#[cfg(test)]
mod tests;
