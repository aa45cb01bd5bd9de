//! What a guest and its host do to each device, at random.

use super::random::Writer;
use crate::devices::SerialState;
use crate::format::Words;

/// To read a buffer empty, or to fill it through the loop, takes a line for each byte. With more bytes than these
/// it is done seldom.
const FEW: usize = 64;

impl Writer {
    // ---- The serial port

    pub(super) fn serial(&mut self) {
        let kinds = if self.list.options.flushes { 18 } else { 16 };
        match self.numbers.below(kinds) {
            0..=1 | 16 => self.at_a_limit(),
            17 => self.control_receiver(),
            2..=4 => self.input(),
            5 => self.enable(),
            6 => self.control(),
            7 => self.add("room"),
            8 => self.add("state"),
            9..=11 => {
                let offset = self.serial_offset();
                self.write_some(offset);
            }
            _ => {
                let offset = self.serial_offset();
                self.add(format!("r {offset:02x}"));
            }
        }
    }

    /// Something that interrupts depend on, and the line after it.
    pub(super) fn interrupts(&mut self) {
        let kinds = if self.list.options.flushes { 9 } else { 8 };
        let line = match self.numbers.below(kinds) {
            0..=1 => "r 02",
            2 => "r 00",
            3 => "b 61",
            4 => "w 00 55",
            5 => self.numbers.pick(&["w 03 03", "w 04 08", "w 04 18"]),
            8 => self.numbers.pick(&["w 02 02", "w 02 07", "w 02 05"]),
            _ => self
                .numbers
                .pick(&["w 01 00", "w 01 01", "w 01 02", "w 01 03"]),
        };
        self.add(line);
        self.add("line");
    }

    /// Guest and host talk a while: bytes are sent, come in and are read.
    pub(super) fn talk(&mut self) {
        self.write(3, 0x03);
        self.write(4, 0x0b);
        for _ in 0..self.numbers.below(6) {
            let value = self.numbers.byte();
            match self.numbers.below(4) {
                0 => self.add_input(&[value]),
                1 => self.add("r 00"),
                _ => self.write(0, value),
            }
        }
    }

    fn serial_offset(&mut self) -> u8 {
        match self.numbers.below(12) {
            0 => self.numbers.byte(),
            1 => self.numbers.pick(&[8, 9, 0x10, 0x80, 0xff]),
            _ => self.numbers.below(8) as u8,
        }
    }

    fn write(&mut self, offset: u8, value: u8) {
        self.add(format!("w {offset:02x} {value:02x}"));
    }

    fn write_some(&mut self, offset: u8) {
        let likely = [0x00, 0x01, 0x02, 0x03, 0x10, 0x80, 0xfe, 0xff];
        let value = match self.numbers.below(2) {
            0 => self.numbers.byte(),
            _ => self.numbers.pick(&likely),
        };
        self.write(offset, value);
    }

    fn waiting(&self) -> usize {
        self.list.driver.port().map_or(0, |port| port.buffer.len())
    }

    /// How many bytes can wait.
    pub(super) fn size(&self) -> usize {
        let port = self.list.driver.port();
        port.map_or(SerialState::SIZE, |port| port.size)
    }

    /// Brings the buffer to a limit, the divisor and the loop to a setting, and touches the data there.
    fn at_a_limit(&mut self) {
        let size = self.size();
        let mut waiting = self.numbers.pick(&[0, 1, size - 1, size]);
        if self.waiting() > waiting + FEW && !self.numbers.once_in(8) {
            waiting = self.numbers.pick(&[size - 1, size]);
        }
        self.empty_to(waiting);
        self.fill_to(waiting);
        let settings = [(0x03, 0x08), (0x03, 0x10), (0x83, 0x08), (0x83, 0x10)];
        let (line, modem) = self.numbers.pick(&settings);
        self.write(4, modem);
        self.write(3, line);
        let kinds = if self.list.options.flushes { 4 } else { 3 };
        match self.numbers.below(kinds) {
            0 => self.add("r 00"),
            1 => self.write_some(0),
            2 => self.input(),
            _ => self.control_receiver(),
        }
        self.add("r 05");
    }

    /// Writes FCR, mostly so that it empties the receiver.
    fn control_receiver(&mut self) {
        let values = [0x02, 0x03, 0x06, 0x07, 0xc2, 0xcf, 0x04, 0x05, 0xc1];
        let value = self.numbers.pick(&values);
        self.write(2, value);
    }

    fn empty_to(&mut self, target: usize) {
        self.add("w 03 03");
        for _ in target..self.waiting() {
            self.add("r 00");
        }
    }

    /// Fills the buffer from outside, or through the loop, the last bytes at least.
    fn fill_to(&mut self, target: usize) {
        let missing = target.saturating_sub(self.waiting());
        let bytes = self.numbers.bytes(missing);
        self.add("w 03 03");
        if self.numbers.once_in(2) {
            self.add("w 04 08");
            self.add_input(&bytes);
        } else {
            let (first, last) = bytes.split_at(missing.saturating_sub(FEW));
            if !first.is_empty() {
                self.add("w 04 08");
                self.add_input(first);
            }
            self.add("w 04 10");
            for value in last {
                self.write(0, *value);
            }
        }
    }

    fn input(&mut self) {
        let size = self.size();
        let room = size - self.waiting();
        let count = match self.numbers.below(3) {
            0 => self
                .numbers
                .pick(&[0, 1, size - 1, size, size + 1, 3 * size + 8]),
            // As much as there is room for, one less and one more, or some part of it.
            1 => match self.numbers.below(4) {
                0 => room.saturating_sub(1),
                1 => room,
                2 => room + 1,
                _ => self.numbers.below(room + 1),
            },
            _ => self.numbers.below(8),
        };
        let bytes = self.numbers.bytes(count);
        self.add_input(&bytes);
    }

    fn add_input(&mut self, bytes: &[u8]) {
        let input = Words::start("b");
        let line = if bytes.is_empty() {
            input
        } else {
            input.hex(bytes)
        };
        self.add(line.0);
    }

    /// Enables interrupts, mostly after the buffer was emptied: where announcing writes are left out,
    /// nothing could be enabled otherwise.
    fn enable(&mut self) {
        if !self.numbers.once_in(4) && self.waiting() <= FEW {
            self.empty_to(0);
        }
        let value = self
            .numbers
            .pick(&[0x00, 0x01, 0x02, 0x03, 0x0d, 0x0f, 0xfd]);
        self.write(1, value);
    }

    fn control(&mut self) {
        if self.numbers.once_in(2) {
            let value = self.numbers.pick(&[0x03, 0x03, 0x83, 0x80, 0x7f]);
            self.write(3, value);
        } else {
            let lines = self.numbers.below(0x10) as u8;
            let looped = self.numbers.pick(&[0x00, 0x00, 0x10, 0xf0]);
            self.write(4, lines | looped);
        }
    }

    // ---- The clock

    pub(super) fn clock(&mut self) {
        let access = match self.numbers.below(8) {
            0..=1 => return self.time(),
            2 => return self.add("state"),
            3..=4 => "w",
            _ => "r",
        };
        let offset = self.clock_offset();
        let data = self.clock_data().swap_bytes();
        self.add(format!("{access} {offset:04x} {data:08x}"));
    }

    fn time(&mut self) {
        const TWO_32: u64 = 1 << 32;
        let limits = [
            0,
            1,
            TWO_32 / 2 - 1,
            TWO_32 - 1,
            TWO_32,
            TWO_32 + 1,
            1 << 63,
            u64::MAX,
        ];
        let step = self.numbers.below(100) as u64;
        self.now = match self.numbers.below(6) {
            0 => self.numbers.number(),
            1 => self.numbers.number() >> 32,
            2 => self.now.wrapping_add(step),
            3 => self.now.wrapping_sub(step),
            _ => self.numbers.pick(&limits),
        };
        self.add(format!("now {}", self.now));
    }

    fn clock_offset(&mut self) -> u16 {
        match self.numbers.below(8) {
            0 => self.numbers.number() as u16,
            1 => self.numbers.below(0x24) as u16,
            2 => 0xfdc + self.numbers.below(0x28) as u16,
            3 => self.numbers.pick(&[0x00, 0x08]),
            _ => 4 * self.numbers.below(8) as u16,
        }
    }

    fn clock_data(&mut self) -> u32 {
        let limits = [0, 1, 2, 3, 0x8000_0000, 0xffff_fffe, 0xffff_ffff];
        let step = self.numbers.below(100) as u32;
        match self.numbers.below(4) {
            0 => self.numbers.number() as u32,
            1 => (self.now as u32).wrapping_add(step),
            2 => (self.now as u32).wrapping_sub(step),
            _ => self.numbers.pick(&limits),
        }
    }

    // ---- The reset controller

    pub(super) fn i8042(&mut self) {
        let offset = match self.numbers.below(3) {
            0 => self.numbers.byte(),
            1 => self.numbers.below(8) as u8,
            _ => 4,
        };
        let value = match self.numbers.below(3) {
            0 => self.numbers.byte(),
            1 => 0xf0 | self.numbers.byte(),
            _ => 0xfe,
        };
        if self.numbers.once_in(3) {
            self.add(format!("r {offset:02x}"));
        } else {
            self.write(offset, value);
        }
    }
}
