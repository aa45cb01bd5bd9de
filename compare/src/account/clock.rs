//! The clock of the account.

use crate::devices::{self, ClockCounters, ClockState};

const IDENTITY_START: u16 = 0xfe0;
const IDENTITY: [u8; 8] = [0x31, 0x10, 0x04, 0x00, 0x0d, 0xf0, 0x05, 0xb1];

/// The identity byte at an offset, which need not be a multiple of four.
fn identity(offset: u16) -> Option<u32> {
    let place = offset.checked_sub(IDENTITY_START)? / 4;
    IDENTITY
        .get(usize::from(place))
        .map(|&byte| u32::from(byte))
}

/// The host's time as the clock sees it.
pub(crate) fn cut(now: u64) -> u32 {
    now as u32
}

#[derive(Default)]
pub struct Clock {
    state: ClockState,
    counters: ClockCounters,
}

impl Clock {
    fn time(&self, now: u32) -> u32 {
        // In 128 bits no sum of an offset and a time can overflow.
        let time = i128::from(now) + i128::from(self.state.offset);
        u32::try_from(time).unwrap_or(now)
    }

    fn set_time(&mut self, now: u32, value: u32) {
        self.state.load = value;
        self.state.offset = i64::from(value) - i64::from(now);
    }

    fn control(&mut self, value: u32) {
        if value == 1 {
            self.state.load = 0;
            self.state.offset = 0;
        }
    }

    /// What a read answers, or none if it is invalid.
    fn value(&self, now: u32, offset: u16) -> Option<u32> {
        match offset {
            0x00 => Some(self.time(now)),
            0x04 => Some(self.state.match_),
            0x08 => Some(self.state.load),
            0x0c => Some(1),
            0x10 => Some(self.state.mask),
            0x14 => Some(self.state.raw),
            0x18 => Some(self.state.raw & self.state.mask),
            _ => identity(offset),
        }
    }
}

impl devices::Clock for Clock {
    fn write(&mut self, now: u64, offset: u16, data: &[u8; 4]) -> bool {
        let value = u32::from_le_bytes(*data);
        match offset {
            0x04 => self.state.match_ = value,
            0x08 => self.set_time(cut(now), value),
            0x0c => self.control(value),
            0x10 => self.state.mask = value & 1,
            0x1c => self.state.raw &= !value,
            _ => {
                self.counters[1] += 1;
                return false;
            }
        }
        true
    }

    fn read(&mut self, now: u64, offset: u16, data: &mut [u8; 4]) -> bool {
        let value = self.value(cut(now), offset);
        match value {
            Some(value) => *data = value.to_le_bytes(),
            None => self.counters[0] += 1,
        }
        value.is_some()
    }

    fn counters(&self) -> ClockCounters {
        self.counters
    }

    fn state(&self) -> ClockState {
        self.state
    }

    /// What was counted is no part of a state.
    fn restore(&mut self, state: &ClockState) {
        self.state = *state;
    }
}
