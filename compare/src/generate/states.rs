//! Made-up states of the devices: such as a run could have reached, such as are nearly so, and any.

use super::numbers::Numbers;
use crate::account::Account;
use crate::devices::{ClockState, Devices, SerialState, IER, IIR, LCR, LSR, MCR, MSR};

/// How many bytes wait: none, few, as many as there is room for, and more.
const SIZES: [usize; 10] = [0, 0, 1, 1, 2, 63, 64, 64, 65, 200];

/// A serial port's state, mostly near the present one or such as a run leaves.
pub fn port(numbers: &mut Numbers, present: Option<SerialState>) -> SerialState {
    let mut near = present.unwrap_or_else(|| Account::Original.serial().state());
    match numbers.below(6) {
        0 => any_port(numbers),
        1 => {
            let place = numbers.below(9);
            near.registers[place] = numbers.byte();
            near
        }
        2 => {
            let size = numbers.pick(&SIZES);
            near.buffer = numbers.bytes(size);
            near
        }
        3..=4 => likely_port(numbers),
        _ => {
            let mut state = any_port(numbers);
            state.buffer.truncate(64);
            for (place, value) in likely_registers(numbers, &state.buffer) {
                state.registers[place] = value;
            }
            state
        }
    }
}

fn any_port(numbers: &mut Numbers) -> SerialState {
    let size = numbers.pick(&SIZES);
    SerialState {
        registers: [0; 9].map(|_| numbers.byte()),
        buffer: numbers.bytes(size),
        size: SerialState::SIZE,
        fcr: 0,
    }
}

/// A port of which each register is mostly such as a run leaves it.
fn likely_port(numbers: &mut Numbers) -> SerialState {
    let mut state = any_port(numbers);
    for (place, value) in likely_registers(numbers, &state.buffer) {
        match numbers.below(24) {
            0 => {}
            1 => state.registers[place] = value ^ 1 << numbers.below(8),
            _ => state.registers[place] = value,
        }
    }
    state
}

/// All registers but the divisor and the scratch register, each with a value that a run leaves it with while
/// these bytes wait. (IER and IIR need not go together.)
fn likely_registers(numbers: &mut Numbers, buffer: &[u8]) -> [(usize, u8); 6] {
    [
        (IER, numbers.pick(&[0x00, 0x01, 0x02, 0x03, 0x03, 0x0f])),
        (IIR, numbers.pick(&[0x01, 0x02, 0x04, 0x06, 0x06])),
        (LCR, numbers.pick(&[0x03, 0x03, 0x83])),
        (LSR, 0x60 | u8::from(!buffer.is_empty())),
        (MCR, numbers.pick(&[0x08, 0x08, 0x0b, 0x18])),
        (MSR, 0xb0),
    ]
}

/// A clock's state. `near` is the present one.
pub fn clock(numbers: &mut Numbers, near: ClockState) -> ClockState {
    let load = match numbers.below(3) {
        0 => near.load,
        1 => numbers.number() as u32,
        _ => numbers.pick(&LOADS),
    };
    let offset = match numbers.below(4) {
        0 => numbers.number() as i64,
        1 => i64::from(load) - i64::from(numbers.number() as u32),
        2 => near.offset,
        _ => numbers.pick(&offsets(load)),
    };
    ClockState {
        load,
        offset,
        match_: numbers.number() as u32,
        mask: mostly(numbers, &[0, 1]),
        raw: mostly(numbers, &[0]),
    }
}

fn mostly(numbers: &mut Numbers, likely: &[u32]) -> u32 {
    match numbers.below(8) {
        0 => numbers.number() as u32,
        1 => numbers.pick(&[1, 2, 3, 0x8000_0000, 0xffff_ffff]),
        _ => numbers.pick(likely),
    }
}

pub const LOADS: [u32; 5] = [0, 1, 5, 0x8000_0000, 0xffff_ffff];

/// Offsets at the ends of what a clock with this load register can have been set to, of 33 signed bits and
/// of 64.
#[rustfmt::skip]
pub fn offsets(load: u32) -> [i64; 17] {
    const TWO_32: i64 = 1 << 32;
    let load = i64::from(load);
    [
        0, 1, -1, load, load + 1, load - TWO_32, load - TWO_32 + 1, -TWO_32 - 1, -TWO_32, TWO_32 - 1, TWO_32,
        i64::MIN, i64::MIN + 1, i64::MIN + TWO_32, i64::MAX - TWO_32, i64::MAX - 1, i64::MAX,
    ]
}
