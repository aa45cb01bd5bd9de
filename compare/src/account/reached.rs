//! Which states a run from a fresh device comes to.

use super::original::Original;
use super::ours::Ours;
use super::serial::reaches;
use crate::devices::{ClockState, SerialState};

pub fn serial(state: &SerialState) -> bool {
    reaches(&Ours, state)
}

/// The same of vm-superio's port. It cannot tell: where it answers, this word is the account's too.
pub fn original_serial(state: &SerialState) -> bool {
    reaches(&Original::default(), state)
}

/// The match register is not looked at: any value can be written.
pub fn clock(state: &ClockState) -> bool {
    // What the host's time was as the clock was set.
    let now = i128::from(state.load) - i128::from(state.offset);
    u32::try_from(now).is_ok() && state.mask <= 1 && state.raw == 0
}

#[cfg(test)]
mod tests {
    use std::collections::HashSet;

    use super::*;
    use crate::account::Account;
    use crate::devices::Devices;
    use crate::driver::Driver;

    /// All ports that operations lead to from a fresh one of this name and size, where the bytes are zeros and of
    /// the registers that no interrupt depends on only the loop is changed.
    fn all_met(account: Account, port: &str, size: usize) -> HashSet<SerialState> {
        let mut lines: Vec<String> = (0..0x10).map(|value| format!("w 01 {value:02x}")).collect();
        let others = [
            "w 00 00", "w 02 02", "w 04 10", "w 04 08", "r 00", "r 02", "b 00",
        ];
        lines.extend(others.map(String::from));
        lines.push(format!("b {}", "00".repeat(size)));
        let mut driver = Driver::new(account);
        driver.answer(port.as_bytes());
        let mut left = vec![driver.port().unwrap()];
        let mut met = HashSet::from_iter(left.clone());
        while let Some(state) = left.pop() {
            for line in &lines {
                driver.put_port(&state);
                driver.answer(line.as_bytes());
                let next = driver.port().unwrap();
                if met.insert(next.clone()) {
                    left.push(next);
                }
            }
        }
        met
    }

    #[test]
    fn a_port_is_reached_if_and_only_if_operations_lead_to_it() {
        is_exact(Account::Ours, "serial", 64, serial);
        is_exact(Account::Original, "serial", 64, original_serial);
        is_exact(Account::Ours, "serial 16", 16, serial);
        is_exact(Account::Ours, "serial 128", 128, serial);
    }

    fn is_exact(account: Account, port: &str, size: usize, is_reached: fn(&SerialState) -> bool) {
        let met = all_met(account, port, size);
        let mut reached = 0;
        for waiting in 0..=size + 1 {
            for (ier, iir) in (0..0x20).flat_map(|ier| (0..=0xff).map(move |iir| (ier, iir))) {
                for (lsr, msr) in [(0x60, 0xb0), (0x61, 0xb0), (0x00, 0xb0), (0x61, 0xb1)] {
                    let registers = [0x0c, 0x00, ier, iir, 0x03, lsr, 0x08, msr, 0x00];
                    let buffer = vec![0; waiting];
                    let state = SerialState {
                        registers,
                        buffer,
                        size,
                        fcr: 0,
                    };
                    assert_eq!(is_reached(&state), met.contains(&state), "{state:?}");
                    reached += usize::from(is_reached(&state));
                }
            }
        }
        // Each is met in the loop and out of it.
        assert_eq!(2 * reached, met.len());
    }

    #[test]
    fn what_no_interrupt_depends_on_may_be_anything() {
        for value in [0xff, 0x00] {
            let mut state = Account::Ours.serial().state();
            for free in [0, 1, 4, 6, 8] {
                state.registers[free] = value;
            }
            state.fcr = value & 0xc9;
            assert!(serial(&state) && original_serial(&state), "{state:?}");
        }
    }

    /// A clock that was set to `load`, with the mask and the match register written.
    fn set(load: u32, now: u32) -> ClockState {
        let mut clock = Account::Ours.clock();
        for (offset, value) in [(0x08, load), (0x10, 1), (0x04, 7)] {
            clock.write(u64::from(now), offset, &u32::to_le_bytes(value));
        }
        clock.state()
    }

    #[test]
    fn a_clock_is_reached_if_it_can_be_set_so() {
        for load in [0, 1, 0x8000_0000, 0xffff_ffff] {
            let [first, last] = [0, u32::MAX].map(|now| set(load, now));
            assert!(clock(&first) && clock(&last));
            for offset in [first.offset + 1, last.offset - 1, i64::MIN, i64::MAX] {
                assert!(!clock(&ClockState { offset, ..first }), "{offset}");
            }
            assert!(clock(&ClockState { mask: 0, ..first }));
            assert!(!clock(&ClockState { mask: 2, ..first }));
            assert!(!clock(&ClockState { raw: 1, ..first }));
        }
    }
}
