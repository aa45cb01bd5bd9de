//! Lists that leave nothing out within their bounds: every run of up to three operations over a small
//! alphabet, and every offset, value and state that is brought back where that can be had. The counters are
//! asked for at the end of each.

use super::states::{offsets, LOADS};
use super::{announces, List, Options};
use crate::account::Account;
use crate::driver::Driver;
use crate::format::{self, Device};

pub fn list(options: &Options) -> Vec<u8> {
    let mut list = List::new(options);
    let Options {
        saves, counters, ..
    } = *options;
    if list.has(Device::I8042) {
        every_i8042_access(&mut list);
    }
    if list.has(Device::Clock) {
        every_clock_offset(&mut list);
        every_run(&mut list, "clock", &clock_alphabet(saves), 3);
    }
    if list.has(Device::Serial) {
        every_serial_access(&mut list);
        every_run(&mut list, "serial", &serial_alphabet(saves, counters), 3);
    }
    if list.has(Device::Clock) && saves {
        restored_clocks(&mut list);
    }
    if list.has(Device::Serial) && saves {
        restored_registers(&mut list);
        restored_marks(&mut list);
    }
    list.text
}

/// All reads, all 65,536 writes, and all reads once more.
fn every_i8042_access(list: &mut List) {
    let reads: Vec<String> = (0..=0xff).map(|offset| format!("r {offset:02x}")).collect();
    list.add("i8042");
    list.add(reads.join("\n"));
    for offset in 0..=0xff {
        for value in 0..=0xff {
            list.add(format!("w {offset:02x} {value:02x}"));
        }
    }
    list.add(reads.join("\n"));
}

/// All reads, and all 65,536 writes with the modem status after it, each on a fresh port with two bytes
/// waiting, and with the state at its end. Where counters are asked for the bytes are read, too, after each
/// read.
fn every_serial_access(list: &mut List) {
    for offset in 0..=0xff {
        list.add(format!("serial\nb 6162\nr {offset:02x}\nline\nstate"));
        if list.options.counters {
            list.add("counters\nr 00\ncounters\nr 00\ncounters\nr 00\ncounters");
        }
        for value in 0..=0xff {
            list.add(format!("serial\nb 6162\nw {offset:02x} {value:02x}"));
            list.add("r 06\nline\nstate\ncounters");
        }
    }
}

/// All 65,536 offsets, read and written, at several times and with several values; the first time with the
/// counters after each, later at the end.
fn every_clock_offset(list: &mut List) {
    for (now, data) in [
        (0, "00000000"),
        (1_000, "01000000"),
        (0xffff_ffff, "ffffffff"),
        (0x1_0000_0000, "aabbccdd"),
        (u64::MAX, "00000080"),
    ] {
        list.add(format!("clock\nnow {now}"));
        // Registers that differ from each other and from 0, so that each read shows which it was.
        list.add("w 0004 11111111\nw 0008 22222222\nw 0010 01000000");
        let after_each = ["", "\ncounters"][usize::from(now == 0 && list.options.counters)];
        for offset in 0..=0xffff {
            list.add(format!("r {offset:04x} {data}{after_each}"));
        }
        for offset in 0..=0xffff {
            list.add(format!("w {offset:04x} {data}\nstate{after_each}"));
        }
        list.add("counters");
    }
}

// ---- States that are brought back

/// Each value of each register, with no byte waiting and with one.
fn restored_registers(list: &mut List) {
    for (lsr, waiting) in [("60", "-"), ("61", "61")] {
        for (place, value) in (0..9).flat_map(|place| (0..=0xff).map(move |value| (place, value))) {
            let value = format!("{value:02x}");
            let mut registers = ["0c", "00", "00", "01", "03", lsr, "08", "b0", "00"];
            registers[place] = &value;
            let registers = registers.join(" ");
            list.add(format!("serial\nrestore {registers} {waiting}"));
            list.add("line\nstate\ncounters");
        }
    }
}

/// What the interrupts depend on: each small value of IER and IIR, with a buffer that is empty, full and
/// overfull, a line status that fits it and one that contradicts it, in the loop and out of it; then one
/// access, or a byte that is lost, and the state. The other registers are no fresh port's, so that a refusal shows.
fn restored_marks(list: &mut List) {
    const IIRS: [u8; 11] = [0, 1, 2, 3, 4, 5, 6, 7, 8, 0xc6, 0xff];
    const ACCESSES: [&str; 11] = [
        "b 7a",
        "r 00",
        "r 02",
        "w 00 55",
        "w 00 56\nlost",
        "w 01 00",
        "w 01 01",
        "w 01 02",
        "w 01 03",
        "w 02 02",
        "w 02 07\nr 02",
    ];
    for size in [0, 1, 63, 64, 65] {
        let waiting = different_bytes(size);
        for (contradicts, mcr) in [(0, "08"), (1, "08"), (0, "18"), (1, "18")] {
            let lsr = 0x60 | u8::from(size > 0) ^ contradicts;
            for (ier, iir) in (0..=0x10).flat_map(|ier| IIRS.map(|iir| (ier, iir))) {
                let registers = format!("11 22 {ier:02x} {iir:02x} 03 {lsr:02x} {mcr} b0 33");
                for access in ACCESSES {
                    list.add(format!("serial\nrestore {registers} {waiting}"));
                    list.add(format!("line\n{access}\nline\nstate\ncounters"));
                }
            }
        }
    }
}

/// So many bytes in hex, up to 251 no two alike so that their order shows; or `-` for none.
pub(super) fn different_bytes(count: usize) -> String {
    match count {
        0 => "-".to_string(),
        _ => (0x21..0x21 + count)
            .map(|byte| format!("{:02x}", byte % 251))
            .collect(),
    }
}

/// Clocks with offsets at all ends, each read at times at all ends; with each mask and status.
fn restored_clocks(list: &mut List) {
    const FLAGS: [(u32, u32); 7] = [(0, 0), (1, 0), (2, 0), (!0, 0), (1, 1), (0, !0), (!0, !0)];
    for (load, offset) in LOADS
        .map(|load| offsets(load).map(|offset| (load, offset)))
        .concat()
    {
        for (mask, raw) in FLAGS {
            let flags = format!("{mask:08x} {raw:08x}");
            list.add(format!(
                "clock\nrestore {load:08x} {offset:016x} 11111111 {flags}"
            ));
            for time in [0, 5, 0x8000_0000, 0xffff_ffff, 0x1_0000_0000, u64::MAX] {
                list.add(format!("now {time}\nr 0000 aabbccdd"));
            }
            for offset in ["04", "08", "10", "14", "18"] {
                list.add(format!("r 00{offset} aabbccdd"));
            }
            list.add("w 001c 01000000\nstate\ncounters");
        }
    }
}

// ---- Runs

fn serial_alphabet(saves: bool, counters: bool) -> Vec<String> {
    let mut alphabet = saves_alphabet(saves);
    alphabet.extend(counters.then(|| "lost".to_string()));
    for offset in 0..8 {
        alphabet.push(format!("r {offset:02x}"));
        let values = ["00", "01", "03", "10", "80", "ff"];
        alphabet.extend(values.map(|value| format!("w {offset:02x} {value}")));
    }
    alphabet.extend(["b".to_string(), "b 21".to_string()]);
    alphabet.push(format!("b {}", different_bytes(64)));
    alphabet
}

fn clock_alphabet(saves: bool) -> Vec<String> {
    let mut alphabet = saves_alphabet(saves);
    for offset in [0x00, 0x04, 0x08, 0x0c, 0x10, 0x14, 0x18, 0x1c, 0xfe4] {
        alphabet.push(format!("r {offset:04x} aabbccdd"));
        let values = ["00000000", "01000000", "00000080", "ffffffff"];
        alphabet.extend(values.map(|data| format!("w {offset:04x} {data}")));
    }
    let times = [0, 5, 0xffff_ffff, 0x1_0000_0000, u64::MAX];
    alphabet.extend(times.map(|time| format!("now {time}")));
    alphabet
}

fn saves_alphabet(saves: bool) -> Vec<String> {
    let lines = if saves { &["save", "restore"][..] } else { &[] };
    lines.iter().map(|line| line.to_string()).collect()
}

/// Every run of up to so many operations, each on a fresh device and with the state at its end. A run
/// with a line that might announce is left out whole where such lines are.
pub(super) fn every_run(list: &mut List, device: &str, alphabet: &[String], longest: usize) {
    // Runs in the order in which each comes before those that begin with it.
    let mut left = vec![device.to_string()];
    while let Some(run) = left.pop() {
        if run.matches('\n').count() < longest {
            left.extend(alphabet.iter().rev().map(|line| format!("{run}\n{line}")));
        }
        if !list.options.quiet_enable || !has_announcement(&run) {
            list.add(run + "\nline\nstate\ncounters");
        }
    }
}

fn has_announcement(run: &str) -> bool {
    let mut driver = Driver::new(Account::Original);
    format::asking_lines(run.as_bytes()).any(|line| {
        let found = announces(&driver, line);
        driver.answer(line);
        found
    })
}

#[cfg(test)]
mod tests {
    use super::*;

    /// How many devices a list starts.
    fn starts(device: Device, quiet_enable: bool, saves: bool) -> usize {
        let devices = vec![device];
        let text = list(&Options {
            devices,
            quiet_enable,
            saves,
            ..Options::default()
        });
        let starts = format::asking_lines(&text).filter(|line| format::is_start(line));
        starts.count()
    }

    #[test]
    fn every_run_of_up_to_three_operations_is_there() {
        let runs = |letters: usize| 1 + letters + letters.pow(2) + letters.pow(3);
        let accesses = 256 + 65_536;
        let restored = 2 * 9 * 256 + 5 * 4 * 17 * 11 * 11;
        for (device, saves, expected) in [
            (Device::Serial, false, accesses + runs(60)),
            (Device::Serial, true, accesses + runs(62) + restored),
            (Device::Clock, false, 5 + runs(50)),
            (Device::Clock, true, 5 + runs(52) + 5 * 17 * 7),
            (Device::I8042, true, 1),
        ] {
            assert_eq!(starts(device, false, saves), expected, "{device:?}");
        }
    }

    #[test]
    fn only_runs_that_might_announce_are_left_out() {
        let [all, quiet] = [false, true].map(|quiet| starts(Device::Serial, quiet, true));
        // Two of the six values set bit 0x02, and most runs write no value of offset 1 at all.
        assert!((all * 4 / 5..all).contains(&quiet), "{quiet} of {all}");
    }
}
