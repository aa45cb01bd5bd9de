//! A list about the sizes of a port, which vm-superio does not have. It leaves nothing out within its bounds: every
//! number up to twice the largest size, every number of bytes into a port of every size and thrown away there, a port
//! of every size moved into one of every other, and every run of up to four operations on the smallest.

use super::exhaustive::{different_bytes, every_run};
use super::{malformed, List, Options};
use crate::devices::SerialState;
use crate::format::Device;

const SIZES: [usize; 7] = SerialState::SIZES;
const SMALLEST: usize = SIZES[0];
const LARGEST: usize = SIZES[6];

/// The registers of a port with nothing marked, and the line status for no byte waiting.
const REGISTERS: &str = "0c 00 00 01 03 60 08 b0 00";

pub fn list(options: &Options) -> Vec<u8> {
    let mut list = List::new(&Options {
        sizes: true,
        ..options.clone()
    });
    if list.has(Device::Serial) {
        every_number(&mut list);
        every_filling(&mut list);
        going_round(&mut list);
        every_run(&mut list, "serial 16", &alphabet(options.saves), 4);
        if options.saves {
            every_move(&mut list);
            given_states(&mut list);
        }
    }
    list.text
}

fn input(count: usize) -> String {
    match count {
        0 => "b".to_string(),
        _ => format!("b {}", different_bytes(count)),
    }
}

/// Each number, and each line that is nearly one, where a port is the current device that a refusal leaves.
fn every_number(list: &mut List) {
    let numbers = (0..=2 * LARGEST).map(|number| format!("serial {number}").into_bytes());
    let others = malformed::SIZES.iter().map(|line| line.to_vec());
    for line in numbers.chain(others) {
        list.add("serial 32\nb 61\nr 00\nb 62");
        list.add(line);
        list.add("room\nstate\ncounters");
    }
    for size in SIZES {
        list.add(format!("serial {size}\nserial\nroom\nstate"));
    }
    for device in ["clock", "i8042"] {
        list.add(format!(
            "{device}\nserial 48\nstate\nr 0000 aabbccdd\nr 05\nserial 16\nroom\nr 05"
        ));
    }
}

/// Each number of bytes, up to one more than the size, at once; then two more, from outside and through the loop. The
/// same number thrown away, and as many again.
fn every_filling(list: &mut List) {
    for size in SIZES {
        for count in 0..=size + 1 {
            list.add(format!("serial {size}\n{}\nroom\nb 7c7d", input(count)));
            list.add("room\nw 04 10\nw 00 7e\nw 00 7f\nroom\nr 05\nstate");
            list.add(format!("serial {size}\n{}\nw 02 03\nroom", input(count)));
            list.add(format!("{}\nstate\nw 02 02\nr 05", input(count)));
        }
    }
}

/// Bytes come and are read until the ring has been gone round three times.
fn going_round(list: &mut List) {
    for size in SIZES {
        list.add(format!("serial {size}\nw 01 01"));
        let mut read = 0;
        while read < 3 * LARGEST {
            list.add(input(size));
            list.add("state\nr 02");
            // What stays makes the next input lie elsewhere.
            for _ in 0..size - size / 3 {
                list.add("r 00");
                read += 1;
            }
            list.add("r 05\nroom");
        }
    }
}

/// A port of each size, empty, with one byte, nearly full and full, brought back into one of each size.
fn every_move(list: &mut List) {
    for (from, into) in SIZES.map(|from| SIZES.map(|into| (from, into))).concat() {
        for count in [0, 1, from - 1, from] {
            list.add(format!("serial {from}\nw 01 03\n{}\nsave", input(count)));
            list.add(format!("serial {into}\nb 21\nrestore\nroom\nline\nstate"));
            list.add("b 7c7d\nroom\nr 00\nw 04 10\nw 00 7e\nw 00 7f\nstate\nrestore\nroom\nstate\ncounters");
        }
    }
}

/// A state that a line gives is one of the usual size, whatever the port was before; more bytes are refused.
fn given_states(list: &mut List) {
    for size in SIZES {
        for count in [0, 1, 15, 16, 17, 63, 64, 65, 128, 1024, 1025] {
            list.add(format!("serial {size}\nb 2122"));
            list.add(format!("restore {REGISTERS} {}", different_bytes(count)));
            list.add(format!("room\nstate\n{}\nroom\nstate", input(100)));
        }
    }
}

fn alphabet(saves: bool) -> Vec<String> {
    let mut alphabet = [
        "r 00", "r 02", "w 00 55", "w 01 00", "w 01 03", "w 02 03", "w 04 08", "w 04 10", "b 21",
    ]
    .map(String::from)
    .to_vec();
    alphabet.extend([SMALLEST - 1, SMALLEST, SMALLEST + 1].map(input));
    if saves {
        alphabet.extend(["save", "restore"].map(String::from));
    }
    alphabet
}

#[cfg(test)]
mod tests {
    use super::*;
    use crate::format::{asking_lines, is_start};

    #[test]
    fn everything_is_there() {
        let text = list(&Options::default());
        let starts = asking_lines(&text).filter(|line| is_start(line)).count();
        let runs = (0..=4).map(|length| 14_usize.pow(length)).sum::<usize>();
        let numbers = 2049 + malformed::SIZES.len() + SIZES.len() + 2 * SIZES.len() + 4;
        let fillings = SIZES.map(|size| size + 2).iter().sum::<usize>();
        let expected = runs + numbers + 2 * fillings + SIZES.len() + 49 * 4 * 2 + 7 * 11;
        assert_eq!(starts, expected);
    }
}
