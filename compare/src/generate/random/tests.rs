//! That random lists visit what they are to visit.

use std::collections::HashMap;

use super::*;
use crate::account::Account;
use crate::devices::{flushes, SerialState, IER, IIR, LCR, MCR};
use crate::driver::Driver;
use crate::format::{asking_lines, is_start, parse, Operation::*};
use crate::generate::announces;

fn sample(devices: &[Device], quiet_enable: bool, seed: u64) -> Vec<u8> {
    let options = Options {
        devices: devices.to_vec(),
        quiet_enable,
        ..Options::default()
    };
    list(&options, 50_000, seed)
}

/// How often each thing is met on a list, by its name.
struct Met(HashMap<String, usize>);

impl Met {
    fn on(text: &[u8]) -> Self {
        Met::by(Driver::fetching(Account::Original), text)
    }

    fn by(mut driver: Driver<Account>, text: &[u8]) -> Self {
        let mut met = Met(HashMap::new());
        let mut into = "";
        let mut sent = false;
        let mut counts = 0;
        for line in asking_lines(text) {
            let clock = driver.clock();
            met.before(&driver, line);
            if line == b"lost" {
                met.note(if sent {
                    "lost as sent"
                } else {
                    "lost at another time"
                });
            }
            let counted = driver.counters();
            let answer = String::from_utf8(driver.answer(line)).unwrap();
            let answer = answer.trim_end();
            match (parse(line), clock) {
                (Some(Restore), _) => met.note(&format!("kept{into}: {answer}")),
                (Some(operation), _) if operation.brings_back() => {
                    met.note(&format!("made up: {answer}"))
                }
                (Some(Now(time)), Some((_, before))) if time < before => met.note("goes back"),
                (Some(ReadWord(0, _)), Some((clock, now))) if clock.offset != 0 => {
                    let hosts = format!("r {:08x} ok", (now as u32).swap_bytes());
                    met.note(&format!("shows its host's time: {}", answer == hosts));
                }
                _ => {}
            }
            sent = answer.starts_with("w ") && !answer.starts_with("w -");
            if answer.starts_with("counters ") {
                met.note(&format!("counters after {counts}"));
                counts = 0;
            }
            counts += usize::from(driver.counters() != counted);
            if is_start(line) {
                counts = 0;
            }
            into = ["", ", into a fresh one"][usize::from(is_start(line))];
        }
        met
    }

    /// Notes what a line meets before it is answered: of a port, how many bytes wait, and whether the
    /// divisor is open and the loop closed.
    fn before(&mut self, driver: &Driver<Account>, line: &[u8]) {
        let text = String::from_utf8_lossy(line);
        let access = match parse(line) {
            None => "malformed",
            Some(Input(_)) => "b",
            Some(ReadByte(8..)) => "read beyond",
            Some(WriteByte(8.., _)) => "write beyond",
            Some(WriteByte(offset, value)) if flushes(offset, value) => "flush",
            Some(_) => &text[..text.len().min(4)],
        };
        self.note(&text);
        self.note(access);
        if let Some(Input(bytes)) = parse(line) {
            self.note(&format!("input of {}", bytes.len()));
        }
        if announces(driver, line) {
            self.note("announces");
        }
        if let Some(SerialState {
            registers,
            buffer,
            size,
            ..
        }) = driver.port()
        {
            let (open, looped) = (registers[LCR] & 0x80, registers[MCR] & 0x10);
            let waiting = buffer.len();
            self.note(&format!("{access} with IER {:02x}", registers[IER] & 3));
            self.note(&format!("{access} at {waiting} {open:x} {looped:x}"));
            self.note(&format!("{access} at {waiting} of {size}"));
            self.note(&format!("IIR {:02x}", registers[IIR]));
        }
    }

    fn note(&mut self, name: &str) {
        *self.0.entry(name.to_string()).or_insert(0) += 1;
    }

    /// Holds that something is met so often.
    fn holds(&self, least: usize, name: impl AsRef<str>) {
        let name = name.as_ref();
        let times = self.0.get(name).copied().unwrap_or(0);
        assert!(times >= least, "{name}: {times} times");
    }
}

#[test]
fn the_same_seed_makes_the_same_list_of_the_length_asked_for() {
    let text = sample(&Device::ALL, true, 7);
    assert_eq!(asking_lines(&text).count(), 50_000);
    assert_eq!(text, sample(&Device::ALL, true, 7));
    assert_ne!(text, sample(&Device::ALL, true, 8));
}

#[test]
fn every_limit_of_the_serial_port_is_visited() {
    let options = Options {
        devices: vec![Device::Serial],
        quiet_enable: true,
        ..Options::default()
    };
    let met = Met::on(&list(&options, 100_000, 1));
    for (open, looped) in [("0", "0"), ("0", "10"), ("80", "0"), ("80", "10")] {
        for waiting in [0, 1, 63, 64] {
            for access in ["r 00", "w 00", "b", "flush"] {
                met.holds(10, format!("{access} at {waiting} {open} {looped}"));
            }
        }
    }
    for ier in ["00", "01"] {
        met.holds(20, format!("flush with IER {ier}"));
    }
    for size in [0, 1, 63, 64, 65, 200] {
        met.holds(10, format!("input of {size}"));
    }
    for name in ["write beyond", "read beyond", "IIR 04"] {
        met.holds(10, name);
    }
    met.holds(500, "malformed");
}

#[test]
fn every_limit_of_a_port_of_every_size_is_visited() {
    let options = Options {
        devices: vec![Device::Serial],
        sizes: true,
        ..Options::default()
    };
    let met = Met::by(Driver::new(Account::Ours), &list(&options, 200_000, 1));
    for size in SerialState::SIZES {
        met.holds(50, format!("serial {size}"));
        for waiting in [0, 1, size - 1, size] {
            for access in ["r 00", "w 00", "b", "flush"] {
                met.holds(10, format!("{access} at {waiting} of {size}"));
            }
        }
        met.holds(10, format!("save at {size} of {size}"));
        for length in [size - 1, size, size + 1, 3 * size + 8] {
            met.holds(10, format!("input of {length}"));
        }
    }
    for line in ["serial 48", "serial 65", "serial 1023", "serial 65552"] {
        met.holds(5, line);
    }
    for answer in ["0 reached", "2 reached", "0 unreached", "full"] {
        met.holds(5, format!("made up: restore {answer}"));
    }
}

#[test]
fn every_limit_of_the_clock_is_visited() {
    let met = Met::on(&sample(&[Device::Clock], true, 1));
    for time in [0, 0xffff_ffff, 0x1_0000_0000, u64::MAX] {
        met.holds(1, format!("now {time}"));
    }
    met.holds(100, "goes back");
    met.holds(100, "shows its host's time: true");
    met.holds(100, "shows its host's time: false");
    met.holds(500, "malformed");
}

#[test]
fn states_of_every_kind_are_brought_back() {
    let ports = [
        "0 reached",
        "1 reached",
        "2 reached",
        "0 unreached",
        "1 unreached",
    ];
    for (device, kept, refused) in [
        (Device::Serial, &ports[..], &["2 unreached", "full"][..]),
        (Device::Clock, &["reached", "unreached"], &[]),
    ] {
        let met = Met::on(&sample(&[device], false, 1));
        for answer in kept {
            met.holds(5, format!("kept: restore {answer}"));
            met.holds(5, format!("kept, into a fresh one: restore {answer}"));
        }
        for answer in kept.iter().chain(refused) {
            met.holds(20, format!("made up: restore {answer}"));
        }
    }
    let met = Met::on(&sample(&[Device::I8042], false, 1));
    met.holds(100, "kept: ?");
    met.holds(100, "made up: ?");
    met.holds(500, "malformed");
}

#[test]
fn each_event_is_asked_for_alone_and_bytes_are_lost() {
    let met = Met::on(&sample(&[Device::Serial], false, 1));
    for name in ["lost as sent", "lost at another time"] {
        met.holds(200, name);
    }
    met.holds(500, "counters after 1");
    let met = Met::on(&sample(&[Device::Clock], false, 1));
    met.holds(500, "counters after 1");
    met.holds(50, "lost");
    let met = Met::on(&sample(&[Device::I8042], false, 1));
    for name in ["counters", "lost"] {
        met.holds(50, name);
    }
}

/// Lines that begin so are in a list, but not in one with these options.
fn are_left_out(words: [&str; 2], options: &Options) {
    let begins = |line: &[u8]| words.iter().any(|word| line.starts_with(word.as_bytes()));
    let are_in = |options: &Options| asking_lines(&list(options, 20_000, 1)).any(begins);
    assert!(are_in(&Options::default()) && !are_in(options));
}

#[test]
fn a_list_without_counters_has_none_and_loses_nothing() {
    let options = Options {
        counters: false,
        ..Options::default()
    };
    are_left_out(["counters", "lost"], &options);
}

#[test]
fn a_list_without_saved_states_has_none() {
    let options = Options {
        saves: false,
        ..Options::default()
    };
    are_left_out(["save", "restore"], &options);
}

/// As in the lists that were recorded before FCR did something.
#[test]
fn a_list_without_flushes_has_few() {
    let flushes = [false, true].map(|flushes| {
        let options = Options {
            devices: vec![Device::Serial],
            flushes,
            ..Options::default()
        };
        let met = Met::on(&list(&options, 50_000, 1)).0;
        met.get("flush").copied().unwrap_or(0)
    });
    assert!(0 < flushes[0] && 5 * flushes[0] < flushes[1], "{flushes:?}");
}

#[test]
fn a_quiet_list_never_announces_and_another_does() {
    let [loud, quiet] = [false, true].map(|quiet| Met::on(&sample(&Device::ALL, quiet, 1)));
    assert!(!quiet.0.contains_key("announces"));
    loud.holds(100, "announces");
}
