//! Drives a set of devices through a list: one line in, one answer out.

use std::io::{self, BufRead, Write};

use crate::devices::{flushes, Clock, ClockState, Devices, Serial, SerialState, I8042, LCR};
use crate::format::{self, Device, Operation, Operation::*, Words};

/// The device that operations speak to, until another one is started. The clock has the time with it.
enum Current {
    None,
    Serial(Box<dyn Serial>),
    Clock(Box<dyn Clock>, u64),
    I8042(Box<dyn I8042>),
}

/// What is kept is what was saved last, of each kind. It outlives the device that it was saved from.
pub struct Driver<D: Devices> {
    devices: D,
    /// Whether the guest reads what a port of ours would throw away.
    fetches: bool,
    current: Current,
    kept_port: Option<SerialState>,
    kept_clock: Option<ClockState>,
}

impl<D: Devices> Driver<D> {
    pub fn new(devices: D) -> Self {
        Driver {
            devices,
            fetches: false,
            current: Current::None,
            kept_port: None,
            kept_clock: None,
        }
    }

    /// Drives vm-superio beside ours. A write of FCR by which ours throws away what waits does nothing there, and the
    /// two would differ for ever after. So the guest reads what waits, at such a write. These reads are no lines of the
    /// list: they have no answers, and are not counted.
    pub fn fetching(devices: D) -> Self {
        Driver {
            fetches: true,
            ..Driver::new(devices)
        }
    }

    /// The state of the serial port, if that is the current device.
    pub fn port(&self) -> Option<SerialState> {
        match &self.current {
            Current::Serial(port) => Some(port.state()),
            _ => None,
        }
    }

    /// Brings a state back into the serial port, if that is the current device. Nobody is answered.
    pub fn put_port(&mut self, state: &SerialState) {
        if let Current::Serial(port) = &mut self.current {
            port.restore(state);
        }
    }

    /// The state of the clock and its time, if that is the current device.
    pub fn clock(&self) -> Option<(ClockState, u64)> {
        match &self.current {
            Current::Clock(clock, now) => Some((clock.state(), *now)),
            _ => None,
        }
    }

    /// The counters of the current device, if it has some.
    pub fn counters(&self) -> Option<Vec<usize>> {
        match &self.current {
            Current::Serial(port) => Some(port.counters().to_vec()),
            Current::Clock(clock, _) => Some(clock.counters().to_vec()),
            _ => None,
        }
    }

    /// Answers a line that is not to be passed over. The answer ends as a line does.
    pub fn answer(&mut self, line: &[u8]) -> Vec<u8> {
        self.answer_before(line, b"")
    }

    /// The same, where it is known which line will be answered next.
    pub fn answer_before(&mut self, line: &[u8], next: &[u8]) -> Vec<u8> {
        let operation = format::parse(line);
        let is_lost = next == b"lost";
        let answer = operation.and_then(|operation| self.perform(&operation, is_lost));
        let mut answer = answer.unwrap_or(Words(b"?".to_vec())).0;
        answer.push(b'\n');
        answer
    }

    /// Performs an operation, if it speaks to the current device. A byte that it sends may be lost next.
    fn perform(&mut self, operation: &Operation, is_lost: bool) -> Option<Words> {
        if let Start(device) = operation {
            self.current = match device {
                Device::Serial => Current::Serial(self.devices.serial()),
                Device::Clock => Current::Clock(self.devices.clock(), 0),
                Device::I8042 => Current::I8042(self.devices.i8042()),
            };
            return Some(Words::start(device.word()));
        }
        if let StartOf(size) = operation {
            self.current = Current::Serial(self.devices.serial_of(*size)?);
            return Some(Words::start("serial").number(*size));
        }
        match &mut self.current {
            Current::None => None,
            Current::Serial(port) => match *operation {
                WriteByte(offset, value) => {
                    let before = (self.fetches && flushes(offset, value)).then(|| port.state());
                    let answer = write(&mut **port, offset, value, is_lost);
                    if let Some(before) = before.filter(SerialState::is_to_empty) {
                        fetch_all(&mut **port, &before);
                    }
                    Some(answer)
                }
                _ => on_serial(&mut **port, &mut self.kept_port, operation),
            },
            Current::Clock(clock, now) => {
                on_clock(&mut **clock, now, &mut self.kept_clock, operation)
            }
            Current::I8042(controller) => on_i8042(&mut **controller, operation),
        }
    }
}

fn write(port: &mut dyn Serial, offset: u8, value: u8, is_lost: bool) -> Words {
    let (written, raised) = match is_lost {
        true => port.write_to_lose(offset, value),
        false => port.write(offset, value),
    };
    Words::start("w").written(written).number(raised)
}

/// Reads RBR, the divisor closed for it, once for each byte that waited; once where LSR alone said that one did.
fn fetch_all(port: &mut dyn Serial, before: &SerialState) {
    port.write(3, 0x00);
    for _ in 0..before.buffer.len().max(1) {
        port.read_unheard(0);
    }
    port.write(3, before.registers[LCR]);
}

fn on_serial(
    port: &mut dyn Serial,
    kept: &mut Option<SerialState>,
    asked: &Operation,
) -> Option<Words> {
    Some(match asked {
        ReadByte(offset) => {
            let (value, raised) = port.read(*offset);
            Words::start("r").hex(&[value]).number(raised)
        }
        Input(bytes) => match port.input(bytes) {
            (Some(taken), raised) => Words::start("b").number(taken).number(raised),
            (None, raised) => Words::start("b full").number(raised),
        },
        Room => Words::start("room").number(port.room()),
        Line => Words::start("line").number(usize::from(port.line()?)),
        Lost => {
            port.lost();
            Words::start("lost")
        }
        Counters => Words::start("counters").numbers(&port.counters()),
        State => port_state("state", &port.state()),
        Save => port_state("save", kept.insert(port.state())),
        Restore => restore_port(port, kept.as_ref()?),
        RestoreSerial(state) => restore_port(port, state),
        _ => return None,
    })
}

fn port_state(word: &str, state: &SerialState) -> Words {
    let words = Words::start(word).registers(state);
    words.number(state.buffer.len()).waiting(state)
}

fn restore_port(port: &mut dyn Serial, state: &SerialState) -> Words {
    let Some(raised) = port.restore(state) else {
        return Words::start("restore full");
    };
    Words::start("restore")
        .number(raised)
        .word(reached(port.reaches(state)))
}

fn reached(yes: bool) -> &'static str {
    ["unreached", "reached"][usize::from(yes)]
}

fn on_clock(
    clock: &mut dyn Clock,
    now: &mut u64,
    kept: &mut Option<ClockState>,
    asked: &Operation,
) -> Option<Words> {
    let valid = |yes: bool| ["invalid", "ok"][usize::from(yes)];
    Some(match asked {
        Now(time) => {
            *now = *time;
            Words::start("now")
        }
        WriteWord(offset, data) => Words::start("w").word(valid(clock.write(*now, *offset, data))),
        ReadWord(offset, data) => {
            let mut data = *data;
            let is_valid = clock.read(*now, *offset, &mut data);
            Words::start("r").hex(&data).word(valid(is_valid))
        }
        Counters => Words::start("counters").numbers(&clock.counters()),
        State => Words::start("state").clock(&clock.state()),
        Save => Words::start("save").clock(kept.insert(clock.state())),
        Restore => restore_clock(clock, kept.as_ref()?),
        RestoreClock(state) => restore_clock(clock, state),
        _ => return None,
    })
}

fn restore_clock(clock: &mut dyn Clock, state: &ClockState) -> Words {
    clock.restore(state);
    Words::start("restore").word(reached(clock.reaches(state)))
}

fn on_i8042(controller: &mut dyn I8042, asked: &Operation) -> Option<Words> {
    Some(match asked {
        WriteByte(offset, value) if controller.write(*offset, *value) => Words::start("w reset"),
        WriteByte(..) => Words::start("w --"),
        ReadByte(offset) => Words::start("r").hex(&[controller.read(*offset)]),
        _ => return None,
    })
}

/// Standard input and output.
struct Talk {
    input: io::BufReader<io::StdinLock<'static>>,
    output: io::BufWriter<io::StdoutLock<'static>>,
}

impl Talk {
    fn new() -> Self {
        const BUFFER: usize = 1 << 16;
        Talk {
            input: io::BufReader::with_capacity(BUFFER, io::stdin().lock()),
            output: io::BufWriter::with_capacity(BUFFER, io::stdout().lock()),
        }
    }

    /// Reads on to the next line that gets an answer, and answers whether there is one. Before it waits for a line,
    /// all answers so far are written.
    fn read_on(&mut self, line: &mut Vec<u8>) -> io::Result<bool> {
        loop {
            line.clear();
            if !self.input.buffer().contains(&b'\n') {
                self.output.flush()?;
            }
            if self.input.read_until(b'\n', line)? == 0 {
                return Ok(false);
            }
            if line.last() == Some(&b'\n') {
                line.pop();
            }
            if !format::is_passed_over(line) {
                return Ok(true);
            }
        }
    }
}

/// Answers a whole list from standard input on standard output, each line before it waits for the next.
pub fn serve(mut driver: Driver<impl Devices>) -> io::Result<()> {
    let mut talk = Talk::new();
    let mut line = Vec::new();
    while talk.read_on(&mut line)? {
        talk.output.write_all(&driver.answer(&line))?;
    }
    talk.output.flush()
}

/// The same for devices whose own sink can fail: each line is answered when the next one is known.
pub fn serve_ahead(mut driver: Driver<impl Devices>) -> io::Result<()> {
    let mut talk = Talk::new();
    let [mut line, mut next] = [Vec::new(), Vec::new()];
    let mut goes_on = talk.read_on(&mut line)?;
    while goes_on {
        goes_on = talk.read_on(&mut next)?;
        talk.output.write_all(&driver.answer_before(&line, &next))?;
        std::mem::swap(&mut line, &mut next);
    }
    talk.output.flush()
}
