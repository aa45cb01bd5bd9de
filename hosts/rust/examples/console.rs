//! A complete small console: a machine with a serial port, a clock and a reset controller, and a guest that knows
//! them by their addresses alone. The guest's port is the terminal.
//!
//!     cargo run --example console
//!
//! Type a line and the guest answers it. `time` asks it for the clock, `reset` ends it. If bytes were lost on the way
//! to the terminal, the console says at its end how many.

use std::cell::Cell;
use std::io::{self, BufRead, Stdout};
use std::rc::Rc;

use serialpost::{rtc_pl031, serial, Counters, I8042Device, Rtc, Serial, Trigger};

// ---- The monitor

/// A wire to the monitor. A real one would be an eventfd, or a call into the hypervisor.
#[derive(Clone, Default)]
struct Wire(Rc<Cell<bool>>);

impl Trigger for Wire {
    type E = io::Error;

    fn trigger(&self) -> io::Result<()> {
        self.0.set(true);
        Ok(())
    }
}

struct Machine {
    port: Serial<Wire, Counters, Stdout>,
    clock: Rtc<rtc_pl031::NoEvents>,
    keyboard: I8042Device<Wire>,
}

impl Machine {
    fn port_read(&mut self, address: u16) -> u8 {
        match address {
            0x060..=0x064 => self.keyboard.read((address - 0x060) as u8),
            0x3f8..=0x3ff => self.port.read((address - 0x3f8) as u8),
            _ => 0xff,
        }
    }

    fn port_write(&mut self, address: u16, value: u8) {
        let done = match address {
            0x060..=0x064 => self.keyboard.write((address - 0x060) as u8, value),
            0x3f8..=0x3ff => self
                .port
                .write((address - 0x3f8) as u8, value)
                .map_err(io::Error::other),
            _ => Ok(()),
        };
        // The guest cannot be told, so the one who runs the monitor is.
        if let Err(why) = done {
            eprintln!("console: {why}");
        }
    }

    fn clock_read(&mut self, offset: u16) -> u32 {
        let mut data = [0; 4];
        self.clock.read(offset, &mut data);
        u32::from_le_bytes(data)
    }
}

fn main() -> io::Result<()> {
    let (interrupt, reset) = (Wire::default(), Wire::default());
    let mut machine = Machine {
        port: Serial::with_events(interrupt.clone(), Counters::new(), io::stdout()),
        clock: Rtc::new(),
        keyboard: I8042Device::new(reset.clone()),
    };
    let mut guest = Guest::boot(&mut machine);

    let mut terminal = io::stdin().lock();
    while !reset.0.get() {
        let typed = terminal.fill_buf()?;
        if typed.is_empty() {
            break;
        }
        // What does not fit now is offered again, when the guest has read some.
        let taken = match machine.port.enqueue_raw_bytes(typed) {
            Ok(taken) => taken,
            Err(serial::Error::FullFifo) => 0,
            Err(why) => return Err(io::Error::other(why)),
        };
        terminal.consume(taken);
        if interrupt.0.take() {
            guest.interrupt(&mut machine);
        }
    }
    let counters = machine.port.events();
    if counters.lost() > 0 {
        let (lost, sent) = (counters.lost(), counters.sent());
        eprintln!("console: {lost} of {sent} bytes were lost");
    }
    Ok(())
}

// ---- The guest

const DATA: u16 = 0x3f8;
const INTERRUPT_ENABLE: u16 = 0x3f9;
const LINE_STATUS: u16 = 0x3fd;

struct Guest {
    line: Vec<u8>,
    halted: bool,
}

impl Guest {
    fn boot(machine: &mut Machine) -> Self {
        machine.port_write(INTERRUPT_ENABLE, 0x01);
        Guest::print(machine, "guest: ready\n");
        Guest {
            line: Vec::new(),
            halted: false,
        }
    }

    fn print(machine: &mut Machine, text: &str) {
        for byte in text.bytes() {
            machine.port_write(DATA, byte);
        }
    }

    /// Data has come: read all there is.
    fn interrupt(&mut self, machine: &mut Machine) {
        while !self.halted && machine.port_read(LINE_STATUS) & 0x01 != 0 {
            match machine.port_read(DATA) {
                b'\n' => self.answer(machine),
                byte => self.line.push(byte),
            }
        }
    }

    fn answer(&mut self, machine: &mut Machine) {
        let line = String::from_utf8_lossy(&std::mem::take(&mut self.line)).into_owned();
        match line.as_str() {
            "time" => {
                let seconds = machine.clock_read(0x000);
                Guest::print(machine, &format!("guest: {seconds} seconds since 1970\n"));
            }
            "reset" => {
                Guest::print(machine, "guest: bye\n");
                machine.port_write(0x064, 0xfe);
                self.halted = true;
            }
            _ => Guest::print(machine, &format!("guest: you said {line}\n")),
        }
    }
}
