//! The serial port of the account. Its interrupts have two ways: ours (`ours`) and the original's
//! (`original`); and ours has FCR. All else is the same.

use crate::devices::{self, flushes, PortCounters, Raised, SerialState, Written};
use crate::devices::{DLL, DLM, IER, IIR, LCR, LSR, MCR, MSR, SCR};

const IIR_SHOWN: u8 = 0xc0;
pub(crate) const IIR_NONE: u8 = 0x01;
pub(crate) const LSR_DATA_READY: u8 = 0x01;
const LSR_FRESH: u8 = 0x60;
const MSR_FRESH: u8 = 0xb0;
/// What is remembered of FCR.
const FCR_KEPT: u8 = 0xc9;

/// A kind of interrupt: its bit in IER, and its bit in IIR.
#[derive(Clone, Copy, PartialEq, Eq)]
pub struct Kind {
    pub(crate) enabled: u8,
    pub(crate) marked: u8,
}
pub const RECEIVED_DATA: Kind = Kind {
    enabled: 0x01,
    marked: 0x04,
};
pub const TRANSMITTER_EMPTY: Kind = Kind {
    enabled: 0x02,
    marked: 0x02,
};
pub const KINDS: [Kind; 2] = [RECEIVED_DATA, TRANSMITTER_EMPTY];

impl Kind {
    pub fn is_enabled(self, port: &SerialState) -> bool {
        port.registers[IER] & self.enabled != 0
    }

    pub fn is_marked(self, port: &SerialState) -> bool {
        port.registers[IIR] & self.marked != 0
    }
}

/// What a port's interrupts do.
pub trait Way {
    /// Whether a kind stands. It is raised as it begins to.
    fn stands(&self, kind: Kind, port: &SerialState) -> bool;
    /// Bytes came; some may have waited before.
    fn received(&self, port: &mut SerialState, waited: bool);
    /// RBR was read.
    fn fetched(&self, port: &mut SerialState);
    /// THR is written; the byte has gone nowhere yet.
    fn transmits(&self, port: &mut SerialState);
    /// IER was written.
    fn enabled(&self, port: &mut SerialState);
    /// IIR is read. Answers its code.
    fn identified(&self, port: &mut SerialState) -> u8;
    /// Whether a write of FCR does something.
    fn has_fcr(&self) -> bool;
    /// Whether the line is high, if that can be told.
    fn line(&self, port: &SerialState) -> Option<bool>;
    /// Whether a run comes to IIR beside the rest of the state.
    fn reaches_iir(&self, port: &SerialState) -> bool;
}

/// Whether a run from a fresh port of such ways comes to a state.
pub fn reaches(way: &impl Way, port: &SerialState) -> bool {
    let lsr = LSR_FRESH + u8::from(port.waits()) * LSR_DATA_READY;
    port.registers[LSR] == lsr
        && port.registers[MSR] == MSR_FRESH
        && port.registers[IER] < 0x10
        && SerialState::SIZES.contains(&port.size)
        && port.buffer.len() <= port.size
        && port.fcr & !FCR_KEPT == 0
        && way.reaches_iir(port)
}

/// The loop's wires: a bit of MCR, and the bit of MSR that follows it.
const WIRES: [(u8, u8); 4] = [(0x02, 0x10), (0x01, 0x20), (0x04, 0x40), (0x08, 0x80)];

/// What is counted: reads of RBR, bytes that go out, those of them that are lost, and reads of RBR after which
/// no byte waits.
#[derive(Clone, Copy, Default)]
struct Counted {
    fetched: usize,
    sent: usize,
    lost: usize,
    emptied: usize,
}

pub struct Serial<W> {
    way: W,
    port: SerialState,
    counted: Counted,
}

impl<W: Way> Serial<W> {
    pub fn fresh(way: W, size: usize) -> Self {
        let registers = [
            0x0c, 0x00, 0x00, 0x01, 0x03, LSR_FRESH, 0x08, MSR_FRESH, 0x00,
        ];
        let port = SerialState {
            registers,
            buffer: Vec::new(),
            size,
            fcr: 0,
        };
        Serial {
            way,
            port,
            counted: Counted::default(),
        }
    }

    /// Does something, and answers how many interrupts that raised.
    fn raised<T>(&mut self, does: impl FnOnce(&mut Self) -> T) -> (T, Raised) {
        let standing = |port: &Self| KINDS.map(|kind| port.way.stands(kind, &port.port));
        let before = standing(self);
        let done = does(self);
        let after = standing(self);
        let raised = (0..KINDS.len()).filter(|&kind| after[kind] && !before[kind]);
        (done, raised.count())
    }

    /// Lets bytes arrive for which there is room.
    fn receive(&mut self, bytes: &[u8]) {
        let waited = self.port.waits();
        self.port.buffer.extend(bytes);
        self.port.registers[LSR] |= LSR_DATA_READY;
        self.way.received(&mut self.port, waited);
    }

    fn transmit(&mut self, value: u8) -> Written {
        self.way.transmits(&mut self.port);
        if !self.port.loops() {
            self.counted.sent += 1;
            return Written::Sent(value);
        }
        if self.port.room() > 0 {
            self.receive(&[value]);
        }
        Written::Quietly
    }

    fn enable(&mut self, value: u8) -> Written {
        self.port.registers[IER] = value & 0x0f;
        self.way.enabled(&mut self.port);
        Written::Quietly
    }

    /// What is remembered has no effect, and shows nowhere. What is thrown away is not read: nothing is counted.
    fn control_receiver(&mut self, value: u8) -> Written {
        if !self.way.has_fcr() {
            return Written::Quietly;
        }
        self.port.fcr = value & FCR_KEPT;
        if !flushes(2, value) {
            return Written::Quietly;
        }
        let thrown_away = std::mem::take(&mut self.port.buffer);
        self.port.registers[LSR] &= !LSR_DATA_READY;
        self.way.fetched(&mut self.port);
        Written::Flushed(thrown_away.len())
    }

    fn fetch(&mut self) -> u8 {
        self.counted.fetched += 1;
        let first = match self.port.waits() {
            true => self.port.buffer.remove(0),
            false => 0,
        };
        if !self.port.waits() {
            self.counted.emptied += 1;
            self.port.registers[LSR] &= !LSR_DATA_READY;
        }
        self.way.fetched(&mut self.port);
        first
    }

    fn modem_status(&self) -> u8 {
        let registers = &self.port.registers;
        if !self.port.loops() {
            return registers[MSR];
        }
        let wires = WIRES
            .iter()
            .filter(|(control, _)| registers[MCR] & control != 0);
        wires.fold(registers[MSR] & 0x0f, |shown, (_, status)| shown | status)
    }
}

impl<W: Way> devices::Serial for Serial<W> {
    /// What is written at any other offset has no effect.
    fn write(&mut self, offset: u8, value: u8) -> (Written, Raised) {
        let place = match (offset, self.port.divisor_is_open()) {
            (0, false) => return self.raised(|port| port.transmit(value)),
            (0, true) => DLL,
            (1, false) => return self.raised(|port| port.enable(value)),
            (1, true) => DLM,
            (2, _) => return self.raised(|port| port.control_receiver(value)),
            (3, _) => LCR,
            (4, _) => MCR,
            (7, _) => SCR,
            _ => return (Written::Quietly, 0),
        };
        self.port.registers[place] = value;
        (Written::Quietly, 0)
    }

    fn read(&mut self, offset: u8) -> (u8, Raised) {
        let value = match (offset, self.port.divisor_is_open()) {
            (0, false) => self.fetch(),
            (0, true) => self.port.registers[DLL],
            (1, false) => self.port.registers[IER],
            (1, true) => self.port.registers[DLM],
            (2, _) => self.way.identified(&mut self.port) | IIR_SHOWN,
            (3, _) => self.port.registers[LCR],
            (4, _) => self.port.registers[MCR],
            (5, _) => self.port.registers[LSR],
            (6, _) => self.modem_status(),
            (7, _) => self.port.registers[SCR],
            _ => 0,
        };
        (value, 0)
    }

    fn read_unheard(&mut self, offset: u8) {
        let counted = self.counted;
        self.read(offset);
        self.counted = counted;
    }

    fn input(&mut self, bytes: &[u8]) -> (Option<usize>, Raised) {
        if self.port.loops() || bytes.is_empty() {
            return (Some(0), 0);
        }
        let taken = bytes.len().min(self.port.room());
        if taken == 0 {
            return (None, 0);
        }
        let ((), raised) = self.raised(|port| port.receive(&bytes[..taken]));
        (Some(taken), raised)
    }

    /// Believed also where nothing was sent.
    fn lost(&mut self) {
        self.counted.lost += 1;
    }

    fn counters(&self) -> PortCounters {
        let counted = &self.counted;
        [counted.fetched, counted.sent, counted.lost, counted.emptied]
    }

    fn room(&self) -> usize {
        self.port.room()
    }

    fn state(&self) -> SerialState {
        self.port.clone()
    }

    /// What was counted is no part of a state.
    fn restore(&mut self, state: &SerialState) -> Option<Raised> {
        if state.buffer.len() > state.size {
            return None;
        }
        self.port = state.clone();
        let stands = |kind: &&Kind| kind.is_enabled(state) && self.way.stands(**kind, state);
        Some(KINDS.iter().filter(stands).count())
    }

    fn line(&self) -> Option<bool> {
        self.way.line(&self.port)
    }

    fn reaches(&self, state: &SerialState) -> bool {
        reaches(&self.way, state)
    }
}
