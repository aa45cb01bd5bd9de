//! What a set of the three devices is asked. The original and the account both implement this.

use crate::account::reached;

/// How many interrupts a call raised.
pub type Raised = usize;

/// The serial port's registers, by their places in its state. DLL and DLM are the divisor.
pub const DLL: usize = 0;
pub const DLM: usize = 1;
pub const IER: usize = 2;
pub const IIR: usize = 3;
pub const LCR: usize = 4;
pub const LSR: usize = 5;
pub const MCR: usize = 6;
pub const MSR: usize = 7;
pub const SCR: usize = 8;

/// The bit of FCR that empties the receiver.
const FCR_EMPTIES: u8 = 0x02;

/// Whether a write is one that empties the receiver of ours.
pub fn flushes(offset: u8, value: u8) -> bool {
    offset == 2 && value & FCR_EMPTIES != 0
}

/// The serial port's nine registers in the order of the `state` answer, the bytes that wait to be read, first
/// in front, how many can, and what is remembered of FCR. No answer tells the last two.
#[derive(Clone, Debug, PartialEq, Eq, Hash)]
pub struct SerialState {
    pub registers: [u8; 9],
    pub buffer: Vec<u8>,
    pub size: usize,
    pub fcr: u8,
}

impl SerialState {
    /// How many bytes can wait where nothing else is said, as in vm-superio.
    pub const SIZE: usize = 64;
    /// The sizes with which a port of ours is made.
    pub const SIZES: [usize; 7] = [16, 32, Self::SIZE, 128, 256, 512, 1024];

    pub fn waits(&self) -> bool {
        !self.buffer.is_empty()
    }

    pub fn room(&self) -> usize {
        self.size.saturating_sub(self.buffer.len())
    }

    /// Whether there is something to be thrown away: a byte, or that LSR says so.
    pub fn is_to_empty(&self) -> bool {
        self.waits() || self.registers[LSR] & 0x01 != 0
    }

    pub fn divisor_is_open(&self) -> bool {
        self.registers[LCR] & 0x80 != 0
    }

    pub fn loops(&self) -> bool {
        self.registers[MCR] & 0x10 != 0
    }
}

/// The default is a fresh clock's.
#[derive(Clone, Copy, Debug, Default, PartialEq, Eq)]
pub struct ClockState {
    pub load: u32,
    pub offset: i64,
    pub match_: u32,
    pub mask: u32,
    pub raw: u32,
}

/// How often, since the device was named: RBR was read, a byte was sent, a sent byte was lost, and a read of
/// RBR left no byte waiting.
pub type PortCounters = [usize; 4];

/// How often, since the device was named, a read was invalid, and a write.
pub type ClockCounters = [usize; 2];

/// What a write did.
#[derive(Clone, Copy, Debug, PartialEq, Eq)]
pub enum Written {
    /// Nothing that an answer tells.
    Quietly,
    Sent(u8),
    /// The receiver was emptied, and so many bytes thrown away. vm-superio has no such write.
    Flushed(usize),
}

impl From<Option<u8>> for Written {
    fn from(sent: Option<u8>) -> Self {
        sent.map_or(Written::Quietly, Written::Sent)
    }
}

pub trait Serial {
    fn write(&mut self, offset: u8, value: u8) -> (Written, Raised);
    /// A write to which `lost` comes next: if it sends a byte, that is the one. Only a device whose own
    /// sink can fail need know beforehand.
    fn write_to_lose(&mut self, offset: u8, value: u8) -> (Written, Raised) {
        self.write(offset, value)
    }
    /// The host says that the sink did not take the byte that was sent last.
    fn lost(&mut self);
    fn counters(&self) -> PortCounters;
    fn read(&mut self, offset: u8) -> (u8, Raised);
    /// A read that nobody hears of: it is not counted.
    fn read_unheard(&mut self, offset: u8);
    /// Answers how many of the bytes were taken, or none if they were refused because the buffer is full.
    fn input(&mut self, bytes: &[u8]) -> (Option<usize>, Raised);
    fn room(&self) -> usize;
    fn state(&self) -> SerialState;
    /// Brings a state back, and its size with it, or answers none if it is refused because more bytes wait than
    /// its size.
    fn restore(&mut self, state: &SerialState) -> Option<Raised>;
    /// Whether the interrupt line is high. The original cannot tell.
    fn line(&self) -> Option<bool> {
        None
    }
    /// Whether a run from a fresh port could have reached the state. The original cannot tell: where it
    /// is compared this word is the account's.
    fn reaches(&self, state: &SerialState) -> bool {
        reached::original_serial(state)
    }
}

/// `now` is the host's time in seconds. An access answers whether it was valid.
pub trait Clock {
    fn write(&mut self, now: u64, offset: u16, data: &[u8; 4]) -> bool;
    fn read(&mut self, now: u64, offset: u16, data: &mut [u8; 4]) -> bool;
    fn counters(&self) -> ClockCounters;
    fn state(&self) -> ClockState;
    fn restore(&mut self, state: &ClockState);
    /// As for the port.
    fn reaches(&self, state: &ClockState) -> bool {
        reached::clock(state)
    }
}

pub trait I8042 {
    /// Answers whether the write asks for a reset of the machine.
    fn write(&mut self, offset: u8, value: u8) -> bool;
    fn read(&mut self, offset: u8) -> u8;
}

/// Makes fresh devices.
pub trait Devices {
    fn serial(&mut self) -> Box<dyn Serial>;
    /// A port of this size, which is one of the seven. vm-superio has none.
    fn serial_of(&mut self, _size: usize) -> Option<Box<dyn Serial>> {
        None
    }
    fn clock(&mut self) -> Box<dyn Clock>;
    fn i8042(&mut self) -> Box<dyn I8042>;
}
