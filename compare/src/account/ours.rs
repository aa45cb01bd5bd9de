//! The interrupts of our port. Received data is pending while a byte waits, the transmitter's interrupt while
//! IIR has its bit; nothing else of IIR is ever looked at. What is pending and enabled is active.

use super::serial::{Kind, Way, IIR_NONE, KINDS, RECEIVED_DATA, TRANSMITTER_EMPTY};
use crate::devices::{SerialState, IIR};

pub struct Ours;

pub fn is_active(kind: Kind, port: &SerialState) -> bool {
    let is_pending = match kind {
        RECEIVED_DATA => port.waits(),
        _ => kind.is_marked(port),
    };
    is_pending && kind.is_enabled(port)
}

/// IIR as it is stored: with the bits of what is active.
fn settled(port: &SerialState) -> u8 {
    let active = KINDS.iter().filter(|kind| is_active(**kind, port));
    match active.map(|kind| kind.marked).sum() {
        0 => IIR_NONE,
        bits => bits,
    }
}

fn settle(port: &mut SerialState) {
    port.registers[IIR] = settled(port);
}

fn transmitter_is_empty(port: &mut SerialState) {
    port.registers[IIR] |= TRANSMITTER_EMPTY.marked;
    settle(port);
}

impl Way for Ours {
    fn stands(&self, kind: Kind, port: &SerialState) -> bool {
        is_active(kind, port)
    }

    fn received(&self, port: &mut SerialState, waited: bool) {
        if !waited {
            settle(port);
        }
    }

    fn fetched(&self, port: &mut SerialState) {
        if !port.waits() {
            settle(port);
        }
    }

    fn transmits(&self, port: &mut SerialState) {
        if TRANSMITTER_EMPTY.is_enabled(port) {
            transmitter_is_empty(port);
        }
    }

    fn enabled(&self, port: &mut SerialState) {
        transmitter_is_empty(port);
    }

    /// The transmitter's interrupt ends as it is answered.
    fn identified(&self, port: &mut SerialState) -> u8 {
        if is_active(RECEIVED_DATA, port) {
            return RECEIVED_DATA.marked;
        }
        if is_active(TRANSMITTER_EMPTY, port) {
            port.registers[IIR] = IIR_NONE;
            return TRANSMITTER_EMPTY.marked;
        }
        IIR_NONE
    }

    fn has_fcr(&self) -> bool {
        true
    }

    fn line(&self, port: &SerialState) -> Option<bool> {
        Some(KINDS.iter().any(|kind| is_active(*kind, port)))
    }

    fn reaches_iir(&self, port: &SerialState) -> bool {
        port.registers[IIR] == settled(port)
    }
}
