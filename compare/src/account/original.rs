//! The interrupts of vm-superio's port. Each kind is marked in IIR as it comes, if it is enabled, and raised
//! if it was not marked already.

use super::serial::{Kind, Way, IIR_NONE, RECEIVED_DATA, TRANSMITTER_EMPTY};
use crate::devices::{SerialState, IIR};

#[derive(Default)]
pub struct Original {
    /// Whether a write of IER is only stored, as in every version before 0.8.2. Since then it announces
    /// what is pending.
    pub quiet_enable: bool,
}

fn announce(kind: Kind, port: &mut SerialState) {
    if kind.is_enabled(port) && !kind.is_marked(port) {
        port.registers[IIR] = port.registers[IIR] & !IIR_NONE | kind.marked;
    }
}

impl Way for Original {
    fn stands(&self, kind: Kind, port: &SerialState) -> bool {
        kind.is_marked(port)
    }

    fn received(&self, port: &mut SerialState, _waited: bool) {
        announce(RECEIVED_DATA, port);
    }

    fn fetched(&self, port: &mut SerialState) {
        let left = port.registers[IIR] & !RECEIVED_DATA.marked;
        port.registers[IIR] = if left == 0 { IIR_NONE } else { left };
    }

    fn transmits(&self, port: &mut SerialState) {
        if !port.loops() {
            announce(TRANSMITTER_EMPTY, port);
        }
    }

    fn enabled(&self, port: &mut SerialState) {
        if self.quiet_enable {
            return;
        }
        if port.waits() {
            announce(RECEIVED_DATA, port);
        }
        announce(TRANSMITTER_EMPTY, port);
    }

    fn identified(&self, port: &mut SerialState) -> u8 {
        std::mem::replace(&mut port.registers[IIR], IIR_NONE)
    }

    fn has_fcr(&self) -> bool {
        false
    }

    fn line(&self, _port: &SerialState) -> Option<bool> {
        None
    }

    /// A write of IER marks what it enables, so each kind that could be marked and is not was unmarked
    /// since, by a read.
    fn reaches_iir(&self, port: &SerialState) -> bool {
        let receives = RECEIVED_DATA.is_enabled(port);
        let transmits = TRANSMITTER_EMPTY.is_enabled(port);
        match port.registers[IIR] {
            0x01 => true,
            // The read that unmarked received data took a byte away. Had it been the read of IIR, nothing
            // would have marked the transmitter again, which is not enabled.
            0x02 => !receives || transmits || port.room() > 0,
            // The read of IIR that unmarked the transmitter unmarked received data too: that was marked
            // again since, and so is enabled.
            0x04 => port.waits() && (receives || !transmits),
            0x06 => port.waits(),
            _ => false,
        }
    }
}
