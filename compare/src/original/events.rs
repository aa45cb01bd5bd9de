// The callbacks of a port and a clock: the host is told each. Included beside the monitor.

use std::sync::Arc;

use crate::host::Callback::*;

/// The monitor's own type for events. It is shared, as monitors share their metrics.
pub struct Metrics(Rc<Host>);

type Events = Arc<Metrics>;

/// Shared events are behind an `Arc`, in vm-superio's API. These stay in one thread.
#[allow(clippy::arc_with_non_send_sync)]
fn events(host: &Rc<Host>) -> Events {
    Arc::new(Metrics(host.clone()))
}

impl api::serial::SerialEvents for Metrics {
    fn buffer_read(&self) {
        self.0.tell(BufferRead);
    }

    fn out_byte(&self) {
        self.0.tell(OutByte);
    }

    fn tx_lost_byte(&self) {
        self.0.tell(TxLostByte);
    }

    fn in_buffer_empty(&self) {
        self.0.tell(InBufferEmpty);
    }
}

impl api::rtc_pl031::RtcEvents for Metrics {
    fn invalid_read(&self) {
        self.0.tell(InvalidRead);
    }

    fn invalid_write(&self) {
        self.0.tell(InvalidWrite);
    }
}
