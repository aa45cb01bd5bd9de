// A monitor's use of the three devices, as the judge asks for them. It is included where `api` is vm-superio or a
// crate with its API, and not a word in it may depend on which. Beside it stands events.rs, with what a port and a
// clock tell their events to.

use std::io::{self, Write};
use std::rc::Rc;

use api::serial::Error;
use judge::devices::{
    self, ClockCounters, ClockState, Devices, PortCounters, Raised, SerialState, Written,
};
use told_time::time::tell;

use crate::host::{Faults, Host, Step, CLOCK_CALLBACKS, PORT_CALLBACKS};

/// What a device has of its host.
pub struct Wire(Rc<Host>);

impl api::Trigger for Wire {
    type E = &'static str;

    fn trigger(&self) -> Result<(), Self::E> {
        self.0.raise()
    }
}

impl Write for Wire {
    fn write(&mut self, bytes: &[u8]) -> io::Result<usize> {
        self.0.send(bytes)
    }

    fn flush(&mut self) -> io::Result<()> {
        self.0.flush()
    }
}

/// A device with its host.
struct Wired<T> {
    device: T,
    host: Rc<Host>,
    /// Whether the device's own sink did not take the byte that `lost` will speak of.
    lost_already: bool,
    /// Said to be lost where the device's own sink had taken it, or nothing was sent: of these the device cannot
    /// know.
    lost_later: usize,
}

impl<T> Wired<T> {
    fn named(host: &Rc<Host>, device: T) -> Box<Self> {
        host.count_anew();
        Box::new(Wired {
            device,
            host: host.clone(),
            lost_already: false,
            lost_later: 0,
        })
    }

    /// The device, for a call. What the host noted before is forgotten.
    fn call(&mut self) -> &mut T {
        self.host.steps.borrow_mut().clear();
        &mut self.device
    }
}

pub struct Monitor(pub Rc<Host>);

impl Devices for Monitor {
    fn serial(&mut self) -> Box<dyn devices::Serial> {
        let [line, sink] = [0, 1].map(|_| Wire(self.0.clone()));
        let device = api::Serial::with_events(line, events(&self.0), sink);
        Wired::named(&self.0, device)
    }

    fn clock(&mut self) -> Box<dyn devices::Clock> {
        let device = api::Rtc::with_events(events(&self.0));
        Wired::named(&self.0, device)
    }

    fn i8042(&mut self) -> Box<dyn devices::I8042> {
        let device = api::I8042Device::new(Wire(self.0.clone()));
        Wired::named(&self.0, device)
    }
}

fn failure(error: Error<&'static str>) -> Step {
    match error {
        Error::Trigger(why) => Step::NotRaised(why),
        Error::IOError(why) => Step::NotSent(why.to_string()),
        Error::FullFifo => Step::Full,
    }
}

impl devices::Serial for Wired<api::Serial<Wire, Events, Wire>> {
    fn write(&mut self, offset: u8, value: u8) -> (Written, Raised) {
        let done = self.call().write(offset, value);
        self.host.outcome(done.map_err(failure));
        (self.host.sent().into(), self.host.raised())
    }

    /// The sink fails, so that the device itself tells of the loss, and the interrupt is raised all the same.
    /// It fails as it is given the byte, or as it is flushed.
    fn write_to_lose(&mut self, offset: u8, value: u8) -> (Written, Raised) {
        let faults = Faults {
            write: value & 1 == 0,
            flush: value & 1 == 1,
            ..Faults::default()
        };
        self.host.faults.set(faults);
        let written = self.write(offset, value);
        self.host.faults.set(Faults::default());
        self.lost_already = matches!(written.0, Written::Sent(_));
        written
    }

    /// Where the device's own sink did not take the byte, the device has told so. Else the loss is counted here.
    fn lost(&mut self) {
        if !std::mem::take(&mut self.lost_already) {
            self.lost_later += 1;
        }
    }

    /// Of a byte that goes out the device tells that it was sent, or that it was lost.
    fn counters(&self) -> PortCounters {
        let [read, out, lost, empty] = self.host.told(PORT_CALLBACKS);
        [read, out + lost, lost + self.lost_later, empty]
    }

    fn read(&mut self, offset: u8) -> (u8, Raised) {
        (self.call().read(offset), self.host.raised())
    }

    fn read_unheard(&mut self, offset: u8) {
        let host = self.host.clone();
        host.unheard(|| self.device.read(offset));
    }

    fn input(&mut self, bytes: &[u8]) -> (Option<usize>, Raised) {
        let taken = self.call().enqueue_raw_bytes(bytes);
        (
            self.host.outcome(taken.map_err(failure)),
            self.host.raised(),
        )
    }

    fn room(&self) -> usize {
        self.device.fifo_capacity()
    }

    fn state(&self) -> SerialState {
        let mut state = self.device.state();
        let registers = registers(&mut state).map(|register| *register);
        let buffer = state.in_buffer;
        let size = SerialState::SIZE;
        SerialState {
            registers,
            buffer,
            size,
            fcr: 0,
        }
    }

    /// Where the state is not brought back the port stays. The events go on.
    fn restore(&mut self, state: &SerialState) -> Option<Raised> {
        let [line, sink] = [0, 1].map(|_| Wire(self.host.clone()));
        let events = self.call().events().clone();
        let restored = api::Serial::from_state(&port_state(state), line, events, sink);
        self.device = self.host.outcome(restored.map_err(failure))?;
        Some(self.host.raised())
    }
}

/// The registers of a state in the judge's order.
fn registers(state: &mut api::SerialState) -> [&mut u8; 9] {
    [
        &mut state.baud_divisor_low,
        &mut state.baud_divisor_high,
        &mut state.interrupt_enable,
        &mut state.interrupt_identification,
        &mut state.line_control,
        &mut state.line_status,
        &mut state.modem_control,
        &mut state.modem_status,
        &mut state.scratch,
    ]
}

pub fn port_state(state: &SerialState) -> api::SerialState {
    let mut written = api::SerialState::default();
    for (target, value) in registers(&mut written).into_iter().zip(state.registers) {
        *target = value;
    }
    written.in_buffer = state.buffer.clone();
    written
}

impl devices::Clock for Wired<api::Rtc<Events>> {
    fn write(&mut self, now: u64, offset: u16, data: &[u8; 4]) -> bool {
        tell(now);
        self.call().write(offset, data);
        self.host.steps.borrow().is_empty()
    }

    fn read(&mut self, now: u64, offset: u16, data: &mut [u8; 4]) -> bool {
        tell(now);
        self.call().read(offset, data);
        self.host.steps.borrow().is_empty()
    }

    fn counters(&self) -> ClockCounters {
        self.host.told(CLOCK_CALLBACKS)
    }

    fn state(&self) -> ClockState {
        let state = self.device.state();
        ClockState {
            load: state.lr,
            offset: state.offset,
            match_: state.mr,
            mask: state.imsc,
            raw: state.ris,
        }
    }

    /// The events go on.
    fn restore(&mut self, state: &ClockState) {
        let events = self.device.events().clone();
        self.device = api::Rtc::from_state(&clock_state(state), events);
    }
}

pub fn clock_state(state: &ClockState) -> api::RtcState {
    api::RtcState {
        lr: state.load,
        offset: state.offset,
        mr: state.match_,
        imsc: state.mask,
        ris: state.raw,
    }
}

impl devices::I8042 for Wired<api::I8042Device<Wire>> {
    fn write(&mut self, offset: u8, value: u8) -> bool {
        let done = self.call().write(offset, value);
        self.host.outcome(done.map_err(Step::NotRaised));
        self.host.raised() > 0
    }

    fn read(&mut self, offset: u8) -> u8 {
        self.device.read(offset)
    }
}
