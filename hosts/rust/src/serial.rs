//! A 16550 serial port. 64 bytes of input can wait in it, or as many as its maker chooses.

use std::error;
use std::fmt;
use std::io::{self, Write};
use std::marker::PhantomData;
use std::sync::Arc;

use crate::proved::{self, Port, Regs, FCR};
use crate::{FormError, Trigger};

/// What a port tells its monitor while the guest uses it: for metrics, for a log, or to offer input when there is room.
///
/// The port's answers decide which are called. Each is called during the guest's access, at the place that is named;
/// the port has done its part by then. [`Counters`](crate::Counters) is a type that counts them.
///
/// ```
/// use std::sync::atomic::{AtomicU64, Ordering};
/// use std::sync::Arc;
///
/// use serialpost::serial::SerialEvents;
/// # use serialpost::{Serial, Trigger};
/// # struct Line;
/// # impl Trigger for Line {
/// #     type E = ();
/// #     fn trigger(&self) -> Result<(), ()> {
/// #         Ok(())
/// #     }
/// # }
///
/// #[derive(Default)]
/// struct Metrics {
///     lost: AtomicU64,
/// }
///
/// impl SerialEvents for Metrics {
///     fn buffer_read(&self) {}
///     fn out_byte(&self) {}
///     fn tx_lost_byte(&self) {
///         self.lost.fetch_add(1, Ordering::Relaxed);
///     }
///     fn in_buffer_empty(&self) {}
/// }
///
/// let metrics = Arc::new(Metrics::default());
/// let mut room_for_one = [0; 1];
/// let mut port = Serial::with_events(Line, metrics.clone(), &mut room_for_one[..]);
/// port.write(0, b'a').unwrap();
/// port.write(0, b'b').unwrap_err();
/// assert_eq!(metrics.lost.load(Ordering::Relaxed), 1);
/// ```
pub trait SerialEvents {
    /// The guest read RBR, also where no byte waited for it. Where both are due this comes behind
    /// [`in_buffer_empty`](Self::in_buffer_empty).
    fn buffer_read(&self);

    /// The writer took a byte that the guest sent: it is written and flushed. The interrupt is raised after this.
    fn out_byte(&self);

    /// The writer did not take a byte that the guest sent: to write it or to flush it failed. The interrupt is raised
    /// after this.
    fn tx_lost_byte(&self);

    /// The guest read RBR, and no byte waits now: a read of an empty port too.
    fn in_buffer_empty(&self);

    /// The guest emptied the port by FCR: so many bytes, which waited, were thrown away, and no byte waits now. A monitor
    /// can tell its operator that a phrase was typed before the guest listened. Where no byte waited it is not called.
    ///
    /// vm-superio does not have this, and a type that was written for it says nothing of it. Such a one may offer more
    /// input when it is told [`in_buffer_empty`](Self::in_buffer_empty), and would wait for that in vain: so this tells it
    /// that, unless it is said otherwise.
    fn discarded(&self, bytes: usize) {
        let _ = bytes;
        self.in_buffer_empty();
    }
}

/// No events: none is told.
#[derive(Debug, Clone, Copy)]
pub struct NoEvents;

impl SerialEvents for NoEvents {
    fn buffer_read(&self) {}
    fn out_byte(&self) {}
    fn tx_lost_byte(&self) {}
    fn in_buffer_empty(&self) {}
}

/// Events that are shared: the port has one handle, the monitor keeps another.
impl<EV: SerialEvents> SerialEvents for Arc<EV> {
    fn buffer_read(&self) {
        EV::buffer_read(self);
    }

    fn out_byte(&self) {
        EV::out_byte(self);
    }

    fn tx_lost_byte(&self) {
        EV::tx_lost_byte(self);
    }

    fn in_buffer_empty(&self) {
        EV::in_buffer_empty(self);
    }

    fn discarded(&self, bytes: usize) {
        EV::discarded(self, bytes);
    }
}

/// How many bytes of input can wait in a port: 16, 32, 64, 128, 256, 512 or 1,024.
///
/// vm-superio does not have this: its ports have the usual one.
#[derive(Clone, Copy, Debug, Eq, Hash, Ord, PartialEq, PartialOrd)]
pub struct SerialSize(pub(crate) u32);

impl SerialSize {
    /// 64 bytes: the size where none is chosen.
    pub const USUAL: Self = SerialSize(64);

    /// The size of so many bytes, where ports are made with it.
    ///
    /// ```
    /// use serialpost::SerialSize;
    ///
    /// assert_eq!(SerialSize::new(1024).unwrap().bytes(), 1024);
    /// SerialSize::new(1000).unwrap_err();
    /// ```
    pub fn new(bytes: usize) -> Result<Self, NoSize> {
        let size = u32::try_from(bytes).map_err(|_| NoSize)?;
        Port::of_size(size).ok_or(NoSize)?;
        Ok(SerialSize(size))
    }

    /// How many bytes it is.
    pub fn bytes(self) -> usize {
        self.0 as usize
    }
}

/// A number is no [`SerialSize`]: no port is made with it.
#[derive(Clone, Copy, Debug, Eq, PartialEq)]
pub struct NoSize;

impl fmt::Display for NoSize {
    fn fmt(&self, f: &mut fmt::Formatter) -> fmt::Result {
        f.write_str("a port's size is 16, 32, 64, 128, 256, 512 or 1024 bytes")
    }
}

impl error::Error for NoSize {}

/// A port of the usual size written down: its nine registers and the bytes that wait. Every one but those with more than
/// 64 bytes can be brought back by [`Serial::from_state`]. [`FullSerialState`] is for ports of any size.
///
/// The default is the state of a fresh port.
#[derive(Clone, Debug, Eq, PartialEq)]
pub struct SerialState {
    /// DLL, the divisor's low byte.
    pub baud_divisor_low: u8,
    /// DLM, the divisor's high byte.
    pub baud_divisor_high: u8,
    /// IER: which kinds of interrupt are enabled.
    pub interrupt_enable: u8,
    /// IIR: of it only bit 0x02, the transmitter's pending interrupt, has a meaning. A port that is written down shows
    /// a bit for each active kind, so that vm-superio, given it, raises what is due.
    pub interrupt_identification: u8,
    /// LCR.
    pub line_control: u8,
    /// LSR.
    pub line_status: u8,
    /// MCR.
    pub modem_control: u8,
    /// MSR.
    pub modem_status: u8,
    /// SCR.
    pub scratch: u8,
    /// The bytes that wait for the guest, the next one first.
    pub in_buffer: Vec<u8>,
}

impl SerialState {
    /// Whether some run of this port from a fresh one leaves this state. [`Serial::from_state`] takes any other all
    /// the same, and its port may then be written down as one that no run leaves.
    ///
    /// A port of vm-superio may be such a one: its IIR keeps what the guest has disabled since, IER 00 with IIR 06 for
    /// one, and forgets a byte that waits once the guest has read IIR. It is restored all the same, and no interrupt
    /// that was due is lost.
    ///
    /// vm-superio does not have this.
    pub fn is_reachable(&self) -> bool {
        Port::restored(&self.registers(SerialSize::USUAL), &self.in_buffer)
            .1
            .reachable()
    }

    /// The state as bytes, in the form that docs/STATE-FORMAT.md tells: as a port of 64 bytes of whose FCR nothing is
    /// remembered. One with more bytes has none: [`FormError::TooManyBytes`].
    ///
    /// ```
    /// use serialpost::SerialState;
    ///
    /// let state = SerialState::default();
    /// let bytes = state.to_bytes().unwrap();
    /// assert_eq!(SerialState::from_bytes(&bytes), Ok(state));
    /// ```
    ///
    /// vm-superio does not have this.
    pub fn to_bytes(&self) -> Result<Vec<u8>, FormError> {
        proved::port_to_bytes(&self.registers(SerialSize::USUAL), &self.in_buffer)
    }

    /// The state that was put into bytes; or why these are the form of none. What is remembered of FCR is left out, as
    /// in [`Serial::state`]. A port of another size is refused, [`FormError::Size`]: [`FullSerialState::from_bytes`] reads
    /// it.
    ///
    /// vm-superio does not have this.
    pub fn from_bytes(form: &[u8]) -> Result<Self, FormError> {
        let full = FullSerialState::from_bytes(form)?;
        Self::try_from(full).map_err(|_| FormError::Size)
    }

    fn new([dll, ier, iir, lcr, mcr, lsr, msr, scr, dlm, ..]: Regs, waiting: Vec<u8>) -> Self {
        SerialState {
            baud_divisor_low: dll,
            baud_divisor_high: dlm,
            interrupt_enable: ier,
            interrupt_identification: iir,
            line_control: lcr,
            line_status: lsr,
            modem_control: mcr,
            modem_status: msr,
            scratch: scr,
            in_buffer: waiting,
        }
    }

    /// The registers as they lie in the memory of a port of this size. Behind the nine they are a fresh port's: nothing is
    /// remembered of FCR.
    fn registers(&self, size: SerialSize) -> Regs {
        let (mut regs, _) = Port::fresh(size).saved();
        regs[..9].copy_from_slice(&[
            self.baud_divisor_low,
            self.interrupt_enable,
            self.interrupt_identification,
            self.line_control,
            self.modem_control,
            self.line_status,
            self.modem_status,
            self.scratch,
            self.baud_divisor_high,
        ]);
        regs
    }
}

impl Default for SerialState {
    fn default() -> Self {
        let (registers, waiting) = Port::fresh(SerialSize::USUAL).saved();
        Self::new(registers, waiting)
    }
}

/// A port of any size written down: all that it has. Every one but those with more bytes than the size can be brought
/// back by [`Serial::from_full_state`].
///
/// ```
/// use serialpost::serial::NoEvents;
/// use serialpost::{FullSerialState, Serial, SerialSize, SizedSerial};
/// # use serialpost::Trigger;
/// # struct Line;
/// # impl Trigger for Line {
/// #     type E = ();
/// #     fn trigger(&self) -> Result<(), ()> {
/// #         Ok(())
/// #     }
/// # }
///
/// let size = SerialSize::new(128).unwrap();
/// let mut here = Serial::with_size(size, Line, NoEvents, Vec::new());
/// here.write(2, 0x81).unwrap(); // FCR
/// let bytes = here.full_state().to_bytes().unwrap();
///
/// let full = FullSerialState::from_bytes(&bytes).unwrap();
/// assert_eq!((full.size, full.fifo_control), (size, 0x81));
/// let there: SizedSerial<_, _, _> =
///     Serial::from_full_state(&full, Line, NoEvents, here.into_writer()).unwrap();
/// assert_eq!(there.full_state(), full);
/// ```
///
/// vm-superio does not have this. What a port has may become more, so it is made by [`new`](Self::new).
#[derive(Clone, Debug, Eq, PartialEq)]
#[non_exhaustive]
pub struct FullSerialState {
    /// Its registers and the bytes that wait, as many as the size at most.
    pub state: SerialState,
    /// How many can wait.
    pub size: SerialSize,
    /// FCR: what is remembered of the value that the guest wrote last, its bits 0x01, 0x08 and 0xc0. No answer of the
    /// port depends on it.
    pub fifo_control: u8,
}

impl FullSerialState {
    /// The state of a port of this size, of whose FCR nothing is remembered: [`fifo_control`](Self::fifo_control) is 0.
    pub fn new(state: SerialState, size: SerialSize) -> Self {
        FullSerialState {
            state,
            size,
            fifo_control: 0,
        }
    }

    /// Whether some run of a port of this size from a fresh one leaves this state: as [`SerialState::is_reachable`].
    pub fn is_reachable(&self) -> bool {
        Port::restored(&self.registers(), &self.state.in_buffer)
            .1
            .reachable()
    }

    /// The state as bytes, in the form that docs/STATE-FORMAT.md tells. One with more bytes than its size has none:
    /// [`FormError::TooManyBytes`].
    pub fn to_bytes(&self) -> Result<Vec<u8>, FormError> {
        proved::port_to_bytes(&self.registers(), &self.state.in_buffer)
    }

    /// The state that was put into bytes; or why these are the form of none. A form that was written before there were
    /// sizes is one of a port of 64 bytes of whose FCR nothing is remembered.
    ///
    /// A form can tell sizes with which no port is made. No run comes to such a state, and it is refused:
    /// [`FormError::Size`].
    pub fn from_bytes(form: &[u8]) -> Result<Self, FormError> {
        let (registers, waiting) = proved::port_from_bytes(form)?;
        Self::of(registers, waiting).ok_or(FormError::Size)
    }

    /// What these registers tell, unless that is of no [`SerialSize`].
    fn of(registers: Regs, waiting: Vec<u8>) -> Option<Self> {
        let size = SerialSize::new(proved::size(&registers)).ok()?;
        Some(FullSerialState {
            state: SerialState::new(registers, waiting),
            size,
            fifo_control: registers[FCR],
        })
    }

    fn registers(&self) -> Regs {
        let mut registers = self.state.registers(self.size);
        registers[FCR] = self.fifo_control;
        registers
    }
}

/// A state of vm-superio is one of a port of the usual size, of whose FCR nothing is remembered.
impl From<SerialState> for FullSerialState {
    fn from(state: SerialState) -> Self {
        Self::new(state, SerialSize::USUAL)
    }
}

/// A state that vm-superio can be given, in which what is remembered of FCR is left out, as in [`Serial::state`]. That of a
/// port of another size is handed back.
impl TryFrom<FullSerialState> for SerialState {
    type Error = FullSerialState;

    fn try_from(full: FullSerialState) -> Result<Self, FullSerialState> {
        match full.size {
            SerialSize::USUAL => Ok(full.state),
            _ => Err(full),
        }
    }
}

/// Why a call could not do all that it should.
#[derive(Debug)]
pub enum Error<E> {
    /// The interrupt could not be raised. The port has noted it as raised; [`Serial::from_state`] gives none then.
    Trigger(E),
    /// The guest's byte could not be written or flushed. It is lost, and the guest is not told.
    IOError(io::Error),
    /// No byte was taken, for as many wait as the port can hold; or a state has more than that.
    FullFifo,
}

impl<E: fmt::Display> fmt::Display for Error<E> {
    fn fmt(&self, f: &mut fmt::Formatter) -> fmt::Result {
        match self {
            Error::Trigger(why) => write!(f, "the interrupt could not be raised: {why}"),
            Error::IOError(why) => write!(f, "the guest's byte could not be sent: {why}"),
            Error::FullFifo => f.write_str("the port's input buffer is full"),
        }
    }
}

impl<E: error::Error> error::Error for Error<E> {}

/// Of a [`Serial`]: it has the usual size, 64 bytes, as every port of vm-superio.
#[derive(Debug)]
pub struct UsualSize;

/// Of a [`Serial`]: its maker chose its size.
#[derive(Debug)]
pub struct AnySize;

/// A serial port whose maker chose its size: [`Serial::with_size`].
pub type SizedSerial<T, EV, W> = Serial<T, EV, W, AnySize>;

/// A serial port. It raises its interrupt by a [`Trigger`], sends the guest's bytes to a writer and tells what happens
/// to its [`SerialEvents`].
///
/// Whatever fails on the host's side, the port goes on as if it had not: a guest cannot be made to wait.
///
/// Where nothing is said of the size this is vm-superio's type. A port of [`AnySize`] has another type, because
/// vm-superio's [`SerialState`] does not tell a size: it has a [`full_state`](Self::full_state) and no `state`, so that
/// no size is lost.
///
/// ```compile_fail,E0599
/// # use serialpost::{serial::NoEvents, Serial, SerialSize, Trigger};
/// # struct Line;
/// # impl Trigger for Line {
/// #     type E = ();
/// #     fn trigger(&self) -> Result<(), ()> {
/// #         Ok(())
/// #     }
/// # }
/// let port = Serial::with_size(SerialSize::USUAL, Line, NoEvents, Vec::new());
/// port.state(); // does not compile
/// ```
#[derive(Debug)]
pub struct Serial<T: Trigger, EV: SerialEvents, W: Write, S = UsualSize> {
    port: Port,
    interrupt_evt: T,
    events: EV,
    out: W,
    size: PhantomData<S>,
}

impl<T: Trigger, W: Write> Serial<T, NoEvents, W> {
    /// A fresh port of the usual size that raises its interrupt by `trigger` and sends to `out`.
    pub fn new(trigger: T, out: W) -> Self {
        Self::with_events(trigger, NoEvents, out)
    }
}

impl<T: Trigger, EV: SerialEvents, W: Write> Serial<T, EV, W> {
    /// A fresh port of the usual size that tells `serial_evts` what happens.
    pub fn with_events(trigger: T, serial_evts: EV, out: W) -> Self {
        Self::of(Port::fresh(SerialSize::USUAL), trigger, serial_evts, out)
    }

    /// The port of the usual size that was written down as `state`, on a new line and a new writer. To bring it back
    /// tells `serial_evts` nothing.
    ///
    /// The interrupt is raised once for each kind that is enabled and pending: the new line may never have seen it.
    /// Where that fails there is no port and no further raise.
    ///
    /// A state with more than 64 bytes is refused with [`Error::FullFifo`], and nothing is raised.
    ///
    /// ```
    /// use serialpost::serial::NoEvents;
    /// # use serialpost::{Serial, Trigger};
    /// # struct Line;
    /// # impl Trigger for Line {
    /// #     type E = ();
    /// #     fn trigger(&self) -> Result<(), ()> {
    /// #         Ok(())
    /// #     }
    /// # }
    ///
    /// let mut here = Serial::new(Line, Vec::new());
    /// here.enqueue_raw_bytes(b"ls").unwrap();
    /// let state = here.state();
    ///
    /// let mut there = Serial::from_state(&state, Line, NoEvents, here.into_writer()).unwrap();
    /// assert_eq!([there.read(0), there.read(0)], *b"ls");
    /// ```
    pub fn from_state(
        state: &SerialState,
        trigger: T,
        serial_evts: EV,
        out: W,
    ) -> Result<Self, Error<T::E>> {
        let (registers, waiting) = (state.registers(SerialSize::USUAL), &state.in_buffer);
        Self::restored(&registers, waiting, trigger, serial_evts, out)
    }

    /// The port, written down. It stays as it is.
    ///
    /// What is remembered of FCR, which the guest writes at offset 2, is not in it: vm-superio's state has no field for
    /// that. No answer of a port depends on it, so that one that is brought back from this state does all that this one
    /// would, and nothing is lost that a guest or a host can see. [`full_state`](Self::full_state) keeps it.
    pub fn state(&self) -> SerialState {
        let (registers, waiting) = self.port.saved();
        SerialState::new(registers, waiting)
    }
}

impl<T: Trigger, EV: SerialEvents, W: Write> Serial<T, EV, W, AnySize> {
    /// A fresh port of this size. Where no events are wanted `serial_evts` is [`NoEvents`].
    ///
    /// ```
    /// use serialpost::serial::NoEvents;
    /// use serialpost::{Serial, SerialSize};
    /// # use serialpost::Trigger;
    /// # struct Line;
    /// # impl Trigger for Line {
    /// #     type E = ();
    /// #     fn trigger(&self) -> Result<(), ()> {
    /// #         Ok(())
    /// #     }
    /// # }
    ///
    /// let size = SerialSize::new(1024).unwrap();
    /// let mut port = Serial::with_size(size, Line, NoEvents, Vec::new());
    /// assert_eq!(port.enqueue_raw_bytes(&[b'a'; 1000]).unwrap(), 1000);
    /// assert_eq!((port.fifo_capacity(), port.fifo_size()), (24, 1024));
    /// ```
    ///
    /// vm-superio does not have this.
    pub fn with_size(size: SerialSize, trigger: T, serial_evts: EV, out: W) -> Self {
        Self::of(Port::fresh(size), trigger, serial_evts, out)
    }

    /// The port that was written down as `full`, with its size: as [`from_state`](Serial::from_state) does it. A state
    /// with more bytes than its size is refused with [`Error::FullFifo`], and nothing is raised.
    ///
    /// vm-superio does not have this.
    pub fn from_full_state(
        full: &FullSerialState,
        trigger: T,
        serial_evts: EV,
        out: W,
    ) -> Result<Self, Error<T::E>> {
        let (registers, waiting) = (full.registers(), &full.state.in_buffer);
        Self::restored(&registers, waiting, trigger, serial_evts, out)
    }
}

impl<T: Trigger, EV: SerialEvents, W: Write, S> Serial<T, EV, W, S> {
    fn of(port: Port, interrupt_evt: T, events: EV, out: W) -> Self {
        Serial {
            port,
            interrupt_evt,
            events,
            out,
            size: PhantomData,
        }
    }

    fn restored(
        registers: &Regs,
        waiting: &[u8],
        trigger: T,
        serial_evts: EV,
        out: W,
    ) -> Result<Self, Error<T::E>> {
        let (port, answer) = Port::restored(registers, waiting);
        if answer.refused() {
            return Err(Error::FullFifo);
        }
        let serial = Self::of(port, trigger, serial_evts, out);
        for _ in 0..answer.raises() {
            serial.interrupt_evt.trigger().map_err(Error::Trigger)?;
        }
        Ok(serial)
    }

    /// The port, written down with its size and what is remembered of FCR. It stays as it is.
    ///
    /// vm-superio does not have this.
    pub fn full_state(&self) -> FullSerialState {
        let (registers, waiting) = self.port.saved();
        FullSerialState::of(registers, waiting).expect("a port has the size that it was made with")
    }

    /// Where the guest's bytes are sent.
    pub fn writer(&self) -> &W {
        &self.out
    }

    /// The same, to be changed.
    pub fn writer_mut(&mut self) -> &mut W {
        &mut self.out
    }

    /// The same, without the port.
    pub fn into_writer(self) -> W {
        self.out
    }

    /// What raises the interrupt.
    pub fn interrupt_evt(&self) -> &T {
        &self.interrupt_evt
    }

    /// Who is told what happens.
    pub fn events(&self) -> &EV {
        &self.events
    }

    /// The guest writes `value` at `offset`.
    ///
    /// A byte that the guest sends is written and flushed first, and the events are told whether that went well. Then
    /// the interrupt is raised where it is due, even if the byte could not be sent. Where both fail, the interrupt's
    /// error is returned. A byte in loopback is not sent, and the events are not told of it.
    ///
    /// A write of FCR, at offset 2, with bit 0x02 empties the port: the events are told how many bytes that waited were
    /// [`discarded`](SerialEvents::discarded), if there were any. vm-superio keeps them, and does nothing at that offset.
    pub fn write(&mut self, offset: u8, value: u8) -> Result<(), Error<T::E>> {
        let answer = self.port.write(offset, value);
        let discarded = answer.discarded();
        if discarded > 0 {
            self.events.discarded(discarded);
        }
        let sent = match answer.sent() {
            Some(byte) => self.send(byte),
            None => Ok(()),
        };
        self.raise(answer.raises())?;
        sent.map_err(Error::IOError)
    }

    /// The guest reads at `offset`. Where that is RBR the events are told.
    pub fn read(&mut self, offset: u8) -> u8 {
        // No read raises the interrupt.
        let answer = self.port.read(offset);
        if answer.none_left() {
            self.events.in_buffer_empty();
        }
        if answer.data_read() {
            self.events.buffer_read();
        }
        answer.reply()
    }

    /// How many more bytes can wait: its size less those that do.
    pub fn fifo_capacity(&self) -> usize {
        self.port.room()
    }

    /// How many bytes can wait: its size.
    ///
    /// vm-superio does not have this.
    pub fn fifo_size(&self) -> usize {
        self.port.size()
    }

    /// Whether the interrupt line is high: something that is enabled is pending.
    ///
    /// A monitor whose interrupt input is edge-triggered, or an event file descriptor, signals in [`Trigger::trigger`],
    /// which is called once for each raise, and does not ask this. One whose interrupt controller is level-triggered
    /// (Arm's GIC, a PC's IO-APIC in level mode) sets the line to this answer after each call, and needs no raises: its
    /// trigger does nothing. The line never rises without a raise, a call that raises leaves it high, and it falls when
    /// nothing that is enabled is pending.
    ///
    /// A raise tells that a kind of interrupt has become active, not how many bytes wait. A driver that reads one byte
    /// for each interrupt needs the level:
    ///
    /// ```
    /// # use serialpost::{Serial, Trigger};
    /// # use std::cell::Cell;
    /// # struct Raises(Cell<u32>);
    /// # impl Trigger for Raises {
    /// #     type E = ();
    /// #     fn trigger(&self) -> Result<(), ()> {
    /// #         self.0.set(self.0.get() + 1);
    /// #         Ok(())
    /// #     }
    /// # }
    /// # let mut port = Serial::new(Raises(Cell::new(0)), Vec::new());
    /// # let raises = |port: &Serial<Raises, _, _>| port.interrupt_evt().0.get();
    /// port.write(1, 0x01).unwrap(); // received data is enabled
    /// port.enqueue_raw_bytes(b"ab").unwrap();
    /// assert_eq!(raises(&port), 1);
    ///
    /// assert_eq!(port.read(0), b'a');
    /// port.enqueue_raw_bytes(b"c").unwrap();
    /// assert_eq!(raises(&port), 1); // no raise, for `b` has been waiting
    /// assert!(port.interrupt_line());
    /// ```
    ///
    /// vm-superio does not have this.
    pub fn interrupt_line(&self) -> bool {
        self.port.line()
    }

    /// Bytes for the guest to read. As many as fit are taken, from the first on, and the answer is their number;
    /// the others are the caller's to offer again. Then the interrupt is raised where it is due.
    ///
    /// Some bytes for a full port are refused with [`Error::FullFifo`]. While the guest has the port in loopback
    /// none are taken.
    pub fn enqueue_raw_bytes(&mut self, input: &[u8]) -> Result<usize, Error<T::E>> {
        let answer = self.port.input(input);
        if answer.refused() {
            return Err(Error::FullFifo);
        }
        self.raise(answer.raises())?;
        Ok(answer.number())
    }

    fn send(&mut self, byte: u8) -> io::Result<()> {
        let written = self.out.write_all(&[byte]);
        let sent = written.and_then(|()| self.out.flush());
        match sent {
            Ok(()) => self.events.out_byte(),
            Err(_) => self.events.tx_lost_byte(),
        }
        sent
    }

    /// Raises the interrupt so many times, also where it failed before: each stands for a kind of its own. The first
    /// error is returned.
    fn raise(&self, times: u32) -> Result<(), Error<T::E>> {
        let mut outcome = Ok(());
        for _ in 0..times {
            let raised = self.interrupt_evt.trigger().map_err(Error::Trigger);
            outcome = outcome.and(raised);
        }
        outcome
    }
}
