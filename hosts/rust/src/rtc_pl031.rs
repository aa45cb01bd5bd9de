//! An Arm PL031 real time clock.

use std::sync::Arc;
use std::time::{SystemTime, UNIX_EPOCH};

use crate::proved::{self, Clock, Words};
use crate::FormError;

/// What a clock tells its monitor of the guest's mistakes: for metrics or for a log. The clock's answers decide which is
/// called. [`Counters`](crate::Counters) is a type that counts them.
///
/// ```
/// use std::cell::Cell;
///
/// use serialpost::rtc_pl031::{Rtc, RtcEvents};
///
/// #[derive(Default)]
/// struct Mistakes(Cell<u32>);
///
/// impl RtcEvents for Mistakes {
///     fn invalid_read(&self) {
///         self.0.set(self.0.get() + 1);
///     }
///     fn invalid_write(&self) {
///         self.0.set(self.0.get() + 1);
///     }
/// }
///
/// let mut clock = Rtc::with_events(Mistakes::default());
/// clock.write(0x000, &[0; 4]); // the data register cannot be written
/// clock.read(0x020, &mut [0; 4]); // here is no register
/// assert_eq!(clock.events().0.get(), 2);
/// ```
pub trait RtcEvents {
    /// The guest read where no register can be read.
    fn invalid_read(&self);

    /// The guest wrote where no register can be written.
    fn invalid_write(&self);
}

/// No events: none is told.
#[derive(Debug, Clone, Copy)]
pub struct NoEvents;

impl RtcEvents for NoEvents {
    fn invalid_read(&self) {}
    fn invalid_write(&self) {}
}

/// Events that are shared: the clock has one handle, the monitor keeps another.
impl<EV: RtcEvents> RtcEvents for Arc<EV> {
    fn invalid_read(&self) {
        EV::invalid_read(self);
    }

    fn invalid_write(&self) {
        EV::invalid_write(self);
    }
}

/// A clock written down. Every one can be brought back by [`Rtc::from_state`].
///
/// The default is the state of a fresh clock.
#[derive(Clone, Copy, Debug, Eq, PartialEq)]
pub struct RtcState {
    /// The load register.
    pub lr: u32,
    /// How many seconds the clock is ahead of the host.
    pub offset: i64,
    /// The match register.
    pub mr: u32,
    /// The interrupt mask.
    pub imsc: u32,
    /// The raw interrupt status.
    pub ris: u32,
}

impl RtcState {
    /// Whether some run of this clock from a fresh one leaves this state, whatever the host's time was.
    /// [`Rtc::from_state`] takes any other all the same, and its clock may then be written down as one that no run
    /// leaves.
    ///
    /// vm-superio does not have this.
    pub fn is_reachable(&self) -> bool {
        Clock::restored(&self.words()).1.reachable()
    }

    /// The state as bytes, in the form that docs/STATE-FORMAT.md tells. Every state has one.
    ///
    /// vm-superio does not have this.
    pub fn to_bytes(&self) -> Result<Vec<u8>, FormError> {
        proved::clock_to_bytes(&self.words())
    }

    /// The state that was put into bytes; or why these are the form of none.
    ///
    /// vm-superio does not have this.
    pub fn from_bytes(form: &[u8]) -> Result<Self, FormError> {
        proved::clock_from_bytes(form).map(Self::new)
    }

    fn new([lr, mr, imsc, ris, offset_low, offset_high, ..]: Words) -> Self {
        let offset = u64::from(offset_high) << 32 | u64::from(offset_low);
        RtcState {
            lr,
            offset: offset as i64,
            mr,
            imsc,
            ris,
        }
    }

    /// The words as they lie in a clock's memory, the spare ones 0.
    fn words(&self) -> Words {
        let (offset_low, offset_high) = (self.offset as u32, (self.offset >> 32) as u32);
        [
            self.lr,
            self.mr,
            self.imsc,
            self.ris,
            offset_low,
            offset_high,
            0,
            0,
        ]
    }
}

impl Default for RtcState {
    fn default() -> Self {
        Self::new(Clock::fresh().saved())
    }
}

/// A clock that shows the host's time until the guest sets it.
///
/// Registers are four bytes, the lowest first.
///
/// ```
/// use serialpost::Rtc;
///
/// let mut clock = Rtc::new();
/// // The guest sets the clock back to the year 2001, by the load register, and reads the data register.
/// clock.write(0x008, &1_000_000_000u32.to_le_bytes());
/// let mut time = [0; 4];
/// clock.read(0x000, &mut time);
/// assert!(u32::from_le_bytes(time) - 1_000_000_000 < 60);
/// ```
#[derive(Debug)]
pub struct Rtc<EV: RtcEvents> {
    clock: Clock,
    events: EV,
}

/// The host's time in seconds since 1970; 0 while the host believes that it is earlier.
fn host_seconds() -> u64 {
    SystemTime::now()
        .duration_since(UNIX_EPOCH)
        .map_or(0, |since| since.as_secs())
}

impl Default for Rtc<NoEvents> {
    fn default() -> Self {
        Self::new()
    }
}

impl Rtc<NoEvents> {
    /// A fresh clock.
    pub fn new() -> Self {
        Self::with_events(NoEvents)
    }
}

impl<EV: RtcEvents> Rtc<EV> {
    /// A fresh clock that tells `rtc_events` of invalid accesses.
    pub fn with_events(rtc_events: EV) -> Self {
        Rtc {
            clock: Clock::fresh(),
            events: rtc_events,
        }
    }

    /// The clock that was written down as `state`. It is as far ahead of this host's time as it was of the other's.
    ///
    /// ```
    /// use serialpost::rtc_pl031::{NoEvents, Rtc};
    ///
    /// let mut here = Rtc::new();
    /// here.write_at(1_000, 0x008, &1_100u32.to_le_bytes());
    /// let mut there = Rtc::from_state(&here.state(), NoEvents);
    /// let mut time = [0; 4];
    /// there.read_at(1_005, 0x000, &mut time);
    /// assert_eq!(u32::from_le_bytes(time), 1_105);
    /// ```
    pub fn from_state(state: &RtcState, rtc_events: EV) -> Self {
        let (clock, _) = Clock::restored(&state.words());
        Rtc {
            clock,
            events: rtc_events,
        }
    }

    /// The clock, written down. It stays as it is.
    pub fn state(&self) -> RtcState {
        RtcState::new(self.clock.saved())
    }

    /// Who is told of invalid accesses.
    pub fn events(&self) -> &EV {
        &self.events
    }

    /// The guest reads the register at `offset`. Where there is none to be read, `data` stays as it is and the events
    /// are told.
    pub fn read(&mut self, offset: u16, data: &mut [u8; 4]) {
        self.read_at(host_seconds(), offset, data);
    }

    /// The guest writes `data` to the register at `offset`. Where there is none to be written, nothing happens but that
    /// the events are told.
    pub fn write(&mut self, offset: u16, data: &[u8; 4]) {
        self.write_at(host_seconds(), offset, data);
    }

    /// As [`read`](Self::read), with `seconds` for the host's time. Answers whether there was a register to read.
    ///
    /// vm-superio does not have this. It is for a monitor that keeps the time itself.
    pub fn read_at(&mut self, seconds: u64, offset: u16, data: &mut [u8; 4]) -> bool {
        let invalid = self.clock.read(offset, seconds, data).refused();
        if invalid {
            self.events.invalid_read();
        }
        !invalid
    }

    /// As [`write`](Self::write), with `seconds` for the host's time. Answers whether there was a register to
    /// write.
    ///
    /// vm-superio does not have this. It is for a monitor that keeps the time itself.
    pub fn write_at(&mut self, seconds: u64, offset: u16, data: &[u8; 4]) -> bool {
        let invalid = self.clock.write(offset, seconds, data).refused();
        if invalid {
            self.events.invalid_write();
        }
        !invalid
    }
}
