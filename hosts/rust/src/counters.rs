//! Numbers of events, counted by the proved functions.

use std::sync::{Mutex, MutexGuard, PoisonError};

use crate::proved::{self, WORD_DATA_READ, WORD_NONE_LEFT, WORD_REFUSED, WORD_SENDS};
use crate::rtc_pl031::RtcEvents;
use crate::serial::SerialEvents;

/// Counts what a port and a clock tell, for a monitor that wants no type of its own. Each number stays at the greatest
/// one where it would go beyond. Bytes that a guest threw away are not counted: who wants to know of them takes a type of
/// their own ([`SerialEvents::discarded`]).
///
/// One may serve a port and a clock, several of either, and other threads that look at it: in an
/// [`Arc`](std::sync::Arc).
///
/// ```
/// use std::sync::Arc;
///
/// use serialpost::{Counters, Rtc, Serial, Trigger};
/// # struct Line;
/// # impl Trigger for Line {
/// #     type E = ();
/// #     fn trigger(&self) -> Result<(), ()> {
/// #         Ok(())
/// #     }
/// # }
///
/// let counters = Arc::new(Counters::new());
/// let mut port = Serial::with_events(Line, counters.clone(), Vec::new());
/// let mut clock = Rtc::with_events(counters.clone());
///
/// port.write(0, b'>').unwrap();
/// port.enqueue_raw_bytes(b"ls").unwrap();
/// assert_eq!([port.read(0), port.read(0)], *b"ls");
/// clock.read(0x020, &mut [0; 4]); // here is no register
///
/// assert_eq!((counters.sent(), counters.lost()), (1, 0));
/// assert_eq!((counters.data_reads(), counters.none_left()), (2, 1));
/// assert_eq!((counters.invalid_reads(), counters.invalid_writes()), (1, 0));
/// ```
///
/// vm-superio does not have this.
#[derive(Debug)]
pub struct Counters {
    /// Data reads, bytes sent, bytes lost, data reads that left no byte.
    serial: Mutex<[u64; 4]>,
    /// Invalid reads, invalid writes.
    clock: Mutex<[u64; 2]>,
}

impl Counters {
    /// All numbers are 0.
    pub fn new() -> Self {
        let (mut serial, mut clock) = ([0; 4], [0; 2]);
        proved::serialpost5_serial_counters_init(&mut serial);
        proved::serialpost5_clock_counters_init(&mut clock);
        Counters {
            serial: Mutex::new(serial),
            clock: Mutex::new(clock),
        }
    }

    /// How often guests read RBR, also where no byte waited.
    pub fn data_reads(&self) -> u64 {
        self.serial()[0]
    }

    /// How many bytes guests sent. Those that the writer did not take are among them.
    pub fn sent(&self) -> u64 {
        self.serial()[1]
    }

    /// How many of the bytes sent the writer did not take.
    pub fn lost(&self) -> u64 {
        self.serial()[2]
    }

    /// How many reads of RBR left no byte waiting.
    pub fn none_left(&self) -> u64 {
        self.serial()[3]
    }

    /// How many reads of a clock were where no register can be read.
    pub fn invalid_reads(&self) -> u64 {
        self.clock()[0]
    }

    /// How many writes of a clock were where no register can be written.
    pub fn invalid_writes(&self) -> u64 {
        self.clock()[1]
    }

    fn serial(&self) -> MutexGuard<'_, [u64; 4]> {
        held(&self.serial)
    }

    fn clock(&self) -> MutexGuard<'_, [u64; 2]> {
        held(&self.clock)
    }
}

/// What a mutex holds. Nothing fails while it is held, so numbers are whole even in one that is poisoned.
fn held<T>(numbers: &Mutex<T>) -> MutexGuard<'_, T> {
    numbers.lock().unwrap_or_else(PoisonError::into_inner)
}

impl Default for Counters {
    fn default() -> Self {
        Self::new()
    }
}

// A callback has no word of the port: each counts the bit that it stands for.

impl SerialEvents for Counters {
    fn buffer_read(&self) {
        proved::serialpost5_serial_count(&mut self.serial(), WORD_DATA_READ);
    }

    fn out_byte(&self) {
        proved::serialpost5_serial_count(&mut self.serial(), WORD_SENDS);
    }

    fn tx_lost_byte(&self) {
        let mut numbers = self.serial();
        proved::serialpost5_serial_count(&mut numbers, WORD_SENDS);
        proved::serialpost5_serial_lost(&mut numbers);
    }

    fn in_buffer_empty(&self) {
        proved::serialpost5_serial_count(&mut self.serial(), WORD_NONE_LEFT);
    }

    /// Not counted, for no number here is of it.
    fn discarded(&self, _: usize) {}
}

impl RtcEvents for Counters {
    fn invalid_read(&self) {
        proved::serialpost5_clock_count_read(&mut self.clock(), WORD_REFUSED);
    }

    fn invalid_write(&self) {
        proved::serialpost5_clock_count_write(&mut self.clock(), WORD_REFUSED);
    }
}

#[cfg(test)]
mod tests {
    use super::*;

    #[test]
    fn numbers_stay_at_the_greatest_one() {
        let counters = Counters {
            serial: Mutex::new([u64::MAX - 1; 4]),
            clock: Mutex::new([u64::MAX - 1; 2]),
        };
        for _ in 0..3 {
            counters.buffer_read();
            counters.tx_lost_byte();
            counters.in_buffer_empty();
            counters.invalid_read();
            counters.invalid_write();
        }
        assert_eq!(*counters.serial(), [u64::MAX; 4]);
        assert_eq!(*counters.clock(), [u64::MAX; 2]);
    }

    #[test]
    fn numbers_can_be_had_after_a_panic() {
        let counters = Counters::new();
        counters.out_byte();
        let panicked = std::thread::scope(|scope| {
            let thread = scope.spawn(|| {
                let _numbers = counters.serial();
                panic!("while the numbers are held");
            });
            thread.join().is_err()
        });
        assert!(panicked && counters.serial.is_poisoned());
        counters.out_byte();
        assert_eq!(counters.sent(), 2);
    }
}
