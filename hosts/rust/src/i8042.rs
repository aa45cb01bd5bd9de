//! The corner of an i8042 keyboard controller that resets the machine.

use crate::proved;
use crate::Trigger;

/// A reset controller. Offsets count from port 0x60.
///
/// ```
/// use std::cell::Cell;
/// use serialpost::{I8042Device, Trigger};
///
/// struct Machine(Cell<bool>);
///
/// impl Trigger for Machine {
///     type E = ();
///     fn trigger(&self) -> Result<(), ()> {
///         self.0.set(false);
///         Ok(())
///     }
/// }
///
/// let mut controller = I8042Device::new(Machine(Cell::new(true)));
/// controller.write(4, 0xfe).unwrap();
/// assert!(!controller.reset_evt().0.get());
/// ```
#[derive(Debug)]
pub struct I8042Device<T: Trigger> {
    reset_evt: T,
}

impl<T: Trigger> I8042Device<T> {
    /// A controller that triggers `reset_evt` when the guest asks for a reset.
    pub fn new(reset_evt: T) -> Self {
        I8042Device { reset_evt }
    }

    /// What is triggered at a reset.
    pub fn reset_evt(&self) -> &T {
        &self.reset_evt
    }

    /// What the guest reads at `offset`: always 0.
    pub fn read(&mut self, offset: u8) -> u8 {
        proved::serialpost5_i8042_read(offset)
    }

    /// The guest writes `value` at `offset`. The command 0xfe at offset 4 triggers the reset, and the trigger's
    /// error is handed on; any other write does nothing.
    pub fn write(&mut self, offset: u8, value: u8) -> Result<(), T::E> {
        if proved::serialpost5_i8042_write(offset, value) {
            self.reset_evt.trigger()
        } else {
            Ok(())
        }
    }
}
