//! A 16550 serial port, an Arm PL031 clock and the reset corner of an i8042, for machine monitors.
//!
//! What the devices answer is computed by proved functions, which this crate links and calls in place. It adds
//! what they leave to a host: it sends the bytes, raises the interrupts, reads the time and tells the monitor what
//! happened. Its API is that of vm-superio 0.8.
//!
//! ```
//! use serialpost::{Serial, Trigger};
//!
//! /// A monitor's interrupt line: an eventfd, a call into the hypervisor.
//! struct Line;
//!
//! impl Trigger for Line {
//!     type E = std::io::Error;
//!     fn trigger(&self) -> Result<(), Self::E> {
//!         Ok(())
//!     }
//! }
//!
//! let mut port = Serial::new(Line, Vec::new());
//!
//! // The guest writes to the port: what it sends is in the writer.
//! port.write(0, b'>').unwrap();
//! assert_eq!(port.writer(), b">");
//!
//! // Someone types: the guest finds it in the port.
//! assert_eq!(port.enqueue_raw_bytes(b"ls").unwrap(), 2);
//! assert_eq!([port.read(0), port.read(0)], *b"ls");
//! ```

#![deny(missing_docs)]
#![deny(unsafe_code)]

mod counters;
mod form;
pub mod i8042;
pub mod rtc_pl031;
pub mod serial;

#[allow(unsafe_code)]
mod proved;

pub use counters::Counters;
pub use form::FormError;
pub use i8042::I8042Device;
pub use rtc_pl031::{Rtc, RtcState};
pub use serial::{FullSerialState, Serial, SerialSize, SerialState, SizedSerial};

/// How a device calls for attention: an interrupt line, or the event that resets the machine.
pub trait Trigger {
    /// Why the call may fail.
    type E: std::fmt::Debug;

    /// Calls for attention once.
    fn trigger(&self) -> Result<(), Self::E>;
}

/// Runs what the README shows.
#[cfg(doctest)]
#[doc = include_str!("../README.md")]
struct Readme;
