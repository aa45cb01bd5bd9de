//! Who is measured: this crate, and the original twice, as the compiler likes it and behind a call.

use std::io::{sink, Sink};

/// A machine's devices as its bus has them.
pub trait Machine {
    fn new() -> Self;
    fn write(&mut self, offset: u8, value: u8);
    fn read(&mut self, offset: u8) -> u8;
    fn input(&mut self, bytes: &[u8]) -> usize;
    fn clock_read(&mut self, offset: u16, data: &mut [u8; 4]);
}

/// The devices of a crate, with an interrupt line and a sink that do nothing, reached by functions that are inlined
/// `$how`.
macro_rules! machine {
    ($name:ident, $crate_:ident, $how:ident) => {
        pub mod $name {
            use super::*;
            use $crate_::{rtc_pl031, serial, Rtc, Serial, Trigger};

            pub struct NoLine;

            impl Trigger for NoLine {
                type E = ();

                fn trigger(&self) -> Result<(), ()> {
                    Ok(())
                }
            }

            pub struct Devices {
                port: Serial<NoLine, serial::NoEvents, Sink>,
                clock: Rtc<rtc_pl031::NoEvents>,
            }

            impl Machine for Devices {
                fn new() -> Self {
                    Devices {
                        port: Serial::new(NoLine, sink()),
                        clock: Rtc::new(),
                    }
                }

                #[inline($how)]
                fn write(&mut self, offset: u8, value: u8) {
                    self.port.write(offset, value).unwrap();
                }

                #[inline($how)]
                fn read(&mut self, offset: u8) -> u8 {
                    self.port.read(offset)
                }

                #[inline($how)]
                fn input(&mut self, bytes: &[u8]) -> usize {
                    self.port.enqueue_raw_bytes(bytes).unwrap()
                }

                #[inline($how)]
                fn clock_read(&mut self, offset: u16, data: &mut [u8; 4]) {
                    self.clock.read(offset, data);
                }
            }
        }
    };
}

machine!(ours, serialpost, always);
machine!(inlined, vm_superio, always);
machine!(called, vm_superio, never);
