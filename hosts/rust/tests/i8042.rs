//! The reset controller through its API.

use std::cell::Cell;

use serialpost::{I8042Device, Trigger};

#[derive(Default)]
struct Machine {
    resets: Cell<u32>,
    fails: Cell<bool>,
}

impl Trigger for Machine {
    type E = &'static str;

    fn trigger(&self) -> Result<(), Self::E> {
        self.resets.set(self.resets.get() + 1);
        if self.fails.get() {
            Err("it is off")
        } else {
            Ok(())
        }
    }
}

#[test]
fn every_read_answers_0() {
    let mut controller = I8042Device::new(Machine::default());
    assert!((0..=255).all(|offset| controller.read(offset) == 0));
}

#[test]
fn one_command_at_one_offset_resets() {
    let mut controller = I8042Device::new(Machine::default());
    for offset in 0..=255 {
        for value in 0..=255 {
            controller.write(offset, value).unwrap();
            let resets = controller.reset_evt().resets.take();
            let expected = u32::from(offset == 4 && value == 0xfe);
            assert_eq!(resets, expected, "{value:#04x} at {offset}");
        }
    }
}

#[test]
fn a_reset_that_fails_is_an_error() {
    let mut controller = I8042Device::new(Machine::default());
    controller.reset_evt().fails.set(true);
    assert_eq!(controller.write(4, 0xfe), Err("it is off"));
    assert_eq!(controller.write(4, 0xff), Ok(()));
}
