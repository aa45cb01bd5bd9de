//! The host's side of the devices: a line and a sink that write down what happens and fail when told.

use std::cell::{Cell, RefCell};
use std::io;

/// The callbacks for events.
#[derive(Clone, Copy, Debug, PartialEq, Eq)]
pub enum Callback {
    BufferRead,
    OutByte,
    TxLostByte,
    InBufferEmpty,
    InvalidRead,
    InvalidWrite,
}
use Callback::*;

pub const PORT_CALLBACKS: [Callback; 4] = [BufferRead, OutByte, TxLostByte, InBufferEmpty];
pub const CLOCK_CALLBACKS: [Callback; 2] = [InvalidRead, InvalidWrite];

/// One step of a call: what the device did to the host, also where that failed; a callback; or at last what
/// the call failed with, if it did.
#[derive(Clone, Debug, PartialEq, Eq)]
pub enum Step {
    Sent(Vec<u8>),
    Flushed,
    Raised,
    Told(Callback),
    Full,
    NotRaised(&'static str),
    NotSent(String),
}

/// What fails during one call; of the line, the first and the second time that it is raised.
#[derive(Clone, Copy, Debug, Default, PartialEq, Eq)]
pub struct Faults {
    pub line: [bool; 2],
    pub write: bool,
    pub flush: bool,
}

#[derive(Default)]
pub struct Host {
    pub faults: Cell<Faults>,
    /// Those of one call, in order.
    pub steps: RefCell<Vec<Step>>,
    /// How often each callback was called, since the device was named.
    told: Cell<[usize; PORT_CALLBACKS.len() + CLOCK_CALLBACKS.len()]>,
}

impl Host {
    /// A device is named anew: its callbacks are counted from 0.
    pub fn count_anew(&self) {
        self.told.take();
    }

    pub fn tell(&self, callback: Callback) {
        let mut told = self.told.get();
        told[callback as usize] += 1;
        self.told.set(told);
        self.note(Step::Told(callback));
    }

    /// How often these were called.
    pub fn told<const N: usize>(&self, callbacks: [Callback; N]) -> [usize; N] {
        callbacks.map(|callback| self.told.get()[callback as usize])
    }

    /// Does something of which nothing is noted, and no callback counted.
    pub fn unheard<T>(&self, does: impl FnOnce() -> T) -> T {
        let (told, steps) = (self.told.get(), self.steps.take());
        let done = does();
        self.told.set(told);
        self.steps.replace(steps);
        done
    }

    pub fn note(&self, step: Step) {
        self.steps.borrow_mut().push(step);
    }

    /// What a call came to, or none if it failed. That is noted.
    pub fn outcome<T>(&self, outcome: Result<T, Step>) -> Option<T> {
        let may_fail = self.faults.get() != Faults::default();
        let note = |failure| {
            assert!(
                may_fail || failure == Step::Full,
                "nothing here fails: {failure:?}"
            );
            assert!(
                failure != Step::Full || self.raised() == 0,
                "refused, and raised"
            );
            self.note(failure);
        };
        outcome.map_err(note).ok()
    }

    /// How often the line was raised.
    pub fn raised(&self) -> usize {
        raises_in(&self.steps.borrow())
    }

    /// The byte sent, if one was.
    pub fn sent(&self) -> Option<u8> {
        let steps = self.steps.borrow();
        let mut sent = steps.iter().flat_map(|step| match step {
            Step::Sent(bytes) => &bytes[..],
            _ => &[],
        });
        let byte = sent.next();
        assert!(sent.next().is_none(), "a write sent two bytes");
        byte.copied()
    }

    pub fn raise(&self) -> Result<(), &'static str> {
        let fails = self.faults.get().line.get(self.raised()) == Some(&true);
        self.note(Step::Raised);
        unless(fails, "the line is cut")
    }

    pub fn send(&self, bytes: &[u8]) -> io::Result<usize> {
        self.note(Step::Sent(bytes.to_vec()));
        unless(self.faults.get().write, "the wire is cut").map_err(io::Error::other)?;
        Ok(bytes.len())
    }

    pub fn flush(&self) -> io::Result<()> {
        self.note(Step::Flushed);
        unless(self.faults.get().flush, "the wire is clogged").map_err(io::Error::other)
    }
}

pub fn raises_in(steps: &[Step]) -> usize {
    steps.iter().filter(|step| **step == Step::Raised).count()
}

fn unless(fails: bool, why: &'static str) -> Result<(), &'static str> {
    match fails {
        true => Err(why),
        false => Ok(()),
    }
}
