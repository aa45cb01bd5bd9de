//! A monitor's side of a port, for tests: an interrupt line and a sink that write down what happens, in order, and
//! that can be made to fail.

use std::cell::{Cell, RefCell};
use std::io::{self, Write};
use std::rc::Rc;

use serialpost::serial::NoEvents;
use serialpost::{Serial, Trigger};

#[derive(Clone, Copy, Debug, PartialEq, Eq)]
pub enum Event {
    Sent(u8),
    Flushed,
    Raised,
}

#[derive(Default)]
pub struct Host {
    events: RefCell<Vec<Event>>,
    pub line_fails: Cell<bool>,
    pub write_fails: Cell<bool>,
    pub flush_fails: Cell<bool>,
}

impl Host {
    /// What happened since the last question. What failed is in it too.
    pub fn events(&self) -> Vec<Event> {
        self.events.take()
    }

    pub fn raised(&self) -> usize {
        let events = self.events();
        events.iter().filter(|e| **e == Event::Raised).count()
    }

    fn note<E>(&self, event: Event, fails: &Cell<bool>, error: E) -> Result<(), E> {
        self.events.borrow_mut().push(event);
        if fails.get() {
            Err(error)
        } else {
            Ok(())
        }
    }
}

pub struct Line(Rc<Host>);

impl Trigger for Line {
    type E = &'static str;

    fn trigger(&self) -> Result<(), Self::E> {
        self.0
            .note(Event::Raised, &self.0.line_fails, "the line is cut")
    }
}

pub struct Wire(Rc<Host>);

impl Write for Wire {
    fn write(&mut self, bytes: &[u8]) -> io::Result<usize> {
        let error = io::Error::other("the wire is cut");
        self.0
            .note(Event::Sent(bytes[0]), &self.0.write_fails, error)?;
        Ok(1)
    }

    fn flush(&mut self) -> io::Result<()> {
        let error = io::Error::other("the wire is clogged");
        self.0.note(Event::Flushed, &self.0.flush_fails, error)
    }
}

pub type Port = Serial<Line, NoEvents, Wire>;

pub fn port() -> (Rc<Host>, Port) {
    let host = Rc::new(Host::default());
    let port = Serial::new(Line(host.clone()), Wire(host.clone()));
    (host, port)
}
