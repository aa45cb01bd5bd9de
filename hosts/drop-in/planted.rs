//! Faults that the comparison must find: each is planted in the steps of our side, or in what FCR leaves of our port.

use judge::devices::{SerialState, LSR};

use crate::host::{Callback, Callback::*, Step, CLOCK_CALLBACKS, PORT_CALLBACKS};
use crate::ours;

type Change = dyn Fn(&mut Vec<Step>);

/// A port of ours, with the level of its line.
#[derive(Debug, PartialEq, Eq)]
pub struct Left {
    pub port: SerialState,
    pub line: bool,
}

impl Left {
    pub fn of(port: SerialState) -> Self {
        let line = ours::is_high(&port);
        Left { port, line }
    }
}

pub struct Planted {
    pub what: String,
    /// Whether it shows only where the two answer differently: what may differ there besides is to be nothing.
    only_where_answers_differ: bool,
    change: Box<Change>,
    /// Of a port that FCR emptied: what is left of it, given what was there before.
    keep: fn(&Left, &mut Left),
}

impl Planted {
    fn new(what: String, change: impl Fn(&mut Vec<Step>) + 'static) -> Self {
        Planted {
            what,
            only_where_answers_differ: false,
            change: Box::new(change),
            keep: |_, _| (),
        }
    }

    fn of_fcr(what: &str, keep: fn(&Left, &mut Left)) -> Self {
        Planted {
            keep,
            ..Self::new(format!("FCR keeps {what}"), |_| ())
        }
    }

    fn where_answers_differ(self) -> Self {
        Planted {
            what: format!("{}, where the answers differ", self.what),
            only_where_answers_differ: true,
            ..self
        }
    }

    pub fn change(&self, steps: &mut Vec<Step>, answers_differ: bool) {
        if answers_differ || !self.only_where_answers_differ {
            (self.change)(steps);
        }
    }

    pub fn keep(&self, before: &SerialState, left: &mut Left) {
        (self.keep)(&Left::of(before.clone()), left);
    }
}

/// Steps that follow one another, by their names.
const IN_ORDER: [[&str; 2]; 7] = [
    ["write", "flush"],
    ["flush", "OutByte"],
    ["flush", "TxLostByte"],
    ["write", "TxLostByte"],
    ["OutByte", "raise"],
    ["TxLostByte", "raise"],
    ["InBufferEmpty", "BufferRead"],
];

fn missed(callback: Callback, when: &'static str, is_so: fn(&[Step]) -> bool) -> Planted {
    Planted::new(format!("{callback:?} is missed{when}"), move |steps| {
        if is_so(steps) {
            steps.retain(|step| *step != Step::Told(callback));
        }
    })
}

fn twice(callback: Callback) -> Planted {
    Planted::new(format!("{callback:?} comes twice"), move |steps| {
        if let Some(place) = steps.iter().position(|s| *s == Step::Told(callback)) {
            steps.insert(place, Step::Told(callback));
        }
    })
}

fn mistaken(callback: Callback, other: Callback) -> Planted {
    Planted::new(format!("{callback:?} is told as {other:?}"), move |steps| {
        for step in steps.iter_mut().filter(|s| **s == Step::Told(callback)) {
            *step = Step::Told(other);
        }
    })
}

fn swapped([first, second]: [&'static str; 2]) -> Planted {
    Planted::new(format!("{second} comes before {first}"), move |steps| {
        let mut pairs = steps.windows(2);
        let place = pairs.position(|pair| [pair[0].name(), pair[1].name()] == [first, second]);
        if let Some(place) = place {
            steps.swap(place, place + 1);
        }
    })
}

fn without_cause(callback: Callback) -> Planted {
    Planted::new(format!("{callback:?} without a cause"), move |steps| {
        if steps.is_empty() {
            steps.push(Step::Told(callback));
        }
    })
}

fn one_raise_more() -> Planted {
    Planted::new("one raise more".into(), |steps| {
        steps.push(Step::Raised);
    })
}

fn one_raise_less() -> Planted {
    Planted::new("one raise less".into(), |steps| {
        if let Some(place) = steps.iter().position(|step| step.name() == "raise") {
            steps.remove(place);
        }
    })
}

fn failure_hidden() -> Planted {
    Planted::new("what failed is not returned".into(), |steps| {
        steps.retain(|step| !["not raised", "not sent"].contains(&step.name()));
    })
}

fn has(steps: &[Step], name: &str) -> bool {
    steps.iter().any(|step| step.name() == name)
}

/// All of them.
pub fn faults() -> Vec<Planted> {
    let line_fails = |steps: &[Step]| has(steps, "not raised");
    let write_fails = |steps: &[Step]| has(steps, "write") && !has(steps, "flush");
    let flush_fails = |steps: &[Step]| has(steps, "flush");
    let fcr_empties = |steps: &[Step]| !has(steps, "BufferRead");
    let mut faults = vec![
        missed(InBufferEmpty, " where FCR empties", fcr_empties),
        Planted::of_fcr("LSR 0x01", |before, left| {
            left.port.registers[LSR] |= before.port.registers[LSR] & 0x01;
        }),
        Planted::of_fcr("the line", |before, left| left.line |= before.line),
        Planted::of_fcr("a byte", |before, left| {
            left.port.buffer.extend(before.port.buffer.last());
        }),
        Planted::of_fcr("all bytes", |before, left| {
            left.port.buffer.clone_from(&before.port.buffer);
        }),
        missed(OutByte, " if the line fails", line_fails),
        missed(TxLostByte, " if the line fails", line_fails),
        missed(TxLostByte, " if the write fails", write_fails),
        missed(TxLostByte, " if the flush fails", flush_fails),
        missed(OutByte, "", |_| true).where_answers_differ(),
        missed(TxLostByte, "", |_| true).where_answers_differ(),
        mistaken(OutByte, TxLostByte),
        mistaken(TxLostByte, OutByte),
        mistaken(BufferRead, InBufferEmpty),
        mistaken(InvalidRead, InvalidWrite),
        mistaken(InvalidWrite, InvalidRead),
        one_raise_more(),
        one_raise_more().where_answers_differ(),
        one_raise_less(),
        one_raise_less().where_answers_differ(),
        failure_hidden(),
        failure_hidden().where_answers_differ(),
    ];
    for callback in PORT_CALLBACKS.into_iter().chain(CLOCK_CALLBACKS) {
        faults.push(missed(callback, "", |_| true));
        faults.push(twice(callback));
        faults.push(without_cause(callback));
        faults.push(without_cause(callback).where_answers_differ());
    }
    faults.extend(IN_ORDER.map(swapped));
    faults
}
