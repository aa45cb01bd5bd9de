//! Ports of every size, through the API; and a monitor of vm-superio, which knows of none.

use std::cell::Cell;
use std::io::{sink, Sink, Write};
use std::rc::Rc;
use std::sync::Arc;

use serialpost::serial::{Error, NoEvents, NoSize, SerialEvents};
use serialpost::{Counters, FormError, Serial, SerialState, Trigger};
use serialpost::{FullSerialState, SerialSize, SizedSerial};

const DATA: u8 = 0;
const IER: u8 = 1;
const FCR: u8 = 2;
const MCR: u8 = 4;

const SIZES: [usize; 7] = [16, 32, 64, 128, 256, 512, 1024];

/// A line that counts how often it is raised.
#[derive(Clone, Default)]
struct Line(Rc<Cell<u32>>);

impl Trigger for Line {
    type E = ();

    fn trigger(&self) -> Result<(), ()> {
        self.0.set(self.0.get() + 1);
        Ok(())
    }
}

type Port = SizedSerial<Line, NoEvents, Sink>;

fn sizes() -> impl Iterator<Item = SerialSize> {
    SIZES
        .into_iter()
        .map(|bytes| SerialSize::new(bytes).unwrap())
}

fn port(size: SerialSize) -> Port {
    Serial::with_size(size, Line::default(), NoEvents, sink())
}

/// So many bytes, of which no two neighbours are alike, nor those that lie 256 apart.
fn typed(length: usize) -> Vec<u8> {
    (0..length).map(|i| (i * 7 + i / 256) as u8).collect()
}

fn read<S>(port: &mut Serial<Line, NoEvents, Sink, S>, length: usize) -> Vec<u8> {
    (0..length).map(|_| port.read(DATA)).collect()
}

// ---- Ports

#[test]
fn a_port_has_the_size_that_it_is_made_with() {
    for size in sizes() {
        let port = port(size);
        assert_eq!(port.fifo_size(), size.bytes());
        assert_eq!(port.fifo_capacity(), size.bytes());
    }
    let usual = Serial::new(Line::default(), sink());
    assert_eq!(usual.fifo_size(), SerialSize::USUAL.bytes());
    assert_eq!(usual.full_state(), port(SerialSize::USUAL).full_state());
}

#[test]
fn no_other_number_is_a_size() {
    let around = SIZES.into_iter().flat_map(|size| [size - 1, size + 1]);
    let others = [
        0,
        1,
        4,
        8,
        48,
        68,
        1000,
        2048,
        u32::MAX as usize,
        usize::MAX,
    ];
    for bytes in around.chain(others) {
        assert_eq!(SerialSize::new(bytes), Err(NoSize), "{bytes}");
    }
    #[cfg(target_pointer_width = "64")]
    assert_eq!(SerialSize::new((1 << 32) + 64), Err(NoSize));
    assert_eq!(
        NoSize.to_string(),
        "a port's size is 16, 32, 64, 128, 256, 512 or 1024 bytes"
    );
}

#[test]
fn it_takes_as_many_bytes_as_its_size() {
    for size in SIZES {
        let mut port = port(SerialSize::new(size).unwrap());
        let bytes = typed(size + 1);
        assert_eq!(port.enqueue_raw_bytes(&bytes).unwrap(), size);
        assert_eq!(port.fifo_capacity(), 0);
        let refused = port.enqueue_raw_bytes(&bytes[size..]);
        assert!(matches!(refused, Err(Error::FullFifo)));
        assert_eq!(read(&mut port, 1), bytes[..1]);
        assert_eq!(port.fifo_capacity(), 1);
        assert_eq!(port.enqueue_raw_bytes(&bytes[size..]).unwrap(), 1);
        assert_eq!(read(&mut port, size), bytes[1..]);
        assert_eq!(port.fifo_capacity(), size);
    }
}

#[test]
fn in_the_loop_as_many_wait() {
    for size in SIZES {
        let mut port = port(SerialSize::new(size).unwrap());
        port.write(MCR, 0x10).unwrap();
        let bytes = typed(size + 1);
        for byte in &bytes {
            port.write(DATA, *byte).unwrap();
        }
        assert_eq!(port.fifo_capacity(), 0);
        assert_eq!(read(&mut port, size + 1), [&bytes[..size], &[0]].concat());
    }
}

#[test]
fn a_sized_port_tells_its_events() {
    let counters = Arc::new(Counters::new());
    let size = SerialSize::new(16).unwrap();
    let mut port = Serial::with_size(size, Line::default(), counters.clone(), sink());
    port.enqueue_raw_bytes(b"a").unwrap();
    port.write(DATA, b'>').unwrap();
    assert_eq!(port.read(DATA), b'a');
    assert_eq!((counters.data_reads(), counters.sent()), (1, 1));
    assert_eq!(port.events().none_left(), 1);
}

// ---- States

fn restored(full: &FullSerialState) -> (Result<Port, Error<()>>, u32) {
    let line = Line::default();
    let port = Serial::from_full_state(full, line.clone(), NoEvents, sink());
    (port, line.0.get())
}

#[test]
fn a_size_is_written_down_and_brought_back() {
    for size in sizes() {
        let bytes = typed(size.bytes());
        let mut here = port(size);
        here.write(IER, 0x01).unwrap();
        here.enqueue_raw_bytes(&bytes).unwrap();
        let full = here.full_state();
        assert_eq!((full.size, &full.state.in_buffer), (size, &bytes));
        assert!(full.is_reachable());

        let (there, raised) = restored(&full);
        let mut there = there.unwrap();
        assert_eq!(raised, 1);
        assert_eq!(there.full_state(), full);
        assert_eq!(
            (there.fifo_size(), there.fifo_capacity()),
            (size.bytes(), 0)
        );
        assert_eq!(read(&mut there, size.bytes()), bytes);
    }
}

#[test]
fn a_fresh_port_is_the_usual_one_but_for_its_size() {
    for size in sizes() {
        let fresh = FullSerialState::new(SerialState::default(), size);
        assert_eq!(port(size).full_state(), fresh);
        assert_eq!(restored(&fresh).0.unwrap().full_state(), fresh);
    }
}

#[test]
fn more_bytes_than_its_size_are_refused() {
    for size in sizes() {
        for more in [1, 100_000] {
            let mut full = FullSerialState::new(SerialState::default(), size);
            full.state.interrupt_enable = 0x01;
            full.state.in_buffer = vec![0; size.bytes() + more];
            let (port, raised) = restored(&full);
            assert!(matches!(port, Err(Error::FullFifo)));
            assert_eq!(raised, 0);
            assert!(!full.is_reachable());
        }
    }
}

#[test]
fn a_state_of_vm_superio_is_that_of_a_port_of_64() {
    let state = SerialState {
        in_buffer: typed(64),
        line_status: 0x61,
        ..SerialState::default()
    };
    let full = FullSerialState::from(state.clone());
    assert_eq!(full.size, SerialSize::USUAL);
    let usual = Serial::from_state(&state, Line::default(), NoEvents, sink()).unwrap();
    assert_eq!(usual.full_state(), full);
    assert_eq!((usual.fifo_size(), usual.fifo_capacity()), (64, 0));
    assert_eq!(restored(&full).0.unwrap().full_state(), full);
}

#[test]
fn vm_superio_is_given_no_state_of_another_size() {
    for size in sizes() {
        let state = SerialState::default();
        let full = FullSerialState::new(state.clone(), size);
        let expected = match size {
            SerialSize::USUAL => Ok(state),
            _ => Err(full.clone()),
        };
        assert_eq!(SerialState::try_from(full), expected);
    }
}

#[test]
fn what_is_remembered_of_fcr_is_written_down_and_brought_back() {
    for size in sizes() {
        for value in 0..=255 {
            let mut here = port(size);
            here.write(FCR, value).unwrap();
            let full = here.full_state();
            assert_eq!(full.fifo_control, value & 0xc9);
            assert!(full.is_reachable());
            assert_eq!(restored(&full).0.unwrap().full_state(), full);
        }
    }
    let mut full = port(SerialSize::USUAL).full_state();
    full.fifo_control = 0x02;
    assert!(!full.is_reachable());
    assert_eq!(restored(&full).0.unwrap().full_state(), full);
}

/// vm-superio's state has no field for it.
#[test]
fn a_state_of_vm_superio_tells_nothing_of_fcr() {
    let mut here = Serial::new(Line::default(), sink());
    let fresh = here.state();
    here.write(FCR, 0xc9).unwrap();
    assert_eq!(here.full_state().fifo_control, 0xc9);
    assert_eq!(here.state(), fresh);
    assert_eq!(SerialState::try_from(here.full_state()), Ok(fresh.clone()));
    let there = Serial::from_state(&here.state(), Line::default(), NoEvents, sink()).unwrap();
    assert_eq!(there.full_state(), FullSerialState::from(fresh));
}

// ---- Forms

/// Empty and full.
#[test]
fn a_port_of_every_size_has_a_form() {
    for size in sizes() {
        for length in [0, size.bytes()] {
            let mut full = FullSerialState::new(SerialState::default(), size);
            full.state.in_buffer = typed(length);
            full.fifo_control = 0x81;
            let form = full.to_bytes().unwrap();
            assert_eq!((form.len(), form[0], form[11]), (15 + length, 3, 0x81));
            assert_eq!(FullSerialState::from_bytes(&form), Ok(full.clone()));
            assert_eq!(
                SerialState::from_bytes(&form),
                SerialState::try_from(full).map_err(|_| FormError::Size)
            );
        }
        let mut full = FullSerialState::new(SerialState::default(), size);
        full.state.in_buffer = typed(size.bytes() + 1);
        assert_eq!(full.to_bytes(), Err(FormError::TooManyBytes));
    }
}

#[test]
fn a_state_of_64_has_one_form() {
    let state = SerialState {
        in_buffer: typed(64),
        ..SerialState::default()
    };
    let form = state.to_bytes().unwrap();
    assert_eq!(FullSerialState::from(state.clone()).to_bytes(), Ok(form));
}

#[test]
fn a_size_with_which_no_port_is_made_is_refused() {
    let mut form = FullSerialState::from(SerialState::default())
        .to_bytes()
        .unwrap();
    let mut read = vec![];
    for register in 0..=255 {
        form[12] = register;
        match FullSerialState::from_bytes(&form) {
            Ok(full) => read.push(full.size.bytes()),
            Err(why) => assert_eq!(why, FormError::Size),
        }
    }
    read.sort();
    assert_eq!(read, SIZES);
}

/// As it was written before there were sizes.
#[test]
fn a_form_of_version_2_is_read_as_a_port_of_64() {
    let state = SerialState {
        in_buffer: b"ls".to_vec(),
        ..SerialState::default()
    };
    let mut form = state.to_bytes().unwrap();
    form[0] = 2;
    form.drain(11..13);
    let full = FullSerialState::from_bytes(&form).unwrap();
    assert_eq!((full.size, full.fifo_control), (SerialSize::USUAL, 0));
    assert_eq!(full.state, state);
    assert_eq!(SerialState::from_bytes(&form), Ok(state));
    let cut = FullSerialState::from_bytes(&form[..12]);
    assert_eq!(cut, Err(FormError::TooShort));
}

// ---- A monitor of vm-superio: what it says of a port is said as before

struct Console<T: Trigger, EV: SerialEvents, W: Write> {
    port: Serial<T, EV, W>,
}

fn moved<T: Trigger, W: Write>(
    state: Box<SerialState>,
    line: T,
    out: W,
) -> Result<Console<T, NoEvents, W>, &'static str> {
    // A reference to a box is one to what is in it.
    match Serial::from_state(&state, line, NoEvents, out) {
        Ok(port) => Ok(Console { port }),
        Err(Error::FullFifo) => Err("full"),
        Err(Error::Trigger(_)) => Err("line"),
        Err(Error::IOError(_)) => Err("sink"),
    }
}

#[test]
fn a_monitor_of_vm_superio_is_not_changed() {
    let state = SerialState {
        baud_divisor_low: 0x0c,
        baud_divisor_high: 0x00,
        interrupt_enable: 0x00,
        interrupt_identification: 0x01,
        line_control: 0x03,
        line_status: 0x61,
        modem_control: 0x08,
        modem_status: 0xb0,
        scratch: 0x00,
        in_buffer: typed(64),
    };
    let mut console = moved(Box::new(state.clone()), Line::default(), sink())
        .unwrap_or_else(|why| panic!("{why}"));
    assert_eq!(console.port.state(), state);
    assert_eq!(console.port.fifo_capacity(), 0);
    assert_eq!(read(&mut console.port, 64), state.in_buffer);
    let fresh: Serial<_, _, _> = Serial::new(Line::default(), sink());
    console.port = fresh;
    let mut longer = Box::new(console.port.state());
    longer.in_buffer = typed(65);
    let refused = moved(longer, Line::default(), sink());
    assert_eq!(refused.err(), Some("full"));
}
