//! What a port and a clock tell their monitor: which callbacks, and where between what the port does to its host.

use std::cell::{Cell, RefCell};
use std::io::{self, sink, Write};
use std::rc::Rc;
use std::sync::atomic::{AtomicU64, Ordering};
use std::sync::{Arc, Mutex};
use std::thread;

use serialpost::rtc_pl031::{self, RtcEvents};
use serialpost::serial::{self, Error, SerialEvents};
use serialpost::{Counters, Rtc, RtcState, Serial, SerialSize, SerialState, Trigger};

const DATA: u8 = 0;
const IER: u8 = 1;
const IIR: u8 = 2;
const FCR: u8 = 2;
const LCR: u8 = 3;
const MCR: u8 = 4;

// ---- A monitor that writes down what happens, in order

#[derive(Default)]
struct Log {
    lines: RefCell<Vec<&'static str>>,
    line_fails: Cell<bool>,
    write_fails: Cell<bool>,
    flush_fails: Cell<bool>,
}

impl Log {
    fn note(&self, what: &'static str) {
        self.lines.borrow_mut().push(what);
    }

    /// What happened since the last question.
    fn take(&self) -> Vec<&'static str> {
        self.lines.take()
    }
}

/// The line, the sink and the events of a device.
#[derive(Clone, Default)]
struct Monitor(Rc<Log>);

impl Trigger for Monitor {
    type E = &'static str;

    fn trigger(&self) -> Result<(), Self::E> {
        self.0.note("raise");
        match self.0.line_fails.get() {
            true => Err("the line is cut"),
            false => Ok(()),
        }
    }
}

fn unless(fails: &Cell<bool>) -> io::Result<()> {
    match fails.get() {
        true => Err(io::Error::other("the wire is cut")),
        false => Ok(()),
    }
}

impl Write for Monitor {
    fn write(&mut self, bytes: &[u8]) -> io::Result<usize> {
        self.0.note("write");
        unless(&self.0.write_fails).map(|()| bytes.len())
    }

    fn flush(&mut self) -> io::Result<()> {
        self.0.note("flush");
        unless(&self.0.flush_fails)
    }
}

impl SerialEvents for Monitor {
    fn buffer_read(&self) {
        self.0.note("buffer_read");
    }

    fn out_byte(&self) {
        self.0.note("out_byte");
    }

    fn tx_lost_byte(&self) {
        self.0.note("tx_lost_byte");
    }

    fn in_buffer_empty(&self) {
        self.0.note("in_buffer_empty");
    }
}

impl RtcEvents for Monitor {
    fn invalid_read(&self) {
        self.0.note("invalid_read");
    }

    fn invalid_write(&self) {
        self.0.note("invalid_write");
    }
}

type Port = Serial<Monitor, Monitor, Monitor>;

fn port() -> (Rc<Log>, Port) {
    let monitor = Monitor::default();
    let port = Serial::with_events(monitor.clone(), monitor.clone(), monitor.clone());
    (monitor.0, port)
}

/// A port that raises for each byte that the guest sends, once IIR has been read.
fn port_that_sends_by_interrupts() -> (Rc<Log>, Port) {
    let (log, mut port) = port();
    port.write(IER, 0x02).unwrap();
    assert_eq!(port.read(IIR), 0xc2);
    assert_eq!(log.take(), ["raise"]);
    (log, port)
}

// ---- What the guest reads

#[test]
fn a_data_read_is_told_and_the_last_one_tells_first_that_none_is_left() {
    let (log, mut port) = port();
    port.enqueue_raw_bytes(b"ab").unwrap();
    assert_eq!(log.take(), [""; 0]);
    assert_eq!(port.read(DATA), b'a');
    assert_eq!(log.take(), ["buffer_read"]);
    assert_eq!(port.read(DATA), b'b');
    assert_eq!(log.take(), ["in_buffer_empty", "buffer_read"]);
}

#[test]
fn a_read_of_an_empty_port_is_told_too() {
    let (log, mut port) = port();
    for _ in 0..2 {
        assert_eq!(port.read(DATA), 0);
        assert_eq!(log.take(), ["in_buffer_empty", "buffer_read"]);
    }
}

#[test]
fn a_read_of_the_divisor_or_of_another_register_is_not_told() {
    let (log, mut port) = port();
    port.enqueue_raw_bytes(b"a").unwrap();
    for offset in 1..=255 {
        port.read(offset);
    }
    port.write(LCR, 0x83).unwrap();
    port.read(DATA);
    port.read(IER);
    assert_eq!(log.take(), [""; 0]);
    port.write(LCR, 0x03).unwrap();
    assert_eq!(port.read(DATA), b'a');
    assert_eq!(log.take(), ["in_buffer_empty", "buffer_read"]);
}

// ---- What the guest writes

#[test]
fn a_byte_sent_is_told_when_it_is_flushed_and_before_the_interrupt() {
    let (log, mut port) = port_that_sends_by_interrupts();
    port.write(DATA, b'a').unwrap();
    assert_eq!(log.take(), ["write", "flush", "out_byte", "raise"]);
    port.write(DATA, b'b').unwrap();
    assert_eq!(log.take(), ["write", "flush", "out_byte"]);
}

#[test]
fn a_byte_that_is_not_written_is_told_lost_before_the_interrupt() {
    let (log, mut port) = port_that_sends_by_interrupts();
    log.write_fails.set(true);
    assert!(matches!(port.write(DATA, b'a'), Err(Error::IOError(_))));
    assert_eq!(log.take(), ["write", "tx_lost_byte", "raise"]);
}

#[test]
fn a_byte_that_is_not_flushed_is_told_lost_before_the_interrupt() {
    let (log, mut port) = port_that_sends_by_interrupts();
    log.flush_fails.set(true);
    assert!(matches!(port.write(DATA, b'a'), Err(Error::IOError(_))));
    assert_eq!(log.take(), ["write", "flush", "tx_lost_byte", "raise"]);
}

#[test]
fn where_the_line_fails_the_same_is_told() {
    let (log, mut port) = port_that_sends_by_interrupts();
    log.line_fails.set(true);
    assert!(matches!(port.write(DATA, b'a'), Err(Error::Trigger(_))));
    assert_eq!(log.take(), ["write", "flush", "out_byte", "raise"]);

    let (log, mut port) = port_that_sends_by_interrupts();
    log.line_fails.set(true);
    log.write_fails.set(true);
    assert!(matches!(port.write(DATA, b'a'), Err(Error::Trigger(_))));
    assert_eq!(log.take(), ["write", "tx_lost_byte", "raise"]);
}

/// A sink that takes nothing, and that was told to go on by an interruption before.
struct Stubborn(u32);

impl Write for Stubborn {
    fn write(&mut self, _: &[u8]) -> io::Result<usize> {
        self.0 += 1;
        match self.0 {
            1 => Err(io::ErrorKind::Interrupted.into()),
            _ => Ok(0),
        }
    }

    fn flush(&mut self) -> io::Result<()> {
        unreachable!("nothing was written")
    }
}

#[test]
fn a_sink_that_takes_no_byte_loses_it_once() {
    let monitor = Monitor::default();
    let mut port = Serial::with_events(monitor.clone(), monitor.clone(), Stubborn(0));
    let outcome = port.write(DATA, b'a');
    assert!(matches!(outcome, Err(Error::IOError(why)) if why.kind() == io::ErrorKind::WriteZero));
    assert_eq!(monitor.0.take(), ["tx_lost_byte"]);
}

#[test]
fn a_byte_in_loopback_and_a_write_of_another_register_are_not_told() {
    let (log, mut port) = port();
    port.write(MCR, 0x10).unwrap();
    for _ in 0..65 {
        port.write(DATA, b'a').unwrap(); // the last one is dropped
    }
    for offset in 1..=255 {
        port.write(offset, 0x80).unwrap();
    }
    port.write(DATA, 0x0c).unwrap(); // the divisor
    assert_eq!(log.take(), [""; 0]);
}

// ---- What the guest throws away

/// A type that was written for vm-superio. It may offer more input when the port is empty.
#[test]
fn bytes_thrown_away_are_told_as_an_empty_buffer_where_nothing_else_is_said() {
    let (log, mut port) = port();
    port.enqueue_raw_bytes(&[7; 64]).unwrap();
    port.write(FCR, 0x02).unwrap();
    assert_eq!(log.take(), ["in_buffer_empty"]);
    port.write(FCR, 0x02).unwrap();
    assert_eq!(log.take(), [""; 0]);
}

/// A type that wants to know how many they are.
#[derive(Default)]
struct Thrown(Mutex<Vec<usize>>);

impl SerialEvents for Thrown {
    fn buffer_read(&self) {
        unreachable!("nothing is read");
    }

    fn out_byte(&self) {
        unreachable!("nothing is sent");
    }

    fn tx_lost_byte(&self) {
        unreachable!("nothing is sent");
    }

    fn in_buffer_empty(&self) {
        unreachable!("nothing is read");
    }

    fn discarded(&self, bytes: usize) {
        self.0.lock().unwrap().push(bytes);
    }
}

/// Throws away some bytes, as many as there is room for, and none.
fn throw_away<EV: SerialEvents>(events: EV) {
    let size = SerialSize::new(1024).unwrap();
    let mut port = Serial::with_size(size, Quiet, events, sink());
    for length in [5, 1024, 0] {
        port.enqueue_raw_bytes(&vec![7; length]).unwrap();
        for value in [0x00, 0xc1, 0xfd, 0x07, 0x07] {
            port.write(FCR, value).unwrap();
        }
        assert_eq!(port.fifo_capacity(), 1024);
    }
}

#[test]
fn it_is_told_once_how_many_bytes_are_thrown_away() {
    let thrown = Arc::new(Thrown::default());
    throw_away(thrown.clone());
    assert_eq!(*thrown.0.lock().unwrap(), [5, 1024]);
    throw_away(Arc::new(thrown.clone()));
    assert_eq!(*thrown.0.lock().unwrap(), [5, 1024, 5, 1024]);
    throw_away(serial::NoEvents);
}

#[test]
fn input_is_not_told_also_where_it_is_refused() {
    let (log, mut port) = port();
    port.write(IER, 0x01).unwrap();
    assert_eq!(port.enqueue_raw_bytes(&[7; 65]).unwrap(), 64);
    assert!(matches!(port.enqueue_raw_bytes(b"a"), Err(Error::FullFifo)));
    assert_eq!(log.take(), ["raise"]);
}

// ---- Saved ports

#[test]
fn to_bring_a_port_back_is_not_told_and_what_it_does_then_is() {
    let (_, mut here) = port();
    here.write(IER, 0x01).unwrap();
    here.enqueue_raw_bytes(b"a").unwrap();
    let there = Monitor::default();
    let [line, events, wire] = [0; 3].map(|_| there.clone());
    let mut port = Serial::from_state(&here.state(), line, events, wire).unwrap();
    assert_eq!(there.0.take(), ["raise"]);
    assert_eq!(port.read(DATA), b'a');
    assert_eq!(there.0.take(), ["in_buffer_empty", "buffer_read"]);
    port.write(DATA, b'b').unwrap();
    assert_eq!(port.events().0.take(), ["write", "flush", "out_byte"]);
}

#[test]
fn a_port_that_is_not_brought_back_tells_nothing() {
    let there = Monitor::default();
    let too_many = SerialState {
        in_buffer: vec![0; 65],
        ..SerialState::default()
    };
    let due = SerialState {
        interrupt_enable: 0x01,
        in_buffer: vec![0],
        ..SerialState::default()
    };
    there.0.line_fails.set(true);
    for (state, told) in [(too_many, &[""; 0][..]), (due, &["raise"])] {
        let [line, events, wire] = [0; 3].map(|_| there.clone());
        assert!(Serial::from_state(&state, line, events, wire).is_err());
        assert_eq!(there.0.take(), told);
    }
}

// ---- The clock

#[test]
fn invalid_accesses_of_the_clock_are_told_and_valid_ones_are_not() {
    let monitor = Monitor::default();
    let mut clock = Rtc::with_events(monitor.clone());
    let registers = [0x000, 0x004, 0x008, 0x00c, 0x010, 0x014, 0x018];
    let can_be_read = |offset| registers.contains(&offset) || (0xfe0..=0xfff).contains(&offset);
    let can_be_written = |offset| [0x004, 0x008, 0x00c, 0x010, 0x01c].contains(&offset);
    for offset in 0..=0xffff {
        let wanted = match can_be_read(offset) {
            true => vec![],
            false => vec!["invalid_read"],
        };
        clock.read(offset, &mut [0; 4]);
        assert_eq!(monitor.0.take(), wanted, "read of {offset:#x}");
        assert_eq!(clock.read_at(5, offset, &mut [0; 4]), wanted.is_empty());
        assert_eq!(monitor.0.take(), wanted, "read of {offset:#x}");

        let wanted = match can_be_written(offset) {
            true => vec![],
            false => vec!["invalid_write"],
        };
        clock.write(offset, &[0; 4]);
        assert_eq!(monitor.0.take(), wanted, "write of {offset:#x}");
        assert_eq!(clock.write_at(5, offset, &[0; 4]), wanted.is_empty());
        assert_eq!(monitor.0.take(), wanted, "write of {offset:#x}");
    }
}

#[test]
fn a_clock_that_is_brought_back_tells_its_new_events() {
    let there = Monitor::default();
    let mut clock = Rtc::from_state(&RtcState::default(), there.clone());
    assert_eq!(there.0.take(), [""; 0]);
    clock.write(0x000, &[0; 4]);
    clock.read(0x01c, &mut [0; 4]);
    assert_eq!(clock.events().0.take(), ["invalid_write", "invalid_read"]);
}

// ---- A monitor's own type, shared

#[derive(Debug, Default)]
struct Metrics {
    reads: AtomicU64,
    sent: AtomicU64,
    lost: AtomicU64,
    emptied: AtomicU64,
    invalid_reads: AtomicU64,
    invalid_writes: AtomicU64,
}

fn increment(metric: &AtomicU64) {
    metric.fetch_add(1, Ordering::Relaxed);
}

impl SerialEvents for Metrics {
    fn buffer_read(&self) {
        increment(&self.reads);
    }

    fn out_byte(&self) {
        increment(&self.sent);
    }

    fn tx_lost_byte(&self) {
        increment(&self.lost);
    }

    fn in_buffer_empty(&self) {
        increment(&self.emptied);
    }
}

impl RtcEvents for Metrics {
    fn invalid_read(&self) {
        increment(&self.invalid_reads);
    }

    fn invalid_write(&self) {
        increment(&self.invalid_writes);
    }
}

/// A line for ports that other threads may have.
#[derive(Debug)]
struct Quiet;

impl Trigger for Quiet {
    type E = ();

    fn trigger(&self) -> Result<(), ()> {
        Ok(())
    }
}

/// Two bytes sent of which one is lost, three data reads of which two leave none; two invalid reads of the clock and
/// one invalid write. For any type of events.
fn use_both<EV: SerialEvents, RV: RtcEvents>(serial_events: EV, rtc_events: RV) {
    let mut room_for_one = [0; 1];
    let mut port = Serial::with_events(Quiet, serial_events, room_for_one.as_mut());
    port.write(DATA, b'a').unwrap();
    port.write(DATA, b'b').unwrap_err();
    port.enqueue_raw_bytes(b"ls").unwrap();
    assert_eq!(
        [port.read(DATA), port.read(DATA), port.read(DATA)],
        *b"ls\0"
    );
    let mut clock = Rtc::with_events(rtc_events);
    clock.read(0x020, &mut [0; 4]);
    clock.read(0x01c, &mut [0; 4]);
    clock.write(0x000, &[0; 4]);
}

impl Metrics {
    fn numbers(&self) -> [u64; 6] {
        let serial = [&self.reads, &self.sent, &self.lost, &self.emptied];
        let [reads, sent, lost, emptied] = serial.map(|metric| metric.load(Ordering::Relaxed));
        let clock = [&self.invalid_reads, &self.invalid_writes];
        let [invalid_reads, invalid_writes] = clock.map(|metric| metric.load(Ordering::Relaxed));
        [reads, sent, lost, emptied, invalid_reads, invalid_writes]
    }
}

#[test]
fn events_may_be_shared() {
    let metrics = Arc::new(Metrics::default());
    use_both(metrics.clone(), metrics.clone());
    assert_eq!(metrics.numbers(), [3, 1, 1, 2, 2, 1]);
    let again = Arc::new(metrics.clone());
    use_both(again.clone(), again);
    assert_eq!(metrics.numbers(), [6, 2, 2, 4, 4, 2]);
}

#[test]
fn no_events_are_told_nothing() {
    let (serial, clock) = (serial::NoEvents, rtc_pl031::NoEvents);
    use_both(serial, clock);
    use_both(Arc::new(serial), Arc::new(clock));
    assert_eq!(format!("{serial:?} {clock:?}"), "NoEvents NoEvents");
    let _: &serial::NoEvents = Serial::new(Quiet, sink()).events();
    let _: &rtc_pl031::NoEvents = Rtc::new().events();
}

#[test]
fn a_device_and_its_events_may_go_to_another_thread() {
    let metrics = Arc::new(Metrics::default());
    let mut port = Serial::with_events(Quiet, metrics.clone(), Vec::new());
    let mut clock = Rtc::with_events(metrics.clone());
    assert!(format!("{port:?} {clock:?}").contains("Metrics"));
    let guest = thread::spawn(move || {
        port.write(DATA, b'a').unwrap();
        clock.read(0x020, &mut [0; 4]);
    });
    guest.join().unwrap();
    assert_eq!(metrics.numbers(), [0, 1, 0, 0, 1, 0]);
}

// ---- Counters

fn counted(counters: &Counters) -> [u64; 6] {
    [
        counters.data_reads(),
        counters.sent(),
        counters.lost(),
        counters.none_left(),
        counters.invalid_reads(),
        counters.invalid_writes(),
    ]
}

#[test]
fn counters_count_each_event_and_a_lost_byte_as_sent_too() {
    let counters = Arc::new(Counters::new());
    assert_eq!(counted(&counters), [0; 6]);
    use_both(counters.clone(), counters.clone());
    assert_eq!(counted(&counters), [3, 2, 1, 2, 2, 1]);
}

#[test]
fn each_callback_counts_its_own_number() {
    type Callback = fn(&Counters);
    let callbacks: [(Callback, [u64; 6]); 7] = [
        (SerialEvents::buffer_read, [1, 0, 0, 0, 0, 0]),
        (SerialEvents::out_byte, [0, 1, 0, 0, 0, 0]),
        (SerialEvents::tx_lost_byte, [0, 1, 1, 0, 0, 0]),
        (SerialEvents::in_buffer_empty, [0, 0, 0, 1, 0, 0]),
        (|counters| counters.discarded(3), [0, 0, 0, 0, 0, 0]),
        (RtcEvents::invalid_read, [0, 0, 0, 0, 1, 0]),
        (RtcEvents::invalid_write, [0, 0, 0, 0, 0, 1]),
    ];
    for (callback, numbers) in callbacks {
        let counters = Counters::default();
        callback(&counters);
        assert_eq!(counted(&counters), numbers);
    }
}

#[test]
fn bytes_thrown_away_are_not_counted() {
    let counters = Arc::new(Counters::new());
    throw_away(counters.clone());
    assert_eq!(counted(&counters), [0; 6]);
}

#[test]
fn a_port_may_have_counters_of_its_own() {
    let mut port = Serial::with_events(Quiet, Counters::new(), Vec::new());
    port.write(DATA, b'a').unwrap();
    assert_eq!((port.events().sent(), port.events().lost()), (1, 0));
    assert!(format!("{port:?}").contains("Counters"));
}

#[test]
fn ports_of_several_threads_may_share_counters() {
    let counters = Arc::new(Counters::new());
    let guests = [0; 4].map(|_| {
        let counters = counters.clone();
        thread::spawn(move || {
            for _ in 0..1000 {
                use_both(counters.clone(), counters.clone());
            }
        })
    });
    for guest in guests {
        guest.join().unwrap();
    }
    assert_eq!(counted(&counters), [12_000, 8000, 4000, 8000, 8000, 4000]);
}
