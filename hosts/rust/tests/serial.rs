//! The serial port through its API.

mod host;

use std::error::Error as _;
use std::io::{self, sink};
use std::rc::Rc;

use host::{port, Event, Host, Port};
use serialpost::serial::Error;
use serialpost::{Serial, Trigger};

const DATA: u8 = 0;
const IER: u8 = 1;
const IIR: u8 = 2;
const FCR: u8 = 2;
const LCR: u8 = 3;
const MCR: u8 = 4;
const LSR: u8 = 5;
const MSR: u8 = 6;
const SCR: u8 = 7;

/// A line for ports whose interrupt does not matter.
struct Quiet;

impl Trigger for Quiet {
    type E = ();

    fn trigger(&self) -> Result<(), ()> {
        Ok(())
    }
}

// ---- What the guest sends

#[test]
fn sent_bytes_reach_the_writer_in_order() {
    let mut port = Serial::new(Quiet, Vec::new());
    for byte in *b"hello" {
        port.write(DATA, byte).unwrap();
    }
    assert_eq!(port.writer(), b"hello");
    port.writer_mut().clear();
    port.write(DATA, b'!').unwrap();
    assert_eq!(port.into_writer(), b"!");
}

/// A port whose transmitter interrupts. To enable that signals the empty transmitter; the guest has seen it.
fn port_that_sends_by_interrupts() -> (Rc<Host>, Port) {
    let (host, mut port) = port();
    port.write(IER, 0x02).unwrap();
    assert_eq!(host.raised(), 1);
    assert_eq!(port.read(IIR), 0xc2);
    (host, port)
}

#[test]
fn a_byte_is_written_and_flushed_before_the_interrupt() {
    let (host, mut port) = port_that_sends_by_interrupts();
    port.write(DATA, b'a').unwrap();
    let order = [Event::Sent(b'a'), Event::Flushed, Event::Raised];
    assert_eq!(host.events(), order);
}

#[test]
fn the_empty_transmitter_is_pending_raised_once_and_reset_by_a_read() {
    let (host, mut port) = port_that_sends_by_interrupts();
    port.write(DATA, b'a').unwrap();
    assert_eq!(host.raised(), 1);
    port.write(DATA, b'b').unwrap();
    assert_eq!(host.raised(), 0);
    assert_eq!(port.read(IER), 0x02);
    assert_eq!(port.read(IIR), 0xc2);
    assert_eq!(port.read(IIR), 0xc1);
    port.write(DATA, b'c').unwrap();
    assert_eq!(host.raised(), 1);
}

#[test]
fn a_byte_that_is_not_written_is_not_flushed_and_the_interrupt_is_raised_all_the_same() {
    let (host, mut port) = port_that_sends_by_interrupts();
    host.write_fails.set(true);
    let outcome = port.write(DATA, b'a');
    assert!(matches!(outcome, Err(Error::IOError(why)) if why.to_string() == "the wire is cut"));
    assert_eq!(host.events(), [Event::Sent(b'a'), Event::Raised]);
    assert_eq!(port.read(IIR), 0xc2);
}

#[test]
fn a_byte_that_is_not_flushed_is_an_error_and_the_interrupt_is_raised_all_the_same() {
    let (host, mut port) = port_that_sends_by_interrupts();
    host.flush_fails.set(true);
    let outcome = port.write(DATA, b'a');
    assert!(
        matches!(outcome, Err(Error::IOError(why)) if why.to_string() == "the wire is clogged")
    );
    assert_eq!(host.raised(), 1);
}

#[test]
fn a_writer_with_no_room_is_an_error_of_its_own_kind() {
    let mut no_room = [0u8; 0];
    let mut port = Serial::new(Quiet, no_room.as_mut());
    port.write(IER, 0x02).unwrap();
    let outcome = port.write(DATA, 5);
    assert!(matches!(outcome, Err(Error::IOError(why)) if why.kind() == io::ErrorKind::WriteZero));
    assert_eq!(port.read(IIR), 0xc2);
}

#[test]
fn an_interrupt_that_cannot_be_raised_is_an_error_and_counts_as_raised() {
    let (host, mut port) = port_that_sends_by_interrupts();
    host.line_fails.set(true);
    let outcome = port.write(DATA, b'a');
    assert!(matches!(outcome, Err(Error::Trigger("the line is cut"))));
    assert_eq!(host.events()[0], Event::Sent(b'a'));
    host.line_fails.set(false);
    port.write(DATA, b'b').unwrap();
    assert_eq!(host.raised(), 0);
}

#[test]
fn of_two_interrupts_the_second_is_raised_though_the_first_fails() {
    let (host, mut port) = port();
    port.enqueue_raw_bytes(b"a").unwrap();
    host.line_fails.set(true);
    let outcome = port.write(IER, 0x03);
    assert!(matches!(outcome, Err(Error::Trigger("the line is cut"))));
    assert_eq!(host.raised(), 2);
    assert_eq!(port.read(IIR), 0xc4);
}

#[test]
fn where_both_fail_the_interrupt_is_the_error() {
    let (host, mut port) = port_that_sends_by_interrupts();
    host.line_fails.set(true);
    host.write_fails.set(true);
    assert!(matches!(port.write(DATA, b'a'), Err(Error::Trigger(_))));
    // Now the interrupt is pending and not raised again: the sink's error is the one.
    assert!(matches!(port.write(DATA, b'a'), Err(Error::IOError(_))));
}

// ---- What the guest receives

#[test]
fn input_waits_to_be_read_and_is_raised_once() {
    let (host, mut port) = port();
    port.write(IER, 0x01).unwrap();
    assert_eq!(port.enqueue_raw_bytes(b"abc").unwrap(), 3);
    assert_eq!(host.raised(), 1);
    assert_eq!(port.enqueue_raw_bytes(b"d").unwrap(), 1);
    assert_eq!(host.raised(), 0);
    for byte in *b"abcd" {
        assert_eq!(port.read(LSR) & 0x01, 0x01);
        assert_eq!(port.read(DATA), byte);
    }
    assert_eq!(port.read(LSR) & 0x01, 0x00);
    assert_eq!(port.read(DATA), 0);
}

#[test]
fn no_bytes_are_no_input() {
    let (host, mut port) = port();
    port.write(IER, 0x01).unwrap();
    assert_eq!(port.enqueue_raw_bytes(&[]).unwrap(), 0);
    assert_eq!(host.raised(), 0);
    assert_eq!(port.read(LSR) & 0x01, 0x00);
}

#[test]
fn input_while_interrupts_are_off_waits_in_silence() {
    let (host, mut port) = port();
    assert_eq!(port.enqueue_raw_bytes(b"abc").unwrap(), 3);
    assert_eq!(host.raised(), 0);
    assert_eq!(port.read(LSR) & 0x01, 0x01);
    assert_eq!(port.read(IIR), 0xc1);
    // To enable them raises for the bytes and for the empty transmitter.
    port.write(IER, 0x03).unwrap();
    assert_eq!(host.raised(), 2);
    assert_eq!(port.read(IIR), 0xc4);
    assert_eq!(port.read(DATA), b'a');
}

#[test]
fn as_much_input_is_taken_as_there_is_room_for() {
    let mut port = Serial::new(Quiet, sink());
    let many = [1u8; 65];
    assert_eq!(port.fifo_capacity(), 64);
    assert_eq!(port.enqueue_raw_bytes(&many).unwrap(), 64);
    assert_eq!(port.fifo_capacity(), 0);
    assert_eq!(port.enqueue_raw_bytes(&[]).unwrap(), 0);
    let refused = port.enqueue_raw_bytes(&many[..1]);
    assert!(matches!(refused, Err(Error::FullFifo)));
    port.read(DATA);
    assert_eq!(port.enqueue_raw_bytes(&many[..2]).unwrap(), 1);
    assert_eq!(port.fifo_capacity(), 0);
}

#[test]
fn input_whose_interrupt_fails_is_taken_all_the_same() {
    let (host, mut port) = port();
    port.write(IER, 0x01).unwrap();
    host.line_fails.set(true);
    let outcome = port.enqueue_raw_bytes(b"ab");
    assert!(matches!(outcome, Err(Error::Trigger("the line is cut"))));
    assert_eq!([port.read(DATA), port.read(DATA)], *b"ab");
}

// ---- Interrupts

#[test]
fn the_line_is_high_as_long_as_a_byte_waits() {
    let (host, mut port) = port();
    port.write(IER, 0x01).unwrap();
    assert!(!port.interrupt_line());
    port.enqueue_raw_bytes(b"ab").unwrap();
    assert_eq!(host.raised(), 1);
    assert!(port.interrupt_line());
    assert_eq!(port.read(DATA), b'a');
    assert!(port.interrupt_line());
    assert_eq!(port.read(DATA), b'b');
    assert!(!port.interrupt_line());
}

#[test]
fn the_line_is_high_until_iir_has_told_of_the_empty_transmitter() {
    let (host, mut port) = port();
    port.write(IER, 0x02).unwrap();
    assert_eq!(host.raised(), 1);
    assert!(port.interrupt_line());
    port.write(DATA, b'a').unwrap();
    assert!(port.interrupt_line());
    assert_eq!(port.read(IIR), 0xc2);
    assert!(!port.interrupt_line());
    port.write(DATA, b'b').unwrap();
    assert!(port.interrupt_line());
}

/// A port with both kinds enabled and active.
fn port_with_both_kinds() -> (Rc<Host>, Port) {
    let (host, mut port) = port();
    port.enqueue_raw_bytes(b"a").unwrap();
    port.write(IER, 0x03).unwrap();
    assert_eq!(host.raised(), 2);
    (host, port)
}

#[test]
fn received_data_comes_before_the_empty_transmitter() {
    let (host, mut port) = port_with_both_kinds();
    // A read that tells of received data does not reset the transmitter's interrupt.
    assert_eq!([port.read(IIR), port.read(IIR)], [0xc4, 0xc4]);
    assert_eq!(port.read(DATA), b'a');
    assert!(port.interrupt_line());
    assert_eq!(port.read(IIR), 0xc2);
    assert!(!port.interrupt_line());
    assert_eq!(port.read(IIR), 0xc1);
    assert_eq!(host.raised(), 0);
}

#[test]
fn a_kind_that_is_not_enabled_is_not_shown() {
    let shown = [(0x00, 0xc1), (0x01, 0xc4), (0x02, 0xc2), (0x03, 0xc4)];
    for (ier, iir) in shown {
        let (_, mut port) = port_with_both_kinds();
        port.write(IER, ier).unwrap();
        assert_eq!(port.interrupt_line(), ier != 0, "IER {ier:#04x}");
        assert_eq!(port.read(IIR), iir, "IER {ier:#04x}");
    }
}

#[test]
fn to_enable_a_kind_again_raises_again() {
    let (host, mut port) = port_with_both_kinds();
    port.write(IER, 0x03).unwrap();
    assert_eq!(host.raised(), 0);
    port.write(IER, 0x00).unwrap();
    assert!(!port.interrupt_line());
    for (ier, raises) in [(0x01, 1), (0x00, 0), (0x02, 1), (0x03, 1)] {
        port.write(IER, ier).unwrap();
        assert_eq!(host.raised(), raises, "IER {ier:#04x}");
    }
    // The transmitter's also where it stayed enabled, once IIR has told of it.
    port.read(DATA);
    assert_eq!(port.read(IIR), 0xc2);
    port.write(IER, 0x03).unwrap();
    assert_eq!(host.raised(), 1);
}

/// Linux's handler looks at IIR until it tells of nothing, and may leave bytes to the next round.
#[test]
fn a_handler_that_leaves_bytes_is_told_of_them() {
    let (host, mut port) = port();
    port.write(IER, 0x01).unwrap();
    port.enqueue_raw_bytes(b"abc").unwrap();
    assert_eq!(host.raised(), 1);
    for byte in *b"abc" {
        assert_eq!(port.read(IIR), 0xc4);
        assert_eq!(port.read(DATA), byte);
    }
    assert_eq!(port.read(IIR), 0xc1);
    assert!(!port.interrupt_line());
}

#[test]
fn a_byte_that_comes_behind_another_is_not_raised_and_holds_the_line_high() {
    let (host, mut port) = port();
    port.write(IER, 0x01).unwrap();
    port.enqueue_raw_bytes(b"ab").unwrap();
    assert_eq!(host.raised(), 1);
    // A driver that reads one byte for each interrupt is done for now.
    assert_eq!(port.read(DATA), b'a');
    port.enqueue_raw_bytes(b"c").unwrap();
    assert_eq!(host.raised(), 0);
    assert!(port.interrupt_line());
}

/// One of eleven operations that interrupts depend on.
fn operate(port: &mut Port, which: usize) {
    match which {
        0 => _ = port.read(IIR),
        1 => _ = port.read(DATA),
        2 => _ = port.enqueue_raw_bytes(b"a").unwrap(),
        3 => port.write(DATA, b'b').unwrap(),
        4 => port.write(MCR, 0x10).unwrap(),
        5 => port.write(MCR, 0x08).unwrap(),
        6 => port.write(FCR, 0x02).unwrap(),
        ier => port.write(IER, ier as u8 - 7).unwrap(),
    }
}

#[test]
fn the_line_rises_by_a_raise_and_is_high_after_one() {
    let [mut rose, mut raised_while_high] = [0, 0];
    for run in 0..11_usize.pow(4) {
        let (host, mut port) = port();
        for place in [1, 11, 121, 1331] {
            let before = port.interrupt_line();
            operate(&mut port, run / place % 11);
            let (raises, after) = (host.raised(), port.interrupt_line());
            assert!(raises > 0 || before || !after, "run {run}: it rises");
            assert!(raises == 0 || after, "run {run}: a raise, and it is low");
            rose += usize::from(!before && after);
            raised_while_high += usize::from(before && raises > 0);
        }
    }
    assert!(rose > 1000 && raised_while_high > 100);
}

// ---- FCR

#[test]
fn fcr_empties_the_buffer() {
    for value in (0..=255).filter(|value| value & 0x02 != 0) {
        let (host, mut port) = port();
        port.write(IER, 0x01).unwrap();
        port.enqueue_raw_bytes(b"hello").unwrap();
        assert_eq!((host.raised(), port.interrupt_line()), (1, true));
        port.write(FCR, value).unwrap();
        assert_eq!((host.raised(), port.interrupt_line()), (0, false));
        assert_eq!(port.fifo_capacity(), 64);
        assert_eq!([port.read(LSR), port.read(IIR)], [0x60, 0xc1]);
        port.enqueue_raw_bytes(b"ok").unwrap();
        assert_eq!(host.raised(), 1);
        assert_eq!([port.read(DATA), port.read(DATA)], *b"ok");
    }
}

#[test]
fn the_transmitters_interrupt_stays() {
    let (host, mut port) = port_with_both_kinds();
    host.events();
    port.write(FCR, 0x07).unwrap();
    assert_eq!((host.raised(), port.interrupt_line()), (0, true));
    assert_eq!([port.read(IIR), port.read(IIR)], [0xc2, 0xc1]);
}

#[test]
fn what_is_remembered_of_fcr_is_shown_nowhere() {
    for value in (0..=255).filter(|value| value & 0x02 == 0) {
        let [(_, mut port), (_, mut same)] = [port(), port()];
        port.write(FCR, value).unwrap();
        for port in [&mut port, &mut same] {
            port.write(IER, 0x03).unwrap();
            port.enqueue_raw_bytes(b"ab").unwrap();
        }
        assert_eq!(port.state(), same.state());
        assert_eq!(port.full_state().fifo_control, value & 0xc9);
        for offset in 0..=255 {
            assert_eq!(port.read(offset), same.read(offset));
        }
    }
}

// ---- Loopback

#[test]
fn in_the_loop_the_guest_reads_what_it_wrote() {
    let (host, mut port) = port();
    port.write(MCR, 0x10).unwrap();
    port.write(IER, 0x01).unwrap();
    for value in 0..64 {
        port.write(DATA, value).unwrap();
        assert_eq!(host.events(), [Event::Raised]);
        assert_eq!(port.fifo_capacity(), 63);
        assert_eq!(port.read(DATA), value);
    }
    assert_eq!(port.read(LSR) & 0x01, 0x00);
}

#[test]
fn in_the_loop_a_byte_leaves_the_transmitter_empty() {
    let (host, mut port) = port_that_sends_by_interrupts();
    port.write(MCR, 0x10).unwrap();
    port.write(IER, 0x03).unwrap();
    assert_eq!([port.read(IIR), host.raised() as u8], [0xc2, 1]);
    port.write(DATA, b'a').unwrap();
    assert_eq!(host.events(), [Event::Raised, Event::Raised]);
    assert_eq!(port.read(IIR), 0xc4);
}

#[test]
fn in_the_loop_a_65th_byte_is_dropped() {
    let (host, mut port) = port();
    port.write(MCR, 0x10).unwrap();
    port.write(IER, 0x01).unwrap();
    for value in 0..65 {
        port.write(DATA, value).unwrap();
    }
    assert_eq!(host.events(), [Event::Raised]);
    assert_eq!(port.fifo_capacity(), 0);
    for value in 0..64 {
        assert_eq!(port.read(LSR) & 0x01, 0x01);
        assert_eq!(port.read(DATA), value);
    }
    assert_eq!(port.read(LSR) & 0x01, 0x00);
}

#[test]
fn in_the_loop_no_input_is_taken() {
    let (host, mut port) = port();
    port.write(IER, 0x01).unwrap();
    port.write(MCR, 0x10).unwrap();
    assert_eq!(port.enqueue_raw_bytes(b"abc").unwrap(), 0);
    assert_eq!(port.fifo_capacity(), 64);
    assert_eq!(host.raised(), 0);
}

#[test]
fn in_the_loop_the_modem_lines_follow_the_outputs() {
    let mut port = Serial::new(Quiet, sink());
    assert_eq!(port.read(MSR), 0xb0);
    let wires = [(0x10, 0x00), (0x18, 0x80), (0x14, 0x40), (0x13, 0x30)];
    for (mcr, msr) in wires {
        port.write(MCR, mcr).unwrap();
        assert_eq!(port.read(MSR), msr, "MCR {mcr:#04x}");
    }
}

// ---- Registers

#[test]
fn a_fresh_port_shows_these_registers() {
    let mut port = Serial::new(Quiet, sink());
    let shown: Vec<u8> = (0..10).map(|offset| port.read(offset)).collect();
    assert_eq!(shown, [0, 0, 0xc1, 0x03, 0x08, 0x60, 0xb0, 0, 0, 0]);
    port.write(LCR, 0x83).unwrap();
    assert_eq!([port.read(0), port.read(1)], [0x0c, 0x00]);
}

#[test]
fn the_divisor_is_open_while_dlab_is_set() {
    let mut port = Serial::new(Quiet, Vec::new());
    port.write(LCR, 0x80).unwrap();
    port.write(1, 0x12).unwrap();
    assert_eq!([port.read(0), port.read(1)], [0x0c, 0x12]);
    port.write(0, 0x34).unwrap();
    assert_eq!([port.read(0), port.read(1)], [0x34, 0x12]);
    port.write(LCR, 0x00).unwrap();
    assert_eq!([port.read(DATA), port.read(IER)], [0, 0]);
    assert_eq!(port.writer(), b"");
}

#[test]
fn three_registers_keep_what_is_written() {
    let mut port = Serial::new(Quiet, sink());
    for offset in [LCR, MCR, SCR] {
        port.write(offset, 0x12).unwrap();
        assert_eq!(port.read(offset), 0x12);
    }
}

#[test]
fn other_offsets_do_nothing() {
    let mut port = Serial::new(Quiet, Vec::new());
    for offset in [LSR, MSR].into_iter().chain(8..=255) {
        port.write(offset, 0x05).unwrap();
    }
    assert_eq!([port.read(IIR), port.read(LSR)], [0xc1, 0x60]);
    assert!((8..=255).all(|offset| port.read(offset) == 0));
    assert_eq!(port.writer(), b"");
}

// ---- The rest of the API

#[test]
fn the_line_is_at_hand() {
    let port = Serial::new(Quiet, sink());
    let Quiet = port.interrupt_evt();
}

#[test]
fn errors_say_what_happened() {
    let cut = || io::Error::other("cut");
    let errors: [(Error<io::Error>, &str); 3] = [
        (
            Error::Trigger(cut()),
            "the interrupt could not be raised: cut",
        ),
        (
            Error::IOError(cut()),
            "the guest's byte could not be sent: cut",
        ),
        (Error::FullFifo, "the port's input buffer is full"),
    ];
    for (error, words) in errors {
        assert_eq!(error.to_string(), words);
        assert!(error.source().is_none());
    }
}
