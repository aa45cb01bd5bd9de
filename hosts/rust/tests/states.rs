//! Devices that are written down and brought back, through the API.

use std::cell::Cell;
use std::io::sink;
use std::rc::Rc;

use serialpost::rtc_pl031::NoEvents as NoRtcEvents;
use serialpost::serial::{Error, NoEvents};
use serialpost::{Rtc, RtcState, Serial, SerialState, Trigger};

const DATA: u8 = 0;
const IER: u8 = 1;
const IIR: u8 = 2;
const LCR: u8 = 3;
const LSR: u8 = 5;

/// A line that counts how often it is raised, and fails the time that it is told to, counted from 1.
#[derive(Clone, Default)]
struct Line {
    raised: Rc<Cell<u32>>,
    fails_at: u32,
}

impl Trigger for Line {
    type E = &'static str;

    fn trigger(&self) -> Result<(), Self::E> {
        self.raised.set(self.raised.get() + 1);
        if self.raised.get() == self.fails_at {
            Err("the line is cut")
        } else {
            Ok(())
        }
    }
}

type Port = Serial<Line, NoEvents, Vec<u8>>;

/// The port that comes of a state, and how often the line was raised, which fails at the time `fails_at`.
fn restored(state: &SerialState, fails_at: u32) -> (Result<Port, Error<&'static str>>, u32) {
    let line = Line {
        fails_at,
        ..Line::default()
    };
    let port = Serial::from_state(state, line.clone(), NoEvents, Vec::new());
    (port, line.raised.get())
}

/// A state in which both kinds are enabled and pending.
fn two_kinds() -> SerialState {
    SerialState {
        interrupt_enable: 0x03,
        interrupt_identification: 0x06,
        line_status: 0x61,
        in_buffer: b"ls".to_vec(),
        ..SerialState::default()
    }
}

// ---- The serial port

#[test]
fn the_default_is_a_fresh_port() {
    let fresh = SerialState {
        baud_divisor_low: 0x0c,
        baud_divisor_high: 0x00,
        interrupt_enable: 0x00,
        interrupt_identification: 0x01,
        line_control: 0x03,
        line_status: 0x60,
        modem_control: 0x08,
        modem_status: 0xb0,
        scratch: 0x00,
        in_buffer: Vec::new(),
    };
    assert_eq!(SerialState::default(), fresh);
    assert_eq!(Serial::new(Line::default(), sink()).state(), fresh);
    let (port, raised) = restored(&fresh, 0);
    assert_eq!((port.unwrap().state(), raised), (fresh, 0));
}

#[test]
fn a_console_moves_to_another_host() {
    let mut here = Serial::new(Line::default(), Vec::new());
    here.write(IER, 0x01).unwrap();
    here.enqueue_raw_bytes(b"xls -l").unwrap();
    assert_eq!(here.read(DATA), b'x');
    here.enqueue_raw_bytes(b"\n").unwrap();
    let state = here.state();
    assert_eq!(state.in_buffer, b"ls -l\n");
    assert!(state.is_reachable());

    let (there, raised) = restored(&state, 0);
    let mut there = there.unwrap();
    assert_eq!(raised, 1);
    assert_eq!(there.state(), state);
    assert_eq!(there.read(IIR), 0xc4);
    assert!(b"ls -l\n".iter().all(|byte| there.read(DATA) == *byte));
    assert_eq!(there.read(LSR), 0x60);
    there.write(DATA, b'>').unwrap();
    assert_eq!(there.writer(), b">");
}

#[test]
fn each_register_is_its_own() {
    let state = SerialState {
        baud_divisor_low: 0x11,
        baud_divisor_high: 0x12,
        interrupt_enable: 0x18,
        interrupt_identification: 0x19,
        line_control: 0x03,
        line_status: 0x15,
        modem_control: 0x04,
        modem_status: 0x16,
        scratch: 0x17,
        in_buffer: vec![0x10],
    };
    let mut port = restored(&state, 0).0.unwrap();
    assert_eq!(port.state(), state);
    let shown: Vec<u8> = (1..8).chain([DATA]).map(|o| port.read(o)).collect();
    assert_eq!(shown, [0x18, 0xc1, 0x03, 0x04, 0x15, 0x16, 0x17, 0x10]);
    port.write(LCR, 0x80).unwrap();
    assert_eq!([port.read(0), port.read(1)], [0x11, 0x12]);
}

#[test]
fn what_is_enabled_and_pending_is_raised_again() {
    for ier in 0..=0x0f {
        for iir in 0..=0x0f {
            for in_buffer in [vec![], vec![b'a']] {
                let state = SerialState {
                    interrupt_enable: ier,
                    interrupt_identification: iir,
                    in_buffer,
                    ..SerialState::default()
                };
                let transmitter = u32::from(ier & 0x02 != 0 && iir & 0x02 != 0);
                let received = u32::from(ier & 0x01 != 0 && !state.in_buffer.is_empty());
                let (port, raised) = restored(&state, 0);
                let port = port.unwrap();
                assert_eq!(raised, transmitter + received, "{state:?}");
                assert_eq!(port.interrupt_line(), raised > 0, "{state:?}");
                assert_eq!(port.state(), state);
            }
        }
    }
}

/// vm-superio forgets a byte that waits once its guest has read IIR.
#[test]
fn a_byte_that_vm_superio_forgot_is_raised() {
    let state = SerialState {
        interrupt_enable: 0x01,
        interrupt_identification: 0x01,
        line_status: 0x61,
        in_buffer: b"a".to_vec(),
        ..SerialState::default()
    };
    assert!(!state.is_reachable());
    let (port, raised) = restored(&state, 0);
    let mut port = port.unwrap();
    assert_eq!(raised, 1);
    assert!(port.interrupt_line());
    assert_eq!([port.read(IIR), port.read(DATA)], [0xc4, b'a']);
    assert!(!port.interrupt_line());
}

/// vm-superio keeps what the guest has disabled since.
#[test]
fn what_vm_superio_kept_though_disabled_is_not_shown() {
    let state = SerialState {
        interrupt_enable: 0x00,
        interrupt_identification: 0x06,
        ..SerialState::default()
    };
    assert!(!state.is_reachable());
    let (port, raised) = restored(&state, 0);
    let mut port = port.unwrap();
    assert_eq!((raised, port.read(IIR)), (0, 0xc1));
    port.write(IER, 0x01).unwrap();
    assert!(!port.interrupt_line());
}

/// A state shows a bit for each active kind: vm-superio, which goes by these alone, raises what is due.
#[test]
fn a_state_shows_what_is_active() {
    for (ier, shown) in [(0x00, 0x01), (0x01, 0x04), (0x02, 0x02), (0x03, 0x06)] {
        let mut port = Serial::new(Line::default(), sink());
        port.enqueue_raw_bytes(b"a").unwrap();
        port.write(IER, ier).unwrap();
        assert_eq!(port.state().interrupt_identification, shown);
        assert!(port.state().is_reachable());
    }
}

#[test]
fn where_the_line_fails_there_is_no_port_and_no_further_raise() {
    assert_eq!(restored(&two_kinds(), 0).1, 2);
    for fails_at in [1, 2] {
        let (port, raised) = restored(&two_kinds(), fails_at);
        assert!(matches!(port, Err(Error::Trigger("the line is cut"))));
        assert_eq!(raised, fails_at);
    }
}

#[test]
fn a_65th_byte_is_refused() {
    let mut state = two_kinds();
    state.in_buffer = (0..64).collect();
    let (port, raised) = restored(&state, 0);
    assert_eq!((port.unwrap().state(), raised), (state.clone(), 2));
    for length in [65, 100_000] {
        state.in_buffer.resize(length, 0);
        let (port, raised) = restored(&state, 0);
        assert!(matches!(port, Err(Error::FullFifo)));
        assert_eq!(raised, 0);
        assert!(!state.is_reachable());
    }
}

#[test]
fn a_state_can_be_asked_whether_a_run_comes_to_it() {
    let changes: [fn(&mut SerialState); 9] = [
        |state| state.interrupt_enable = 0x10,
        |state| state.interrupt_identification = 0x00,
        |state| state.interrupt_identification = 0x07,
        |state| state.line_status = 0x60,
        |state| state.modem_status = 0x00,
        |state| state.in_buffer.clear(),
        // IIR shows what is not enabled, or does not show a byte that waits.
        |state| state.interrupt_enable = 0x02,
        |state| state.interrupt_identification = 0x01,
        |state| state.interrupt_identification = 0x02,
    ];
    assert!(two_kinds().is_reachable());
    for (number, change) in changes.iter().enumerate() {
        let mut state = two_kinds();
        change(&mut state);
        assert!(!state.is_reachable(), "{number}");
        assert_eq!(restored(&state, 0).0.unwrap().state(), state);
    }
}

#[test]
fn the_events_are_named() {
    let port = Serial::with_events(Line::default(), NoEvents, sink());
    let NoEvents = port.events();
    let clock = Rtc::with_events(NoRtcEvents);
    let NoRtcEvents = clock.events();
    assert_eq!(port.state(), SerialState::default());
    assert_eq!(clock.state(), RtcState::default());
}

// ---- The clock

fn shown(clock: &mut Rtc<NoRtcEvents>, time: u64, offset: u16) -> u32 {
    let mut data = [0; 4];
    assert!(clock.read_at(time, offset, &mut data));
    u32::from_le_bytes(data)
}

#[test]
fn the_default_is_a_fresh_clock() {
    let fresh = RtcState {
        lr: 0,
        offset: 0,
        mr: 0,
        imsc: 0,
        ris: 0,
    };
    assert_eq!(RtcState::default(), fresh);
    assert_eq!(Rtc::new().state(), fresh);
    assert!(fresh.is_reachable());
}

#[test]
fn a_clock_moves_to_another_host() {
    let mut here = Rtc::new();
    for (offset, value) in [(0x004, 77u32), (0x008, 5), (0x010, 1)] {
        here.write_at(1_000, offset, &value.to_le_bytes());
    }
    let state = RtcState {
        lr: 5,
        offset: -995,
        mr: 77,
        imsc: 1,
        ris: 0,
    };
    assert_eq!(here.state(), state);
    assert!(state.is_reachable());
    let mut there = Rtc::from_state(&state, NoRtcEvents);
    assert_eq!(there.state(), state);
    for (offset, value) in [(0x000, 15), (0x004, 77), (0x008, 5), (0x010, 1)] {
        assert_eq!(shown(&mut there, 1_010, offset), value);
    }
}

#[test]
fn a_raw_interrupt_is_masked_and_cleared() {
    let raw = RtcState {
        ris: 1,
        ..RtcState::default()
    };
    assert!(!raw.is_reachable());
    let mut clock = Rtc::from_state(&raw, NoRtcEvents);
    let statuses = |clock: &mut _| [shown(clock, 0, 0x014), shown(clock, 0, 0x018)];
    assert_eq!(statuses(&mut clock), [1, 0]);
    clock.write(0x010, &[1, 0, 0, 0]);
    assert_eq!(statuses(&mut clock), [1, 1]);
    clock.write(0x014, &[0; 4]);
    clock.write(0x018, &[0; 4]);
    assert_eq!(statuses(&mut clock), [1, 1]);
    clock.write(0x01c, &[1, 0, 0, 0]);
    assert_eq!(statuses(&mut clock), [0, 0]);
}

#[test]
fn a_huge_offset_is_kept_and_shows_the_hosts_time() {
    for offset in [i64::MAX, i64::MIN, 9_223_372_036_854_710_636] {
        let state = RtcState {
            lr: 65_535,
            offset,
            ..RtcState::default()
        };
        let mut clock = Rtc::from_state(&state, NoRtcEvents);
        assert_eq!(clock.state(), state);
        assert_eq!(shown(&mut clock, 1_000, 0x000), 1_000);
        assert!(!state.is_reachable());
    }
}

#[test]
fn an_offset_is_reached_if_the_clock_was_set_at_some_second() {
    let seconds = [
        (-1, false),
        (0, true),
        (0xffff_ffff, true),
        (1 << 32, false),
    ];
    for (second, reachable) in seconds {
        for lr in [0, 5, u32::MAX] {
            let state = RtcState {
                lr,
                offset: i64::from(lr) - second,
                ..RtcState::default()
            };
            assert_eq!(state.is_reachable(), reachable, "{lr} at {second}");
        }
    }
}
