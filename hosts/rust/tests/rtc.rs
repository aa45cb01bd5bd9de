//! The clock through its API.

use std::time::{SystemTime, UNIX_EPOCH};

use serialpost::rtc_pl031::NoEvents;
use serialpost::Rtc;

const RTCDR: u16 = 0x000;
const RTCMR: u16 = 0x004;
const RTCLR: u16 = 0x008;
const RTCCR: u16 = 0x00c;
const RTCIMSC: u16 = 0x010;
const RTCRIS: u16 = 0x014;
const RTCMIS: u16 = 0x018;
const RTCICR: u16 = 0x01c;

/// What the clock shows at `offset` at `time`; there must be something to read.
fn shown(clock: &mut Rtc<NoEvents>, time: u64, offset: u16) -> u32 {
    let mut data = [0xaa; 4];
    assert!(clock.read_at(time, offset, &mut data), "{offset:#x}");
    u32::from_le_bytes(data)
}

fn set(clock: &mut Rtc<NoEvents>, time: u64, offset: u16, value: u32) -> bool {
    clock.write_at(time, offset, &value.to_le_bytes())
}

fn host_time() -> u32 {
    let since = SystemTime::now().duration_since(UNIX_EPOCH);
    since.unwrap().as_secs() as u32
}

#[test]
fn a_fresh_clock_shows_the_hosts_time() {
    let before = host_time();
    let mut data = [0; 4];
    Rtc::new().read(RTCDR, &mut data);
    let shown = u32::from_le_bytes(data);
    assert!(before <= shown && shown <= host_time());
}

#[test]
fn a_clock_that_is_set_goes_on_from_there() {
    let mut clock = Rtc::new();
    let before = host_time();
    clock.write(RTCLR, &1_000u32.to_le_bytes());
    let mut data = [0; 4];
    clock.read(RTCDR, &mut data);
    assert!(u32::from_le_bytes(data) - 1_000 <= host_time() - before);
    clock.read(RTCLR, &mut data);
    assert_eq!(data, 1_000u32.to_le_bytes());
}

#[test]
fn time_passes() {
    let mut clock = Rtc::default();
    for time in [5, 6, 7, 4] {
        assert_eq!(shown(&mut clock, time, RTCDR), time as u32);
    }
    assert_eq!(shown(&mut clock, 0x1_0000_0005, RTCDR), 5);
}

#[test]
fn the_data_register_cannot_be_written() {
    let mut clock = Rtc::new();
    assert!(!set(&mut clock, 1_000, RTCDR, 5));
    assert_eq!(shown(&mut clock, 1_001, RTCDR), 1_001);
}

#[test]
fn the_match_register_keeps_what_is_written() {
    let mut clock = Rtc::new();
    assert!(set(&mut clock, 0, RTCMR, 123));
    assert_eq!(shown(&mut clock, 200, RTCMR), 123);
    assert_eq!(shown(&mut clock, 200, RTCRIS), 0);
}

#[test]
fn the_load_register_sets_the_clock_forward_and_back() {
    let mut clock = Rtc::new();
    for value in [1_100, 900, u32::MAX, 0] {
        assert!(set(&mut clock, 1_000, RTCLR, value));
        assert_eq!(shown(&mut clock, 1_000, RTCLR), value);
        assert_eq!(shown(&mut clock, 1_000, RTCDR), value);
    }
    assert_eq!(shown(&mut clock, 1_003, RTCDR), 3);
}

#[test]
fn a_sum_that_does_not_fit_is_the_hosts_time() {
    let mut clock = Rtc::new();
    set(&mut clock, 1_000, RTCLR, u32::MAX);
    assert_eq!(shown(&mut clock, 1_001, RTCDR), 1_001);
    set(&mut clock, 1_000, RTCLR, 0);
    assert_eq!(shown(&mut clock, 990, RTCDR), 990);
}

#[test]
fn a_control_write_of_1_goes_back_to_the_hosts_time() {
    let mut clock = Rtc::new();
    set(&mut clock, 1_000, RTCLR, 1_100);
    assert!(set(&mut clock, 1_000, RTCCR, 0));
    assert_eq!(shown(&mut clock, 1_000, RTCDR), 1_100);
    assert!(set(&mut clock, 1_000, RTCCR, 1));
    assert_eq!(shown(&mut clock, 1_000, RTCDR), 1_000);
    assert_eq!(shown(&mut clock, 1_002, RTCDR), 1_002);
    assert_eq!(shown(&mut clock, 1_000, RTCLR), 0);
    set(&mut clock, 1_000, RTCCR, 0);
    assert_eq!(shown(&mut clock, 1_000, RTCCR), 1);
}

#[test]
fn the_mask_is_one_bit() {
    let mut clock = Rtc::new();
    for (written, kept) in [(1, 1), (0, 0), (3, 1), (0xffff_fffe, 0)] {
        assert!(set(&mut clock, 0, RTCIMSC, written));
        assert_eq!(shown(&mut clock, 0, RTCIMSC), kept);
    }
}

#[test]
fn the_status_registers_cannot_be_written() {
    let mut clock = Rtc::new();
    set(&mut clock, 0, RTCIMSC, 1);
    for offset in [RTCRIS, RTCMIS] {
        assert!(!set(&mut clock, 0, offset, 1));
        assert_eq!(shown(&mut clock, 0, offset), 0);
    }
    assert!(set(&mut clock, 0, RTCICR, 1));
}

#[test]
fn the_clock_says_what_it_is() {
    let mut clock = Rtc::new();
    let ids = [0x31, 0x10, 0x04, 0x00, 0x0d, 0xf0, 0x05, 0xb1];
    for offset in 0xfe0..=0xfff {
        let id = ids[usize::from(offset - 0xfe0) / 4];
        assert_eq!(shown(&mut clock, 0, offset), id, "{offset:#x}");
        assert!(!set(&mut clock, 0, offset, 123));
        assert_eq!(shown(&mut clock, 0, offset), id, "{offset:#x}");
    }
}

#[test]
fn a_read_of_nothing_leaves_the_bytes() {
    let mut clock = Rtc::new();
    for offset in [RTCICR, 0x001, 0x020, 0xfdf, 0x1000, 0x1003, 0xffff] {
        let mut data = [1, 2, 3, 4];
        assert!(!clock.read_at(1_000, offset, &mut data));
        clock.read(offset, &mut data);
        assert_eq!(data, [1, 2, 3, 4], "{offset:#x}");
    }
}

#[test]
fn a_write_of_nothing_changes_nothing() {
    let mut clock = Rtc::new();
    for offset in [RTCLR + 1, 0x020, 0x1003, 0xffff] {
        assert!(!set(&mut clock, 1_000, offset, 123));
        assert_eq!(shown(&mut clock, 1_000, RTCDR), 1_000, "{offset:#x}");
    }
}
