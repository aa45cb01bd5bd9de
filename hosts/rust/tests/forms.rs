//! States as bytes, through the API, and the recorded forms.

use std::error::Error as _;
use std::fs;
use std::path::Path;

use serialpost::{FormError, FullSerialState, RtcState, SerialState};

/// A console at which someone types, and its form as docs/STATE-FORMAT.md shows it.
fn typed() -> (SerialState, Vec<u8>) {
    let state = SerialState {
        interrupt_enable: 0x01,
        interrupt_identification: 0x04,
        line_status: 0x61,
        in_buffer: b"ls\n".to_vec(),
        ..SerialState::default()
    };
    let registers = [0x0c, 0x01, 0x04, 0x03, 0x08, 0x61, 0xb0, 0x00, 0x00];
    let (fcr, size) = (0x00, 0x00);
    let form = [&[3, 0], &registers[..], &[fcr, size], &[3, 0], b"ls\n"].concat();
    (state, form)
}

/// A clock that was loaded with 5 at the second 1,000.
fn set_back() -> (RtcState, Vec<u8>) {
    let state = RtcState {
        lr: 5,
        offset: -995,
        mr: 77,
        imsc: 1,
        ris: 0,
    };
    let mut form = vec![1, 0];
    for word in [5u32, 77, 1, 0] {
        form.extend(word.to_le_bytes());
    }
    form.extend((-995i64).to_le_bytes());
    (state, form)
}

#[test]
fn a_port_is_written_and_read() {
    let (state, form) = typed();
    assert_eq!(state.to_bytes(), Ok(form.clone()));
    assert_eq!(SerialState::from_bytes(&form), Ok(state));
}

#[test]
fn a_clock_is_written_and_read() {
    let (state, form) = set_back();
    assert_eq!(state.to_bytes(), Ok(form.clone()));
    assert_eq!(RtcState::from_bytes(&form), Ok(state));
}

#[test]
fn a_65th_byte_has_no_form() {
    let mut state = typed().0;
    state.in_buffer = (0..64).collect();
    let form = state.to_bytes().unwrap();
    assert_eq!(form.len(), 79);
    assert_eq!(SerialState::from_bytes(&form), Ok(state.clone()));
    state.in_buffer.push(64);
    assert_eq!(state.to_bytes(), Err(FormError::TooManyBytes));
}

#[test]
fn every_offset_has_a_form() {
    let ends_of_33 = [(-1 << 32) - 1, -1 << 32, (1 << 32) - 1, 1 << 32];
    let ends_of_64 = [i64::MIN, i64::MIN + 1, i64::MAX - 1, i64::MAX];
    for offset in ends_of_33.into_iter().chain(ends_of_64) {
        let state = RtcState {
            offset,
            ..RtcState::default()
        };
        let form = state.to_bytes().unwrap();
        assert_eq!(form[18..], offset.to_le_bytes());
        assert_eq!(RtcState::from_bytes(&form), Ok(state));
    }
}

#[test]
fn what_is_cut_or_lengthened_is_refused() {
    let refusals = |form: Vec<u8>, read: &dyn Fn(&[u8]) -> Option<FormError>| {
        for length in 0..form.len() {
            assert_eq!(read(&form[..length]), Some(FormError::TooShort), "{length}");
        }
        let longer = [&form[..], &[0]].concat();
        assert_eq!(read(&longer), Some(FormError::TrailingBytes));
        assert_eq!(read(&[9, 0]), Some(FormError::Version));
    };
    refusals(typed().1, &|form| SerialState::from_bytes(form).err());
    refusals(set_back().1, &|form| RtcState::from_bytes(form).err());
}

#[test]
fn errors_say_what_is_wrong() {
    let errors = [
        (FormError::TooShort, "the form ends too early"),
        (FormError::TrailingBytes, "bytes follow the form"),
        (
            FormError::Version,
            "the form has a version that is not known",
        ),
        (
            FormError::TooManyBytes,
            "more bytes wait in a port than its size",
        ),
        (FormError::Spare, "a spare byte or word is not 0"),
        (
            FormError::Size,
            "the port has a size that the state cannot tell",
        ),
    ];
    for (error, words) in errors {
        assert_eq!(error.to_string(), words);
        assert!(error.source().is_none());
    }
}

// ---- compare/recorded/forms.txt

fn bytes(digits: &str) -> Vec<u8> {
    let byte = |pair| u8::from_str_radix(&digits[pair..pair + 2], 16).unwrap();
    match digits {
        "-" => Vec::new(),
        _ => (0..digits.len()).step_by(2).map(byte).collect(),
    }
}

fn hex(bytes: &[u8]) -> String {
    match bytes {
        [] => "-".to_string(),
        _ => bytes.iter().map(|byte| format!("{byte:02x}")).collect(),
    }
}

fn reason(error: FormError) -> String {
    let words = match error {
        FormError::TooShort => "too short",
        FormError::TrailingBytes => "trailing",
        FormError::Version => "version",
        FormError::TooManyBytes => "too many",
        FormError::Spare => "spare",
        FormError::Size => "size",
    };
    words.to_string()
}

/// The state in the words of docs/REPLAY.md, of a port FCR and the size behind it; or the reason.
fn read(device: &str, form: &[u8]) -> String {
    match device {
        "serial" => FullSerialState::from_bytes(form).map_or_else(reason, |full| {
            let s = &full.state;
            let registers = [
                s.baud_divisor_low,
                s.baud_divisor_high,
                s.interrupt_enable,
                s.interrupt_identification,
                s.line_control,
                s.line_status,
                s.modem_control,
                s.modem_status,
                s.scratch,
            ]
            .map(|register| format!("{register:02x}"))
            .join(" ");
            let waiting = format!("{} {}", s.in_buffer.len(), hex(&s.in_buffer));
            let (fcr, size) = (full.fifo_control, full.size.bytes());
            format!("state {registers} {waiting} {fcr:02x} {size}")
        }),
        "clock" => RtcState::from_bytes(form).map_or_else(reason, |s| {
            format!(
                "state {:08x} {:016x} {:08x} {:08x} {:08x}",
                s.lr, s.offset, s.mr, s.imsc, s.ris
            )
        }),
        _ => panic!("what is {device}?"),
    }
}

#[test]
fn the_recorded_forms_are_read_as_recorded() {
    let path = "../../compare/recorded/forms.txt";
    let recorded =
        fs::read_to_string(Path::new(env!("CARGO_MANIFEST_DIR")).join(path)).expect(path);
    let lines = recorded.lines();
    let mut read_lines = 0;
    for line in lines.filter(|line| !line.is_empty() && !line.starts_with('#')) {
        let (form, answer) = line.split_once(" => ").expect(line);
        let (device, digits) = form.split_once(' ').expect(line);
        assert_eq!(read(device, &bytes(digits)), answer, "{line}");
        read_lines += 1;
    }
    assert!(read_lines > 50);
}
