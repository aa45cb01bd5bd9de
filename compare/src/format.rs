//! The replay format: a line of a list and the operation it asks for, and how lines are written.

use crate::devices::{ClockState, SerialState, Written};

/// A line longer than this many bytes, its ending not counted, is no operation.
pub const LONGEST_LINE: usize = 8192;

#[derive(Clone, Copy, Debug, PartialEq, Eq)]
pub enum Device {
    Serial,
    Clock,
    I8042,
}

impl Device {
    pub const ALL: [Device; 3] = [Device::Serial, Device::Clock, Device::I8042];

    pub fn word(self) -> &'static str {
        match self {
            Device::Serial => "serial",
            Device::Clock => "clock",
            Device::I8042 => "i8042",
        }
    }
}

/// What a line asks for. Which device it speaks to follows from its shape, but for `State`, `Save`,
/// `Counters` and `Restore` of what was saved last, which two devices have, and for single bytes, which are
/// the serial port's or the reset controller's. An offset comes first, then what is written or held there.
#[derive(Clone, Debug, PartialEq, Eq)]
pub enum Operation {
    Start(Device),
    /// A serial port of this size.
    StartOf(usize),
    WriteByte(u8, u8),
    ReadByte(u8),
    Input(Vec<u8>),
    Room,
    Line,
    Lost,
    Counters,
    State,
    Save,
    Restore,
    RestoreSerial(SerialState),
    RestoreClock(ClockState),
    Now(u64),
    WriteWord(u16, [u8; 4]),
    ReadWord(u16, [u8; 4]),
}
use Operation::*;

impl Operation {
    pub fn brings_back(&self) -> bool {
        matches!(self, Restore | RestoreSerial(_) | RestoreClock(_))
    }
}

/// Whether a line gets no answer at all. This comes before the limit on its length: a comment may be
/// as long as it likes.
pub fn is_passed_over(line: &[u8]) -> bool {
    line.is_empty() || line[0] == b'#'
}

/// The lines of a list that get an answer, in order.
pub fn asking_lines(list: &[u8]) -> impl Iterator<Item = &[u8]> {
    list.split(|&byte| byte == b'\n')
        .filter(|line| !is_passed_over(line))
}

/// Whether a line starts a fresh device.
pub fn is_start(line: &[u8]) -> bool {
    matches!(parse(line), Some(Start(_) | StartOf(_)))
}

/// The operation that a line asks for, or none if the line is malformed.
pub fn parse(line: &[u8]) -> Option<Operation> {
    if line.len() > LONGEST_LINE {
        return None;
    }
    let mut words = [&line[..0]; 11];
    let mut count = 0;
    for word in line.split(|&byte| byte == b' ') {
        *words.get_mut(count)? = word;
        count += 1;
    }
    let operation = match words[..count] {
        [b"serial"] => Start(Device::Serial),
        [b"serial", digits] => StartOf(size(digits)?),
        [b"clock"] => Start(Device::Clock),
        [b"i8042"] => Start(Device::I8042),
        [b"room"] => Room,
        [b"line"] => Line,
        [b"lost"] => Lost,
        [b"counters"] => Counters,
        [b"state"] => State,
        [b"save"] => Save,
        [b"now", time] => Now(decimal(time)?),
        [b"b"] => Input(Vec::new()),
        [b"b", digits] => Input(some_bytes(digits)?),
        [b"r", offset] => ReadByte(byte(offset)?),
        [b"r", offset, data] => ReadWord(u16::from_be_bytes(bytes(offset)?), bytes(data)?),
        [b"w", offset, value] if offset.len() == 2 => WriteByte(byte(offset)?, byte(value)?),
        [b"w", offset, data] => WriteWord(u16::from_be_bytes(bytes(offset)?), bytes(data)?),
        [b"restore"] => Restore,
        [b"restore", load, offset, match_, mask, raw] => RestoreClock(ClockState {
            load: u32::from_be_bytes(bytes(load)?),
            offset: i64::from_be_bytes(bytes(offset)?),
            match_: u32::from_be_bytes(bytes(match_)?),
            mask: u32::from_be_bytes(bytes(mask)?),
            raw: u32::from_be_bytes(bytes(raw)?),
        }),
        [b"restore", ref registers @ .., waiting] => RestoreSerial(SerialState {
            registers: each_a_byte(registers)?,
            buffer: match waiting {
                b"-" => Vec::new(),
                digits => some_bytes(digits)?,
            },
            size: SerialState::SIZE,
            fcr: 0,
        }),
        _ => return None,
    };
    Some(operation)
}

/// Exactly one digit, lower-case.
fn digit(character: u8) -> Option<u8> {
    match character {
        b'0'..=b'9' => Some(character - b'0'),
        b'a'..=b'f' => Some(character - b'a' + 10),
        _ => None,
    }
}

/// Exactly two digits.
fn byte(digits: &[u8]) -> Option<u8> {
    match digits {
        [high, low] => Some(digit(*high)? << 4 | digit(*low)?),
        _ => None,
    }
}

/// Exactly two digits for each of N bytes, in memory order.
fn bytes<const N: usize>(digits: &[u8]) -> Option<[u8; N]> {
    let mut bytes = [0; N];
    for (target, pair) in bytes.iter_mut().zip(digits.chunks(2)) {
        *target = byte(pair)?;
    }
    (digits.len() == 2 * N).then_some(bytes)
}

/// Nine bytes, each a word of its own.
fn each_a_byte(words: &[&[u8]]) -> Option<[u8; 9]> {
    let values: Option<Vec<u8>> = words.iter().map(|digits| byte(digits)).collect();
    values?.try_into().ok()
}

/// One byte or more. (An odd number of digits leaves a last chunk of one, which is no byte.)
fn some_bytes(digits: &[u8]) -> Option<Vec<u8>> {
    let values: Option<Vec<u8>> = digits.chunks(2).map(byte).collect();
    values.filter(|values| !values.is_empty())
}

/// One of the sizes of a port, as it is usually written.
fn size(digits: &[u8]) -> Option<usize> {
    let mut sizes = SerialState::SIZES.into_iter();
    sizes.find(|size| size.to_string().as_bytes() == digits)
}

/// One decimal digit or more, leading zeros allowed, for a number below 2^64.
fn decimal(digits: &[u8]) -> Option<u64> {
    if !digits.iter().all(u8::is_ascii_digit) {
        return None;
    }
    std::str::from_utf8(digits).ok()?.parse().ok()
}

/// A line that is being written: words with a space between. By hand and not through std::fmt: a list
/// has millions of lines.
pub struct Words(pub Vec<u8>);

impl Words {
    pub fn start(word: &str) -> Self {
        Words(Vec::with_capacity(64)).word(word)
    }

    pub fn word(mut self, word: &str) -> Self {
        if !self.0.is_empty() {
            self.0.push(b' ');
        }
        self.0.extend_from_slice(word.as_bytes());
        self
    }

    pub fn number(self, number: usize) -> Self {
        match number {
            0 => self.word("0"),
            1 => self.word("1"),
            _ => self.word(&number.to_string()),
        }
    }

    /// What a write did, as its answer tells it.
    pub fn written(self, written: Written) -> Self {
        match written {
            Written::Quietly => self.word("--"),
            Written::Sent(byte) => self.hex(&[byte]),
            Written::Flushed(count) => self.word(&format!("-{count}")),
        }
    }

    pub fn hex(self, bytes: &[u8]) -> Self {
        const DIGITS: &[u8; 16] = b"0123456789abcdef";
        let mut words = self.word("");
        words.0.reserve(2 * bytes.len());
        for byte in bytes {
            words
                .0
                .extend([byte >> 4, byte & 0x0f].map(|digit| DIGITS[usize::from(digit)]));
        }
        words
    }

    pub fn numbers(self, numbers: &[usize]) -> Self {
        numbers
            .iter()
            .fold(self, |words, &number| words.number(number))
    }

    pub fn registers(self, state: &SerialState) -> Self {
        let registers = state.registers.iter();
        registers.fold(self, |words, register| words.hex(&[*register]))
    }

    pub fn waiting(self, state: &SerialState) -> Self {
        match &state.buffer[..] {
            [] => self.word("-"),
            buffer => self.hex(buffer),
        }
    }

    pub fn clock(self, state: &ClockState) -> Self {
        let words = self.hex(&state.load.to_be_bytes());
        let words = words.hex(&state.offset.to_be_bytes());
        let registers = [state.match_, state.mask, state.raw];
        registers
            .iter()
            .fold(words, |words, register| words.hex(&register.to_be_bytes()))
    }
}

#[cfg(test)]
mod tests {
    use super::*;
    use crate::generate::format_cases::WELL_FORMED;
    use crate::generate::malformed;

    #[test]
    fn well_formed_lines_are_read_and_malformed_ones_are_not() {
        for line in WELL_FORMED.lines() {
            assert!(parse(line.as_bytes()).is_some(), "{line}");
        }
        for lines in [
            malformed::LINES,
            malformed::SAVES,
            malformed::SIZES,
            malformed::ABOUT_THE_LINE,
            malformed::ABOUT_COUNTERS,
        ] {
            for line in lines {
                assert_eq!(parse(line), None, "{}", line.escape_ascii());
            }
        }
    }

    #[test]
    fn a_line_is_read_in_the_order_of_its_words() {
        let data = [0xaa, 0xbb, 0xcc, 0xdd];
        assert_eq!(parse(b"w 0102 aabbccdd"), Some(WriteWord(0x0102, data)));
        assert_eq!(parse(b"w 01 02"), Some(WriteByte(1, 2)));
        assert_eq!(parse(b"b 0a0b"), Some(Input(vec![0x0a, 0x0b])));
        assert_eq!(parse(b"now 0018446744073709551615"), Some(Now(u64::MAX)));
        let port = SerialState {
            registers: [1, 2, 3, 4, 5, 6, 7, 8, 9],
            buffer: vec![0x0a, 0x0b],
            size: SerialState::SIZE,
            fcr: 0,
        };
        let line = b"restore 01 02 03 04 05 06 07 08 09 0a0b";
        let written = Words::start("restore").registers(&port).waiting(&port);
        assert_eq!(written.0, line);
        assert_eq!(parse(line), Some(RestoreSerial(port)));
        let clock = ClockState {
            load: 1,
            offset: -2,
            match_: 3,
            mask: 4,
            raw: 5,
        };
        let line = b"restore 00000001 fffffffffffffffe 00000003 00000004 00000005";
        assert_eq!(Words::start("restore").clock(&clock).0, line);
        assert_eq!(parse(line), Some(RestoreClock(clock)));
    }

    #[test]
    fn a_port_is_made_with_seven_sizes_and_no_others() {
        for number in 0..=2048 {
            let made = SerialState::SIZES.contains(&number);
            let expected = made.then_some(StartOf(number));
            assert_eq!(parse(format!("serial {number}").as_bytes()), expected);
            assert_eq!(parse(format!("serial 0{number}").as_bytes()), None);
        }
    }

    #[test]
    fn the_longest_line_is_8192_bytes() {
        for (start, padding) in [("b ", "55"), ("now ", "0")] {
            let is_read = |length: usize| {
                let padding = padding.repeat((length - start.len()) / padding.len());
                parse(format!("{start}{padding}").as_bytes()).is_some()
            };
            assert!(is_read(8192));
            assert!(!is_read(8192 + padding.len()));
        }
    }

    #[test]
    fn empty_lines_and_comments_get_no_answer() {
        let long = format!("#{}\n", "x".repeat(10_000));
        let list = format!("\n# a comment\nserial\n\n{long} #\n#\nroom");
        let asking: Vec<&[u8]> = asking_lines(list.as_bytes()).collect();
        assert_eq!(asking, [&b"serial"[..], b" #", b"room"]);
        assert_eq!(asking_lines(b"").count(), 0);
    }
}
