//! The rows: where vm-superio's serial port and ours answer differently, and nowhere else.
//!
//! Both run side by side. Their settings, line status and waiting bytes are always the same; only IIR as it is
//! stored differs, and so what a read of it answers, and how often an interrupt is raised. Where FCR empties the
//! receiver of ours vm-superio keeps what waits: there its guest reads it (`Driver::fetching`), and they are the same
//! again.

use crate::account::ours::is_active;
use crate::account::serial::KINDS;
use crate::account::Account;
use crate::devices::{flushes, SerialState, IIR};
use crate::driver::Driver;
use crate::format::{parse, Operation, Operation::*};

/// How many rows there are.
pub const ROWS: usize = 17;

/// The rows that an operation is in, where both ports are so before it.
#[rustfmt::skip]
fn rows(asked: &Operation, original: &SerialState, ours: &SerialState) -> Vec<&'static str> {
    let [data, transmitter] = KINDS.map(|kind| is_active(kind, ours));
    let [data_enabled, transmitter_enabled] = KINDS.map(|kind| kind.is_enabled(ours));
    let [data_marked, transmitter_marked] = KINDS.map(|kind| kind.is_marked(original));
    let data_forgotten = data && !data_marked;
    let transmitter_forgotten = transmitter && !transmitter_marked;
    let (waits, room) = (ours.waits(), ours.room() > 0);
    // The first byte comes, and the original has it marked already.
    let comes_marked = data_enabled && !waits && data_marked;
    let rows = match *asked {
        ReadByte(2) => vec![
            ("original-strange-iir", ![1, 2, 4, 6].contains(&(original.registers[IIR] & 0x3f))),
            ("original-two-kinds", data_marked && transmitter_marked),
            ("original-forgotten-data", data_forgotten),
            ("original-stale-data", data_marked && !transmitter_marked && !data),
            ("original-stale-transmitter", transmitter_marked && !data_marked && !transmitter),
            ("original-forgotten-transmitter", transmitter_forgotten && !data_marked),
        ],
        WriteByte(0..=1, _) if ours.divisor_is_open() => vec![],
        WriteByte(0, _) if !ours.loops() => vec![("original-sends-again", transmitter_forgotten)],
        WriteByte(0, _) => {
            let signals = transmitter_enabled && !transmitter;
            let again = room && data_forgotten;
            vec![
                ("original-loop-transmitter", signals && !again),
                ("original-loop-data-again", again && !signals),
                ("original-loop-data-quiet", room && comes_marked),
            ]
        }
        WriteByte(1, value) => {
            let [enables_data, enables_transmitter] = KINDS.map(|kind| value & kind.enabled != 0);
            let marked_data = enables_data && waits && !data_enabled && data_marked;
            let data_again = enables_data && data_forgotten;
            let marked_transmitter = enables_transmitter && !transmitter && transmitter_marked;
            let transmitter_again = enables_transmitter && transmitter_forgotten;
            vec![
                ("original-quiet-data", marked_data && !transmitter_again),
                ("original-enables-data-again", data_again && !marked_transmitter),
                ("original-quiet-transmitter", marked_transmitter && !data_again),
                ("original-enables-transmitter-again", transmitter_again && !marked_data),
            ]
        }
        WriteByte(offset, value) => {
            vec![("original-keeps-fifo", flushes(offset, value) && ours.is_to_empty())]
        }
        Input(ref bytes) if !bytes.is_empty() && !ours.loops() && room => vec![
            ("original-data-again", data_forgotten),
            ("original-data-quiet", comes_marked),
        ],
        _ => vec![],
    };
    rows.into_iter().filter(|(_, is_in)| *is_in).map(|(name, _)| name).collect()
}

/// Both accounts, run along a list.
pub struct Sides {
    original: Driver<Account>,
    ours: Driver<Account>,
}

impl Default for Sides {
    fn default() -> Self {
        Sides {
            original: Driver::fetching(Account::Original),
            ours: Driver::new(Account::Ours),
        }
    }
}

impl Sides {
    /// The rows that a line, asked next, is in.
    pub fn rows(&self, line: &[u8]) -> Vec<&'static str> {
        match (parse(line), self.original.port(), self.ours.port()) {
            (Some(asked), Some(original), Some(ours)) => rows(&asked, &original, &ours),
            _ => Vec::new(),
        }
    }

    /// Goes on by a line. Answers what both accounts answer.
    pub fn go_on(&mut self, line: &[u8]) -> [Vec<u8>; 2] {
        [self.original.answer(line), self.ours.answer(line)]
    }

    /// Goes on by a line to which these answers were given, by the original and by ours, and tells what is
    /// wrong with them, if something is.
    pub fn fault(&mut self, line: &[u8], answers: [&[u8]; 2]) -> Option<String> {
        let asked = parse(line).filter(|_| self.ours.port().is_some());
        let rows = self.rows(line).join(", ");
        let accounts = self.go_on(line);
        let accounts = [&accounts[0][..], &accounts[1]];
        let differing = differing_words(answers);
        let (is_right, place) = match asked {
            Some(Line) => (answers == accounts, "the line"),
            // How many bytes were thrown away, which the original does not tell, also where it was none.
            Some(WriteByte(offset, value)) if flushes(offset, value) => {
                (answers == accounts, "a flush")
            }
            Some(State | Save) => (differing.iter().all(|&place| place == 4), "a state"),
            Some(asked) if asked.brings_back() => {
                (differing == differing_words(accounts), "a restore")
            }
            _ if rows.is_empty() => (answers[0] == answers[1], "no row"),
            Some(ReadByte(_)) => (differing == [1], &rows[..]),
            _ => (differing == [2], &rows[..]),
        };
        let how = ["different", "alike"][usize::from(differing.is_empty())];
        (!is_right).then(|| format!("{how} in {place}"))
    }
}

/// The places of the words that are not the same. Whether a port could have been reached is not compared:
/// the original does not tell.
fn differing_words(answers: [&[u8]; 2]) -> Vec<usize> {
    let [left, right] = answers.map(|answer| {
        let words = answer.split(|&byte| byte == b' ');
        let words = words.map(|word| word.strip_prefix(b"un").unwrap_or(word));
        words.collect::<Vec<&[u8]>>()
    });
    let places = 0..left.len().max(right.len());
    places
        .filter(|&place| left.get(place) != right.get(place))
        .collect()
}
