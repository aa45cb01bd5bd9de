//! The account with one fault planted in it, to see that the judge finds it. What the account answers to
//! a line, the state that it leaves the device in, or what it counts, is changed for the worse.

use crate::account::ours::is_active;
use crate::account::serial::{
    Kind, IIR_NONE, KINDS, LSR_DATA_READY, RECEIVED_DATA, TRANSMITTER_EMPTY,
};
use crate::account::{clock::cut, reached, Account};
use crate::devices::{flushes, ClockState, SerialState, IIR, LSR, SCR};
use crate::driver::Driver;
use crate::format::{asking_lines, is_start, parse, Device, Operation, Operation::*, Words};

const SERIAL: Option<Device> = Some(Device::Serial);
const CLOCK: Option<Device> = Some(Device::Clock);
const I8042: Option<Device> = Some(Device::I8042);

/// Each fault with the device it is in (or none, if it is in what reads lines and drives the devices), the
/// name it is asked for by, and what is wrong. A name that is misspelled below plants nothing, and the
/// tests that look for the fault fail.
#[rustfmt::skip]
pub const FAULTS: [(Option<Device>, &str, &str); 69] = [
    (SERIAL, "byte-65-replaces", "in loopback a byte that finds no room takes the place of the last one"),
    (SERIAL, "data-ready-stays", "LSR says that data is ready after the last byte was read"),
    (SERIAL, "data-ready-goes-early", "LSR says that no data is ready while bytes wait"),
    (SERIAL, "empty-input-raises", "a bulk input of 0 bytes raises an interrupt"),
    (SERIAL, "full-takes-none", "a full buffer takes 0 bytes instead of refusing"),
    (SERIAL, "wires-swapped", "in loopback CTS follows DTR, and DSR follows RTS"),
    (SERIAL, "fresh-port-remembers", "a fresh port has the scratch register of the one before"),
    (SERIAL, "raises-again", "received data is raised again though it is active"),
    (SERIAL, "sends-again", "a byte sent raises the transmitter's interrupt though it is active"),
    (SERIAL, "loop-sends-quietly", "a byte written in loopback does not signal the empty transmitter"),
    (SERIAL, "enable-forgets-raise", "a write of IER does not raise received data"),
    (SERIAL, "enable-signals-once", "a write of IER that leaves the transmitter enabled does not signal"),
    (SERIAL, "priority-swapped", "of two kinds IIR shows the empty transmitter"),
    (SERIAL, "two-at-once", "of two kinds IIR shows both"),
    (SERIAL, "disabled-is-shown", "IIR shows received data that is not enabled"),
    (SERIAL, "identify-keeps", "reading IIR does not reset the transmitter's interrupt"),
    (SERIAL, "identify-resets-unseen", "reading IIR resets the transmitter's interrupt though it answers received data"),
    (SERIAL, "fetch-resets", "reading the last byte resets the transmitter's interrupt"),
    (SERIAL, "line-falls-early", "the line is low while received data is active alone"),
    (SERIAL, "line-stays", "the line is high while a byte waits that is not enabled"),
    (SERIAL, "restore-drops-byte", "the last byte of a state is not brought back"),
    (SERIAL, "restore-forgets-raise", "where both kinds are to be raised again, only one is"),
    (SERIAL, "restore-doubles-raise", "received data is raised again twice"),
    (SERIAL, "restore-raises-mark", "received data is raised again where it is marked and no byte waits"),
    (SERIAL, "restore-accepts-65", "of a state with 65 bytes 64 are brought back"),
    (SERIAL, "refusal-changes", "a state that is refused changes the scratch register"),
    (SERIAL, "reached-without-byte", "received data may be marked though no byte waits"),
    (SERIAL, "reached-disabled", "the transmitter may be marked though it is not enabled"),
    (SERIAL, "empty-read-not-counted", "a read of RBR that finds no byte is not counted"),
    (SERIAL, "stays-empty-not-counted", "a read of RBR that finds no byte does not count as one that leaves none"),
    (SERIAL, "last-of-two-not-counted", "that no byte is left is not counted where the read before left one"),
    (SERIAL, "divisor-read-counted", "a read of the divisor counts as one of RBR"),
    (SERIAL, "loop-counted-sent", "a byte written in loopback counts as sent"),
    (SERIAL, "lost-counted-twice", "a lost byte is counted twice"),
    (SERIAL, "lost-not-sent", "a lost byte does not count as sent"),
    (SERIAL, "lost-not-believed", "a lost byte is not counted where none was sent"),
    (SERIAL, "restore-forgets-counters", "a port that is brought back counts from 0"),
    (SERIAL, "fresh-port-counts-on", "a fresh port counts on from the one before"),
    (SERIAL, "flush-does-nothing", "FCR 0x02 does nothing, as in vm-superio"),
    (SERIAL, "flush-needs-enable", "FCR 0x02 empties the receiver only with 0x01"),
    (SERIAL, "flush-by-04", "FCR 0x04 empties the receiver, too"),
    (SERIAL, "flush-by-change", "FCR 0x01 written as 0 empties the receiver, too"),
    (SERIAL, "flush-not-with-divisor", "FCR 0x02 does nothing while the divisor is open"),
    (SERIAL, "flush-keeps-data-ready", "LSR says that data is ready after a flush"),
    (SERIAL, "flush-keeps-line", "the line stays high after a flush"),
    (SERIAL, "flush-keeps-shown", "IIR shows received data after a flush"),
    (SERIAL, "flush-keeps-mark", "IIR as it is stored has received data marked after a flush"),
    (SERIAL, "flush-keeps-byte", "the last byte still waits after a flush"),
    (SERIAL, "flush-resets", "a flush resets the transmitter's interrupt"),
    (SERIAL, "flush-raises", "a flush raises an interrupt"),
    (SERIAL, "flush-told-one-less", "a flush tells one byte less than it threw away"),
    (SERIAL, "empty-flush-not-told", "a flush that finds no byte is answered as any write"),
    (SERIAL, "flush-counted-read", "each byte that is thrown away counts as a read of RBR"),
    (SERIAL, "flush-counted-empty", "a flush counts as a read of RBR that leaves none"),
    (CLOCK, "sum-wraps", "a time that does not fit 32 bits wraps around"),
    (CLOCK, "clear-read-zeroes", "a read of 0x1c writes zeros into the caller's bytes"),
    (CLOCK, "identity-unaligned", "identity bytes answer at multiples of four only"),
    (CLOCK, "time-not-cut", "the clock is set from the host's time in 64 bits"),
    (CLOCK, "restore-cuts-offset", "of an offset 33 bits are brought back"),
    (CLOCK, "restore-clears-status", "the raw status is not brought back"),
    (CLOCK, "reached-too-far", "a clock may be 2^32 seconds behind its load register"),
    (CLOCK, "invalid-write-counted-read", "an invalid write counts as an invalid read"),
    (CLOCK, "restore-forgets-invalid", "a clock that is brought back counts from 0"),
    (CLOCK, "fresh-clock-counts-on", "a fresh clock counts on from the one before"),
    (I8042, "resets-on-ff", "0xff at offset 4 resets the machine too"),
    (I8042, "resets-on-data-port", "0xfe at offset 0 resets the machine too"),
    (None, "reads-upper-case", "letters of a line may be upper-case"),
    (None, "fresh-forgets-kept", "a fresh device forgets what was saved"),
    (None, "made-up-is-kept", "a state that a line gives is kept, too"),
];

/// The same of a port's size, which vm-superio's has not. Those of the usual size show beside it all the same.
#[rustfmt::skip]
pub const SIZE_FAULTS: [(&str, &str); 18] = [
    ("64-holds-63", "63 bytes can wait in a port of 64"),
    ("64-holds-65", "65 bytes can wait in a port of 64"),
    ("16-holds-64", "64 bytes can wait in a port of 16"),
    ("1024-holds-1023", "1,023 bytes can wait in a port of 1,024"),
    ("wraps-at-64", "in a port of 1,024 a byte lies where the one 64 before it lay"),
    ("loop-holds-64", "in loopback the 65th byte is dropped, whatever the size"),
    ("makes-48", "`serial 48` makes a port"),
    ("makes-low-half", "of the number behind `serial` the lower 16 bits count"),
    ("refusal-makes", "a size that is refused makes a port of the usual one"),
    ("size-not-answered", "a port with a size is answered `serial`"),
    ("fresh-port-keeps-size", "`serial` makes a port of the size that the one before had"),
    ("restore-forgets-size", "a port that is brought back has the usual size"),
    ("restore-keeps-size", "a port that is brought back has the size that the one before had"),
    ("given-keeps-size", "a state that a line gives has the size that the port had before"),
    ("restore-refuses-65", "a saved port with 65 bytes is refused, whatever its size"),
    ("reached-of-64", "a port with another size than 64 is not said to be reached"),
    ("flush-told-low-byte", "of the number of bytes thrown away the lower 8 bits are told"),
    ("flush-forgets-size", "after a flush a port has the usual size"),
];

/// Answers a whole list with a fault in it.
pub fn answers(fault: &str, mut list: Vec<u8>) -> Vec<u8> {
    if fault == "reads-upper-case" {
        list.make_ascii_lowercase();
    }
    let mut driver = Driver::new(Account::Ours);
    let mut miscount = Miscount::default();
    let mut received_stays = false;
    let mut answers = Vec::new();
    for line in asking_lines(&list) {
        if fault == "fresh-forgets-kept" && is_start(line) {
            driver = Driver::new(Account::Ours);
        }
        let before = driver.port();
        let counted = miscount.shown(&driver);
        let answer = match misheard(fault, line) {
            None => driver.answer(line),
            Some(size) => {
                driver.answer(format!("serial {size}").as_bytes());
                let answer = if fault == "refusal-makes" { b"?" } else { line };
                [answer, b"\n"].concat()
            }
        };
        answers.extend(match parse(line) {
            Some(asked) if answer != b"?\n" => {
                let answer = String::from_utf8_lossy(&answer).into_owned();
                received_stays = match (&asked, &before) {
                    (Line | State | Room | Counters, _) => received_stays,
                    (&WriteByte(offset, value), Some(port)) if flushes(offset, value) => {
                        is_active(RECEIVED_DATA, port)
                    }
                    (ReadByte(2), _) => received_stays,
                    _ => false,
                };
                let mut answered = Answered {
                    fault,
                    asked,
                    answer,
                    received_stays,
                };
                miscount.go_on(&answered, &driver, before.as_ref(), &counted);
                if answered.asked == Counters {
                    let shown = miscount.shown(&driver);
                    let shown = shown.iter().map(isize::to_string).collect::<Vec<_>>();
                    answered.says(&format!("counters {}", shown.join(" ")));
                }
                answered.spoiled(&mut driver, before).into_bytes()
            }
            _ => answer,
        });
    }
    answers
}

/// The size of the port that a line makes and should not.
fn misheard(fault: &str, line: &[u8]) -> Option<usize> {
    let digits = std::str::from_utf8(line).ok()?.strip_prefix("serial ")?;
    let low_half = digits.parse::<usize>().map(|number| number % 0x1_0000);
    match fault {
        _ if is_start(line) => None,
        "makes-48" if digits == "48" => Some(64),
        "makes-low-half" => low_half
            .ok()
            .filter(|size| SerialState::SIZES.contains(size)),
        "refusal-makes" => Some(64),
        _ => None,
    }
}

/// How much more is shown than was counted, or less.
#[derive(Default)]
struct Miscount {
    more: [isize; 4],
    /// Whether the last read of RBR left one byte.
    left_one: bool,
}

impl Miscount {
    /// The counters as they are shown.
    fn shown(&self, driver: &Driver<Account>) -> Vec<isize> {
        let counted = driver.counters().unwrap_or_default();
        let shown = counted.iter().zip(self.more);
        shown
            .map(|(&counted, more)| counted as isize + more)
            .collect()
    }

    /// Shows these.
    fn show(&mut self, driver: &Driver<Account>, shown: &[isize]) {
        let counted = driver.counters().unwrap_or_default();
        for (place, counted) in counted.into_iter().enumerate() {
            self.more[place] = shown[place] - counted as isize;
        }
    }

    /// Goes on by a line that was answered. Before it the port was so, and these counters were shown.
    fn go_on(
        &mut self,
        done: &Answered,
        driver: &Driver<Account>,
        before: Option<&SerialState>,
        counted: &[isize],
    ) {
        let is_port = driver.port().is_some();
        let of_device = |port, clock| done.fault == if is_port { port } else { clock };
        match &done.asked {
            Start(_) | StartOf(_) => {
                let same = driver
                    .counters()
                    .is_some_and(|fresh| fresh.len() == counted.len());
                *self = Miscount::default();
                if same && of_device("fresh-port-counts-on", "fresh-clock-counts-on") {
                    self.show(driver, counted);
                }
            }
            asked if asked.brings_back() && done.answer != "restore full\n" => {
                if of_device("restore-forgets-counters", "restore-forgets-invalid") {
                    self.show(driver, &[0; 4]);
                }
            }
            WriteWord(..) if done.answer == "w invalid\n" => {
                if done.fault == "invalid-write-counted-read" {
                    self.more[0] += 1;
                    self.more[1] -= 1;
                }
            }
            asked => {
                if let Some(port) = before {
                    self.on_port(done.fault, asked, port, counted);
                }
            }
        }
    }

    fn on_port(&mut self, fault: &str, asked: &Operation, port: &SerialState, counted: &[isize]) {
        let [fetched, sent, lost, emptied] = &mut self.more;
        let is_data = !port.divisor_is_open();
        match (fault, asked) {
            ("empty-read-not-counted", ReadByte(0)) if is_data && !port.waits() => *fetched -= 1,
            ("stays-empty-not-counted", ReadByte(0)) if is_data && !port.waits() => *emptied -= 1,
            ("last-of-two-not-counted", ReadByte(0)) if is_data => {
                *emptied -= isize::from(self.left_one && port.buffer.len() == 1);
                self.left_one = port.buffer.len() == 2;
            }
            ("divisor-read-counted", ReadByte(0)) if !is_data => *fetched += 1,
            ("loop-counted-sent", WriteByte(0, _)) if is_data && port.loops() => *sent += 1,
            ("lost-counted-twice", Lost) => *lost += 1,
            ("lost-not-sent", Lost) if counted[1] > 0 => *sent -= 1,
            ("lost-not-believed", Lost) if counted[1] == 0 => *lost -= 1,
            (fault, &WriteByte(offset, value)) if flushes(offset, value) => match fault {
                "flush-counted-read" => *fetched += port.buffer.len() as isize,
                "flush-counted-empty" => *emptied += isize::from(port.waits()),
                _ => {}
            },
            _ => {}
        }
    }
}

/// A line that was answered.
struct Answered<'a> {
    fault: &'a str,
    asked: Operation,
    answer: String,
    /// Whether received data was active before a flush, behind which this comes.
    received_stays: bool,
}

impl Answered<'_> {
    /// The answer with the fault in it. So is the device's state from here on.
    fn spoiled(mut self, driver: &mut Driver<Account>, before: Option<SerialState>) -> String {
        if let Some(state) = driver.port() {
            let before = before.as_ref().unwrap_or(&state);
            let spoiled = self.port(before, state.clone());
            let spoiled = self.sized(before, spoiled);
            if spoiled != state {
                driver.put_port(&spoiled);
            }
        } else if let Some((state, now)) = driver.clock() {
            let spoiled = self.clock(state, now);
            if spoiled != state {
                driver.answer(&Words::start("restore").clock(&spoiled).0);
            }
        } else {
            self.i8042();
        }
        if self.fault == "made-up-is-kept" && self.asked.brings_back() {
            driver.answer(b"save");
        }
        self.answer
    }

    fn says(&mut self, answer: &str) {
        self.answer = format!("{answer}\n");
    }

    /// Says in place of these words the others.
    fn not(&mut self, words: &str, others: &str) {
        self.answer = self.answer.replace(words, others);
    }

    /// Says that so many interrupts more are raised. Their number is an answer's last digit.
    fn raises(&mut self, more: i8) {
        if let Some(place) = self.answer.rfind(|c: char| c.is_ascii_digit()) {
            let digit = self.answer.as_bytes()[place].wrapping_add_signed(more);
            let digit = char::from(digit).to_string();
            self.answer.replace_range(place..=place, &digit);
        }
    }

    fn port(&mut self, before: &SerialState, mut after: SerialState) -> SerialState {
        let [received, transmits] = KINDS.map(|kind| is_active(kind, before));
        let [receives_now, transmits_now] = KINDS.map(|kind| is_active(kind, &after));
        let (is_data, is_last) = (!before.divisor_is_open(), !after.waits());
        let (was, is) = (before.registers, &mut after.registers);
        match (self.fault, &self.asked) {
            ("byte-65-replaces", WriteByte(0, value))
                if is_data && before.loops() && before.room() == 0 =>
            {
                after.buffer.pop();
                after.buffer.push(*value);
            }
            ("data-ready-stays", ReadByte(_)) => is[LSR] = was[LSR],
            ("data-ready-goes-early", ReadByte(0)) if is_data => is[LSR] &= !LSR_DATA_READY,
            ("empty-input-raises", Input(bytes)) if bytes.is_empty() => self.raises(1),
            ("full-takes-none", Input(_)) => self.not("full", "0"),
            ("wires-swapped", ReadByte(6)) if before.loops() => self.swaps_wires(),
            ("fresh-port-remembers", Start(_) | StartOf(_)) => is[SCR] = was[SCR],
            ("raises-again", Input(_)) if received && before.buffer.len() < after.buffer.len() => {
                self.raises(1)
            }
            ("sends-again", WriteByte(0, _)) if is_data && transmits => self.raises(1),
            ("loop-sends-quietly", WriteByte(0, _))
                if before.loops() && !transmits && transmits_now =>
            {
                is[IIR] &= !TRANSMITTER_EMPTY.marked;
                self.raises(-1);
            }
            ("enable-forgets-raise", WriteByte(1, _)) if !received && receives_now => {
                self.raises(-1)
            }
            ("enable-signals-once", WriteByte(1, _))
                if !transmits && transmits_now && TRANSMITTER_EMPTY.is_enabled(before) =>
            {
                is[IIR] &= !TRANSMITTER_EMPTY.marked;
                self.raises(-1);
            }
            ("priority-swapped", ReadByte(2)) if received && transmits => {
                is[IIR] = RECEIVED_DATA.marked;
                self.says("r c2 0");
            }
            ("two-at-once", ReadByte(2)) if received && transmits => self.says("r c6 0"),
            ("disabled-is-shown", ReadByte(2)) if before.waits() => self.says("r c4 0"),
            ("identify-keeps", ReadByte(2)) => is[IIR] = was[IIR],
            ("identify-resets-unseen", ReadByte(2)) if received => is[IIR] = RECEIVED_DATA.marked,
            ("fetch-resets", ReadByte(0)) if is_data && is_last => is[IIR] = IIR_NONE,
            ("line-falls-early", Line) if received && !transmits => self.says("line 0"),
            ("line-stays", Line) if before.waits() => self.says("line 1"),
            ("flush-keeps-line", Line) if self.received_stays => self.says("line 1"),
            ("flush-keeps-shown", ReadByte(2)) if self.received_stays => self.says("r c4 0"),
            ("refusal-changes", RestoreSerial(state)) if self.answer == "restore full\n" => {
                is[SCR] = state.registers[SCR];
            }
            ("restore-accepts-65", RestoreSerial(state)) if state.buffer.len() == 65 => {
                after = state.clone();
                after.buffer.pop();
                self.says("restore 0 unreached");
            }
            (_, asked) if asked.brings_back() => self.brought_back(&mut after),
            (_, &WriteByte(2, value)) => return self.flushed(value, before, after),
            _ => {}
        }
        after
    }

    /// FCR was written.
    fn flushed(&mut self, value: u8, before: &SerialState, mut after: SerialState) -> SerialState {
        let thrown_away = before.buffer.len();
        if !flushes(2, value) {
            let empties = match self.fault {
                "flush-by-04" => value & 0x04 != 0,
                "flush-by-change" => value & 0x01 == 0,
                _ => false,
            };
            if empties {
                after.buffer.clear();
                after.registers[LSR] &= !LSR_DATA_READY;
                self.says(&format!("w -{thrown_away} 0"));
            }
            return after;
        }
        let is_left_out = match self.fault {
            "flush-does-nothing" => true,
            "flush-needs-enable" => value & 0x01 == 0,
            "flush-not-with-divisor" => before.divisor_is_open(),
            _ => false,
        };
        if is_left_out {
            self.says("w -- 0");
            return before.clone();
        }
        let (was, is) = (&before.registers, &mut after.registers);
        match self.fault {
            "flush-keeps-data-ready" => is[LSR] = was[LSR],
            "flush-keeps-mark" => is[IIR] = was[IIR],
            "flush-keeps-byte" => {
                is[LSR] = was[LSR];
                after.buffer.extend(before.buffer.last());
            }
            "flush-resets" => is[IIR] = IIR_NONE,
            "flush-raises" => self.raises(1),
            "flush-told-one-less" if thrown_away > 0 => {
                self.says(&format!("w -{} 0", thrown_away - 1))
            }
            "empty-flush-not-told" if thrown_away == 0 => self.says("w -- 0"),
            "flush-told-low-byte" => self.says(&format!("w -{} 0", thrown_away % 0x100)),
            "flush-forgets-size" => after.size = SerialState::SIZE,
            _ => {}
        }
        after
    }

    /// The port with a fault of its size.
    fn sized(&mut self, before: &SerialState, mut after: SerialState) -> SerialState {
        let comes = after.buffer.len() > before.buffer.len();
        let fits = |size: usize| after.buffer.len() <= size;
        match (self.fault, &self.asked) {
            ("wraps-at-64", WriteByte(..) | Input(_)) if after.size == 1024 && comes => {
                for place in (64..after.buffer.len()).rev() {
                    after.buffer[place - 64] = after.buffer[place];
                }
            }
            ("loop-holds-64", WriteByte(..)) if comes && !fits(64) => drop(after.buffer.pop()),
            ("size-not-answered", StartOf(_)) => self.says("serial"),
            ("fresh-port-keeps-size", Start(_)) => after.size = before.size,
            ("restore-forgets-size", Restore) if fits(64) => after.size = 64,
            ("restore-keeps-size", Restore) if fits(before.size) => after.size = before.size,
            ("given-keeps-size", RestoreSerial(_)) if fits(before.size) => after.size = before.size,
            ("restore-refuses-65", Restore) if !fits(64) => {
                self.says("restore full");
                after = before.clone();
            }
            ("reached-of-64", Restore) if after.size != 64 => self.not(" reached", " unreached"),
            (fault, asked) if asked.brings_back() || matches!(asked, Start(_) | StartOf(_)) => {
                after.size = match (fault, after.size) {
                    ("64-holds-63", 64) => 63,
                    ("64-holds-65", 64) => 65,
                    ("16-holds-64", 16) => 64,
                    ("1024-holds-1023", 1024) => 1023,
                    (_, size) => size,
                }
            }
            _ => {}
        }
        after
    }

    fn swaps_wires(&mut self) {
        let value = u8::from_str_radix(&self.answer[2..4], 16).unwrap_or(0);
        let swapped = value & !0x30 | (value & 0x10) << 1 | (value & 0x20) >> 1;
        self.says(&format!("r {swapped:02x} 0"));
    }

    fn brought_back(&mut self, port: &mut SerialState) {
        let received = is_active(RECEIVED_DATA, port);
        match self.fault {
            "restore-drops-byte" => drop(port.buffer.pop()),
            "restore-forgets-raise" if received => self.not("2", "1"),
            "restore-doubles-raise" if received => self.raises(1),
            "restore-raises-mark"
                if RECEIVED_DATA.is_marked(port) && RECEIVED_DATA.is_enabled(port) && !received =>
            {
                self.raises(1)
            }
            "reached-without-byte" if !port.waits() => self.reached_without(RECEIVED_DATA, port),
            "reached-disabled" if !TRANSMITTER_EMPTY.is_enabled(port) => {
                self.reached_without(TRANSMITTER_EMPTY, port)
            }
            _ => {}
        }
    }

    /// Says that the state was reached, if it was without this kind's mark.
    fn reached_without(&mut self, kind: Kind, port: &SerialState) {
        let mut other = port.clone();
        let iir = &mut other.registers[IIR];
        *iir = match *iir & !kind.marked {
            0 => IIR_NONE,
            left => left,
        };
        if reached::serial(&other) {
            self.not("unreached", "reached");
        }
    }

    fn clock(&mut self, mut clock: ClockState, now: u64) -> ClockState {
        match (self.fault, &self.asked) {
            ("time-not-cut", WriteWord(0x08, data)) => {
                let value = i64::from(u32::from_le_bytes(*data));
                clock.offset = value.wrapping_sub(now as i64);
            }
            ("sum-wraps", ReadWord(0x00, _)) => {
                let sum = i64::from(cut(now)).wrapping_add(clock.offset) as u32;
                self.says(&format!("r {:08x} ok", sum.swap_bytes()));
            }
            ("clear-read-zeroes", ReadWord(0x1c, _)) => self.says("r 00000000 invalid"),
            ("identity-unaligned", ReadWord(offset, _)) if offset & 3 != 0 => {
                self.not("ok", "invalid")
            }
            ("restore-cuts-offset", asked) if asked.brings_back() => {
                clock.offset = clock.offset << 31 >> 31
            }
            ("restore-clears-status", asked) if asked.brings_back() => clock.raw = 0,
            ("reached-too-far", asked) if asked.brings_back() => {
                let offset = clock.offset.saturating_add(1);
                if reached::clock(&ClockState { offset, ..clock }) {
                    self.not("unreached", "reached");
                }
            }
            _ => {}
        }
        clock
    }

    fn i8042(&mut self) {
        if let ("resets-on-ff", WriteByte(4, 0xff)) | ("resets-on-data-port", WriteByte(0, 0xfe)) =
            (self.fault, &self.asked)
        {
            self.says("w reset");
        }
    }
}
