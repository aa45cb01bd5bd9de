//! Drives vm-superio and this crate through the same lists, by the judge's monitor, with the same faults of the host,
//! and compares what each call returns and its steps in order: what it does to the host, and the callbacks for events.
//! They differ exactly in the judge's rows: in what a read of IIR answers, in how often the interrupt is raised, and where
//! FCR empties the port. There our bytes are thrown away, and the original's guest reads what waits: after that both are
//! compared as before. Counters, which are made of the callbacks, are those of the judge's accounts.
//! Then it sees that it finds faults that are planted in our steps.

#[path = "../../compare/src/original/host.rs"]
mod host;
mod planted;

mod original {
    use vm_superio as api;
    include!("../../compare/src/original/monitor.rs");
    include!("../../compare/src/original/events.rs");
}

mod ours {
    use serialpost as api;
    include!("../../compare/src/original/monitor.rs");
    include!("../../compare/src/original/events.rs");

    /// Whether the interrupt line of this port is high.
    pub fn is_high(port: &SerialState) -> bool {
        let [line, sink] = [0, 1].map(|_| Wire(Rc::default()));
        let restored =
            api::Serial::from_state(&port_state(port), line, api::serial::NoEvents, sink);
        restored.is_ok_and(|port| port.interrupt_line())
    }
}

use std::collections::BTreeMap;
use std::process::ExitCode;
use std::rc::Rc;

use host::{raises_in, Callback, Faults, Host, Step};
use judge::account::{reached, Account};
use judge::devices::{SerialState, LCR, LSR};
use judge::driver::Driver;
use judge::format::{self, Operation};
use judge::generate::numbers::Numbers;
use judge::generate::{exhaustive, random, Options};
use judge::rows::{Sides, ROWS};
use planted::{Left, Planted};

impl Step {
    pub fn name(&self) -> &'static str {
        match self {
            Step::Sent(_) => "write",
            Step::Flushed => "flush",
            Step::Raised => "raise",
            Step::Told(Callback::BufferRead) => "BufferRead",
            Step::Told(Callback::OutByte) => "OutByte",
            Step::Told(Callback::TxLostByte) => "TxLostByte",
            Step::Told(Callback::InBufferEmpty) => "InBufferEmpty",
            Step::Told(Callback::InvalidRead) => "InvalidRead",
            Step::Told(Callback::InvalidWrite) => "InvalidWrite",
            Step::Full => "full",
            Step::NotRaised(_) => "not raised",
            Step::NotSent(_) => "not sent",
        }
    }
}

/// One operation in so many meets a fault of each kind.
const FAULT_ONCE_IN: usize = 4;

/// How often something was met, by its name.
type Times = BTreeMap<String, usize>;

/// What the lists met.
#[derive(Debug, Default)]
struct Met {
    operations: usize,
    /// Accesses and inputs, and states that were to be brought back: each by the names of its steps.
    calls: Times,
    restores: Times,
    rows: Times,
    /// Answers with counters that have all counted something, by how many they are: a port has 4, a clock 2.
    counters: BTreeMap<usize, usize>,
    reachable: usize,
    unreachable: usize,
}

/// What calls are to meet. `InBufferEmpty` by itself is FCR's.
const CALLS: [&str; 19] = [
    "full",
    "raise",
    "raise, raise",
    "raise, not raised",
    "write, flush, OutByte",
    "write, flush, OutByte, raise",
    "write, flush, OutByte, raise, not raised",
    "write, TxLostByte, not sent",
    "write, TxLostByte, raise, not sent",
    "write, TxLostByte, raise, not raised",
    "write, flush, TxLostByte, not sent",
    "write, flush, TxLostByte, raise, not sent",
    "write, flush, TxLostByte, raise, not raised",
    "BufferRead",
    "InBufferEmpty, BufferRead",
    "InBufferEmpty",
    "InvalidRead",
    "InvalidWrite",
    "",
];

const RESTORES: [&str; 6] = [
    "",
    "full",
    "raise",
    "raise, raise",
    "raise, not raised",
    "raise, raise, not raised",
];

impl Met {
    fn note(&mut self, operation: &Operation, steps: &[Step]) {
        let names: Vec<&str> = steps.iter().map(Step::name).collect();
        let met = match operation.brings_back() {
            true => &mut self.restores,
            false => &mut self.calls,
        };
        *met.entry(names.join(", ")).or_default() += 1;
        self.operations += 1;
    }

    fn note_rows(&mut self, rows: &[&'static str]) {
        for row in rows {
            *self.rows.entry(row.to_string()).or_default() += 1;
        }
    }

    fn note_counters(&mut self, answer: &str) {
        let Some(counters) = answer.strip_prefix("counters ") else {
            return;
        };
        let counters: Vec<&str> = counters.split_whitespace().collect();
        if !counters.contains(&"0") {
            *self.counters.entry(counters.len()).or_default() += 1;
        }
    }

    fn lacks_something(&self) -> bool {
        let often = |times: Option<&usize>| times.is_some_and(|&times| times >= 10);
        let rows = self.rows.values().filter(|&times| often(Some(times)));
        let met = CALLS.iter().all(|&steps| often(self.calls.get(steps)))
            && RESTORES
                .iter()
                .all(|&steps| often(self.restores.get(steps)))
            && [4, 2].iter().all(|count| often(self.counters.get(count)))
            && often(Some(&self.reachable))
            && often(Some(&self.unreachable));
        !met || rows.count() != ROWS
    }
}

/// What a line was answered, and the steps of that.
type Done = (String, Vec<Step>);

/// Both, each with its host, and the judge's accounts of them.
struct Pair<'a> {
    hosts: [Rc<Host>; 2],
    original: Driver<original::Monitor>,
    ours: Driver<ours::Monitor>,
    sides: Sides,
    /// What the accounts answer, line by line.
    accounts: [Driver<Account>; 2],
    /// Callbacks of each port that the accounts do not count: those of the writes that empty it.
    uncounted: [[usize; 4]; 2],
    planted: Option<&'a Planted>,
}

impl<'a> Pair<'a> {
    fn new(planted: Option<&'a Planted>) -> Self {
        let hosts: [Rc<Host>; 2] = Default::default();
        Pair {
            original: Driver::new(original::Monitor(hosts[0].clone())),
            ours: Driver::new(ours::Monitor(hosts[1].clone())),
            hosts,
            sides: Sides::default(),
            accounts: [
                Driver::fetching(Account::Original),
                Driver::new(Account::Ours),
            ],
            uncounted: Default::default(),
            planted,
        }
    }

    fn ports(&self) -> Option<[SerialState; 2]> {
        Some([self.original.port()?, self.ours.port()?])
    }

    /// The callbacks so far, as the ports' counters have them.
    fn told(&self) -> [Vec<usize>; 2] {
        [self.original.counters(), self.ours.counters()].map(Option::unwrap_or_default)
    }

    /// What the accounts answer. They go on by it.
    fn account(&mut self, line: &[u8]) -> [String; 2] {
        let answers = self.accounts.each_mut();
        answers.map(|account| text(account.answer(line)))
    }

    /// Has both answer the line under these faults.
    fn ask(&mut self, line: &[u8], faults: Faults) -> [Done; 2] {
        for host in &self.hosts {
            host.faults.set(faults);
            host.steps.take();
        }
        let answers = [self.original.answer(line), self.answer_of_ours(line)];
        let answers = self.counted(line, answers);
        let mut steps = [0, 1].map(|i| self.hosts[i].steps.take());
        if let Some(planted) = self.planted {
            planted.change(&mut steps[1], answers[0] != answers[1]);
        }
        let [original, ours] = answers.map(text);
        let [original_steps, our_steps] = steps;
        [(original, original_steps), (ours, our_steps)]
    }

    /// The same answers, but for a port's counters: without what the accounts do not count.
    fn counted(&mut self, line: &[u8], answers: [Vec<u8>; 2]) -> [Vec<u8>; 2] {
        match format::parse(line) {
            Some(Operation::Start(_)) => self.uncounted = Default::default(),
            Some(Operation::Counters) if self.ports().is_some() => {
                let told = self.told();
                return [0, 1].map(|side| {
                    let counted = told[side].iter().zip(self.uncounted[side]);
                    let counted = counted.map(|(told, uncounted)| (told - uncounted).to_string());
                    let counted: Vec<String> = counted.collect();
                    format!("counters {}\n", counted.join(" ")).into_bytes()
                });
            }
            _ => (),
        }
        answers
    }

    /// The level of the line only this crate tells, so the monitor does not ask for it.
    fn answer_of_ours(&mut self, line: &[u8]) -> Vec<u8> {
        match (format::parse(line), self.ours.port()) {
            (Some(Operation::Line), Some(port)) => {
                format!("line {}\n", u8::from(ours::is_high(&port))).into_bytes()
            }
            _ => self.ours.answer(line),
        }
    }

    /// Has both answer the line, and goes on to the next. They are to differ where the rows say so. There each raises
    /// as often as its account says, and fails by that; all other steps are the same, in the same order. Counters are
    /// the accounts'. These are told of what the sink did not take; what the list says is lost counts besides, since
    /// the monitor is not told of it before the write.
    fn answer(
        &mut self,
        line: &[u8],
        faults: Faults,
        accounts: &[String; 2],
    ) -> Result<[Done; 2], String> {
        let done = self.ask(line, faults);
        let [original, ours] = &done;
        let answers = [original.0.as_bytes(), ours.0.as_bytes()];
        if let Some(why) = self.sides.fault(line, answers) {
            return Err(told(&why, &done, faults));
        }
        if line == b"counters" && [&original.0, &ours.0] != accounts.each_ref() {
            return Err(told(&format!("counted: {accounts:?}"), &done, faults));
        }
        if original.1.contains(&Step::Told(Callback::TxLostByte)) {
            self.account(b"lost");
        }
        let are_the_same = match original.0 == ours.0 {
            true => original.1 == ours.1,
            false => {
                without_raises(&original.1) == without_raises(&ours.1)
                    && [original, ours].map(|(_, steps)| raises_in(steps)) == raises_told(accounts)
                    && done.iter().all(|(_, steps)| fails_as_due(steps, faults))
            }
        };
        if !are_the_same {
            return Err(told("other steps", &done, faults));
        }
        match done.iter().all(|(_, steps)| raises_come_last(steps)) {
            true => Ok(done),
            false => Err(told("a raise before other steps", &done, faults)),
        }
    }

    /// Has both answer a write of FCR with 0x02, which the accounts have answered, and goes on to the next line. Our port is
    /// empty then, and its events are told so where bytes were thrown away. The original does nothing; its guest reads what
    /// waits there, and these are the same bytes. After it both are as their accounts say. Answers our steps.
    fn empty(&mut self, line: &[u8], faults: Faults) -> Result<Vec<Step>, String> {
        let before = self.ports().expect("both have a port");
        let told = self.told();
        self.sides.go_on(line);
        let [original, ours] = self.ask(line, faults);
        let thrown_away = match before[1].waits() {
            true => &[Step::Told(Callback::InBufferEmpty)][..],
            false => &[],
        };
        let wrong = |why: &str| Err(told_steps(why, [&original.1, &ours.1], faults));
        if ours.1 != thrown_away {
            return wrong("FCR empties the port by other steps");
        }
        if !original.1.is_empty() || self.original.port().as_ref() != Some(&before[0]) {
            return wrong("the original does something with FCR");
        }
        if is_to_empty(&before[0]) && self.fetch(&before[0]) != before[1].buffer {
            return wrong("other bytes are thrown away");
        }
        for (side, told) in told.iter().enumerate() {
            for (counter, told) in told.iter().enumerate() {
                self.uncounted[side][counter] += self.told()[side][counter] - told;
            }
        }
        let after = self.ports().expect("they have it still");
        let mut left = Left::of(after[1].clone());
        if let Some(planted) = self.planted {
            planted.keep(&before[1], &mut left);
        }
        let accounts = self.accounts.each_ref();
        // What is remembered of FCR is no part of a state of vm-superio's API.
        let [account_of_original, port] = accounts.map(|account| SerialState {
            fcr: 0,
            ..account.port().expect("a port")
        });
        let line = self.accounts[1].answer(b"line") == b"line 1\n";
        if left != (Left { port, line }) {
            return wrong(&format!("FCR leaves {left:?}"));
        }
        match after[0] == account_of_original {
            true => Ok(ours.1),
            false => wrong(&format!("the original is left with {:?}", after[0])),
        }
    }

    /// The original's guest reads what waits, DLAB closed for it; once where nothing does.
    fn fetch(&mut self, port: &SerialState) -> Vec<u8> {
        self.original.answer(b"w 03 00");
        let reads = (0..port.buffer.len().max(1)).map(|_| self.original.answer(b"r 00"));
        let read: Vec<u8> = reads.map(|answer| reply(&answer)).collect();
        let line_control = format!("w 03 {:02x}", port.registers[LCR]);
        self.original.answer(line_control.as_bytes());
        read[..port.buffer.len()].to_vec()
    }

    /// Has both do what they did just now once more, under faults.
    fn again(&mut self, line: &[u8], faults: Faults) -> Result<[Done; 2], String> {
        let done = self.ask(line, faults);
        match done[0] == done[1] {
            true => Ok(done),
            false => Err(told("different the second time", &done, faults)),
        }
    }
}

/// Whether it is a write of FCR with 0x02.
fn empties(operation: &Operation) -> bool {
    matches!(operation, Operation::WriteByte(2, value) if value & 0x02 != 0)
}

/// Whether that changes a port: a byte waits, or LSR says so of a port that was brought back.
fn is_to_empty(port: &SerialState) -> bool {
    port.waits() || port.registers[LSR] & 0x01 != 0
}

/// What a read was answered.
fn reply(answer: &[u8]) -> u8 {
    let answer = String::from_utf8_lossy(answer);
    let word = answer.split_whitespace().nth(1).expect("a reply");
    u8::from_str_radix(word, 16).expect("a byte")
}

/// The steps without the raises, and without what may come of them: what the call failed with.
fn without_raises(steps: &[Step]) -> Vec<&Step> {
    let others = steps.iter().filter(|step| !ENDS.contains(&step.name()));
    others.collect()
}

/// The steps that end a call.
const ENDS: [&str; 3] = ["raise", "not raised", "not sent"];

/// Whether a call that raises no more than once fails as it should, if it should.
fn fails_as_due(steps: &[Step], faults: Faults) -> bool {
    let names: Vec<&str> = steps.iter().map(Step::name).collect();
    let due = match names.contains(&"raise") && faults.line[0] {
        true => Some("not raised"),
        false => names.contains(&"TxLostByte").then_some("not sent"),
    };
    let failures = names.iter().filter(|name| ENDS[1..].contains(name));
    failures.copied().eq(due)
}

/// Whether nothing follows the first raise but others, and what the call failed with.
fn raises_come_last(steps: &[Step]) -> bool {
    let mut from_the_first_on = steps.iter().skip_while(|step| **step != Step::Raised);
    from_the_first_on.all(|step| ENDS.contains(&step.name()))
}

fn text(answer: Vec<u8>) -> String {
    String::from_utf8_lossy(&answer).into_owned()
}

/// How many raises the answers of both accounts tell.
fn raises_told(answers: &[String; 2]) -> [usize; 2] {
    answers.each_ref().map(|answer| {
        let words: Vec<&str> = answer.split_whitespace().collect();
        let word = match words[..] {
            ["w" | "r" | "b", _, raises] => raises,
            ["restore", raises, _] => raises,
            _ => return 0,
        };
        word.parse().unwrap_or(0)
    })
}

fn told(why: &str, [original, ours]: &[Done; 2], faults: Faults) -> String {
    format!("{why}\nvm-superio: {original:?}\nserialpost: {ours:?}\nunder {faults:?}")
}

fn told_steps(why: &str, [original, ours]: [&[Step]; 2], faults: Faults) -> String {
    format!("{why}\nvm-superio: {original:?}\nserialpost: {ours:?}\nunder {faults:?}")
}

/// Whether a run comes to a state only this crate can tell. It is compared with the judge's account, for each state
/// that is brought back by the operation.
fn told_apart(operation: &Operation, met: &mut Met) -> Result<(), String> {
    let (ours, account) = match operation {
        Operation::RestoreSerial(state) => (
            ours::port_state(state).is_reachable(),
            reached::serial(state),
        ),
        Operation::RestoreClock(state) => (
            ours::clock_state(state).is_reachable(),
            reached::clock(state),
        ),
        _ => return Ok(()),
    };
    if ours != account {
        return Err(format!("reachable: {ours}, the account says {account}"));
    }
    met.reachable += usize::from(ours);
    met.unreachable += usize::from(!ours);
    Ok(())
}

fn drive(list: &[u8], seed: u64, planted: Option<&Planted>, met: &mut Met) -> Result<(), String> {
    let mut pair = Pair::new(planted);
    let mut numbers = Numbers::new(seed);
    for (number, line) in format::asking_lines(list).enumerate() {
        let Some(operation) = format::parse(line) else {
            continue;
        };
        let restores = operation.brings_back();
        let rows = pair.sides.rows(line);
        let accounts = pair.account(line);
        let raises = raises_told(&accounts);
        // A write that raises for two kinds: where raising the first fails vm-superio leaves the second out, ours does
        // not (the README has it among what is different). So the first does not fail there. In a row, where the two
        // raise differently, the line fails for writes alone: what an input answers depends on it.
        let raises_twice = raises.contains(&2) && !restores;
        let is_write = matches!(operation, Operation::WriteByte(..));
        let faults = Faults {
            line: [
                numbers.once_in(FAULT_ONCE_IN) && !raises_twice && (is_write || rows.is_empty()),
                numbers.once_in(FAULT_ONCE_IN) && rows.is_empty(),
            ],
            write: numbers.once_in(FAULT_ONCE_IN),
            flush: numbers.once_in(FAULT_ONCE_IN),
        };
        let here = |why| format!("line {} of seed {seed}: {operation:?}\n{why}", number + 1);
        if empties(&operation) && pair.ports().is_some() {
            let steps = pair.empty(line, faults).map_err(here)?;
            met.note(&operation, &steps);
            met.note_rows(&rows);
            continue;
        }
        // Where a restore fails there is no new port. So it is done without faults first, and once more with them where
        // both raise alike.
        let first = if restores { Faults::default() } else { faults };
        let done = pair.answer(line, first, &accounts).map_err(here)?;
        met.note(&operation, &done[0].1);
        met.note_rows(&rows);
        met.note_counters(&done[0].0);
        if restores && done[0] == done[1] {
            let done = pair.again(line, faults).map_err(here)?;
            met.note(&operation, &done[0].1);
        }
        told_apart(&operation, met).map_err(here)?;
    }
    Ok(())
}

/// Sends bytes of which each is to be raised for, so that the sink and the line fail in all ways together; then bytes
/// for which vm-superio alone raises, since it forgot what it had marked before, while a byte waits.
fn sending_list(bytes: usize) -> Vec<u8> {
    let sends = (0..bytes).map(|byte| format!("r 02\nw 00 {:02x}\n", byte % 256));
    let sends: String = sends.collect();
    format!("serial\nw 01 02\n{sends}serial\nw 01 03\nb 61\n{sends}").into_bytes()
}

/// Empties ports by FCR: each kind enabled or not, no byte waiting, one, or as many as can, the divisor closed or open.
fn emptying_list() -> Vec<u8> {
    let mut list = String::new();
    for ier in 0..4 {
        for bytes in ["", " 61", &format!(" {}", "62".repeat(SerialState::SIZE))] {
            for (line_control, value) in [(0x03, 0x02), (0x03, 0x07), (0x83, 0x03), (0x83, 0xff)] {
                list += &format!("serial\nw 01 {ier:02x}\nb{bytes}\nw 03 {line_control:02x}\n");
                list += &format!("w 02 {value:02x}\nline\nr 02\nr 05\nroom\nr 00\ncounters\n");
            }
        }
    }
    list.into_bytes()
}

fn compare(met: &mut Met) -> Result<(), String> {
    let everything = Options::default();
    drive(&exhaustive::list(&everything), 0, None, met)?;
    drive(&sending_list(50_000), 0, None, met)?;
    drive(&emptying_list(), 0, None, met)?;
    for seed in 1..=5 {
        drive(&random::list(&everything, 200_000, seed), seed, None, met)?;
    }
    match met.lacks_something() {
        true => Err("the lists leave something out".to_string()),
        false => Ok(()),
    }
}

/// Whether short lists find each planted fault. Without one they find nothing. Answers how many there are.
fn find_planted() -> Result<usize, String> {
    let random = random::list(&Options::default(), 20_000, 1);
    let list = [sending_list(1000), emptying_list(), random].concat();
    drive(&list, 1, None, &mut Met::default())?;
    let faults = planted::faults();
    for fault in &faults {
        if drive(&list, 1, Some(fault), &mut Met::default()).is_ok() {
            return Err(format!("a planted fault is not found: {}", fault.what));
        }
    }
    Ok(faults.len())
}

fn main() -> ExitCode {
    let mut met = Met::default();
    let verdict = compare(&mut met).and_then(|()| find_planted());
    println!("{met:#?}");
    match verdict {
        Ok(faults) => {
            println!("{faults} planted faults found");
            ExitCode::SUCCESS
        }
        Err(why) => {
            println!("{why}");
            ExitCode::FAILURE
        }
    }
}
