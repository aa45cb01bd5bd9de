//! Tests of the judge as a whole: that it finds every planted fault and shows it with a short run, that
//! a single changed byte is not overlooked, and that trouble is not taken for agreement.

use std::collections::{HashMap, HashSet};
use std::fs;
use std::io::{BufRead, BufReader, Write};
use std::process::{Command, Output, Stdio};
use std::sync::mpsc;
use std::thread;
use std::time::Duration;

use judge::answerer::{tools, Answerer};
use judge::difference::{Difference, Pair};
use judge::faulty::{FAULTS, SIZE_FAULTS};
use judge::format::{asking_lines, parse, Device, Operation};
use judge::generate::numbers::Numbers;
use judge::generate::{exhaustive, format_cases, random, sizes, Options};
use judge::rows::Sides;

/// A file of its own for a test, with this text in it.
fn file(name: &str, text: &[u8]) -> String {
    let folder = tools().unwrap().join("test-files");
    fs::create_dir_all(&folder).unwrap();
    let path = folder.join(name);
    fs::write(&path, text).unwrap();
    path.to_string_lossy().into_owned()
}

/// A program made for a test, by name. It can call the account.
fn script(name: &str, text: &str) -> String {
    let account = tools().unwrap().join("account");
    let text = format!("account() {{ '{}'; }}\n{text}\n", account.display());
    format!("sh {}", file(name, text.as_bytes()))
}

fn compare(arguments: &[&str]) -> Output {
    let program = tools().unwrap().join("compare");
    Command::new(program).args(arguments).output().unwrap()
}

fn status(output: &Output) -> i32 {
    output.status.code().unwrap()
}

const LIMIT: Duration = Duration::from_secs(60);

fn difference(left: &str, right: &str, list: &[u8]) -> Option<Difference> {
    found(left, right, false, list)
}

fn found(left: &str, right: &str, rows: bool, list: &[u8]) -> Option<Difference> {
    let [left, right] = [left, right].map(|name| Answerer::named(name).unwrap());
    let limit = LIMIT;
    let pair = Pair {
        left,
        right,
        rows,
        limit,
    };
    pair.compare(list).unwrap()
}

/// Every planted fault can be shown in this many lines.
const SHORT: usize = 6;

/// A long list is asked in pieces, from its end on, until one shows the fault.
fn is_found_in(list: &[u8], fault: &str) {
    let lines: Vec<&[u8]> = list.split_inclusive(|&byte| byte == b'\n').collect();
    let mut pieces = lines.chunks(100_000).rev().map(<[&[u8]]>::concat);
    let faulty = format!("faulty {fault}");
    let found = pieces.find_map(|piece| difference("account", &faulty, &piece));
    let found = found.unwrap_or_else(|| panic!("{fault} is not found"));
    assert!(found.length <= SHORT, "{fault} in\n{}", found.shown);
}

#[test]
fn a_random_list_finds_every_planted_fault() {
    let list = random::list(&Options::default(), 80_000, 1);
    assert!(difference("account", "account", &list).is_none());
    for (_, fault, _) in FAULTS {
        is_found_in(&list, fault);
    }
}

#[test]
fn the_exhaustive_lists_find_every_planted_fault_of_their_device() {
    for device in Device::ALL {
        let devices = vec![device];
        let list = exhaustive::list(&Options {
            devices,
            ..Options::default()
        });
        for (faulty_device, fault, _) in FAULTS {
            if faulty_device == Some(device) {
                is_found_in(&list, fault);
            }
        }
    }
}

#[test]
fn lists_with_ports_of_all_sizes_find_every_planted_fault_of_a_size() {
    let options = Options {
        devices: vec![Device::Serial],
        sizes: true,
        ..Options::default()
    };
    let random = random::list(&options, 80_000, 1);
    assert!(difference("account", "account", &random).is_none());
    let all = sizes::list(&Options::default());
    for (fault, _) in SIZE_FAULTS {
        is_found_in(&random, fault);
        is_found_in(&all, fault);
    }
}

#[test]
fn beside_the_original_a_fault_is_a_difference_in_no_row_or_none_in_a_row() {
    let both_kinds = b"serial\nw 01 03\nb 61\nr 02\n";
    for same in ["account", "account --original --fetches"] {
        let shown = found(same, same, true, both_kinds).unwrap().shown;
        assert!(
            shown.ends_with("(alike in original-two-kinds)\n"),
            "{shown}"
        );
    }
    let asked = b"serial\nr 00\ncounters\n";
    let miscounted = "faulty empty-read-not-counted";
    let original = "account --original --fetches";
    let shown = found(original, miscounted, true, asked).unwrap().shown;
    assert!(shown.ends_with("(different in no row)\n"), "{shown}");
    let list = random::list(&Options::default(), 80_000, 1);
    let beside = |right: &str| found(original, right, true, &list);
    assert!(beside("account").is_none());
    for (_, fault, _) in FAULTS {
        // Whether a port could have been reached the original does not tell, and its IIR is stored by ways of its own.
        let untold = [
            "reached-without-byte",
            "reached-disabled",
            "flush-keeps-mark",
        ];
        let is_found = beside(&format!("faulty {fault}")).is_some();
        assert_eq!(is_found, !untold.contains(&fault), "{fault}");
    }
    // It is never asked for a size, so that only the usual one can be wrong; or a line that is nearly `serial`.
    assert!(!asking_lines(&list).any(|line| matches!(parse(line), Some(Operation::StartOf(_)))));
    for (fault, _) in SIZE_FAULTS {
        let shows = ["64-holds-63", "64-holds-65", "refusal-makes"].contains(&fault);
        let is_found = beside(&format!("faulty {fault}")).is_some();
        assert_eq!(is_found, shows, "{fault}");
    }
}

/// Where vm-superio's guest does not read what ours throws away, the two differ from there on.
#[test]
fn without_its_reads_the_original_keeps_what_ours_throws_away() {
    let flushed = b"serial\nb 6162\nw 02 07\nr 05\n";
    let beside = |original: &str| found(original, "account", true, flushed);
    assert!(beside("account --original --fetches").is_none());
    let shown = beside("account --original").unwrap().shown;
    assert!(shown.ends_with("(different in no row)\n"), "{shown}");
}

/// How often a list's lines are in these rows and no others. Answers may stand beside them.
fn rows_met(list: &[u8]) -> HashMap<Vec<&'static str>, usize> {
    let mut sides = Sides::default();
    let mut met = HashMap::new();
    for line in asking_lines(list) {
        let mut words = line.split(|&byte| byte == b'=');
        let access = words.next().unwrap_or_default().trim_ascii_end();
        *met.entry(sides.rows(access)).or_insert(0) += 1;
        sides.go_on(access);
    }
    met
}

#[test]
fn each_row_is_met_and_has_a_list_that_shows_it() {
    let met = rows_met(&random::list(&Options::default(), 300_000, 1));
    let rows: HashSet<&str> = met.keys().flatten().copied().collect();
    let folder = tools().unwrap().join("../../lists/original");
    assert_eq!(rows.len(), fs::read_dir(&folder).unwrap().count());
    for row in rows {
        let alone = met.get(&vec![row]).copied().unwrap_or(0);
        assert!(alone >= 5, "{row}: {alone} times");
        let list = fs::read(folder.join(format!("{row}.list"))).unwrap();
        let is_shown = rows_met(&list).keys().any(|rows| rows.contains(&row));
        assert!(is_shown, "{row}");
    }
}

#[test]
fn the_formats_cases_find_a_fault_of_reading() {
    let list = format_cases::list(&Options::default());
    let found = difference("account", "faulty reads-upper-case", &list).unwrap();
    assert_eq!(found.length, 1, "{}", found.shown);
}

#[test]
fn a_difference_is_shown_with_both_answers() {
    let list = file(
        "shown.list",
        b"# a fault\nserial\nw 07 55\nb 61\nroom\nb\nr 05\n",
    );
    let output = compare(&["account", "faulty empty-input-raises", &list]);
    assert_eq!(status(&output), 1);
    let expected = format!(
        "differ: account and faulty empty-input-raises, first at line 6 of {list}
the shortest run found that shows it:
  serial => serial
  b => b 0 0, but b 0 1 by faulty empty-input-raises
"
    );
    assert_eq!(String::from_utf8_lossy(&output.stdout), expected);
}

#[test]
fn a_single_changed_byte_is_found() {
    let list = random::list(&Options::default(), 300, 5);
    let list_file = file("byte.list", &list);
    let account = Answerer::named("account").unwrap();
    let answers = account.answers(&list, LIMIT).unwrap();
    let mut numbers = Numbers::new(1);
    for _ in 0..100 {
        let place = numbers.below(answers.len());
        let mut changed = answers.clone();
        changed[place] ^= 1 << numbers.below(8);
        let record = file("byte.answers", &changed);
        let output = compare(&[&format!("recorded:{record}"), "account", &list_file]);
        // An ending that is lost, or one too many, is another number of answers: no comparison at all.
        let lines = |text: &[u8]| text.iter().filter(|&&byte| byte == b'\n').count();
        let as_many = lines(&changed) == lines(&answers);
        assert_eq!(status(&output), if as_many { 1 } else { 2 }, "byte {place}");
    }
    let record = file("byte.answers", &answers);
    let output = compare(&[&format!("recorded:{record}"), "account", &list_file]);
    assert_eq!(status(&output), 0);
}

/// Compares the account with something that cannot be judged, and answers what is said about it.
fn trouble(answerer: &str, list: &str) -> String {
    let output = compare(&["--limit", "4", "account", answerer, list]);
    let message = String::from_utf8_lossy(&output.stderr).into_owned();
    assert_eq!(status(&output), 2, "{answerer}: {message}");
    assert!(output.stdout.is_empty());
    message
}

#[test]
fn trouble_is_not_taken_for_agreement() {
    let list = file("trouble.list", b"serial\nroom\nstate\n");
    assert!(trouble("account", "no/such/list").contains("no/such/list: "));
    for (answerer, why) in [
        ("no-such-program", "cannot be run"),
        ("recorded:no-such-record", "no-such-record: "),
        ("", "has no name"),
        ("false", "died"),
        ("true", "0 answers to 3 lines"),
        ("sleep 60", "did not end"),
        ("yes", "without end"),
    ] {
        let said = trouble(answerer, &list);
        assert!(said.contains(why), "{answerer}: {said}");
    }
    for (does, why) in [
        (
            "head -n 1 | account; exit 3",
            "after 1 answers; none to `room`",
        ),
        (
            "account | head -n 2",
            "2 answers to 3 lines; none to `state`",
        ),
        ("account; echo ?", "4 answers to 3 lines"),
        ("account | head -c -1", "no line ending"),
        ("account; exec >&-; exec sleep 60", "did not end"),
    ] {
        let said = trouble(&script("trouble", does), &list);
        assert!(said.contains(why), "{does}: {said}");
    }
}

#[test]
fn arguments_that_make_no_sense_are_refused() {
    for arguments in [
        &[][..],
        &["account", "account"],
        &["--limit", "x", "a", "b", "c"],
    ] {
        assert_eq!(status(&compare(arguments)), 2);
    }
}

#[test]
fn an_answerer_that_changes_its_mind_is_found_out() {
    let list = b"serial\nroom\nstate\n";
    let asked = file("asked", b"");
    let wavers = script(
        "wavers",
        &format!(
            "if [ -s '{asked}' ]; then account; else echo x >> '{asked}'; account | tr 6 7; fi"
        ),
    );
    let shown = difference("account", &wavers, list).unwrap().shown;
    assert!(shown.starts_with("what was seen"), "{shown}");
    assert!(shown.contains("room 74"), "{shown}");
}

#[test]
fn a_list_without_questions_has_no_answers() {
    for text in [&b""[..], b"\n", b"# nothing\n\n# at all"] {
        assert_eq!(asking_lines(text).count(), 0);
        assert!(difference("account", "cat /dev/null", text).is_none());
        assert!(difference("account", "account", text).is_none());
    }
}

/// Somebody who types sees each answer before the next line.
#[test]
fn the_account_answers_each_line_as_it_comes() {
    let mut account = Command::new(tools().unwrap().join("account"))
        .stdin(Stdio::piped())
        .stdout(Stdio::piped())
        .spawn()
        .unwrap();
    let mut input = account.stdin.take().unwrap();
    let mut lines = BufReader::new(account.stdout.take().unwrap()).lines();
    let (sender, answers) = mpsc::channel();
    thread::spawn(move || lines.try_for_each(|line| sender.send(line.unwrap())));
    for (asked, answer) in [
        ("serial\n# a port\n\n", "serial"),
        ("w 00 41\n", "w 41 0"),
        ("lost\ncoun", "lost"),
        ("ters\n", "counters 0 1 1 0"),
    ] {
        input.write_all(asked.as_bytes()).unwrap();
        assert_eq!(answers.recv_timeout(LIMIT).as_deref(), Ok(answer));
    }
    drop(input);
    assert!(account.wait().unwrap().success());
}
