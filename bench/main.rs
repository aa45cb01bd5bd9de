//! How fast the devices are, in units of the original's time, and how many instructions an operation takes.
//!
//!     bench                           prints the table
//!     bench count WHO WORKLOAD N      does N operations and prints nothing: what callgrind counts

mod contestants;
mod workloads;

use std::env;
use std::hint::black_box;
use std::process::{Command, ExitCode};
use std::time::Instant;

use contestants::{called, inlined, ours, Machine};
use workloads::{Workload, ALL};

const RUNS: usize = 5;
const NEVER_ABOVE: f64 = 2.0;

fn nanoseconds(workload: &Workload, machine: &mut impl Machine, sum: &mut u32) -> f64 {
    let start = Instant::now();
    *sum = black_box(workload.run(machine, workload.in_a_round));
    start.elapsed().as_nanos() as f64
}

fn median(numbers: &mut [f64]) -> f64 {
    numbers.sort_by(f64::total_cmp);
    numbers[numbers.len() / 2]
}

fn prepared<M: Machine>(workload: &Workload) -> M {
    let mut machine = M::new();
    workload.prepare(&mut machine);
    machine
}

/// One run: short rounds in turn, so that whatever else the machine does hits all alike. Answers the medians over the
/// rounds of the ratios of our time to that of the original inlined and behind a call.
fn run(workload: &Workload) -> [f64; 2] {
    let mut us: ours::Devices = prepared(workload);
    let mut inlined: inlined::Devices = prepared(workload);
    let mut called: called::Devices = prepared(workload);
    let [mut to_inlined, mut to_called] = [vec![], vec![]];
    for _ in 0..workload.operations / workload.in_a_round {
        let mut sums = [0; 3];
        let time = nanoseconds(workload, &mut us, &mut sums[0]);
        to_inlined.push(time / nanoseconds(workload, &mut inlined, &mut sums[1]));
        to_called.push(time / nanoseconds(workload, &mut called, &mut sums[2]));
        assert!(sums[0] == sums[1] && sums[0] == sums[2], "{sums:?}");
    }
    [&mut to_inlined, &mut to_called].map(|numbers| median(numbers))
}

/// `middle (lowest to highest)` of the runs, and the middle.
fn spread(mut numbers: Vec<f64>) -> (f64, String) {
    let middle = median(&mut numbers);
    let (lowest, highest) = (numbers[0], numbers[numbers.len() - 1]);
    let words = format!("{middle:.2} ({lowest:.2} to {highest:.2})");
    (middle, words)
}

// ---- Instructions

fn count(who: &str, workload: &Workload, operations: u32) {
    fn operate<M: Machine>(workload: &Workload, operations: u32) {
        black_box(workload.run(&mut prepared::<M>(workload), operations));
    }
    match who {
        "ours" => operate::<ours::Devices>(workload, operations),
        "inlined" => operate::<inlined::Devices>(workload, operations),
        _ => operate::<called::Devices>(workload, operations),
    }
}

fn all_instructions(who: &str, workload: &Workload, operations: u32) -> Option<f64> {
    let run = Command::new("valgrind")
        .args(["--tool=callgrind", "--callgrind-out-file=/dev/null"])
        .arg(env::current_exe().ok()?)
        .args(["count", who, workload.name, &operations.to_string()])
        .output()
        .ok()?;
    let said = String::from_utf8_lossy(&run.stderr).into_owned();
    let collected = said.lines().find_map(|l| l.split("Collected : ").nth(1))?;
    collected.trim().parse().ok()
}

/// Instructions for one operation: what 2,000 operations take beyond what 1,000 take.
fn instructions(who: &str, workload: &Workload) -> String {
    let of = |operations| all_instructions(who, workload, operations);
    match (of(1_000), of(2_000)) {
        (Some(fewer), Some(more)) => format!("{:.1}", (more - fewer) / 1_000.0),
        _ => "no valgrind".to_string(),
    }
}

// ---- The table

fn table() -> ExitCode {
    println!("| operation | of the original's time | of its time behind a call | instructions | the original's | behind a call |");
    println!("|---|---|---|---|---|---|");
    let mut slowest = 0f64;
    for workload in &ALL {
        let runs: Vec<[f64; 2]> = (0..RUNS).map(|_| run(workload)).collect();
        let column = |place: usize| spread(runs.iter().map(|run| run[place]).collect());
        let [(ratio, to_inlined), (_, to_called)] = [column(0), column(1)];
        slowest = slowest.max(ratio);
        let [us, inlined, called] =
            ["ours", "inlined", "called"].map(|w| instructions(w, workload));
        println!(
            "| {} | {to_inlined} | {to_called} | {us} | {inlined} | {called} |",
            workload.operation
        );
    }
    if slowest > NEVER_ABOVE {
        println!("slower than {NEVER_ABOVE} times the original");
        return ExitCode::FAILURE;
    }
    ExitCode::SUCCESS
}

fn main() -> ExitCode {
    let arguments: Vec<String> = env::args().skip(1).collect();
    let words: Vec<&str> = arguments.iter().map(String::as_str).collect();
    let named = |name: &str| ALL.iter().find(|workload| workload.name == name);
    match words[..] {
        [] => table(),
        ["count", who, name, operations] => {
            let (workload, operations) = (named(name), operations.parse());
            count(
                who,
                workload.expect("a workload"),
                operations.expect("a number"),
            );
            ExitCode::SUCCESS
        }
        _ => {
            eprintln!("usage: bench [count ours|inlined|called WORKLOAD N]");
            ExitCode::from(2)
        }
    }
}
