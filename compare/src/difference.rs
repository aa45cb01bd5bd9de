//! Says whether two answerers agree on a list and, if not, shows it with the shortest run it can find.

use std::iter::successors;
use std::thread;
use std::time::Duration;

use crate::answerer::{lines, Answerer};
use crate::command_line::Trouble;
use crate::format::{asking_lines, is_passed_over, is_start};
use crate::rows::Sides;
use crate::shrink::{cut_behind, shrink, Line};

pub struct Pair {
    pub left: Answerer,
    pub right: Answerer,
    /// Whether the left one is vm-superio, and they are to differ in the rows.
    pub rows: bool,
    /// How long an answerer may take for a list.
    pub limit: Duration,
}

/// A run on which two answerers differ.
pub struct Difference {
    /// The line of the whole list at which they were first seen to differ, counted from 1.
    pub line_number: usize,
    /// How many lines the run has.
    pub length: usize,
    /// The run, with what both answer.
    pub shown: String,
}

impl Pair {
    /// How the two differ on a list, if they do.
    pub fn compare(&self, list: &[u8]) -> Result<Option<Difference>, Trouble> {
        let answers = self.ask(list)?;
        let Some((place, why)) = self.first_fault(list, &answers) else {
            return Ok(None);
        };
        let mut asked: Vec<Line> = asking_lines(list).take(place + 2).map(Line::from).collect();
        cut_behind(&mut asked, place);
        let (run, shown) = match self.shortest(&asked) {
            Some(run) => {
                let list = run.join(&b'\n');
                let answers = self.ask(&list)?;
                let why = self.first_fault(&list, &answers).map(|(_, why)| why);
                let shown = self.shown(&run, &answers, 0);
                let why = why.unwrap_or_default();
                (
                    run,
                    format!("the shortest run found that shows it:\n{shown}{why}"),
                )
            }
            None => {
                let start = asked.iter().rposition(|line| is_start(line)).unwrap_or(0);
                let run = asked[start..].to_vec();
                let shown = self.shown(&run, &answers, start);
                let seen = "one of them is a record, or does not answer alike twice";
                (run, format!("what was seen ({seen}):\n{shown}{why}"))
            }
        };
        Ok(Some(Difference {
            line_number: line_number(list, place),
            length: run.len(),
            shown,
        }))
    }

    /// Both answers to a list, asked for at once.
    fn ask(&self, list: &[u8]) -> Result<[Vec<u8>; 2], Trouble> {
        thread::scope(|scope| {
            let left = scope.spawn(|| self.left.answers(list, self.limit));
            let right = self.right.answers(list, self.limit);
            let left = left.join().map_err(|_| "an answerer could not be asked")?;
            Ok([left?, right?])
        })
    }

    /// The first place where the answers are not as they should be, and what there is to say about it.
    fn first_fault(&self, list: &[u8], [left, right]: &[Vec<u8>; 2]) -> Option<(usize, String)> {
        let mut sides = self.rows.then(Sides::default);
        let answers = lines(left).zip(lines(right)).enumerate();
        let mut asked = asking_lines(list).zip(answers);
        asked.find_map(|(line, (place, (left, right)))| match &mut sides {
            None => (left != right).then_some((place, String::new())),
            Some(sides) => {
                let why = sides.fault(line, [left, right])?;
                Some((place, format!("  ({why})\n")))
            }
        })
    }

    /// The shortest run found, or none if the difference cannot be had again.
    fn shortest(&self, asked: &[Line]) -> Option<Vec<Line>> {
        if self.left.is_record || self.right.is_record {
            return None;
        }
        let mut differ = |run: &[Line]| {
            let list = run.join(&b'\n');
            let (place, _) = self.first_fault(&list, &self.ask(&list).ok()?)?;
            Some(place)
        };
        // Mostly the end of a long list is enough. The last is the whole.
        let lengths = successors(Some(16), |length| Some(length * 4));
        let lengths = lengths.take_while(|length| *length < asked.len());
        let mut tails = lengths
            .chain([asked.len()])
            .map(|length| &asked[asked.len() - length..]);
        let run = tails.find(|run| differ(run).is_some())?;
        Some(shrink(run.to_vec(), &mut differ))
    }

    /// Each line with its answer, and with the other one where they differ.
    fn shown(&self, run: &[Line], [left, right]: &[Vec<u8>; 2], skipped: usize) -> String {
        let answers = lines(left).zip(lines(right)).skip(skipped);
        let row = |(asked, (left, right)): (&Line, (&[u8], &[u8]))| {
            let row = format!("  {} => {}", readable(asked), readable(left));
            match left == right {
                true => row + "\n",
                false => format!("{row}, but {} by {}\n", readable(right), self.right.name),
            }
        };
        run.iter().zip(answers).map(row).collect()
    }
}

/// A line without its ending, unprintable bytes spelled out, and its middle left out if it is very long.
fn readable(line: &[u8]) -> String {
    let line = line.strip_suffix(b"\n").unwrap_or(line);
    if line.len() <= 400 {
        return line.escape_ascii().to_string();
    }
    let [start, end] = [&line[..20], &line[line.len() - 20..]].map(<[u8]>::escape_ascii);
    format!("{start} ... {end} ({} bytes)", line.len())
}

/// The number, counted from 1, of the line of a list that got the answer at `place`.
fn line_number(list: &[u8], place: usize) -> usize {
    let lines = list.split(|&byte| byte == b'\n').enumerate();
    let mut asking = lines.filter(|(_, line)| !is_passed_over(line));
    asking.nth(place).map_or(0, |(index, _)| index + 1)
}
