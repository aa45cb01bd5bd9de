//! Something that answers lists: a program, or a file with answers that were recorded.

use std::io::{Read, Write};
use std::path::{Path, PathBuf};
use std::process::{Child, Command, Stdio};
use std::thread;
use std::time::{Duration, Instant};

use crate::command_line::Trouble;
use crate::format::asking_lines;

/// The folder of the running program, where the judge's other programs lie.
pub fn tools() -> Result<PathBuf, Trouble> {
    let mut path = std::env::current_exe()?;
    path.pop();
    Ok(path)
}

pub struct Answerer {
    pub name: String,
    /// Whether it answers only the list that it was recorded on.
    pub is_record: bool,
    /// The program that gives the answers, and its arguments.
    words: Vec<String>,
}

impl Answerer {
    /// Finds an answerer by what the user calls it: `recorded:FILE`, one of the judge's own programs, which
    /// lie beside the running one, or any other. A program's arguments follow it after spaces.
    pub fn named(name: &str) -> Result<Answerer, Trouble> {
        let record = name.strip_prefix("recorded:");
        let mut words = match record {
            Some(file) => vec!["cat", "--", file],
            None if Path::new(name).is_file() => vec![name],
            None => name.split_whitespace().collect(),
        };
        let program = words.first_mut().ok_or("an answerer has no name")?;
        let own = tools()?.join(&program).to_string_lossy().into_owned();
        if Path::new(&own).is_file() {
            *program = &own;
        }
        Ok(Answerer {
            name: name.to_string(),
            is_record: record.is_some(),
            words: words.into_iter().map(String::from).collect(),
        })
    }

    /// One answer for each line of the list that asks for one. The program has `limit` to give them.
    pub fn answers(&self, list: &[u8], limit: Duration) -> Result<Vec<u8>, Trouble> {
        let answers = self.run(list, limit)?;
        let (asked, answered) = (asking_lines(list).count(), lines(&answers).count());
        if answered != asked {
            let none_to = first_unanswered(list, answered);
            return Err(self.trouble(format!("{answered} answers to {asked} lines{none_to}")));
        }
        if asked > 0 && !answers.ends_with(b"\n") {
            return Err(self.trouble("the last answer has no line ending"));
        }
        Ok(answers)
    }

    fn trouble(&self, why: impl std::fmt::Display) -> Trouble {
        format!("`{}`: {why}", self.name).into()
    }

    fn run(&self, list: &[u8], limit: Duration) -> Result<Vec<u8>, Trouble> {
        let mut child = Command::new(&self.words[0])
            .args(&self.words[1..])
            .stdin(Stdio::piped())
            .stdout(Stdio::piped())
            .spawn()
            .map_err(|error| self.trouble(format!("cannot be run: {error}")))?;
        let most = 4096 + asking_lines(list).map(longest_answer).sum::<usize>();
        let printed = talk(&mut child, list, most, limit);
        if printed.is_none() {
            // It may have ended by itself in the meantime: then there is nothing to kill.
            let _ = child.kill();
        }
        let status = child.wait()?;
        let printed = printed
            .ok_or_else(|| self.trouble(format!("did not end within {} s", limit.as_secs())))?;
        if printed.len() > most {
            return Err(self.trouble("answers without end"));
        }
        if !status.success() {
            let answered = lines(&printed).count();
            let none_to = first_unanswered(list, answered);
            return Err(self.trouble(format!("died ({status}) after {answered} answers{none_to}")));
        }
        Ok(printed)
    }
}

/// No answer to a line is longer. A `state` shows the bytes that wait, up to 1,024; so does a `save`.
fn longest_answer(line: &[u8]) -> usize {
    match line {
        b"state" | b"save" => 2200,
        _ => 200,
    }
}

/// Sends the list and receives what is printed, but one byte more than `most` at most; at once in two
/// threads so that neither side waits for the other for ever. None if the program does not end within
/// the limit; the threads end with their pipes.
fn talk(child: &mut Child, list: &[u8], most: usize, limit: Duration) -> Option<Vec<u8>> {
    let deadline = Instant::now() + limit;
    let mut input = child.stdin.take()?;
    let output = child.stdout.take()?;
    let list = list.to_vec();
    // A program that ends early closes its input. The count of its answers will tell.
    thread::spawn(move || drop(input.write_all(&list)));
    let reader = thread::spawn(move || {
        let mut printed = Vec::new();
        let _ = output.take(most as u64 + 1).read_to_end(&mut printed);
        printed
    });
    while !reader.is_finished() || matches!(child.try_wait(), Ok(None)) {
        if Instant::now() >= deadline {
            return None;
        }
        thread::sleep(Duration::from_micros(100));
    }
    reader.join().ok()
}

fn first_unanswered(list: &[u8], answered: usize) -> String {
    let line = asking_lines(list).nth(answered);
    line.map_or(String::new(), |line| {
        format!("; none to `{}`", line.escape_ascii())
    })
}

/// Answers, line by line.
pub fn lines(answers: &[u8]) -> impl Iterator<Item = &[u8]> {
    answers.split_inclusive(|&byte| byte == b'\n')
}
