//! Finds a shorter run that still shows a difference.

use crate::format;

pub type Line = Vec<u8>;

/// How often a shorter run may be tried. It bounds the time, and only a very long run comes near it.
const MOST_TRIALS: usize = 4_000;

/// Makes a run that shows a difference shorter, as long as it still shows one.
/// `differs` answers at which line of a run the first difference is seen.
pub fn shrink(run: Vec<Line>, differs: &mut dyn FnMut(&[Line]) -> Option<usize>) -> Vec<Line> {
    let trials = 0;
    let mut shrinker = Shrinker {
        run,
        differs,
        trials,
    };
    loop {
        let before = shrinker.run.clone();
        shrinker.cut();
        shrinker.ask_earlier();
        shrinker.fewer_bytes();
        shrinker.input_at_once();
        if shrinker.run == before {
            return before;
        }
    }
}

/// Cuts off what follows a place. A `lost` stays with the line before it, which may depend on it.
pub fn cut_behind(run: &mut Vec<Line>, place: usize) {
    let is_lost = run.get(place + 1).is_some_and(|next| next == b"lost");
    run.truncate(place + 1 + usize::from(is_lost));
}

struct Shrinker<'a> {
    run: Vec<Line>,
    differs: &'a mut dyn FnMut(&[Line]) -> Option<usize>,
    trials: usize,
}

impl Shrinker<'_> {
    /// Takes a run in place of the present one if it shows a difference; what follows that is cut off.
    fn try_run(&mut self, mut run: Vec<Line>) -> bool {
        if self.trials == MOST_TRIALS {
            return false;
        }
        self.trials += 1;
        let Some(place) = (self.differs)(&run) else {
            return false;
        };
        cut_behind(&mut run, place);
        self.run = run;
        true
    }

    /// Removes pieces of the run, large ones first and single lines last.
    fn cut(&mut self) {
        let mut size = self.run.len().div_ceil(2);
        loop {
            let before = self.run.len();
            let mut end = before;
            while end > 0 {
                let start = end.saturating_sub(size);
                let mut shorter = self.run.clone();
                shorter.drain(start..end);
                self.try_run(shorter);
                end = start.min(self.run.len());
            }
            if size == 1 && self.run.len() == before {
                return;
            }
            size = size.div_ceil(2);
        }
    }

    /// What is seen at the end may long have stood in the state, or in the counters.
    fn ask_earlier(&mut self) {
        for question in ["state", "counters"] {
            let (mut least, mut most) = (0, self.run.len().saturating_sub(1));
            while least < most {
                let length = (least + most) / 2;
                let mut shorter = self.run[..length].to_vec();
                shorter.push(Line::from(question));
                match self.try_run(shorter) {
                    true => most = length.min(self.run.len() - 1),
                    false => least = length + 1,
                }
            }
        }
    }

    /// Tries each input, and each state that is brought back, with one byte or two.
    fn fewer_bytes(&mut self) {
        for (place, bytes) in (0..self.run.len()).flat_map(|place| [(place, 1), (place, 2)]) {
            let mut shorter = self.run.clone();
            let Some(line) = shorter.get_mut(place) else {
                return;
            };
            let digits = line.iter().rposition(|&byte| byte == b' ');
            let length = digits.map_or(line.len(), |space| space + 1 + 2 * bytes);
            let has_bytes = line.starts_with(b"b ") || line.starts_with(b"restore ");
            if has_bytes && line.len() > length {
                line.truncate(length);
                self.try_run(shorter);
            }
        }
    }

    /// Bytes may have come in through the loop, one by one, which no cut can shorten. Tries to let one
    /// wait from the start, or as many as the buffer holds.
    fn input_at_once(&mut self) {
        for size in [1, 64] {
            let Some(start) = self.run.iter().rposition(|line| format::is_start(line)) else {
                return;
            };
            let before = self.run.clone();
            let mut run = before.clone();
            run.insert(start + 1, format!("b {}", "00".repeat(size)).into_bytes());
            if self.try_run(run) {
                self.cut();
            }
            if self.run.len() >= before.len() {
                self.run = before;
            }
        }
    }
}

#[cfg(test)]
mod tests {
    use super::*;

    /// Shrinks a run that shows a difference at the first place where `shows` holds of the lines so far.
    fn shrunk(text: &str, shows: impl Fn(&[Line]) -> bool) -> String {
        let run = text.lines().map(Line::from).collect();
        let shrunk = shrink(run, &mut |run| {
            (0..run.len()).find(|&place| shows(&run[..=place]))
        });
        String::from_utf8(shrunk.join(&b'\n')).unwrap()
    }

    #[test]
    fn only_the_lines_that_matter_are_left() {
        let accesses = (0..200).map(|value| format!("w 07 {value:02x}\nr 07\n"));
        let accesses = accesses.collect::<String>();
        let text = format!("serial\n{accesses}w 03 80\nr 06\nr 00\nstate\nroom");
        let expected = ["w 03 80", "r 00"].map(Line::from);
        let found = shrunk(&text, |run| {
            run.contains(&expected[0]) && run.ends_with(&expected[1..])
        });
        assert_eq!(found.as_bytes(), expected.join(&b'\n'));
    }

    #[test]
    fn a_question_is_asked_as_early_as_it_shows_the_difference() {
        let text = format!("serial\nb 21\n{}", "r 00\n".repeat(40));
        let found = shrunk(&text, |run| {
            let reads = run.iter().filter(|line| *line == b"r 00").count();
            run.contains(&Line::from("b 21"))
                && (reads == 40 || run.ends_with(&[Line::from("state")]))
        });
        assert_eq!(found, "b 21\nstate");
    }

    #[test]
    fn an_input_has_as_few_bytes_as_show_the_difference() {
        let found = shrunk("serial\nb 61626364\nr 00\nr 00\nr 00\nr 00", |run| {
            run.iter().filter(|line| *line == b"r 00").count() > 1
                && run.iter().any(|line| line.starts_with(b"b 6162"))
        });
        assert_eq!(found, "b 6162\nr 00\nr 00");
    }

    #[test]
    fn a_loss_stays_with_the_write_before_it() {
        let run = "serial\nr 05\nw 00 55\nlost\nr 05\nlost"
            .lines()
            .map(Line::from);
        // The write differs, and only where its byte is lost.
        let found = shrink(run.collect(), &mut |run| {
            run.windows(2)
                .position(|lines| lines[0] == b"w 00 55" && lines[1] == b"lost")
        });
        assert_eq!(found, ["w 00 55", "lost"].map(Line::from));
    }

    #[test]
    fn a_buffer_is_filled_at_once() {
        let text = format!("serial\nw 04 10\n{}state", "w 00 55\n".repeat(65));
        let bytes = |line: &Line| match line.strip_prefix(b"b ") {
            Some(digits) => digits.len() / 2,
            None => usize::from(line.starts_with(b"w 00")),
        };
        let found = shrunk(&text, |run| {
            run[0] == b"serial" && run.iter().map(bytes).sum::<usize>() > 64
        });
        assert_eq!(found, format!("serial\nb {}\nw 00 55", "00".repeat(64)));
    }
}
