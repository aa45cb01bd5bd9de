//! The list of the format's own cases: every kind of line, well-formed and not, for every device and for
//! none, and the limits of a line's length. Its last line has no ending.

use super::{malformed, List, Options};
use crate::format::LONGEST_LINE;

/// One line of every form. Each device has some of them and must refuse the others.
pub const WELL_FORMED: &str = "\
r 00
w 04 fe
b
b 616263
line
room
lost
counters
r 0000 aabbccdd
w 0008 05000000
now 5
now 0000000000000000000000000000000018446744073709551615
r 0000 aabbccdd
save
restore
restore 0c 00 01 04 03 61 08 b0 55 6162
restore 0c 00 03 06 03 61 08 b0 55 -
save
restore 00000005 fffffffffffffc18 80000000 00000001 00000000
restore
restore 00000005 7fffffffffffffff 80000000 00000003 ffffffff
save
counters
state";

pub fn list(options: &Options) -> Vec<u8> {
    let mut list = List::new(options);
    cases(&mut list);
    for device in &options.devices {
        list.add(device.word());
        cases(&mut list);
        list.add(device.word());
        long_lines(&mut list);
        list.add(device.word());
        list.add(WELL_FORMED);
    }
    list.text.pop();
    list.text
}

fn cases(list: &mut List) {
    for lines in [
        malformed::LINES,
        malformed::SAVES,
        malformed::SIZES,
        malformed::ABOUT_THE_LINE,
        malformed::ABOUT_COUNTERS,
    ] {
        lines.iter().for_each(|line| list.add(line));
    }
    list.add("\n# a line that gets no answer\nstate");
    list.add(WELL_FORMED);
}

/// Lines as long as a line may be, and longer.
fn long_lines(list: &mut List) {
    let padded = |start: &str, padding: &str, length: usize| {
        start.to_string() + &padding.repeat(length - start.len())
    };
    for length in [LONGEST_LINE, LONGEST_LINE + 1, LONGEST_LINE + 2, 100_000] {
        list.add(padded("b ", "5", length));
        list.add(padded("now ", "0", length));
        // The longest state that can be asked for has an odd number of characters.
        list.add(padded(
            "restore 0c 00 00 01 03 61 08 b0 00 ",
            "5",
            length - 1,
        ));
        list.add(padded("", "x", length));
        list.add(padded("r 00", " ", length));
        list.add(padded("#", " ", length));
        list.add("state");
    }
}

#[cfg(test)]
mod tests {
    use super::*;

    #[test]
    fn the_last_line_has_no_ending() {
        assert!(list(&Options::default()).ends_with(b"\nstate"));
    }
}
