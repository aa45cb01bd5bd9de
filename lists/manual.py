#!/usr/bin/env python3
"""The manual's column of the lists, written as definitions and theorems of crates/manual_lists.

    manual.py            write the crate's generated files
    manual.py --check    say whether they are what the lists say; the last line is `manual: N passed, M failed`

The column is what the chip of the manual, out of reset, answers to the accesses of the list: of
`access => answer | manual: answer` the second, of `access => answer` the one that there is. A theorem for each list says
that the chip, as crates/pc16550d, crates/pl031 and crates/i8042 define it, answers so. All lists of lists/differences are
held to it, and every other list that has such a column; but not a list with a line
`# The manual's answers are not proved: why`.

Beside the answers of docs/REPLAY.md the column knows `not said`, where the manual is silent, and `as before`, for a register
that a reset leaves alone. A serial port's N is 1 where the interrupt pin rises at some moment of the access, else 0; `b T` is
how many bytes come. `room`, `state`, `save` and `counters` ask the device, `lost` tells it of the host's sink: there is nothing
like them on a chip, and they have no column. Nor does a chip tell how many bytes FCR threw away. A clock's `w` has no answer, and `now` lets the seconds pass.
A port of another size is the same chip, whose size is 16.

Exit status: 0 done, or all as told; 1 some file differs; 2 a list cannot be used.
"""
import glob
import os
import re
import sys

sys.dont_write_bytecode = True
from lists import Trouble, parsed, program

ROOT = os.path.dirname(os.path.dirname(os.path.abspath(__file__)))
CRATE = "crates/manual_lists"
UNPROVED = "# The manual's answers are not proved: "
# Lists in which firmware has started the manual's clock, and set it to the host's time, when that is first told.
STARTED = ["lists/guests/linux-clock-alarm.list", "lists/guests/linux-clock-start.list"]
# What the host asks of the device, and tells it of its sink; and the write of a clock's word, which a chip does not answer either.
ASKED = re.compile(r"room|state|save|counters|lost")
UNANSWERED = re.compile(ASKED.pattern + r"|w .{4} .{8}")
HEAD = "-- Written by lists/manual.py from the lists: change these.\n"
KEPT = {"00": "line.dll", "01": "line.dlm", "07": "scr"}


def numbers(digits):
    """A list of bytes, on lines that can be read."""
    each = [f"0x{digits[n:n + 2]} ∷ " for n in range(0, len(digits), 2)]
    lines = ["".join(each[n : n + 16]) for n in range(0, len(each), 16)]
    return "(" + "\n    ".join(line.rstrip() for line in lines) + (" []" if lines else "[]") + ")"


def little(digits):
    """Four bytes in memory order, as a number."""
    return f"0x{int.from_bytes(bytes.fromhex(digits), 'little'):x}"


# Of each device the accesses with their answers, as patterns, and the line that each is in the crate.
SERIAL = {
    r"serial(?: \d+)? => serial(?: \d+)?": lambda: "serial",
    r"r (..) => r (..) (\d)": lambda at, v, n: f"r 0x{at} 0x{v} {n}",
    r"r (..) => not said": lambda at: f"r? 0x{at}",
    r"r (00|01|07) => as before": lambda at: f"kept (read 0x{at}) (λ c. c.{KEPT[at]})",
    r"w (..) (..) => w -(?:-|\d+) (\d)": lambda at, v, n: f"w 0x{at} 0x{v} {n}",
    r"w (..) (..) => w ([0-9a-f]{2}) (\d)": lambda at, v, sent, n: f"sends 0x{at} 0x{v} 0x{sent} {n}",
    r"b ?((?:..)*) => b (\d+) (\d)": lambda bytes_, t, n: f"b {numbers(bytes_)} {t} {n}",
    r"line => line ([01])": lambda l: f"level {l}",
}
CLOCK = {
    r"clock => clock": lambda: "clock",
    r"now (\d+) => now": lambda t: f"now {int(t)}",
    r"r (....) .{8} => r (.{8}) ok": lambda at, v: f"r 0x{at} {little(v)}",
    r"r (....) .{8} => not said": lambda at: f"r? 0x{at}",
    r"w (....) (.{8}) => w (?:ok|invalid)": lambda at, v: f"w 0x{at} {little(v)}",
}
RESETS = {
    r"i8042 => i8042": lambda: None,
    r"w (..) (..) => w reset": lambda at, v: f"w 0x{at} 0x{v} true",
    r"w (..) (..) => w --": lambda at, v: f"w 0x{at} 0x{v} false",
}

# The word that a list of the device begins with: its accesses, the module, what the definitions use, what the theorems use and speak of.
DEVICES = {
    "serial": (
        SERIAL,
        "Serial",
        "use Rattle.pc16550d.specs.Chip.{read}\n"
        "use Rattle.manual_lists.specs.Serial.{Line, serial, kept, level, r, r?, w, sends, b}\n",
        "use Rattle.pc16550d.specs.Chip.{Chip}\nuse Rattle.pc16550d.proofs.Computing.{computing}\n",
        "(c : Chip) → ",
        "c ",
        "computing",
    ),
    "clock": (
        CLOCK,
        "Clock",
        "use Rattle.manual_lists.specs.Clock.{Line, clock, now, r, r?, w}\n",
        "use Prim.Native.Nat.{ℕ}\nuse Rattle.pl031.specs.Chip.{Chip}\nuse Rattle.pl031.proofs.Computing.{computing}\n",
        "(c : Chip) (t : ℕ) → ",
        "c t ",
        "computing",
    ),
    "i8042": (
        RESETS,
        "Resets",
        "use Rattle.manual_lists.specs.Resets.{Line, w}\n",
        "use Rattle.i8042.specs.I8042.{manual_resets}\n",
        "",
        "",
        "manual_resets",
    ),
}


def has_column(path):
    with open(path, encoding="ascii") as file:
        return re.search(r"^[^#].*\|\s*manual:", file.read(), re.M)


def line_of(accesses, access, answer):
    for pattern, line in accesses.items():
        match = re.fullmatch(pattern, f"{access} => {answer}")
        if match:
            return line(*match.groups())
    raise Trouble(f"`{access}` is not answered `{answer}` by a chip")


def unproved(rows):
    """Why a list is not proved, or None."""
    return next((text[len(UNPROVED) :] for text, _, _ in rows if text.startswith(UNPROVED)), None)


def lines_of(name, rows):
    """The device of a list, and its lines in the crate."""
    device = next((access for _, access, _ in rows if access is not None), None)
    if device not in DEVICES:
        raise Trouble(f"{name}: begins with no device")
    lines = []
    for number, (text, access, answer) in enumerate(rows, 1):
        try:
            if access is None:
                continue
            if UNANSWERED.fullmatch(access) and "manual:" in text:
                raise Trouble(f"`{access}` has no answer of a chip")
            if ASKED.fullmatch(access):
                continue
            lines.append(line_of(DEVICES[device][0], access, answer))
            if name in STARTED and access.startswith("now ") and not any(line.startswith("now ") for line in lines[:-1]):
                lines += ["w 0x000c 0x1", "w 0x0008 " + access.split()[1]]
        except Trouble as trouble:
            raise Trouble(f"{name}:{number}: {trouble}")
    return device, [line for line in lines if line]


def told_lists():
    """The lists that tell of the manual: name and rows."""
    for path in sorted(glob.glob(os.path.join(ROOT, "lists/**/*.list"), recursive=True)):
        name = os.path.relpath(path, ROOT)
        if name.startswith("lists/differences/") or has_column(path):
            yield name, parsed(path, "manual")


def files():
    """The crate's generated files: name and text."""
    lists = {device: {} for device in DEVICES}
    for name, rows in told_lists():
        if not unproved(rows):
            device, lines = lines_of(name, rows)
            short = os.path.basename(name)[: -len(".list")].replace("-", "_")
            if short in lists[device]:
                raise Trouble(f"{name}: another list has this name")
            lists[device][short] = (name, lines)
    for device, (_, module, defining, proving, premises, arguments, unfolded) in DEVICES.items():
        constants = ", true, false" if device == "i8042" else ""
        told = HEAD + f"use Rattle.std.specs.Prelude.{{List, [], ◌∷◌{constants}}}\n" + defining
        proved = HEAD + "use mathlib.Core.Path.{refl}\n" + proving
        proved += f"use Rattle.manual_lists.specs.{module}.{{AsTold}}\n"
        proved += f"use Rattle.manual_lists.specs.{module}Lists as lists\n"
        for name, (path, lines) in lists[device].items():
            told += f"\n-- {path}\nabbrev pub {name} : List Line\n{name} =\n    " + "\n    ∷ ".join(lines) + "\n    ∷ []\n"
            proved += f"\npub {name} : {premises}AsTold {arguments}lists.{name}\nunfolding {unfolded}\n{name} {arguments}= refl\n"
        yield f"{CRATE}/specs/{module}Lists.antt", told
        yield f"{CRATE}/proofs/{module}.antt", proved


def differs(name, text):
    try:
        with open(os.path.join(ROOT, name), encoding="utf-8") as file:
            return file.read() != text
    except OSError:
        return True


def main(words):
    if words == ["--check"]:
        all_files = list(files())
        different = [name for name, text in all_files if differs(name, text)]
        for name, rows in told_lists():
            if unproved(rows):
                print(f"not proved: {name}: {unproved(rows)}")
        for name in different:
            print(f"FAILED {name} is not what the lists say: python3 lists/manual.py writes it")
        print(f"manual: {len(all_files) - len(different)} passed, {len(different)} failed")
        return min(len(different), 1)
    if words:
        raise Trouble("usage: manual.py [--check]")
    for name, text in files():
        with open(os.path.join(ROOT, name), "w", encoding="utf-8") as file:
            file.write(text)
    return 0


if __name__ == "__main__":
    program("manual.py", main)
