#!/usr/bin/env python3
"""Lists of device accesses, told and checked.

    lists.py tell REPLAY FILE          print each access beside what REPLAY answers
    lists.py check REPLAY FILE...      hold what REPLAY answers to the answers in each FILE
    lists.py original REPLAY FILE...   hold REPLAY, which is vm-superio or an account of it, to what each FILE says of it

A line of a list is `access => answer`, or `access => answer | manual: answer` where the chip's manual would answer otherwise,
or `access => answer | original: answer` where vm-superio does; `tell` takes a plain `access` too. Empty lines and lines that
begin with `#` are for the reader. REPLAY is a program that speaks the replay format (docs/REPLAY.md), with its arguments if it
has some. (The manual's answers are held to the chips' definitions, by proof: manual.py.) Exit status: 0 all as told, 1 some
answer differs, 2 a list or REPLAY cannot be used.
"""
import os
import subprocess
import sys


class Trouble(Exception):
    """Something that is not an answer of the device: a bad file, a program that cannot be run."""


def told(answers, whose):
    """Of `answer | manual: answer | original: answer` the one of `whose`, or else the first, which is ours."""
    ours, *others = [answer.strip() for answer in answers.split("|")]
    of_others = dict(other.split(": ", 1) for other in others if ": " in other)
    return of_others.get(whose, ours)


def parsed(path, whose="ours"):
    """The lines of a list as (text, access, answer); access is None for a reader's line, answer where none is told."""
    try:
        with open(path, encoding="ascii") as file:
            lines = file.read().splitlines()
    except (OSError, UnicodeDecodeError) as error:
        raise Trouble(f"{path}: {error}")
    rows = []
    for line in lines:
        if not line or line.startswith("#"):
            rows.append((line, None, None))
            continue
        access, arrow, answers = line.partition("=>")
        rows.append((line, access.strip(), told(answers, whose) if arrow else None))
    return rows


def answered(replay, rows):
    """What `replay` answers to each access of `rows`, in order."""
    accesses = [access for _, access, _ in rows if access is not None]
    text = "".join(access + "\n" for access in accesses)
    command = [replay] if os.path.exists(replay) else replay.split() or [replay]
    try:
        run = subprocess.run(command, input=text.encode(), stdout=subprocess.PIPE, check=True)
    except (OSError, subprocess.CalledProcessError) as error:
        raise Trouble(f"{replay}: {error}")
    answers = run.stdout.decode("ascii", "replace").splitlines()
    if len(answers) != len(accesses):
        raise Trouble(f"{replay}: {len(accesses)} accesses and {len(answers)} answers")
    return answers


def tell(replay, path):
    rows = parsed(path)
    answers = iter(answered(replay, rows))
    for text, access, _ in rows:
        print(text if access is None else f"    {access:<44}  {next(answers)}")
    return 0


def check(replay, path, whose):
    """1 where an answer differs from the told one, with the first such line; else 0."""
    rows = parsed(path, whose)
    for number, (_, access, answer) in enumerate(rows, 1):
        if access is not None and answer is None:
            raise Trouble(f"{path}:{number}: no `=>` between access and answer")
    answers = iter(answered(replay, rows))
    for number, (_, access, expected) in enumerate(rows, 1):
        if access is None:
            continue
        answer = next(answers)
        if answer != expected:
            print(f"FAILED {path}:{number}: {access}: told `{expected}`, answered `{answer}`")
            return 1
    print(f"ok {path}")
    return 0


def main(words):
    if len(words) == 3 and words[0] == "tell":
        return tell(words[1], words[2])
    if len(words) >= 3 and words[0] in ("check", "original"):
        failed = sum([check(words[1], path, words[0]) for path in words[2:]])
        print(f"lists: {len(words) - 2 - failed} passed, {failed} failed")
        return min(failed, 1)
    raise Trouble("usage: lists.py tell REPLAY FILE | lists.py check REPLAY FILE... | lists.py original REPLAY FILE...")


def program(name, main):
    """Ends with what `main` makes of the program's arguments, or with 2 and the trouble that it met."""
    try:
        sys.exit(main(sys.argv[1:]))
    except Trouble as trouble:
        print(f"{name}: {trouble}", file=sys.stderr)
        sys.exit(2)


if __name__ == "__main__":
    program("lists.py", main)
