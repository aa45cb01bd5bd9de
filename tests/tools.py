#!/usr/bin/env python3
"""The tools around the devices can fail: each is run on something broken and must say so.

The last line is `tools: N passed, M failed`.
"""
import functools
import importlib.machinery
import importlib.util
import os
import re
import shutil
import subprocess
import sys
import tempfile

sys.dont_write_bytecode = True
ROOT = os.path.dirname(os.path.dirname(os.path.abspath(__file__)))
LISTS = [sys.executable, os.path.join(ROOT, "lists/lists.py")]


def status(*command):
    return subprocess.run(command, stdout=subprocess.DEVNULL, stderr=subprocess.DEVNULL, check=False).returncode


def script(folder, text):
    """A program in `folder` that answers whatever it is given with `text`."""
    path = os.path.join(folder, "answerer")
    with open(path, "w", encoding="ascii") as file:
        file.write(f"#!/bin/sh\ncat > /dev/null\nprintf '{text}'\n")
    os.chmod(path, 0o755)
    return path


def written(folder, text):
    path = os.path.join(folder, "some.list")
    with open(path, "w", encoding="ascii") as file:
        file.write(text)
    return path


def lists_status(answers, text):
    with tempfile.TemporaryDirectory() as folder:
        return status(*LISTS, "check", script(folder, answers), written(folder, text))


def does_a_list_that_holds_pass():
    return lists_status("i8042\\nr 00\\n", "i8042 => i8042\n# why\n\nr 00 => r 00 | manual: r 55\n") == 0


def does_one_wrong_answer_fail():
    return lists_status("i8042\\nr 01\\n", "i8042 => i8042\nr 00 => r 00\n") == 1


def is_an_answer_too_few_trouble():
    return lists_status("i8042\\n", "i8042 => i8042\nr 00 => r 00\n") == 2


def is_a_line_without_an_answer_trouble():
    return lists_status("i8042\\n", "i8042\n") == 2


def is_a_plain_access_told():
    with tempfile.TemporaryDirectory() as folder:
        return status(*LISTS, "tell", script(folder, "i8042\\n"), written(folder, "i8042\n")) == 0


def is_a_missing_list_trouble():
    with tempfile.TemporaryDirectory() as folder:
        return status(*LISTS, "check", script(folder, ""), os.path.join(folder, "none.list")) == 2


def is_a_missing_program_trouble():
    with tempfile.TemporaryDirectory() as folder:
        return status(*LISTS, "check", os.path.join(folder, "none"), written(folder, "i8042 => i8042\n")) == 2


def loaded(path):
    """A program of the repository as a module."""
    loader = importlib.machinery.SourceFileLoader(os.path.basename(path), os.path.join(ROOT, path))
    module = importlib.util.module_from_spec(importlib.util.spec_from_loader(loader.name, loader))
    loader.exec_module(module)
    return module


def shell(command):
    return ["sh", "-c", command]


def silently(function, *arguments):
    """What a function answers, with what it prints put aside."""
    with open(os.devnull, "w", encoding="ascii") as nowhere:
        kept, sys.stdout = sys.stdout, nowhere
        try:
            return function(*arguments)
        finally:
            sys.stdout = kept


def gate_counts(command):
    """How many the gate counts of a stage as passed and as failed."""
    return silently(loaded("gate").counted, shell(command))[:2]


def does_the_gate_count_a_stage():
    return gate_counts("echo 'some: 3 passed, 0 failed'") == (3, 0)


def does_the_gate_see_a_failure():
    return gate_counts("echo '3 passed, 2 failed'; exit 1") == (3, 2)


def does_the_gate_distrust_a_count_with_a_bad_status():
    return gate_counts("echo '3 passed, 0 failed'; exit 1")[1] > 0


def does_the_gate_distrust_silence():
    return gate_counts("true")[1] > 0


def gate_fails(first, then):
    """How many of its stages the gate counts as failed."""
    first, then = ([shell(command) for command in stages] for stages in (first, then))
    results = silently(loaded("gate").run_all, first, then)
    return sum(failed > 0 for _, (_, failed, _) in results)


GOOD = "echo '1 passed, 0 failed'"


def does_the_gate_run_all_stages():
    return gate_fails([GOOD], [GOOD, "false", GOOD]) == 1


def does_the_gate_stop_where_nothing_is_proved():
    return gate_fails(["false", GOOD], [GOOD, GOOD]) == 4


def does_the_gate_see_bad_edits():
    wrong, ok = loaded("gate").wrong_proofs, "rt: ok; handles allowed: none; must-fail edits: 8 refused"
    good = [wrong(f"{ok}; every proof and must-fail edit was done in this run\n"), wrong(f"{ok}, 0 bad; all\n")]
    return good == [None, None] and all(wrong(said) for said in [f"{ok}, 2 bad; all\n", f"{ok}, 1 of them only by a limit, 1 bad; all\n"])


def does_the_gate_want_to_be_told_that_all_is_proved():
    return bool(loaded("gate").wrong_proofs("rt: FAILED: one\n1 passed, 0 failed\n"))


def edits_verdict(words):
    return loaded("tests/edits").verdict(words)[0]


AS_IT_MUST = "refused, as it must be"
FACT = "./proofs/f/Answers.antt:1:1: error: `returns`: `omega`: the goal does not follow from what it read."
SHAPE = "./proofs/f/Answers.antt:1:1: error: `f`: `Goals` has no `returns` that can be named from here"
GONE = "(only because a proof file names what the edit took away, so this says little of the contract: change a value and keep the names)"


def is_an_edit_refused_for_a_fact_taken():
    note = "note: src/lib.rt:1:1: it is not proved that what the function ensures holds when it returns (`returns`)"
    return edits_verdict(f"{AS_IT_MUST}: {FACT}") and edits_verdict(f"{AS_IT_MUST}: {note}")


def is_an_edit_refused_for_its_shape_seen():
    return not any(edits_verdict(words) for words in [f"{AS_IT_MUST}: {SHAPE}", f"{AS_IT_MUST} {GONE}: {FACT}", AS_IT_MUST])


def is_an_edit_that_never_reached_the_prover_seen():
    limit = f"{AS_IT_MUST} (only by a limit of the prover, which gave no verdict): {FACT}"
    return not any(edits_verdict(words) for words in ["BAD EDIT: " + FACT, "NOT TRIED: " + FACT, "NOT REFUSED: " + FACT, limit])


SEVEN = """#![tactic(auto)]

ghost use Rattle.std.specs.Prelude.{◌≡◌};

pub fn seven() -> u8
    ensures { result ≡ 7 }
{
    7
}
"""
EDITS = {
    "wrong": "file: src/lib.rt\nold:     7\nnew:     8\n",
    "harmless": "file: src/lib.rt\nold:     7\nnew:     3 + 4\n",
    "no_text": "file: src/lib.rt\nold:     9\nnew:     8\n",
    "no_file": "new: 8\n",
}


@functools.lru_cache(maxsize=None)
def edits_passed():
    """Which of `EDITS` the runner of the edits passes, of a crate of one function that answers 7, proved; and its status."""
    with tempfile.TemporaryDirectory() as folder:
        files = {"crates.txt": "seven:\n", "crates/seven/src/lib.rt": SEVEN}
        files |= {f"crates/seven/must-fail/{name}.edit": text for name, text in EDITS.items()}
        for name, text in files.items():
            path = os.path.join(folder, name)
            os.makedirs(os.path.dirname(path), exist_ok=True)
            with open(path, "w", encoding="utf-8") as file:
                file.write(text)
        os.mkdir(os.path.join(folder, "tests"))
        shutil.copy(os.path.join(ROOT, "tests", "edits"), os.path.join(folder, "tests"))
        subprocess.run(["rt", "check"], cwd=os.path.join(folder, "crates", "seven"), stdout=subprocess.DEVNULL, check=True)
        run = subprocess.run([os.path.join(folder, "tests", "edits")], stdout=subprocess.PIPE, text=True, check=False)
        return set(re.findall(r"^ok +seven/(\w+):", run.stdout, re.M)), run.returncode


def is_a_wrong_answer_refused():
    return "wrong" in edits_passed()[0]


def is_a_harmless_edit_seen():
    return "harmless" not in edits_passed()[0] and edits_passed()[1] == 1


def is_an_edit_of_nothing_seen():
    return not edits_passed()[0] & {"no_text", "no_file"} and edits_passed()[1] == 1


def is_an_edit_that_was_not_tried_seen():
    edits, said = loaded("tests/edits"), f"rt: must-fail one/tried.edit: {AS_IT_MUST}: {FACT}\n"
    return silently(edits.report, said, ["one/tried"]) == 0 and silently(edits.report, said, ["one/other", "one/tried"]) == 1


def is_a_kit_that_has_changed_told_in_one_line():
    """A kit with an `rt` and no compiler for this machine."""
    with tempfile.TemporaryDirectory() as folder:
        path = os.path.join(folder, "rt")
        with open(path, "w", encoding="ascii") as file:
            file.write(f"#!/bin/sh\necho {folder}/START-HERE.md\n")
        os.chmod(path, 0o755)
        run = subprocess.run(
            [os.path.join(ROOT, "hosts/native"), "serialpost_c"],
            env={**os.environ, "PATH": folder + os.pathsep + os.environ["PATH"]},
            capture_output=True,
            text=True,
            check=False,
        )
        return run.returncode == 1 and run.stdout == "" and run.stderr.count("\n") == 1 and "the kit has changed" in run.stderr


def axioms_status(said, trusted="`libc::read`", proved="rt: one proved\n"):
    """What tests/axioms thinks of one crate of which the prover said so, and `rt ci` that it is proved."""
    with tempfile.TemporaryDirectory() as folder:
        files = {"crates.txt": "one staticlib: two\n", "docs/TRUSTED.md": trusted, "target/ci.log": proved, "target/one.said": said}
        files["hosts/native"] = f"#!/bin/sh\necho {folder}/target/one.said\n"
        for name, text in files.items():
            path = os.path.join(folder, name)
            os.makedirs(os.path.dirname(path), exist_ok=True)
            with open(path, "w", encoding="utf-8") as file:
                file.write(text)
        os.chmod(os.path.join(folder, "hosts/native"), 0o755)
        os.mkdir(os.path.join(folder, "tests"))
        shutil.copy(os.path.join(ROOT, "tests/axioms"), os.path.join(folder, "tests"))
        return status(os.path.join(folder, "tests/axioms"))


USES_READ = """axioms libc: 1 reached of the 50 declared
  libc::close
  libc::read   reached
axioms os: none reached of the 22 declared
logic=proved functions=2 axioms=1 sum=0
"""


def is_a_trusted_axiom_taken():
    return axioms_status(USES_READ) == 0


def is_an_axiom_that_nobody_trusts_seen():
    return axioms_status(USES_READ.replace("read", "write")) == 1


def is_an_axiom_without_a_name_seen():
    return axioms_status(USES_READ.replace("axioms=1", "axioms=2")) == 1


def are_foreign_functions_seen():
    own = USES_READ.replace("axioms os: none", "axioms one: none")
    return axioms_status(USES_READ.replace("axioms=1", "axioms=1 foreign=1")) == 1 and axioms_status(own) == 1


def is_a_crate_that_is_not_proved_seen():
    unproved = [USES_READ.replace("logic=proved", "logic=not-proved"), ""]
    return all(axioms_status(said) == 1 for said in unproved) and axioms_status(USES_READ, proved="rt: one NOT PROVED\n") == 1


def is_an_axiom_trusted_in_vain_seen():
    return axioms_status("axioms libc: none reached of the 50 declared\nlogic=proved functions=2 sum=0\n") == 1


def docs_status(break_it):
    with tempfile.TemporaryDirectory() as folder:
        for name in ["docs", "lists", "crates", "compare", "hosts", "bench", "include", "tests"]:
            if os.path.isdir(os.path.join(ROOT, name)):
                shutil.copytree(os.path.join(ROOT, name), os.path.join(folder, name), ignore=shutil.ignore_patterns("target", "out"))
        shutil.copy(os.path.join(ROOT, "README.md"), folder)
        break_it(folder)
        return status(sys.executable, os.path.join(folder, "docs/check.py"))


def replaced(folder, path, old, new):
    path = os.path.join(folder, path)
    with open(path, encoding="utf-8") as file:
        text = file.read()
    with open(path, "w", encoding="utf-8") as file:
        file.write(text.replace(old, new))


def manual_status(break_it):
    with tempfile.TemporaryDirectory() as folder:
        for name in ["lists", "crates/manual_lists"]:
            shutil.copytree(os.path.join(ROOT, name), os.path.join(folder, name), ignore=shutil.ignore_patterns("out"))
        break_it(folder)
        return status(sys.executable, os.path.join(folder, "lists/manual.py"), "--check")


def are_the_manuals_answers_those_that_are_proved():
    return manual_status(lambda folder: None) == 0


def is_another_answer_of_the_manual_seen():
    path, answer = "lists/differences/serial-trigger-level.list", "manual: r cc 0"
    return [manual_status(lambda folder: replaced(folder, path, answer, other)) for other in ("manual: r c4 0", "manual: late")] == [1, 2]


def do_the_documents_hold_as_they_are():
    return docs_status(lambda folder: None) == 0


def is_a_row_without_a_list_seen():
    return docs_status(lambda folder: os.remove(os.path.join(folder, "lists/differences/serial-thr-burst.list"))) == 1


def is_a_constructor_without_a_row_seen():
    return docs_status(lambda folder: replaced(folder, "crates/pl031/specs/Compare.antt", "  clock_restarts :", "  clock_stops :")) == 1


def is_a_theorem_that_is_not_there_seen():
    return docs_status(lambda folder: replaced(folder, "docs/THEOREMS.md", "`fe_resets`", "`ff_resets`")) == 1


def is_a_link_to_nowhere_seen():
    return docs_status(lambda folder: replaced(folder, "README.md", "(docs/TRUSTED.md)", "(docs/TRUSTING.md)")) == 1


TESTS = [
    does_a_list_that_holds_pass,
    does_one_wrong_answer_fail,
    is_an_answer_too_few_trouble,
    is_a_line_without_an_answer_trouble,
    is_a_plain_access_told,
    is_a_missing_list_trouble,
    is_a_missing_program_trouble,
    does_the_gate_count_a_stage,
    does_the_gate_see_a_failure,
    does_the_gate_distrust_a_count_with_a_bad_status,
    does_the_gate_distrust_silence,
    does_the_gate_run_all_stages,
    does_the_gate_stop_where_nothing_is_proved,
    does_the_gate_see_bad_edits,
    does_the_gate_want_to_be_told_that_all_is_proved,
    is_an_edit_refused_for_a_fact_taken,
    is_an_edit_refused_for_its_shape_seen,
    is_an_edit_that_never_reached_the_prover_seen,
    is_a_wrong_answer_refused,
    is_a_harmless_edit_seen,
    is_an_edit_of_nothing_seen,
    is_an_edit_that_was_not_tried_seen,
    is_a_kit_that_has_changed_told_in_one_line,
    is_a_trusted_axiom_taken,
    is_an_axiom_that_nobody_trusts_seen,
    is_an_axiom_without_a_name_seen,
    are_foreign_functions_seen,
    is_a_crate_that_is_not_proved_seen,
    is_an_axiom_trusted_in_vain_seen,
    are_the_manuals_answers_those_that_are_proved,
    is_another_answer_of_the_manual_seen,
    do_the_documents_hold_as_they_are,
    is_a_row_without_a_list_seen,
    is_a_constructor_without_a_row_seen,
    is_a_theorem_that_is_not_there_seen,
    is_a_link_to_nowhere_seen,
]


def main():
    failed = 0
    for test in TESTS:
        passed = test()
        print(f"{'ok    ' if passed else 'FAILED'} {test.__name__.replace('_', ' ')}?")
        failed += not passed
    print(f"tools: {len(TESTS) - failed} passed, {failed} failed")
    return min(failed, 1)


if __name__ == "__main__":
    sys.exit(main())
