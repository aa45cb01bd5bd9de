#!/usr/bin/env python3
"""Holds the documents to the tree: each says only what is there.

- every row of docs/DIFFERENCES.md (a heading `### name`) has a list of that name in lists/differences or lists/original, or says
  that no list shows it, and every such list has a row;
- every row that a definition names or that is a constructor of `Row` (with _ for -) is there;
- every theorem of docs/THEOREMS.md, written `name` ([file](path)), is declared in that file;
- every link to a file leads to one.

The last line is `docs: N passed, M failed`.
"""
import glob
import os
import re
import sys

ROOT = os.path.dirname(os.path.dirname(os.path.abspath(__file__)))


def read(path):
    with open(os.path.join(ROOT, path), encoding="utf-8") as file:
        return file.read()


def tree(pattern):
    return sorted(os.path.relpath(path, ROOT) for path in glob.glob(os.path.join(ROOT, pattern), recursive=True))


def rows():
    """The rows of docs/DIFFERENCES.md, each with its text."""
    return dict(re.findall(r"^### ([a-z0-9-]+)\n(.*?)(?=^##|\Z)", read("docs/DIFFERENCES.md"), re.M | re.S))


def rows_have_lists():
    shown = {name for name, text in rows().items() if "**Shown by** no list" not in text}
    paths = tree("lists/differences/*.list") + tree("lists/original/*.list")
    lists = {os.path.basename(path)[: -len(".list")]: path for path in paths}
    for name in sorted(shown - lists.keys()):
        yield f"the row {name} has no list in lists/differences or lists/original"
    for name in sorted(lists.keys() - shown):
        yield f"{lists[name]} has no row in docs/DIFFERENCES.md"


def named_rows_exist():
    known = rows()
    for path in tree("crates/*/specs/*.antt"):
        for name in re.findall(r'"((?:i8042|clock|serial|original)-[a-z0-9-]+)"', read(path)):
            if name not in known:
                yield f"{path} names the row {name}, which docs/DIFFERENCES.md does not have"


def constructors_have_rows():
    known = rows()
    proved = set()
    for path in tree("crates/*/specs/Compare.antt") + tree("crates/*/specs/Beside.antt"):
        for constructor in re.findall(r"^  ((?:clock|serial|original)_[a-z0-9_]+) :", read(path), re.M):
            name = constructor.replace("_", "-")
            proved.add(name)
            if name not in known:
                yield f"{path} has the row {name}, which docs/DIFFERENCES.md does not have"
    for name in sorted(known):
        if name.startswith("original-") and name not in proved:
            yield f"docs/DIFFERENCES.md has the row {name}, which is no constructor of a Row"


# What may stand before the name in a declaration.
DECLARING = r"(?:pub |abbrev pub |unfoldable pub |pub record |pub data |pub fn )*"


# Names in a row, and the file that declares them: `a`, `b` and `c` ([File](path)), or (`a`, [File](path)).
NAMES = r"((?:`[^`\s]+`(?:,? and|,)?\s+)+)"
FILE = r"\[[^\]]*\]\(\.\./([^)]+)\)\)"


def theorems_exist():
    page = read("docs/THEOREMS.md")
    rows = re.findall(NAMES + r"\(" + FILE, page) + re.findall(r"\(" + NAMES + FILE, page)
    cited = [(name, path) for names, path in rows for name in re.findall(r"`([^`]+)`", names)]
    if not cited:
        yield "docs/THEOREMS.md cites no theorem"
    for name, path in cited:
        if not os.path.exists(os.path.join(ROOT, path)):
            yield f"docs/THEOREMS.md cites {path}, which is not there"
        elif not re.search(rf"(?m)^\s*{DECLARING}{re.escape(name)}\b", read(path)):
            yield f"docs/THEOREMS.md cites {name}, which {path} does not declare"


def links_lead_somewhere():
    for page in ["README.md"] + tree("docs/**/*.md") + tree("*/README.md"):
        for target in re.findall(r"\]\(([^)#\s]+)(?:#[^)]*)?\)", read(page)):
            if not os.path.exists(os.path.join(ROOT, os.path.dirname(page), target)):
                yield f"{page} links to {target}, which is not there"


def main():
    failed = 0
    checks = [rows_have_lists, named_rows_exist, constructors_have_rows, theorems_exist, links_lead_somewhere]
    for check in checks:
        faults = list(check())
        for fault in faults:
            print(f"FAILED {fault}")
        if not faults:
            print(f"ok {check.__name__.replace('_', ' ')}")
        failed += bool(faults)
    print(f"docs: {len(checks) - failed} passed, {failed} failed")
    return min(failed, 1)


if __name__ == "__main__":
    sys.exit(main())
