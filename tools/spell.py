#!/usr/bin/env python3
"""Brings the names of this repository's definitions and lemmas to the spelling of today's Rattle: words in snake case.

    tools/spell.py [--check] [FOLDER]

It was run once, after the toolchain's own script (docs/PORT.md), and stands here so that this can be done again on the older text and
compared. A name is respelled if a file of specs/ or proofs/ declares it: commandPort and only-fe become command_port and only_fe. Names
that the toolchain or its library gives, names of functions, types and modules stay. Where a definition and a lemma would fall together
the lemma gets the ending _lem. In a must-fail edit, the names of the lines old: and new: follow their file; in a page, a name between
back quotes. The edits of must-fail/incremental/ go up one folder, to where the gate now reads them. --check writes nothing and prints the names that would be respelled, and those that fall together with another.
"""
import collections
import glob
import os
import re
import sys

WORD = r"[^\s(){}.;,@\"«»\[\]\\|`]+"
PATH = re.compile(f"{WORD}(?:\\.{WORD})*")
DECLARED = re.compile(r"^[ \t]*(?:(?:unfoldable|abbrev|pub|opaque|ruleset)[ \t]+)*((?:%s[ \t]+)+):[ \t\n]" % WORD, re.M)
FIELDS = re.compile(r"^(?:pub[ \t]+)?record[^\n]*\bwhere\n((?:[ \t]+[^\n]*\n|\n)*)", re.M)
CONSTRUCTORS = re.compile(r"^(?:pub[ \t]+)?data[^\n]*\bwhere\n((?:[ \t]+[^\n]*\n|\n)*)", re.M)
BOUND = re.compile(r"[({]((?:%s[ \t]+)+):[ \t]" % WORD)
LAMBDA = re.compile(r"λ[ \t]*((?:%s[ \t]*)+)\." % WORD)
USED = re.compile(r"^(?:ghost )?use ([^\s{;]+)\.\{([^}]*)\}", re.M)
# What the toolchain calls the parts of a proof by hand.
ALIAS = re.compile(r"^use [^\s{]+ as (\S+)", re.M)
MADE = re.compile(r"^(\S+) : tie\.|^(\S+)[-_]spec : ", re.M)
# A lemma that has a name which another name in its own crate gets has the ending there alone.
WITHIN = [("serial_form", "too_many"), ("histories", "goes_on")]
# Names that only the left sides of equations bind.
PATTERNS = {"isValid", "atRbr", "atThr", "atFcr"}
KEYWORDS = {"where", "let", "in", "elim", "as", "record", "data", "use", "module", "abbrev", "unfolding", "pub", "="}


def snake(name):
    name = name.replace("′", "'").replace("″", "''").replace("-", "_")
    return re.sub(r"([a-z0-9])([A-Z])", lambda it: f"{it[1]}_{it[2].lower()}", name)


def is_old(name):
    """Whether a name is of lower camel case, or of words joined by dashes."""
    return bool((name[0].islower() and re.search(r"[a-z0-9][A-Z]", name)) or re.fullmatch(r"[\w'′″]+(?:-[\w'′″]+)+", name))


def code(text):
    return re.sub(r"--[^\n]*", "", text)


def spoken_of(text):
    """The names of a file that stand alone or last in a path: what it declares, brings in or cites."""
    return {it.split(".")[-1] for it in PATH.findall(re.sub(r"^use [^\n{]*$", "", code(text), flags=re.M))} | {
        it.split(".")[0] for it in PATH.findall(re.sub(r"^use [^{\n]*", "", code(text), flags=re.M))
    }


class Names:
    """What the repository declares."""

    def __init__(self, top):
        self.top = top
        self.crates = set(os.listdir(os.path.join(top, "crates")))
        self.antt = sorted(f for part in ("specs", "proofs") for f in glob.glob(f"{top}/crates/*/{part}/**/*.antt", recursive=True))
        self.rt = sorted(glob.glob(f"{top}/crates/*/src/**/*.rt", recursive=True))
        self.definitions, self.lemmas, self.fields = set(), set(), set()
        self.library, self.aliases = collections.defaultdict(set), {}
        for file in self.antt:
            text = code(open(file, encoding="utf-8").read())
            made = {it for found in MADE.findall(text) for it in found if it}
            names = {n for found in DECLARED.findall(text) for n in found.split()} - made - KEYWORDS
            for body in FIELDS.findall(text):
                self.fields |= {n for found in DECLARED.findall(body) for n in found.split()} - KEYWORDS
            for body in CONSTRUCTORS.findall(text):
                names |= set(re.sub(r":.*", "", body).split())
            names |= {n for found in BOUND.findall(text) + LAMBDA.findall(text) for n in found.split()}
            (self.definitions if "/specs/" in file else self.lemmas).update(names)
            self.aliases[file] = set(ALIAS.findall(text))
            for module, items in USED.findall(text):
                parts = module.split(".")
                if not (parts[0] == "Rattle" and parts[1] in self.crates):
                    self.library[file] |= {it.split(" as ")[0].strip() for it in items.split(",")}
        self.map = self.respelled()

    def respelled(self):
        """The new name of each old one. Where two names that one file speaks of would fall together, the lemma gets an ending."""
        every = self.definitions | self.lemmas | self.fields | PATTERNS
        result = {name: snake(name) for name in every if is_old(name)}
        spoken = [spoken_of(open(file, encoding="utf-8").read()) for file in self.antt]
        together = collections.defaultdict(set)
        for words in spoken:
            by_new = collections.defaultdict(set)
            for word in words:
                by_new[result.get(word, word)].add(word)
            for new, old in by_new.items():
                if len(old) > 1:
                    together[new] |= old
        for new, old in together.items():
            keeps = min(old, key=lambda n: (n not in self.definitions, n.lower() == n, "-" in n, n))
            for name in old - {keeps}:
                result[name] = new + "_lem"
        for _, name in WITHIN:
            result.pop(name, None)
        return result

    def respell(self, path, file):
        parts = path.split(".")
        variable = parts[0][0].islower() and parts[0] not in self.aliases.get(file, ())
        for n, part in enumerate(parts):
            for crate, name in WITHIN:
                if part == name and f"/crates/{crate}/" in file:
                    parts[n] = f"{name}_lem"
            if part not in self.map or part in self.library.get(file, ()):
                continue
            if n == 0 or not variable or part in self.fields:
                parts[n] = self.map[part]
        return ".".join(parts)


def in_antt(names, text, file):
    """A text of specs/ or proofs/; in its comments, names of camel case and those between back quotes."""
    out = []
    for line in text.split("\n"):
        at = re.search(r"(?:^|\s)--(?:\s|$)", line)
        said, comment = (line, "") if not at else (line[: at.start()], line[at.start() :])
        said = PATH.sub(lambda it: names.respell(it[0], file), said)
        out.append(said + in_words(names, comment, file))
    return "\n".join(out)


def in_words(names, text, file):
    text = re.sub(r"`[^`\n]*`", lambda quoted: PATH.sub(lambda it: names.respell(it[0], file), quoted[0]), text)
    return re.sub(r"(?<![\w`/.-])[a-z][a-z0-9]*(?:[A-Z][a-z0-9]*)+(?![\w/-])", lambda it: names.map.get(it[0], it[0]), text)


def in_rt(names, text, file):
    """A text of src/: code of Rust's spelling has no name of camel case, so one is a definition; names with a dash are of `ghost use`."""
    text = re.sub(r"^ghost use [^;]*;", lambda line: PATH.sub(lambda it: names.respell(it[0], file), line[0]), text, flags=re.M)
    camel = r"\"(?:[^\"\\\n]|\\.)*\"|(?<![\w-])[a-z][a-z0-9]*(?:[A-Z][a-z0-9]*)+'*(?![\w-])"
    return re.sub(camel, lambda it: it[0] if it[0][0] == '"' else names.map.get(it[0], it[0]), text)


def in_edit(names, text, file):
    crate = os.path.join(names.top, "crates", os.path.relpath(file, os.path.join(names.top, "crates")).split(os.sep)[0])
    of, out = "", []
    for line in text.split("\n"):
        if line.startswith("file: "):
            of = line[len("file: ") :].strip()
        elif line.startswith(("old: ", "new: ")):
            turn = in_antt if of.endswith(".antt") else in_rt
            line = line[:5] + turn(names, line[5:], os.path.join(crate, of))
        out.append(line)
    return "\n".join(out)


def in_page(names, text, file):
    return re.sub(r"`[^`\n]*`", lambda quoted: PATH.sub(lambda it: names.respell(it[0], file), quoted[0]), text)


def main(words):
    check = "--check" in words
    folders = [it for it in words if not it.startswith("--")]
    top = os.path.abspath(folders[0] if folders else os.path.join(os.path.dirname(os.path.abspath(__file__)), ".."))
    names = Names(top)
    if not check:
        for edit in glob.glob(f"{top}/crates/*/must-fail/incremental/*.edit"):
            os.rename(edit, os.path.join(os.path.dirname(os.path.dirname(edit)), os.path.basename(edit)))
    edits = sorted(glob.glob(f"{top}/crates/*/must-fail/**/*.edit", recursive=True))
    pages = sorted(glob.glob(f"{top}/docs/*.md") + glob.glob(f"{top}/*.md"))
    pages = [it for it in pages if os.path.basename(it) not in ("PORT.md",)]
    for files, turn in ((names.antt, in_antt), (names.rt, in_rt), (edits, in_edit), (pages, in_page)):
        for file in files:
            with open(file, encoding="utf-8", newline="") as it:
                text = it.read()
            new = turn(names, text, file)
            if check and turn in (in_antt, in_rt):
                before = set(re.findall(WORD, code(text)))
                for name in sorted(before & set(names.map)):
                    if names.map[name] in before:
                        print(f"{os.path.relpath(file, top)}: {name} and {names.map[name]}")
            elif new != text and not check:
                with open(file, "w", encoding="utf-8", newline="") as it:
                    it.write(new)
    if check:
        for name, new in sorted(names.map.items()):
            print(f"{name}\t{new}")
    return 0


if __name__ == "__main__":
    sys.exit(main(sys.argv[1:]))
