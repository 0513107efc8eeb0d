#!/usr/bin/env python3
"""Compares the documents with the repository and with the built program.

usage: tests/documents.py CARGO_HACK

It checks that each link, path, edit, function and type that a document names exists; that each function that PROVED.md
names at the start of a promise is public in a crate of its heading, and each clause that it names in brackets is one
of a contract or a definition; that each definition of DEFINITIONS.md is in the file named beside it; that
ARCHITECTURE.md has each crate, after those that it uses; that rows have the errors of RULES.md; that the README's
example is what the sample calls print; that no document counts tests, rows, edits or functions, or is too long; that
tests/README.md has each script, and what the gate tries of it; that the text that an edit replaces is in its file once;
and that man pages and completions are what tools/manual.py writes.

The last line is `N passed, M failed`, and the status is 1 where one failed.
"""

import os
import pathlib
import re
import subprocess
import sys

sys.dont_write_bytecode = True
from planted_edits import Edit, planted  # noqa: E402

ROOT = pathlib.Path(__file__).resolve().parent.parent
FOLDERS = ("crates", "docs", "tests", "tools", "examples", "man", "completions")
# Names of the kit, of other tools, or of an example are not looked up in these.
FREE = {"ADDING.md", "PROOF_NOTES.md", "CHANGELOG.md"}
# Every name between backquotes is looked up in these, also one without `::`.
STRICT = {"README.md", "PROVED.md", "DEFINITIONS.md", "LIBRARY.md"}
# Names of other tools and of the language that the strict documents mention.
FOREIGN = {"serde_json", "toml", "thiserror", "rustup", "cargo", "main", "unwrap", "optional"}
ORDINALS = {"2": "second", "3": "third", "4": "fourth", "5": "fifth", "10": "tenth"}
MOST_WORDS, MOST_LINES = 20000, {"README.md": 150, "GATE.md": 30}
COUNTED = r"(?:tests|rows|edits|functions|crates|definitions|contracts|lemmas)"
COUNT = re.compile(rf"\b\d(?:[\d,]*\d)? (?:(?!of|for)\w+ )?{COUNTED}\b|\b\d[\d,]* pass\b")

TYPE = re.compile(r"pub (?:struct|enum|trait|type|union) (\w+)")
BLOCK = re.compile(r"(?:pub )?(?:trait (\w+)|impl\b(.*))")
FUNCTION = re.compile(r"( *)(pub )?(?:const )?fn (\w+)")


def documents():
    return [*sorted(ROOT.glob("*.md")), *sorted((ROOT / "docs").glob("*.md"))]


def read(path):
    return path.read_text("utf-8")


class Sources:
    """The names that the crates declare."""

    def __init__(self):
        self.functions, self.names, self.methods, self.words = {}, {}, {}, set()
        for folder in sorted((ROOT / "crates").iterdir()):
            files = [it for part in ("src", "specs", "proofs") for it in (folder / part).rglob("*") if it.is_file()]
            self.functions[folder.name], self.names[folder.name] = set(), {folder.name}
            for file in files:
                self.names[folder.name].add(file.stem)
                self.words.update(re.findall(r"\w+", read(file)), {file.stem})
            for file in (it for it in files if it.suffix == ".rt"):
                self.declare(folder.name, read(file))

    def declare(self, crate, text):
        """The public functions, types and variants of a file, and what it exports of other crates."""
        block, is_open = "", False
        for line in text.split("\n"):
            opens, begun, of_type = BLOCK.match(line), FUNCTION.match(line), TYPE.match(line)
            if of_type:
                self.names[crate].add(of_type[1])
            if opens:
                # (every function of a trait is public, and so is one of a block that implements a trait)
                head = re.sub(r"<[^<>]*>", "", re.sub(r"<[^<>]*>", "", opens[2] or ""))
                block = opens[1] or re.findall(r"\w+", head.partition(" for ")[2] or head or "_")[0]
                is_open = bool(opens[1]) or " for " in head
            elif of_type or line.startswith("}"):
                block, is_open = of_type[1] if of_type else "", False
            elif re.match(r"    (?:pub )?\w+\b", line) and block and not begun:
                self.methods.setdefault(block, set()).add(re.match(r"    (?:pub )?(\w+)", line)[1])
            if begun and (begun[2] or begun[1] and is_open):
                self.functions[crate].add(begun[3])
                self.methods.setdefault(block if begun[1] else "", set()).add(begun[3])
        for exported in re.findall(r"pub use ([^;]+);", text):
            self.names[crate].update(re.findall(r"\w+", exported))
            self.functions[crate].update(re.findall(r"\b[a-z]\w*", exported))

    def is_public(self, crates, path):
        """Whether one of these crates has that function, or that type has that method."""
        *before, name = path.split("::")
        if before and before[-1][0].isupper():
            return name in self.methods.get(before[-1], ()) and any(before[-1] in self.names[it] for it in crates)
        return any(name in self.functions[it] or name[0].isupper() and name in self.names[it] for it in crates)

    def has(self, path):
        """Whether there is what a path of names leads to: each in the crate that comes first, or else in any."""
        parts = path.split("::")
        crates = [parts[0]] if parts[0] in self.names else [*self.names]
        if len(parts) > 1 and parts[-2][0].isupper():
            return parts[-1] in self.methods.get(parts[-2], ()) and any(parts[-2] in self.names[it] for it in crates)
        return any(all(it in self.names[crate] or it in self.functions[crate] for it in parts) for crate in crates)


def links(document):
    """The files that a document links to."""
    for to in re.findall(r"\]\(([^)#:\s]+)(?:#[^)]*)?\)", read(document)):
        yield to, (document.parent / to).exists()


def paths(document):
    """The paths that a document names between backquotes; `*` stands for any name."""
    for text in re.findall(r"`([\w./*-]+)(?: [^`\n]*)?`", read(document)):
        edit = re.fullmatch(r"(hack_\w+/(?:must-fail|planted)/\w+)(?:\.edit)?", text)
        if edit:
            yield text, (ROOT / "crates" / f"{edit[1]}.edit").is_file()
        elif re.match(r"hack_\w+/(?:src|specs|proofs)/", text):
            files = (ROOT / "crates").glob(text) if "." in text else (ROOT / "crates").glob(f"{text}*")
            yield text, any(files)
        elif text.split("/")[0] in FOLDERS and "/" in text and "NAME" not in text:
            yield text, any(ROOT.glob(text.rstrip("/")))


def quoted(text):
    """What stands between backquotes, also where a line ends in it; blocks of code are left out."""
    text = re.sub(r"(?m)^    .*$", "", text)
    for _, found in re.findall(r"(?s)(?<!`)(`+)(?!`)((?:(?!\n\n).)+?)(?<!`)\1(?!`)", text):
        yield " ".join(found.split())


def spread(name):
    """`Manager::{new, register}` as its names."""
    head, brace, rest = name.partition("{")
    return [head + it.strip() for it in rest.rstrip("}").split(",")] if brace else [name]


def identifiers(document, sources):
    """The functions and types that a document names between backquotes."""
    if document.name in FREE:
        return
    for found in quoted(read(document)):
        for name in spread(found):
            if re.fullmatch(r"\w+(?:::\w+)+", name) and not name.startswith("std::"):
                yield name, sources.has(name)
            elif document.name in STRICT and re.fullmatch(r"[a-z]+(?:_[a-z0-9]+)+|[A-Z][a-z]+(?:[A-Z][a-z]+)*", name):
                yield name, name in sources.words or name in FOREIGN or name in sources.names


def sections(text):
    """Each section of a document with the crates that its heading names."""
    for section in re.split(r"(?m)^## ", text)[1:]:
        heading, _, body = section.partition("\n")
        yield re.findall(r"`(hack_\w+|cargo_hack\w*)", heading), body


def promises(sources):
    """The functions with which the promises of PROVED.md begin."""
    for crates, body in sections(read(ROOT / "docs" / "PROVED.md")):
        for start in re.findall(r"(?m)^- ((?:`[^`]+`(?:,\s+(?:and )?|\s+and )?)+)", body) if crates else []:
            for name in (it for found in quoted(start) for it in spread(found.partition("(")[0])):
                yield name, sources.is_public(crates, name)


def clauses():
    """The names in brackets in PROVED.md: each is that of a clause, a function or a field of a definition."""
    files = [it for part in ("src", "specs") for it in (ROOT / "crates").glob(f"*/{part}/**/*.*")]
    named = set(re.findall(r"\b(?:ensures|requires|pub|fn|ghost) (\w+)\b", "\n".join(read(it) for it in files if it.is_file())))
    for inner in re.findall(r"\((`[^()]*?)\)", read(ROOT / "docs" / "PROVED.md")):
        for name in re.findall(r"`([a-z]+)`", inner):
            yield name, name in named


def definitions():
    """The definitions of DEFINITIONS.md, each looked for in the file that is named beside it."""
    for crates, body in sections(read(ROOT / "docs" / "DEFINITIONS.md")):
        for names, files in re.findall(r"(?m)^- \*\*([\w, ]+)\*\* \((`.*?)\):", body):
            folders = re.findall(r" of `(hack_\w+)`", files) or crates
            found = [ROOT / "crates" / crate / "specs" / f"{it}.antt" for crate in folders for it in re.findall(r"`(\w+)`", files)]
            text = " ".join(read(it) for it in found if it.is_file())
            for name in names.split(", "):
                yield name, bool(re.search(rf"\b{name}\b", text))


def order():
    """ARCHITECTURE.md has each crate of crates.txt, after those that it uses."""
    lines = re.findall(r"(?m)^- ((?:`\w+`(?:, )?)+): ", read(ROOT / "docs" / "ARCHITECTURE.md"))
    listed = [name for line in lines for name in re.findall(r"`(\w+)`", line)]
    for name, uses in re.findall(r"(?m)^(\w+):(.*)$", read(ROOT / "crates.txt")):
        before = listed[: listed.index(name)] if name in listed else []
        yield name, name in listed and all(it in before for it in uses.split() if it in listed)


def errors():
    """The errors that RULES.md shows are answers of rows; a name in braces is any text, and so is `..`."""
    rows = "\n".join(re.findall(r"(?m)^\| (.*)", read(ROOT / "crates" / "hack_rows" / "stdin")))
    text = " ".join(read(ROOT / "docs" / "RULES.md").split())
    for found in re.findall(r"``(.+?)``(?!`)|(?<!`)`([^`]+)`(?!`)", text):
        error = "".join(found).strip()
        shape = re.sub(r"\\\{.*?\\\}", ".+", re.escape(error)).replace(r"\.\.", ".*")
        if " " in error:
            yield error, bool(re.search(shape, rows))


def example():
    """The README's first example: its blocks of lines, between `..`, stand in this order in what the sample calls print."""
    printed = read(ROOT / "crates" / "sample_calls" / "stdout")
    found = re.search(r"(?m)^    (\$ cargo hack test .*\n(?:    .*\n)+)", read(ROOT / "README.md"))
    if not found:
        return False
    call = printed.partition(found[1].partition("\n")[0])
    text, at = "".join(call[1:]).partition("\n$ ")[0], 0
    for block in re.sub(r"(?m)^    ", "", found[1]).split("..\n"):
        at = text.find(block.rstrip("\n"), at)
        if at < 0:
            return False
    return True


def lengths():
    """How long the README and docs are; what a script wrote between two marks doesn't count."""
    counted = [it for it in documents() if it.name not in ("CHANGELOG.md", "CONTRIBUTING.md")]
    words = sum(len(re.sub(r"(?s)<!-- written by .*?<!-- up to here -->", "", read(it)).split()) for it in counted)
    yield f"{words} words, at most {MOST_WORDS}", words <= MOST_WORDS
    for it in documents():
        if it.name in MOST_LINES:
            lines = re.sub(r"(?s)<!-- written by .*?<!-- up to here -->", "", read(it)).rstrip("\n").count("\n") + 1
            yield f"{it.name}: {lines} lines, at most {MOST_LINES[it.name]}", lines <= MOST_LINES[it.name]


def counts(document):
    """The places at which a document counts by hand."""
    text = re.sub(r"(?s)<!-- written by .*?<!-- up to here -->", "", read(document))
    for found in COUNT.findall(text):
        yield f"it counts by hand: {found}", False


def scripts():
    """Each script of tests/ has a row in the README there, whose last cell says what of it the gate tries."""
    rows = dict(re.findall(r"(?m)^\| `([\w.]+)` \| .* \| ?(.*?) ?\|$", read(ROOT / "tests" / "README.md")))
    there = {it.name for it in (ROOT / "tests").iterdir() if it.is_file() and it.name != "README.md"}
    gate = dict(re.findall(r'(?m)^    \["tests/([\w.]+)"(.*)\],$', read(ROOT / "tests" / "gate.py")))
    for name in sorted({*rows, *there, *gate}):
        every = re.search(r'"--every", "(\d+)"', gate.get(name, ""))
        cases = re.search(r'"--(?:cases|races)", "(\d+)"', gate.get(name, ""))
        wanted = f"each {ORDINALS[every[1]]}" if every else cases[1] if cases else "all" if name in gate else ""
        cell = rows.get(name, "?").removeprefix("none")
        yield name, name in there and (cell.split(" ")[0] == wanted if cases else cell == wanted)


def edits():
    """Each edit, whose texts are each in its file once, after those before it were replaced."""
    for crate in sorted(it.name for it in (ROOT / "crates").iterdir()):
        for kind in ("must-fail", "planted"):
            for name in planted(crate, kind):
                verdict = Edit(crate, name, kind).verdict
                yield f"crates/{crate}/{kind}/{name}.edit: {verdict}", not verdict


def main(words):
    if len(words) != 1:
        sys.exit(__doc__)
    sources, found = Sources(), []
    for it in documents():
        about = [*links(it), *paths(it), *identifiers(it, sources), *counts(it)]
        found += [(f"{it.name}: {name}", holds) for name, holds in about]
    found += [(f"PROVED.md: {name} is not public in its heading's crates", holds) for name, holds in promises(sources)]
    found += [(f"PROVED.md: no contract has the clause {name}", holds) for name, holds in clauses()]
    found += [(f"DEFINITIONS.md: {name} is not in its file", holds) for name, holds in definitions()]
    found += [(f"ARCHITECTURE.md: {name} is missing, or before a crate that it uses", holds) for name, holds in order()]
    found += [(f"RULES.md: no row has the error {name}", holds) for name, holds in errors()]
    found += [*lengths(), *((f"tests/README.md: {name}", holds) for name, holds in scripts())]
    found += edits()
    found.append(("README.md: its example is not what the sample calls print", example()))
    manual = subprocess.run([ROOT / "tools" / "manual.py", "--check", os.path.abspath(words[0])], check=False)
    found.append(("man pages and completions are those of the table of options", manual.returncode == 0))
    for name, holds in found:
        if not holds:
            print(f"FAILED {name}")
    failed = sum(not holds for _, holds in found)
    print(f"{len(found) - failed} passed, {failed} failed")
    return 1 if failed else 0


if __name__ == "__main__":
    sys.exit(main(sys.argv[1:]))
