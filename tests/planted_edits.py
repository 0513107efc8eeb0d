#!/usr/bin/env python3
"""Tries the planted edits: wrong bodies that the prover has to refuse, beside those of the gate.

An edit is a file crates/NAME/planted/*.edit in the form of those in must-fail/: a line 'file: src/x.rt', then pairs of
lines 'old: TEXT' and 'new: TEXT'. With no CRATE those of all crates are tried.

The crates are copied, with what their checks kept in out/, into a temporary folder. There the functions that a crate's
edits change are checked as they stand, but for --proved. Edits of different functions are then tried in one check of
those functions alone: a body is proved against the contracts of what it calls, so an edit fails its own function alone,
and the check shows the place of each goal that it could not prove. An edit whose own function did not fail so is tried
by itself, and over the whole crate before it is said not to be refused.

A line says of each edit what refused it. The last line is 'N refused, M not'; the status is 1 where M isn't 0.
"""

import argparse
import functools
import itertools
import os
import pathlib
import re
import shutil
import subprocess
import sys
import tempfile
import time

ROOT = os.path.dirname(os.path.dirname(os.path.realpath(__file__)))
FUNCTION = re.compile(r"( *)(?:pub(?:\([^)]*\))? )?(?:const )?fn (\w+)")
BLOCK = re.compile(r"(?:pub(?:\([^)]*\))? )?(?:trait (?P<trait>\w+)|impl\b(?P<head>.*))")
# A goal that was not proved, by its place, which lies in the function that has it.
GOAL = re.compile(r"note: (?:\./)?(src/\S+\.rt):(\d+):\d+: .*not proved")
# An answer that is no proof of its goal any more, by the folder of the function's proof files.
ANSWER = re.compile(r"(?:\./)?proofs/(\S+)/\w+\.antt:\d+:\d+: error")
# What such a file says where it names what the edit took away, which says little of the contract.
STALE = re.compile(r"has no field|is not in scope|has no `|was not admitted")
FUNCTION_FAILS = re.compile(r"fn (\S+): (?:not proved|no proof)")
# What a check says where the text is refused before any proof.
UNREAD = re.compile(r"(?:\./)?((?:src|specs)/\S+?):(\d+):\d+: error|rattle: error")


def planted(crate, kind="planted"):
    """The names of a crate's edits; those that the gate tries are in its folder must-fail."""
    return sorted(it.stem for it in pathlib.Path(ROOT, "crates", crate, kind).glob("*.edit"))


class Edit:
    """An edit of one crate: its pairs, each with its file and line, and the function that they are in."""

    def __init__(self, crate, name, kind="planted"):
        self.crate, self.name = crate, f"{crate}/{name}"
        self.pairs, spans, self.verdict = [], set(), None
        folder, file, old, texts = f"{ROOT}/crates/{crate}", None, None, {}
        for line in read(f"{folder}/{kind}/{name}.edit").split("\n"):
            if line.startswith("file: "):
                file = line[len("file: ") :].strip()
                texts.setdefault(file, read(f"{folder}/{file}"))
            elif line.startswith("old: "):
                old = line[len("old: ") :]
            elif line.startswith("new:") and file and old:
                spans.add(self.add(texts, file, old, re.sub(r"\A ", "", line[len("new:") :])))
                old = None
        if not self.pairs and not self.verdict:
            self.verdict = "BAD EDIT: it has no 'old:' and 'new:' pair"
        self.function, *self.span = spans.pop() if len(spans) == 1 else ("", "", 0, 0)

    def add(self, texts, file, old, new):
        """Adds a pair, and returns the name of the function that it is in, its file and its lines."""
        if texts[file].count(old) != 1:
            self.verdict = f"BAD EDIT: an 'old:' text is in {file} {texts[file].count(old)} times, and not once"
            return "", "", 0, 0
        line = texts[file][: texts[file].index(old)].count("\n") + 1
        self.pairs.append((file, line, old, new))
        around = [it for it in functions(texts[file]) if it[0] <= line <= it[1]] or [(0, 0, "", "")]
        texts[file] = texts[file].replace(old, new)
        first, last, block, name = around[-1]
        return whole_name(self.crate, file, texts[file], block, name) if name else "", file, first, last

    def has_place(self, file, line):
        return file == self.span[0] and self.span[1] <= line <= self.span[2]

    def has_name(self, name):
        return bool(self.function) and f"::{name}".endswith(f"::{self.function}")


def read(path):
    return pathlib.Path(path).read_text("utf-8") if os.path.isfile(path) else ""


def functions(text):
    """Each function's first line and last (a brace as far in as it), the head of the block around it, and its name."""
    lines, found, block = text.split("\n"), [], ""
    for at, line in enumerate(lines):
        opens, begun = BLOCK.match(line), FUNCTION.match(line)
        if opens:
            block = opens["trait"] or opens["head"]
        if begun:
            ends = (n for n in range(at, len(lines)) if lines[n] in (f"{begun[1]}}}", f"{begun[1]}}},"))
            found.append((at + 1, next(ends, at) + 1, block if begun[1] else "", begun[2]))
    return found


def whole_name(crate, file, text, block, name):
    """A function's name as a check prints it: of a method the end, where the file doesn't have its type."""
    parts = file[len("src/") : -len(".rt")].split("/")
    module = [crate, *(parts if parts not in (["lib"], ["main"]) else [])]
    while "<" in block:
        # From<AllocFailed<T>> is FromAllocFailed there, and parameters of the block or the type are left out.
        block = re.sub(r"\bFrom<(\w+)>", r"From\1", re.sub(r"(?<!From)<[^<>]*>", "", block))
    block = block.partition("{")[0].partition(" where ")[0]
    of_trait, is_for, of_type = (re.sub(r"\w+::|\s", "", it) for it in block.partition(" for "))
    if is_for:
        return "::".join([*module, of_type[:1].upper() + of_type[1:] + of_trait, name])
    if block and not re.search(rf"(?:struct|enum|trait) {of_trait}\b", text):
        return f"{of_trait}::{name}"
    return "::".join([*module, *([of_trait] if block else []), name])


def crates():
    """The crates of the repository, each with those that it uses."""
    found = {}
    for line in read(f"{ROOT}/crates.txt").split("\n"):
        name, colon, uses = line.partition("#")[0].partition(":")
        if colon:
            found[name.split()[0]] = uses.split()
    return found


def furnish(room, names, uses):
    """Copies the crates, and those that they use, into the room."""
    needed = list(names)
    for crate in needed:
        needed += [it for it in uses[crate] if it in uses and it not in needed]
    with open(f"{room}/crates.txt", "w", encoding="utf-8") as it:
        it.writelines(f"{crate}: {' '.join(uses[crate])}\n" for crate in needed)
    shutil.copy(f"{ROOT}/HANDLES", room)
    for crate in needed:
        shutil.copytree(f"{ROOT}/crates/{crate}", f"{room}/crates/{crate}")


class Copy:
    """The copy of a crate, in which edits are made and checked, each time over what its own check kept."""

    def __init__(self, room, crate, asked):
        self.folder, self.asked = f"{room}/crates/{crate}", asked
        self.work, self.kept = f"{self.folder}/out/incremental", f"{room}/kept/{crate}"

    def check(self, edits, names):
        """What a check of these functions says with these edits made; of the whole crate where no function is named."""
        was = {file: read(f"{self.folder}/{file}") for edit in edits for file, _, _, _ in edit.pairs}
        now = {file: text.split("\n") for file, text in was.items()}
        for file, line, old, new in (pair for edit in edits for pair in edit.pairs):
            now[file][line - 1] = now[file][line - 1].replace(old, new)
        for file, lines in now.items():
            pathlib.Path(self.folder, file).write_text("\n".join(lines), "utf-8")
        only = [word for it in sorted(names) for word in ("--only", it)]
        how = {"cwd": self.folder, "stdin": subprocess.DEVNULL, "stderr": subprocess.STDOUT, "errors": "replace"}
        words = ["rt", "check", "--jobs", str(self.asked.jobs), *only]
        said = subprocess.run(words, stdout=subprocess.PIPE, **how).stdout
        for file, text in was.items():
            pathlib.Path(self.folder, file).write_text(text, "utf-8")
        if edits and os.path.isdir(self.kept):
            shutil.copytree(self.kept, self.work, dirs_exist_ok=True)
        return said

    def fault(self, names):
        """What a check with no edit says that doesn't prove these functions; else nothing, and its work is kept."""
        said = "logic=proved" if self.asked.proved else self.check([], names)
        if not is_proved(said):
            return f"NOT TRIED: the crate is not proved without it: {said.strip()[-160:]}"
        if os.path.isdir(self.work):
            shutil.copytree(self.work, self.kept, dirs_exist_ok=True)
        return ""

    @functools.cached_property
    def whole_fault(self):
        return self.fault(set())


def is_proved(said):
    return bool(re.search(r"(?m)^(?:logic=proved|only=(\d+) proved=\1$)", said))


def rounds(edits):
    """The edits in lists, in each of which no two touch one function; and one in none, or in several, by itself."""
    of_function = {}
    for edit in edits:
        of_function.setdefault(edit.function or edit.name, []).append(edit)
    lists = itertools.zip_longest(*(it for it in of_function.values() if it[0].function))
    return [*([it for it in now if it] for now in lists), *([it] for it in edits if not it.function)]


def judge(edits, said):
    """Gives each edit what refuses it, where that shows. Returns the edits whose own functions failed."""
    told, failed = {}, set()
    for line in said.split("\n"):
        goal, answer, fails = GOAL.match(line), ANSWER.match(line), FUNCTION_FAILS.match(line)
        answered = f"{edits[0].crate}::{answer[1].replace('/', '::')}" if answer else ""
        for edit in edits:
            if fails and edit.has_name(fails[1]):
                failed.add(edit)
            elif goal and edit.has_place(goal[1], int(goal[2])) or answer and edit.has_name(answered):
                told.setdefault(edit, []).append(line)
    for edit in failed:
        edit.verdict = refusal(told.get(edit, []))
    return failed


def refusal(lines):
    """What these lines refuse an edit with: a goal before an answer, and no line that names what is gone."""
    lines = sorted((it[:160] for it in lines if not STALE.search(it)), key=lambda it: not GOAL.match(it))
    return f"refused: {lines[0]}" if lines else None


def try_alone(edit, names, copy):
    """Tries one edit by itself, in these functions or, where they are proved or there are none, in the whole crate."""
    if not names and copy.whole_fault:
        edit.verdict = copy.whole_fault
        return
    said = copy.check([edit], names)
    judge([edit], said)
    lines = [it for it in said.split("\n") if GOAL.match(it) or ANSWER.match(it)]
    unread = next((it for it in said.split("\n") if UNREAD.match(it)), said.strip())
    edit.verdict = edit.verdict or refusal(lines)
    if not edit.verdict and is_proved(said) and names:
        try_alone(edit, set(), copy)
    elif not edit.verdict and is_proved(said):
        edit.verdict = "NOT REFUSED: the crate is still proved"
    elif not edit.verdict:
        why = "refused only because a proof file names what it took away" if lines else "BAD EDIT: no goal was tried"
        edit.verdict = f"{why}: {[*lines, unread][0][-160:]}"


def try_together(edits, copy):
    """Tries edits of different functions in one check, and by itself each that it doesn't settle."""
    said = copy.check(edits, {it.function for it in edits if it.function})
    places = [it for it in map(UNREAD.match, said.split("\n")) if it and it[1]]
    # (a text that can't be read keeps all of them from the prover)
    unread = [it for it in edits if any(it.has_place(at[1], int(at[2])) for at in places)]
    failed = set() if unread else judge(edits, said)
    for edit in unread or edits:
        is_shown_as_proved = re.search(r"(?m)^only=", said) and edit not in failed
        if not edit.verdict:
            try_alone(edit, set() if is_shown_as_proved else {edit.function} - {""}, copy)
    if unread and len(unread) < len(edits):
        try_together([it for it in edits if it not in unread], copy)


def try_crate(edits, copy, tell):
    begun = time.monotonic()
    fault = copy.fault({it.function for it in edits if it.function})
    for now in rounds(edits):
        if not fault:
            try_together(now, copy)
        for edit in now:
            edit.verdict = fault or edit.verdict
            tell(edit)
    print(f"({edits[0].crate}: {len(edits)} edits in {time.monotonic() - begun:.0f} s)", file=sys.stderr, flush=True)


def options():
    parser = argparse.ArgumentParser(description=__doc__, formatter_class=argparse.RawDescriptionHelpFormatter)
    parser.add_argument("--jobs", metavar="N", type=int, default=2, help="jobs of each check (2)")
    parser.add_argument("--proved", action="store_true", help="the crates are proved: check none as it is")
    said = "add the lines to FILE, and pass over what it shows as refused by an earlier run over the same files"
    parser.add_argument("--verdicts", metavar="FILE", default="", help=said)
    parser.add_argument("crate", nargs="*", metavar="CRATE")
    return parser.parse_args()


def main(asked):
    uses = crates()
    has = [it for it in uses if planted(it)]
    names = asked.crate or has
    if not {*names} <= {*has}:
        sys.exit(f"these have planted edits: {' '.join(has)}")
    edits = [Edit(name, it) for name in names for it in planted(name)]
    known = dict(re.findall(r"(?m)^(\S+): (refused: .*)", read(asked.verdicts)))

    def tell(edit):
        print(f"{edit.name}: {edit.verdict}", flush=True)
        with open(asked.verdicts or os.devnull, "a", encoding="utf-8") as it:
            it.write(f"{edit.name}: {edit.verdict}\n")

    with tempfile.TemporaryDirectory(prefix="planted-") as room:
        furnish(room, names, uses)
        for edit in edits:
            if edit.verdict:
                tell(edit)
            edit.verdict = edit.verdict or known.get(edit.name)
        for name in names:
            left = [it for it in edits if it.crate == name and not it.verdict]
            if left:
                try_crate(left, Copy(room, name, asked), tell)
    refused = sum(it.verdict.startswith("refused: ") for it in edits)
    print(f"{refused} refused, {len(edits) - refused} not")
    return 1 if refused < len(edits) else 0


if __name__ == "__main__":
    sys.exit(main(options()))
