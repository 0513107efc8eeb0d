"""Calls of cargo-hack over a script in place of cargo and rustup, and tries of them: for the scripts version_search.py and
conflict_search.py.
"""
import argparse
import json
import os
import random
import re
import shlex
import subprocess
import tempfile
from collections import namedtuple

from killed_calls import Wrong, must, tree
from random_workspace import Use, lay_out, metadata, told
from small_workspace import write

# The script in place of cargo and rustup: it notes what it is asked to run, and the file `fails` says whether that fails.
SCRIPT = """#!/bin/sh
case "$*" in
"run stable cargo -vV") {stable}; exit;;
-vV) {version}; exit;;
--version) echo 'rustup 1.27.1 (54dd3d00f 2024-04-24)'; exit;;
*"metadata "*) exec cat @/metadata;;
*locate-project*) exec cat @/located;;
esac
read -r n < @/number
echo $((n + 1)) > @/number
printf '%s\\n' "${0##*/} $*" >> @/calls
. @/fails
"""

# Which manifests are edited, which the rows have.
EDITS = re.compile(r"info: (removing (dev-dependencies|private crates) from|restoring|--no-(dev-deps|private) modifies real) .*\n")

Call = namedtuple("Call", "uses trailing group denies")


def readable(what):
    return "\n".join(what) if isinstance(what, list) else str(what)


# ---- A workspace, and calls in it.


class Tools:
    """The scripts in place of cargo and rustup, for a workspace."""

    def __init__(self, workspace, folder):
        self.workspace, self.folder = workspace, folder
        lay_out(workspace, folder)
        text = SCRIPT.replace("{stable}", told(workspace["stable"])).replace("{version}", told(workspace["minor"]))
        for tool in ("cargo", "rustup"):
            workspace[tool] = f"{folder}/{tool}"
        self.text = text.replace("@", shlex.quote(folder))
        write(f"{folder}/metadata", json.dumps(metadata(workspace)))
        write(f"{folder}/located", json.dumps({"root": workspace["located"]}))

    def call(self, program, words, fails, environment):
        """How a call ends, and what it has the tools run. Some lines fail, and some numbers of commands; a number may have a
        line of the shell instead, which is run."""
        for tool in ("cargo", "rustup"):
            write(f"{self.folder}/{tool}", self.text, 0o755)
        write(f"{self.folder}/fails", "\n".join(['case "$n:$*" in', *fails.cases(), "esac", "exit 0", ""]))
        write(f"{self.folder}/number", "0\n")
        write(f"{self.folder}/calls", "")
        variables = {"PATH": os.environ["PATH"], "CARGO": f"{self.folder}/cargo", "CARGO_HACK_RUSTUP": f"{self.folder}/rustup"}
        ended = subprocess.run([program, "hack", *words], cwd=self.workspace["folder"], env={**variables, **environment},
                               stdin=subprocess.DEVNULL, capture_output=True, text=True, check=False, timeout=60)
        with open(f"{self.folder}/calls", encoding="utf-8") as it:
            return ended, it.read().splitlines()


class Fails:
    """Which commands fail: some by their arguments, some by their number."""

    def __init__(self, lines=(), numbers=()):
        self.lines = set(lines)
        self.numbers = dict(numbers) if isinstance(numbers, dict) else {it: "exit 101" for it in numbers}

    def behind(self, count):
        """The same, where the numbers begin behind so many commands."""
        return Fails(self.lines, {number + count: what for number, what in self.numbers.items()})

    def cases(self):
        """What the script does at a command's number and arguments."""
        does = [f"{number}:*) {what};;" for number, what in self.numbers.items()]
        return does + [f"*:{shlex.quote(line)}) exit 101;;" for line in sorted(self.lines)]

    def has(self, number, line):
        return number in self.numbers or line in self.lines


def asked_at(plan, rank):
    """What the run at a place asks of its tool."""
    return plan.own_line(rank).rstrip("\n").split(" ", 1)[1]


class Called:
    """A call in a workspace: its words, and its environment."""

    def __init__(self, program, tools, call):
        self.program, self.tools, self.call = program, tools, call
        self.words = ["--log-group", call.group] if call.group else []
        self.words += [word for it in call.uses for word in it.words] + (["--"] + call.trailing if call.trailing else [])
        self.environment = {"CARGO_HACK_DENY_WARNINGS": "true"} if call.denies else {}

    def ask(self, more, fails):
        return self.tools.call(self.program, more + self.words, fails, self.environment)


VALUED = ("--version-range", "--version-step", "--target", "--depth", "--features", "--exclude-features", "--package",
          "--exclude", "--include-features", "--group-features", "--mutually-exclusive-features", "--at-least-one-of")


def uses_of(text):
    """The uses of options in a text."""
    words, uses = iter(text.split()), []
    for word in words:
        value = next(words) if word in VALUED else None
        name = word if word.startswith("-") else "subcommand"
        uses.append(Use(name, value, [word] if value is None else [word, value], [word]))
    return uses


def package(text, root):
    """A package: its name, its `rust-version` after an equals sign, and its features after a colon."""
    rest, _, features = text.partition(":")
    name, _, own = rest.partition("=")
    features = {it: [] for it in features.split(",") if it}
    return {"id": f"path+file://{root}/{name}#0.1.0", "name": name, "version": "0.1.0", "dependencies": [],
            "manifest": features, "record": features, "private": False, "publish": None, "metadata": None,
            "manifest_path": f"{root}/{name}/Cargo.toml", "rust_version": own or None}


def small_workspace(texts, root):
    """A workspace of such packages, with all of them the current ones."""
    packages = [package(it, root) for it in texts.split()]
    members = [it["id"] for it in packages]
    return {"root": root, "packages": packages, "members": members, "nodes": {it: [] for it in members},
            "located": f"{root}/Cargo.toml", "folder": root, "minor": 90, "stable": 83, "metadata": None}


# ---- Tries that both make.


def gone_fault(program, tools, words, numbers, command, told, found=()):
    """What is wrong with a call in which a tool goes, so that a command can't be started, if something is: of what was found,
    in such words, it says just these lines, and then the error. Returns its lines."""
    files = tree(tools.workspace["root"])
    numbers = {it: what.replace("@", shlex.quote(tools.folder)) for it, what in numbers.items()}
    ended, _ = tools.call(program, words, Fails((), numbers), {})
    wanted, lines = f"error: could not execute process `{tools.folder}/{command}` (never executed)", ended.stderr.splitlines()
    said = [it for it in lines if it.startswith("error: ") or re.search(told, it)]
    must((ended.returncode, said) == (1, [*found, wanted]),
         f"status {ended.returncode}, {ended.stderr}\nwanted\n{readable([*found, wanted])}")
    must(tree(tools.workspace["root"]) == files, "the files aren't what they were")
    return lines


def refusal_fault(program, folder, words, error):
    """What is wrong with a refusal, if something is."""
    ended, calls = Tools(small_workspace("p", f"{folder}/w"), f"{folder}/tools").call(program, words.split(), Fails(), {})
    found = ended.returncode, ended.stdout, ended.stderr.splitlines()[-1:], calls
    must(found == (1, "", [error], []), f"status {ended.returncode}, {ended.stderr}{ended.stdout}{calls}, and not {error}")


def case_fault(program, folder, rng, number, make, judge):
    """What is wrong with a random call in which random commands fail, if something is."""
    case, fails = make(program, folder, rng, number)
    try:
        judge(case, fails, rng)
    except Wrong as wrong:
        shown = f"{case.words}\n{json.dumps(case.tools.workspace)}\nfailing {sorted(fails.lines)} {fails.numbers}"
        raise Wrong(f"{shown}\n{wrong}") from wrong


def run_all(usage, tries, make, judge, counts):
    """Makes each try, a name and a function with what it is given behind the program and a folder; and random ones, which count
    what they did. Returns the status."""
    reader = argparse.ArgumentParser(usage=usage)
    reader.add_argument("program")
    for option, default in (("--cases", 80), ("--seed", 1)):
        reader.add_argument(option, type=int, default=default)
    asked = reader.parse_args()
    tries += [(f"case {it} of seed {asked.seed}", case_fault, random.Random(f"{asked.seed}/{it}"), it, make, judge)
              for it in range(asked.cases)]
    failed = 0
    for name, fault, *what in tries:
        try:
            with tempfile.TemporaryDirectory(prefix="search-") as folder:
                fault(os.path.realpath(asked.program), os.path.realpath(folder), *what)
        except Wrong as wrong:
            print(f"{name}: {wrong}")
            failed += 1
    print(f"{asked.cases} random calls: " + ", ".join(f"{count} {what}" for what, count in counts.items()))
    print(f"{len(tries) - failed} passed, {failed} failed")
    return 1 if failed else 0
