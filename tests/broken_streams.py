#!/usr/bin/env python3
"""Calls the built programs where what they call or write to fails, and looks at how they end and at every file.

usage: tests/broken_streams.py CARGO_HACK POWERSET_LIST

Standard output is a full disk or a closed pipe, standard error a full disk; cargo is missing, is killed, prints what is
no text or never ends; a toolchain or a lockfile can't be made, also where runs go on; a manifest or the journal can't be read.
Each call has to end within a minute by no signal, with the status and the last line that are wanted (and, where a file can't
be read, the line before, with the system's words), after no other commands than these, and the workspace holds its bytes
afterwards. The last line is `N passed, M failed`; the status is 1 where one failed.
"""
import os
import resource
import subprocess
import sys
import tempfile

sys.dont_write_bytecode = True
from killed_calls import tree  # noqa: E402
from small_workspace import FILES, stand_in, write, write_files  # noqa: E402

# The stand-in for cargo and rustup: it notes its arguments, answers from files, and fails as the variable ODD says.
STAND_IN = r"""#!/bin/sh
echo "$*" >> "$0.asked"
case "$ODD:$*" in
    killed:*"--features b"*) kill -9 $$;;
    all:check*) exit 6;;
    no-text:*metadata*) printf '\377'; exit;;
    no-version:-vV) printf '\377'; exit;;
    endless:*metadata*) exec yes;;
    refuses:*metadata*) echo some; echo other >&2; exit 3;;
    lockfile:*generate-lockfile*) exit 4;;
    toolchain:run*|toolchain:toolchain*) exit 5;;
esac
case "$*" in
    *-vV) exec cat "$0.version";;
    --version) exec cat "$0.rustup";;
    *metadata*) exec cat "$0.metadata";;
    locate-project*) exec cat "$0.locate";;
esac
"""

LIST = ["check", "--feature-powerset", "--print-command-list"]
EACH = ["check", "--each-feature", "--package", "p"]
RANGE = [*EACH, "--version-range", "1.50..=1.51", "--keep-going"]
UNWRITTEN = "error: failed to write the command list"
ENDED = "error: process didn't exit successfully: `{cargo} "
FAILED = "        `{cargo} check --manifest-path p/Cargo.toml --no-default-features --features b`"

# Each call: how it is odd, its arguments, the status, how its last line begins and ends, and how many runs of `check` are begun.
CALLS = {
    "nothing fails": ("", EACH, 0, "info: running", "(4/4)", 4),
    "a list to a full disk": ("full", LIST, 1, UNWRITTEN, "", 0),
    "a list to a closed pipe": ("closed", LIST, 1, UNWRITTEN, "", 0),
    "the help to a full disk": ("full", ["--help"], 1, "error: failed to write to standard output", "", 0),
    "the help to a closed pipe": ("closed", ["--help"], 1, "error: failed to write to standard output", "", 0),
    "lines to a full disk": ("mute", EACH, 0, "", "", 4),
    "no cargo": ("missing", EACH, 1, "error: could not execute process `/nowhere/cargo metadata ", "(never executed)", 0),
    "a run that is killed": ("killed", EACH, 1, ENDED, "--features b` (signal: 9)", 4),
    "the same where runs go on": ("killed", [*EACH, "--keep-going"], 1, FAILED, "", 4),
    "a run that fails at first": ("all", [*EACH, "--keep-going"], 1, FAILED, "", 4),
    "the same where runs don't go on": ("all", EACH, 1, ENDED, "(exit status: 6)", 1),
    "the same between edits": ("killed", [*EACH, "--no-dev-deps"], 1, ENDED, "--features b` (signal: 9)", 4),
    "metadata that are no text": ("no-text", EACH, 1, "error: failed to parse output from `{cargo} metadata ", "`", 0),
    "a version that is no text": ("no-version", EACH, 0, "info: running", "(4/4)", 4),
    "metadata without end": ("endless", EACH, 1, "error: out of memory", "", 0),
    "metadata that are refused": ("refuses", EACH, 1, "other", "", 0),
    "a lockfile that can't be made": ("lockfile", RANGE, 1, ENDED, "(exit status: 4)", 0),
    "a toolchain that isn't there": ("toolchain", RANGE, 1, ENDED, "(exit status: 5)", 0),
}

# What can't be read, for root neither: whether a folder is there or nothing, and the line before the error.
UNREAD = {
    "a folder": (True, "info: Is a directory (os error 21)"),
    "missing": (False, "info: No such file or directory (os error 2)"),
}
# The calls of which a manifest can't be read: the arguments.
READS = {
    "a run": EACH,
    "a list": LIST,
    "a call that edits": [*EACH, "--no-dev-deps"],
    "a call whose edits stay": [*EACH, "--remove-dev-deps"],
}
# Those whose journal is a folder.
JOURNAL = ".cargo-hack-journal"
FOLLOWS = {"a run": EACH, "a call that edits": [*EACH, "--no-dev-deps"], "restoring": ["--restore"]}

MEMORY = 1 << 30


def limited():
    """Leaves the program so much memory."""
    resource.setrlimit(resource.RLIMIT_AS, (MEMORY, MEMORY))


def closed_pipe():
    """A pipe that nobody reads."""
    read, write = os.pipe()
    os.close(read)
    return write


def call(program, words, folder, odd, **more):
    """What a call ends with, and the lines that it prints."""
    cargo = "/nowhere/cargo" if odd == "missing" else f"{folder}/tools/cargo"
    environment = {"PATH": os.environ["PATH"], "CARGO": cargo, "CARGO_HACK_RUSTUP": f"{folder}/tools/cargo", "ODD": odd}
    full = os.open("/dev/full", os.O_WRONLY)
    out = full if odd == "full" else closed_pipe() if odd == "closed" else subprocess.DEVNULL
    err = full if odd == "mute" else subprocess.PIPE
    ended = subprocess.run(
        [program, *words], cwd=f"{folder}/w", env=environment, stdout=out, stderr=err, check=False, timeout=60, **more
    )
    os.close(full)
    if out not in (full, subprocess.DEVNULL):
        os.close(out)
    return ended.returncode, [it for it in (ended.stderr or b"").decode().splitlines() if it]


def runs_begun(folder):
    """How many runs of `check` were begun."""
    with open(f"{folder}/tools/cargo.asked", encoding="utf-8") as it:
        return sum("check" in line.split() for line in it)


def lay_out(folder):
    """The workspace, whose packages say no version of Rust, and the stand-in beside it."""
    cargo = f"{folder}/tools/cargo"
    write_files(f"{folder}/w")
    stand_in(cargo, STAND_IN, f"{folder}/w")
    with open(f"{cargo}.metadata", encoding="utf-8") as it:
        told = it.read()
    write(f"{cargo}.metadata", told.replace('"rust_version":"1.60"', '"rust_version":null'))


def fault_of(program, folder, row):
    """What is wrong with a call, if something is."""
    odd, words, status, begins, ends, begun = row
    write_files(f"{folder}/w")
    write(f"{folder}/tools/cargo.asked", "")
    more = {"preexec_fn": limited} if odd == "endless" else {}
    found, told = call(program, ["hack", *words], folder, odd, stdin=subprocess.DEVNULL, **more)
    last = told[-1] if told else ""
    if found != status:
        return f"status {found}, its last line is {last!r}"
    if not last.startswith(begins.replace("{cargo}", f"{folder}/tools/cargo")) or not last.endswith(ends):
        return f"its last line is {last!r}"
    if runs_begun(folder) != begun:
        return f"{runs_begun(folder)} runs were begun, and not {begun}"
    for name, text in FILES.items():
        with open(f"{folder}/w/{name}", encoding="utf-8") as it:
            if it.read() != text:
                return f"{name} holds something else"
    return None


def fault_of_unread(program, folder, name, is_folder, reason, words):
    """What is wrong with a call that can't read this file of the workspace, if something is."""
    path = f"{folder}/w/{name}"
    write_files(f"{folder}/w")
    write(f"{folder}/tools/cargo.asked", "")
    if os.path.exists(path):
        os.remove(path)
    if is_folder:
        os.mkdir(path)
    before = held(f"{folder}/w")
    found, told = call(program, ["hack", *words], folder, "", stdin=subprocess.DEVNULL)
    after = held(f"{folder}/w")
    if is_folder:
        os.rmdir(path)
    if found != 1 or told[-2:] != [reason, f"error: failed to read from file `{path}`"]:
        return f"status {found}, it tells {told}"
    if runs_begun(folder) != 0:
        return f"{runs_begun(folder)} runs were begun"
    return None if before == after else f"the workspace holds {after}, and not {before}"


def held(workspace):
    """Each file of the workspace, as `tree` tells it, and its folders."""
    return tree(workspace), sorted(place for place, _, _ in os.walk(workspace))


def unread(program, folder):
    """What is wrong with each call that can't read a file, if something is."""
    for kind, (is_folder, reason) in UNREAD.items():
        for name, words in READS.items():
            yield f"{name}, a manifest is {kind}", fault_of_unread(program, folder, "p/Cargo.toml", is_folder, reason, words)
    for name, words in FOLLOWS.items():
        yield f"{name}, the journal is a folder", fault_of_unread(program, folder, JOURNAL, *UNREAD["a folder"], words)


def fault_of_list(program, folder):
    """What is wrong with powerset-list on a closed pipe, if something is."""
    found = call(program, [], folder, "closed", input=b'{"a":[],"b":[]}')
    return None if found == (1, [UNWRITTEN]) else f"it ended with {found}"


def main():
    if len(sys.argv) != 3:
        sys.exit(__doc__)
    programs = [os.path.realpath(it) for it in sys.argv[1:]]
    failed = 0
    with tempfile.TemporaryDirectory() as folder:
        folder = os.path.realpath(folder)
        lay_out(folder)
        faults = {name: fault_of(programs[0], folder, row) for name, row in CALLS.items()}
        faults.update(unread(programs[0], folder))
        faults["powerset-list to a closed pipe"] = fault_of_list(programs[1], folder)
    for name, fault in faults.items():
        if fault:
            failed += 1
            print(f"{name}: {fault}")
    print(f"{len(faults) - failed} passed, {failed} failed")
    return 1 if failed else 0


if __name__ == "__main__":
    sys.exit(main())
