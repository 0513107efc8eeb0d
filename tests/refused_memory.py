#!/usr/bin/env python3
"""Refuses the growths of memory of the built programs, one after the other, and looks at what they do then.

usage: tests/refused_memory.py [--every K] CARGO_HACK [POWERSET_LIST [MEMORY_CALLS]]

A small allocator, built by the machine's C compiler and loaded before the program, refuses its n-th call, or that one and
all after it, for n from 1 (with K: 1, K + 1, ..) until a run meets no refusal. Each run has to end with the status and the
bytes of a run with ample memory, or with status 1 and the last line `error: out of memory` (or, where such a run fails,
its last line) but for lines on what stays and on a refused edit, never by a signal; and every file of the workspace has to
hold its bytes at the end. So a sample, in whose search memory was refused, is the very same or none.
`memory_calls` makes the calls that take memory step by step, and says in which one it was refused: each of them has to be
among these.

Prints a line for each call. The last line is `N passed, M failed, K skipped`; the status is 1 where one failed.
"""
import json
import os
import shutil
import subprocess
import sys
import tempfile

sys.dont_write_bytecode = True
from small_workspace import FILES, library, number_and_programs, stand_in, write, write_files  # noqa: E402

# Refuses the call of that number in programs of this name, and says so by a file.
ALLOCATOR = r"""
#define _GNU_SOURCE
#include <dlfcn.h>
#include <errno.h>
#include <fcntl.h>
#include <stdlib.h>
#include <string.h>
#include <unistd.h>

static long calls, from, only;

__attribute__((constructor)) static void start(void) {
    const char *name = getenv("REFUSE_IN"), *at = getenv("REFUSE_AT"), *all = getenv("REFUSE_ALL");
    if (name && at && !strcmp(program_invocation_short_name, name)) {
        from = atol(at);
        only = !all;
    }
}

static int refused(void) {
    calls++;
    if (!from || (only ? calls != from : calls < from)) return 0;
    int mark = open(getenv("REFUSE_MARK"), O_WRONLY | O_CREAT, 0600);
    if (mark >= 0) close(mark);
    errno = ENOMEM;
    return 1;
}

void *malloc(size_t size) {
    static void *(*below)(size_t);
    if (!below) below = dlsym(RTLD_NEXT, "malloc");
    return refused() ? NULL : below(size);
}

void *realloc(void *old, size_t size) {
    static void *(*below)(void *, size_t);
    if (!below) below = dlsym(RTLD_NEXT, "realloc");
    return refused() ? NULL : below(old, size);
}
"""

# The stand-in for cargo and rustup: it answers from files, fails on one version and where features `b` are asked for, and else
# is content.
STAND_IN = """#!/bin/sh
case "$*" in
    *" -vV"|-vV) exec cat "$0.version";;
    --version) exec cat "$0.rustup";;
    *metadata*) exec cat "$0.metadata";;
    *locate-project*) exec cat "$0.locate";;
    *"--features b"*|"run 1.61 cargo check "*) exit 101;;
esac
"""

# The calls, each with its arguments.
CALLS = {
    "a list": ["check", "--feature-powerset", "--workspace", "--print-command-list"],
    "each feature, to the end": ["check", "--each-feature", "--workspace", "--keep-going"],
    "a range of versions": ["check", "--workspace", "--version-range", "1.60..=1.62", "--print-command-list"],
    "a sample": ["check", "--feature-powerset", "--strength", "2", "--print-command-list", "-p", "p"],
    "development dependencies left out": ["check", "--each-feature", "--workspace", "--no-dev-deps", "--keep-going", "-v"],
    "private members left out": ["check", "--workspace", "--no-private"],
    "a search for the least version": ["check", "-p", "p", "--find-rust-version", "--version-range", "1.60..=1.63"],
    "a search for conflicts": ["check", "--workspace", "--feature-powerset", "--find-conflicts", "--exclude-features", "a"],
    "one that finds none": ["check", "--workspace", "--feature-powerset", "--find-conflicts", "-v"]
    + ["--exclude-features", "b", "--mutually-exclusive-features", "a,c"],
}

# Tables of rules in the manifests, the first with names that no package has.
TABLE = {"exclude-features": ["h", "x"], "mutually-exclusive-features": [["a", "b"]], "group-features": [["c", "e"]],
         "optional-deps": ["y"], "depth": 2}
SHARED_TABLE = {"exclude-features": ["g"], "at-least-one-of": [["a", "c"]], "group-features": [["d", "f"], ["d", "z"]]}

# Calls that are told of eight features, some of which enable others, so that their samples take some search, and of tables of
# rules.
WIDE = {
    "rules of tables": ["check", "--feature-powerset", "--package-rules", "--print-command-list", "--workspace"],
    "a sample of eight features": ["check", "--feature-powerset", "--strength", "3", "--print-command-list", "-p", "p"],
    "a sample with groups": ["check", "--feature-powerset", "--strength", "2", "--print-command-list", "-p", "p"]
    + ["--mutually-exclusive-features", "a,b", "--at-least-one-of", "c,e"],
}

# The maps of powerset-list.
MAPS = {
    "a map": '{"a":[],"b":["a"],"c":["b","x/y"],"d":["dep:e"]}',
    "a cycle": '{"a":["b"],"b":["c"],"c":["a"]}',
    "an empty map": "{}",
}

# The calls that `memory_calls` makes, in order.
STEPS = ["Args::parse", "Answers::ask", "Context::new", "prepare", "plan_of", "Session::new", "pruned", "remove_dev_deps"]


def lay_out(folder):
    """The workspace, and two stand-ins beside it. The first tells of three features: so many have more than one sample of
    pairs. The second tells of eight, and of tables of rules."""
    workspace, tools = f"{folder}/w", [f"{folder}/tools/cargo", f"{folder}/wide/cargo"]
    write_files(workspace)
    for cargo, more in zip(tools, ('"c":[]', '"c":[],"d":["a"],"e":[],"f":["b","e"],"g":[],"h":["d"]')):
        stand_in(cargo, STAND_IN, workspace)
        with open(f"{cargo}.metadata", encoding="utf-8") as it:
            told = it.read()
        write(f"{cargo}.metadata", told.replace('"b":[]', f'"b":[],{more}'))
    with open(f"{tools[1]}.metadata", encoding="utf-8") as it:
        told = json.load(it)
    for held, table in ((told, SHARED_TABLE), (told["packages"][0], TABLE)):
        held["metadata"] = {"cargo-hack": table}
    write(f"{tools[1]}.metadata", json.dumps(told))
    return workspace, *tools


def run(words, workspace, cargo, given="", refuse=None):
    """What a run ends with and writes, and whether memory was refused in it."""
    mark = f"{os.path.dirname(workspace)}/mark"
    if os.path.exists(mark):
        os.remove(mark)
    environment = {"PATH": os.environ["PATH"], "CARGO": cargo, "CARGO_HACK_RUSTUP": cargo}
    if refuse:
        environment.update(refuse, REFUSE_IN=os.path.basename(words[0]), REFUSE_MARK=mark)
    ran = subprocess.run(
        words, cwd=workspace, env=environment, input=given.encode(), capture_output=True, timeout=60, check=False
    )
    return ran.returncode, ran.stdout, ran.stderr, os.path.exists(mark)


def fault_of(ended, ample, workspace):
    """What is wrong with the end of a run in which memory was refused, if something is."""
    status, out, err, _ = ended
    for name, text in FILES.items():
        with open(f"{workspace}/{name}", encoding="utf-8") as it:
            if it.read() != text:
                return f"{name} holds something else"
    if status < 0:
        return f"ended by signal {-status}"
    if (status, out) == ample[:2]:
        return None
    if status != 1:
        return f"status {status}, in place of {ample[0]} or 1"
    allowed = ["error: out of memory", *(ample[2].decode().splitlines()[-1:] if ample[0] else [])]
    behind = ("brings back what it tells", "the next call removes it", "an edit was refused, since what it replaces can't be kept")
    last = [it for it in err.decode().splitlines() if not any(text in it for text in behind)][-1:]
    return None if last and last[0] in allowed else f"its last line is {last}"


def try_call(name, words, places, preload, every, given="", steps=()):
    """Tries a call at each number; returns how many, and what was wrong first. Some refusal has to be in each of these steps,
    which the first line of an error names."""
    workspace, cargo = places
    ample = run(words, workspace, cargo, given)
    tried, refused = 0, set()
    for more in ({}, {"REFUSE_ALL": "1"}):
        at = 1
        while True:
            ended = run(words, workspace, cargo, given, {"LD_PRELOAD": preload, "REFUSE_AT": str(at), **more})
            if not ended[3]:
                break
            tried += 1
            refused.update(ended[2].decode().splitlines()[:1])
            fault = fault_of(ended, ample, workspace)
            if fault:
                return tried, f"{name}: refused at {at}{' and behind' if more else ''}: {fault}"
            at += every
    missed = [it for it in steps if it not in refused]
    return tried, f"{name}: refused in all but {', '.join(missed)}" if missed else None


def main():
    every, programs = number_and_programs("--every", 1, __doc__, 3)
    calls = [(name, [programs[0], "hack", *more], "", 1, ()) for name, more in CALLS.items()]
    calls += [(name, [programs[0], "hack", *more], "", 2, ()) for name, more in WIDE.items()]
    if len(programs) > 1:
        calls += [(f"powerset-list of {name}", programs[1:2], given, 1, ()) for name, given in MAPS.items()]
    if len(programs) > 2:
        calls.append(("each call by itself", programs[2:], "", 1, STEPS))
    if shutil.which("cc") is None:
        print(f"no C compiler: {len(calls)} calls skipped")
        print(f"0 passed, 0 failed, {len(calls)} skipped")
        return 0
    failed = 0
    with tempfile.TemporaryDirectory() as folder:
        folder = os.path.realpath(folder)
        places = lay_out(folder)
        preload = f"{folder}/allocator.so"
        library(preload, ALLOCATOR)
        for name, called, given, tool, steps in calls:
            tried, fault = try_call(name, called, (places[0], places[tool]), preload, 1 if steps else every, given, steps)
            print(fault or f"{name}: {tried} refusals")
            failed += fault is not None
    print(f"{len(calls) - failed} passed, {failed} failed, 0 skipped")
    return 1 if failed else 0


if __name__ == "__main__":
    sys.exit(main())
