#!/usr/bin/env python3
"""The gate: `rt ci` proves and tests everything from nothing, and then the scripts beside this one try the programs that it
built.

usage: tests/gate.py

Prints what they print. The last line is `N passed, M failed` over all of them, followed by `, K skipped` where
something was left out, which a line before says. The status is 0 where nothing failed.
"""
import os
import re
import subprocess
import sys

ROOT = os.path.dirname(os.path.dirname(os.path.realpath(__file__)))
COUNTS = re.compile(r"(\d+) passed, (\d+) failed(?:, (\d+) skipped)?")


def built(name):
    """The path of a program that `rt ci` left."""
    return f"{ROOT}/crates/{name}/out/{name}"


# Each script with its arguments.
SCRIPTS = [
    ["tests/documents.py", built("cargo_hack_program")],
    ["tests/completions.py"],
    ["tests/powerset_list_refusals.py", built("powerset_list")],
    ["tests/stand_ins.py", "--built"],
    ["tests/whole_calls.py", built("cargo_hack_program"), built("stand_cargo"), built("stand_rustup")],
    ["tests/parallel_runs.py", built("cargo_hack_program")],
    ["tests/version_search.py", built("cargo_hack_program"), "--cases", "50"],
    ["tests/conflict_search.py", built("cargo_hack_program"), "--cases", "40"],
    ["tests/dist_archive.py", built("cargo_hack_program"), built("powerset_list")],
    ["tests/real_cargo.py", built("cargo_hack_program")],
    ["tests/refused_memory.py", "--every", "5", *map(built, ("cargo_hack_program", "powerset_list", "memory_calls"))],
    ["tests/broken_streams.py", built("cargo_hack_program"), built("powerset_list")],
    ["tests/kill_points.py", "--every", "3", built("cargo_hack_program")],
    ["tests/guarded_calls.py", "--races", "10", built("cargo_hack_program")],
    ["tests/lists_by_definition.py", built("cargo_hack_program"), "--cases", "200", "--counts", "1", "--maps", built("powerset_list")],
    ["tests/odd_calls.py", built("cargo_hack_program"), built("powerset_list"), "--cases", "500"],
]


def run(words):
    """Runs a command, whose output is passed on as it comes, and returns its status and its last line."""
    last = ""
    with subprocess.Popen(words, cwd=ROOT, stdout=subprocess.PIPE, text=True, errors="replace") as command:
        for line in command.stdout:
            sys.stdout.write(line)
            sys.stdout.flush()
            last = line.strip() or last
    return command.returncode, last


def counts(words, status, last):
    """How many passed, failed and were skipped. A command that prints no numbers, or no failure and fails, is one failure."""
    told = COUNTS.fullmatch(last)
    if told is None:
        print(f"{words[0]} printed no numbers, and ended with status {status}")
        return 0, 1, 0
    passed, failed, skipped = (int(it or 0) for it in told.groups())
    if status != 0 and failed == 0:
        print(f"{words[0]} ended with status {status}")
        failed = 1
    return passed, failed, skipped


def main():
    status, last = run(["rt", "ci"])
    total = counts(["rt ci"], status, last)
    # What it didn't prove isn't tried.
    for words in [] if total[1] else SCRIPTS:
        status, last = run(words)
        total = [a + b for a, b in zip(total, counts(words, status, last))]
    passed, failed, skipped = total
    print(f"{passed} passed, {failed} failed" + (f", {skipped} skipped" if skipped else ""))
    return 1 if failed else 0


if __name__ == "__main__":
    sys.exit(main())
