#!/usr/bin/env python3
"""Runs powerset-list on calls that it refuses, and on some that it doesn't, and compares status, output and error line.

usage: tests/powerset_list_refusals.py PROGRAM

The last line is `N passed, M failed`, of calls. The status is 1 where one failed.
"""
import json
import os
import resource
import subprocess
import sys

MAP = b'{"a":[],"b":["a"]}'

LIST = b"".join(
    b"cargo check --no-default-features" + features + b"\n" for features in (b"", b" --features b", b" --features a")
)

USAGE = (
    b"error: usage: powerset-list [--depth N] [--at-least-one-of LIST]... [--mutually-exclusive-features LIST]...\n"
)

LONE = b" requires a list of two or more features separated by space or comma\n"

# Words, input, status, output, standard error.
ROWS = [
    ([], MAP, 0, LIST, b""),
    (["--depth", "0"], MAP, 0, b"cargo check --no-default-features\n", b""),
    (["--mutually-exclusive-features", "a b"], MAP, 0, LIST, b""),
    ([], b"{}", 0, b"cargo check\n", b""),
    (["--all"], MAP, 1, b"", USAGE),
    (["--depth"], MAP, 1, b"", USAGE),
    (["--depth", "1", "--depth", "1"], MAP, 1, b"", USAGE),
    (["--depth", "x"], MAP, 1, b"", b"error: invalid number `x`\n"),
    (["--at-least-one-of", "a"], MAP, 1, b"", b"error: --at-least-one-of" + LONE),
    (["--mutually-exclusive-features", "a"], MAP, 1, b"", b"error: --mutually-exclusive-features" + LONE),
    ([], b"[]", 1, b"", b"error: features must be an object of arrays of texts\n"),
    ([], b"", 1, b"", b"error: features must be an object of arrays of texts\n"),
    ([b"\xff"], MAP, 1, b"", b"error: the words must be UTF-8\n"),
    (["--depth", b"\xff"], b"[]", 1, b"", b"error: the words must be UTF-8\n"),
]


def called(program, words, **streams):
    """The status and what is on standard error."""
    ended = subprocess.run([program, *words], stderr=subprocess.PIPE, check=False, **streams)
    return ended.returncode, ended.stderr


def main():
    if len(sys.argv) != 2:
        sys.exit("usage: tests/powerset_list_refusals.py PROGRAM")
    program = os.path.abspath(sys.argv[1])
    good = bad = 0

    def judge(title, found, wanted):
        nonlocal good, bad
        if found == wanted:
            good += 1
        else:
            bad += 1
            print(f"{title}: {found}, and not {wanted}")

    for words, features, status, out, err in ROWS:
        ended = subprocess.run([program, *words], input=features, capture_output=True, check=False)
        judge(words, (ended.returncode, ended.stdout, ended.stderr), (status, out, err))

    # A standard input that can't be read: a folder.
    folder = os.open("/", os.O_RDONLY)
    judge("unreadable", called(program, [], stdin=folder), (1, b"error: failed to read the features\n"))
    os.close(folder)

    # A standard output that takes nothing.
    with open("/dev/full", "wb") as full:
        read, write = os.pipe()
        os.write(write, MAP)
        os.close(write)
        found = called(program, [], stdin=read, stdout=full)
        os.close(read)
    judge("full", found, (1, b"error: failed to write the command list\n"))

    def limited(features, limit):
        """The call with no room beyond the limit: its status, how many lines it wrote, and what it reported."""
        ended = subprocess.run(
            [program],
            input=features,
            capture_output=True,
            check=False,
            preexec_fn=lambda: resource.setrlimit(resource.RLIMIT_AS, (limit, limit)),
        )
        return ended.returncode, ended.stdout.count(b"\n"), ended.stderr

    # A map that no memory has room for.
    long = b'{"' + b"a" * (64 << 20) + b'":[]}'
    judge("memory", limited(long, 64 << 20), (1, 0, b"error: out of memory\n"))

    # Memory that has no room for a million sets of features: no set is kept.
    features = json.dumps({f"f{i:02}": [] for i in range(20)}).encode()
    judge("sets", limited(features, 8 << 20), (0, 1 << 20, b""))

    print(f"{good} passed, {bad} failed")
    sys.exit(1 if bad else 0)


if __name__ == "__main__":
    main()
