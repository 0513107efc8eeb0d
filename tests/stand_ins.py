#!/usr/bin/env python3
"""Proves and builds stand_cargo and stand_rustup, and tries them in temporary folders, by themselves and as commands
that child_rows runs.

usage: tests/stand_ins.py [--built]     --built: as they were built last, by the gate

The last line is `N passed, M failed`, of calls and of what they left in the folders. The status is 1 where one failed.
"""
import os
import subprocess
import sys
import tempfile

ROOT = os.path.dirname(os.path.dirname(os.path.realpath(__file__)))

FILES = {
    "version": b"cargo 1.60.0\nrelease: 1.60.0\n",
    "stable": b"cargo 1.80.0\nrelease: 1.80.0\n",
    "rustup": b"rustup 1.26.0 (5af9b9484 2023-04-05)\n",
    "metadata.json": b'{"packages":[]}\n',
    "locate.json": b'{"root":"\xff"}\n',
    "fail": b"check --package b\r\ntest a\n",
}

# The program, its arguments, its output, and its status. All of them in one folder, in this order.
ANSWERS = [
    ("cargo", ["-vV"], FILES["version"], 0),
    ("rustup", ["-vV"], FILES["stable"], 0),
    ("rustup", ["run", "stable", "cargo", "-vV"], FILES["stable"], 0),
    ("cargo", ["--version"], FILES["rustup"], 0),
    ("rustup", ["--version"], FILES["rustup"], 0),
    ("cargo", ["metadata", "--format-version=1", "--no-deps"], FILES["metadata.json"], 0),
    ("rustup", ["run", "stable", "cargo", "metadata"], FILES["metadata.json"], 0),
    ("cargo", ["locate-project", "--manifest-path", "a b"], FILES["locate.json"], 0),
    ("cargo", ["metadata", "-vV"], FILES["version"], 0),
    ("cargo", ["locate-project", "metadata"], FILES["metadata.json"], 0),
    ("cargo", ["check"], b"", 0),
    ("cargo", ["check", "--package", "b"], b"", 101),
    ("cargo", ["-vV", "check"], b"", 0),
    ("rustup", ["run", "1.60", "cargo", "--version"], b"", 0),
    ("cargo", ["test", "a"], b"", 101),
    ("cargo", ["test a"], b"", 101),
    ("cargo", ["test", "a", ""], b"", 0),
    ("cargo", ["metadatas", "a\nb"], b"", 0),
    ("cargo", [], b"", 0),
]

# The arguments of stand_cargo, as a command that child_rows reads, and what that prints; `{}` is the program's path.
READ = [
    (["-vV"], '"cargo 1.60.0\\nrelease: 1.60.0"'),
    (["metadata", "--format-version=1"], '"{{\\"packages\\":[]}}"'),
    (["locate-project"], 'fault "failed to parse output from `{} locate-project`"'),
    (["check", "--package", "b"], "fault \"process didn't exit successfully: `{} check --package b` (exit status: 101)\""),
]

# What the folder's file `calls` holds after all of these.
CALLS = b"""check
check --package b
-vV check
run 1.60 cargo --version
test a
test a
test a 
metadatas a
b

check --package b
"""

# The program, its arguments, the folder (None: the variable is not set; else below the temporary one, which has an empty
# folder `empty` and a folder `bad` whose file `fail` is no text), and the line on standard error. Each has status 2.
REFUSALS = [
    ("cargo", ["-vV"], None, "error: STAND_DIR is not set"),
    ("rustup", ["check"], None, "error: STAND_DIR is not set"),
    ("cargo", ["-vV"], "none", "error: failed to read from file `{}/none/version`"),
    ("rustup", ["-vV"], "none", "error: failed to read from file `{}/none/stable`"),
    ("cargo", ["check"], "none", "error: failed to write to file `{}/none/calls`"),
    ("cargo", ["metadata"], "empty", "error: failed to read from file `{}/empty/metadata.json`"),
    ("cargo", ["locate-project"], "empty", "error: failed to read from file `{}/empty/locate.json`"),
    ("rustup", ["--version"], "empty", "error: failed to read from file `{}/empty/rustup`"),
    ("cargo", ["check"], "bad", "error: file `{}/bad/fail` is not UTF-8 text"),
    ("cargo", [b"\xff"], "empty", "error: the words must be UTF-8"),
]


def build(name):
    """The path of a program, after it was proved and built."""
    folder = f"{ROOT}/crates/{name}"
    # Without a folder to answer from, the status of a stand-in is 2.
    run = subprocess.run(["rt", "run"], cwd=folder, stdin=subprocess.DEVNULL, capture_output=True, text=True)
    program = f"{folder}/out/{name}"
    if run.returncode not in (0, 2) or not os.path.exists(program):
        sys.exit(f"{name} was not built:\n{run.stdout}{run.stderr}")
    return program


def write(folder, files):
    os.mkdir(folder)
    for name, held in files.items():
        with open(f"{folder}/{name}", "wb") as it:
            it.write(held)


def main():
    if sys.argv[1:] not in ([], ["--built"]):
        sys.exit(__doc__)
    path = (lambda name: f"{ROOT}/crates/{name}/out/{name}") if sys.argv[1:] else build
    programs = {"cargo": path("stand_cargo"), "rustup": path("stand_rustup"), "rows": path("child_rows")}
    with tempfile.TemporaryDirectory(prefix="stand-ins-") as top:
        write(f"{top}/all", FILES)
        write(f"{top}/empty", {})
        write(f"{top}/bad", {"fail": b"\xff\n"})
        rows = [(tool, words, "all", status, out, b"") for tool, words, out, status in ANSWERS]
        stand = programs["cargo"]
        rows += [("rows", [stand, *words], "all", 0, said.format(stand).encode() + b"\n", b"") for words, said in READ]
        rows += [(tool, words, at, 2, b"", line.format(top).encode() + b"\n") for tool, words, at, line in REFUSALS]
        right = 0
        for tool, words, at, *want in rows:
            environment = {name: value for name, value in os.environ.items() if name != "STAND_DIR"}
            if at is not None:
                environment["STAND_DIR"] = f"{top}/{at}"
            run = subprocess.run([programs[tool], *words], env=environment, stdin=subprocess.DEVNULL, capture_output=True)
            found = [run.returncode, run.stdout, run.stderr]
            if found == want:
                right += 1
            else:
                print(f"{programs[tool]} {words} in {at}: {found}, and not {want}")
        with open(f"{top}/all/calls", "rb") as it:
            calls = it.read()
        if calls != CALLS:
            print(f"the notes are {calls!r}, and not {CALLS!r}")
        kept = all(open(f"{top}/all/{name}", "rb").read() == held for name, held in FILES.items())
        empty = os.listdir(f"{top}/empty") == []
        if not kept or not empty:
            print("a file was changed, or made, that should not be")
    passed = right + (calls == CALLS) + (kept and empty)
    failed = len(rows) + 2 - passed
    print(f"{passed} passed, {failed} failed")
    return failed == 0


if __name__ == "__main__":
    sys.exit(0 if main() else 1)
