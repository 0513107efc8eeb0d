#!/usr/bin/env python3
"""Runs the gate and writes its processor time, by part and crate, into docs/GATE.md.

usage: tests/gate_time.py LOG      runs `make test`, writes what it prints and the times to LOG, and then the table
       tests/gate_time.py --of LOG writes the table of an earlier run

Processor time is user and system time together, of all processes. The whole is exact; the parts are looked up in
/proc five times a second, so that each process may lack its last fifth of a second. `proof` is the check of a crate
without its tests, `tests` the one with them, `edits` the checks of the must-fail edits; what no check of a crate took
(starting, linking, running programs and tests) is `other`.
"""

import os
import re
import resource
import subprocess
import sys
import time

ROOT = os.path.dirname(os.path.dirname(os.path.realpath(__file__)))
TICKS = os.sysconf("SC_CLK_TCK")
PARTS = ("proof", "tests", "edits")
BEGIN = re.compile(r"<!-- written by tests/gate_time(?:\.py)? -->")
END = "<!-- up to here -->"


def parents():
    """The parent of each process."""
    found = {}
    for pid in filter(str.isdigit, os.listdir("/proc")):
        try:
            with open(f"/proc/{pid}/stat", encoding="utf-8", errors="replace") as it:
                found[pid] = it.read().rpartition(")")[2].split()[1]
        except OSError:
            continue
    return found


def checks(gate):
    """Each running check of the gate: its process, its crate, its part, and the seconds that it has taken."""
    above = parents()
    for pid in above:
        up = pid
        while up in above and up != gate:
            up = above[up]
        if up != gate:
            continue
        try:
            with open(f"/proc/{pid}/cmdline", "rb") as it:
                words = it.read().split(b"\0")
            if not words[0].endswith(b"/rattle") or b"--crate-name" not in words:
                continue
            with open(f"/proc/{pid}/stat", encoding="utf-8", errors="replace") as it:
                fields = it.read().rpartition(")")[2].split()
            folder = os.readlink(f"/proc/{pid}/cwd")
        except OSError:
            continue
        name = words[words.index(b"--crate-name") + 1].decode()
        part = "edits" if "/rt-edit-" in folder else "tests" if b"--test" in words else "proof"
        yield (pid, fields[19]), name, part, (int(fields[11]) + int(fields[12])) / TICKS


def run(log):
    took, begun = {}, time.monotonic()
    with open(log, "w", encoding="utf-8") as out:
        gate = subprocess.Popen(["make", "--no-print-directory", "test"], cwd=ROOT, stdout=out, stderr=out, stdin=subprocess.DEVNULL)
        while gate.poll() is None:
            for process, name, part, seconds in checks(str(gate.pid)):
                took[process] = (name, part, seconds)
            time.sleep(0.2)
        used = resource.getrusage(resource.RUSAGE_CHILDREN)
        sums = {}
        for name, part, seconds in took.values():
            sums[name, part] = sums.get((name, part), 0) + seconds
        for (name, part), seconds in sorted(sums.items()):
            out.write(f"time: {name} {part} {seconds:.0f}\n")
        out.write(f"time: whole {used.ru_utime + used.ru_stime:.0f} {time.monotonic() - begun:.0f}\n")
    return gate.returncode


def table(log):
    """The lines that docs/GATE.md has of a run: its sums, and four crates a row, the dearest first."""
    with open(log, encoding="utf-8", errors="replace") as it:
        text = it.read()
    sums = {}
    for name, part, seconds in re.findall(r"(?m)^time: (\S+) (proof|tests|edits) (\d+)$", text):
        sums.setdefault(name, dict.fromkeys(PARTS, 0))[part] = int(seconds)
    used, clock = re.search(r"(?m)^time: whole (\d+) (\d+)$", text).groups()
    counts = re.findall(r"(?m)^(\d+ passed, \d+ failed(?:, \d+ skipped)?)$", text)[-1:] or ["not ended"]
    parts = {part: sum(row[part] for row in sums.values()) for part in PARTS}
    parts["all else"] = int(used) - sum(parts.values())
    shares = ", ".join(f"{name} {seconds / 60:.0f}" for name, seconds in parts.items())
    lines = [
        f"`{counts[0]}` in **{int(used) / 60:.0f} processor minutes** ({shares}) and {int(clock) / 60:.0f} of the clock,",
        f"on {len(os.sched_getaffinity(0))} processors. Seconds by crate, from a minute up: its proof alone, and with its tests and edits.",
        "",
        "| crate | s | crate | s | crate | s | crate | s |",
        "|---|---|---|---|---|---|---|---|",
    ]
    dearest = sorted(sums.items(), key=lambda it: -sum(it[1].values()))
    cells = [f"`{name}` | {row['proof']}/{sum(row.values())}" for name, row in dearest if sum(row.values()) >= 60]
    quarter = -(-len(cells) // 4)
    for row in range(quarter):
        lines.append(f"| {' | '.join(cells[row::quarter])} |")
    return lines


def write(lines):
    """Puts the lines between the two marks of docs/GATE.md."""
    path = f"{ROOT}/docs/GATE.md"
    with open(path, encoding="utf-8") as it:
        text = it.read()
    begin = BEGIN.search(text)
    _, end, after = text[begin.end() if begin else len(text) :].partition(END)
    if not end:
        sys.exit(f"docs/GATE.md lacks the marks {BEGIN.pattern} and {END}")
    with open(path, "w", encoding="utf-8") as it:
        it.write("\n".join([text[: begin.end()], *lines, end + after]))
    print("\n".join(lines))


def main(words):
    if len(words) == 2 and words[0] == "--of":
        write(table(words[1]))
        return 0
    if len(words) != 1 or words[0].startswith("-"):
        sys.exit(__doc__)
    status = run(words[0])
    write(table(words[0]))
    return status


if __name__ == "__main__":
    sys.exit(main(sys.argv[1:]))
