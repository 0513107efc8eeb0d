#!/usr/bin/env python3
"""Proves and builds programs, and all crates below them, side by side.

usage: tools/build_programs.py [--processors N] [--log FILE] PROGRAM ..

A PROGRAM is a crate of crates.txt. First a line says how many crates are to be proved and about how long that takes here.
Then each crate has a line when it is proved: how many are, its name, its seconds, and an estimate of the rest. What the
checks print goes to FILE, and where one fails the last lines of it are shown. The status is 1 then.

A proved crate is not checked again until it or a crate below it changes: what its check kept stays in its `out/`, with
the sum of all that it was made of. So an interrupted run goes on where it ended.

`rt` lets one run at a time work in a crate and in those that it uses. So a crate is checked in a room of its own, a
folder with a copy of it and of what is built of those below it, and its `out/` is then moved back. The crate with the
longest chain of others above it comes first, and the processors that no other crate waits for go to those that run.
"""

import argparse
import concurrent.futures as futures
import hashlib
import os
import pathlib
import re
import shutil
import subprocess
import sys
import tempfile
import time

ROOT = pathlib.Path(__file__).resolve().parent.parent
# About how many times as fast a check is with so many jobs.
GAIN = {1: 1.0, 2: 1.5, 3: 1.8, 4: 2.0}
# What a program is run with once it is built; others read an empty input.
WORDS = {"cargo_hack_program": ["hack", "--version"]}


def listed():
    """The libraries that each crate of crates.txt uses, those of the kit among them."""
    lines = [it.partition("#")[0].partition(":") for it in (ROOT / "crates.txt").read_text("utf-8").split("\n")]
    return {name.split()[0]: uses.split() for name, colon, uses in lines if colon}


def below(uses, names):
    """These crates and all below them, lowest first."""
    found = []

    def visit(name):
        for it in uses[name]:
            visit(it)
        if name not in found:
            found.append(name)

    for name in names:
        visit(name)
    return found


def files_of(name):
    """The files that a check of the crate reads, in order."""
    folder = ROOT / "crates" / name
    return sorted(it for part in ("src", "specs", "proofs") for it in (folder / part).rglob("*") if it.is_file())


def guesses(names):
    """About how many processor seconds each crate takes: as the gate measured last, or by its lines."""
    table = dict(re.findall(r"`(\w+)` \| (\d+)", (ROOT / "docs" / "GATE.md").read_text("utf-8")))
    by_lines = lambda it: 35 + 0.07 * sum(file.read_bytes().count(b"\n") for file in files_of(it))
    return {it: float(table.get(it) or by_lines(it)) for it in names}


def link(source, to):
    try:
        os.link(source, to)
    except OSError:
        shutil.copyfile(source, to)


def minutes(seconds):
    return f"{seconds / 60:.0f} minutes" if seconds >= 90 else f"{seconds:.0f} s"


class Build:
    def __init__(self, programs, log):
        self.listed, self.log = listed(), log
        self.uses = {name: [it for it in uses if it in self.listed] for name, uses in self.listed.items()}
        self.names = below(self.uses, programs)
        self.kit = subprocess.run(["rt", "version"], stdout=subprocess.PIPE, check=True).stdout
        self.sums = {}
        for name in self.names:
            self.sums[name] = self.sum_of(name)
        self.left = [it for it in self.names if not self.is_built(it)]
        self.guess = guesses(self.left)
        self.chain = {}
        for name in reversed(self.left):
            above = [self.chain[it] for it in self.left if name in self.uses[it]]
            self.chain[name] = self.guess[name] + max(above, default=0)

    def sum_of(self, name):
        """The sum of all that a crate is made of: its files, its libraries and the kit."""
        found = hashlib.sha256(repr((name, self.listed[name], self.kit)).encode())
        for file in files_of(name):
            found.update(repr((str(file.relative_to(ROOT)), file.read_bytes())).encode())
        for it in self.uses[name]:
            found.update(self.sums[it].encode())
        return found.hexdigest()

    def is_program(self, name):
        return (ROOT / "crates" / name / "src" / "main.rt").is_file()

    def is_built(self, name):
        out = ROOT / "crates" / name / "out"
        made = out / name if self.is_program(name) else out / "rlib"
        kept = out / "built"
        return made.exists() and kept.is_file() and kept.read_text() == self.sums[name]

    def furnish(self, room, name):
        """Lays out a crate in a room, with what was kept of it, and what is built of those below it."""
        needed = below(self.uses, [name])
        lines = [f"{it}: {' '.join(self.listed[it])}\n" for it in needed]
        (room / "crates.txt").write_text("".join(lines), "utf-8")
        shutil.copy(ROOT / "HANDLES", room)
        for it in needed:
            source, to = ROOT / "crates" / it, room / "crates" / it
            shutil.copytree(source, to, ignore=shutil.ignore_patterns("must-fail", "planted", "out"))
            if it == name and (source / "out").is_dir():
                shutil.copytree(source / "out", to / "out")
            elif it != name:
                shutil.copytree(source / "out" / "rlib", to / "out" / "rlib", copy_function=link)

    def prove(self, name, jobs):
        """Proves and builds one crate over those below it. Its status and its seconds."""
        begun, words = time.monotonic(), ["rt", "lib", "--jobs", str(jobs)]
        if self.is_program(name):
            words = ["rt", "run", "--jobs", str(jobs), "--", *WORDS.get(name, [])]
        with tempfile.TemporaryDirectory(prefix="build-") as folder:
            room = pathlib.Path(folder)
            self.furnish(room, name)
            made = room / "crates" / name
            how = {"cwd": made, "stdin": subprocess.DEVNULL, "stdout": subprocess.PIPE, "stderr": subprocess.STDOUT}
            ran = subprocess.run(words, errors="replace", check=False, **how)
            out = ROOT / "crates" / name / "out"
            if (made / "out").is_dir():
                shutil.rmtree(out, ignore_errors=True)
                shutil.move(made / "out", out)
        self.log.write(f"== {name}: {' '.join(words)}\n{ran.stdout}")
        self.log.flush()
        # (a program that is run on an empty input may end with another status)
        is_made = (out / (f"{name}.stamp" if self.is_program(name) else "rlib/stamp")).is_file()
        if is_made:
            (out / "built").write_text(self.sums[name])
        return not is_made, time.monotonic() - begun, ran.stdout

    def next_jobs(self, ready, at, running, processors):
        """How many jobs the crate at this place of the ready ones gets: 0 where no processor is free."""
        idle = processors - sum(running.values())
        # (all wait for the end of the longest chain)
        least = 2 if processors > 2 and self.chain[ready[at]] >= max(self.chain[it] for it in [*ready, *running]) else 1
        return max(min(idle, least), min(4, idle // (len(ready) - at)))

    def ready(self, left, done):
        found = [it for it in left if not [below for below in self.uses[it] if below in self.left and below not in done]]
        return sorted(found, key=lambda it: -self.chain[it])

    def forecast(self, processors):
        """About how many seconds the whole takes, by playing it through."""
        left, running, done, now = [*self.left], {}, set(), 0.0
        while left or running:
            ready = self.ready(left, done)
            for at, name in enumerate(ready):
                jobs = self.next_jobs(ready, at, {it: jobs for it, (jobs, _) in running.items()}, processors)
                if jobs:
                    left.remove(name)
                    running[name] = jobs, now + self.guess[name] / GAIN[jobs]
            first = min(running, key=lambda it: running[it][1])
            now = running.pop(first)[1]
            done.add(first)
        return now

    def run(self, processors):
        whole = self.forecast(processors)
        built = len(self.names) - len(self.left)
        print(f"{len(self.left)} crates to prove ({built} are), on {processors} processors: about {minutes(whole)}", flush=True)
        left, running, names, done, begun = [*self.left], {}, {}, set(), time.monotonic()
        with futures.ThreadPoolExecutor(processors) as pool:
            while left or running:
                ready = self.ready(left, done)
                for at, name in enumerate(ready):
                    jobs = self.next_jobs(ready, at, running, processors)
                    if jobs:
                        left.remove(name)
                        names[name] = pool.submit(self.prove, name, jobs)
                        running[name] = jobs
                futures.wait([names[it] for it in running], return_when=futures.FIRST_COMPLETED)
                for name in [it for it in running if names[it].done()]:
                    del running[name]
                    failed, seconds, said = names[name].result()
                    if failed:
                        print(f"{name} is not proved; {self.log.name} has all, and its last lines are:")
                        print("\n".join(said.rstrip().split("\n")[-12:]), flush=True)
                        return 1
                    done.add(name)
                    self.tell(name, seconds, done, begun, whole)
        print(f"proved and built in {minutes(time.monotonic() - begun)}", flush=True)
        return 0

    def tell(self, name, seconds, done, begun, whole):
        """One line for a proved crate. The rest is what was foreseen, as far as it isn't done, at the pace so far."""
        passed, all_work = time.monotonic() - begun, sum(self.guess.values())
        part = sum(self.guess[it] for it in done) / all_work
        rest = max(whole - passed, 0.0) * (1 - part) + (passed / part - passed) * part
        number = f"[{len(self.names) - len(self.left) + len(done)}/{len(self.names)}]"
        print(f"{number} {name}: {seconds:.0f} s" + (f", about {minutes(rest)} left" if part < 1 else ""), flush=True)


def main():
    parser = argparse.ArgumentParser(description=__doc__, formatter_class=argparse.RawDescriptionHelpFormatter)
    free = len(os.sched_getaffinity(0))
    parser.add_argument("--processors", metavar="N", type=int, default=free, help=f"how many to use ({free})")
    parser.add_argument("--log", metavar="FILE", default=f"{tempfile.gettempdir()}/cargo-hack-build.log")
    parser.add_argument("program", nargs="+", metavar="PROGRAM")
    asked = parser.parse_args()
    with open(asked.log, "w", encoding="utf-8") as log:
        return Build(asked.program, log).run(max(asked.processors, 1))


if __name__ == "__main__":
    sys.exit(main())
