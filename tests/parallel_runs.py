#!/usr/bin/env python3
"""Calls the built cargo-hack with `--parallel` over a script in place of cargo and rustup, which notes when each command
starts and ends, and compares what comes of it with the same call in series: the status and both outputs, byte for byte.
Looks into the notes too: how many ran at once, in which target folders, in which order they were started, and whether
something was started twice, across a preparation, or is left at the end.

usage: tests/parallel_runs.py CARGO_HACK

The last line is `N passed, M failed`; the status is 1 where one failed.
"""
import json
import os
import pty
import re
import select
import shlex
import shutil
import signal
import subprocess
import sys
import tempfile
import time

sys.dont_write_bytecode = True
from killed_calls import heed_signals  # noqa: E402
from small_workspace import library, write  # noqa: E402

FEATURES = "abcdefgh"
MANIFEST = '[package]\nname = "p"\n\n[features]\n' + "".join(f"{it} = []\n" for it in FEATURES) + '\n[dev-dependencies]\nd = "1"\n'

# The script in place of cargo and rustup. A run does what the file of its last word says, after a note of its start.
SCRIPT = r"""#!/bin/sh
case "$*" in
*metadata*) cat @/metadata; exit;;
*locate-project*) cat @/locate; exit;;
*-vV*) cat @/version; exit;;
"run "*" cargo --version") echo "prepared $(date +%s%N) $*" >> @/notes; sleep 0.05; echo "over $(date +%s%N) $*" >> @/notes; exit;;
*--version*) cat @/rustup; exit;;
*generate-lockfile*) exit;;
esac
echo "started $(date +%s%N) ${CARGO_TARGET_DIR:-target} ${CARGO_BUILD_JOBS:--} ${CARGO_TERM_COLOR:--} $*" >> @/notes
for last; do :; done
echo "output of $*"
echo "errors of $*" >&2
over() { echo "ended $(date +%s%N) ${CARGO_TARGET_DIR:-target} - - $words" >> @/notes; }
words=$*
if [ -e "@/runs/$last" ]; then (. "@/runs/$last"); else sleep 0.05; fi
status=$?
over
exit $status
"""

SET = "--feature-powerset --depth 1 --exclude-all-features"

# Each call: its arguments, and what single runs do in place of taking 50 ms, by the name of their feature.
CALLS = {
    "runs that pass": (f"check {SET}", {}),
    "runs of uneven length": (f"check {SET}", {"a": "sleep 0.6", "d": "sleep 0.3"}),
    "a failed run, where others go on": (f"check {SET} --keep-going", {"c": "sleep 0.1; false", "g": "exit 7"}),
    "a failed run, where they don't": (f"check {SET}", {"c": "sleep 0.2; exit 101"}),
    "the first run fails": (f"check {SET}", {"--no-default-features": "false", "a": "sleep 5", "b": "sleep 5"}),
    "the last run fails": (f"check {SET}", {"h": "false"}),
    "runs that end by signals": (f"check {SET} --keep-going", {"b": "over; kill -9 $$", "e": "over; kill -15 $$"}),
    "10 MB on both streams": (
        f"check {SET}",
        {"b": "head -c 10000000 /dev/zero | tr '\\0' o; head -c 10000000 /dev/zero | tr '\\0' e >&2"},
    ),
    "a block of the plan": (f"check {SET} --partition 2/3", {}),
    "a piece that is dealt in turn": (f"check {SET} --partition 2/3 --partition-kind turn", {"e": "sleep 0.3"}),
    "a range of versions": (f"check {SET} --version-range 1.60..=1.62", {"h": "sleep 0.3"}),
    "a range of versions in which a run fails": (f"check {SET} --version-range 1.60..=1.61 --keep-going", {"b": "exit 1"}),
    "a piece over versions": (f"check {SET} --version-range 1.60..=1.62 --partition 2/2", {}),
    "a sample with suspects": ("check --feature-powerset --strength 2 --keep-going", {"a,b,c": "true", "g,h": "false", "h": "false"}),
    "manifests without dev-dependencies": (f"check {SET} --no-dev-deps", {"b": "sleep 0.2"}),
    "groups of GitHub Actions": (f"check {SET} --log-group github-actions", {"d": "sleep 0.2"}),
    "commands in full": (f"check {SET} -v --keep-going", {"a": "false"}),
    "each one's input is empty": (f"check {SET}", {"a": "cat", "b": "cat"}),
    "a program that can't be started": (f"check {SET} --keep-going", {}),
}


class World:
    """A workspace of one package, and the script in place of cargo and rustup."""

    def __init__(self, folder, runs):
        self.folder = folder
        write(f"{folder}/w/Cargo.toml", MANIFEST)
        dependency = {"name": "d", "optional": False, "rename": None}
        package = {
            "id": "p",
            "name": "p",
            "version": "0.1.0",
            "dependencies": [dependency],
            "features": {it: [] for it in FEATURES},
            "manifest_path": f"{folder}/w/Cargo.toml",
            "publish": None,
            "rust_version": None,
        }
        told = {
            "packages": [package],
            "workspace_members": ["p"],
            "resolve": None,
            "workspace_root": f"{folder}/w",
            "target_directory": f"{folder}/w/built",
        }
        write(f"{folder}/metadata", json.dumps(told))
        write(f"{folder}/locate", json.dumps({"root": f"{folder}/w/Cargo.toml"}))
        write(f"{folder}/version", "cargo 1.90.0\nrelease: 1.90.0\nhost: h\n")
        write(f"{folder}/rustup", "rustup 1.27.1 (54dd3d00f 2024-04-24)\n")
        os.makedirs(f"{folder}/runs", exist_ok=True)
        os.makedirs(f"{folder}/tmp", exist_ok=True)
        for name, what in runs.items():
            write(f"{folder}/runs/{name}", what + "\n")
        write(f"{folder}/stand", SCRIPT.replace("@", shlex.quote(folder)), 0o755)
        self.environment = {
            "CARGO": f"{folder}/stand",
            "CARGO_HACK_RUSTUP": f"{folder}/stand",
            "PATH": os.environ["PATH"],
            "TMPDIR": f"{folder}/tmp",
        }

    def forget(self):
        """Drops the notes."""
        write(f"{self.folder}/notes", "")

    def notes(self):
        """What was noted, in order: a kind, a time, a target folder, jobs, colours and the words."""
        found = []
        with open(f"{self.folder}/notes", encoding="utf-8") as it:
            for line in it:
                kind, when, rest = line.split(" ", 2)
                if kind in ("prepared", "over"):
                    found.append((kind, int(when), "", "", "", rest.strip()))
                else:
                    target, jobs, colors, words = rest.strip().split(" ", 3)
                    found.append((kind, int(when), target, jobs, colors, words))
        return found

    def left(self):
        """The processes of the script that are still there."""
        told = subprocess.run(["pgrep", "-f", f"{self.folder}/stand"], capture_output=True, text=True, check=False)
        return told.stdout.split()


def call(program, world, words, **more):
    """The status and both outputs of a call."""
    world.forget()
    ended = subprocess.run(
        [program, "hack", *words.split()],
        cwd=f"{world.folder}/w",
        env=world.environment,
        input=b"not for runs\n",
        capture_output=True,
        check=False,
        timeout=120,
        **more,
    )
    return ended.returncode, ended.stdout, ended.stderr


def fault_in(notes, told, width):
    """What the notes have against the rules, if something: `told` has the words of the serial call's runs."""
    running, started, prepares = {}, [], False
    for kind, _, target, _, _, words in notes:
        if kind == "prepared":
            prepares = True
            if running:
                return f"prepared while {len(running)} ran"
        elif kind == "over":
            prepares = False
        elif kind == "started":
            if prepares:
                return "started during a preparation"
            if words in started:
                return f"{words} was started twice"
            if target in running.values():
                return f"two at once in {target}"
            started.append(words)
            running[words] = target
            if len(running) > width:
                return f"{len(running)} at once"
        else:
            running.pop(words, None)
    if not set(told) <= set(started):
        return f"started {started}, and in series {told}"
    if len(started) > len(told) + 2 * width:
        return f"started {len(started) - len(told)} too many"
    return None


def compared(program, name, words, runs):
    """Compares a call in series with the same call side by side, and yields what is wrong."""
    with tempfile.TemporaryDirectory(prefix="parallel-runs-") as folder:
        world = World(os.path.realpath(folder), runs)
        if name == "a program that can't be started":
            world.environment["CARGO_HACK_RUSTUP"] = f"{folder}/none"
            words += " --version-range 1.60..=1.60"
        serial = call(program, world, words)
        told = [it[5] for it in world.notes() if it[0] == "started"]
        for width in [1, 2, 3, 5]:
            beside = call(program, world, f"{words} --parallel {width}")
            notes = world.notes()
            if width == 1 and "input" in name:
                continue
            for what, here, there in zip(["status", "standard output", "standard error"], beside, serial):
                if "input" in name:
                    there = there.replace(b"not for runs\n", b"") if isinstance(there, bytes) else there
                if here != there:
                    yield f"{name}, {width} at once: {what} differs: {shortened(here)}, and in series {shortened(there)}"
            fault = fault_in(notes, told, width)
            if fault is not None:
                yield f"{name}, {width} at once: {fault}"
            if world.left():
                yield f"{name}, {width} at once: processes are left"
            if os.listdir(f"{folder}/tmp"):
                yield f"{name}, {width} at once: files are left"
            with open(f"{folder}/w/Cargo.toml", encoding="utf-8") as it:
                if it.read() != MANIFEST:
                    yield f"{name}, {width} at once: the manifest isn't what it was"


def shortened(what):
    """A text of a fault."""
    return what[-600:] if isinstance(what, bytes) else what


def gains(program):
    """Four at once are faster than one by one, and a slow run doesn't hold up the others."""
    with tempfile.TemporaryDirectory(prefix="parallel-runs-") as folder:
        world = World(os.path.realpath(folder), {it: "sleep 0.4" for it in FEATURES} | {"a": "sleep 1.2"})
        begun = time.monotonic()
        call(program, world, f"check {SET} --parallel 4")
        took = time.monotonic() - begun
        if took > 2.4:
            yield f"eight runs of 0.4 s, one of 1.2 s, took {took:.2f} s at four"
        notes = world.notes()
        ends = {it[5]: it[1] for it in notes if it[0] == "ended"}
        slow = next(it for it in ends if it.endswith(" a"))
        ahead = [it for it in notes if it[0] == "started" and it[1] < ends[slow]]
        if len(ahead) < 6:
            yield f"only {len(ahead)} were started before the slow one ended"


def surroundings(program):
    """Which variables a run finds, on a pipe and on a terminal."""
    with tempfile.TemporaryDirectory(prefix="parallel-runs-") as folder:
        world = World(os.path.realpath(folder), {"a": "sleep 0.5"})
        write(f"{world.folder}/bin/nproc", '#!/bin/sh\necho "${OMP_NUM_THREADS:-${OMP_THREAD_LIMIT:-8}}"\n', 0o755)
        world.environment |= {"PATH": f"{world.folder}/bin:{os.environ['PATH']}", "OMP_NUM_THREADS": "2", "OMP_THREAD_LIMIT": "2"}
        call(program, world, f"check {SET} --parallel 2")
        notes = [it for it in world.notes() if it[0] == "started"]
        targets = {it[2] for it in notes}
        if targets != {"target", f"{world.folder}/w/built/cargo-hack-lane-1"}:
            yield f"the target folders are {targets}"
        if {it[3] for it in notes} != {str(max(1, allowed(8) // 2))}:
            yield f"the jobs are {[it[3] for it in notes]}"
        if {it[4] for it in notes} != {"-"}:
            yield "colours are asked for on a pipe"
        quotas = with_quotas(world)
        for quota, jobs in {"max 100000": 4, "600000 100000": 3, "50000 100000": 1, "": 4}.items() if quotas else []:
            write(quotas, quota)
            call(program, world, f"check {SET} --parallel 2")
            found = {it[3] for it in world.notes() if it[0] == "started"}
            if found != {str(jobs)}:
                yield f"of 8 processors, with the quota {quota!r}, the jobs are {found}"
        world.environment["CARGO_BUILD_JOBS"] = "7"
        call(program, world, f"check {SET} --parallel 2")
        if {it[3] for it in world.notes() if it[0] == "started"} != {"7"}:
            yield "the environment's jobs aren't kept"
        for words in ("--target-dir x", "--target-dir=x", "--config build.target-dir=x", "--config=build.target-dir=x"):
            call(program, world, f"check {SET} --parallel 3 {words}")
            notes = [it for it in world.notes() if it[0] in ("started", "ended")]
            if {it[2] for it in notes} != {"target"} or any(a[0] == b[0] for a, b in zip(notes, notes[1:])):
                yield f"with {words} runs aren't made one by one in its folder"
        shown = on_terminal(program, world, f"check {SET} --parallel 2")
        if {it[4] for it in world.notes() if it[0] == "started"} != {"always"}:
            yield "no colours are asked for on a terminal"
        on_terminal(program, world, f"check {SET} --parallel 2", subprocess.DEVNULL)
        if {it[4] for it in world.notes() if it[0] == "started"} != {"-"}:
            yield "colours are asked for though the output goes elsewhere"
        if not re.search(rb"\r[^\r\n]*\d+ ended, \d+ running", shown):
            yield f"no progress is shown on a terminal: {shown[:300]}"
        if b"running `" not in shown or b"output of check" not in shown:
            yield "runs are not shown on a terminal"


def allowed(processors):
    """As many of these processors as the quota of this machine allows, if it has one."""
    try:
        with open("/sys/fs/cgroup/cpu.max", encoding="utf-8") as it:
            time_used, period = map(int, it.read().split())
    except (OSError, ValueError):
        return processors
    return min(processors, max(1, time_used // period))


# Opens the file that CPU_MAX names in place of the quota of processors.
QUOTA = r"""
#define _GNU_SOURCE
#include <dlfcn.h>
#include <fcntl.h>
#include <stdarg.h>
#include <stdlib.h>
#include <string.h>
#include <sys/types.h>

int open(const char *path, int flags, ...) {
    static int (*below)(const char *, int, ...);
    const char *quota = getenv("CPU_MAX");
    va_list more;
    va_start(more, flags);
    mode_t mode = va_arg(more, mode_t);
    va_end(more);
    if (!below) below = dlsym(RTLD_NEXT, "open");
    return below(quota && !strcmp(path, "/sys/fs/cgroup/cpu.max") ? quota : path, flags, mode);
}
"""


def with_quotas(world):
    """The path of a file that calls read in place of the quota of processors, if there is a C compiler."""
    if shutil.which("cc") is None:
        return None
    library(f"{world.folder}/quota.so", QUOTA)
    world.environment |= {"LD_PRELOAD": f"{world.folder}/quota.so", "CPU_MAX": f"{world.folder}/cpu.max"}
    return world.environment["CPU_MAX"]


def in_one_stream(program):
    """Where both outputs go to one file, what a run writes to both stays in order."""
    with tempfile.TemporaryDirectory(prefix="parallel-runs-") as folder:
        world = World(os.path.realpath(folder), {"a": "echo more; echo most >&2; echo last"})
        shown = []
        for more in ("", " --parallel 3"):
            world.forget()
            words = [program, "hack", *f"check {SET}{more}".split()]
            how = {"cwd": f"{world.folder}/w", "env": world.environment, "stdin": subprocess.DEVNULL, "check": False}
            shown.append(subprocess.run(words, stdout=subprocess.PIPE, stderr=subprocess.STDOUT, **how).stdout)
        if shown[0] != shown[1] or b"more\nmost\nlast\n" not in shown[0]:
            yield f"in one file one by one shows {shown[0]}, side by side {shown[1]}"


def on_terminal(program, world, words, out=None):
    """What a call shows on a terminal, with its standard output there or elsewhere."""
    world.forget()
    parent, child = pty.openpty()
    environment = world.environment | {"TERM": "xterm"}
    streams = {"stdin": child, "stdout": child if out is None else out, "stderr": child}
    with subprocess.Popen([program, "hack", *words.split()], cwd=f"{world.folder}/w", env=environment, **streams) as it:
        os.close(child)
        shown = b""
        while True:
            ready, _, _ = select.select([parent], [], [], 60)
            try:
                part = os.read(parent, 65536) if ready else b""
            except OSError:
                part = b""
            if not part:
                break
            shown += part
        it.wait(timeout=60)
    os.close(parent)
    return shown


def heed_interrupts():
    """What a script starts in the background ignores Ctrl-C, and so would all that it starts."""
    signal.signal(signal.SIGINT, signal.SIG_DFL)


def interrupted(program):
    """Ctrl-C reaches all that runs: the whole group of processes, as from a terminal."""
    with tempfile.TemporaryDirectory(prefix="parallel-runs-") as folder:
        world = World(os.path.realpath(folder), {it: "sleep 30" for it in [*FEATURES, "--no-default-features"]})
        world.forget()
        with subprocess.Popen(
            [program, "hack", *f"check {SET} --parallel 3".split()],
            cwd=f"{world.folder}/w",
            env=world.environment,
            stdin=subprocess.DEVNULL,
            stdout=subprocess.DEVNULL,
            stderr=subprocess.DEVNULL,
            start_new_session=True,
            preexec_fn=heed_interrupts,
        ) as it:
            for _ in range(400):
                if sum(note[0] == "started" for note in world.notes()) == 3:
                    break
                time.sleep(0.05)
            os.killpg(it.pid, signal.SIGINT)
            it.wait(timeout=30)
        for _ in range(100):
            if not world.left():
                break
            time.sleep(0.05)
        if world.left():
            yield f"after Ctrl-C {len(world.left())} processes are left"
        if os.listdir(f"{folder}/tmp"):
            yield "after Ctrl-C files are left"


def closed(program):
    """A call whose standard input and error are closed ends: no file of a run has their numbers."""
    with tempfile.TemporaryDirectory(prefix="parallel-runs-") as folder:
        world = World(os.path.realpath(folder), {"a": "echo told >&2"})
        world.forget()
        words = [program, "hack", *f"check {SET} --parallel 3".split()]
        try:
            ended = subprocess.run(
                ["sh", "-c", 'exec "$@" <&- 2>&-', "sh", *words],
                cwd=f"{world.folder}/w",
                env=world.environment,
                stdout=subprocess.DEVNULL,
                check=False,
                timeout=30,
            )
        except subprocess.TimeoutExpired:
            yield "with closed streams a call doesn't end"
            return
        if ended.returncode != 0 or sum(it[0] == "ended" for it in world.notes()) < len(FEATURES):
            yield f"with closed streams the status is {ended.returncode}, and {len(world.notes())} notes were made"


def unwritten(program):
    """What runs wrote to standard output is not lost silently: where that is full the status is 1, and an error says so last. What
    standard error doesn't take is let go."""
    with tempfile.TemporaryDirectory(prefix="parallel-runs-") as folder, open("/dev/full", "wb") as full:
        world = World(os.path.realpath(folder), {})
        how = {"cwd": f"{world.folder}/w", "env": world.environment, "check": False, "timeout": 30}
        words = [program, "hack", *f"check {SET} --parallel 3".split()]
        world.forget()
        ended = subprocess.run(words, stdout=full, stderr=subprocess.PIPE, **how)
        last = ended.stderr.decode().splitlines()[-1:]
        if ended.returncode != 1 or last != ["error: failed to write to standard output"]:
            yield f"with a full standard output the status is {ended.returncode}, and the last line {last}"
        if sum(it[0] == "ended" for it in world.notes()) < len(FEATURES):
            yield "with a full standard output not all runs are made"
        world.forget()
        ended = subprocess.run(words, stdout=subprocess.PIPE, stderr=full, **how)
        if ended.returncode != 0 or ended.stdout.count(b"output of") < len(FEATURES):
            yield f"with a full standard error the status is {ended.returncode}, and {ended.stdout} is written"


def main():
    if len(sys.argv) != 2:
        sys.exit(__doc__)
    heed_signals()
    program = os.path.realpath(sys.argv[1])
    checks = [(name, compared(program, name, *row)) for name, row in CALLS.items()]
    checks += [("gains", gains(program)), ("surroundings", surroundings(program)), ("interrupted", interrupted(program))]
    checks += [("closed", closed(program)), ("in one stream", in_one_stream(program)), ("unwritten", unwritten(program))]
    failed = 0
    for _, faults in checks:
        found = list(faults)
        failed += bool(found)
        print("".join(f"{it}\n" for it in found), end="")
    print(f"{len(checks) - failed} passed, {failed} failed")
    return 1 if failed else 0


if __name__ == "__main__":
    sys.exit(main())
