#!/usr/bin/env python3
"""Kills the built `cargo-hack` at each of its calls that change files, and looks at what is there after that.

usage: tests/kill_points.py [--every K] CARGO_HACK

A small library, built by the machine's C compiler and loaded before the program, kills it before its n-th call that
opens a file for writing, writes a manifest, flushes, cuts off, renames or removes a file, for n from 1 (with K: 1, K + 1,
..) until a run ends by itself. Within a second, and without a further call, its guard has to restore every manifest and the
lockfile, byte for byte; then no process of it is left, and no file but one that was to become the first of the journal: git
tells what it told before. The same holds where it is killed in a write of a manifest, before the last byte is written.

Where no guard can act, since the PATH has no shell, a call without edits follows, which is itself killed at each of its
changes and followed by a third; after a cut manifest one from a member's folder; and one where the guard is killed at each of
its changes.

Other calls find a manifest that somebody has changed, journals that are torn, name what no call edits, or are of an older
version, a workspace that was copied or moved with its journal, a lockfile that cargo changes, and files that are mount points.

Prints a line for each. The last line is `N passed, M failed, K skipped`; the status is 1 where one failed.
"""
import glob
import itertools
import os
import shutil
import signal
import sys
import tempfile
import time

sys.dont_write_bytecode = True
from killed_calls import (  # noqa: E402
    EDITS, ENDS_ALL, ENDS_IT, LEAVES_OUT, MORE, PLAIN, RESTORE, Place, Wrong, alive, commit, difference, heed_signals, left_of,
    must, read, rewrite, run_all, tells_of, tree, wait_for,
)
from small_workspace import FILES, library, number_and_programs, write  # noqa: E402

# Kills programs of this name before the call of that number, or stops them, and says so by a file: the program itself, or the
# one that its guard calls. With KILL_CUTS only writes of manifests are counted, and that one is made but for its last byte. With
# KILL_MOUNTS manifests and lockfiles are mount points, which no file can be renamed to.
LIBRARY = r"""
#define _GNU_SOURCE
#include <dlfcn.h>
#include <errno.h>
#include <fcntl.h>
#include <signal.h>
#include <stdarg.h>
#include <stdio.h>
#include <stdlib.h>
#include <string.h>
#include <sys/types.h>
#include <unistd.h>

static long calls, at;
static int cuts, mounts;
static int (*open_below)(const char *, int, ...);

__attribute__((constructor)) static void start(void) {
    const char *name = getenv("KILL_IN"), *number = getenv("KILL_AT");
    open_below = dlsym(RTLD_NEXT, "open");
    cuts = getenv("KILL_CUTS") != NULL;
    mounts = getenv("KILL_MOUNTS") != NULL;
    if (!getenv("KILL_GUARD") != !getenv("CARGO_HACK_GUARD")) return;
    if (name && number && !strcmp(program_invocation_short_name, name)) at = atol(number);
}

static int is_now(void) {
    return at && ++calls == at;
}

static void end(void) {
    close(open_below(getenv("KILL_MARK"), O_WRONLY | O_CREAT, 0600));
    raise(getenv("KILL_STOPS") ? SIGSTOP : SIGKILL);
}

static void count(void) {
    if (!cuts && is_now()) end();
}

static int ends(const char *path, ssize_t length, const char *name) {
    ssize_t own = strlen(name);
    return length >= own && !memcmp(path + length - own, name, own);
}

static int is_manifest(int fd) {
    char link[40], path[4096];
    snprintf(link, sizeof link, "/proc/self/fd/%d", fd);
    return ends(path, readlink(link, path, sizeof path), "/Cargo.toml");
}

ssize_t write(int fd, const void *bytes, size_t length) {
    static ssize_t (*below)(int, const void *, size_t);
    if (!below) below = dlsym(RTLD_NEXT, "write");
    if (at && length && is_manifest(fd) && is_now()) {
        if (cuts) below(fd, bytes, length - 1);
        end();
    }
    return below(fd, bytes, length);
}

int ftruncate(int fd, off_t length) {
    static int (*below)(int, off_t);
    if (!below) below = dlsym(RTLD_NEXT, "ftruncate");
    count();
    return below(fd, length);
}

int ftruncate64(int fd, off64_t length) {
    static int (*below)(int, off64_t);
    if (!below) below = dlsym(RTLD_NEXT, "ftruncate64");
    count();
    return below(fd, length);
}

int open(const char *path, int flags, ...) {
    va_list more;
    va_start(more, flags);
    mode_t mode = va_arg(more, mode_t);
    va_end(more);
    if ((flags & O_ACCMODE) != O_RDONLY) count();
    int fd = open_below(path, flags, mode);
    if ((flags & O_CREAT) && fd >= 0) count();
    return fd;
}

int fsync(int fd) {
    static int (*below)(int);
    if (!below) below = dlsym(RTLD_NEXT, "fsync");
    count();
    return below(fd);
}

int rename(const char *old, const char *new) {
    static int (*below)(const char *, const char *);
    if (!below) below = dlsym(RTLD_NEXT, "rename");
    if (mounts && (ends(new, strlen(new), "/Cargo.toml") || ends(new, strlen(new), "/Cargo.lock"))) {
        errno = EBUSY;
        return -1;
    }
    count();
    return below(old, new);
}

int unlink(const char *path) {
    static int (*below)(const char *);
    if (!below) below = dlsym(RTLD_NEXT, "unlink");
    count();
    return below(path);
}
"""


class Killer:
    """Calls in a place that are killed before a change."""

    def __init__(self, place, preload):
        self.place, self.preload, self.mark = place, preload, f"{place.tools}/mark"

    def environment(self, at):
        """What has a call killed before that change."""
        if os.path.exists(self.mark):
            os.remove(self.mark)
        name = os.path.basename(self.place.program)
        return {"LD_PRELOAD": self.preload, "KILL_IN": name, "KILL_AT": str(at), "KILL_MARK": self.mark}

    def call(self, words, at, **more):
        """Whether a call was killed before that change, and what it told."""
        _, told = self.place.call(words, **self.environment(at), **more)
        return os.path.exists(self.mark), told


def counted(killed):
    must(killed > 0, "no call was killed")
    return f"{killed} calls killed, each file as it was"


def in_front_of(at, look):
    """What a look finds, where a call was killed in front of that change."""
    try:
        look()
    except Wrong as fault:
        raise Wrong(f"killed in front of change {at}: {fault}") from None


def guarded(killer, words, every):
    """Kills a call before each change, where cargo changes the lockfile: the guard restores all."""
    place, killed = killer.place, 0
    place.lay_out()
    place.does(MORE)
    for at in itertools.count(1, every):
        was_killed, told = killer.call(words, at)
        in_front_of(at, lambda: place.as_before(own=True))
        must("nothing is left" not in told, f"killed in front of change {at}, its guard tells {told}")
        if not was_killed:
            return counted(killed)
        killed += 1


def unguarded(killer, words, every):
    """Kills a call before each change, where it has no guard, and then the calls after it: the last one restores the rest."""
    place, killed = killer.place, 0
    place.lay_out()
    for at in itertools.count(1, every):
        was_killed, _ = killer.call(words, at, shell=False)
        if not was_killed:
            place.as_before(own=True)
            return counted(killed)
        again = 0
        while was_killed:
            killed, again, edited = killed + 1, again + 1, place.edited()
            was_killed, told = killer.call(PLAIN, again, shell=False)
        in_front_of(at, lambda: tells_of(told, edited))
        in_front_of(at, lambda: place.as_before(own=True))


def cut(killer, words):
    """Kills a call in each of its writes of a manifest, that of the workspace inside its last letter: the guard restores all, and
    where there is none the next call, from a member's folder. Texts are seen there that are neither the first nor the edited
    ones."""
    place, seen = killer.place, set()
    place.lay_out()
    before = texts(place)
    place.interrupt(words=words)
    whole = before | texts(place)
    place.restores(PLAIN, place.edited())
    for at in itertools.count(1):
        was_killed, _ = killer.call(words, at, KILL_CUTS="1")
        in_front_of(at, place.as_before)
        if not was_killed:
            must(seen, "no text was cut")
            return f"{counted(at - 1)}; {len(seen)} texts were cut"
        was_killed, _ = killer.call(words, at, shell=False, KILL_CUTS="1")
        must(was_killed, f"without a guard, write {at} isn't made")
        seen |= texts(place) - whole
        in_front_of(at, lambda: place.restores(PLAIN, seen_from_member(place), folder=f"{place.workspace}/p"))
        in_front_of(at, place.as_before)


def seen_from_member(place):
    """The edited manifests, as a call in the folder of `p` names them."""
    return [name[2:] if name.startswith("p/") else f"{place.workspace}/{name}" for name in place.edited()]


def texts(place):
    """What the manifests hold, each after its path."""
    return {(name, read(f"{place.workspace}/{name}")) for name in FILES if name != "Cargo.lock"}


def killed_guard(killer, every):
    """Kills a call from its run, and what its guard calls before each change: the next call restores the rest."""
    place, killed = killer.place, 0
    place.lay_out()
    for at in itertools.count(1, every):
        place.does(ENDS_IT)
        was_killed, _ = killer.call(EDITS, at, KILL_GUARD="1")
        place.does(None)
        if not was_killed:
            place.as_before()
            return counted(killed)
        killed += 1
        in_front_of(at, lambda: place.restores(PLAIN, place.edited()))
        in_front_of(at, place.as_before)


def guard_at_work(killer):
    """A call that is made while the guard of a killed one restores: cargo reads no manifest that is still edited."""
    place = killer.place
    place.lay_out()
    place.does(ENDS_IT)
    first = place.start(EDITS, **killer.environment(1), KILL_GUARD="1", KILL_STOPS="1")
    first.wait(60)
    wait_for(killer.mark)
    place.does(None)
    write(f"{place.cargo}.read", "")
    second = place.start(PLAIN)
    time.sleep(0.3)
    for number, _ in alive(first.pid):
        os.kill(number, signal.SIGCONT)
    status, told = place.end(second)
    left = left_of(first.pid, 1)
    must(status == 0 and not left, f"status {status}, left are {left}: {told}")
    parts = set(read(f"{place.cargo}.read").split(FILES["p/Cargo.toml"]))
    must(parts == {""}, "cargo reads an edited manifest")
    place.as_before()


# ---- What others do between the two calls.


def changed_by_hand(place):
    """A manifest that somebody changes is refused by name; where it holds again what it held, all are restored."""
    place.lay_out()
    place.interrupt()
    path = f"{place.workspace}/p/Cargo.toml"
    rewrite(path, "changed\n")
    place.refuses(PLAIN, "p/Cargo.toml", "cargo-hack-journal")
    place.refuses(RESTORE, "p/Cargo.toml", "cargo-hack-journal")
    rewrite(path, FILES["p/Cargo.toml"])
    place.restores(PLAIN, ["q/Cargo.toml"])
    place.as_before()


def removed_by_hand(place):
    """Somebody does by hand what the error says: restores the manifests, and removes the journal. Then calls edit as ever."""
    place.lay_out()
    place.interrupt()
    rewrite(f"{place.workspace}/p/Cargo.toml", "changed\n")
    place.refuses(PLAIN, f"remove `{place.journal}`")
    for name, text in FILES.items():
        rewrite(f"{place.workspace}/{name}", text)
    for name in glob.glob(f"{glob.escape(place.journal)}*"):
        os.remove(name)
    for words in (PLAIN, EDITS, LEAVES_OUT):
        place.restores(words, [])
    place.as_before()


def changed_in_the_run(place):
    """The same where the guard finds it: it names the file, and leaves everything to the next call."""
    place.lay_out()
    place.does(f'echo changed > "$W/p/Cargo.toml"; {ENDS_IT}')
    _, told = place.call(EDITS)
    place.does(None)
    must("p/Cargo.toml" in told and "restored" not in told, f"its guard tells {told}")
    must(place.edited() == ["p/Cargo.toml", "q/Cargo.toml"], f"edited are {place.edited()}")
    place.refuses(PLAIN, "p/Cargo.toml", "cargo-hack-journal")


def torn(place):
    """A file of the journal that was cut short by hand, and one of which nothing is left. A text is printed all the same."""
    place.lay_out()
    place.interrupt()
    for path in (place.journal, f"{place.journal}~1"):
        text = read(path)
        for front in (text[: len(text) // 2], ""):
            rewrite(path, front)
            place.refuses(PLAIN, os.path.basename(place.journal))
            for asked in ("--help", "--version"):
                status, told = place.call(["hack", asked])
                must(status == 0 and not told, f"{asked} ends with {status} beside a torn journal: {told}")
        rewrite(path, text)
    place.restores(PLAIN, ["p/Cargo.toml", "q/Cargo.toml"])
    place.as_before()


def strangers(place):
    """Journals that no call writes: of a file that is no manifest, and of one that was absent."""
    place.lay_out()
    place.interrupt()
    text, edited = read(place.journal), read(f"{place.workspace}/p/Cargo.toml")
    must("\npath p/Cargo.toml\n" in text, f"the journal is {text}")
    for other in ("p/Cargo.toml.old", "p/MyCargo.toml", "../other", "Cargo.lock"):
        write(f"{place.workspace}/{other}", edited)
        write(place.journal, text.replace("path p/Cargo.toml", f"path {other}"))
        place.refuses(PLAIN, os.path.basename(other))
    head, _, rest = text.partition("held\n")
    write(place.journal, f"{head}held nothing\nwrote\n{rest.partition('wrote' + chr(10))[2]}")
    place.refuses(PLAIN, "p/Cargo.toml")


def older_text(entries):
    """A journal as older versions wrote it: each path, what was there and what was written."""
    told = "edited files\n"
    for parts in entries:
        path, held, wrote = (it.replace("\n", "\n ") for it in parts)
        told += f"path {path}\nheld\n {held}\nwrote\n {wrote}\n"
    return f"{told}end\n"


def write_older(place):
    """Edited manifests, and an older version's journal of them beside the workspace's manifest; its path."""
    place.lay_out()
    entries = []
    for name in ("p/Cargo.toml", "q/Cargo.toml"):
        edited = FILES[name].partition("[dev-")[0]
        rewrite(f"{place.workspace}/{name}", edited)
        entries.append((f"{place.workspace}/{name}", FILES[name], edited))
    path = f"{place.workspace}/.cargo-hack-journal"
    write(path, older_text(entries))
    return path


def older(place):
    """The journal of an older version is followed, once."""
    write_older(place)
    place.restores(PLAIN, ["p/Cargo.toml", "q/Cargo.toml"])
    place.as_before()
    place.restores(PLAIN, [])
    write_older(place)
    place.does(MORE)
    place.restores(EDITS, ["p/Cargo.toml", "q/Cargo.toml"])
    place.as_before()


def copied(place):
    """A workspace that is copied with its journal restores itself, and leaves the first one alone."""
    place.lay_out()
    place.interrupt()
    first, copy = place.top, f"{place.top}-copy"
    shutil.copytree(first, copy, symlinks=True)
    before, inner = tree(first), os.path.relpath(place.workspace, first)
    status, told = place.call(PLAIN, folder=f"{copy}/{inner}")
    must(status == 0 and "info: restored `p/Cargo.toml`" in told, f"in the copy: status {status}: {told}")
    found = difference(place.first, tree(copy)) or difference(before, tree(first))
    shutil.rmtree(copy)
    must(found is None, found)
    place.restores(PLAIN, ["p/Cargo.toml", "q/Cargo.toml"])
    place.as_before()


def moved(place):
    """A workspace that is moved with its journal restores itself."""
    place.lay_out()
    place.interrupt()
    there, inner = f"{place.top}-moved", os.path.relpath(place.workspace, place.top)
    os.rename(place.top, there)
    place.answers(f"{there}/{inner}")
    place.restores(PLAIN, ["p/Cargo.toml", "q/Cargo.toml"], folder=f"{there}/{inner}")
    found = difference(place.first, tree(there))
    shutil.rmtree(there)
    must(found is None, found)


def edits_that_stay(place):
    """Edits that are to stay leave no journal, and the next call leaves them alone."""
    place.lay_out()
    status, told = place.call(["hack", "check", "--workspace", "--no-private", "--remove-dev-deps"])
    edited = tree(place.top)
    must(status == 0 and edited.keys() == place.first.keys() and edited != place.first, f"status {status}: {told}")
    _, told = place.call(PLAIN)
    must(edited == tree(place.top) and "restored" not in told, f"the next call tells {told}")


def lockfile_of_cargo(place):
    """A lockfile that cargo changes in each run: it comes back, and nothing is left to the next call. Where that is to
    restore the manifests, it leaves the lockfile as it is, and says so."""
    place.lay_out()
    place.does(MORE)
    status, told = place.call(EDITS)
    must(status == 0, f"status {status}: {told}")
    place.as_before()
    place.interrupt(MORE + ENDS_ALL)
    changed = read(f"{place.workspace}/Cargo.lock")
    told = place.restores(PLAIN, ["p/Cargo.toml", "q/Cargo.toml"])
    must("info: left `Cargo.lock` as it is" in told, f"the next call tells {told}")
    place.as_before(but=os.path.relpath(f"{place.workspace}/Cargo.lock", place.top))
    must(read(f"{place.workspace}/Cargo.lock") == changed == FILES["Cargo.lock"] + "more\n", "the lockfile holds something else")


def full_disk(place):
    """A full disk: the journal can't be written, and so no manifest. That is told by the error of the call, and before it why."""
    place.lay_out()
    path = f"{place.workspace}/p/Cargo.toml"
    rewrite(path, read(path) + "# more than the limit of the size of a file\n" * 100)
    place.remember()
    program, limited = place.program, f"{place.tools}/limited"
    write(limited, f"#!/bin/sh\ntrap '' XFSZ\nulimit -f 4\nexec '{program}' \"$@\"\n")
    os.chmod(limited, 0o755)
    place.program = limited
    try:
        status, told = place.call(EDITS)
    finally:
        place.program = program
    error = f"error: failed to write to file `{path}`"
    must(status == 1 and told.count(error) == told.count("error: ") == 1, f"status {status}: {told}")
    must(f"info: File too large (os error 27)\n{error}" in told, f"before the error it doesn't say why: {told}")
    must("\ninfo: an edit was refused, since what it replaces can't be kept in `" in told, f"it doesn't name the journal: {told}")
    place.as_before()


def mounted(killer):
    """Manifests and the lockfile are mount points: the call restores them, its guard, and where there is none the next call."""
    place, there = killer.place, {**killer.environment(0), "KILL_MOUNTS": "1"}
    place.lay_out()
    place.does(MORE)
    status, told = place.call(EDITS, **there)
    must(status == 0, f"status {status}: {told}")
    place.was_edited()
    place.as_before()
    place.interrupt(MORE + ENDS_IT, **there)
    place.was_edited()
    place.as_before()
    place.interrupt(**there)
    place.restores(PLAIN, place.edited(), **there)
    place.as_before()


# ---- All of them.

LOOKS = {
    "a manifest changed by hand": changed_by_hand,
    "a journal removed by hand": removed_by_hand,
    "a manifest changed in the run": changed_in_the_run,
    "a torn journal": torn,
    "journals that no call writes": strangers,
    "a journal of an older version": older,
    "a copied workspace": copied,
    "a moved workspace": moved,
    "edits that stay": edits_that_stay,
    "a lockfile that cargo changes": lockfile_of_cargo,
    "a full disk": full_disk,
}


def kills(places, preload, every):
    """The tries that kill before changes, in a repository where there is one. With a guard a kill is one call, so more are
    tried."""
    beside, within = (Killer(it, preload) for it in (places[0], places[-1]))
    return {
        "killed at each change, development dependencies": lambda: guarded(within, EDITS, every // 2 + 1),
        "killed at each change, private members": lambda: guarded(beside, LEAVES_OUT, every // 2 + 1),
        "killed without a guard, development dependencies": lambda: unguarded(within, EDITS, every),
        "killed without a guard, private members": lambda: unguarded(beside, LEAVES_OUT, every),
        "killed in each write of a manifest, development dependencies": lambda: cut(within, EDITS),
        "killed in each write of a manifest, private members": lambda: cut(beside, LEAVES_OUT),
        "killed with its guard": lambda: killed_guard(within, every),
        "while its guard is at work": lambda: guard_at_work(within),
        "files that are mount points": lambda: mounted(within),
    }


def main():
    every, [program] = number_and_programs("--every", 1, __doc__)
    heed_signals()
    with tempfile.TemporaryDirectory() as folder:
        folder = os.path.realpath(folder)
        # (Paths with a space try that nobody splits them.)
        places, skipped = [Place(program, f"{folder}/no repository")], 0
        if shutil.which("git") is not None:
            places.append(Place(program, f"{folder}/a repository", ".", ".git/cargo-hack-journal", lambda it: commit(it.top)))
        else:
            print("no git: tries in a repository skipped")
            skipped += len(LOOKS)
        tries = {}
        for place in places:
            where = os.path.basename(place.top)
            tries |= {f"{name}, {where}": lambda look=look, place=place: look(place) for name, look in LOOKS.items()}
        of_kills = kills(places, f"{folder}/kill.so", every)
        if shutil.which("cc") is not None:
            library(f"{folder}/kill.so", LIBRARY)
            tries |= of_kills
        else:
            print("no C compiler: kills in front of a change skipped")
            skipped += len(of_kills)
        return run_all(tries, skipped)


if __name__ == "__main__":
    sys.exit(main())
