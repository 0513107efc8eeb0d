#!/usr/bin/env python3
"""Ends calls of the built `cargo-hack` that edit manifests in each way that a call may end early, and looks at what is there a
second later, without a further call.

usage: tests/guarded_calls.py [--races N] CARGO_HACK

The program is ended by signals from the command that it runs, sent to it or to its whole group; by Ctrl-C typed at a real
terminal, and by a terminal that is closed: then its guard restores manifests and lockfile, and git tells what it told
before. Where the guard is killed too, the next call of any kind restores the manifests, or `--restore`, and a warning counts
as an error meanwhile. A second call is made at once after a killed one, N times (200).

Workspaces are at the top of a repository, in folders of it, in a worktree, behind a symbolic link, in no repository, or in one
that can't be looked at, and have a member outside; it is looked at where the journal lies, and that a call leaves no process
and no file.

Prints a line for each. The last line is `N passed, M failed, K skipped`; the status is 1 where one failed.
"""
import errno
import os
import shutil
import signal
import sys
import tempfile
import time

sys.dont_write_bytecode = True
from killed_calls import (  # noqa: E402
    EDITS, ENDS_ALL, ENDS_IT, LEAVES_OUT, MORE, PLAIN, RESTORE, Place, alive, commit, difference, git, heed_signals, left_of,
    must, read, run_all, tree, wait_for,
)
from small_workspace import FILES, number_and_programs, write  # noqa: E402

BOTH = ["p/Cargo.toml", "q/Cargo.toml"]
NOTHING_LEFT = "info: nothing is left to restore\n"
BUSY = "error: another call is editing the manifests of this workspace, and restores them\n"

# ---- Ways to end.


def by_signal(place, number, whole):
    """A signal from the command that runs, to the program or to its whole group, after cargo changed the lockfile."""
    place.lay_out()
    place.interrupt(f"{MORE}kill -{number:d} {0 if whole else '$PPID'}\n")
    place.had_journal()
    place.as_before()


def with_its_guard(place):
    """Signal 9 to the whole group, its guard too: the next call restores the manifests, and says so of each."""
    place.lay_out()
    place.interrupt(ENDS_ALL)
    place.was_edited()
    must(place.edited() == BOTH, f"edited are {place.edited()}")
    place.restores(PLAIN, BOTH)
    place.as_before()
    place.restores(PLAIN, [])


def without_streams(place):
    """Signal 9 to a call whose three streams are closed: no file got their numbers, so its guard hears of the end."""
    place.lay_out()
    place.interrupt(MORE + ENDS_IT, closed=True)
    place.had_journal()
    place.as_before()


def while_cargo_runs(place):
    """Signal 9 to the program alone, where the cargo that it ran goes on for seconds: the guard doesn't wait for it."""
    place.lay_out()
    place.does(f"{ENDS_IT}: > '{place.cargo}.goes-on'\nsleep 30\n")
    call = place.start(EDITS)
    must(call.wait(60) == -signal.SIGKILL, "it isn't killed")
    until = time.monotonic() + 1
    while difference(place.first, tree(place.top)) and time.monotonic() < until:
        time.sleep(0.01)
    place.as_before()
    wait_for(f"{place.cargo}.goes-on")
    left = left_of(call.pid, 0)
    os.remove(f"{place.cargo}.goes-on")
    must(any(place.cargo in it or "sleep" in it for it in left), "cargo had ended")


def at_terminal(place, act, number):
    """A call at a terminal of its own, to which something is done while cargo runs: it ends by that signal."""
    place.lay_out()
    place.does(f"{MORE}: > '{place.cargo}.runs'\nexec sleep 30\n")
    ours, its = os.openpty()
    try:
        call = place.start(EDITS, terminal=its)
        os.close(its)
        wait_for(f"{place.cargo}.runs")
        place.was_edited()
        act(ours)
        status, _ = place.end(call)
    finally:
        os.remove(f"{place.cargo}.runs")
        if act is not os.close:
            os.close(ours)
    must(status == -number, f"it ends with {status}")
    place.as_before()


def type_ctrl_c(terminal):
    os.write(terminal, b"\x03")


def to_its_end(place):
    """A call that isn't interrupted leaves no process and no file, and cargo doesn't see what its guard is told."""
    place.lay_out()
    for words in (EDITS, LEAVES_OUT):
        place.does(f"{MORE}env > '{place.cargo}.env'\n")
        call = place.start(words)
        status, left = call.wait(60), alive(call.pid)
        must(status == 0 and not left, f"it ends with {status}, and these are left: {left}")
        place.as_before()
        must("CARGO_HACK_GUARD" not in read(f"{place.cargo}.env"), "cargo sees the guard's variable")
        place.does(None)
        place.restores(PLAIN, [])


def failing_run(place):
    """The same where cargo fails, by a status and by a signal."""
    place.lay_out()
    for script in ("exit 101\n", "kill -9 $$\n"):
        place.does(MORE + script)
        call = place.start(EDITS)
        status, left = call.wait(60), alive(call.pid)
        must(status == 1 and not left, f"it ends with {status}, and these are left: {left}")
        place.as_before()


# ---- The calls after it.


def next_calls(place):
    """Calls of any kind restore what a call left that was killed with its guard, also where a warning counts as an error; but one
    that only prints leaves it to the next."""
    more = {"CARGO_HACK_DENY_WARNINGS": "true"}
    kinds = [(PLAIN, 0), (EDITS, 0), (LEAVES_OUT, 0), ([*PLAIN, "--print-command-list"], 0)]
    kinds += [(["hack", "check", "--strength", "x"], 1), (RESTORE, 0), ([*RESTORE, "--workspace"], 1)]
    place.lay_out()
    for words, status in kinds:
        place.interrupt()
        place.restores(words, BOTH, status, **more)
        place.as_before()
    for asked in ("--help", "--version", "--list"):
        place.interrupt()
        status, told = place.call(["hack", asked], **more)
        must(status == 0 and not told, f"{asked} ends with {status}: {told}")
        must(place.edited() == BOTH, f"behind {asked} edited are {place.edited()}")
        place.restores(PLAIN, BOTH, 0, **more)
        place.as_before()


def from_elsewhere(place):
    """A killed call from another folder, which names a manifest by the letter. Then its guard is killed too, and the next call
    is made in a package that is elsewhere and names its workspace."""
    place.lay_out()
    words = [*EDITS, "-m", f"{place.workspace}/p/Cargo.toml"]
    place.interrupt(ENDS_IT, words, folder="/")
    place.had_journal()
    place.as_before()
    place.interrupt(ENDS_ALL, words, folder="/")
    outside = f"{place.top}-outside"
    way = os.path.relpath(place.workspace, outside)
    write(f"{outside}/Cargo.toml", f'[package]\nname = "r"\nworkspace = "{way}"\n')
    status, told = place.call(PLAIN, folder=outside)
    shutil.rmtree(outside)
    must(status == 0 and told.count("info: restored `") == 2, f"status {status}: {told}")
    place.as_before()


def from_a_member(place):
    """The call that restores is made in a member's folder: its manifest is told by its path from there."""
    place.lay_out()
    place.interrupt()
    status, told = place.call(RESTORE, folder=f"{place.workspace}/p")
    must(status == 0 and "info: restored `Cargo.toml` after" in told, f"status {status}: {told}")
    place.as_before()


def left_out(place):
    """A package that its workspace leaves out has a lockfile of its own: the guard restores the manifests, and no call keeps or
    restores the workspace's lockfile."""
    place.lay_out()
    write(f"{place.workspace}/Cargo.toml", '[workspace]\nmembers = ["q"]\nexclude = ["./p/"]\n')
    place.remember()
    place.interrupt(MORE + ENDS_IT, folder=f"{place.workspace}/p")
    place.was_edited()
    must("~lock" not in read(f"{place.cargo}.journal"), "the workspace's lockfile is copied")
    lock = os.path.relpath(f"{place.workspace}/Cargo.lock", place.top)
    must(read(f"{place.top}/{lock}") == FILES["Cargo.lock"] + "more\n", "the workspace's lockfile is restored")
    place.as_before(but=lock)


def past_one_that_leaves_out(place):
    """A package that one workspace leaves out may be a member of the one around it, as cargo has it: a call from there has that
    one's journal."""
    place.lay_out()
    write(f"{place.workspace}/a/Cargo.toml", '[workspace]\nexclude = ["b"]\n')
    write(f"{place.workspace}/a/b/Cargo.toml", '[package]\nname = "b"\nversion = "0.0.0"\n')
    place.remember()
    place.interrupt(folder=f"{place.workspace}/a/b")
    place.was_edited()
    place.restores(RESTORE, BOTH)
    place.as_before()


def left_out_by_a_killed_call(place):
    """Where a killed call had the workspace leave out a member, that is taken back before it is seen whose lockfile it is: the
    next call from this member has its guard restore it."""
    place.lay_out()
    write(f"{place.workspace}/Cargo.toml", '[workspace]\nmembers = ["*"]\n')
    place.remember()
    place.interrupt(words=LEAVES_OUT)
    must("exclude" in read(f"{place.workspace}/Cargo.toml"), "the member isn't left out")
    place.interrupt(MORE + ENDS_IT, folder=f"{place.workspace}/q")
    place.was_edited()
    place.as_before()


# ---- `--restore`.


def restore(place):
    """`--restore` restores, and runs neither cargo nor rustup; where nothing is left, it says that."""
    place.lay_out()
    place.interrupt()
    os.remove(f"{place.cargo}.asked")
    told = place.restores(RESTORE, BOTH)
    must(len(told.splitlines()) == 2, f"it tells {told}")
    place.as_before()
    for words in (RESTORE, [*RESTORE, "-v"], ["hack", "--color", "never", "--restore"], [*RESTORE, "--verbose", "--color=auto"]):
        status, told = place.call(words)
        must((status, told) == (0, NOTHING_LEFT), f"{words}: status {status}: {told}")
    place.as_before()
    must(not os.path.exists(f"{place.cargo}.asked"), "it runs cargo or rustup")


def restore_of_lockfile(place):
    """`--restore` leaves a lockfile that was changed as it is, and says so."""
    place.lay_out()
    place.interrupt(MORE + ENDS_ALL)
    told = place.restores(RESTORE, BOTH)
    must("info: left `Cargo.lock` as it is" in told, f"it tells {told}")
    place.as_before(but=os.path.relpath(f"{place.workspace}/Cargo.lock", place.top))
    status, told = place.call(RESTORE)
    must((status, told) == (0, NOTHING_LEFT), f"status {status}: {told}")


def restore_beside(place):
    """`--restore` is refused beside other arguments."""
    place.lay_out()
    error = "error: --restore may not be used together with other arguments"
    for others in (["check"], ["--workspace"], ["-p", "p"], ["--no-dev-deps"], ["--remove-dev-deps"], ["--", "x"]):
        for words in ([*RESTORE, *others], ["hack", *others, "--restore"]):
            if words[-2:] == ["x", "--restore"]:
                continue
            status, told = place.call(words)
            must(status == 1 and error in told.splitlines(), f"{words}: status {status}: {told}")
    place.as_before()


def two_at_once(place):
    """While a call edits, a second that would is refused, `--restore` leaves it to the first, and none restores anything."""
    place.lay_out()
    place.does(f": > '{place.cargo}.runs'\nwhile [ -e '{place.cargo}.runs' ]; do sleep 0.02; done\n")
    first = place.start(EDITS)
    wait_for(f"{place.cargo}.runs")
    os.remove(f"{place.cargo}.do")
    edited, place.told = tree(place.top), f"{place.told}-2"
    ends = {
        " ".join(words): place.call(words, **more)
        for words, more in ((EDITS, {}), (PLAIN, {}), (RESTORE, {"CARGO_HACK_DENY_WARNINGS": "true"}))
    }
    found = difference(edited, tree(place.top))
    os.remove(f"{place.cargo}.runs")
    place.told = place.told.removesuffix("-2")
    status, told = place.end(first)
    must(found is None, f"while a call edits, {found}")
    refused, plain, restoring = ends.values()
    must(refused[0] == 1 and "another call" in refused[1], f"a second that edits: {refused}")
    must(plain[0] == 0 and "restored" not in plain[1], f"one that doesn't edit: {plain}")
    must(restoring == (1, BUSY), f"one that restores: {restoring}")
    must(status == 0, f"the first ends with {status}: {told}")
    place.as_before()


# ---- A second call at once.


# A shell in whose place another comes some time after the call has ended.
SLOW_SHELL = """#!/bin/sh
read -r line && exit
PATH=/usr/bin:/bin sleep "$SLOW"
exec /bin/sh "$@" < /dev/null
"""


def races(place, count):
    """A call that is made at once after a killed one, whose guard comes at once or some time later: each ends well, cargo reads
    no manifest that is still edited, and all is as before. Where the second was first, it leaves the lockfile that cargo changed
    as it is, and says so. A second one that edits may find the guard at work, and is refused then."""
    place.lay_out()
    write(f"{place.tools}/slow/sh", SLOW_SHELL, 0o755)
    slow, first_told = f"{place.tools}/slow:{os.environ['PATH']}", place.told
    restored = refused = 0
    for number in range(count):
        words = (PLAIN, EDITS, RESTORE, EDITS, LEAVES_OUT)[number % 5]
        place.does((MORE if number % 3 else "") + ENDS_IT)
        first = place.start(EDITS, **({"PATH": slow, "SLOW": f"{number % 7 * 0.01:.2f}"} if number % 2 else {}))
        status = first.wait(60)
        must(status == -signal.SIGKILL, f"the first ends with {status}")
        os.remove(f"{place.cargo}.do")
        write(f"{place.cargo}.read", "")
        place.told = f"{first_told}-2"
        status, told = place.end(place.start(words))
        place.told = first_told
        place.end(first)
        restored += "restored" in told
        is_refused = words in (EDITS, LEAVES_OUT) and status == 1 and "another call" in told
        refused += is_refused
        must(status == 0 or is_refused, f"{words} ends with {status}: {told}")
        must("warning" not in told, f"{words} tells {told}")
        must(set(read(f"{place.cargo}.read").split(FILES["p/Cargo.toml"])) <= {""}, f"cargo reads an edited manifest for {words}")
        if "left `Cargo.lock`" in told:
            write(f"{place.workspace}/Cargo.lock", FILES["Cargo.lock"])
        found = difference(place.first, tree(place.top))
        must(found is None, f"after {words}, {found}; the killed one tells {read(first_told)!r}, the second {told!r}")
    return f"{count} times as it was; the second one restored {restored} times, and was refused {refused} times"


def at_any_moment(place, count):
    """Signal 9 to the program at moments that are spread over a call. (A cargo that goes on then may still change the lockfile,
    so this one doesn't.)"""
    place.lay_out()
    place.does(":\n")
    start, killed = time.monotonic(), 0
    place.call(EDITS)
    took = time.monotonic() - start
    for number in range(count):
        call = place.start(EDITS)
        time.sleep(took * number / count)
        os.kill(call.pid, signal.SIGKILL)
        killed += place.end(call)[0] < 0
        place.as_before(own=True)
    return f"{killed} of {count} calls killed, each file as it was"


# ---- Places.


def worktree(place):
    """Makes the workspace a worktree of a repository beside it."""
    main = f"{place.top}/main"
    shutil.move(place.workspace, main)
    commit(main)
    git(main, "worktree", "add", "-q", place.workspace)


def submodule(place):
    """Has the workspace's `.git` name the repository's own folder by a path from there, as a submodule's does."""
    commit(place.workspace)
    os.rename(f"{place.workspace}/.git", f"{place.top}/own")
    write(f"{place.workspace}/.git", f"gitdir: {os.path.relpath(place.top, place.workspace)}/own\n")


def in_a_place(place):
    """A killed call in that place, with its guard and without."""
    place.lay_out()
    place.interrupt(MORE + ENDS_IT)
    place.had_journal()
    place.as_before()
    place.interrupt(ENDS_ALL)
    place.had_journal()
    place.restores(PLAIN, BOTH)
    place.as_before()


def outside(place):
    """A member outside of the workspace's folder: its manifest comes back too."""
    place.lay_out()
    os.rename(f"{place.workspace}/q", f"{place.workspace}/../q")
    write(f"{place.workspace}/Cargo.toml", FILES["Cargo.toml"].replace('"q"', '"../q"'))
    told = read(f"{place.cargo}.metadata")
    write(f"{place.cargo}.metadata", told.replace(f"{place.workspace}/q/", f"{os.path.dirname(place.workspace)}/q/"))
    place.remember()
    for script in (ENDS_IT, ENDS_ALL):
        place.interrupt(script)
        place.had_journal()
        if script == ENDS_ALL:
            must(difference(place.first, tree(place.top)) is not None, "nothing is edited")
            status, told = place.call(PLAIN)
            must(status == 0 and told.count("info: restored `") == 2, f"status {status}: {told}")
            must("q/Cargo.toml` after" in told, f"it tells {told}")
        place.as_before()


def behind_link(place, link):
    """Lays out a place, with a symbolic link to the workspace; the arguments that name the manifest behind the link."""
    place.lay_out()
    os.makedirs(os.path.dirname(link), exist_ok=True)
    if not os.path.lexists(link):
        os.symlink(place.workspace, link)
    place.remember()
    return ["-m", f"{link}/Cargo.toml"]


def linked(place, link):
    """A call that reaches the workspace by a link: from the folder, and by the manifest's path. Its guard restores."""
    named = behind_link(place, link)
    place.interrupt(MORE + ENDS_IT, folder=link, PWD=link)
    place.had_journal()
    place.as_before()
    place.answers(link)
    place.interrupt(MORE + ENDS_IT, [*EDITS, *named], folder=place.top)
    place.was_edited()
    place.as_before()


def next_linked(place, link):
    """The same without a guard, where the next call comes the same way, from the folder itself, or by a link alone."""
    named = behind_link(place, link)
    for ways in ((named, named), ([], named), (named, [])):
        for way, words in zip(ways, (EDITS, PLAIN)):
            place.answers(link if way else place.workspace)
            if words is EDITS:
                place.interrupt(ENDS_ALL, [*EDITS, *way])
                place.was_edited()
            else:
                status, told = place.call([*PLAIN, *way])
                must(status == 0 and told.count("info: restored `") == 2, f"{ways}: status {status}: {told}")
        place.as_before()


def linked_members(place, folder):
    """A call reaches members by links from a folder outside, where no manifest tells of their workspace. Its guard restores."""
    place.lay_out()
    write(f"{folder}/Cargo.lock", FILES["Cargo.lock"])
    for name in ("p", "q"):
        os.symlink(f"{place.workspace}/{name}", f"{folder}/{name}")
    place.answers(folder)
    place.interrupt(ENDS_IT, [*EDITS, "-m", f"{folder}/p/Cargo.toml"])
    place.was_edited()
    place.as_before()


def two_workspaces(program, top):
    """Two workspaces of one repository, with names that are alike, are killed at the same time."""
    places = [Place(program, top, inner, f".git/cargo-hack-journal-{inner}") for inner in ("crates%foo", "crates/foo")]
    places[0].journal = f"{places[0].workspace}/.cargo-hack-journal"
    places[1].journal = f"{top}/.git/cargo-hack-journal-crates%foo"
    # (the second place removed what the first had laid out)
    shutil.copytree(places[1].workspace, places[0].workspace)
    commit(top)
    go = f"{top}-tools/go"
    for script in (ENDS_IT, ENDS_ALL):
        for place in places:
            place.remember()
            place.does(f": > '{place.cargo}.runs'\nwhile [ ! -e '{go}' ]; do sleep 0.01; done\n{script}")
        calls = [place.start(EDITS) for place in places]
        for place in places:
            wait_for(f"{place.cargo}.runs")
            os.remove(f"{place.cargo}.runs")
        write(go, "")
        for place, call in zip(places, calls):
            place.end(call)
            place.does(None)
        os.remove(go)
        if script == ENDS_ALL:
            places[0].restores(PLAIN, BOTH)
            must(places[1].edited() == BOTH, "the other one was restored too")
            places[1].restores(RESTORE, BOTH)
        for place in places:
            place.as_before()


def places_of(program, folder):
    """Workspaces in repositories, by where they are; the workspace's path from the top, and that of its journal."""
    rows = {
        "at the top of a repository": (".", ".git/cargo-hack-journal", lambda it: commit(it.top)),
        "in a folder of a repository": ("crates/a foo", ".git/cargo-hack-journal-crates%a foo", lambda it: commit(it.top)),
        "in a worktree": ("w", "main/.git/worktrees/w/cargo-hack-journal", worktree),
        "in a submodule": ("w", "own/cargo-hack-journal", submodule),
    }
    return {name: Place(program, f"{folder}/{name}", *row) for name, row in rows.items()}


# What the system says of a link to itself.
LOOPS = f"info: {os.strerror(errno.ELOOP)} (os error {errno.ELOOP})\n"


def unseen(place):
    """`.git` can't be looked at, since `HEAD` is a link to itself: a call that edits or restores is refused, any other warns.
    A folder `.git` without `HEAD` is no repository."""
    place.lay_out()
    git_folder = f"{place.workspace}/.git"
    os.makedirs(git_folder)
    os.symlink("HEAD", f"{git_folder}/HEAD")
    place.remember()
    for words in (EDITS, RESTORE):
        place.refuses(words, f"{LOOPS}error: failed to read from file `{git_folder}/HEAD`\n")
    status, told = place.call(PLAIN)
    warned = f"{LOOPS}warning: failed to read from file `{git_folder}/HEAD`: edits of an interrupted call may stand\n"
    must(status == 0 and warned in told, f"{status}: {told}")
    place.as_before()
    os.remove(f"{git_folder}/HEAD")
    place.remember()
    status, told = place.call(PLAIN)
    must(status == 0 and "warning" not in told, f"status {status}: {told}")
    place.interrupt(MORE + ENDS_IT)
    place.had_journal()
    place.as_before()


# ---- All of them.


def all_tries(place, places, count):
    """The tries in one place, and those of places."""
    tries = {}
    for number in (signal.SIGKILL, signal.SIGTERM, signal.SIGHUP, signal.SIGINT, signal.SIGQUIT):
        tries[f"{number.name} from a run"] = lambda number=number: by_signal(place, number, False)
    for number in (signal.SIGTERM, signal.SIGHUP, signal.SIGINT):
        tries[f"{number.name} to its group"] = lambda number=number: by_signal(place, number, True)
    tries |= {
        "Ctrl-C at a terminal": lambda: at_terminal(place, type_ctrl_c, signal.SIGINT),
        "a terminal that is closed": lambda: at_terminal(place, os.close, signal.SIGHUP),
        "SIGKILL at any moment": lambda: at_any_moment(place, count),
        "a second call at once": lambda: races(place, count),
    }
    looks = {
        "SIGKILL to its group": with_its_guard,
        "closed streams": without_streams,
        "a cargo that goes on": while_cargo_runs,
        "to its end": to_its_end,
        "a run that fails": failing_run,
        "the next calls": next_calls,
        "from elsewhere": from_elsewhere,
        "from a member": from_a_member,
        "from a package left out": left_out,
        "past a workspace that leaves it out": past_one_that_leaves_out,
        "from a member that a killed call left out": left_out_by_a_killed_call,
        "--restore": restore,
        "--restore and the lockfile": restore_of_lockfile,
        "--restore beside others": restore_beside,
        "two calls at once": two_at_once,
    }
    tries |= {name: lambda look=look: look(place) for name, look in looks.items()}
    for name, at in places.items():
        tries[name] = lambda at=at: in_a_place(at)
    return tries


def main():
    count, [program] = number_and_programs("--races", 200, __doc__)
    heed_signals()
    with tempfile.TemporaryDirectory() as folder:
        folder = os.path.realpath(folder)
        beside = Place(program, f"{folder}/no repository")
        tries = {"in no repository": in_a_place, "a member outside": outside, "looks that fail": unseen}
        tries, skipped = {name: lambda look=look: look(beside) for name, look in tries.items()}, 0
        if shutil.which("git") is not None:
            places = places_of(program, folder)
            at_top, within = list(places.values())[:2]
            tries |= all_tries(at_top, places, count)
            tries |= {
                "a member outside, in a repository": lambda: outside(within),
                "two workspaces of a repository": lambda: two_workspaces(program, f"{folder}/two"),
                "links to members": lambda: linked_members(at_top, f"{folder}/links/members"),
            }
            links = {
                "a link to a repository": (at_top, f"{folder}/links/a/b/one"),
                "a link in a repository": (within, f"{within.top}/deep/er/two"),
                "a link into a repository": (within, f"{folder}/links/a/b/three"),
            }
            for name, (place, link) in links.items():
                tries[name] = lambda place=place, link=link: linked(place, link)
                tries[f"{name}, the next call"] = lambda place=place, link=link: next_linked(place, link)
        else:
            print("no git: tries in a repository skipped")
            tries |= all_tries(beside, {}, count)
            skipped = 13
        return run_all(tries, skipped)


if __name__ == "__main__":
    sys.exit(main())
