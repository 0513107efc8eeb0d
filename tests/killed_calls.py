"""Calls of cargo-hack on a small workspace that end early, and what they leave: for the scripts kill_points.py and
guarded_calls.py.
"""
import contextlib
import os
import re
import shutil
import signal
import stat
import subprocess
import time

from small_workspace import FILES, stand_in, write, write_files

# The stand-in for cargo and rustup: it notes its arguments and which manifest it reads, answers from files, and where a file
# `do` is beside it, it does that for a run. It finds its tools where the variable PATH has none.
STAND_IN = """#!/bin/sh
PATH=/usr/bin:/bin
echo "$*" >> "$0.asked"
. "$0.where"
case "$*" in
    "run stable "*-vV) exec cat "$0.stable";;
    *-vV) exec cat "$0.version";;
    *metadata*) cat "$W/p/Cargo.toml" >> "$0.read"; exec cat "$0.metadata";;
    *locate-project*) exec cat "$0.locate";;
esac
if [ -f "$0.do" ]; then . "$0.do"; fi
"""

EDITS = ["hack", "check", "--workspace", "--no-dev-deps"]
LEAVES_OUT = ["hack", "check", "--workspace", "--no-private"]
PLAIN = ["hack", "check", "--workspace"]
RESTORE = ["hack", "--restore"]

# What cargo does: it changes the lockfile, ends the program alone, or ends its guard and all else with it.
MORE = 'echo more >> "$W/Cargo.lock"\n'
ENDS_IT = "kill -9 $PPID\n"
ENDS_ALL = "kill -9 0\n"

# A file that a killed call was about to make a file of its journal.
OWN = re.compile(r"cargo-hack-journal[^/]*\.cargo-hack-\d+$")

# Git as if its user had set nothing.
GIT = {"GIT_CONFIG_GLOBAL": "/dev/null", "GIT_CONFIG_NOSYSTEM": "1", "GIT_OPTIONAL_LOCKS": "0", "GIT_TEMPLATE_DIR": ""}
GIT |= {f"GIT_{who}_{what}": "t" for who in ("AUTHOR", "COMMITTER") for what in ("NAME", "EMAIL")}


class Wrong(Exception):
    """What a try found."""


def must(holds, found):
    """Ends a try where something doesn't hold, with what was found."""
    if not holds:
        raise Wrong(found)


def read(path):
    """What a file holds; bytes that are no text are kept."""
    with open(path, encoding="utf-8", errors="surrogateescape") as it:
        return it.read()


def rewrite(path, text):
    """Gives a file that is there another text, as an editor does."""
    with open(path, "w", encoding="utf-8") as it:
        it.write(text)


def git(folder, *words):
    """What git prints in a folder."""
    environment = {"PATH": os.environ["PATH"], **GIT}
    return subprocess.run(["git", *words], cwd=folder, env=environment, capture_output=True, text=True, check=True).stdout


def commit(top):
    """Makes a folder a repository that has all that is in it."""
    git(top, "init", "-q")
    git(top, "add", "-A")
    git(top, "commit", "-q", "-m", "x")


def tree(folder):
    """What each file in a folder holds, and its mode; where each link leads."""
    files = {}
    for at, folders, names in os.walk(folder):
        for name in [*names, *folders]:
            path = f"{at}/{name}"
            if os.path.islink(path):
                files[os.path.relpath(path, folder)] = os.readlink(path)
            elif name in names:
                # (a guard that is still at work may have renamed it meanwhile)
                with contextlib.suppress(FileNotFoundError), open(path, "rb") as it:
                    files[os.path.relpath(path, folder)] = stat.S_IMODE(os.fstat(it.fileno()).st_mode), it.read()
    return files


def difference(first, now):
    """The first file that is gone, left, or another one."""
    for name in sorted(first.keys() | now.keys()):
        if name not in now or name not in first:
            return f"{name} is {'left' if name in now else 'gone'}"
        if first[name] != now[name]:
            return f"{name} {'has another mode' if first[name][1:] == now[name][1:] else 'holds something else'}"
    return None


# ---- Processes.


def alive(session):
    """The processes of a session that haven't ended, each its number and its arguments."""
    found = []
    for name in filter(str.isdigit, os.listdir("/proc")):
        try:
            state, _, _, its, *_ = read(f"/proc/{name}/stat").rpartition(")")[2].split()
            if int(its) == session and state not in "ZX":
                found.append((int(name), read(f"/proc/{name}/cmdline").replace("\0", " ")))
        except OSError:
            pass  # (it ended meanwhile)
    return found


def left_of(session, seconds):
    """The processes of a session that are left after so many seconds, or once there is none. They are ended."""
    until = time.monotonic() + seconds
    while (left := alive(session)) and time.monotonic() < until:
        time.sleep(0.005)
    for number, _ in left:
        os.kill(number, signal.SIGKILL)
    return [words for _, words in left]


def wait_for(path, seconds=10):
    """Waits for a file."""
    until = time.monotonic() + seconds
    while not os.path.exists(path):
        must(time.monotonic() < until, f"{os.path.basename(path)} didn't come")
        time.sleep(0.005)


# ---- Calls.


class Place:
    """A workspace and its stand-in, and calls of the program there.

    `top` is the folder with all that is looked at, `inner` the workspace's path in it, `own` where the journal is to lie
    from `top`, and `versioned` makes the repository, if there is one.
    """

    def __init__(self, program, top, inner="w", own=None, versioned=None):
        self.program, self.top, self.workspace = program, top, os.path.normpath(f"{top}/{inner}")
        self.journal = f"{top}/{own or f'{inner}/.cargo-hack-journal'}"
        self.versioned = versioned
        self.tools = f"{top}-tools/{inner.replace('/', '-').replace('.', 'top')}"
        self.cargo, self.told = f"{self.tools}/cargo", f"{self.tools}/told"
        os.makedirs(f"{self.tools}/nothing", exist_ok=True)
        self.lay_out()

    def lay_out(self):
        """All files as they are at first."""
        shutil.rmtree(self.top, ignore_errors=True)
        write_files(self.workspace)
        os.chmod(f"{self.workspace}/q/Cargo.toml", 0o640)
        self.answers(self.workspace)
        self.does(None)
        if self.versioned:
            self.versioned(self)
        self.remember()

    def answers(self, workspace):
        """Has cargo answer for a workspace at this path. It is older than the stable one, so its lockfile is kept too."""
        stand_in(self.cargo, STAND_IN, workspace)
        write(f"{self.cargo}.stable", "cargo 1.95.0\nrelease: 1.95.0\nhost: h\n")
        write(f"{self.cargo}.where", f'W="{workspace}" J="{self.journal}"\n')

    def remember(self):
        """Takes what is there for what has to be there again."""
        self.first, self.status = tree(self.top), self.git_status()

    def git_status(self):
        return git(self.workspace, "status", "--porcelain") if self.versioned else ""

    def does(self, script):
        """What cargo does for a run, after it noted a manifest and which files the journal has; or that it does nothing."""
        for name in ("do",) if script is None else ("manifest", "journal"):
            if os.path.exists(f"{self.cargo}.{name}"):
                os.remove(f"{self.cargo}.{name}")
        if script is not None:
            notes = 'cat "$W/p/Cargo.toml" > "$0.manifest"\nls -d "$J"* > "$0.journal" 2> /dev/null\n'
            write(f"{self.cargo}.do", notes + script)

    def start(self, words, folder=None, shell=True, terminal=None, closed=False, **more):
        """Starts a call in a folder, that of the workspace if none is said, in a session of its own. Without a shell there is
        no guard; with a terminal it is the session's. Its three streams may be closed."""
        path = os.environ["PATH"] if shell else f"{self.tools}/nothing"
        environment = {"PATH": path, "CARGO": self.cargo, "CARGO_HACK_RUSTUP": self.cargo, **more}
        how = {"cwd": folder or self.workspace, "env": environment, "start_new_session": True}
        with open(self.told, "w", encoding="utf-8") as err:
            streams = {"stdin": subprocess.DEVNULL, "stdout": subprocess.DEVNULL, "stderr": err}
            if terminal is not None:
                streams = {**dict.fromkeys(streams, terminal), "preexec_fn": own_terminal}
            if closed:
                streams["preexec_fn"] = lambda: os.closerange(0, 3)
            return subprocess.Popen([self.program, *words], **streams, **how)

    def end(self, call, seconds=1):
        """The status of a call that was started, and its messages, after each of its processes has ended, a second after it."""
        status = call.wait(60)
        left = left_of(call.pid, seconds)
        must(not left, f"left of a call that ended with {status}: {left}")
        return status, read(self.told)

    def call(self, words, **more):
        """The status of a call, and its messages, after each of its processes has ended."""
        return self.end(self.start(words, **more))

    def interrupt(self, script=ENDS_ALL, words=EDITS, **more):
        """A call that is killed by what cargo does in its first run: after that no guard is left, unless a script says so."""
        self.does(script)
        status, told = self.call(words, **more)
        self.does(None)
        must(status < 0, f"a call that was to be killed ends with {status}: {told}")

    def was_edited(self):
        """The call before had edited a manifest when cargo ran."""
        must(read(f"{self.cargo}.manifest") != FILES["p/Cargo.toml"], "nothing was edited when cargo ran")

    def had_journal(self):
        """Its journal was where it has to be then, a file for each of the two manifests, beside the copy of the lockfile."""
        self.was_edited()
        wanted = [self.journal + it for it in ("", "~1", "~lock")]
        found = sorted(read(f"{self.cargo}.journal").splitlines())
        must(found == wanted, f"there was no journal, or another: {[os.path.relpath(it, self.top) for it in found]}")

    # ---- What is there.

    def as_before(self, own=False, but=None):
        """Each file is as at first, but that one, and git tells the same. What a killed call was about to make a file of its
        journal may be left where `own` is said."""
        now, first = tree(self.top), self.first
        if own:
            now = {name: it for name, it in now.items() if not OWN.search(name)}
        if but is not None:
            now, first = ({name: it for name, it in files.items() if name != but} for files in (now, first))
        found = difference(first, now)
        must(found is None, found)
        status = self.git_status() if but is None else self.status
        must(status == self.status, f"git tells {status}")

    def edited(self):
        """The manifests that aren't as at first, by their paths from the workspace's folder."""
        return [name for name in FILES if name != "Cargo.lock" and read(f"{self.workspace}/{name}") != FILES[name]]

    def restores(self, words, paths, status=0, **more):
        """A call ends so, after it told of these files that they were restored; its messages."""
        ended, told = self.call(words, **more)
        tells_of(told, paths)
        must(ended == status, f"it ends with {ended}: {told}")
        return told

    def refuses(self, words, *names):
        """A call is refused, names these, and changes nothing; twice, since nothing was changed."""
        before = tree(self.top)
        for _ in range(2):
            status, told = self.call(words)
            must(status == 1 and all(it in told for it in names), f"status {status}: {told}")
            found = difference(before, tree(self.top))
            must(found is None, f"though it is refused, {found}")


def tells_of(told, paths):
    """The messages are of these files that they were restored, one line each, and of no others."""
    lines = sorted(it for it in told.splitlines() if "restored" in it)
    wanted = sorted(f"info: restored `{it}` after an interrupted call" for it in paths)
    must(lines == wanted and "warning" not in told, f"it tells {told!r}, and not just that {paths} are restored")


def own_terminal():
    """Makes the terminal at standard input that of this process's session."""
    import fcntl
    import termios

    fcntl.ioctl(0, termios.TIOCSCTTY, 0)


def heed_signals():
    """Lets signals end what is started: what is started by `&` or `nohup` ignores some, and so do the programs that it
    starts."""
    for number in (signal.SIGHUP, signal.SIGINT, signal.SIGQUIT, signal.SIGTERM):
        if signal.getsignal(number) == signal.SIG_IGN:
            signal.signal(number, lambda *_: None)


def run_all(tries, skipped=0):
    """Makes each try, and prints what it found; the last line says how many passed. Returns the status."""
    failed = 0
    for name, attempt in tries.items():
        try:
            found = attempt() or "as it was"
        except (Wrong, OSError, subprocess.SubprocessError) as fault:
            failed += 1
            found = f"FAILED: {fault}"
        print(f"{name}: {found}", flush=True)
    print(f"{len(tries) - failed} passed, {failed} failed, {skipped} skipped")
    return 1 if failed else 0
