#!/usr/bin/env python3
"""Types calls in real shells (bash, zsh and fish), with the completions where `make install` puts them, and looks what stands on the
line in the end.

usage: tests/completions.py

Each shell is tried without completions of cargo's own, and beside stand-ins for them, which offer `of-cargo`. The program `cargo`
is a stand-in too: it lists subcommands, or else writes its arguments down. The last line is `N passed, M failed`, of typed calls,
followed by `, K skipped` where a shell is missing; the status is 1 where one failed.
"""
import os
import pathlib
import pty
import select
import shlex
import shutil
import signal
import subprocess
import sys
import tempfile
import time

sys.dont_write_bytecode = True
from small_workspace import write  # noqa: E402

ROOT = pathlib.Path(__file__).resolve().parent.parent

CARGO = """#!/bin/sh
if [ "$1" = --list ]; then
    echo 'Installed Commands:'
    for it in b:alias bench:compiles build:compiles check:analyzes hack:ours nextest:installed test:tests; do
        echo "    ${it%:*}    ${it#*:}"
    done
    exit
fi
printf '%s\\n' "$@" > "$ANSWER.new" && mv "$ANSWER.new" "$ANSWER"
"""

# What is typed, and the arguments that the call then has. `\t` is the key Tab, and a star at the end is a key that puts
# everything on the line that is offered.
ROWS = [
    # Paths, through folders.
    ("cargo hack --manifest-path co\tCa\t", "hack --manifest-path core/Cargo.toml"),
    ("cargo hack --manifest-path=co\tCa\t", "hack --manifest-path=core/Cargo.toml"),
    ("cargo hack --manifest-path a\tCa\t", "hack --manifest-path 'a folder/Cargo.toml'"),
    ("cargo hack check --manifest-path core/*", "hack check --manifest-path core/Cargo.toml"),
    # Values from a list, in both forms.
    ("cargo hack --color *", "hack --color always auto never"),
    ("cargo hack --color=n*", "hack --color=never"),
    ("cargo hack check --color al*", "hack check --color always"),
    ("cargo hack --log-group *", "hack --log-group github-actions none"),
    ("cargo hack --log-group=g*", "hack --log-group=github-actions"),
    ("cargo hack --partition-kind *", "hack --partition-kind block turn"),
    ("cargo hack --partition-kind=t*", "hack --partition-kind=turn"),
    ("cargo hack --workspace-behavior=c*", "hack --workspace-behavior=cargo"),
    # Other values: nothing.
    *((f"cargo hack {it} *", f"hack {it}") for it in ("-p", "--package", "--exclude", "-F", "--features", "--depth", "--skip")),
    *((f"cargo hack {it} *", f"hack {it}") for it in ("--target", "--version-range", "--strength", "--partition", "--parallel")),
    ("cargo hack --most-runs *", "hack --most-runs"),
    ("cargo hack --package b*", "hack --package b"),
    ("cargo hack --features=b*", "hack --features=b"),
    # Subcommands: behind options, and none behind another one.
    ("cargo hack b*", "hack b bench build"),
    ("cargo hack nex*", "hack nextest"),
    ("cargo hack --each-feature te*", "hack --each-feature test"),
    ("cargo hack --features test te*", "hack --features test test"),
    ("cargo hack --optional-deps te*", "hack --optional-deps test"),
    ("cargo hack --color=never te*", "hack --color=never test"),
    ("cargo hack check te*", "hack check te"),
    # Options.
    ("cargo hack --stren*", "hack --strength"),
    ("cargo hack check --restor*", "hack check --restore"),
    ("cargo hack --find-*", "hack --find-conflicts --find-rust-version"),
    ("cargo hack check --most*", "hack check --most-runs"),
    ("cargo hack --each*", "hack --each-feature"),
    ("cargo hack test -- --each*", "hack test -- --each"),
    # With a toolchain, and by the program's own name.
    ("cargo +nightly hack te*", "+nightly hack test"),
    ("cargo +1.60 hack --stren*", "+1.60 hack --strength"),
    ("cargo +nightly hack --color=n*", "+nightly hack --color=never"),
    ("cargo-hack hack te*", "hack test"),
    ("cargo-hack hack --stren*", "hack --strength"),
    ("cargo-hack --stren*", "--strength"),
]
# What isn't `hack` is handed on.
OWN_ROWS = [
    ("cargo of*", "of-cargo"),
    ("cargo build of*", "build of-cargo"),
    ("cargo build hack of*", "build hack of-cargo"),
    ("cargo build --each*", "build --each"),
    ("cargo build hack --each*", "build hack --each"),
    ("cargo hack of*", "hack of"),
    ("cargo of*", "of-cargo"),
    ("cargo hack te*", "hack test"),
]
# Without anything to hand on to bash has the subcommands.
LISTED_ROWS = [
    ("cargo bu*", "build"),
    ("cargo +nightly ha*", "+nightly hack"),
    ("cargo build co\t", "build core/"),
]


class Terminal:
    """A shell at a terminal of its own, in this folder."""

    def __init__(self, words, environment, folder):
        self.answer = folder / "answer"
        self.answer.unlink(missing_ok=True)
        self.screen, self.is_open = b"", True
        self.child, self.terminal = pty.fork()
        if self.child == 0:
            os.chdir(folder)
            os.execvpe(words[0], words, environment | {"ANSWER": str(self.answer)})
        # Keys that come before the shell reads them itself would be taken by the terminal.
        self.arguments("cargo ready")

    def arguments(self, typed):
        """The arguments of the call that stands on the line after these keys, or else what is on the screen."""
        self.answer.unlink(missing_ok=True)
        keys = typed.removesuffix("*") + ("\x18a" if typed.endswith("*") else "")
        os.write(self.terminal, keys.encode() + b"\r")
        end = time.monotonic() + 20
        while self.is_open and time.monotonic() < end and not self.answer.exists():
            self.read()
        return self.answer.read_text("utf-8").splitlines() if self.answer.exists() else [self.screen.decode(errors="replace")]

    def read(self):
        """What the shell prints has to be read, or it would wait."""
        if select.select([self.terminal], [], [], 0.02)[0]:
            try:
                self.screen = (self.screen + os.read(self.terminal, 4096))[-500:]
            except OSError:
                self.is_open = False

    def close(self):
        os.close(self.terminal)
        os.kill(self.child, signal.SIGKILL)
        os.waitpid(self.child, 0)


class Room:
    """A folder with a workspace, the stand-ins, what is installed, and a home."""

    def __init__(self, folder):
        self.folder, self.installed, self.home, self.own = folder, folder / "prefix/share", folder / "home", folder / "own"
        self.environment = {"PATH": f"{folder}/bin:/usr/bin:/bin", "HOME": str(self.home), "TERM": "dumb", "LC_ALL": "C.UTF-8"}
        for path in ("core/Cargo.toml", "a folder/Cargo.toml"):
            write(folder / path, "")
        for name in ("cargo", "cargo-hack"):
            write(folder / "bin" / name, CARGO, 0o755)
        self.make("install-completions")

    def make(self, goal):
        words = ["make", "-s", "-C", ROOT, goal, f"PREFIX={self.installed.parent}"]
        subprocess.run(words, env={"PATH": os.environ["PATH"]}, check=True)

    def terminal(self, shell, start):
        """The shell with these lines in the file that it reads when it starts."""
        if shell == "bash":
            write(self.home / ".bashrc", BASH_START + start)
            return Terminal(["bash", "--noprofile", "-i"], self.environment, self.folder)
        if shell == "zsh":
            write(self.home / ".zshrc", start + ZSH_START)
            return Terminal(["zsh", "-d", "-i"], self.environment, self.folder)
        write(self.home / ".config/fish/config.fish", FISH_START + start)
        data = {"XDG_DATA_DIRS": f"{self.installed}:/usr/local/share:/usr/share"}
        return Terminal(["fish"], self.environment | data, self.folder)


# What each shell reads first: no prompt, and the key behind the star.
BASH_START = """PS1=
bind 'set bell-style none' '"\\C-xa": insert-completions'
"""
ZSH_START = """
PS1=
autoload -Uz compinit && compinit -u -D
zle -C all complete-word _generic
bindkey '^xa' all
zstyle ':completion:all::::' completer _all_matches _complete
zstyle ':completion:all:*' insert true
"""
FISH_START = """
function fish_prompt; end
function fish_greeting; end
function all
    set -l found (complete -C (commandline -cp) | string replace -r '\\t.*' '')
    test -n "$found"; and commandline -rt -- (string join ' ' -- (string escape -- $found))
end
bind \\cxa all
"""

# Cargo's own completions, as the shells find them.
BASH_OWN = "_own() { COMPREPLY=($(compgen -W of-cargo -- \"$2\")); }; complete -o nosort -F _own cargo\n"
ZSH_OWN = "#compdef cargo\ncompadd of-cargo\n"
FISH_OWN = "complete -c cargo -n 'not string match -q \"cargo hack *\" -- (commandline -cp)' -f -a of-cargo\n"
# What bash-completion does, where it isn't installed.
BASH_COMPLETION = """
if [[ -f /usr/share/bash-completion/bash_completion ]]; then
    source /usr/share/bash-completion/bash_completion
else
    _get_comp_words_by_ref() { :; }
    load() { source "$LOADED/bash-completion/completions/${1##*/}" && return 124; }
    complete -D -F load
fi
"""


def cases(room):
    """Each case: its name, its shell, what that reads at the start, and what is typed."""
    own = room.own
    write(own / "share/bash-completion/completions/cargo", BASH_OWN)
    write(own / "toolchain/etc/bash_completion.d/cargo", BASH_OWN)
    write(own / "bin/rustc", f"#!/bin/sh\necho '{own}/toolchain'\n", 0o755)
    write(own / "zsh/_cargo", ZSH_OWN)
    write(own / "cargo.fish", FISH_OWN)
    ours = f"source '{room.installed}/bash-completion/completions/cargo-hack'\n"
    loaded = f"export LOADED='{room.installed}' XDG_DATA_DIRS='{room.installed}:{own}/share'\n" + BASH_COMPLETION
    toolchain = f"export LOADED='{room.installed}' XDG_DATA_DIRS='{room.installed}' PATH=\"{own}/bin:$PATH\"\n" + BASH_COMPLETION
    yield "bash", "bash", ours, [*ROWS, *LISTED_ROWS]
    yield "bash, without breaks at =", "bash", "COMP_WORDBREAKS=${COMP_WORDBREAKS//=}\n" + ours, ROWS
    yield "bash, behind cargo's own", "bash", BASH_OWN + ours, OWN_ROWS
    yield "bash, loaded", "bash", loaded, [*OWN_ROWS, *ROWS]
    yield "bash, loaded, with cargo's own in the toolchain", "bash", toolchain, OWN_ROWS
    zsh = f"{room.installed}/zsh/site-functions"
    yield "zsh", "zsh", f"fpath=('{zsh}' $fpath)", ROWS
    yield "zsh, before cargo's own", "zsh", f"fpath=('{zsh}' '{own}/zsh' $fpath)", OWN_ROWS
    yield "zsh, behind cargo's own", "zsh", f"fpath=('{own}/zsh' '{zsh}' $fpath)", OWN_ROWS
    yield "fish", "fish", "", ROWS
    yield "fish, with a file of cargo's own", "fish", f"set -p fish_complete_path '{own}'", OWN_ROWS


def kept(room):
    """Whether a file of cargo's own in the folder of ours survives, and nothing else does."""
    file = room.installed / "bash-completion/completions/cargo"
    room.make("uninstall")
    yield "uninstalling removes all", not any(it for it in room.installed.rglob("*") if not it.is_dir())
    write(file, BASH_OWN)
    room.make("install-completions")
    yield "installing keeps a file of cargo's own", not file.is_symlink() and file.read_text("utf-8") == BASH_OWN
    room.make("uninstall")
    yield "uninstalling keeps it too", [it for it in room.installed.rglob("*") if not it.is_dir()] == [file]


def main():
    if len(sys.argv) != 1:
        sys.exit(__doc__)
    passed = failed = skipped = 0
    with tempfile.TemporaryDirectory() as folder:
        room = Room(pathlib.Path(folder))
        for name, shell, start, rows in cases(room):
            if shutil.which(shell, path=room.environment["PATH"]) is None:
                print(f"{name}: skipped, as {shell} is missing")
                skipped += len(rows)
                continue
            terminal = room.terminal(shell, start)
            for typed, wanted in rows:
                found = terminal.arguments(typed)
                # What is offered comes in an order that is the shell's own.
                if sorted(found) == sorted(shlex.split(wanted)):
                    passed += 1
                else:
                    failed += 1
                    print(f"FAILED {name}: {typed!r} gives {found}, wanted {wanted}")
            terminal.close()
        for name, holds in kept(room):
            passed, failed = passed + holds, failed + (not holds)
            if not holds:
                print(f"FAILED {name}")
    print(f"{passed} passed, {failed} failed" + (f", {skipped} skipped" if skipped else ""))
    return 1 if failed else 0


if __name__ == "__main__":
    sys.exit(main())
