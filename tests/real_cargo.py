#!/usr/bin/env python3
"""Runs `cargo hack` with the machine's own cargo on a copy of examples/workspace, and compares commands, status, status
lines and report with what is written here; calls that edit manifests have to leave every file as it was, byte for byte.

Searches for the least version run the one cargo as each version, through a script in place of rustup that fails old ones;
those for conflicts have to find the two pairs of features that don't build together.

In repositories, `cargo package` under `--no-dev-deps` has to pack the bytes that it packs alone from manifests without
development dependencies, and a call that is interrupted while cargo compiles has to leave all as it was within a second.

usage: tests/real_cargo.py PROGRAM      PROGRAM: cargo-hack

Where the machine has no cargo and compiler that print their versions, it says so and tries nothing. The last line is
`N passed, M failed, K skipped`, and the status is 1 where one failed. What the compiler itself prints is not compared.
"""
import os
import shutil
import signal
import subprocess
import sys
import tarfile
import tempfile

sys.dont_write_bytecode = True
from killed_calls import Wrong, commit, git, heed_signals, left_of, must, wait_for  # noqa: E402
from small_workspace import write  # noqa: E402

ROOT = os.path.dirname(os.path.dirname(os.path.realpath(__file__)))
WORKSPACE = os.path.join(ROOT, "examples", "workspace")

# The status line of a run: its command, its package, its number and the number of all.
LINE = "info: running `cargo check --no-default-features{}` on {} ({}/{})"


def lines(total, runs):
    """The status lines of these runs, each the features and the package."""
    return [
        LINE.format(f" --features {features}" if features else "", package, place, total)
        for place, (features, package) in enumerate(runs, 1)
    ]


EACH = [("", "codec"), ("binary", "codec"), ("compact", "codec"), ("default", "codec"), ("json", "codec"),
        ("trace", "codec"), ("", "tool"), ("color", "tool"), ("quiet", "tool")]

POWERSET = ["", "compact,json,trace", "binary", "compact", "binary,compact", "json", "compact,json", "trace",
            "binary,trace", "compact,trace", "binary,compact,trace", "json,trace"]

SETS = ["check", "--feature-powerset", "--ignore-private", "--exclude-features", "default",
        "--mutually-exclusive-features", "binary,json"]

# What is asked, the status, and the lines that `cargo hack` itself prints, in order.
CALLS = {
    "each feature of both packages": (
        ["check", "--each-feature", "--exclude-all-features"],
        0,
        lines(9, EACH),
    ),
    "the second half of it": (
        ["check", "--each-feature", "--exclude-all-features", "--partition", "2/2"],
        0,
        [it.replace("running", "skipping") if place < 5 else it for place, it in enumerate(lines(9, EACH))],
    ),
    "a pair that doesn't build, to the end": (
        SETS + ["--keep-going", "--no-manifest-path"],
        1,
        None,
    ),
    "a pair that doesn't build, up to it": (
        SETS,
        1,
        ["info: skipped running on private package `tool`"]
        + lines(12, [(it, "codec") for it in POWERSET])[:2]
        + ["error: process didn't exit successfully: `cargo check --manifest-path codec/Cargo.toml"
           " --no-default-features --features compact,json,trace` (exit status: 101)"],
    ),
}

# The sets of the library by its own table of rules: none has `default`, both formats or three features.
RULED = ["", "json,trace", "binary", "compact", "binary,compact", "json", "compact,json", "trace", "binary,trace",
         "compact,trace"]
CALLS["rules of its own, to the end"] = (
    ["check", "--package", "codec", "--feature-powerset", "--package-rules", "--keep-going"],
    1,
    lines(10, [(it, "codec") for it in RULED])
    + ["error: process didn't exit successfully: `cargo check --manifest-path codec/Cargo.toml --no-default-features"
       " --features compact,trace` (exit status: 101)", "error: failed to run 1 commands"],
)

# Side by side, the same is told.
for name in ["each feature of both packages", "rules of its own, to the end"]:
    CALLS[f"{name}, side by side"] = ([*CALLS[name][0], "--parallel", "3"], *CALLS[name][1:])

# Rules for both packages beside these, and what is listed then. With a wrong table nothing is.
TABLE = '\n[workspace.metadata.cargo-hack]\nexclude-features = ["quiet", "trace"]\noptional-deps = true\n'
BY_RULES = ["check", "--feature-powerset", "--package-rules", "--print-command-list"]
BY_BOTH_TABLES = [("codec", it) for it in ("", "compact,json", "binary", "compact", "binary,compact", "json")]
BY_BOTH_TABLES += [("tool", it) for it in ("", "color,codec", "color", "codec")]
WRONG = {
    "codec/Cargo.toml": ("depth = 2", 'depth = "2"',
                         "error: failed to parse `depth` field from [package.metadata.cargo-hack] of package `codec`"),
    "Cargo.toml": ("optional-deps = true", "optional = true",
                   "error: failed to parse `optional` field from [workspace.metadata.cargo-hack]"),
}

# The failed runs of the third call.
FAILED = ["compact,json,trace", "compact,trace", "binary,compact,trace"]


def to_the_end():
    """What the third call prints: each run, an error after a failed one, and the report."""
    told = ["info: skipped running on private package `tool`"]
    for line, features in zip(lines(12, [(it, "codec") for it in POWERSET]), POWERSET):
        told.append(line)
        if features in FAILED:
            told.append(
                f"error: process didn't exit successfully: `cargo check --no-default-features --features {features}`"
                " (exit status: 101)"
            )
    told.append("error: failed to run 3 commands")
    return told


REPORT = ["", "failed commands:", "    codec:"] + [
    f"        `cargo check --no-default-features --features {features}`" for features in FAILED
] + [""]

# A sample of the sets, and the last lines: what the failed runs have in common.
SAMPLE = ["check", "--package", "codec", "--feature-powerset", "--strength", "3", "--keep-going",
          "--exclude-features", "default", "--mutually-exclusive-features", "binary,json"]
SUSPECTS = [
    "info: in codec all 2 failed runs have one of these, and no passed run does:",
    "info:     compact on, trace on",
]

# Calls that edit manifests, with their status, and which of these lines they print.
MODIFIES = "info: {} modifies real `Cargo.toml` while cargo-hack is running and restores it when finished"
EDITS = {
    "development dependencies, which come back": (
        ["check", "--no-dev-deps", "--package", "tool", "-v"],
        0,
        [MODIFIES.format("--no-dev-deps"), "info: removing dev-dependencies from {}/codec/Cargo.toml",
         "info: removing dev-dependencies from {}/tool/Cargo.toml", "info: restoring {}/codec/Cargo.toml",
         "info: restoring {}/tool/Cargo.toml", "info: restoring {}/Cargo.lock"],
    ),
    "the same where cargo fails": (
        ["check", "--no-dev-deps", "--package", "codec", "--features", "compact,trace"],
        1,
        [MODIFIES.format("--no-dev-deps")],
    ),
    "private members, which come back": (
        ["check", "--no-private", "--workspace", "-v"],
        0,
        [MODIFIES.format("--no-private"), "info: removing private crates from {}/Cargo.toml",
         "info: skipped running on private package `tool ({}/tool)`", "info: restoring {}/Cargo.toml",
         "info: restoring {}/Cargo.lock"],
    ),
}

# The commands of a list.
LIST = [
    "cargo check --manifest-path codec/Cargo.toml --no-default-features" + (f" --features {it}" if it else "")
    for it in POWERSET
]


def own_lines(err):
    """The lines that `cargo hack` prints, without the compiler's."""
    starts = ("info: ", "warning: skipped", "error: process", "error: failed to run")
    return [it for it in err.splitlines() if it.startswith(starts)]


def difference(wanted, told):
    """The first line in which they differ."""
    for place in range(max(len(wanted), len(told))):
        one = wanted[place] if place < len(wanted) else "no line"
        other = told[place] if place < len(told) else "no line"
        if one != other:
            return f"line {place + 1}: wanted {one!r}, was {other!r}"
    return None


def held(folder):
    """What each file of the workspace holds, but for what cargo builds."""
    files = {}
    for place, folders, names in os.walk(folder):
        if "target" in folders:
            folders.remove("target")
        for name in names:
            with open(os.path.join(place, name), "rb") as it:
                files[os.path.relpath(os.path.join(place, name), folder)] = it.read()
    return files


def changes(before, after):
    """Which files were changed, if some were."""
    changed = sorted(name for name in before.keys() | after.keys() if before.get(name) != after.get(name))
    return f"changed {', '.join(changed)}" if changed else None


def edit_fault(program, folder, words, status, wanted):
    """What is wrong with a call that edits manifests, if something is."""
    before = held(folder)
    done = call(program, folder, words)
    if done.returncode != status:
        return f"status {done.returncode}"
    told = [it for it in done.stderr.splitlines() if it.startswith("info: ") and not it.startswith("info: running")]
    return changes(before, held(folder)) or difference([it.replace("{}", os.path.realpath(folder)) for it in wanted], told)


def rules_fault(program, folder):
    """What is wrong with a list by the tables of a member and of the workspace, if something is, or with a refused table."""
    shutil.copytree(WORKSPACE, folder)
    with open(f"{folder}/Cargo.toml", "a", encoding="utf-8") as it:
        it.write(TABLE)
    done = call(program, folder, BY_RULES)
    wanted = [
        f"cargo check --manifest-path {package}/Cargo.toml --no-default-features" + (f" --features {it}" if it else "")
        for package, it in BY_BOTH_TABLES
    ]
    fault = difference(wanted, done.stdout.splitlines())
    for name, (text, wrong, error) in WRONG.items():
        with open(f"{folder}/{name}", encoding="utf-8") as it:
            held = it.read()
        write(f"{folder}/{name}", held.replace(text, wrong))
        done = call(program, folder, BY_RULES)
        if done.returncode != 1 or done.stdout:
            fault = fault or f"{name}: status {done.returncode}, {done.stdout}"
        fault = fault or difference([error], done.stderr.splitlines()[-1:])
    return fault


# ---- Searches for the least version.

# In place of rustup: it runs the one cargo as each version. One version has to be added first, and old ones are refused: for a
# feature of the library, and for the tool.
RUSTUP = """#!/bin/sh
minor=${2#1.}
case "$*" in
--version) echo 'rustup 1.27.1 (54dd3d00f 2024-04-24)'; exit;;
"run 1.65 cargo --version") [ -e "$0.added" ]; exit;;
"toolchain add 1.65 "*) : > "$0.added"; exit;;
*codec/Cargo.toml*" --features trace") [ "$minor" -ge 64 ] || exit 101;;
*tool/Cargo.toml*) [ "$minor" -ge 62 ] || exit 101;;
esac
shift 3
exec cargo "$@"
"""

FIND = ["check", "--find-rust-version", "--version-range", "1.60..=1.67"]
TRIED = "info: running `rustup run 1.{} cargo check{}` on {} ({}/{})"
ADDED = "info: running `rustup toolchain add 1.65 --no-self-update`"


def least(package, version, failed, features):
    return (f"info: {package}: 1.{version} is the least version of 1.60..=1.67 on which all runs pass; on 1.{failed} this fails:"
            f" `rustup run 1.{failed} cargo check{features}`")


def tried(version, *features):
    """The status lines of the library at a version: without features, with one and with the other."""
    return [TRIED.format(version, f" --no-default-features{it}", "codec", 3 * (version - 60) + place, 24)
            for place, it in enumerate(features, 1)]


NONE, COMPACT, TRACE = "", " --features compact", " --features trace"

SEARCHES = {
    "the least version of the library": (
        FIND + ["--package", "codec", "--each-feature", "--exclude-all-features", "--exclude-features", "binary,default,json"],
        0,
        [*tried(67, NONE, COMPACT, TRACE), *tried(63, NONE, COMPACT, TRACE), ADDED, *tried(65, NONE, COMPACT, TRACE),
         *tried(64, NONE, COMPACT, TRACE), least("codec", 64, 63, " --no-default-features --features trace"),
         "warning: codec: its rust-version is 1.60, but not all runs pass on 1.63"],
    ),
    "that of both packages, without development dependencies": (
        FIND + ["--no-dev-deps", "--workspace"],
        0,
        [MODIFIES.format("--no-dev-deps"), *(TRIED.format(it, "", "codec", 2 * (it - 60) + 1, 16) for it in (67, 63, 61, 60)),
         *(TRIED.format(it, "", "tool", 2 * (it - 60) + 2, 16) for it in (67, 63, 61, 62)),
         "info: codec: all runs pass on each version that was tried, down to 1.60", least("tool", 62, 61, "")],
    ),
    "a pair that doesn't build on any version": (
        FIND + ["--no-dev-deps", "--package", "codec", "--features", "compact,trace"],
        1,
        [MODIFIES.format("--no-dev-deps"), TRIED.format(67, COMPACT + ",trace", "codec", 8, 8),
         "error: codec: on 1.67 this fails: `rustup run 1.67 cargo check --features compact,trace`"],
    ),
}


def search_fault(program, temporary, words, status, wanted):
    """What is wrong with a search in a fresh workspace, if something is."""
    with tempfile.TemporaryDirectory(dir=temporary) as top:
        folder, rustup = f"{top}/workspace", f"{top}/rustup"
        shutil.copytree(WORKSPACE, folder)
        write(rustup, RUSTUP, 0o755)
        before = held(folder)
        done = call(program, folder, words, CARGO_HACK_RUSTUP=rustup)
        starts = ("info: ", *(f"{kind}: {name}: " for kind in ("warning", "error") for name in ("codec", "tool")))
        lines = [it for it in done.stderr.splitlines() if it.startswith(starts)]
        if done.returncode != status:
            return f"status {done.returncode}"
        return changes(before, held(folder)) or difference(wanted, lines)


# ---- Searches for conflicts.

CONFLICTS = ["check", "--feature-powerset", "--find-conflicts"]
TOGETHER = "error: in codec these features fail together, and no part of them that may be chosen fails:"
OTHERS = "info: in codec each other allowed set lies inside one of 4 sets that passed"

# What is asked, the features of the library's runs in order, the runs behind them, and the report.
PAIRS = {
    "conflicts of the library": (
        CONFLICTS + ["--package", "codec"],
        # All of them fail, and are made smaller; then all but one of the first conflict are, and these are tried in pairs.
        ["binary,compact,default,trace", "", "default,trace", "compact,default,trace", "compact", "compact,json,trace",
         "compact,trace", "binary,default,trace", "binary", "binary,json,trace", "binary,trace", "binary,json", "compact,default",
         "binary,compact"],
        [],
        [TOGETHER, "    binary,json", "    compact,trace", OTHERS],
    ),
    "conflicts by its rules, and those of the tool": (
        CONFLICTS + ["--workspace", "--package-rules"],
        ["compact,json,trace", "", "json,trace", "compact", "compact,trace", "compact,json", "binary,trace", "binary,compact"],
        ["info: running `cargo check --all-features` on tool (9)"],
        [TOGETHER, "    compact,trace", OTHERS, "info: in tool each allowed set lies inside the one set that passed"],
    ),
    "as many runs as are allowed": (
        CONFLICTS + ["--package", "codec", "--package-rules", "--most-runs", "5", "--no-dev-deps"],
        ["compact,json,trace", "", "json,trace", "compact", "compact,trace"],
        [],
        [TOGETHER, "    compact,trace", "info: in codec 2 sets passed so far",
         "warning: in codec the search isn't complete, since --most-runs ended it: other sets may fail"],
    ),
}


def conflicts_fault(program, folder, words, sets, more, report):
    """What is wrong with a search that finds conflicts, if something is."""
    before = held(folder)
    done = call(program, folder, words)
    if done.returncode != 1:
        return f"status {done.returncode}"
    wanted = [it.rsplit("/", 1)[0] + ")" for it in lines(0, [(it, "codec") for it in sets])] + more
    told = [it for it in done.stderr.splitlines() if it.startswith("info: running ")]
    last = done.stderr.splitlines()[-len(report):]
    return changes(before, held(folder)) or difference(wanted, told) or difference(report, last)


# ---- In repositories.

DEV = '\n[dev-dependencies]\n{0} = {{ path = "{1}" }}\n'

# What compiles for cargo: it doesn't come to its end.
COMPILES = """#!/bin/sh
case "$*" in *"--crate-name codec"*) : > "$0.runs"; exec sleep 30;; esac
exec "$@"
"""


def repository(folder, at_top, dev):
    """A repository of the workspace, whose library has a development dependency or has just lost it by hand; or of the
    library at the top of it."""
    if at_top:
        shutil.copytree(os.path.join(WORKSPACE, "codec"), folder)
        write(f"{folder}/helper/Cargo.toml", '[package]\nname = "helper"\nversion = "0.1.0"\nedition = "2021"\npublish = false\n')
        write(f"{folder}/helper/src/lib.rs", "")
        manifest, more, extra = f"{folder}/Cargo.toml", DEV.format("helper", "helper"), '\n[workspace]\nmembers = ["helper"]\n'
    else:
        shutil.copytree(WORKSPACE, folder)
        manifest, more, extra = f"{folder}/codec/Cargo.toml", DEV.format("tool", "../tool"), ""
    with open(manifest, encoding="utf-8") as it:
        text = it.read() + extra
    write(f"{folder}/.gitignore", "target/\n")
    write(manifest, text + more)
    subprocess.run(["cargo", "generate-lockfile", "--offline"], cwd=folder, env=cleared(), capture_output=True, check=True)
    commit(folder)
    if not dev:
        write(manifest, text)


def packed(folder):
    """What the archive of the library holds."""
    with tarfile.open(f"{folder}/target/package/codec-0.2.0.crate") as archive:
        return {it.name: archive.extractfile(it).read() for it in archive.getmembers() if it.isfile()}


def package_fault(program, temporary, at_top):
    """What is wrong with packages that are made under `--no-dev-deps`, beside those of cargo alone, if something is."""
    name = "top" if at_top else "member"
    ours, alone = f"{temporary}/{name}", f"{temporary}/{name}-alone"
    repository(ours, at_top, dev=True)
    repository(alone, at_top, dev=False)
    before, options = held(ours), ["package", "--allow-dirty", "--no-verify", "--offline"]
    done = call(program, ours, [*options, "--no-dev-deps", "--ignore-private", "--workspace"])
    if done.returncode != 0:
        return f"status {done.returncode}: {done.stderr}"
    subprocess.run(["cargo", *options, "-p", "codec"], cwd=alone, env=cleared(), capture_output=True, check=True)
    # (the commits differ by their times)
    one, other = ({file: it for file, it in packed(at).items() if "vcs_info" not in file} for at in (ours, alone))
    differ = sorted(file for file in one.keys() | other.keys() if one.get(file) != other.get(file))
    if differ:
        return f"other bytes than cargo alone packs: {', '.join(differ)}"
    return changes(before, held(ours)) or git(ours, "status", "--porcelain") or None


def interrupted_fault(program, temporary):
    """What is wrong after a call was interrupted as by Ctrl-C, while cargo compiles and has changed the lockfile."""
    folder, compiler = f"{temporary}/interrupted", f"{temporary}/compiles"
    repository(folder, at_top=False, dev=True)
    write(compiler, COMPILES, 0o755)
    before = held(folder)
    running = subprocess.Popen(
        [program, "hack", "check", "--no-dev-deps", "--workspace", "--offline"],
        cwd=folder,
        env={**cleared(), "RUSTC_WRAPPER": compiler},
        stdin=subprocess.DEVNULL,
        stdout=subprocess.DEVNULL,
        stderr=subprocess.DEVNULL,
        start_new_session=True,
    )
    try:
        wait_for(f"{compiler}.runs", 60)
        edited = changes(before, held(folder)) or ""
        must("codec/Cargo.toml" in edited and "Cargo.lock" in edited, f"while cargo compiles: {edited or 'no file is changed'}")
        os.killpg(running.pid, signal.SIGINT)
        must(running.wait(60) == -signal.SIGINT, f"it ends with {running.returncode}")
        left = left_of(running.pid, 1)
        must(not left, f"left are {left}")
    except Wrong as fault:
        return str(fault)
    finally:
        left_of(running.pid, 0)
    return changes(before, held(folder)) or git(folder, "status", "--porcelain") or None


def has_cargo():
    """Whether the machine's cargo and its compiler print their versions."""
    for tool in ("cargo", "rustc"):
        if shutil.which(tool) is None or subprocess.run([tool, "-vV"], capture_output=True, check=False).returncode != 0:
            return False
    return True


# The variables that would change what is run or printed.
UNSET = ("CARGO", "CARGO_BUILD_TARGET", "CARGO_TARGET_DIR", "GITHUB_ACTIONS", "RUSTFLAGS")


def cleared():
    """The environment without these."""
    return {
        name: value
        for name, value in os.environ.items()
        if name not in UNSET and not name.startswith(("CARGO_HACK_", "CARGO_TERM_"))
    }


def call(program, folder, words, **more):
    return subprocess.run(
        [program, "hack", *words], cwd=folder, env={**cleared(), **more}, capture_output=True, text=True, check=False
    )


def main():
    if len(sys.argv) != 2:
        sys.exit(__doc__)
    program = os.path.realpath(sys.argv[1])
    in_repositories = {
        "a package of a member": lambda folder: package_fault(program, folder, False),
        "a package at the top of a repository": lambda folder: package_fault(program, folder, True),
        "a call that is interrupted": lambda folder: interrupted_fault(program, folder),
    }
    checks, skipped = len(CALLS) + len(EDITS) + len(SEARCHES) + len(PAIRS) + len(in_repositories) + 4, 0
    heed_signals()
    if not has_cargo():
        print(f"no cargo and rustc that answer here: {checks} calls skipped")
        print(f"0 passed, 0 failed, {checks} skipped")
        return 0
    failed = 0

    def tell(name, fault):
        nonlocal failed
        if fault:
            failed += 1
            print(f"{name}: {fault}")

    with tempfile.TemporaryDirectory() as temporary:
        folder = os.path.join(temporary, "workspace")
        shutil.copytree(WORKSPACE, folder)
        for name, (words, status, wanted) in CALLS.items():
            done = call(program, folder, words)
            fault = None if done.returncode == status else f"status {done.returncode}"
            tell(name, fault or difference(to_the_end() if wanted is None else wanted, own_lines(done.stderr)))
            if wanted is None:
                report = done.stderr.splitlines()[-len(REPORT):]
                tell("the report", difference(REPORT, report))
        for name, (words, status, wanted) in EDITS.items():
            tell(name, edit_fault(program, folder, words, status, wanted))
        for name, row in SEARCHES.items():
            tell(name, search_fault(program, temporary, *row))
        for name, row in PAIRS.items():
            tell(name, conflicts_fault(program, folder, *row))
        sampled = call(program, folder, SAMPLE)
        tell("a sample", difference(SUSPECTS, sampled.stderr.splitlines()[-len(SUSPECTS):]))
        listed = call(program, folder, SETS + ["--print-command-list"])
        tell("a list of commands", difference(LIST, listed.stdout.splitlines()))
        tell("rules of both tables", rules_fault(program, os.path.join(temporary, "tables")))
        if shutil.which("git") is None:
            skipped = len(in_repositories)
            print(f"no git: {skipped} calls skipped")
        for name, look in in_repositories.items() if not skipped else ():
            tell(name, look(temporary))
    print(f"{checks - failed - skipped} passed, {failed} failed, {skipped} skipped")
    return 1 if failed else 0


if __name__ == "__main__":
    sys.exit(main())
