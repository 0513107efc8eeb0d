#!/usr/bin/env python3
"""Hands odd input to the built programs: arguments, answers of cargo and rustup, manifests and feature maps, at random.

usage: tests/odd_calls.py CARGO_HACK POWERSET_LIST [--cases N] [--seed S] [--only I]

Each of N cases (500) has to end within ten seconds, by no signal, with status 0 and no error line, or with status 1 and
one error line after which nothing else is printed (a line more for each run that failed under --keep-going; none where
warnings count as errors). There is memory for all of it, so `out of memory` is a failure. Every file has to hold its
bytes afterwards and none may be new; arguments that ask for edits that stay may change manifests, and nothing else. Cargo
and rustup are a shell script with stored answers. A case that fails prints its arguments and its input, and is tried alone
by --only I. The last line is `N passed, M failed`; the status is 1 where one failed.
"""
import argparse
import collections
import json
import os
import random
import re
import subprocess
import sys
import tempfile

sys.dont_write_bytecode = True
from odd_input import FLAGS, ODD, VALUED, edit_words, odd_answer, odd_json, odd_manifest, odd_words  # noqa: E402
from random_workspace import lay_out, metadata, random_map, random_words, random_workspace, write  # noqa: E402

SECONDS = 10

# Answers from files, and fails some runs.
STAND_IN = """#!/bin/sh
case "$*" in
    "run stable cargo -vV") exec cat "$0.stable";;
    -vV) exec cat "$0.version";;
    --version) exec cat "$0.rustup";;
    *"metadata "*) exec cat "$0.metadata";;
    *locate-project*) exec cat "$0.located";;
    *"--features "[abc]*) exit 101;;
esac
"""

# ---- Cases. Each returns its arguments, and the odd input beside them.


def fitting_words(rng, workspace):
    """Words that break no rule; some of them start runs."""
    uses, trailing = random_words(rng, workspace)
    if rng.random() < 0.3 and not any(it.name in ("--version-range", "--rust-version", "--target") for it in uses):
        uses = [it for it in uses if it.name != "--print-command-list"]
    words = [word for it in uses for word in it.words] + (["--"] + trailing if trailing else [])
    return ["hack"] + words


def words_case(rng, tools, workspace):
    return odd_words(rng), None


def answers_case(rng, tools, workspace):
    odd = {}
    if rng.random() < 0.75:
        odd["metadata"] = odd_json(rng, metadata(workspace))
    else:
        name, tool = rng.choice([("version", "cargo"), ("stable", "cargo"), ("rustup", "rustup"), ("located", None)])
        odd[name] = odd_answer(rng, tool) if tool else odd_json(rng, {"root": workspace["located"]})
        # A stable that is far ahead makes a range of so many versions.
        if name == "stable" and b".42949" in odd[name]:
            odd[name] = b"release: 1.91.0"
        # A tool that fails.
        if rng.random() < 0.1:
            odd[name] = None
    for name, given in odd.items():
        for path in (f"{tools}/cargo.{name}", f"{tools}/rustup.sh.{name}"):
            if given is not None:
                write_bytes(path, given)
            elif os.path.exists(path):
                os.remove(path)
    if rng.random() < 0.2:
        return edit_words(rng) + ["--include-deps-features"] * (rng.random() < 0.1), odd
    return fitting_words(rng, workspace), odd


def manifests_case(rng, tools, workspace):
    members = [it["manifest_path"] for it in workspace["packages"] if it["id"] in workspace["members"]]
    paths = sorted({*members, f"{workspace['root']}/Cargo.toml"})
    odd = {}
    for path in rng.sample(paths, min(len(paths), rng.choice([1, 1, 1, 2, 5]))):
        with open(path, encoding="utf-8") as it:
            given = odd_manifest(rng, it.read())
        odd[path] = given
        os.remove(path)
        if given is None:
            if rng.random() < 0.5:
                os.mkdir(path)
        else:
            write_bytes(path, given)
    if rng.random() < 0.2:
        os.remove(f"{workspace['root']}/Cargo.lock")
    return edit_words(rng) if rng.random() < 0.8 else fitting_words(rng, workspace), odd


def map_case(rng):
    """The arguments and the standard input of powerset-list."""
    names = ["a", "b", "c", "default", "std", "", "é", "a b", "dep:a", "a/b", "-x", "\n", "\""]
    names = rng.sample(names, rng.randint(0, 7))
    given = odd_json(rng, random_map(rng, names))
    if rng.random() < 0.03:
        chain = {f"f{it}": [f"f{it - 1}"] * (it > 0) for it in range(300)}
        given = json.dumps(chain).encode()
    words = []
    for _ in range(rng.choice([0, 0, 1, 1, 2, 3])):
        option = rng.choice(["--depth", "--at-least-one-of", "--mutually-exclusive-features"])
        fits = rng.random() < 0.6 and option == "--depth"
        words += [option, rng.choice(VALUED[option][:2] if fits else VALUED[option])]
    if rng.random() < 0.15:
        words.insert(rng.randrange(len(words) + 1), rng.choice(ODD + FLAGS))
    return words, given


def write_bytes(path, given):
    with open(path, "wb") as it:
        it.write(given)


def lay_out_tools(workspace, tools):
    """The stand-ins with their answers in files beside them."""
    answers = {
        "metadata": json.dumps(metadata(workspace)), "located": json.dumps({"root": workspace["located"]}),
        "rustup": "rustup 1.27.1 (54dd3d00f 2024-04-24)\n",
    }
    for name, minor in (("version", workspace["minor"]), ("stable", workspace["stable"])):
        if minor:
            answers[name] = f"cargo 1.{minor}.0\nrelease: 1.{minor}.0\nhost: h\n"
    for tool in ("cargo", "rustup.sh"):
        write(f"{tools}/{tool}", STAND_IN)
        for name, answer in answers.items():
            write(f"{tools}/{tool}.{name}", answer)


def odd_environment(rng, workspace):
    environment = {"PATH": os.environ["PATH"], "CARGO": workspace["cargo"], "CARGO_HACK_RUSTUP": workspace["rustup"]}
    for likelihood, name, values in (
        (0.05, "CARGO_HACK_DENY_WARNINGS", ["1", ""]), (0.05, "GITHUB_ACTIONS", ["true", ""]),
        (0.05, "CARGO_TERM_COLOR", ["always", "never", "x", ""]), (0.02, "CARGO", ["", "/nowhere/cargo", "/", ".."]),
        (0.02, "CARGO_HACK_RUSTUP", ["", "/nowhere/rustup", workspace["root"]]), (0.01, "CARGO_HACK_CARGO_SRC", ["",
        "/nowhere/cargo"]),
        (0.01, "CARGO_TERM_COLOR", [b"\xff"]),
    ):
        if rng.random() < likelihood:
            environment[name] = rng.choice(values)
    return environment


# ---- Judging.


def held(folder):
    """Each file and folder, with what it holds."""
    found = {}
    for place, folders, names in os.walk(folder):
        found.update({os.path.join(place, it): None for it in folders})
        for name in names:
            path = os.path.join(place, name)
            with open(path, "rb") as it:
                found[path] = it.read()
    return found


RUN_FAULT = re.compile(r"error: (process didn't exit successfully|could not execute process)")
# What a search for conflicts reports of a package.
FOUND = re.compile(r"\w+: in \S+( for \S+)? (these features fail|each .*allowed set|\d+ sets passed|the search isn't complete)")


def end_fault(status, err, may_warn):
    """What is wrong with the end of a program, if something is."""
    if status < 0:
        return f"ended by signal {-status}"
    if status not in (0, 1):
        return f"status {status}"
    text = re.sub(r"\x1b\[[0-9;]*m", "", err.decode(errors="replace"))
    told = [it for it in text.split("\n") if re.match("(error|warning|info): ", it)]
    is_warned = may_warn and any(it.startswith("warning: ") for it in told)
    has_found = any(FOUND.match(it) and it.startswith("error: ") for it in told)
    told = [it for it in told if not FOUND.match(it)]
    errors = [it for it in told if it.startswith("error: ")]
    if "error: out of memory" in errors:
        return "out of memory"
    if status == 0:
        return "status 0 with an error" if errors or has_found else None
    if not errors:
        return None if is_warned or has_found else "status 1 without an error"
    report = re.fullmatch(r"error: failed to run (\d+) commands", errors[-1])
    behind = told[len(told) - told[::-1].index(errors[-1]):]
    # Manifests come back after the report, and before any other error.
    if behind and not (report and all(it.startswith("info: restoring ") for it in behind)):
        return "something is told behind the error"
    if not all(RUN_FAULT.match(it) for it in errors[:-1]):
        return f"{len(errors)} errors"
    if report and int(report[1]) != len(errors) - 1:
        return f"{len(errors) - 1} failed runs, and a report of {report[1]}"
    return None


def file_fault(before, after, stays):
    """What is wrong with the files, if something is; where edits stay, manifests may be others."""
    wrong = set()
    for path in before.keys() | after.keys():
        is_edit = stays and os.path.basename(path) == "Cargo.toml" and before.get(path) and after.get(path)
        if not is_edit and (path not in before or path not in after or before[path] != after[path]):
            wrong.add(path)
    return f"changed {', '.join(sorted(wrong))}" if wrong else None


def call(command, folder, environment, given):
    """How a program ended, or None where it didn't in time."""
    try:
        return subprocess.run(
            command, cwd=folder, env=environment, input=given, capture_output=True, timeout=SECONDS, check=False
        )
    except subprocess.TimeoutExpired:
        return None


KINDS = {"words": (words_case, 40), "answers": (answers_case, 25), "manifests": (manifests_case, 20), "maps": (None,
15)}


def try_case(rng, kind, programs, folder):
    """The status of a case, what is wrong with it, if something is, and what describes it."""
    small = rng.random() < 0.5 or kind == "words"
    root, tools = f"{folder}/w", f"{folder}/tools"
    if kind == "maps":
        words, odd = map_case(rng)
        command, given, environment, at = [programs[1], *words], odd, {"PATH": os.environ["PATH"]}, folder
    else:
        workspace = random_workspace(rng, root, 2 if small else 4)
        lay_out(workspace, tools)
        lay_out_tools(workspace, tools)
        words, odd = KINDS[kind][0](rng, tools, workspace)
        environment = odd_environment(rng, workspace)
        command, given, at = [programs[0], *words], b"", workspace["folder"]
    before = held(folder)
    ended = call(command, at, environment, given)
    if ended is None:
        return "late", f"no end within {SECONDS} seconds", (words, odd, environment)
    front = words[:words.index("--")] if "--" in words else words
    fault = end_fault(ended.returncode, ended.stderr, "CARGO_HACK_DENY_WARNINGS" in environment)
    fault = fault or file_fault(before, held(folder), "--remove-dev-deps" in front)
    return ended.returncode, fault, (words, odd, environment, ended.stdout[:500], ended.stderr[:2000])


def main():
    reader = argparse.ArgumentParser(usage=__doc__)
    reader.add_argument("programs", nargs=2)
    for option, default in (("--cases", 500), ("--seed", 1), ("--only", None)):
        reader.add_argument(option, type=int, default=default)
    asked = reader.parse_args()
    programs = [os.path.realpath(it) for it in asked.programs]
    passed, failed, counts = 0, 0, collections.Counter()
    for case in range(asked.cases) if asked.only is None else [asked.only]:
        rng = random.Random(f"{asked.seed}/{case}")
        kind = rng.choices(list(KINDS), [weight for _, weight in KINDS.values()])[0]
        with tempfile.TemporaryDirectory(prefix="fuzz-") as folder:
            status, fault, described = try_case(rng, kind, programs, os.path.realpath(folder))
        counts[kind, status] += 1
        if fault:
            failed += 1
            print(f"case {case} of seed {asked.seed}, {kind}: {fault}")
            for it in described:
                print("    " + repr(it)[:3000])
        else:
            passed += 1
    for kind in KINDS:
        tried = {status: number for (name, status), number in counts.items() if name == kind}
        print(f"{kind}: {sum(tried.values())} tried, {tried.get(0, 0)} accepted, {tried.get(1, 0)} with status 1")
    print(f"{passed} passed, {failed} failed")
    return 1 if failed else 0


if __name__ == "__main__":
    sys.exit(main())
