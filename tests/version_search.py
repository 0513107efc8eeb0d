#!/usr/bin/env python3
"""Calls the built cargo-hack with `--find-rust-version` over a script in place of cargo and rustup, and compares the commands in
their order, both outputs, the status and all files with those of a search that is made here by the definitions alone, slowly.

usage: tests/version_search.py CARGO_HACK [--cases N] [--seed S]

There are calls whose trials and last lines are written here, calls that end early, calls that are refused, and N (80) random
workspaces with random arguments, where commands fail at random: runs below some version or on any, toolchains, or commands
by their number, whatever they are. In each third of these, and where warnings are denied, what is said before the search
has to be what a list of the commands says. Where the runs of a package fail below one version alone, its least version has
to be the least of all on which they pass, by looking at all of them.
The last line is `N passed, M failed`, and the status is 1 where one failed.
"""
import re
import sys
from collections import namedtuple
from functools import partial

sys.dont_write_bytecode = True
from killed_calls import must, tree  # noqa: E402
from lists_by_definition import LISTED, Asked, Plan, cleaning, refusal, under, version_of  # noqa: E402
from random_workspace import Use, random_words, random_workspace  # noqa: E402
from search_calls import (  # noqa: E402
    EDITS, Call, Called, Fails, Tools, asked_at, gone_fault, readable, refusal_fault, run_all, small_workspace, uses_of,
)

FIND = "--find-rust-version"

FAILED = "process didn't exit successfully: `{}` (exit status: 101)"


# ---- A search, by its definition.


class Ended(Exception):
    """A preparation failed, which ends the call with this error."""


class Search:
    """What a call has the tools run, what it prints, and what it finds of each package: the least version that passed and
    the place that failed before it, none where nothing failed; or no version and the place that failed on the greatest.
    `notices` are what is said before, and `status` is what they come to."""

    def __init__(self, plan, fails, group, notices, status):
        self.plan, self.asked, self.workspace = plan, plan.asked, plan.workspace
        self.is_grouped, self.is_verbose = group == "github-actions", plan.asked.has("--verbose")
        self.calls, self.out, self.err = [], "", notices
        # The version of stable is asked for before.
        if "stable" in self.asked.range:
            self.calls.append("rustup run stable cargo --version")
        self.fails = fails.behind(len(self.calls))
        # What was tried, and what was found, by the place of the package.
        self.tried, self.found, self.end = {}, {}, None
        try:
            for member in plan.packages:
                self.search(member)
        except Ended as end:
            self.end = end
        # Where a search is broken off, what was found before is told, and then the error.
        lines = [it for member in self.found for it in self.lines(member)]
        if self.end is not None:
            lines.append(f"error: {self.end}")
        self.err += "".join(f"{it}\n" for it in lines)
        counted = ("error: ", "warning: ") if self.asked.denies else ("error: ",)
        self.status = 1 if any(it.startswith(counted) for it in lines) else status

    def passes(self, tool, words):
        """Has a tool run something."""
        self.calls.append(f"{tool} {words}")
        return not self.fails.has(len(self.calls) - 1, words)

    def say(self, text):
        if self.is_grouped:
            self.out += f"::group::{text}\n::endgroup::\n"
        else:
            self.err += f"info: {text}\n"

    def shown(self, tool, words):
        """A command as a status line shows it: in full, or without paths."""
        if self.is_verbose:
            return f"`{self.workspace[tool]} {words}`"
        return f"`{tool} {re.sub(' --manifest-path [^ ]+', '', words)}`"

    def must_pass(self, tool, words):
        if not self.passes(tool, words):
            raise Ended(FAILED.format(f"{self.workspace[tool]} {words}"))

    def prepare(self, version):
        """The preparations of a version: its toolchain, the lockfile and the cleaning."""
        targets = f" --target {','.join(self.asked.targets)}" if self.asked.targets else ""
        if targets or not self.passes("rustup", f"run 1.{version} cargo --version"):
            words = f"toolchain add 1.{version} --no-self-update{targets}"
            self.say(f"running {self.shown('rustup', words)}")
            self.must_pass("rustup", words)
        place = self.plan.versions.index(version)
        ahead = self.plan.versions[:place]
        is_old = version < 60 if not ahead else max(ahead) < 51 <= version
        if is_old and not self.asked.has("--locked"):
            current = [it for it in self.workspace["packages"] if it["manifest_path"] == self.workspace["located"]]
            manifest = [f" --manifest-path {under(it['manifest_path'], self.workspace['folder'])}" for it in current[:1]]
            path = "" if self.asked.has("--no-manifest-path") else "".join(manifest)
            self.must_pass("rustup", f"run 1.{version} cargo generate-lockfile{path}")
        if self.asked.has("--clean-per-version"):
            self.clean(cleaning(self.workspace, self.asked), self.must_pass)

    def clean(self, line, how):
        words = line.split(" ", 1)[1]
        if self.is_verbose:
            self.err += f"info: running {self.shown('cargo', words)}\n"
        return how("cargo", words)

    def run_passes(self, rank):
        """Runs a place of the plan."""
        if rank > 0 and not self.is_grouped:
            self.err += "\n"
        cleanings = self.plan.texts[rank].splitlines()[:-1]
        if cleanings and not self.clean(cleanings[0], self.passes):
            return False
        words = asked_at(self.plan, rank)
        name = "" if self.is_verbose else f" on {self.plan.packages[self.plan.places[rank][2]]['name']}"
        self.say(f"running {self.shown('rustup', words)}{name} ({rank + 1}/{len(self.plan.places)})")
        return self.passes("rustup", words)

    def ranks(self, member, version):
        """The package's places at a version, in the order of the plan."""
        return [rank for rank, it in enumerate(self.plan.places) if it[0] == version and it[2] == member]

    def uses(self, member):
        return [version for version in self.plan.versions if self.ranks(member, version)]

    def try_version(self, member, version):
        """The first place that fails, if one does."""
        tried = self.tried.setdefault(member, [])
        assert version not in tried
        tried.append(version)
        self.prepare(version)
        return next((rank for rank in self.ranks(member, version) if not self.run_passes(rank)), None)

    def search(self, member):
        uses = self.uses(member)
        if not uses:
            return
        failed = self.try_version(member, uses[-1])
        if failed is not None:
            self.found[member] = (None, failed)
            return
        low, high = 0, len(uses) - 1
        while low < high:
            middle = low + (high - low) // 2
            rank = self.try_version(member, uses[middle])
            if rank is None:
                high = middle
            else:
                failed, low = rank, middle + 1
        assert 2 ** (len(self.tried[member]) - 2) <= len(uses)
        assert failed is None and low == 0 or self.plan.places[failed][0] == uses[low - 1]
        self.found[member] = (uses[high], failed)

    def lines(self, member):
        """What is told of a package."""
        package, (least, failed) = self.plan.packages[member], self.found[member]
        name, text = package["name"], package["rust_version"]
        if failed is not None:
            at = self.plan.places[failed][0]
            failure = f"on 1.{at} this fails: {self.shown('rustup', asked_at(self.plan, failed))}"
        if least is None:
            return [f"error: {name}: {failure}"]
        if failed is None:
            first = f"info: {name}: all runs pass on each version that was tried, down to 1.{least}"
        else:
            first = f"info: {name}: 1.{least} is the least version of {self.range()} on which all runs pass; {failure}"
        own = version_of(text) if text else None
        if own and failed is not None and own < (1, least) and own <= (1, at):
            return [first, f"warning: {name}: its rust-version is {text}, but not all runs pass on 1.{at}"]
        return [first]

    def range(self):
        """The range in normal form."""
        start, end = ("" if it in ("own", "stable") else it for it in self.asked.range)
        return f"{start}..{'=' if end else ''}{end}"

    def least_of_all(self, member):
        """The least version that passes, where the runs of the package fail below it alone; by looking at all."""
        uses = self.uses(member)
        passes = [not any(asked_at(self.plan, rank) in self.fails.lines for rank in self.ranks(member, it)) for it in uses]
        is_cleaned = self.fails.numbers or any(it.startswith("clean ") for it in self.fails.lines)
        is_sure = not is_cleaned and passes == sorted(passes) and passes[-1]
        return uses[passes.index(True)] if is_sure else None


# ---- Comparing.

class Case(Called):
    """A call, and its plan. Where the plan has a sample, or `is_listed`, a list of its commands is asked for: the notices of the
    search have to be those of the list."""

    def __init__(self, program, tools, call, is_listed):
        super().__init__(program, tools, call)
        asks = Asked(call.uses, call.trailing)
        asks.denies = call.denies
        self.listed, whole = None, ""
        if is_listed or asks.has("--strength") or asks.has("--package-rules"):
            self.listed, _ = self.ask([LISTED], Fails())
            whole = self.listed.stdout
        self.plan = Plan(tools.workspace, asks, whole)

    def notices(self, ended):
        """What is said before a search: it ends before the first line on a command or on what was found."""
        front = re.split("^(?:$|info: running |info: [^ ]+: |error: )", EDITS.sub("", ended.stderr), maxsplit=1, flags=re.M)[0]
        if self.listed is None:
            return front
        # (a list prepares each version too)
        return re.sub("info: running .*\n", "", EDITS.sub("", self.listed.stderr))

    def judge(self, fails):
        """What the search should be where these commands fail, which it is; and how it ended."""
        root, stable = self.tools.workspace["root"], int("stable" in self.plan.asked.range)
        files = tree(root)
        ended, calls = self.ask([FIND], fails.behind(stable))
        must(tree(root) == files, "the files aren't what they were")
        if self.plan.causes:
            fault = refusal(self.plan.causes, ended)
            must(not fault, fault)
            return None, ended
        status = self.listed.returncode if self.listed else 0
        search = Search(self.plan, fails, self.call.group, self.notices(ended), status)
        wanted = [search.status, search.calls, search.err, search.out]
        found = [ended.returncode, calls, EDITS.sub("", ended.stderr), ended.stdout]
        for what, one, other in zip(("status", "commands", "standard error", "standard output"), wanted, found):
            must(one == other, f"{what}: wanted\n{readable(one)}\nwas\n{readable(other)}")
        for member, (least, _) in search.found.items():
            sure = search.least_of_all(member)
            must(sure in (None, least), f"1.{sure} passes, and 1.{least} was found")
        return search, ended


# ---- Calls whose trials and last lines are written here.

# The packages, the arguments behind `check`, what fails, the versions in the order in which they are tried, the status, the
# last lines, and more: `deny`, or the kind of log groups. What fails are the runs of a package below a version or at one, a
# line of words with `_` between them, or a command by its number, from 0, with a word that says what it is.
Row = namedtuple("Row", "packages words fails tried status lines more", defaults=("",))

LEAST = "info: {}: {} is the least version of {} on which all runs pass; on {} this fails: `rustup run {} cargo check{}`"


def least(name, version, place, failed, more=""):
    return LEAST.format(name, version, place, failed, failed, more)


def all_pass(name, version):
    return f"info: {name}: all runs pass on each version that was tried, down to {version}"


WIDE = "--version-range 1.56..=1.80"
FOUR = "--version-range 1.60..=1.63"

ROWS = {
    "one package": Row("p", WIDE, "p<63", "80 68 62 65 64 63", 0, [least("p", "1.63", "1.56..=1.80", "1.62")]),
    "the next to the greatest fails": Row("p", FOUR, "p<63", "63 61 62", 0, [least("p", "1.63", "1.60..=1.63", "1.62")]),
    "the least alone fails": Row("p", FOUR, "p<61", "63 61 60", 0, [least("p", "1.61", "1.60..=1.63", "1.60")]),
    "nothing fails": Row("p", WIDE, "", "80 68 62 59 57 56", 0, [all_pass("p", "1.56")]),
    "the greatest fails": Row("p", WIDE, "p=80", "80", 1, ["error: p: on 1.80 this fails: `rustup run 1.80 cargo check`"]),
    "one version, which passes": Row("p", "--version-range 1.60..=1.60", "", "60", 0, [all_pass("p", "1.60")]),
    "one version, which fails": Row("p", "--version-range 1.60..=1.60", "p=60", "60", 1,
                                    ["error: p: on 1.60 this fails: `rustup run 1.60 cargo check`"]),
    "two versions": Row("p", "--version-range 1.60..1.61", "p=60", "61 60", 0,
                        ["", "info: running `rustup run 1.61 cargo check` on p (2/2)",
                         "info: running `rustup run 1.60 cargo check` on p (1/2)", least("p", "1.61", "1.60..=1.61", "1.60")]),
    "three packages, of which one fails": Row(
        "p q r", FOUR, "p<62 q=63", "63 61 62 63 63 61 60", 1,
        [least("p", "1.62", "1.60..=1.63", "1.61"), "error: q: on 1.63 this fails: `rustup run 1.63 cargo check`",
         all_pass("r", "1.60")]),
    "a chosen package": Row("p q r", f"{FOUR} --package q", "q=60", "63 61 60", 0, [least("q", "1.61", "1.60..=1.63", "1.60")]),
    "steps": Row("p", "--version-range 1.60..=1.70 --version-step 3", "p<64", "69 63 66", 0,
                 [least("p", "1.66", "1.60..=1.70", "1.63")]),
    "outcomes that go up and down": Row("p", WIDE, "p=62 p=64 p=66 p=79", "80 68 62 65 64", 0,
                                        [least("p", "1.65", "1.56..=1.80", "1.64")]),
    "only the middle one fails": Row("p", FOUR, "p=61", "63 61 62", 0, [least("p", "1.62", "1.60..=1.63", "1.61")]),
    "an open range": Row("p=1.81.2 q", "--version-range ..", "p=81 q<83", "83 82 81 83 82", 0,
                         [least("p", "1.82", "..", "1.81"),
                          "warning: p: its rust-version is 1.81.2, but not all runs pass on 1.81",
                          least("q", "1.83", "..", "1.82")]),
    "targets, each by itself in old versions": Row(
        "p", "--version-range 1.62..=1.64 --target b --target a", "run_1.63_cargo_check_--target_b_--manifest-path_p/Cargo.toml",
        "64 63", 0, [least("p", "1.64", "1.62..=1.64", "1.63", " --target b")]),
    "each feature": Row("p:a,b", f"{FOUR} --each-feature",
                        "run_1.62_cargo_check_--manifest-path_p/Cargo.toml_--no-default-features_--features_b p=60 p=61",
                        "63 61 62", 0, [least("p", "1.63", "1.60..=1.63", "1.62", " --no-default-features --features b")]),
    "sets, of which the last comes first": Row(
        "p:a,b", f"{FOUR} --feature-powerset", "run_1.61_cargo_check_--manifest-path_p/Cargo.toml_--no-default-features_--features_a,b",
        "63 61 62", 0, [least("p", "1.62", "1.60..=1.63", "1.61", " --no-default-features --features a,b")]),
    "no set, and so no run": Row("p:a q:b", f"{FOUR} --each-feature --exclude-no-default-features --exclude-features a",
                                 "", "63 61 60", 0,
                                 ["info: running `rustup run 1.60 cargo check --no-default-features --features b` on q (1/4)",
                                  all_pass("q", "1.60")]),
    "nothing fails down to the rust-version": Row("p=1.61", FOUR, "", "63 62 61", 0,
                                                  ["info: running `rustup run 1.61 cargo check` on p (1/3)", all_pass("p", "1.61")]),
    "a rust-version that fails": Row("p=1.60.1", FOUR, "p<62", "63 61 62", 0,
                                     [least("p", "1.62", "1.60..=1.63", "1.61"),
                                      "warning: p: its rust-version is 1.60.1, but not all runs pass on 1.61"]),
    "the same, where warnings are denied": Row("p=1.60.1", FOUR, "p<62", "63 61 62", 1,
                                               [least("p", "1.62", "1.60..=1.63", "1.61"),
                                                "warning: p: its rust-version is 1.60.1, but not all runs pass on 1.61"], "deny"),
    "no rust-version, where warnings are denied": Row("p", FOUR, "p<62", "63 61 62", 0,
                                                      [least("p", "1.62", "1.60..=1.63", "1.61")], "deny"),
    "a rust-version between steps": Row("p=1.62", "--version-range 1.60..=1.69 --version-step 3", "p<66", "69 66 63", 0,
                                        [least("p", "1.66", "1.60..=1.69", "1.63"),
                                         "warning: p: its rust-version is 1.62, but not all runs pass on 1.63"]),
    "a rust-version above the range": Row("p=1.70 q", FOUR, "", "63 61 60", 0,
                                          ["warning: skipping p, rust-version (1.70) is not in specified range (1.60..=1.63)", "",
                                           "info: running `rustup run 1.63 cargo check` on q (4/4)", "",
                                           "info: running `rustup run 1.61 cargo check` on q (2/4)",
                                           "info: running `rustup run 1.60 cargo check` on q (1/4)", all_pass("q", "1.60")]),
    "a toolchain that is added": Row("p", FOUR, "p<62 run_1.62_cargo_--version", "63 61 62", 0,
                                     ["info: running `rustup toolchain add 1.62 --no-self-update`", "",
                                      "info: running `rustup run 1.62 cargo check` on p (3/4)",
                                      least("p", "1.62", "1.60..=1.63", "1.61")]),
    "a toolchain that can't be added, after a run failed": Row(
        "p", FOUR, "p<62 run_1.62_cargo_--version toolchain_add_1.62_--no-self-update", "63 61 62", 1,
        ["info: running `rustup toolchain add 1.62 --no-self-update`",
         "error: " + FAILED.format("{rustup} toolchain add 1.62 --no-self-update")]),
    "the same, after a package was searched": Row(
        "p=1.61 q", FOUR, "p=61 q=63 run_1.60_cargo_--version toolchain_add_1.60_--no-self-update r=63", "63 62 61 63", 1,
        ["error: q: on 1.63 this fails: `rustup run 1.63 cargo check`"]),
    "a toolchain of the second package that can't be added": Row(
        "p=1.61 q", FOUR, "p=61 run_1.60_cargo_--version toolchain_add_1.60_--no-self-update", "63 62 61 63 61 60", 1,
        ["info: running `rustup toolchain add 1.60 --no-self-update`", least("p", "1.62", "1.60..=1.63", "1.61"),
         "warning: p: its rust-version is 1.61, but not all runs pass on 1.61",
         "error: " + FAILED.format("{rustup} toolchain add 1.60 --no-self-update")]),
    "cleaning before versions": Row("p", f"{FOUR} --clean-per-version", "p=60", "63 61 60", 0,
                                    [least("p", "1.61", "1.60..=1.63", "1.60")]),
    "a cleaning before a version that fails": Row("p", f"{FOUR} --clean-per-version", "4:clean", "63 61", 1,
                                                  ["", "info: running `rustup run 1.63 cargo check` on p (4/4)",
                                                   "error: " + FAILED.format("{cargo} clean")]),
    "cleaning before runs": Row("p", f"{FOUR} --clean-per-run", "p=60", "63 61 60", 0,
                                [least("p", "1.61", "1.60..=1.63", "1.60")]),
    "a cleaning before a run that fails": Row("p", f"{FOUR} --clean-per-run", "4:clean", "63 61 62", 0,
                                              [least("p", "1.62", "1.60..=1.63", "1.61")]),
    "a cleaning before the first run that fails": Row("p", f"{FOUR} --clean-per-run", "clean_--package_p", "63", 1,
                                                      ["", "error: p: on 1.63 this fails: `rustup run 1.63 cargo check`"]),
    "manifests without dev-dependencies": Row(
        "p q", f"{FOUR} --no-dev-deps --verbose", "p<62 q=63", "63 61 62 63", 1,
        ["info: p: 1.62 is the least version of 1.60..=1.63 on which all runs pass; on 1.61 this fails:"
         " `{rustup} run 1.61 cargo check --manifest-path p/Cargo.toml`",
         "error: q: on 1.63 this fails: `{rustup} run 1.63 cargo check --manifest-path q/Cargo.toml`",
         "info: restoring {root}/p/Cargo.toml", "info: restoring {root}/q/Cargo.toml", "info: restoring {root}/Cargo.lock"]),
    "manifests without dev-dependencies, where a toolchain can't be added": Row(
        "p", f"{FOUR} --no-dev-deps", "p=61 run_1.62_cargo_--version toolchain_add_1.62_--no-self-update", "63 61 62", 1,
        ["error: " + FAILED.format("{rustup} toolchain add 1.62 --no-self-update")]),
    "log groups": Row("p", FOUR, "p<62 run_1.62_cargo_--version", "63 61 62", 0, [least("p", "1.62", "1.60..=1.63", "1.61")],
                      "github-actions"),
    "commands in full": Row("p", f"{FOUR} --verbose --clean-per-run", "p<62", "63 61 62", 0,
                            ["info: running `{cargo} clean --package p`",
                             "info: running `{rustup} run 1.62 cargo check --manifest-path p/Cargo.toml` (3/4)",
                             "info: p: 1.62 is the least version of 1.60..=1.63 on which all runs pass; on 1.61 this fails:"
                             " `{rustup} run 1.61 cargo check --manifest-path p/Cargo.toml`"]),
    "a lockfile that is made": Row("p", "--version-range 1.49..=1.52", "p=50", "52 50 51", 0,
                                   [least("p", "1.51", "1.49..=1.52", "1.50")]),
    "a lockfile that can't be made": Row("p", "--version-range 1.49..=1.52", "run_1.49_cargo_generate-lockfile", "52 50 49", 1,
                                         ["", "info: running `rustup run 1.50 cargo check` on p (2/4)",
                                          "error: " + FAILED.format("{rustup} run 1.49 cargo generate-lockfile")]),
    "the last run of a version fails": Row("p:a,b,c", "--version-range 1.60..=1.61 --each-feature",
                                           "run_1.60_cargo_check_--manifest-path_p/Cargo.toml_--no-default-features_--features_c",
                                           "61 60", 0, [least("p", "1.61", "1.60..=1.61", "1.60",
                                                              " --no-default-features --features c")]),
    "a run that is killed": Row("p", FOUR, "3:killed", "63 61 62", 0, [least("p", "1.62", "1.60..=1.63", "1.61")]),
    "an empty range": Row("p", "--version-range 1.61..=1.60", "", "", 1, ["error: specified version range `1.61..=1.60` is empty"]),
}

RUNS = re.compile(r"(\w)([<=])(\d+)")


def fails_of(text, plan):
    """What fails, by the text of a row."""
    lines, numbers = set(), {}
    for it in text.split():
        runs = RUNS.fullmatch(it)
        if runs:
            for rank, place in enumerate(plan.places):
                is_meant = place[0] < int(runs[3]) if runs[2] == "<" else place[0] == int(runs[3])
                if is_meant and plan.packages[place[2]]["name"] == runs[1]:
                    lines.add(asked_at(plan, rank))
        elif it[0].isdigit():
            number, _, what = it.partition(":")
            numbers[int(number)] = "kill -9 $$" if what == "killed" else "exit 101"
        else:
            lines.add(it.replace("_", " "))
    return Fails(lines, numbers)


PREPARED = re.compile(r"rustup (?:run 1\.(\d+) cargo --version|toolchain add 1\.(\d+) --no-self-update --target .*)")


def row_fault(program, folder, row):
    """What is wrong with a call of the table, if something is."""
    tools = Tools(small_workspace(row.packages, f"{folder}/w"), f"{folder}/tools")
    group = row.more if row.more == "github-actions" else None
    case = Case(program, tools, Call(uses_of(f"check {row.words}"), [], group, row.more == "deny"), False)
    _, ended = case.judge(fails_of(row.fails, case.plan))
    with open(f"{tools.folder}/calls", encoding="utf-8") as it:
        tried = [one[1] or one[2] for one in map(PREPARED.fullmatch, it.read().splitlines()) if one]
    names = {"rustup": tools.workspace["rustup"], "cargo": tools.workspace["cargo"], "root": tools.workspace["root"]}
    lines = [it.format(**names) for it in row.lines]
    for what, one, other in (("trials", row.tried.split(), tried), ("status", row.status, ended.returncode),
                             ("last lines", lines, ended.stderr.splitlines()[-len(lines):])):
        must(one == other, f"{what}: wanted\n{readable(one)}\nwas\n{readable(other)}")


# ---- Calls that end early, for another reason than a preparation that fails; and refused ones.

# What is done at the command of a number, the options, the command that can't be started then, and what was found before.
GONE = {
    "rustup is gone before a run": ({0: "rm @/rustup"}, "", "rustup run 1.63 cargo check --manifest-path p/Cargo.toml", []),
    "rustup is gone before a toolchain": ({1: "rm @/rustup"}, "", "rustup toolchain add 1.61 --no-self-update", []),
    "rustup is gone before a run, after one failed": (
        {1: "exit 101", 2: "rm @/rustup"}, "", "rustup run 1.60 cargo check --manifest-path q/Cargo.toml",
        ["error: p: on 1.60 this fails: `rustup run 1.60 cargo check`"]),
    "cargo is gone before a cleaning": ({2: "rm @/cargo"}, "--clean-per-run", "cargo clean --package p", []),
}


def gone_row_fault(program, folder, row):
    """What is wrong with a call in which a tool goes, if something is."""
    numbers, words, command, found = row
    packages, place = ("p q", "1.60..=1.60") if "q/" in command else ("p", "1.60..=1.63")
    asked = [FIND, "check", "--no-dev-deps", "--version-range", place, *words.split()]
    tools = Tools(small_workspace(packages, f"{folder}/w"), f"{folder}/tools")
    lines = gone_fault(program, tools, asked, numbers, command, "fails: |pass ", found)
    chosen = "info: cargo is chosen by CARGO_HACK_CARGO_SRC or CARGO, and rustup by CARGO_HACK_RUSTUP"
    must(lines[-2] == chosen, f"before the error it says {lines[-2]}")


# The arguments that a search excludes, in the order in which they are checked.
EXCLUDED = ["--partition 1/2", "--print-command-list", "--keep-going", "--workspace-behavior=cargo", "--rust-version",
            "--parallel 2"]


def refusals():
    """Arguments that are refused, with their errors: each that a search excludes, and any two of them."""
    ranged = "--version-range 1.60..=1.61"
    rows = {"check": "can only be used together with --version-range"}
    rows |= {f"check {it}": rows["check"] for it in EXCLUDED if it not in ("--rust-version", "--print-command-list")}
    for place, one in enumerate(EXCLUDED):
        error = f"may not be used together with {one.split()[0]}"
        clashes = [one] + [f"{one} {it}" for it in EXCLUDED[place + 1 :]] + [f"{it} {one}" for it in EXCLUDED[place + 1 :]]
        for it in clashes:
            # (a range and `--rust-version` exclude each other before)
            asked = it if "--rust-version" in it else f"{it} {ranged}"
            if asked.count("--print") + asked.count("--parallel") < 2:
                rows[f"check {asked}"] = error
    errors = {words: f"error: {FIND} {it}" for words, it in rows.items()}
    # All other rules come first.
    errors[f"check --parallel 0 --partition 1/2 {ranged}"] = "error: --parallel cannot be zero"
    errors[f"check --strength 0 --feature-powerset --keep-going {ranged}"] = "error: --strength cannot be zero"
    errors[f"check --print-command-list --parallel 2 {ranged}"] = \
        "error: --parallel may not be used together with --print-command-list"
    errors[f"check --rust-version {ranged}"] = "error: --version-range may not be used together with --rust-version"
    errors["check --partition 3/2"] = "error: bad or out-of-range partition: 3/2"
    errors[f"--restore {ranged}"] = "error: --restore may not be used together with other arguments"
    return {f"{FIND} {words}": it for words, it in errors.items()}


def help_fault(program, folder):
    tools = Tools(small_workspace("p", f"{folder}/w"), f"{folder}/tools")
    shown = tools.call(program, ["--help"], Fails(), {})[0].stdout
    must("--version-range" in shown and FIND not in shown, "it isn't that of cargo-hack")


# ---- Random calls.

DROPPED = ("--rust-version", "--workspace-behavior", "--keep-going", LISTED, "--version-range", "--version-step",
           "--clean-per-version")


def random_range(rng, stable):
    start = rng.choice([40, 45, 49, 50, 51, 56, 58, 59, 60, 61, 62, 63])
    end = start + rng.choice([0, 1, 2, 3, 5, 8, 13, 20, 24])
    forms = [f"1.{start}..=1.{end}"] * 5 + [f"1.{start}..1.{end}", f"1.{start}.3..=1.{end}", f"..=1.{end}", f"..=1.{end}"]
    if stable:
        forms += [f"1.{start}..", f"1.{max(start, stable - 6)}", ".."]
    return rng.choice(forms)


def random_call(rng, workspace):
    """Random arguments, which are those of a list but for its option."""
    uses, trailing = random_words(rng, workspace)
    uses = [it for it in uses if it.name not in DROPPED]
    more = [("--version-range", random_range(rng, workspace["stable"]))]
    more += [("--version-step", str(rng.choice([2, 2, 3, 5])))] * (rng.random() < 0.3)
    more += [("--clean-per-version", None)] * (rng.random() < 0.2)
    added = [Use(name, value, [name] if value is None else [name, value], [name]) for name, value in more]
    group = rng.choice([None, None, None, "none", "github-actions"])
    return Call(added + uses, trailing, group, rng.random() < 0.25)


def random_fails(rng, plan):
    """Which commands fail: runs below a version, on any versions, or commands by their number; and some toolchains, which are
    then added or can't be."""
    fails = Fails()
    if plan.causes:
        return fails
    style = rng.choice(["below", "below", "any", "any", "number"])
    for member in plan.packages:
        used = sorted({it[0] for it in plan.places if it[2] == member})
        least_passing = rng.choice(used + used[:1]) if used else 0
        for version in used:
            ranks = [rank for rank, it in enumerate(plan.places) if it[0] == version and it[2] == member]
            if version < least_passing if style == "below" else rng.random() < 0.4:
                some = rng.sample(ranks, min(len(ranks), rng.choice([1, 1, 2])))
                fails.lines |= {asked_at(plan, rank) for rank in some}
    if style == "number":
        fails = Fails((), [it for it in range(200) if rng.random() < 0.12])
    if rng.random() < 0.3:
        for version in plan.versions:
            if rng.random() < 0.4:
                fails.lines.add(f"run 1.{version} cargo --version")
                if rng.random() < 0.15:
                    fails.lines.add(f"toolchain add 1.{version} --no-self-update")
    return fails


def random_case(program, folder, rng, number):
    """A random call in a random workspace, whose plan isn't too large; and which commands fail."""
    while True:
        workspace = random_workspace(rng, f"{folder}/w", 3)
        if rng.random() < 0.85:
            for it in workspace["packages"]:
                own = [None, None, f"1.{rng.randint(40, 66)}", f"1.{rng.randint(56, 64)}.{rng.randint(0, 2)}"]
                it["rust_version"] = rng.choice(own)
        asked = random_call(rng, workspace)
        workspace["cargo"], workspace["rustup"] = f"{folder}/tools/cargo", f"{folder}/tools/rustup"
        plan = Plan(workspace, Asked(asked.uses, asked.trailing), "")
        counts = [0] if plan.causes else [len(it) for it in plan.runs.values()]
        if len(plan.places) <= 500 and max(counts, default=0) <= 9 and (not plan.causes or rng.random() < 0.2):
            case = Case(program, Tools(workspace, f"{folder}/tools"), asked, number % 3 == 0 or asked.denies)
            return case, random_fails(rng, case.plan)


def try_case(counts, case, fails, _):
    """Tries a random call, and counts what it did."""
    search, _ = case.judge(fails)
    if search is None:
        counts["refused"] += 1
        return
    found = list(search.found.values())
    for what, more in (("ended", search.end is not None), ("packages", len(found)),
                       ("trials", sum(map(len, search.tried.values()))), ("passed whole", sum(it[1] is None for it in found)),
                       ("failed at once", sum(it[0] is None for it in found))):
        counts[what] += more


# ---- All of them.


def main():
    tries = [(name, row_fault, row) for name, row in ROWS.items()] + [(name, gone_row_fault, row) for name, row in GONE.items()]
    tries += [(words, refusal_fault, words, error) for words, error in refusals().items()] + [("the help", help_fault)]
    counts = dict.fromkeys(("refused", "ended", "packages", "trials", "passed whole", "failed at once"), 0)
    return run_all(__doc__, tries, random_case, partial(try_case, counts), counts)


if __name__ == "__main__":
    sys.exit(main())
