#!/usr/bin/env python3
"""Calls the built cargo-hack with `--find-conflicts` over a script in place of cargo, and judges what it ran and what it
reports by the definitions alone, slowly: which sets may be chosen, which of them lie inside which, and how their runs ended.

usage: tests/conflict_search.py CARGO_HACK [--cases N] [--seed S]

There are calls whose reports are written here, calls that end early, calls that are refused, and N (80) random workspaces
with random arguments, where runs fail by the names that are on in them, by their number, or at random. Each command has to
be one of the powerset, none twice, with its usual lines. Whatever the outcomes, a conflict failed and each set inside it
lies inside one that passed, each set has a conflict inside or lies inside one that passed, and the runs are few. Where runs
fail by the names that are on, the conflicts are the least of all sets that fail, by looking at all of them. Each call is
made again with `--keep-going`, which changes nothing, and with `--most-runs`, which ends it.
The last line is `N passed, M failed`, and the status is 1 where one failed.
"""
import copy
import itertools
import re
import sys
from collections import namedtuple
from functools import partial

sys.dont_write_bytecode = True
from killed_calls import must, tree  # noqa: E402
from lists_by_definition import FORMS, LISTED, Asked, Plan, Rules, Set, choice_of, refusal, table_of  # noqa: E402
from random_workspace import random_words, random_workspace  # noqa: E402
from search_calls import (  # noqa: E402
    EDITS, Call, Called, Fails, Tools, asked_at, gone_fault, readable, refusal_fault, run_all, small_workspace, uses_of,
)

FIND, MOST = "--find-conflicts", "--most-runs"

# ---- The sets that may be chosen, by the definitions.

# How a report names a run with all features, which is their position too, behind those of the candidates; one without features;
# and a plain one.
ALL, NONE, DEFAULTS = "all features", "no feature at all", "the package as it is: it has no feature to choose"

# A set that may be chosen: how a report names it, its place in the order of a powerset, the names that are on in its run, the
# candidates that one of its own turns on, and all that are on. The last two are the same, but where several candidates
# enable the names of another one together, or where names have slashes.
Chosen = namedtuple("Chosen", "text order names rows on")


class Sets:
    """The sets of a package: those of its runs in a powerset."""

    def __init__(self, plan, member):
        package, runs = plan.packages[member], plan.runs[member]
        rules = Rules(plan.workspace, plan.asked, package)
        self.choice, self.texts = choice_of(plan.workspace, plan.asked, package, rules)
        self.alone = [place for place in range(len(self.texts)) if self.choice.is_exclusive((place,))]
        self.turned = {it: frozenset(other for other in self.alone if self.turns_on(it, other)) for it in self.alone}
        self.positions = len(self.alone) + ("all" in runs)
        self.chosen = [self.set_of(run) for run in runs]
        self.is_exact = all(it.rows == it.on for it in self.chosen)

    def reaches(self, place, group):
        return any(not self.choice.reached[name].isdisjoint(group) for name in self.choice.candidates[place])

    def turns_on(self, place, other):
        """A candidate turns another one on: it enables each of its names, and reaches each group of which only one name may
        be on that the other reaches."""
        groups = [it for it in self.choice.exclusive if self.reaches(other, it)]
        return self.choice.settings((place,))[other] and all(self.reaches(place, it) for it in groups)

    def set_of(self, run):
        settings = self.choice.settings_of(run)
        on = frozenset(place for place in self.alone if settings[place])
        if isinstance(run, Set):
            names = self.choice.names(run.places)
            rows = frozenset().union(*(self.turned[place] for place in run.places))
            return Chosen(",".join(run.texts), sum(2**it for it in run.places), self.enabled(names), rows, on)
        if run == "all":
            return Chosen(ALL, 2 ** len(self.texts), self.enabled(self.choice.features), on | {ALL}, on | {ALL})
        return Chosen(DEFAULTS if run == "plain" else NONE, 0, frozenset(), on, on)

    def enabled(self, names):
        return frozenset().union(*(self.choice.enabled[name] for name in names))

    def is_plain(self):
        """No candidate enables two of a group of which only one name may be on, but such as enable one another."""
        return all(
            one in self.turned[other] or other in self.turned[one]
            for group in self.choice.exclusive
            for turned in self.turned.values()
            for one, other in itertools.combinations([it for it in turned if self.reaches(it, group)], 2)
        )


# A package in a slot: how a report names it, its sets, and the places of their runs in the plan.
Spot = namedtuple("Spot", "head sets ranks")


def spots_of(plan):
    """The packages of a plan for each slot, in the order in which they are searched."""
    spots, sets = [], {member: Sets(plan, member) for member in plan.packages}
    for slot in [] if plan.causes else plan.slots(0):
        for member, package in sorted(plan.packages.items()):
            ranks = [rank for rank, it in enumerate(plan.places) if it[1:3] == (slot, member)]
            head = package["name"] + (f" for {slot[0]}" if len(plan.slots(0)) > 1 else "")
            spots.append(Spot(head, sets[member], ranks))
    return spots


def without_sizes(workspace):
    """The workspace, in whose tables of rules no number counts: a search asks for sets of any size."""
    workspace = copy.deepcopy(workspace)
    for held in [workspace, *workspace["packages"]]:
        table = table_of(held)
        for key in ("depth", "strength"):
            if isinstance(table, dict) and key in table and FORMS[key](table[key]):
                del table[key]
    return workspace


# ---- What a call ran, and what it reports.

# What is told of a package: the texts of its conflicts, and of a set that failed and wasn't made smaller to one, how many
# greatest sets passed, their texts under `--verbose`, and whether all sets are decided.
Told = namedtuple("Told", "conflicts unfinished count passing is_whole")

REPORT = (
    "(?:error: in {0} these features fail together, and no part of them that may be chosen fails:\n"
    "(?P<conflicts>(?:    .+\n)+))?"
    "(?:error: in {0} these features fail together, and not all parts of them were tried:\n(?P<unfinished>    .+\n))?"
    "(?:info: in {0} (?:each (?P<other>other )?allowed set lies inside (?:one of (?P<count>\\d+) sets|(?P<one>the one set)) that passed"
    "|(?P<so_far>1(?= set )|\\d+(?= sets )) sets? passed so far)(?P<passing>:\n(?:    .+\n)+)?(?(passing)|\n))?"
    "(?P<more>warning: in {0} the search isn't complete, since --most-runs ended it: other sets may fail\n)?"
)


def texts_in(lines):
    """The sets of a list of them, one a line."""
    return [it[4:] for it in (lines or "").splitlines() if it.startswith("    ")]


def report_of(spots, text, is_verbose):
    """What a report tells of each package in each slot; it may have nothing else."""
    report = []
    for spot in spots:
        found = re.compile(REPORT.format(re.escape(spot.head))).match(text)
        text = text[found.end():]
        conflicts = texts_in(found["conflicts"])
        must(found["count"] != "1", f"one of 1 sets, in {spot.head}")
        inside = "1" if found["one"] else found["count"]
        count = inside or found["so_far"]
        must(count is None or bool(found["so_far"]) == bool(found["more"]), f"so far, in {spot.head}")
        must(not inside or bool(found["other"]) == bool(conflicts), f"each other one, in {spot.head}")
        must(count is None or bool(found["passing"]) == is_verbose, f"which sets passed, in {spot.head}")
        passing = texts_in(found["passing"]) if found["passing"] else None
        unfinished = texts_in(found["unfinished"])
        report.append(Told(conflicts, unfinished, None if count is None else int(count), passing, not found["more"]))
    must(text == "", f"this is in the report:\n{text}")
    return report


def runs_in(plan, calls, fails):
    """The places of the plan that were run, in order, and whether each passed."""
    # (two sets have one command where two candidates have one name)
    ranks = {plan.own_line(rank).rstrip("\n"): rank for rank in reversed(range(len(plan.places)))}
    lines = [line for line in calls if line in ranks]
    must(len(set(lines)) == len(lines), "a set is built twice")
    wanted = [line for it in lines for line in plan.texts[ranks[it]].splitlines()]
    must(calls == wanted, f"not all of these are runs of the powerset:\n{readable(calls)}")
    passed = [not fails.has(number, line.split(" ", 1)[1]) for number, line in enumerate(calls) if line in ranks]
    return [(ranks[line], it) for line, it in zip(lines, passed)]


def lines_of(case, runs):
    """The usual lines of these runs: on standard error, and on standard output."""
    plan, err, out = case.plan, "", ""
    is_grouped, is_verbose = case.call.group == "github-actions", plan.asked.has("--verbose")

    def shown(words):
        if is_verbose:
            return f"running `{plan.workspace['cargo']} {words}`"
        return f"running `cargo {re.sub(' --manifest-path [^ ]+', '', words)}`"

    for number, (rank, _) in enumerate(runs, 1):
        err += "\n" if number > 1 and not is_grouped else ""
        for cleaning in plan.texts[rank].splitlines()[:-1] if is_verbose else []:
            err += f"info: {shown(cleaning.split(' ', 1)[1])}\n"
        name = "" if is_verbose else f" on {plan.packages[plan.places[rank][2]]['name']}"
        text = f"{shown(asked_at(plan, rank))}{name} ({number})"
        out += f"::group::{text}\n::endgroup::\n" if is_grouped else ""
        err += "" if is_grouped else f"info: {text}\n"
    return err, out


# ---- Judging.


def inside(chosen, others):
    """The set lies inside one of the others."""
    return any(chosen.rows <= it.on for it in others)


class Judged:
    """What a search ran and tells of a package in a slot; it is wrong where something doesn't follow from the definitions."""

    def __init__(self, spot, told, runs):
        self.spot, self.told, self.sets = spot, told, spot.sets
        self.built = [(spot.sets.chosen[spot.ranks.index(rank)], passed) for rank, passed in runs if rank in spot.ranks]
        self.passed = [it for it, passed in self.built if passed]
        self.failed = [it for it, passed in self.built if not passed]
        self.greatest = [it for it in self.passed if not any(it.rows < other.rows for other in self.passed)]
        self.conflicts, self.unfinished = self.named(told.conflicts), self.named(told.unfinished)
        for look in (self.judge_conflicts, self.judge_unfinished, self.judge_passing, self.judge_sets, self.judge_runs):
            look()

    def must(self, holds, found):
        must(holds, f"in {self.spot.head}: {found}")

    def named(self, texts):
        """The sets with these texts."""
        known = {it.text: it for it in reversed(self.sets.chosen)}
        self.must(known.keys() >= set(texts), f"not all of these are sets: {texts}")
        found = [known[it] for it in texts]
        self.must(found == sorted(set(found), key=lambda it: it.order), f"these aren't in order: {texts}")
        return found

    def judge_conflicts(self):
        for it in self.conflicts:
            self.must(it in self.failed, f"{it.text} didn't fail")
            for other in self.sets.chosen:
                is_part = other.rows < it.rows
                self.must(not is_part or inside(other, self.passed), f"{other.text}, a part of {it.text}, may fail")
            self.must(not any(it.on <= other.rows for other in self.conflicts if other != it), f"{it.text} is in another one")

    def judge_unfinished(self):
        """Each set that failed has a conflict inside, or else that which was being made smaller."""
        for it in self.unfinished:
            self.must(it in self.failed and not self.told.is_whole, f"{it.text} didn't fail, or the search is complete")
            self.must(not any(other.on <= it.rows for other in self.conflicts), f"{it.text} has a conflict inside")
            parts = [other for other in self.sets.chosen if other.on < it.on and not inside(other, self.passed)]
            self.must(parts or not self.sets.is_exact, f"each part of {it.text} passes")
        blamed = self.conflicts + self.unfinished
        missed = [it.text for it in self.failed if not any(other.rows <= it.on for other in blamed)]
        self.must(not missed, f"these failed, and nothing inside is told: {missed}")

    def judge_passing(self):
        self.must((self.told.count is None) == (not self.passed), "sets passed, or none did")
        if self.sets.is_exact:
            self.must(self.told.count in (None, len(self.greatest)), f"{len(self.greatest)} greatest sets passed")
        if self.told.passing is not None:
            told = self.named(self.told.passing)
            self.must(len(told) == self.told.count, "another number of sets passed")
            self.must(set(told) <= set(self.passed), "one of those that passed didn't")
            self.must(all(inside(it, told) for it in self.passed), "one that passed lies inside none of them")
            self.must(not any(one.on <= other.rows for one, other in itertools.permutations(told, 2)), "one is in another one")

    def judge_sets(self):
        """Each set is decided, where the search is complete, and else not all are."""
        left = [it.text for it in self.sets.chosen if not inside(it, self.passed) and not self.is_blamed(it)]
        self.must(not (left and self.told.is_whole), f"these aren't decided: {left}")
        self.must(left or self.told.is_whole or not self.sets.is_exact, "all are decided")

    def is_blamed(self, chosen):
        return any(it.rows <= chosen.rows for it in self.conflicts)

    def judge_runs(self):
        """No run is a foregone conclusion, and they are few."""
        for (one, passed), (later, _) in itertools.combinations(self.built, 2):
            known = later.on <= one.rows if passed else one.on <= later.rows
            self.must(not known, f"{later.text} is built, though {one.text} says how it ends")
        blamed = len(self.conflicts) + (not self.told.is_whole)
        most = len(self.greatest) + blamed * (2 * self.sets.positions + 1)
        self.must(not self.sets.is_plain() or len(self.built) <= most, f"{len(self.built)} runs are more than {most}")

    def judge_least(self, has_failed):
        """Where sets fail by what is on in them: the conflicts are the least ones that fail, and the greatest ones that pass
        were all built."""
        chosen = [(it, has_failed(it)) for it in self.sets.chosen]
        least = {it.rows for it, fails in chosen if fails and not any(one and other.rows < it.rows for other, one in chosen)}
        self.must({it.rows for it in self.conflicts} == least, f"the conflicts are {[sorted(map(str, it)) for it in least]}")
        missed = [it.text for it, fails in chosen if not fails and not inside(it, self.passed)]
        self.must(not missed, f"these pass, and lie inside none that was built: {missed}")


class Case(Called):
    """A call, and its plan."""

    def __init__(self, program, tools, call):
        super().__init__(program, tools, call)
        self.plan = Plan(without_sizes(tools.workspace), Asked(call.uses, call.trailing), "")
        self.spots = [] if self.plan.causes else spots_of(self.plan)

    def is_clear(self):
        """Each command says of which package and slot it is, and what is on."""
        known, told = {}, {}
        for spot in self.spots:
            for rank, it in zip(spot.ranks, spot.sets.chosen):
                if known.setdefault(self.plan.own_line(rank), (spot.head, it.rows)) != (spot.head, it.rows):
                    return False
                if told.setdefault((spot.head, it.text), it.rows) != it.rows:
                    return False
        return True

    def judge(self, fails, most=None):
        """What a search ran and tells of each package in each slot, and how it ended."""
        files, root = tree(self.tools.workspace["root"]), self.tools.workspace["root"]
        listed, _ = self.ask([LISTED], Fails())
        ended, calls = self.ask([FIND] + ([MOST, str(most)] if most else []), fails)
        must(tree(root) == files, "the files aren't what they were")
        if self.plan.causes:
            fault = refusal(self.plan.causes, ended)
            must(not fault, fault)
            return None, ended, calls
        runs = runs_in(self.plan, calls, fails)
        must(most is None or len(runs) <= most, f"{len(runs)} runs are too many")
        places = [next(place for place, spot in enumerate(self.spots) if rank in spot.ranks) for rank, _ in runs]
        must(places == sorted(places), "the packages aren't searched one after another")
        err, out = lines_of(self, runs)
        front, rest = EDITS.sub("", listed.stderr) + err, EDITS.sub("", ended.stderr)
        must(rest.startswith(front), f"standard error is\n{rest}and not\n{front}")
        must(ended.stdout == out, f"standard output is\n{ended.stdout}and not\n{out}")
        report = report_of(self.spots, rest[len(front):], self.plan.asked.has("--verbose"))
        judged = [Judged(spot, told, runs) for spot, told in zip(self.spots, report)]
        is_cut = not all(it.told.is_whole for it in judged)
        must(not is_cut or most and (len(runs) == most or not self.is_exact()), "it isn't complete")
        has_failed = any(it.failed for it in judged) or listed.returncode == 1 or is_cut and self.call.denies
        must(ended.returncode == int(has_failed), f"its status is {ended.returncode}")
        return judged, ended, calls

    def is_exact(self):
        return all(it.sets.is_exact for it in self.spots)

    def judge_more(self, fails, judged, ended, calls, most):
        """The same call with `--keep-going`, and with so many runs at most."""
        again, same = self.ask([FIND, "--keep-going"], fails)
        must((again.returncode, again.stdout, again.stderr, same) == (ended.returncode, ended.stdout, ended.stderr, calls),
             f"with --keep-going status {again.returncode}, {again.stdout}{again.stderr}{readable(same)}")
        less, cut, front = self.judge(fails, most)
        must(front == calls[:len(front)], f"with {MOST} {most} other commands are run:\n{readable(front)}")
        for one, other in zip(less, judged):
            must(set(one.conflicts) <= set(other.conflicts), f"with {MOST} {most} in {one.spot.head} are other conflicts")
        is_whole = most >= len(runs_in(self.plan, calls, fails))
        must(not is_whole or (cut.stderr, cut.returncode) == (ended.stderr, ended.returncode), f"{MOST} {most}: {cut.stderr}")
        return sum(not it.told.is_whole for it in less)


# ---- Calls whose reports are written here.


class Together(Fails):
    """Runs fail that have all of these features on. None of them enables another."""

    def __init__(self, conflicts):
        super().__init__()
        self.conflicts = [it.split("+") for it in conflicts]

    def cases(self):
        text = 'names=",${*##* --features },"; '
        for names in self.conflicts:
            text += "".join(f'case "$names" in *,{it},*) ' for it in names) + "exit 101" + ";; esac" * len(names) + "; "
        return [f"*) {text};;"]

    def has(self, number, line):
        on = line.rpartition(" --features ")[2].split(",")
        return any(set(it) <= set(on) for it in self.conflicts)


def with_features(workspace):
    """The workspace, with what the names of features in its text say: `a>b+c` enables two others, and `?d` is an optional
    dependency, which newer cargos print as a feature too."""
    for it in workspace["packages"]:
        names = list(it["manifest"])
        features = [name.partition(">") for name in names if name[0] != "?"]
        it["manifest"] = {name: [one for one in values.split("+") if one] for name, _, values in features}
        optional = [name[1:] for name in names if name[0] == "?"]
        it["dependencies"] = [{"name": name, "optional": True, "rename": None} for name in optional]
        it["record"] = {**it["manifest"], **{name: ["dep:" + name] for name in optional}}
    return workspace


def fails_of(text, case):
    """What fails, by the text of a row: `p:a+b` are the runs of the package in which both are on, `p:` all of its runs, and
    `p@x:a` those for the target x. A word with `_` is a command, and a number that of one, from 0, and what it does."""
    fails = Fails()
    for it in text.split():
        number, _, what = it.partition("=")
        if number.isdigit():
            fails.numbers[int(number)] = {"killed": "kill -9 $$", "fails": "exit 101"}[what]
        elif "_" in it:
            fails.lines.add(it.replace("_", " "))
        else:
            which, _, names = it.partition(":")
            names = {name for name in names.split("+") if name}
            for spot in case.spots:
                if spot.head in (which.replace("@", " for "), *(f"{which} for {one}" for one in case.plan.asked.targets)):
                    fails.lines |= {asked_at(case.plan, rank) for rank, one in zip(spot.ranks, spot.sets.chosen)
                                    if names <= one.names}
    return fails


# The packages, the arguments behind those that all have, what fails, how many runs there are at most, the status, the
# report, and more: `deny`, or the kind of log groups.
Row = namedtuple("Row", "packages words fails most status report more", defaults=("",))

TOGETHER = "error: in {} these features fail together, and no part of them that may be chosen fails:"
CUT = "warning: in {} the search isn't complete, since --most-runs ended it: other sets may fail"


def fail(head, *sets):
    return [TOGETHER.format(head), *(f"    {it}" for it in sets)]


def left(head, unfinished):
    return [f"error: in {head} these features fail together, and not all parts of them were tried:", f"    {unfinished}"]


def others(head, count, *sets):
    inside = "the one set" if count == 1 else f"one of {count} sets"
    return [f"info: in {head} each other allowed set lies inside {inside} that passed" + ":" * bool(sets),
            *(f"    {it}" for it in sets)]


def each(head, count=1, *sets):
    return [it.replace("each other", "each") for it in others(head, count, *sets)]


def so_far(head, count, *sets):
    return [f"info: in {head} {count} set{'s' * (count > 1)} passed so far" + ":" * bool(sets), *(f"    {it}" for it in sets)]


ROWS = {
    "nothing fails": Row("p:a,b,c", "", "", 1, 0, each("p")),
    "nothing fails, and which set passed": Row("p:a,b,c", "--verbose", "", 1, 0, each("p", 1, "a,b,c")),
    "no feature": Row("p", "--verbose", "", 1, 0, each("p", 1, DEFAULTS)),
    "no set that is allowed, and so a plain run": Row(
        "p:a,x,y", "--verbose --include-features a --at-least-one-of x,y", "", 1, 0, each("p", 1, DEFAULTS)),
    "no set of the included features, and the plain run fails": Row(
        "p:a,b", "--include-features a,b --group-features a,b --mutually-exclusive-features a,b", "p:", 1, 1,
        fail("p", DEFAULTS)),
    "a group that excludes itself, and so a plain run": Row(
        "p", "--verbose --group-features a,b --mutually-exclusive-features a,b", "", 1, 0,
        each("p", 1, DEFAULTS)),
    "no feature, and it fails": Row("p", "", "p:", 1, 1, fail("p", DEFAULTS)),
    "all fail": Row("p:a,b", "", "p:", 2, 1, fail("p", NONE)),
    "one of three": Row("p:a,b,c", "--verbose", "p:b", 8, 1, fail("p", "b") + others("p", 1, "a,c")),
    "each of three": Row("p:a,b,c", "--verbose", "p:a p:b p:c", 22, 1,
                         fail("p", "a", "b", "c") + others("p", 1, NONE)),
    "two of three": Row("p:a,b,c", "--verbose", "p:a+c", 9, 1, fail("p", "a,c") + others("p", 2, "a,b", "b,c")),
    "all three": Row("p:a,b,c", "--verbose", "p:a+b+c", 10, 1, fail("p", "a,b,c") + others("p", 3, "a,b", "a,c", "b,c")),
    "one, and two others": Row("p:a,b,c", "--verbose", "p:b p:a+c", 16, 1, fail("p", "b", "a,c") + others("p", 2, "a", "c")),
    "two pairs with one in common": Row("p:a,b,c,d", "--verbose", "p:a+d p:c+d", 20, 1,
                                        fail("p", "a,d", "c,d") + others("p", 2, "a,b,c", "b,d")),
    "a feature that enables another": Row("p:a,b>a,c", "--verbose", "p:a+c", 9, 1, fail("p", "a,c") + others("p", 2, "b", "c")),
    "one that enables a bad one": Row("p:a,b>a,c", "--verbose", "p:a", 8, 1, fail("p", "a") + others("p", 1, "c")),
    "several packages": Row("p q:a,b r:a,b", "", "q:a+b", 9, 1,
                            each("p") + fail("q", "a,b") + others("q", 2) + each("r")),
    "a chosen package": Row("p q:a,b", "--package p", "q:a+b", 1, 0, each("p")),
    "targets": Row("p:a,b q", "--target y --target x", "p:a+b", 6, 1, fail("p", "a,b") + others("p", 2) + each("q")),
    "targets, each by itself in old versions": Row(
        "p:a,b q", "--target y --target x", "p@y:a+b", 9, 1,
        each("p for x") + each("q for x") + fail("p for y", "a,b") + others("p for y", 2) + each("q for y"), "old"),
    "groups that exclude": Row("p:a,b,c", "--mutually-exclusive-features a,b --verbose", "p:a+c", 9, 1,
                               fail("p", "a,c") + others("p", 2, "a", "b,c")),
    "groups that exclude, and nothing else fails": Row("p:a,b,c", "--mutually-exclusive-features a,b --verbose", "p:a+b", 2, 0,
                                                       each("p", 2, "a,c", "b,c")),
    "one of two at least": Row("p:a,b,c", "--at-least-one-of a,b --verbose", "p:a p:c", 16, 1,
                               fail("p", "a", "b,c") + others("p", 1, "b")),
    "one of two at least, and all fail": Row("p:a,b", "--at-least-one-of a,b", "p:", 4, 1, fail("p", "a", "b")),
    "features in a group": Row("p:a,b,c", "--group-features a,c --verbose", "p:a+b", 9, 1,
                               fail("p", "b,a,c") + others("p", 2, "b", "a,c")),
    "excluded features": Row("p:a,b,c", "--exclude-features b --verbose", "p:b p:a+c", 8, 1,
                             fail("p", "a,c") + others("p", 2, "a", "c")),
    "no run without features": Row("p:a,b", "--exclude-no-default-features --verbose", "p:a", 6, 1,
                                   fail("p", "a") + others("p", 1, "b")),
    "all features": Row("p:a,?d", "--verbose", "p:d", 6, 1, fail("p", ALL) + others("p", 1, "a")),
    "all features, and nothing fails": Row("p:a,?d", "--verbose", "", 1, 0, each("p", 1, ALL)),
    "all features are excluded": Row("p:a,?d", "--verbose --exclude-all-features", "p:d", 1, 0, each("p", 1, "a")),
    "a dependency": Row("p:a,?d", "--verbose --optional-deps", "p:d", 6, 1, fail("p", "d") + others("p", 1, "a")),
    "a group that two features enable together": Row("p:a,b,c>a,d>b", "--group-features a,b --verbose", "p:a+b", 20, 1,
                                                     fail("p", "c,d", "a,b") + others("p", 2, "c", "d")),
    "a name with a slash": Row("p:a>d/f,b,?d", "--include-features a,b,d/f --mutually-exclusive-features d/f,b --verbose",
                               "p:a+b", 10, 1, fail("p", "a,b") + others("p", 2, "a", "b")),
    "features that are on always": Row("p:a,b,c", "--features b --verbose", "p:a+c", 7, 1,
                                       fail("p", "a,c") + others("p", 2, "a", "c")),
    "nothing passed so far": Row("p:a,b", f"{MOST} 1", "p:a+b", 1, 1, left("p", "a,b") + [CUT.format("p")]),
    "some passed so far": Row("p:a,b", f"{MOST} 2 --verbose", "p:a+b", 2, 1,
                              left("p", "a,b") + so_far("p", 1, NONE) + [CUT.format("p")]),
    "a conflict, and a set that isn't made smaller": Row(
        "p:a,b,c", f"{MOST} 6", "p:a p:b", 6, 1, fail("p", "b") + left("p", "a,c") + so_far("p", 1) + [CUT.format("p")]),
    "a conflict so far": Row("p:a,b q:a", f"{MOST} 4", "p:a+b", 4, 1, fail("p", "a,b") + others("p", 2) + [CUT.format("q")]),
    "as many runs as it takes": Row("p:a,b q:a", f"{MOST} 5", "p:a+b", 5, 1, fail("p", "a,b") + others("p", 2) + each("q")),
    "warnings are denied": Row("p:a,b", f"{MOST} 1", "", 1, 0, each("p"), "deny"),
    "warnings are denied, and there is one": Row("p:a q", f"{MOST} 1", "", 1, 1, each("p") + [CUT.format("q")], "deny"),
    "a warning": Row("p:a q", f"{MOST} 1", "", 1, 0, each("p") + [CUT.format("q")]),
    "log groups": Row("p:a,b", "", "p:a+b", 4, 1, fail("p", "a,b") + others("p", 2), "github-actions"),
    "cleaning before runs": Row("p:a,b", "--clean-per-run --verbose", "p:a+b", 4, 1,
                                fail("p", "a,b") + others("p", 2, "a", "b")),
    "manifests without dev-dependencies": Row("p:a,b", "--no-dev-deps", "p:a+b", 4, 1, fail("p", "a,b") + others("p", 2)),
    "a run that is killed": Row("p:a,b", "", "0=killed", 4, 1, fail("p", "a,b") + others("p", 2)),
    "greater sets that pass": Row("p:a,b,c", "--verbose", "0=fails 1=fails", 2, 1, fail("p", NONE)),
}

# Runs fail with these of twenty features on. There are at most so many runs, and so many greatest sets pass.
TWENTY = "p:" + ",".join(f"f{it:02}" for it in range(1, 21))
FEW = [
    ("f03+f17", 15, 2), ("f11+f12", 15, 2), ("f01+f02", 15, 2), ("f01+f20", 15, 2), ("f04+f11", 18, 2),
    ("f01+f02 f03+f04 f05+f06", 39, 8), ("f02+f05 f08+f13 f11+f19", 45, 8),
]


def row_fault(program, folder, row):
    """What is wrong with a call of the table, if something is."""
    workspace = with_features(small_workspace(row.packages, f"{folder}/w"))
    workspace["minor"] = 60 if row.more == "old" else 90
    words, _, most = row.words.partition(MOST)
    most, _, more = most.strip().partition(" ")
    group = row.more if row.more == "github-actions" else None
    call = Call(uses_of(f"check --feature-powerset {words}{more}"), [], group, row.more == "deny")
    case = Case(program, Tools(workspace, f"{folder}/tools"), call)
    fails = fails_of(row.fails, case)
    _, ended, calls = case.judge(fails, int(most) if most else None)
    must(ended.returncode == row.status, f"its status is {ended.returncode}")
    told = EDITS.sub("", ended.stderr).splitlines()[-len(row.report):]
    must(told == row.report, f"wanted\n{readable(row.report)}\nwas\n{ended.stderr}")
    runs = runs_in(case.plan, calls, fails)
    must(len(runs) <= row.most, f"{len(runs)} runs are more than {row.most}")
    if not most:
        case.judge_more(fails, *case.judge(fails), max(1, len(runs) - 1))


def few_fault(program, folder, row):
    """What is wrong with a call over twenty features, if something is."""
    conflicts, most, passing = row
    tools = Tools(small_workspace(TWENTY, f"{folder}/w"), f"{folder}/tools")
    fails = Together(conflicts.split())
    ended, calls = tools.call(program, ["check", "--feature-powerset", FIND], fails, {})
    sets = sorted((it.split("+") for it in conflicts.split()), key=lambda it: it[::-1])
    wanted = fail("p", *(",".join(it) for it in sets)) + others("p", passing)
    must(ended.stderr.splitlines()[-len(wanted):] == wanted and ended.returncode == 1, ended.stderr)
    must(len(calls) <= most, f"{len(calls)} runs are more than {most}")
    for line in calls:
        on = line.rpartition(" --features ")[2].split(",")
        must(fails.has(0, line) == any(set(it) <= set(on) for it in sets), line)


# ---- Calls that end early, and refused ones.

# The numbers of the commands that fail, from 0, and of that behind which cargo is gone; more arguments, and the command that
# can't be started then.
GONE = {
    "cargo is gone before the second run": ([0], 0, "", "check --manifest-path p/Cargo.toml --no-default-features"),
    "cargo is gone while a conflict is made smaller": (
        [0], 1, "", "check --manifest-path p/Cargo.toml --no-default-features --features b"),
    "cargo is gone before the second package": (
        [0], 3, "", "check --manifest-path q/Cargo.toml --no-default-features --features a"),
    "cargo is gone before a cleaning": ([1], 1, "--clean-per-run", "clean --package p"),
}


def gone_row_fault(program, folder, row):
    """What is wrong with a call in which cargo goes, if something is."""
    failing, last, words, command = row
    numbers = dict.fromkeys(failing, "exit 101")
    numbers[last] = f"rm @/cargo; {numbers.get(last, ':')}"
    asked = ["check", "--feature-powerset", FIND, "--no-dev-deps", *words.split()]
    tools = Tools(small_workspace("p:a,b q:a", f"{folder}/w"), f"{folder}/tools")
    gone_fault(program, tools, asked, numbers, f"cargo {command}", "allowed set|so far|fail together")


# The arguments that a search excludes, in the order in which they are checked.
EXCLUDED = ["--depth 2", "--strength 2", "--partition 1/2", LISTED, "--version-range 1.60..", "--rust-version", "--parallel 2"]
POWERSET = "check --feature-powerset"


def refusals():
    """Arguments that are refused, with their errors: each that a search excludes, and any two of them."""
    rows = {}
    for place, one in enumerate(EXCLUDED):
        rows[f"{POWERSET} {FIND} {one}"] = f"{FIND} may not be used together with {one.split()[0]}"
        for it in EXCLUDED[place + 1:]:
            error = rows[f"{POWERSET} {FIND} {one}"]
            # (these exclude each other before)
            if {one, it} == {LISTED, "--parallel 2"}:
                error = f"--parallel may not be used together with {LISTED}"
            if {one, it} == {"--version-range 1.60..", "--rust-version"}:
                error = "--version-range may not be used together with --rust-version"
            rows |= {f"{POWERSET} {FIND} {one} {it}": error, f"{POWERSET} {it} {one} {FIND}": error}
    alone = f"{FIND} can only be used together with --feature-powerset"
    rows |= {f"check {FIND}{it}": alone for it in ("", " --each-feature", f" {MOST} x", " --parallel 2", " --all-features")}
    beside = f"{MOST} can only be used together with {FIND}"
    rows |= {f"check {it}": beside for it in (f"{MOST} 1", f"{MOST} x --feature-powerset", f"--each-feature {MOST} 0")}
    rows |= {f"{POWERSET} {FIND} {MOST}={it}": f"invalid number `{it}`" for it in ("x", "", "-1", "1.5", str(2**64))}
    rows |= {f"{POWERSET} {FIND} {MOST} {it}": f"{MOST} cannot be zero" for it in ("0", "+0", "000")}
    rows[f"{POWERSET} {FIND} {MOST} 0 --depth 2"] = f"{FIND} may not be used together with --depth"
    # All other rules come first.
    rows[f"check {FIND} --depth 2"] = "--depth can only be used together with --feature-powerset"
    rows[f"{POWERSET} {FIND} --strength 0"] = "--strength cannot be zero"
    rows[f"--restore {FIND}"] = "--restore may not be used together with other arguments"
    # A search for a version excludes one for conflicts.
    search = "check --find-rust-version"
    error = f"--find-rust-version may not be used together with {FIND}"
    rows |= {f"{search} --rust-version {FIND}": error, f"{search} --version-range 1.60.. {FIND} --parallel 2": error}
    rows[f"{search} {FIND} --feature-powerset"] = "--find-rust-version can only be used together with --version-range"
    rows[f"{search} {FIND} --rust-version --workspace-behavior=cargo"] = \
        "--find-rust-version may not be used together with --workspace-behavior=cargo"
    return {words: f"error: {it}" for words, it in rows.items()}


# ---- Random calls.

DROPPED = (*(it.split()[0] for it in EXCLUDED), "--version-step", "--clean-per-version", "--keep-going")


def random_call(rng, workspace):
    """Random arguments, which are those of a list of a powerset but for its option."""
    while True:
        uses, trailing = random_words(rng, workspace)
        if any(it.name == "--feature-powerset" for it in uses):
            break
    uses = [it for it in uses if it.name not in DROPPED]
    group = rng.choice([None, None, None, "none", "github-actions"])
    return Call(uses, trailing, group, rng.random() < 0.25)


def wide_case(rng, root):
    """A workspace whose packages have more features, some of which enable others, and a call with groups of them."""
    names = "abcdefg"[:rng.randint(4, 7)]

    def some(low, high):
        return rng.sample(names, rng.randint(low, high))

    def package(name):
        features = [f"{it}>{'+'.join(some(1, 2))}" if rng.random() < 0.3 else it for it in names]
        return f"{name}:{','.join(features + ['?x'] * (rng.random() < 0.2))}"

    workspace = with_features(small_workspace(" ".join(package(it) for it in "pq"[:rng.choice([1, 1, 2])]), root))
    workspace["minor"] = rng.choice([90, 90, 60])
    words = ["check --feature-powerset"]
    for option, likelihood in (("--mutually-exclusive-features", 0.4), ("--at-least-one-of", 0.3), ("--group-features", 0.4)):
        words += [f"{option} {','.join(some(2, 3))}" for _ in range(rng.choice([1, 1, 2]) if rng.random() < likelihood else 0)]
    free = [it for it in names if it not in ",".join(words[1:])]
    if free and rng.random() < 0.3:
        words.append(f"{rng.choice(['--exclude-features', '--features'])} {rng.choice(free)}")
    for option, likelihood in (("--exclude-no-default-features", 0.2), ("--exclude-all-features", 0.1), ("--verbose", 0.6),
                               ("--target t --target s", 0.2), ("--clean-per-run", 0.1), ("--optional-deps", 0.4)):
        words += [option] * (rng.random() < likelihood)
    return workspace, Call(uses_of(" ".join(words)), [], rng.choice([None, None, "github-actions"]), rng.random() < 0.2)


def random_case(program, folder, rng, _):
    """A random call in a random workspace, whose plan isn't too large; and which commands fail."""
    while True:
        if rng.random() < 0.5:
            workspace, call = wide_case(rng, f"{folder}/w")
        else:
            workspace = random_workspace(rng, f"{folder}/w", 6)
            call = random_call(rng, workspace)
        workspace["cargo"], workspace["rustup"] = f"{folder}/tools/cargo", f"{folder}/tools/rustup"
        case = Case(program, Tools(workspace, f"{folder}/tools"), call)
        if case.plan.causes and rng.random() < 0.5:
            break
        chosen = [len(it.sets.chosen) for it in case.spots]
        if chosen and max(chosen) <= 200 and sum(chosen) <= 600 and case.is_clear():
            break
    fails, case.fails_by_names = random_fails(rng, case) if case.spots else (Fails(), False)
    return case, fails


def random_fails(rng, case):
    """Which commands fail; and whether these are those in which some names are on together."""
    style = rng.choice(["names"] * 5 + ["any", "any", "number", "lacking", "none"])
    fails, likelihood = Fails(), rng.choice([0.1, 0.3, 0.6])
    if style == "number" and not case.plan.asked.has("--clean-per-run"):
        return Fails((), [it for it in range(400) if rng.random() < likelihood]), False
    for sets in {id(spot.sets): spot.sets for spot in case.spots}.values():
        names = sorted(set().union(*(it.names for it in sets.chosen)))
        common = [set(rng.sample(names, min(len(names), rng.choice([0, 1, 1, 2, 2, 2, 3])))) for _ in range(rng.randint(0, 3))]
        for spot in [it for it in case.spots if it.sets is sets]:
            bad = common + [set(rng.sample(names, min(len(names), 2)))] * (rng.random() < 0.3)
            for rank, it in zip(spot.ranks, sets.chosen):
                failing = {"names": any(one <= it.names for one in bad), "lacking": any(not one <= it.names for one in bad),
                           "none": False}.get(style, rng.random() < likelihood)
                fails.lines |= {asked_at(case.plan, rank)} if failing else set()
    return fails, style in ("names", "none")


def try_case(counts, case, fails, rng):
    """Tries a random call, and counts what it did."""
    judged, ended, calls = case.judge(fails)
    if judged is None:
        counts["refused"] += 1
        return
    for it in judged if case.fails_by_names else []:
        lines = {one: asked_at(case.plan, rank) for rank, one in zip(it.spot.ranks, it.sets.chosen)}
        it.judge_least(lambda one, lines=lines: lines[one] in fails.lines)
    runs = len(runs_in(case.plan, calls, fails))
    counts["cut short"] += case.judge_more(fails, judged, ended, calls, rng.randint(1, runs + 1))
    for what, more in (("runs", runs), ("of sets", sum(len(it.sets.chosen) for it in judged)),
                       ("conflicts", sum(len(it.conflicts) for it in judged)),
                       ("greatest sets", sum(len(it.greatest) for it in judged)),
                       ("inexact packages", sum(not it.sets.is_exact for it in judged))):
        counts[what] += more


# ---- All of them.


def main():
    tries = [(name, row_fault, row) for name, row in ROWS.items()] + [(row[0], few_fault, row) for row in FEW]
    tries += [(name, gone_row_fault, row) for name, row in GONE.items()]
    tries += [(words, refusal_fault, words, error) for words, error in refusals().items()]
    names = ("refused", "runs", "of sets", "conflicts", "greatest sets", "inexact packages", "cut short")
    counts = dict.fromkeys(names, 0)
    return run_all(__doc__, tries, random_case, partial(try_case, counts), counts)


if __name__ == "__main__":
    sys.exit(main())
