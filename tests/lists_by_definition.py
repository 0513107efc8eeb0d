#!/usr/bin/env python3
"""Asks `cargo-hack` for the command lists of random small workspaces, and compares each, byte for byte, with the list
that is computed here from the definitions alone, slowly: chains by closure, filters over all lists of positions, a set
of entries that is sorted.

usage: tests/lists_by_definition.py PROGRAM [--cases N] [--seed S] [--counts K] [--maps LIST]

PROGRAM is cargo-hack, and LIST powerset-list, which is asked first where it is given: for each feature map on three names,
without a rule and under some.

For each of N workspaces (300) and arguments it also asks for the pieces 1/n to n/n, by block and by turn, for K of the
numbers n from 1 to 7 (all): each is compared with the piece of the definitions, and joined they have to be the list.
Where the definitions have no plan, status 1, no list and one of the errors that hold are wanted. Cargo and rustup are
shell scripts with stored answers. Where a case fails, its arguments, its workspace and both lists are printed.

Packages and workspaces have tables of rules, which count under `--package-rules`; so have packages that aren't chosen. The
warnings on names that a table has and its package lacks are compared too. Each other call has its tables too, and ignores them.

With `--strength` the definitions leave open which sets a sample has. So the sets of a package are those listed ones whose
commands are in the whole list; they have to show each pattern that a listed set shows, each of them one that no other shows,
and all else is compared as above.
Then the plan or a piece of it is run, over a cargo that fails on some of its commands. What is told of suspects has to be
what follows from the definition for these outcomes, by looking at all patterns.
The last line is `N passed, M failed`, of cases and maps under a rule, and the status is 1 where one failed.
"""
import argparse
import functools
import itertools
import json
import os
import random
import re
import subprocess
import sys
import tempfile
from collections import namedtuple

sys.dont_write_bytecode = True
from random_workspace import call, lay_out, parts, random_words, random_workspace, write  # noqa: E402

# ---- Features: what a map says, and which sets are listed.


def closure(name, edges):
    """The name, and all to which a chain of edges leads from it."""
    found = {name}
    while True:
        more = {value for one in found for value in edges(one)} - found
        if not more:
            return found
        found |= more


# A run of a set: the places of its candidates, and their texts.
Set = namedtuple("Set", "places texts")


class Choice:
    """What sets are chosen from: a feature map, candidates (each its names), and the rules."""

    def __init__(self, features, candidates, depth, required, exclusive):
        self.features, self.candidates, self.depth = features, candidates, depth
        self.required, self.exclusive = required, exclusive
        names = set(features) | {name for one in candidates for name in one}
        self.enabled = {name: closure(name, self.whole) for name in names}
        self.reached = {name: closure(name, self.cut) for name in names}

    def whole(self, name):
        """The values of a key that are no dependencies."""
        return [value for value in self.features.get(name, []) if not value.startswith("dep:")]

    def cut(self, name):
        """The values of a key, each cut before its first `/`."""
        return [value.split("/", 1)[0] for value in self.features.get(name, [])]

    def names(self, chosen):
        return [name for place in chosen for name in self.candidates[place]]

    def is_redundant(self, chosen):
        """A member has a name that is a key, differs from all names of another, and enables each of them."""
        return any(
            key in self.features
            and all(name != key and name in self.enabled[key] for name in self.candidates[place])
            for key in self.names(chosen)
            for place in chosen
        )

    def is_exclusive(self, chosen):
        """Of each group at most one name of the members, repeats counted, reaches one of the group's names."""
        return all(
            sum(not self.reached[name].isdisjoint(group) for name in self.names(chosen)) <= 1 for group in self.exclusive
        )

    def serves(self, name, group):
        return name in self.features and not self.enabled[name].isdisjoint(group)

    def is_required(self, chosen):
        """For each group that some key serves, a name of a member serves it."""
        return all(
            any(self.serves(name, group) for name in self.names(chosen))
            for group in self.required
            if any(self.serves(key, group) for key in self.features)
        )

    def is_within(self, chosen):
        return self.depth is None or len(chosen) <= self.depth

    def settings(self, chosen):
        """For each candidate whether it is on in the set: whether the set enables each of its names."""
        return self.on_by(self.names(chosen))

    def on_by(self, names):
        enabled = set().union(*(self.enabled[name] for name in names))
        return tuple(enabled.issuperset(names) for names in self.candidates)

    def settings_of(self, run):
        """The same for a run. One without a set has all features or none."""
        if isinstance(run, Set):
            return self.settings(run.places)
        return self.on_by(self.features if run == "all" else [])

    def listed(self):
        """The sets that pass all of it, in their order."""
        places = range(len(self.candidates))
        sets = [it for size in range(1, len(places) + 1) for it in itertools.combinations(places, size)]
        kept = [
            it
            for it in sets
            if self.is_within(it) and not self.is_redundant(it) and self.is_exclusive(it) and self.is_required(it)
        ]
        return sorted(kept, key=functools.cmp_to_key(order))


def order(one, other):
    """The set that has the greatest position which is in just one of the two comes later."""
    return 1 if max(set(one) ^ set(other)) in one else -1


def patterns(settings, strength):
    """The patterns of at most so many candidates that settings show: each candidate's place, and whether it is on."""
    places = range(len(settings))
    return {
        tuple((place, settings[place]) for place in some)
        for size in range(min(strength, len(settings)) + 1)
        for some in itertools.combinations(places, size)
    }


def suspects(outcomes, strength):
    """The patterns of at most so many candidates that a failed run shows and no passed run does, those alone of which no
    smaller part is one too: first those that most failed runs show, then the shorter ones, then by place, off before on.
    An outcome is a run's settings, and whether it failed."""
    shown = {failed: set() for failed in (False, True)}
    for settings, failed in outcomes:
        shown[failed] |= patterns(settings, strength)
    found = shown[True] - shown[False]
    minimal = [
        it for it in found if not any(part in found for size in range(len(it)) for part in itertools.combinations(it, size))
    ]
    uses = {it: sum(failed and set(it) <= set(enumerate(settings)) for settings, failed in outcomes) for it in minimal}
    return sorted(minimal, key=lambda it: (-uses[it], len(it), it))


# ---- Words, which are a list of uses of options.

# These are passed on as they are written.
PASSED = ("subcommand", "unknown", "--locked", "--all-features", "--no-default-features")
# And these with Cargo's own handling of the workspace, with their value as a word of its own.
PASSED_TO_CARGO = ("--manifest-path", "--package", "--exclude", "--workspace")


# With it nothing is run.
LISTED = "--print-command-list"


def list_names(text):
    if len(text) > 1 and text[0] == text[-1] and text[0] in "'\"":
        text = text[1:-1]
    return [it for it in parts(text) if it]


class Asked:
    """What the uses ask for."""

    def __init__(self, uses, trailing):
        self.uses, self.trailing = uses, trailing
        self.own_handling = self.has("--workspace-behavior")
        self.features = self.names("--features")
        self.include = self.names("--include-features")
        excluded = self.names("--exclude-features")
        self.excluded = excluded + self.features
        self.groups = self.split("--group-features")
        self.exclusive = self.split("--mutually-exclusive-features")
        self.required = self.split("--at-least-one-of")
        self.drops_none = bool(self.has("--exclude-no-default-features") or self.required or self.include)
        self.drops_all = bool(self.has("--exclude-all-features") or self.include or excluded or self.exclusive)
        self.lifted = [(it.split("=", 1)[0], parts(it.split("=", 1)[1])) for it in self.values("--allow-together")]
        self.optional = [part for it in self.values("--optional-deps") for part in ([] if it is None else parts(it))]
        self.targets = sorted(set(self.values("--target")))
        self.depth = int(self.values("--depth")[0]) if self.has("--depth") else None
        self.strength = int(self.values("--strength")[0]) if self.has("--strength") else None
        self.step = int((self.values("--version-step") or ["1"])[0])
        self.range = None
        if self.has("--rust-version"):
            self.range = ("own", "own")
        elif self.has("--version-range"):
            self.range = range_of(self.values("--version-range")[0])

    def values(self, name):
        return [it.value for it in self.uses if it.name == name]

    def has(self, name):
        return bool(self.values(name))

    def names(self, name):
        return [one for it in self.values(name) for one in list_names(it)]

    def split(self, name):
        return [parts(it) for it in self.values(name)]

    def passed(self):
        """The arguments that are passed on."""
        words = []
        for it in self.uses:
            if it.name in PASSED:
                words += it.written
            elif it.name == "--color":
                words += ["--color", it.value]
            elif self.own_handling and it.name in PASSED_TO_CARGO:
                words += it.written + ([] if it.value is None else [it.value])
        count = len(self.values("--verbose"))
        return words + (["-" + "v" * (count - 1)] if count > 1 else [])


# ---- Tables of rules in manifests.


def is_names(value):
    return isinstance(value, list) and all(isinstance(it, str) for it in value)


def is_groups(value):
    return isinstance(value, list) and all(is_names(it) and len(it) > 1 for it in value)


def is_flag(value):
    return isinstance(value, bool)


def is_number(value):
    return isinstance(value, int) and not is_flag(value) and value >= 0


# The keys of a table, and what each may hold.
FORMS = {
    "exclude-features": is_names,
    "mutually-exclusive-features": is_groups,
    "at-least-one-of": is_groups,
    "group-features": is_groups,
    "optional-deps": lambda value: is_flag(value) or is_names(value),
    "exclude-no-default-features": is_flag,
    "exclude-all-features": is_flag,
    "depth": is_number,
    "strength": lambda value: is_number(value) and value > 0,
}


def table_of(held):
    """The table of rules of a package or the workspace; empty where it has none."""
    settings = held["metadata"]
    return settings.get("cargo-hack", {}) if isinstance(settings, dict) else {}


def wrong_field(table):
    """The first field at fault of what should be a table of rules: known keys before unknown ones."""
    if not isinstance(table, dict):
        return "cargo-hack"
    wrong = [key for key, fits in FORMS.items() if key in table and not fits(table[key])]
    return next(iter(wrong + [key for key in table if key not in FORMS]), None)


def cause_of_tables(workspace, asked, packages):
    """Why these tables of rules leave no plan, if they do: the workspace's first, and then package by package a wrong field,
    or else a feature that is excluded, and in a group or to be included, as no other one is."""
    places = [("[workspace.metadata.cargo-hack]", workspace)]
    places += [(f"[package.metadata.cargo-hack] of package `{it['name']}`", it) for it in packages]
    for place, held in places:
        field = wrong_field(table_of(held))
        if field is not None:
            return [f"failed to parse `{field}` field from {place}"]
        grouped = [] if held is workspace else Rules(workspace, asked, held).excluded_in_groups()
        if grouped:
            return [f"feature `{grouped[0]}` of package `{held['name']}` is excluded, and also in a group or in --include-features"]
    return []


def names_in(table):
    """The names that a table has, each once, in the order of the keys."""
    names = list(table.get("exclude-features", []))
    for key in ("mutually-exclusive-features", "at-least-one-of", "group-features"):
        names += [name for group in table.get(key, []) for name in group]
    optional = table.get("optional-deps", False)
    return list(dict.fromkeys(names + ([] if is_flag(optional) else optional)))


class Rules:
    """What is asked of a package's sets and runs: by the call, and under `--package-rules` by its own table and then by the
    workspace's."""

    def __init__(self, workspace, asked, package):
        self.is_powerset, self.features, self.include = asked.has("--feature-powerset"), asked.features, asked.include
        self.excluded, self.groups, self.required = list(asked.excluded), list(asked.groups), list(asked.required)
        lifted = [names for name, names in asked.lifted if name == package["name"]]
        self.exclusive = [group for group in asked.exclusive if group not in lifted]
        self.drops_none, self.drops_all = asked.drops_none, asked.drops_all
        self.depth, self.strength = asked.depth, asked.strength
        # Which optional dependencies are asked for, where some are; no names are all of them.
        self.optional = [asked.optional] if asked.has("--optional-deps") else []
        if asked.has("--package-rules"):
            normal, optional, deps = pool(workspace, package)
            had = {*normal, *optional, *(deps if asked.has("--include-deps-features") else [])}
            self.add(table_of(package))
            self.add(dict(table_of(workspace), **{"group-features": [
                group for group in table_of(workspace).get("group-features", []) if set(group) <= had]}))

    def excluded_in_groups(self):
        """The names in groups that are excluded, and those to be included, where all are; those of `--features`, which each run
        has, aren't."""

        def among(names):
            return [name for name in names if name in self.excluded and name not in self.features]

        included = among(self.include)
        return among(name for group in self.groups for name in group) + (included if included == self.include else [])

    def asks_for(self, name):
        """An optional dependency is asked for."""
        return any(not names or name in names for names in self.optional)

    def asks_for_all(self):
        """All optional dependencies are, without their names."""
        return [] in self.optional

    def add(self, table):
        """What counts of a table too."""
        self.excluded += table.get("exclude-features", [])
        self.drops_none |= table.get("exclude-no-default-features", False)
        self.drops_all |= table.get("exclude-all-features", False) or table.get("exclude-features", []) != []
        optional = table.get("optional-deps", False)
        if optional is True:
            self.optional.append([])
        elif optional:
            self.optional.append(optional)
        if self.is_powerset:
            exclusive, required = table.get("mutually-exclusive-features", []), table.get("at-least-one-of", [])
            self.groups += table.get("group-features", [])
            self.exclusive, self.required = self.exclusive + exclusive, self.required + required
            self.drops_all |= exclusive != []
            self.drops_none |= required != []
            self.depth = table.get("depth") if self.depth is None else self.depth
            self.strength = table.get("strength") if self.strength is None else self.strength


def workspace_notes(workspace, asked):
    """The warning that no table has a rule, or those on names of the workspace's table that no member has."""
    if not asked.has("--package-rules"):
        return []
    members = [it for it in workspace["packages"] if it["id"] in workspace["members"]]
    if not any(has_rule(table_of(it)) for it in [workspace, *members]):
        return [
            "warning: --package-rules found no rule: neither [workspace.metadata.cargo-hack] nor [package.metadata.cargo-hack]"
            " of a member has one"
        ]
    loaded = asked.has("--include-deps-features")
    known = {name for it in members for part in pool(workspace, it)[: 3 if loaded else 2] for name in part}
    return [
        f"warning: feature `{name}` of [workspace.metadata.cargo-hack] not found in any member"
        for name in names_in(table_of(workspace))
        if name not in known and (loaded or "/" not in name)
    ]


def has_rule(table):
    """A table says something: an empty list, `false` and a table that isn't there don't."""
    return any(value is not False and value != [] for value in table.values())


def table_notes(workspace, asked, packages):
    """The warnings on names of packages' own tables that the packages don't have."""
    told = []
    for it in packages if asked.has("--package-rules") else []:
        normal, optional, deps = pool(workspace, it)
        loaded = asked.has("--include-deps-features")
        known = normal + optional + (deps if loaded else [])
        place = f"of [package.metadata.cargo-hack] not found in package `{it['name']}`"
        told += [
            f"warning: feature `{name}` {place}"
            for name in names_in(table_of(it))
            if name not in known and (loaded or "/" not in name)
        ]
    return told


# ---- Packages.


def fits(full, asked):
    """A version, as far as it is given, is a full one."""

    def cut(text):
        major, minor, rest = (text.split(".", 2) + [None, None])[:3]
        patch, _, build = (rest or "").partition("+")
        patch, _, before = patch.partition("-")
        return [major, minor, patch or None, before or None, build or None]

    return all(asked is None or asked == full for full, asked in zip(cut(full), cut(asked)))


URL = re.compile(r"(?:[^+:#?]*\+)?([^+:#?]*)://([^?#]*)(?:\?([^#]*))?(?:#(.*))?")


def is_matched(package, spec):
    """A package ID specification matches the package."""
    if spec.startswith(package["name"]):
        rest = spec[len(package["name"]):]
        return not rest or rest[0] in "@:" and fits(package["version"], rest[1:])
    asked, known = URL.fullmatch(spec), URL.fullmatch(package["id"])
    if not asked or not known or asked.group(1, 2) != known.group(1, 2):
        return False
    if asked[3] and asked[3] != known[3]:
        return False
    if not asked[4] or not known[4]:
        return not asked[4]
    name, _, version = re.fullmatch(r"([^@:]*)([@:]?)(.*)", asked[4], re.S).groups()
    if re.search("[@:]", asked[4]):
        own = re.fullmatch(r"([^@:]*)[@:](.*)", known[4], re.S)
        return bool(own) and own[1] == name and fits(own[2], version)
    return name == package["name"] or name[:1].isdigit() and fits(package["version"], name)


def chosen_packages(workspace, asked, causes):
    """The members that are run on, in the order of the workspace."""
    members = list(dict.fromkeys(workspace["members"]))
    members = [next(it for it in workspace["packages"] if it["id"] == member) for member in members]
    current = next((it for it in members if it["manifest_path"] == workspace["located"]), None)
    specs = asked.values("--package")
    if asked.has("--workspace"):
        about = members
    elif specs:
        unmatched = [it for it in specs if not any(is_matched(one, it) for one in members)]
        causes += [f"package ID specification `{it}` matched no packages" for it in unmatched[:1]]
        about = [it for it in members if any(is_matched(it, spec) for spec in specs)]
    else:
        about = members if current is None else [next(it for it in members if it["name"] == current["name"])]
    about = [it for it in about if not any(is_matched(it, spec) for spec in asked.values("--exclude"))]
    if asked.has("--ignore-private") or asked.has("--no-private"):
        about = [it for it in about if not it["private"]]
    return [(members.index(it), it) for it in about]


def pool(workspace, package):
    """A package's own features, the optional dependencies that are features, and the features of dependencies."""
    normal, optional, deps = sorted(package["manifest"]), [], []
    named = {value for values in package["manifest"].values() for value in values}
    for it in package["dependencies"]:
        name = it["rename"] or it["name"]
        if it["optional"] and "dep:" + name not in named and name not in normal + optional:
            optional.append(name)
    for other, kinds in workspace["nodes"].get(package["id"], []):
        other = next(it for it in workspace["packages"] if it["id"] == other)
        first = next((it for it in package["dependencies"] if it["name"] == other["name"]), None)
        if (None, None) in kinds and first:
            deps += [f"{first['rename'] or first['name']}/{it}" for it in sorted(other["record"])]
    return normal, optional, deps


def choice_of(workspace, asked, package, rules):
    """What the sets of a package are chosen from, and the text of each candidate."""
    normal, optional, deps = pool(workspace, package)
    singles = asked.include
    if not singles:
        singles = normal + [it for it in optional if rules.asks_for(it)]
        singles += deps if asked.has("--include-deps-features") else []
    gone = rules.excluded + [name for group in rules.groups for name in group]
    candidates = [(name, [name]) for name in singles if name not in gone]
    if not asked.include:
        known = normal + optional
        candidates += [
            (",".join(group), group)
            for group in rules.groups
            if not asked.has("--ignore-unknown-features") or all(name in known for name in group)
        ]
    names = [names for _, names in candidates]
    return Choice(package["record"], names, rules.depth, rules.required, rules.exclusive), [text for text, _ in candidates]


def runs_of(workspace, asked, package, sample):
    """The runs of a package: `plain`, `all`, `none`, or a set. `sample` picks of the listed sets those of the package's
    sample."""
    normal, optional, _ = pool(workspace, package)
    rules = Rules(workspace, asked, package)
    choice, texts = choice_of(workspace, asked, package, rules)

    def with_texts(sets):
        return [Set(it, [texts[place] for place in it]) for it in sets]

    if asked.has("--feature-powerset"):
        sets = with_texts(choice.listed())
        if rules.strength is not None:
            sets = sample(choice, sets, rules.strength)
        keeps_all = bool(optional) and not (rules.asks_for_all() and rules.depth is None)
    elif asked.has("--each-feature"):
        sets = with_texts((place,) for place in range(len(texts)))
        keeps_all = bool(optional) or len(normal) > 1
    else:
        return ["plain"]
    if not sets and (asked.include or not normal + optional):
        return ["plain"]
    keeps_all = keeps_all and not rules.drops_all
    if asked.has("--feature-powerset") and not keeps_all:
        sets = last_first(sets, rules.depth)
    front = ["all"] * keeps_all + ["none"] * (not rules.drops_none)
    return front + sets


def last_first(sets, depth):
    """These sets, the last one before the others, in place of a run with all features, unless the depth is below 2."""
    return sets[-1:] + sets[:-1] if depth is None or depth > 1 else sets


# ---- Versions. One is its major and its minor version; the patch that a range names only warns.


def version_of(text):
    major, minor = text.split(".")[:2]
    return int(major), int(minor)


def range_of(text):
    """Start and end: a version's text, `own` or `stable`."""
    start, dots, end = text.partition("..")
    end = end.removeprefix("=") if dots else ""
    return start or "own", end or "stable"


def own_of(package):
    return version_of(package["rust_version"]) if package["rust_version"] else None


def uses_of(workspace, asked, packages, causes):
    """Which version is used by which packages' places; the key is 0 without a range, else the minor version."""
    if not asked.range:
        return {0: {place for place, _ in packages}}
    if any(it["rust_version"] and "." not in it["rust_version"] for _, it in packages):
        causes.append("missing minor version")
        return {}
    own = {place: own_of(it) for place, it in packages}
    lowest = min((it for it in own.values() if it), default=None)
    start, end = (
        {"own": lowest, "stable": (1, workspace["stable"])}.get(it) or (None if it == "own" else version_of(it))
        for it in asked.range
    )
    if asked.own_handling and len(set(own.values())) > 1:
        causes.append("currently only single MSRV is supported by --workspace-behavior=cargo;"
                      " consider using --package or --exclude to run per MSRV")
    only_own = asked.has("--rust-version")
    for place, it in packages:
        if only_own and not own[place]:
            causes.append(f"no rust-version field in {it['name']}'s Cargo.toml is specified;"
                          f" consider setting rust-version field or excluding {it['name']}")
    if start is None:
        causes.append("no rust-version field in selected Cargo.toml's is specified")
        return {}
    majors = [start] + [end] * (asked.range[1] != "own") + [it for it in own.values() if only_own and it]
    if any(major != 1 for major, _ in majors):
        causes.append("major version must be 1")
    if not only_own and start > end:
        shown = "..".join(["" if asked.range[0] == "own" else asked.range[0],
                           "" if asked.range[1] == "stable" else "=" + asked.range[1]])
        causes.append(f"specified version range `{shown}` is empty")
    steps = [(1, it) for it in range(start[1], end[1] + 1) if (it - start[1]) % asked.step == 0]

    def is_used(version, oldest):
        if only_own:
            return version == oldest
        later = [it for it in steps if oldest is None or it >= oldest]
        arrives = asked.range[0] == "own" and oldest and later and min(later) != oldest
        return version in later or bool(arrives) and version == oldest

    versions = set(steps) | {it for it in own.values() if it}
    used = {version[1]: {place for place, _ in packages if is_used(version, own[place])} for version in versions}
    return {version: places for version, places in used.items() if places}


# ---- The plan, and its pieces.


def last_line(text):
    return text.splitlines(keepends=True)[-1]


def stem(program):
    name = program.rsplit("/", 1)[1]
    return name.rsplit(".", 1)[0] if "." in name[1:] else name


def under(path, folder):
    return path[len(folder) + 1:] if path.startswith(folder + "/") else path


def command(workspace, asked, place, packages, runs):
    """The lines of a place: its cleaning, where asked for, and its command."""
    version, slot, package, rank = place
    run, own, passed = "plain", None, list(asked.features)
    if package is not None:
        run, own = runs[package][rank], packages[package]
        known = [name for names in pool(workspace, own)[:2] for name in names]
        known += pool(workspace, own)[2] if asked.has("--include-deps-features") else []
        if asked.has("--ignore-unknown-features"):
            passed = [it for it in passed if it in known]
    words = [stem(workspace["rustup"]), "run", f"1.{version}", "cargo"] if version else [stem(workspace["cargo"])]
    words += asked.passed() + [word for target in slot for word in ("--target", target)]
    if own and not asked.has("--no-manifest-path"):
        words += ["--manifest-path", under(own["manifest_path"], workspace["folder"])]
    if run != "plain":
        words.append("--all-features" if run == "all" else "--no-default-features")
    passed += run.texts if isinstance(run, Set) else []
    words += ["--features", ",".join(passed)] if passed else []
    words += ["--"] + asked.trailing if asked.trailing else []
    lines = []
    if asked.has("--clean-per-run"):
        lines.append(cleaning(workspace, asked) + (f" --package {own['name']}" if own else ""))
    return "".join(it + "\n" for it in lines + [" ".join(words)])


def cleaning(workspace, asked):
    return stem(workspace["cargo"]) + " clean" + (" --locked" if asked.has("--locked") else "")


class Plan:
    """The versions that are used, and the places in order, each with its text; or causes why there is none. `whole`
    is the whole list that the program printed, which says what sets a sample has."""

    def __init__(self, workspace, asked, whole):
        self.workspace, self.asked, self.whole, self.causes, self.faults = workspace, asked, whole, [], []
        # What the sets of a package are chosen from, by its name.
        self.choices = {}
        chosen = chosen_packages(workspace, asked, self.causes)
        # The warnings on names in tables of rules.
        self.notes = []
        if asked.has("--package-rules"):
            self.causes += cause_of_tables(workspace, asked, [it for _, it in chosen])
        used = uses_of(workspace, asked, chosen, self.causes)
        self.versions, self.places, self.texts = sorted(used), [], []
        if self.causes:
            return
        self.notes = workspace_notes(workspace, asked) + table_notes(workspace, asked, [it for _, it in chosen])
        self.packages = packages = dict(chosen)
        self.runs = runs = {}
        for place, it in chosen:
            version = next((version for version in self.versions if place in used[version]), None)
            runs[place] = self.runs_in_list(it, version)
        if asked.own_handling:
            places = {(version, slot, None, 0) for version in used for slot in self.slots(version)}
        else:
            places = {
                (version, slot, package, rank)
                for version, slot, package in itertools.product(used, self.all_slots(), packages)
                if slot in self.slots(version) and package in used[version]
                for rank in range(len(runs[package]))
            }
        self.places = sorted(places, key=lambda it: (it[0], it[1], -1 if it[2] is None else it[2], it[3]))
        self.texts = [command(workspace, asked, it, packages, runs) for it in self.places]

    def runs_in_list(self, package, version):
        """The runs of a package; where two sets of its sample have one command, with that which the list's order means."""
        kept, is_sampled = len(self.faults), Rules(self.workspace, self.asked, package).strength is not None
        for last_first in (False, True, False):
            del self.faults[kept:]
            runs = runs_of(self.workspace, self.asked, package, functools.partial(self.sample, package, version, last_first))
            if version is None or not is_sampled or self.asked.own_handling:
                break
            place = (version, self.slots(version)[0], 0)
            lines = iter(self.whole.splitlines(keepends=True))
            if all(
                last_line(command(self.workspace, self.asked, (*place, rank), {0: package}, {0: runs})) in lines
                for rank in range(len(runs))
            ):
                break
        return runs

    def sample(self, package, version, last_first, choice, sets, strength):
        """Those of the listed sets whose commands the whole list has, and a fault where they miss a pattern, or where one of
        them shows none that no other does. With `last_first` the list begins with the last of them."""
        self.choices[package["name"]] = choice
        if version is None or self.asked.own_handling:
            return sets
        place = (version, self.slots(version)[0], 0, 0)
        texts = [last_line(command(self.workspace, self.asked, place, {0: package}, {0: [it]})) for it in sets]
        lines, found = self.whole.splitlines(keepends=True), []
        for it, line in zip(sets, texts):
            if line in lines:
                lines.remove(line)
                found.append(it)
        if len(set(texts)) < len(texts):
            found = self.in_order(sets, texts, found, last_first)
        own = [patterns(choice.settings_of(it), strength) for it in found]
        shown = set().union(*own)
        for place, it in enumerate(found):
            if own[place] <= set().union(*own[:place], *own[place + 1 :]):
                self.faults.append(f"in {package['name']} other runs show each pattern that {it} shows")
        missed = [(it, patterns(choice.settings_of(it), strength) - shown) for it in sets]
        self.faults += [f"in {package['name']} no run shows {min(them)}, which {it} shows" for it, them in missed if them]
        return found

    def in_order(self, sets, texts, found, last_first):
        """Those that were found of the sets with these commands, or as many with the same commands in the order of the list:
        two sets have one command where two candidates have one name."""
        told = [line for line in self.whole.splitlines(keepends=True) if line in texts]
        same, at = [], 0
        for line in told[1:] + told[:1] if last_first else told:
            if line in texts[at:]:
                at = texts.index(line, at) + 1
                same.append(sets[at - 1])
        return same if len(same) == len(found) else found

    def settings(self, place):
        """Which candidates of its package are on in the run at the place."""
        _, _, package, rank = place
        return self.choices[self.packages[package]["name"]].settings_of(self.runs[package][rank])

    def all_slots(self):
        return {slot for version in self.versions for slot in self.slots(version)}

    def is_split(self, version):
        """Each target has a slot by itself."""
        return bool(self.asked.targets) and (version or self.workspace["minor"] or 0) < 64

    def slots(self, version):
        """Each target by itself, or all of them at once."""
        return [(it,) for it in self.asked.targets] if self.is_split(version) else [tuple(self.asked.targets)]

    def own_line(self, rank):
        """The line of the run at a place, without its cleaning."""
        return last_line(self.texts[rank])

    def piece(self, kind, number, count):
        """The list of a piece: before each version its cleaning, where asked for, then its places that the piece has."""
        kept = set(self.ranks(kind, number, count))
        text = ""
        for version in self.versions:
            if version and self.asked.has("--clean-per-version"):
                text += cleaning(self.workspace, self.asked) + "\n"
            for rank, it in enumerate(self.places):
                if it[0] == version and rank in kept:
                    text += self.texts[rank]
        return text

    def ranks(self, kind, number, count):
        """Which places of the plan a piece has."""
        size = -(-len(self.places) // count)
        ranks = range(len(self.places))
        return [it for it in ranks if (it // size if kind == "block" else it % count) == number - 1]


# ---- What is told of suspects.

TOLD = re.compile(r"info: (in |    |\d+ failed run)")


def strengths_of(plan):
    """The strength of each package's sample, none where it has no sample."""
    if not plan.asked.has("--feature-powerset"):
        return {}
    return {place: Rules(plan.workspace, plan.asked, it).strength for place, it in plan.packages.items()}


def commands_to_fail(rng, plan):
    """Some commands of the plan: those of which a run shows one of a few patterns, and one more."""
    sampled = [place for place, it in strengths_of(plan).items() if it is not None]
    failing, places = set(), [it for it in plan.places if it[2] in sampled]
    if not places:
        return failing
    for _ in range(rng.choice([1, 1, 2, 3])):
        place = rng.choice(places)
        settings = plan.settings(place)
        some = rng.sample(range(len(settings)), min(len(settings), rng.randint(1, 3)))
        for rank, it in enumerate(plan.places):
            if it[2] == place[2] and all(plan.settings(it)[one] == settings[one] for one in some):
                failing.add(plan.own_line(rank))
    return failing | {plan.own_line(it) for it in rng.sample(range(len(plan.places)), rng.randint(0, 1))}


def count_missed(outcomes, strength):
    """How many failed runs have no pattern of at most so many candidates that no passed run has."""
    passed = {it for settings, failed in outcomes if not failed for it in patterns(settings, strength)}
    return sum(failed and patterns(settings, strength) <= passed for settings, failed in outcomes)


def have(count):
    return "has" if count == 1 else "have"


def ending(count):
    return "" if count == 1 else "s"


def who(showing, failed):
    """Which of the failed runs show a suspect."""
    if showing < failed:
        return f"{showing} of {failed} failed runs {have(showing)}"
    return "the one failed run has" if failed == 1 else f"all {failed} failed runs have"


def told_of_suspects(plan, ranks, failing, scope):
    """What is told after these places were run, where these commands fail: of each version, slot and package in turn,
    since the runs of each are one after the other; and of one strength after the other, where packages have their own.
    The scope is what a heading says of the runs that were looked at."""
    outcomes, told, strengths = {}, [], strengths_of(plan)
    for rank in (it for it in ranks if strengths[plan.places[it][2]] is not None):
        outcome = plan.settings(plan.places[rank]), plan.own_line(rank) in failing
        outcomes.setdefault(plan.places[rank][:3], []).append(outcome)
    for strength, ((version, slot, package), those) in itertools.product(dict.fromkeys(strengths.values()), outcomes.items()):
        if strengths[package] != strength:
            continue
        own = plan.packages[package]["name"]
        found = suspects(those, strength)
        lines = [
            ", ".join(f"{','.join(plan.choices[own].candidates[place])} {'on' if is_on else 'off'}" for place, is_on in it)
            for it in found
        ]
        failed, missed = sum(failed for _, failed in those), count_missed(those, strength)
        if found not in ([], [()]):
            where = own + (f" on 1.{version}" if version else "")
            where += f" for {slot[0]}" if plan.is_split(version) else ""
            told.append(f"info: in {where} {who(failed - missed, failed)} one of these, and no passed run does{scope}:")
            told += [f"info:     {it}" for it in lines[:20]]
            told += [f"info:     and {len(lines) - 20} more"] if len(lines) > 20 else []
        if missed:
            runs, features = f"failed run{ending(missed)} {have(missed)}", f"feature{ending(strength)}"
            lacking = f"no pattern of at most {strength} {features} that no passed run has; try --strength {strength + 1}"
            is_most = strength >= len(plan.choices[own].candidates)
            told.append(f"info: {missed} {runs} {'the same features on as a passed run' if is_most else lacking}")
    return told


def fault_of_suspects(program, plan, words, rng):
    """What is wrong with what is told of suspects, where some runs of the plan or a piece fail."""
    count = rng.choice([1, 1, 2, 3])
    kind, number = rng.choice(["block", "turn"]), rng.randint(1, count)
    failing = commands_to_fail(rng, plan)
    write(plan.workspace["failing"], "".join(it.split(" ", 1)[1] for it in sorted(failing)))
    is_piece = count > 1 or rng.random() < 0.5
    piece = ["--partition", f"{number}/{count}", "--partition-kind", kind] if is_piece else []
    words = piece + [it for it in words if it != LISTED]
    ran = call(program, plan.workspace, ["--keep-going"] * ("--keep-going" not in words) + words)
    ranks = plan.ranks(kind, number, count)
    wanted = told_of_suspects(plan, ranks, failing, ", of this piece's runs alone" if is_piece else "")
    found = [it for it in ran.stderr.splitlines() if TOLD.match(it)]
    status = int(any(plan.own_line(it) in failing for it in ranks))
    if (ran.returncode, found) == (status, wanted):
        return None
    return f"{words}, failing:\n{''.join(failing)}status {ran.returncode}, {ran.stderr}\nwanted:\n{wanted}\ntold:\n{found}"


# ---- Comparing.


def difference(wanted, ran, notes):
    """What is wrong with a run that should print this list, and these warnings on names in tables of rules."""
    told = [it for it in ran.stderr.splitlines() if "metadata.cargo-hack]" in it]
    if (ran.returncode, ran.stdout, told) == (0, wanted, notes):
        return None
    return f"status {ran.returncode}, {ran.stderr}\nwanted:\n{wanted}{notes}\ntold:\n{ran.stdout}{told}"


def refusal(causes, ran):
    """What is wrong with a run that should be refused for one of these causes."""
    if ran.returncode == 1 and not ran.stdout and ran.stderr.splitlines()[-1:] in [["error: " + it] for it in causes]:
        return None
    return f"status {ran.returncode}, {ran.stderr}\nwanted one of {causes}\ntold:\n{ran.stdout}"


def joined_fault(plan, kind, pieces):
    """What is wrong with pieces that should be the plan when they are joined, each place once."""
    if plan.asked.has("--clean-per-version"):
        # Each of them reports the cleanings.
        return None
    size = 2 if plan.asked.has("--clean-per-run") else 1
    if kind == "turn":
        split = [it.splitlines(keepends=True) for it in pieces]
        turns = max(map(len, split)) // size
        pieces = ["".join(it[turn * size:(turn + 1) * size]) for turn in range(turns) for it in split]
    return None if "".join(pieces) == plan.piece("block", 1, 1) else f"the pieces by {kind} don't make the list: {pieces}"


def try_case(program, workspace, uses, trailing, counts, rng):
    """What is wrong in a case, if something is, and how many lines, pieces, refusals and reports of suspects were
    compared."""
    words = [word for it in uses for word in it.words] + (["--"] + trailing if trailing else [])
    ran = call(program, workspace, words)
    plan = Plan(workspace, Asked(uses, trailing), ran.stdout)
    if plan.causes:
        return refusal(plan.causes, ran), (0, 0, 1, 0)
    wanted = plan.piece("block", 1, 1)
    fault, pieces = difference(wanted, ran, plan.notes) or next(iter(plan.faults), None), 0
    for count, kind in itertools.product(counts, ("block", "turn")):
        told_pieces = []
        for number in range(1, count + 1):
            more = ["--partition", f"{number}/{count}"]
            more += [f"--partition-kind={kind}"] if kind == "turn" or number % 2 else []
            ran = call(program, workspace, more + words)
            wrong = difference(plan.piece(kind, number, count), ran, plan.notes)
            fault = fault or wrong and f"piece {number}/{count} by {kind}: {wrong}"
            told_pieces.append(ran.stdout)
            pieces += 1
        fault = fault or joined_fault(plan, kind, told_pieces)
    # (each run starts a shell)
    has_suspects = any(strengths_of(plan).values()) and not plan.asked.own_handling and 0 < len(plan.places) < 200
    if has_suspects:
        fault = fault or fault_of_suspects(program, plan, words, rng)
    return fault, (wanted.count("\n"), pieces, 0, int(has_suspects))


# ---- Feature maps by themselves.

NAMES = "abc"
# The options of powerset-list that each map is tried under, and what they say.
MAP_RULES = [
    ([], {}),
    (["--depth", "1"], {"depth": 1}),
    (["--depth", "2"], {"depth": 2}),
    (["--at-least-one-of", "a,c"], {"required": ["ac"]}),
    (["--mutually-exclusive-features", "a,c"], {"exclusive": ["ac"]}),
]


def maps():
    """Each feature map on three names: each of them is no key, or enables some of the three."""
    some = [names for size in range(len(NAMES) + 1) for names in itertools.combinations(NAMES, size)]
    for held in itertools.product([None, *some], repeat=len(NAMES)):
        yield {name: names for name, names in zip(NAMES, held) if names is not None}


def list_of(features, depth=None, required=(), exclusive=()):
    """The command list of a feature map's powerset."""
    if not features:
        return ["cargo check"]
    keys = sorted(features)
    sets = last_first(Choice(features, [[key] for key in keys], depth, required, exclusive).listed(), depth)
    none = "cargo check --no-default-features"
    return [none] * (not required) + [f"{none} --features {','.join(keys[it] for it in chosen)}" for chosen in sets]


def try_maps(program):
    """Asks for the list of each map under each rule, and returns how many lists were right, and how many weren't."""
    passed = failed = 0
    for features, (words, rules) in itertools.product(maps(), MAP_RULES):
        wanted = list_of(features, **rules)
        ran = subprocess.run([program, *words], input=json.dumps(features), capture_output=True, text=True, check=False)
        fault = difference("".join(f"{line}\n" for line in wanted), ran, [])
        passed += not fault
        if fault:
            failed += 1
            print(f"{json.dumps(features)} {words}\n{fault}")
    print(f"{passed + failed} lists of feature maps")
    return passed, failed


def main():
    reader = argparse.ArgumentParser(usage=__doc__)
    reader.add_argument("program")
    reader.add_argument("--maps")
    for option, default in (("--cases", 300), ("--seed", 1), ("--counts", 7)):
        reader.add_argument(option, type=int, default=default)
    asked = reader.parse_args()
    program = os.path.realpath(asked.program)
    passed, failed = try_maps(os.path.realpath(asked.maps)) if asked.maps else (0, 0)
    compared = (0, 0, 0, 0)
    for case in range(asked.cases):
        rng = random.Random(f"{asked.seed}/{case}")
        with tempfile.TemporaryDirectory(prefix="slow-plan-") as folder:
            folder = os.path.realpath(folder)
            workspace = random_workspace(rng, f"{folder}/w")
            lay_out(workspace, f"{folder}/tools")
            uses, trailing = random_words(rng, workspace)
            counts = sorted((case + it) % 7 + 1 for it in range(asked.counts))
            fault, more = try_case(program, workspace, uses, trailing, counts, rng)
        compared = tuple(a + b for a, b in zip(compared, more))
        passed += not fault
        if fault:
            failed += 1
            words = [word for it in uses for word in it.words]
            print(f"case {case} of seed {asked.seed}: {words} -- {trailing}\n{json.dumps(workspace)}\n{fault}")
    lines, pieces, refused, reports = compared
    print(f"{asked.cases} workspaces: {lines} lines, {pieces} pieces, {refused} refused, {reports} with failing runs")
    print(f"{passed} passed, {failed} failed")
    return 1 if failed else 0


if __name__ == "__main__":
    sys.exit(main())
