#!/usr/bin/env python3
"""Prints the wall time, the peak memory and the number of lines of powerset-list on growing feature maps, the times of
packages grouped by version, of a large answer of cargo read, and of whole calls over a cargo and files in memory, the
sizes of covering samples beside the least possible ones and the powersets', the times of the lists of the built cargo-hack,
also by rules in manifests and where it edits many manifests meanwhile, what its guard adds to a call, and what runs side by
side save.

usage: tests/bench.py PROGRAM [ROWS [CALLS [HACK CARGO [OTHER]]]]

PROGRAM is powerset-list, ROWS and CALLS are the built hack_rows and sample_calls, HACK is cargo-hack, CARGO is stand_cargo, which
answers at once, and OTHER is another cargo-hack, whose times and memory are printed beside.

Nothing here passes or fails by its time. The time is the least of three runs whose output goes nowhere, and beside it
stands how often `cat` takes as long for the same bytes, since machines differ. The memory is the program's own, by GNU
time (`-` where that is missing): what a child of this script holds before it is loaded doesn't count.
"""
import itertools
import json
import math
import os
import shutil
import subprocess
import sys
import tempfile
import time

sys.dont_write_bytecode = True
from small_workspace import write  # noqa: E402

RUNS = 3
GNU_TIME = shutil.which("time")


def names(n):
    width = max(2, len(str(n - 1)))
    return [f"f{i:0{width}}" for i in range(n)]


def without_edges(n):
    return {name: [] for name in names(n)}


def chain(n):
    """Each feature enables the one before it."""
    features = names(n)
    return {name: features[i - 1 : i] if i else [] for i, name in enumerate(features)}


def clique(n):
    """Each feature enables all others."""
    features = names(n)
    return {name: [it for it in features if it != name] for name in features}


def wide_chain(n, values):
    """Each feature enables as many features before it."""
    features = names(n)
    return {name: features[max(0, i - values) : i] for i, name in enumerate(features)}


CASES = [(f"{n} features without edges", without_edges(n), []) for n in (10, 16, 20, 24)]
CASES += [(f"a chain of {n:,} features", chain(n), []) for n in (60, 300, 2000)]
CASES += [(f"{n} features that all enable each other", clique(n), []) for n in (200, 400)]
CASES += [
    ("400 features, each enabling the 100 before it", wide_chain(400, 100), []),
    ("4,000 features without edges, --depth 1", without_edges(4000), ["--depth", "1"]),
    ("200 features without edges, --depth 3", without_edges(200), ["--depth", "3"]),
]


def told_by_cargo(packages, features, dependencies=(), rules=None):
    """What `cargo metadata` prints of a workspace of so many packages with these features and optional dependencies, and
    each with this table of rules."""
    ids = [f"path+file:///w/p{i}#1.0.0" for i in range(packages)]
    told = {"workspace_members": ids, "resolve": None, "workspace_root": "/w"}
    told["packages"] = [
        {
            "id": it,
            "name": f"p{i}",
            "version": "1.0.0",
            "dependencies": [{"name": name, "optional": True, "rename": None} for name in dependencies],
            "features": {**features, **{name: [f"dep:{name}"] for name in dependencies}},
            "manifest_path": f"/w/p{i}/Cargo.toml",
            "publish": None,
            "rust_version": None,
            "metadata": {"cargo-hack": rules} if rules else None,
        }
        for i, it in enumerate(ids)
    ]
    return json.dumps(told, separators=(",", ":"))


# Tables of one row, which hack_rows checks.
TABLES = [
    (
        "60,000 steps of versions, one package",
        "[how many groups] Each step has a group.\n@ own none\n> 1.1..=1.60000\n| 60000\n",
    ),
    (
        "2,000 packages with 50 features, as cargo tells",
        f"[metadata] It is read.\n@ minor 95\n@ json {told_by_cargo(2000, without_edges(50))}\n> version p1999\n| 1.0.0\n",
    ),
]


def manifest(lines):
    """A manifest of so many lines, of which a tenth are dependencies with lists of features over four lines."""
    told = ["[package]", 'name = "p"', 'version = "0.1.0"', "", "[features]"]
    dependencies = []
    for i in range(lines // 40):
        dependencies += [f'd{i} = {{ version = "1", features = [', '    "a",', '    "b",', "] }"]
    own = lines - len(told) - len(dependencies) - 2
    told += [f'f{i} = ["f{i - 1}"] # enables one' if i else "f0 = []" for i in range(own)]
    return "\n".join([*told, "", "[dependencies]", *dependencies, ""])


def with_dev(lines):
    """Such a manifest with development dependencies, at the top and of a target, and a feature that names one."""
    told = manifest(lines - 22).replace('f7 = ["f6"]', 'f7 = ["f6", "e1/x"]')
    told += "\n[dev-dependencies]\n" + "".join(f'e{i} = "1"\n' for i in range(9))
    return told + "\n[target.'cfg(unix)'.dev-dependencies]\n" + "".join(f'u{i} = "1"\n' for i in range(9))


def with_long_array(lines):
    """A manifest with a feature over so many lines, of which a tenth goes with the development dependencies."""
    texts = "".join(f'    "e{i % 10}/x{i}",\n' for i in range(lines))
    return f'[package]\nname = "p"\n\n[features]\na = [\n{texts}]\n\n[dev-dependencies]\ne3 = "1"\n'


def with_features(features, dependencies=()):
    """A manifest with these features and optional dependencies."""
    lines = ["[package]", 'name = "p"', 'version = "0.1.0"', "", "[features]"]
    lines += [f"{name} = {json.dumps(values)}" for name, values in features.items()]
    lines += ["", "[dependencies]", *(f'{name} = {{ version = "1", optional = true }}' for name in dependencies)]
    return "\n".join([*lines, ""])


def workspace(members, text, features=None, dependencies=()):
    """What sample_calls reads: a workspace of so many members that all have this manifest."""
    parts = [told_by_cargo(members, features or {}, dependencies), "== /w/Cargo.toml", "[workspace]"]
    for i in range(members):
        parts += [f"== /w/p{i}/Cargo.toml", text]
    return "\n".join(parts)


LIST = ["hack", "check", "--workspace", "--print-command-list"]
NONE = [*LIST, "--each-feature", "--partition", "1/1000000"]

# Workspaces, and the arguments of a call on each.
CALLS = [
    ("100 members with 100 lines each, loaded", workspace(100, manifest(100)), NONE),
    ("a manifest of 1,000 lines, edited", workspace(1, with_dev(1000)), [*NONE, "--no-dev-deps"]),
    ("an array over 1,000 lines, edited", workspace(1, with_long_array(1000)), [*NONE, "--no-dev-deps"]),
    ("100 members with 120 lines each, each feature run", workspace(100, manifest(120)), ["hack", "check", "--workspace", "--each-feature"]),
    ("16 free features, all sets listed", workspace(1, with_features(without_edges(16))), [*LIST, "--feature-powerset"]),
    ("20 free features, all sets listed", workspace(1, with_features(without_edges(20))), [*LIST, "--feature-powerset"]),
    ("10,000 runs", workspace(1, with_features(without_edges(10_000))), ["hack", "check", "--each-feature"]),
    ("100 members with 5 features each, listed", workspace(100, with_features(without_edges(5))), [*LIST, "--each-feature"]),
    ("20 free features, one place listed", workspace(1, with_features(without_edges(20))), [*LIST, "--feature-powerset", "--partition", "1/1048577"]),
    ("1,000 versions over 50 members, listed", workspace(50, with_features(without_edges(1))), [*LIST, "--each-feature", "--version-range", "1.1..=1.1000"]),
    ("200 members with 10 features each, listed", workspace(200, with_features(without_edges(10))), [*LIST, "--each-feature"]),
]


# ---- Covering samples.


def least_for_pairs(n):
    """The least number of sets that show each pattern of two of n free features (Katona; Kleitman and Spencer)."""
    return next(size for size in itertools.count(1) if n <= math.comb(size - 1, -(-size // 2)))


def large_crate():
    """Features and optional dependencies, 60 in all, as a large crate has them: chains, a default, backends of which one
    is needed, runtimes that exclude each other."""
    features = {"std": ["alloc"], "alloc": [], "default": ["std", "codec0", "native"]}
    features |= {f"level{i}": [f"level{i - 1}"] if i else [] for i in range(6)}
    features |= {f"codec{i}": ["alloc"] if i % 2 else [] for i in range(8)}
    features |= {it: [] for it in ("native", "rustls", "openssl", "runtime0", "runtime1", "runtime2")}
    features |= {f"extra{i}": [f"extra{i // 3}"] if i % 4 == 3 else [] for i in range(27)}
    return features, [f"dependency{i}" for i in range(10)]


def group(count):
    return ",".join(names(20)[:count])


FREE = [(2, n) for n in (6, 10, 20, 50, 100, 200)] + [(3, n) for n in (6, 10, 20, 50)]
WITH_DEFAULT = {**without_edges(19), "default": [f"f{i:02}" for i in range(5)]}
LARGE = ["--optional-deps", "--mutually-exclusive-features", "native,rustls,openssl", "--mutually-exclusive-features"]
LARGE += ["runtime0,runtime1,runtime2", "--at-least-one-of", "native,rustls,openssl"]

# Titles, strengths, features, optional dependencies, and arguments.
SAMPLES = [(f"{n} features without edges", strength, without_edges(n), [], []) for strength, n in FREE]
SAMPLES += [
    ("20 features, 4 exclude each other", 2, without_edges(20), [], ["--mutually-exclusive-features", group(4)]),
    ("20 features, default enables 5", 2, WITH_DEFAULT, [], []),
    ("20 features, one of 3 is required", 2, without_edges(20), [], ["--at-least-one-of", group(3)]),
    (
        "20 features, all three of these",
        2,
        WITH_DEFAULT,
        [],
        ["--mutually-exclusive-features", group(4), "--at-least-one-of", "f10,f11,f12"],
    ),
    ("60 features as a large crate has them", 2, *large_crate(), LARGE),
]


def print_samples(calls, path, listed):
    """Prints how many sets samples have, the least number where it is known, and how many sets there are in all."""
    print(f"{'sample':40}{'strength':>9}{'sets':>6}{'least':>7}{'all sets':>11}{'seconds':>9}{'MiB':>7}")
    base = [*LIST, "--feature-powerset", "--exclude-no-default-features", "--exclude-all-features"]
    for title, strength, features, dependencies, options in SAMPLES:
        with open(path, "w", encoding="utf-8") as out:
            out.write(workspace(1, with_features(features, dependencies), features, dependencies))
        is_free = not options and not any(features.values())
        count = len(features) + len(dependencies)
        words = [calls, *base, *options, "--strength", str(strength)]
        sets = commands_of(words, path, listed)
        least = least_for_pairs(count) if is_free and strength == 2 else "-"
        every = "-"
        if is_free:
            every = f"{2**count - 1:,}" if count <= 20 else f"{2**count:.0e}"
        elif count <= 20:
            every = f"{commands_of([calls, *base, *options], path, listed):,}"
        figures = f"{seconds_of(words, path):9.3f}{memory_of(words, path):>7}"
        print(f"{title:40}{strength:9}{sets:6}{least:>7}{every:>11}{figures}", flush=True)


def commands_of(words, path, listed):
    """How many commands a call lists."""
    write_list(words, path, listed)
    with open(listed, encoding="utf-8") as written:
        return sum(line.startswith("cargo check ") for line in written)


# ---- Lists of the built program.

# Titles, members, features of each, arguments. Under `--no-dev-deps` each member has development dependencies, so that its
# manifest is edited, and restored at the end.
LISTS = [
    ("20 free features", 1, 20, ["--feature-powerset"]),
    ("16 free features", 1, 16, ["--feature-powerset"]),
    ("3 free features", 1, 3, ["--feature-powerset"]),
    ("100 members with 5 features each", 100, 5, ["--each-feature"]),
]
LISTS += [(f"{members:,} members are edited", members, 1, ["--no-dev-deps"]) for members in (100, 400, 1600)]


def lay_out(folder, cargo, members, features, dev=False, rules=None):
    """A workspace, and the answers of the stand-in for cargo at this path; how a program is called there."""
    told = told_by_cargo(members, features, rules=rules).replace('"/w', f'"{folder}/w')
    files = {"answers/version": "cargo 1.90.0\nrelease: 1.90.0\nhost: h\n", "answers/metadata.json": told}
    files |= {"answers/locate.json": json.dumps({"root": f"{folder}/w/p0/Cargo.toml"}), "w/Cargo.toml": "[workspace]\n"}
    manifest = with_features(features) + ('\n[dev-dependencies]\ne1 = "1"\ne2 = "1"\n' if dev else "")
    files |= {f"w/p{i}/Cargo.toml": manifest for i in range(members)}
    for name, text in files.items():
        write(f"{folder}/{name}", text)
    return {"cwd": f"{folder}/w", "env": {"CARGO": cargo, "STAND_DIR": f"{folder}/answers"}}


def print_lists(powerset_list, hack, cargo, other, folder, path):
    """Prints the times and the memory of lists: how often powerset-list takes as long, and what another program takes."""
    print(f"{'list of cargo-hack':40}{'seconds':>9}{'MiB':>7}{'of powerset-list':>18}" + f"{'other':>9}{'MiB':>7}{'of it':>7}" * bool(other))
    for title, members, count, options in LISTS:
        features = without_edges(count)
        where = lay_out(f"{folder}/{members}-{count}", cargo, members, features, "--no-dev-deps" in options)
        words = [*LIST, *options]
        with open(path, "w", encoding="utf-8") as out:
            json.dump(features, out)
        seconds = seconds_of([hack, *words], path, **where)
        line = f"{title:40}{seconds:9.3f}{memory_of([hack, *words], path, **where):>7}"
        line += f"{seconds / seconds_of([powerset_list], path):18.1f}" if members == 1 else f"{'':18}"
        if other:
            others = seconds_of([other, *words], path, **where)
            line += f"{others:9.3f}{memory_of([other, *words], path, **where):>7}{seconds / others:7.2f}"
        print(line, flush=True)


# The rules of members, in their tables and by options.
RULES = {"exclude-features": ["f04"], "mutually-exclusive-features": [["f00", "f01"]], "depth": 3}
AS_OPTIONS = ["--exclude-features", "f04", "--mutually-exclusive-features", "f00,f01", "--depth", "3"]


def print_tables(hack, cargo, folder, path):
    """Prints the time of a list over 100 members by options, and of the same list by tables of rules in their manifests, which
    is to take at most 1.2 times as long."""
    print(f"{'list over 100 members with 5 features':40}{'seconds':>9}{'of options':>18}")
    by_options = None
    for title, rules, options in (("by options", None, AS_OPTIONS), ("by tables", RULES, ["--package-rules"])):
        where = lay_out(f"{folder}/{title[3:]}", cargo, 100, without_edges(5), rules=rules)
        seconds = seconds_of([hack, *LIST, "--feature-powerset", *options], path, **where)
        by_options = by_options or seconds
        print(f"{title:40}{seconds:9.3f}{seconds / by_options:18.2f}", flush=True)


def print_guard(hack, cargo, folder, path):
    """Prints the time of a list for which one manifest is edited, where a guard can be started and where it can't."""
    where = lay_out(f"{folder}/guard", cargo, 1, without_edges(1), dev=True)
    print(f"{'a member is edited':40}{'seconds':>9}")
    for title, tools in (("with a guard", ["sh"]), ("without, no shell is in the PATH", [])):
        search = f"{folder}/guard/{len(tools)}"
        os.makedirs(search)
        for tool in tools:
            os.symlink(shutil.which(tool), f"{search}/{tool}")
        where["env"]["PATH"] = search
        print(f"{title:40}{seconds_of([hack, *LIST, '--no-dev-deps'], path, **where):9.3f}", flush=True)


def print_parallel(hack, cargo, folder, path):
    """Prints the time of 32 runs of a tenth of a second each, by how many go side by side: at four, on four free processors, it
    is to be at most 0.4 of that of one by one."""
    where = lay_out(f"{folder}/parallel", cargo, 1, without_edges(31))
    slow = f"{folder}/parallel/slow"
    write(slow, f'#!/bin/sh\ncase "$1" in check) exec sleep 0.1;; esac\nexec {cargo} "$@"\n', 0o755)
    where["env"] |= {"CARGO": slow, "PATH": "/usr/bin:/bin"}
    print(f"{'32 runs of a tenth of a second':40}{'seconds':>9}{'of one by one':>18}")
    one_by_one = None
    for width in (1, 2, 4, 8):
        words = [hack, *"hack check --each-feature --exclude-all-features --parallel".split(), str(width)]
        seconds = seconds_of(words, path, **where)
        one_by_one = one_by_one or seconds
        print(f"{f'--parallel {width}':40}{seconds:9.3f}{seconds / one_by_one:18.2f}", flush=True)


# ---- Measuring.


def seconds_of(words, path, **where):
    """The least wall time of three runs of a program, whose input is the file."""
    least = None
    for _ in range(RUNS):
        with open(path, "rb") as given:
            start = time.perf_counter()
            ended = subprocess.run(words, stdin=given, stdout=subprocess.DEVNULL, stderr=subprocess.PIPE, text=True, **where)
            took = time.perf_counter() - start
        if ended.returncode != 0:
            sys.exit(f"{words[0]} failed: {ended.stderr}")
        least = took if least is None else min(least, took)
    return least


def memory_of(words, path, **where):
    """The peak memory of a program in MiB."""
    if GNU_TIME is None:
        return "-"
    with open(path, "rb") as given:
        how = {"stdin": given, "stdout": subprocess.DEVNULL, "stderr": subprocess.PIPE}
        told = subprocess.run([GNU_TIME, "-f", "%M", *words], text=True, **how, **where).stderr
    return f"{int(told.split()[-1]) / 1024:.1f}"


def write_list(words, path, listed):
    """Writes what a program prints, whose input is the file at `path`, to the file at `listed`."""
    with open(path, "rb") as given, open(listed, "wb") as out:
        subprocess.run(words, stdin=given, stdout=out, check=True)


def lines_of(path):
    count = 0
    with open(path, "rb") as written:
        while block := written.read(1 << 20):
            count += block.count(b"\n")
    return count


def main():
    if len(sys.argv) not in (2, 3, 4, 6, 7):
        sys.exit("usage: tests/bench.py PROGRAM [ROWS [CALLS [HACK CARGO [OTHER]]]]")
    program = os.path.abspath(sys.argv[1])
    print(f"{'map':48}{'seconds':>9}{'of cat':>8}{'MiB':>9}{'lines':>12}")
    with tempfile.TemporaryDirectory() as folder:
        path, listed = os.path.join(folder, "features.json"), os.path.join(folder, "list")
        for title, features, options in CASES:
            with open(path, "w", encoding="utf-8") as out:
                json.dump(features, out)
            words = [program, *options]
            seconds, memory = seconds_of(words, path), memory_of(words, path)
            write_list(words, path, listed)
            ratio = seconds / seconds_of(["cat", listed], path)
            print(f"{title:48}{seconds:9.3f}{ratio:8.1f}{memory:>9}{lines_of(listed):12,}", flush=True)
        others = [(title, text, [it]) for it in sys.argv[2:3] for title, text in TABLES]
        others += [(title, text, [it, *words]) for it in sys.argv[3:4] for title, text, words in CALLS]
        for title, text, words in others:
            with open(path, "w", encoding="utf-8") as out:
                out.write(text)
            words = [os.path.abspath(words[0]), *words[1:]]
            print(f"{title:48}{seconds_of(words, path):9.3f}{'':8}{memory_of(words, path):>9}", flush=True)
        for calls in sys.argv[3:4]:
            print_samples(os.path.abspath(calls), path, listed)
        if len(sys.argv) > 4:
            hack, cargo, *other = map(os.path.abspath, sys.argv[4:])
            print_lists(program, hack, cargo, other[0] if other else None, folder, path)
            print_tables(hack, cargo, folder, path)
            print_guard(hack, cargo, folder, path)
            print_parallel(hack, cargo, folder, path)


if __name__ == "__main__":
    main()
