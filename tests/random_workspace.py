"""Random small workspaces, some with tables of rules in their manifests, arguments for `cargo-hack` that break no rule,
and stand-ins for cargo and rustup: for the scripts lists_by_definition.py and odd_calls.py.
"""
import json
import os
import subprocess
from collections import namedtuple

# A use of an option: its name, its value, and how both were written: the arguments, and what of them is passed on.
Use = namedtuple("Use", "name value words written")


def parts(text):
    """The names of a group: between commas, or else between spaces."""
    return text.split("," if "," in text else " ")


FEATURES = ["a", "b", "c", "default", "std", "x-y", "B", "e1"]
DEPENDENCIES = ["d", "e", "tokio", "a"]
VALUES = ["nope", "tokio/full", "tokio?/full", "d/x", "e?/y", "dep:d", "dep:e", "dep:tokio", "dep:a", "d", "e", "a/x",
          "a?/x", "b/x", "b?/x", "c?/x", "std?/x"]
VERSIONS = ["1.60", "1.61", "1.61.2", "1.62", "1.63.0"]
TARGETS = ["x86_64-unknown-linux-gnu", "aarch64-apple-darwin", "wasm32-unknown-unknown"]


# Values that the keys of a table of rules may not have, an unknown key, and fields that are no table.
FAULTS = [("exclude-features", "a"), ("exclude-features", ["a", 1]), ("mutually-exclusive-features", ["a", "b"]),
          ("mutually-exclusive-features", [["a", "b"], ["c"]]), ("at-least-one-of", [[]]), ("group-features", [["a", True]]),
          ("group-features", {}), ("optional-deps", "d"), ("optional-deps", [["d"]]), ("exclude-no-default-features", 1),
          ("exclude-all-features", "true"), ("depth", -1), ("depth", "2"), ("depth", 1.5), ("strength", 0),
          ("strength", [2]), ("exclude_features", [])]
NO_TABLES = [True, "depth = 2", [], [{"depth": 2}]]


def random_map(rng, names):
    """A feature map: a chain, a cycle, or values at random."""
    style = rng.choice(["none", "chain", "cycle", "random", "random", "random"])
    features = {name: [] for name in names}
    for place, name in enumerate(names):
        if style == "chain" and place or style == "cycle":
            features[name].append(names[place - 1])
        if style == "random":
            features[name] += rng.sample(names, min(len(names), rng.choice([0, 0, 1, 1, 2])))
        if rng.random() < 0.5:
            features[name] += rng.sample(VALUES, rng.choice([1, 1, 2]))
    return features


def random_table(rng, names):
    """What a table of rules in a manifest holds: some of its keys, each with a value of one of its forms."""

    def some(low, high):
        return rng.sample(names, min(len(names), rng.randint(low, high)))

    def group():
        return (some(2, 3) + ["nope", "no/pe"])[:rng.choice([2, 2, 3])]

    def groups():
        return [group() for _ in range(rng.choice([0, 1, 1, 1, 1, 2]))]

    forms = {
        "depth": (0.3, lambda: rng.choice([0, 1, 2, 2, 3])),
        "strength": (0.2, lambda: rng.choice([1, 2, 2, 3])),
        "exclude-features": (0.3, lambda: some(0, 2)),
        "mutually-exclusive-features": (0.3, groups),
        "at-least-one-of": (0.2, groups),
        "group-features": (0.25, lambda: [group()]),
        "optional-deps": (0.35, lambda: rng.choice([True, True, False, some(0, 2), some(1, 1) + some(1, 2)])),
        "exclude-no-default-features": (0.2, lambda: rng.random() < 0.8),
        "exclude-all-features": (0.25, lambda: rng.random() < 0.8),
    }
    return {key: make() for key, (likelihood, make) in forms.items() if rng.random() < likelihood}


def random_metadata(rng, names):
    """What `metadata` in a manifest holds: often a table of rules, seldom one with a fault; or nothing at all."""
    if rng.random() < 0.3 or not names:
        return rng.choice([None, None, None, {}, {"docs.rs": {"all-features": True}}, "text", ["cargo-hack"]])
    table = random_table(rng, names)
    if rng.random() < 0.05:
        table.update(rng.sample(FAULTS, rng.choice([1, 1, 2])))
    if rng.random() < 0.01:
        table = rng.choice(NO_TABLES)
    return {"cargo-hack": table, "other": {"depth": 0}} if rng.random() < 0.1 else {"cargo-hack": table}


def names_of(package):
    """Names that the rules of a package may have: its features and dependencies, and one that it lacks."""
    own = sorted({*package["manifest"], *(it["rename"] or it["name"] for it in package["dependencies"])})
    return own + [f"{it['name']}/x" for it in package["dependencies"][:1]]


def random_package(rng, name, folder, most):
    version = rng.choice(["0.1.0", "1.2.3", "0.10.0-alpha.1"])
    manifest = random_map(rng, rng.sample(FEATURES, rng.randint(0, most)))
    dependencies = []
    for it in rng.sample(DEPENDENCIES, rng.choice([0, 0, 1, 1, 2])):
        rename = rng.choice([None, None, None, "re" + it])
        dependencies.append({"name": it, "optional": rng.random() < 0.7, "rename": rename})
        if rng.random() < 0.1:
            dependencies.append(dict(dependencies[-1], optional=rng.random() < 0.5))
    # Newer cargos print an optional dependency that is a feature by itself as a feature.
    record = dict(manifest)
    if rng.random() < 0.7:
        for it in dependencies:
            own = it["rename"] or it["name"]
            if it["optional"] and all("dep:" + own not in values for values in manifest.values()):
                record.setdefault(own, ["dep:" + own])
    private = rng.random() < 0.25
    style = rng.choice(["#{v}", "#{n}@{v}", ""])
    package = {
        "id": f"path+file://{folder}" + style.format(n=name, v=version), "name": name, "version": version,
        "dependencies": dependencies, "manifest": manifest, "record": record, "private": private,
        "publish": [] if private else rng.choice([None, None, ["elsewhere"]]),
        "manifest_path": f"{folder}/Cargo.toml", "rust_version": None if rng.random() < 0.15 else rng.choice(VERSIONS),
    }
    names = names_of(package) + rng.sample(FEATURES, 1)
    return {**package, "metadata": random_metadata(rng, names + ["nope"] * (rng.random() < 0.2))}


def random_workspace(rng, root, most=5):
    """A workspace of one to four packages, each with at most so many features."""
    names = rng.sample(["alpha", "beta", "al", "gamma_2", "zed", "Upper"], rng.randint(1, 4))
    rooted = rng.random() < 0.4
    packages = [
        random_package(rng, name, root if rooted and not place else f"{root}/{name}", most)
        for place, name in enumerate(names)
    ]
    if rng.random() < 0.06:
        packages[0]["rust_version"] = rng.choice(["2.0", "1", "1.58", "1.70"])
    if rng.random() < 0.15:
        for it in packages:
            it["rust_version"] = packages[0]["rust_version"]
    members = [it["id"] for it in packages]
    rng.shuffle(members)
    if rng.random() < 0.05:
        members.append(members[0])
    nodes = {it["id"]: [] for it in packages}
    for package in list(packages):
        for it in package["dependencies"]:
            if it["name"] + "#1" not in [one["id"] for one in packages]:
                packages.append({
                    "id": it["name"] + "#1", "name": it["name"], "version": "1.0.0", "dependencies": [], "manifest": {},
                    "record": {f: [] for f in rng.sample(["x", "full", "rt"], rng.randint(0, 2))}, "private": False,
                    "publish": None, "manifest_path": f"/cargo/{it['name']}/Cargo.toml", "rust_version": None,
                    "metadata": rng.choice([None, None, {"cargo-hack": {"depth": -1}}])})
            kinds = rng.choice([[(None, None)], [(None, None)], [("dev", None)], [(None, "cfg(unix)"), (None, None)]])
            nodes[package["id"]].append((it["name"] + "#1", kinds))
    rng.shuffle(packages)
    own = [it["manifest_path"] for it in packages if it["id"] in members]
    located = rng.choice(own + [f"{root}/Cargo.toml"] * 2)
    folder = rng.choice([root, root, os.path.dirname(rng.choice(own))])
    minor = rng.choice([90, 90, 90, 70, 64, 63, 57, 40, 38, None])
    own = [names_of(it) for it in packages if it["id"] in members]
    names = sorted({*(sum(own, []) if rng.random() < 0.4 else rng.choice(own)), *rng.sample(FEATURES, rng.randint(0, 2))})
    return {"root": root, "packages": packages, "members": members, "nodes": nodes, "located": located,
            "folder": folder, "minor": minor, "stable": rng.choice([None, None, 63, 95]),
            "metadata": random_metadata(rng, names)}


def names_near(rng, workspace):
    """A few names that arguments may have: features, dependencies, values of features, their fronts."""
    names = set()
    for it in workspace["packages"]:
        values = [value for values in it["manifest"].values() for value in values]
        names |= {*it["manifest"], *(one["rename"] or one["name"] for one in it["dependencies"])}
        fronts = [one for value in values for one in (value, value.split("/")[0], value.split("?")[0])]
        names |= {one for one in fronts if rng.random() < 0.5}
        names |= {f"{one['rename'] or one['name']}/{rng.choice(['x', 'full', 'rt'])}" for one in it["dependencies"]}
    names = sorted(names | set(rng.sample(FEATURES, 2)))
    return rng.sample(names, min(len(names), rng.randint(3, 7))) + ["nope"] * (rng.random() < 0.2)


class Words:
    """Words in the making: the uses of options, and the names that they speak of."""

    def __init__(self, rng, workspace):
        self.rng, self.workspace, self.uses = rng, workspace, []
        self.focus = names_near(rng, workspace)
        self.members = [it for it in workspace["packages"] if it["id"] in workspace["members"]]
        # Names that may not be excluded too, and whether unknown ones may be ignored.
        self.named, self.has_lists = set(), False

    def add(self, name, value=None, alias=None):
        written = alias or name
        if value is None:
            words = [written]
        elif written.startswith("--"):
            words = [f"{written}={value}"] if self.rng.random() < 0.4 else [written, value]
        else:
            words = self.rng.choice([[written, value], [written + value], [f"{written}={value}"]])
        self.uses.append(Use(name, value, words, [written]))

    def chance(self, likelihood):
        return self.rng.random() < likelihood

    def near(self, low, high, but=()):
        names = [it for it in self.focus if it not in but]
        return self.rng.sample(names, min(len(names), self.rng.randint(low, high)))

    def joined(self, names):
        return self.rng.choice(", ").join(names)

    def quoted(self, names):
        text = self.joined(names)
        if len(names) > 1 and self.chance(0.1):
            text += text[len(names[0])]
        return self.rng.choice([text, text, f"'{text}'", f'"{text}"'])

    def features(self):
        features = self.near(1, 2) if self.chance(0.25) else []
        if features:
            self.add("--features", self.quoted(features), self.rng.choice(["--features", "-F"]))
            self.has_lists = True
            self.named |= set(features)
            if self.chance(0.2):
                more = self.near(1, 1)
                self.add("--features", self.joined(more))
                self.named |= set(more)

    def groups(self):
        """What chooses among the sets of a powerset."""
        if self.chance(0.3):
            self.add("--depth", str(self.rng.choice([0, 1, 1, 2, 2, 3, 10])))
        if self.chance(0.35):
            self.add("--strength", str(self.rng.choice([1, 2, 2, 2, 3, 9])))
        for option, likelihood in (("--group-features", 0.25), ("--mutually-exclusive-features", 0.35),
                                   ("--at-least-one-of", 0.25)):
            for _ in range(self.rng.choice([1, 1, 2]) if self.chance(likelihood) else 0):
                group = self.near(2, 3) + ([""] if self.chance(0.03) else [])
                own = sorted(self.rng.choice(self.members)["manifest"])
                if len(own) > 1 and self.chance(0.5):
                    group = self.rng.sample(own, 2)
                if len(group) < 2:
                    group += ["nope"]
                self.add(option, self.joined(group))
                self.has_lists |= option == "--group-features"
                if option != "--at-least-one-of":
                    self.named |= set(group)
        for it in [it for it in self.uses if it.name == "--mutually-exclusive-features"]:
            if self.chance(0.6):
                owners = [one for one in self.members if set(parts(it.value)) <= set(one["manifest"])]
                package = self.rng.choice(owners or self.members)["name"]
                self.add("--allow-together", f"{package}={self.joined(parts(it.value))}")
                if self.chance(0.4):
                    self.add("--mutually-exclusive-features", self.joined(parts(it.value)[::-1]))

    def candidates(self):
        """What combinations are made of, and which are left out."""
        if self.chance(0.2):
            include = self.near(1, 4)
            include += include[:1] if self.chance(0.3) else []
            self.add("--include-features", self.quoted(include))
            self.has_lists = True
            self.named |= set(include)
        else:
            self.dependencies()
        for option in ("--exclude-no-default-features", "--exclude-all-features"):
            if self.chance(0.15):
                self.add(option)
        excluded = self.near(1, 2, self.named) if self.chance(0.25) else []
        if excluded:
            self.add("--exclude-features", self.quoted(excluded), self.rng.choice(["--exclude-features", "--skip"]))

    def dependencies(self):
        if self.chance(0.4):
            some = self.rng.sample(DEPENDENCIES + ["red", "nope"], self.rng.randint(1, 3))
            value = self.rng.choice([None, None, None, "", self.joined(some)])
            if value is None:
                self.add("--optional-deps")
            else:
                self.uses.append(Use("--optional-deps", value, [f"--optional-deps={value}"], []))
                self.named |= set(parts(value))
        if newest_of(self.workspace) >= 41 and self.workspace["minor"] and self.chance(0.2):
            self.add("--include-deps-features")

    def spec(self):
        """A package ID specification of a member."""
        it = self.rng.choice(self.members)
        full = it["version"]
        version = self.rng.choice([full, full.split("-")[0], full[:3].rstrip("."), full[0], "1"])
        place = it["id"].split("#")[0]
        return self.rng.choice([
            it["name"], it["name"], it["name"], it["name"] + self.rng.choice("@:") + version, it["id"], place,
            it["id"].split("+")[1], f"{place}#{version}", f"{place}#{it['name']}", f"{place}#{it['name']}@{version}"])

    def packages(self):
        if self.chance(0.6):
            self.add("--workspace", None, self.rng.choice(["--workspace", "--all"]))
        elif self.chance(0.5):
            for _ in range(self.rng.randint(1, 2)):
                spec = self.spec() if self.chance(0.97) else "nobody"
                self.add("--package", spec, self.rng.choice(["-p", "--package"]))
        if self.chance(0.25):
            self.add("--exclude", self.spec() if self.chance(0.9) else "nobody")
        if self.chance(0.15):
            self.add("--ignore-private")
        # Else the workspace's own package would be private, which is refused.
        root = [it for it in self.members if it["manifest_path"] == f"{self.workspace['root']}/Cargo.toml"]
        if self.chance(0.1) and not any(it["private"] for it in root):
            self.add("--no-private")

    def versions(self):
        which, stable = self.rng.random(), self.workspace["stable"]
        if which < 0.1:
            self.add("--rust-version")
        elif which < 0.4:
            ranges = ["1.60..=1.63", "1.60..1.62", "1.61..=1.61", "1.60.1..=1.61", "1.59..=1.64", "1.63..=1.65"]
            ranges += ["..=1.64", "..=1.65", "..=1.63", "..=1.62", "..1.64.2"] * 2
            if stable:
                ranges += ["1.62..", f"1.{stable - 1}..", f"1.{stable}"] + [".."] * (stable < 64)
            if not self.chance(0.93):
                ranges = ["1.60..=2.1", "2.0..=2.1", "1.62..=1.60"]
            self.add("--version-range", self.rng.choice(ranges))
            if self.chance(0.5):
                self.add("--version-step", str(self.rng.choice([1, 2, 2, 3])))
        if which < 0.4 and self.chance(0.3):
            self.add("--clean-per-version")

    def others(self):
        for target in self.rng.choices(TARGETS, k=self.rng.choice([0, 0, 0, 0, 1, 2, 3])):
            self.add("--target", target)
        for option, likelihood in (("--clean-per-run", 0.15), ("--no-manifest-path", 0.2), ("--locked", 0.1),
                                   ("--keep-going", 0.05), ("--no-dev-deps", 0.05)):
            # (without paths a line doesn't show of which package's sample it is)
            samples = ("--strength", "--package-rules")
            is_sampled = option == "--no-manifest-path" and any(it.name in samples for it in self.uses)
            if self.chance(likelihood) and not is_sampled:
                self.add(option)
        for _ in range(self.rng.choice([0, 0, 0, 1, 2, 3])):
            self.add("--verbose", None, self.rng.choice(["-v", "--verbose"]))
        for word, passed in (("-nq", "-n -q"), ("-j4", "-j4"), ("--foo=bar", "--foo=bar"), ("--lib", "--lib")):
            if self.chance(0.06):
                self.uses.append(Use("unknown", None, [word], passed.split()))
        if self.chance(0.05):
            self.add("--color", "never")
        if self.chance(0.1):
            path = f"{self.workspace['root']}/Cargo.toml"
            self.add("--manifest-path", path, self.rng.choice(["--manifest-path", "-m"]))
        self.add("--print-command-list")


def random_words(rng, workspace):
    """Arguments that break no rule: the uses in their order, and the arguments after `--`."""
    words = Words(rng, workspace)
    sub = rng.choice(["check", "check", "build", "clippy"])
    words.uses.append(Use("subcommand", None, [sub], [sub]))
    mode = rng.choices(["plain", "each", "powerset"], [15, 25, 60])[0]
    if mode != "plain":
        words.add("--each-feature" if mode == "each" else "--feature-powerset")
    else:
        if words.chance(0.5):
            words.add("--workspace-behavior", None, "--workspace-behavior=cargo")
        if words.chance(0.3):
            words.add(rng.choice(["--all-features", "--no-default-features"]))
    words.features()
    if mode == "powerset":
        words.groups()
    if mode != "plain":
        words.candidates()
        if words.chance(0.5):
            words.add("--package-rules")
    if words.has_lists and words.chance(0.5):
        words.add("--ignore-unknown-features")
    words.packages()
    words.versions()
    words.others()
    rng.shuffle(words.uses)
    # Without a value it would take a next word that is no option.
    words.uses.sort(key=lambda it: it.words == ["--optional-deps"])
    return words.uses, rng.choice([[], [], [], ["-D", "warnings"], ["--workspace"]])


# ---- Asking the program.

STAND_IN = """#!/bin/sh
case "$*" in
    "run stable cargo -vV") {stable};;
    -vV) {version};;
    --version) echo 'rustup 1.27.1 (54dd3d00f 2024-04-24)';;
    *"metadata "*) printf '%s\\n' {metadata};;
    *locate-project*) printf '%s\\n' {located};;
    *) ! grep -qxFe "$*" {failing};;
esac
"""


def told(minor):
    return f"printf 'cargo 1.{minor}.0\\nrelease: 1.{minor}.0\\nhost: h\\n'" if minor else "exit 1"


def sheltered(value):
    return "'" + json.dumps(value).replace("'", "'\\''") + "'"


def newest_of(workspace):
    """The minor version of the cargo that is asked: stable's where it is newer."""
    return max(workspace["minor"] or 0, workspace["stable"] or 0)


def metadata(workspace):
    """What cargo prints, as old as it is."""
    newest = newest_of(workspace)
    packages = []
    for it in workspace["packages"]:
        record = {key: it[key] for key in ("id", "name", "version", "dependencies", "manifest_path")}
        record["features"], record["metadata"] = it["record"], it["metadata"]
        if newest >= 39:
            record["publish"] = it["publish"]
        if newest >= 58:
            record["rust_version"] = it["rust_version"]
        packages.append(record)
    nodes = [
        {"id": it, "deps": [
            {"pkg": other, "dep_kinds": [{"kind": kind, "target": target} for kind, target in kinds]}
            for other, kinds in deps]}
        for it, deps in workspace["nodes"].items()
    ]
    return {"packages": packages, "workspace_members": workspace["members"], "resolve": {"nodes": nodes},
            "workspace_root": workspace["root"], "metadata": workspace["metadata"]}


def manifest(package):
    lines = ["[package]", f'name = "{package["name"]}"']
    if package["rust_version"]:
        lines.append(f'rust-version = "{package["rust_version"]}"')
    if package["publish"] is not None:
        lines.append("publish = false" if package["private"] else 'publish = ["elsewhere"]')
    lines.append("[features]")
    lines += [f"{json.dumps(name)} = {json.dumps(values)}" for name, values in package["manifest"].items()]
    return "\n".join(lines) + "\n\n[dev-dependencies]\nd = '1'\n"


def write(path, text):
    os.makedirs(os.path.dirname(path), exist_ok=True)
    with open(path, "w", encoding="utf-8") as it:
        it.write(text)


def lay_out(workspace, tools):
    """The files of a workspace, and the stand-ins for cargo and rustup. These fail where their arguments are a line of
    the file `failing`."""
    root = workspace["root"]
    members = [it for it in workspace["packages"] if it["id"] in workspace["members"]]
    write(f"{root}/Cargo.toml", "")
    write(f"{root}/Cargo.lock", "# kept\n")
    for it in members:
        write(it["manifest_path"], manifest(it))
    with open(f"{root}/Cargo.toml", "a", encoding="utf-8") as it:
        it.write('\n[workspace]\nmembers = ["*"]\n')
    workspace["failing"] = f"{tools}/failing"
    write(workspace["failing"], "")
    text = STAND_IN.format(stable=told(workspace["stable"]), version=told(workspace["minor"]), failing=workspace["failing"],
                           metadata=sheltered(metadata(workspace)), located=sheltered({"root": workspace["located"]}))
    workspace["cargo"], workspace["rustup"] = f"{tools}/cargo", f"{tools}/rustup.sh"
    for tool in (workspace["cargo"], workspace["rustup"]):
        write(tool, text)
        os.chmod(tool, 0o755)


def call(program, workspace, words):
    """How a call ends; one that doesn't end in a minute has the status of the command `timeout`."""
    command = [program, "hack", *words]
    environment = {"PATH": os.environ["PATH"], "CARGO": workspace["cargo"], "CARGO_HACK_RUSTUP": workspace["rustup"]}
    try:
        return subprocess.run(command, cwd=workspace["folder"], env=environment, stdin=subprocess.DEVNULL,
                              capture_output=True, text=True, errors="replace", timeout=60, check=False)
    except subprocess.TimeoutExpired:
        return subprocess.CompletedProcess(command, 124, "", "no end within a minute")
