#!/usr/bin/env python3
"""Writes the man pages and the completions of bash, zsh and fish from the table of options that `cargo hack --help` prints.

usage: tools/manual.py CARGO_HACK           writes man/ and completions/
       tools/manual.py --check CARGO_HACK   writes nothing, and says which of them isn't what it would write

The options that the help leaves out are in HIDDEN below. The status is 1 where a file is stale.
"""

import pathlib
import re
import subprocess
import sys

import shells

ROOT = pathlib.Path(__file__).resolve().parent.parent

# Options that the help doesn't show: how they are written, and what they do, in paragraphs.
HIDDEN = [
    ("--no-default-features", ["Run without the default features. This is Cargo's own option."]),
    ("--all-features", ["Run with all features. This is Cargo's own option."]),
    ("--include-deps-features", ["Use the features of dependencies as features of the package."]),
    (
        "--strength <NUM>",
        [
            "Run a sample of the powerset, a few sets that show each pattern of at most NUM features.",
            "A pattern is a choice of features, each on or off. With 2, for each two features one set has both on, one both off,"
            " and one each alone on, where the other options allow such a set.",
            "With --keep-going, what only failed runs have is told at the end: see SUSPECTS.",
            "This flag can only be used together with --feature-powerset flag.",
        ],
    ),
    (
        "--restore",
        [
            "Bring back what an interrupted call left edited, and run nothing.",
            "Of other options only --verbose and --color may stand beside it.",
        ],
    ),
    (
        "--package-rules",
        [
            "Run each package also by the rules that its manifest and the workspace's have.",
            "They are the tables [package.metadata.cargo-hack] and [workspace.metadata.cargo-hack], with the keys exclude-features,"
            " mutually-exclusive-features, at-least-one-of, group-features, optional-deps, exclude-no-default-features,"
            " exclude-all-features, depth and strength, and are added to the rules of the call. Under --each-feature those count that"
            " exclude, and optional-deps.",
            "This flag can only be used together with --each-feature or --feature-powerset flag.",
        ],
    ),
    (
        "--parallel <NUM>",
        [
            "Run up to NUM commands at once, from 1 to 256, in the order and with the outcomes of one by one.",
            "Each has an empty input, and what it writes appears whole at its turn. The first builds into the target folder, others"
            " into folders cargo-hack-lane-K in it, which stay; dependencies are built once for each. Unless CARGO_BUILD_JOBS is"
            " set, the processors are shared between them, whatever build.jobs says. Where cargo gets --target-dir, or"
            " build.target-dir by --config, they go one by one.",
            "Toolchains, lockfiles and cleaning wait until nothing runs. After a failed run, without --keep-going, what was started"
            " ahead is ended, and shows nothing. A signal to cargo-hack alone ends none of them.",
            "This flag may not be used together with --print-command-list or --clean-per-run flag.",
        ],
    ),
    (
        "--find-rust-version",
        [
            "Find the least version of Rust on which all runs of a package pass, by few runs.",
            "The greatest version of the range is tried first, and then always the one in the middle of those left. A version is"
            " tried by the package's runs, until one fails. At the end a line for each package says its least version, which run"
            " fails on the one before, and where its `rust-version` is another. No version below that is tried, and none that"
            " --version-step leaves out. Where a preparation fails, or a program can't be started, the packages before have their"
            " lines.",
            "This flag can only be used together with --version-range flag, and not with --partition, --print-command-list,"
            " --keep-going, --workspace-behavior=cargo or --parallel flag.",
        ],
    ),
    (
        "--find-conflicts",
        [
            "Find the least sets of features that fail, and how many greatest ones pass, by few runs of the powerset.",
            "First all features are on that the options choose from, and then each run is chosen by those before. A set that fails is made smaller, until no"
            " allowed part of it fails: it is a conflict. No set is run that holds a failed one, or lies inside one that passed."
            " The sets are of any size: with --package-rules no depth and no strength counts.",
            "At the end an error names the conflicts of each package, and a line says how many greatest sets passed, with --verbose"
            " also which. Each allowed set without a conflict inside lies inside one of these.",
            "So it is taken for granted that what fails still fails with more features: a feature that builds only beside another"
            " isn't found, --each-feature finds it. A run counts as failed whatever the reason, also one that a signal ended. The"
            " features of --features are on in each run, and not named. `no feature at all` means that the package fails without"
            " features: where it needs one, give it by --features; where it needs one of some, by --at-least-one-of.",
            "This flag can only be used together with --feature-powerset flag, and not with --depth, --strength, --partition,"
            " --print-command-list, --version-range, --rust-version or --parallel flag.",
        ],
    ),
    (
        "--most-runs <NUM>",
        [
            "Run at most NUM sets to find conflicts, of all packages together.",
            "A search that needs more ends there: it warns, and says what it knows so far. A set that failed, and would have been"
            " made smaller, is an error. A set whose run was built already counts too.",
            "This flag can only be used together with --find-conflicts flag.",
        ],
    ),
]

# What the help leaves out of an option's paragraphs.
MORE = {
    "--allow-together": "PKG=FEATURES is the package, and all features of the group, in its order: `--allow-together codec=binary,json`.",
    "--partition-kind": "With block, the default, a piece is a stretch of the list of runs. With turn, piece M of N is each Nth run, from run M on.",
}

ENVIRONMENT = [
    ("CARGO_HACK_CARGO_SRC, CARGO", "The cargo to call; the first that is set counts."),
    ("CARGO_HACK_RUSTUP", "The rustup to call for ranges of versions."),
    (
        "CARGO_HACK_DENY_WARNINGS",
        "Where it is set to anything at all, also to `false`, `0` or an empty text, a warning makes the exit status 1.",
    ),
    ("CARGO_TERM_COLOR, NO_COLOR", "Whether messages are coloured."),
    ("GITHUB_ACTIONS", "Where it is set, each run is a group of the log."),
    ("CARGO_BUILD_JOBS, TMPDIR", "Under --parallel: how many jobs each cargo has, and where outputs wait for their turn."),
]


class Option:
    """An option: how it is written (`-p, --package <SPEC>...`), and what it does, in paragraphs."""

    def __init__(self, usage, paragraphs):
        self.usage, self.paragraphs = usage, paragraphs
        self.names = re.findall(r"(?<!\S)--?[a-zA-Z][\w-]*", usage)
        self.value = usage.partition(self.names[-1])[2].strip()

    @property
    def long(self):
        return self.names[-1]

    @property
    def letter(self):
        return self.names[0] if len(self.names) > 1 else ""

    @property
    def takes_value(self):
        """Whether the next word is its value."""
        return self.value.startswith("<") or self.long == "--version-range"

    @property
    def is_path(self):
        return self.value == "<PATH>"

    @property
    def values(self):
        """The values that it takes, where the table lists them (`Coloring: auto, always, never`)."""
        if self.completed != self.long:
            return [self.value[1:]]
        listed = re.fullmatch(r"\w+(?: \w+)*: ([\w-]+(?:, [\w-]+)+)", self.text)
        return listed[1].split(", ") if listed else []

    @property
    def completed(self):
        """The option as it is typed: with the value that belongs to its name."""
        return self.long + (self.value if self.value.startswith("=") and "<" not in self.value else "")

    @property
    def text(self):
        """What it does, in one line."""
        return self.paragraphs[0].rstrip(".")


def options(help_text):
    """The options of the long help, and those that it leaves out."""
    part = help_text.partition("\nOPTIONS:\n")[2].partition("\nSome common cargo commands")[0]
    found = []
    for block in re.split(r"(?m)^(?= {4}-| {8}--)", part):
        usage, _, rest = block.strip("\n").partition("\n")
        if usage.strip():
            paragraphs = [" ".join(it.split()) for it in re.split(r"\n\s*\n", rest) if it.strip()]
            option = Option(usage.strip(), paragraphs)
            option.paragraphs[1:1] = [MORE[option.long]] if option.long in MORE else []
            found.append(option)
    return found + [Option(usage, paragraphs) for usage, paragraphs in HIDDEN]


def roff(text):
    """A text as roff reads it."""
    text = text.replace("\\", "\\\\").replace("-", "\\-")
    return re.sub(r"`([^`]*)`", r"\\fB\1\\fP", text if not text.startswith((".", "'")) else "\\&" + text)


def man_usage(option):
    """How an option is written, its names bold and its value in italics."""
    names = ", ".join(f"\\fB{roff(it)}\\fP" for it in option.names)
    value = option.value
    if not value:
        return names
    return f"{names}{'' if value.startswith('=') else ' '}\\fI{roff(value)}\\fP"


def man(name, section, title, parts):
    """A man page of these parts: a heading each, and its lines."""
    lines = [f'.TH "{name.upper()}" "{section}" "" "{name}" "{title}"']
    for heading, text in parts:
        lines += [f".SH {heading}", *text]
    return "\n".join(lines) + "\n"


def items(pairs):
    """A list of terms, each with its paragraphs."""
    lines = []
    for term, paragraphs in pairs:
        lines += [".TP", term, roff(paragraphs[0])]
        for paragraph in paragraphs[1:]:
            lines += [".IP", roff(paragraph)]
    return lines


def cargo_hack_page(found):
    return man("cargo-hack", 1, "Cargo", [
        ("NAME", ["cargo\\-hack \\- run cargo for each sensible combination of a package's features"]),
        ("SYNOPSIS", ["\\fBcargo hack\\fP [\\fIOPTIONS\\fP] [\\fISUBCOMMAND\\fP] [\\fIARGUMENTS OF CARGO\\fP]"]),
        ("DESCRIPTION", [
            roff("Runs a subcommand of cargo, as `check` or `test`, for each feature of the packages, for each set of their"),
            roff("features, or for each version of Rust in a range. Arguments that it doesn't know go to cargo."),
        ]),
        ("OPTIONS", items((man_usage(it), it.paragraphs) for it in found)),
        ("SUSPECTS", [
            roff("Where runs of a sample (--strength NUM) fail under --keep-going, notes behind the report name their suspects: the"),
            roff("smallest combinations of at most NUM features, each on or off, that a failed run of a package shows and no passed"),
            roff("one. What breaks the build is likely among them."),
            ".PP",
            ".nf",
            roff("    info: in codec all 2 failed runs have one of these, and no passed run does:"),
            roff("    info:     compact on, trace on"),
            ".fi",
            ".PP",
            roff("Here each failed run has both features on, and each passed run lacks one of them. A line says how many failed runs"),
            roff("show no suspect, where there are some; a greater NUM may find what they have. At most twenty are shown, those"),
            roff("first that most failed runs show. Nothing is said of a package of which all runs failed. With --partition only the"),
            roff("runs of the piece count."),
        ]),
        ("ENVIRONMENT", items((f"\\fB{roff(name)}\\fP", [text]) for name, text in ENVIRONMENT)),
        ("FILES", items([("\\fB.git/cargo\\-hack\\-journal\\fP, \\fB.cargo\\-hack\\-journal\\fP", [
            "What edited manifests held, kept while they are edited: in the repository of the workspace, or else beside its"
            " manifest. Where a call ends early, its guard, a shell, restores them at once. Where that can't act, as after"
            " the machine stopped, the next call does, or `cargo hack --restore`, an error while another call's edits stand.",
        ])])),
        ("EXIT STATUS", [
            roff("0, or 1 after an error, as a conflict is one that was found. A warning counts as an error where"),
            roff("CARGO_HACK_DENY_WARNINGS is set to anything. A signal ends the call as such: 128 and its number, in a shell."),
        ]),
        ("EXAMPLES", items([
            ("\\fBcargo hack check \\-\\-each\\-feature \\-\\-workspace\\fP", ["Check each feature of each package alone."]),
            ("\\fBcargo hack test \\-\\-feature\\-powerset \\-\\-depth 2\\fP", ["Test each set of at most two features."]),
            ("\\fBcargo hack check \\-\\-version\\-range 1.60..\\fP", ["Check with each minor version of Rust from 1.60 on."]),
            ("\\fBcargo hack check \\-\\-feature\\-powerset \\-\\-partition 1/4\\fP", ["Run the first of four pieces."]),
            ("\\fBcargo hack check \\-\\-feature\\-powerset \\-\\-find\\-conflicts\\fP", ["Find features that don't build together."]),
        ])),
        ("SEE ALSO", ["\\fBcargo\\fP(1), \\fBpowerset\\-list\\fP(1)"]),
    ])


def powerset_list_page():
    return man("powerset-list", 1, "Cargo", [
        ("NAME", ["powerset\\-list \\- list the commands of a feature powerset"]),
        ("SYNOPSIS", [
            "\\fBpowerset\\-list\\fP [\\fB\\-\\-depth\\fP \\fIN\\fP] [\\fB\\-\\-at\\-least\\-one\\-of\\fP \\fILIST\\fP]...",
            "[\\fB\\-\\-mutually\\-exclusive\\-features\\fP \\fILIST\\fP]...",
        ]),
        ("DESCRIPTION", [
            roff("Reads the feature map of a package from standard input, a JSON object whose values are arrays of texts, and"),
            roff("prints the commands that `cargo hack check --feature-powerset` would run for it, one a line."),
        ]),
        ("OPTIONS", items([
            ("\\fB\\-\\-depth\\fP \\fIN\\fP", ["The most features in one set."]),
            ("\\fB\\-\\-at\\-least\\-one\\-of\\fP \\fILIST\\fP", ["Keep the sets that enable one of these features."]),
            ("\\fB\\-\\-mutually\\-exclusive\\-features\\fP \\fILIST\\fP", ["Keep the sets that reach at most one of these."]),
        ])),
        ("EXIT STATUS", [roff("0, or 1 after an error.")]),
        ("EXAMPLES", items([("\\fBecho '{\"a\": [], \"b\": [\"a\"]}' | powerset\\-list\\fP", ["The sets of two features, of which one enables the other."])])),
        ("SEE ALSO", ["\\fBcargo\\-hack\\fP(1)"]),
    ])


def main(words):
    is_check = words[:1] == ["--check"]
    words = words[is_check:]
    if len(words) != 1:
        sys.exit(__doc__)
    help_text = subprocess.run([words[0], "hack", "--help"], stdout=subprocess.PIPE, text=True, check=True).stdout
    found = options(help_text)
    files = {
        "man/cargo-hack.1": cargo_hack_page(found),
        "man/powerset-list.1": powerset_list_page(),
        "completions/cargo-hack.bash": shells.bash(found),
        "completions/_cargo-hack": shells.zsh(found),
        "completions/cargo-hack.fish": shells.fish(found),
    }
    stale = [it for it, text in files.items() if not (ROOT / it).is_file() or (ROOT / it).read_text("utf-8") != text]
    for it in stale:
        if is_check:
            print(f"{it} is stale: tools/manual.py writes it")
            continue
        (ROOT / it).parent.mkdir(exist_ok=True)
        (ROOT / it).write_text(files[it], "utf-8")
        print(f"wrote {it}")
    return 1 if stale and is_check else 0


if __name__ == "__main__":
    sys.exit(main(sys.argv[1:]))
