#!/usr/bin/env python3
"""Calls the built cargo-hack over the stand-ins for cargo and rustup, and compares its status, both of its
outputs, what the stand-ins were asked to run, and the files of the workspace afterwards.

usage: tests/whole_calls.py CARGO_HACK STAND_CARGO STAND_RUSTUP

The last line is `N passed, M failed`; the status is 1 where one failed.
"""
import json
import os
import subprocess
import sys
import tempfile

sys.dont_write_bytecode = True
from small_workspace import write  # noqa: E402

VERSION = "cargo 1.90.0\nrelease: 1.90.0\nhost: h\n"
RUN = "check --manifest-path Cargo.toml"
SET = f"{RUN} --no-default-features --features"
TWENTY = " ".join("abcdefghijklmnopqrst")
EMPTY = "error: specified version range `1.61..=1.60` is empty\n"
ENDED = f"error: process didn't exit successfully: `{{cargo}} {SET} a` (exit status: 101)\n"
REPORT = f"\nerror: failed to run 1 commands\n\nfailed commands:\n    p:\n        `{{cargo}} {SET} a`\n\n"

# Each call: the package's features and optional dependencies, the commands that fail, the arguments after `hack`, the status,
# what is written on standard error and on standard output, and what the stand-ins were asked to run, a line each.
# `{cargo}` is the path of the one for cargo.
CALLS = {
    "a run that fails, where others go on": (
        ("a b", "", f"{SET} a"),
        "check --each-feature --exclude-no-default-features --keep-going",
        1,
        "info: running `cargo check --all-features` on p (1/3)\n\n"
        "info: running `cargo check --no-default-features --features a` on p (2/3)\n" + ENDED + "\n"
        "info: running `cargo check --no-default-features --features b` on p (3/3)\n" + REPORT,
        "",
        f"{RUN} --all-features\n{SET} a\n{SET} b\n",
    ),
    "the same, where they don't": (
        ("a b", "", f"{SET} a"),
        "check --each-feature --exclude-no-default-features",
        1,
        "info: running `cargo check --all-features` on p (1/3)\n\n"
        "info: running `cargo check --no-default-features --features a` on p (2/3)\n" + ENDED,
        "",
        f"{RUN} --all-features\n{SET} a\n",
    ),
    "a piece": (
        ("a", "d", ""),
        "check --feature-powerset --depth 1 --optional-deps --partition 2/3",
        0,
        "info: skipping `cargo check --all-features` on p (1/4)\n\n"
        "info: skipping `cargo check --no-default-features` on p (2/4)\n\n"
        "info: running `cargo check --no-default-features --features a` on p (3/4)\n\n"
        "info: running `cargo check --no-default-features --features d` on p (4/4)\n",
        "",
        f"{SET} a\n{SET} d\n",
    ),
    "a piece that is dealt in turn": (
        ("a", "d", ""),
        "check --feature-powerset --depth 1 --optional-deps --partition 2/3 --partition-kind turn",
        0,
        "info: skipping `cargo check --all-features` on p (1/4)\n\n"
        "info: running `cargo check --no-default-features` on p (2/4)\n\n"
        "info: skipping `cargo check --no-default-features --features a` on p (3/4)\n\n"
        "info: skipping `cargo check --no-default-features --features d` on p (4/4)\n",
        "",
        f"{RUN} --no-default-features\n",
    ),
    "the list of a piece": (
        ("a", "d", ""),
        "check --feature-powerset --depth 1 --optional-deps --partition 2/3 --print-command-list --clean-per-run",
        0,
        "",
        f"cargo clean --package p\ncargo {SET} a\ncargo clean --package p\ncargo {SET} d\n",
        "",
    ),
    "the list of a piece that is dealt in turn": (
        ("a", "d", ""),
        "check --feature-powerset --depth 1 --optional-deps --partition 2/3 --partition-kind turn --print-command-list"
        " --clean-per-run",
        0,
        "",
        f"cargo clean --package p\ncargo {RUN} --no-default-features\n",
        "",
    ),
    "versions of which a piece skips one": (
        ("", "", ""),
        "check --version-range 1.60..=1.61 --partition 2/2",
        0,
        "info: skipping `rustup run 1.60 cargo check` on p (1/2)\n\n"
        "info: running `rustup run 1.61 cargo check` on p (2/2)\n",
        "",
        f"run 1.60 cargo --version\nrun 1.61 cargo --version\nrun 1.61 cargo {RUN}\n",
    ),
    "a toolchain that is added": (
        ("", "", "run 1.60 cargo --version"),
        "check --version-range 1.60..=1.60 --log-group github-actions",
        0,
        "",
        "::group::running `rustup toolchain add 1.60 --no-self-update`\n::endgroup::\n"
        "::group::running `rustup run 1.60 cargo check` on p (1/1)\n::endgroup::\n",
        f"run 1.60 cargo --version\ntoolchain add 1.60 --no-self-update\nrun 1.60 cargo {RUN}\n",
    ),
    # (of 6 of 20 features there are 38,760 * 64 patterns, and of 5 of them 15,504 * 32; the range is refused before a look)
    "a look that would be long": (
        (TWENTY, "", ""),
        "check --feature-powerset --strength 6 --version-range 1.61..=1.60",
        1,
        "info: looking for a sample of `p`: 20 features at strength 6\n" + EMPTY,
        "",
        "",
    ),
    "the same, in a list": (
        (TWENTY, "", ""),
        "check --feature-powerset --strength 6 --version-range 1.61..=1.60 --print-command-list",
        1,
        "info: looking for a sample of `p`: 20 features at strength 6\n" + EMPTY,
        "",
        "",
    ),
    "one that would be short": (
        (TWENTY, "", ""),
        "check --feature-powerset --strength 5 --version-range 1.61..=1.60",
        1,
        EMPTY,
        "",
        "",
    ),
}


def package(workspace, features, optional):
    """What cargo prints of the one package."""
    return {
        "id": "p",
        "name": "p",
        "version": "0.1.0",
        "dependencies": [{"name": it, "optional": True, "rename": None} for it in optional.split()],
        "features": {it: [] for it in features.split()},
        "manifest_path": f"{workspace}/Cargo.toml",
        "publish": None,
        "rust_version": None,
    }


def lay_out(folder, given):
    """The workspace, and the answers of the stand-ins; what the files of the workspace hold."""
    features, optional, fail = given
    workspace = f"{folder}/w"
    told = {
        "packages": [package(workspace, features, optional)],
        "workspace_members": ["p"],
        "resolve": None,
        "workspace_root": workspace,
    }
    manifest = '[package]\nname = "p"\n\n[features]\n' + "".join(f"{it} = []\n" for it in features.split())
    files = {
        "w/Cargo.toml": manifest,
        "answers/version": VERSION,
        "answers/stable": VERSION,
        "answers/rustup": "rustup 1.27.1 (54dd3d00f 2024-04-24)\n",
        "answers/metadata.json": json.dumps(told),
        "answers/locate.json": json.dumps({"root": f"{workspace}/Cargo.toml"}),
        "answers/fail": f"{fail}\n",
        "answers/calls": "",
    }
    for name, text in files.items():
        write(f"{folder}/{name}", text)
    return manifest


def fault_of(program, stands, folder, row):
    """What is wrong with a call, if something is."""
    given, words, status, err, out, asked = row
    manifest = lay_out(folder, given)
    cargo, rustup = f"{folder}/cargo", f"{folder}/rustup"
    for path, stand in zip([cargo, rustup], stands):
        os.symlink(stand, path)
    environment = {"CARGO": cargo, "CARGO_HACK_RUSTUP": rustup, "STAND_DIR": f"{folder}/answers"}
    ended = subprocess.run(
        [program, "hack", *words.split()],
        cwd=f"{folder}/w",
        env=environment,
        stdin=subprocess.DEVNULL,
        capture_output=True,
        check=False,
        timeout=60,
    )
    with open(f"{folder}/answers/calls", encoding="utf-8") as it:
        calls = it.read()
    found = [ended.returncode, ended.stderr.decode(), ended.stdout.decode(), calls]
    wanted = [status, err.replace("{cargo}", cargo), out, asked]
    if found != wanted:
        return f"{found}, and not {wanted}"
    with open(f"{folder}/w/Cargo.toml", encoding="utf-8") as it:
        kept = it.read() == manifest
    return None if kept and os.listdir(f"{folder}/w") == ["Cargo.toml"] else "the workspace isn't what it was"


def main():
    if len(sys.argv) != 4:
        sys.exit(__doc__)
    program, *stands = map(os.path.realpath, sys.argv[1:])
    failed = 0
    for name, row in CALLS.items():
        with tempfile.TemporaryDirectory(prefix="whole-calls-") as folder:
            fault = fault_of(program, stands, os.path.realpath(folder), row)
        if fault is not None:
            failed += 1
            print(f"{name}: {fault}")
    print(f"{len(CALLS) - failed} passed, {failed} failed")
    return 1 if failed else 0


if __name__ == "__main__":
    sys.exit(main())
