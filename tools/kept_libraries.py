#!/usr/bin/env python3
"""Gives `rt check` the libraries that `rt ci` has proved on this machine, so that nobody proves them again.

usage: tools/kept_libraries.py [--from CLONE] CRATE ..

For these crates and all below them, what `rt ci` kept of the same files, or, with --from, what it left in the `out/` of a
clone, is put into their `out/`, with the stamp by which `rt check` knows it. Some kits keep nothing: there only --from
helps. Prints a line for each crate: given, or not kept. It reads the modules of the command `rt`, so a later kit may need
another script; no verdict of `rt ci` rests on it.
"""
import argparse
import contextlib
import importlib.machinery
import importlib.util
import os
import pathlib
import shutil
import sys

ROOT = pathlib.Path(__file__).resolve().parent.parent


def load_rt():
    """The command's own module, without running it."""
    command = os.path.realpath(shutil.which("rt"))
    sys.path.insert(0, os.path.dirname(command))
    loader = importlib.machinery.SourceFileLoader("rt", command)
    module = importlib.util.module_from_spec(importlib.util.spec_from_loader("rt", loader))
    words, sys.argv = sys.argv, ["rt", "version"]
    with contextlib.suppress(SystemExit), contextlib.redirect_stdout(None):
        loader.exec_module(module)
    sys.argv = words
    return module


def crates_in(rt, root):
    """The crates of a tree, as a command of `rt` in one of them has them."""
    crates = rt.rtlib.crates_below(str(root))
    for crate in crates:
        rt.read_files(crate)
    return crates


class KeptByRt:
    """What the command itself keeps."""

    def __init__(self, rt, crates):
        self.kept = rt.Kept(crates)

    def give(self, crate):
        key = self.kept.key(crate)
        if not os.path.isdir(self.kept.place(crate, False, key)):
            return False
        shutil.rmtree(f"{crate.folder}/out/rlib", ignore_errors=True)
        given = self.kept.give(crate, False, key)
        if given:
            self.kept.is_built(crate)
        return given


class LeftInClone:
    """What a run of `rt ci` left in a clone, where a crate and those below it have the same files."""

    def __init__(self, rt, clone):
        self.crates = {it.name: it for it in crates_in(rt, os.path.realpath(clone))}

    def give(self, crate):
        theirs = self.crates.get(crate.name)
        if theirs is None or not os.path.isdir(theirs.rlib) or theirs.stamp() != crate.stamp():
            return False
        shutil.rmtree(f"{crate.folder}/out/rlib", ignore_errors=True)
        shutil.copytree(theirs.rlib, crate.rlib)
        return True


def give(rt, kept, crate, given):
    """Gives a crate and those below it their libraries, and returns whether all of them are kept."""
    if crate.name not in given:
        given[crate.name] = all([give(rt, kept, it, given) for it in crate.deps]) and not crate.is_program
        given[crate.name] = given[crate.name] and kept.give(crate)
        if given[crate.name]:
            # What `rt ci` reads are statements; a check's stamp is that of whole libraries.
            rt.Crate.cuts_libraries = False
            pathlib.Path(f"{crate.folder}/out/rlib/stamp").write_text(crate.stamp(), "utf-8")
            rt.Crate.cuts_libraries = True
        print(f"{crate.name}: {'given' if given[crate.name] else 'not kept'}")
    return given[crate.name]


def main():
    parser = argparse.ArgumentParser(description=__doc__, formatter_class=argparse.RawDescriptionHelpFormatter)
    parser.add_argument("--from", dest="clone", metavar="CLONE")
    parser.add_argument("crate", nargs="+", metavar="CRATE")
    asked = parser.parse_args()
    os.chdir(ROOT)
    rt, given = load_rt(), {}
    rt.Crate.cuts_libraries = True
    rt.Crate.allowed = rt.handles_of(str(ROOT))
    if asked.clone:
        crates, kept = crates_in(rt, ROOT), LeftInClone(rt, asked.clone)
    else:
        crates = rt.crates_of(str(ROOT))
        kept = KeptByRt(rt, crates)
    for crate in crates:
        if crate.name in asked.crate:
            give(rt, kept, crate, given)
    return 0 if given and all(given.values()) else 1


if __name__ == "__main__":
    sys.exit(main())
