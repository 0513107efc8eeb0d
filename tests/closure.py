#!/usr/bin/env python3
"""Prints which definitions a public function's contract rests on: what somebody has to read who wants to know what is promised.

usage: tests/closure.py [--list] [CRATE::MODULE::FUNCTION[@CLAUSE] ..]
       tests/closure.py --private

A name in a clause leads by the imports of its file to a definition in some crate's specs/, and that to those that it names;
definitions of the standard library and of the kit's crates aren't followed. A definition's lines are counted without blank
ones and comments. Behind an @ stands the name of one clause; else the whole contract is taken. Without a function, the headline
and the contracts of its call and of a whole call are. With --list each definition is printed with its lines, most first. A line
a function: its name, how many definitions, and how many lines they have. With --private the definitions are printed that no
public contract, type or trait rests on, and that stand in another file than Internal*.antt, and those there on which one does.
"""
import argparse
import functools
import glob
import os
import re
import sys

ROOT = os.path.dirname(os.path.dirname(os.path.realpath(__file__)))
# The headline, the call that carries it, and a call from its arguments to its status.
PROMISES = ["hack_drive::drive::drive_context@headline", "hack_drive::drive::drive_context", "hack_run::run::run"]
NAME = re.compile(r"[A-Za-z_][\w'-]*")
IMPORT = re.compile(r"(?:pub )?(?:ghost )?use Rattle\.(hack_\w+)\.specs\.([\w.]+?)(?:\.\{([^}]*)\}| as (\w+))?;?\s*(?:--.*)?$")
DEFINES = re.compile(r"( *)(?:(?:abbrev|record|data|pub) )+(\S+)")
FUNCTION = re.compile(r"( *)(?:pub(?:\([^)]*\))? )?(?:final )?fn (\w+)")
PUBLIC = re.compile(r" *pub (?:final )?fn ")
CLAUSE = re.compile(r" *(?:ensures|requires) (?:(\w+) )?\{")


@functools.cache
def lines_of(path):
    with open(path, encoding="utf-8") as it:
        return it.read().split("\n")


def imports(lines):
    """What the imports among these lines bring in: for each name the crate, the module and the name there."""
    found = {}
    for line in lines:
        said = IMPORT.match(line.strip())
        for part in said[3].split(",") if said and said[3] else []:
            name, _, alias = (it.strip() for it in part.partition(" as "))
            found[alias or name] = (said[1], said[2], name)
    return found


@functools.cache
def module(crate, name):
    """A module of specs: its definitions, each with its lines, and its imports."""
    path = f"{ROOT}/crates/{crate}/specs/{name.replace('.', '/')}.antt"
    if not os.path.isfile(path):
        return {}, {}
    # Definitions stand at the margin, and those of a module with parameters further in.
    found, current, margin = {}, None, ""
    for line in lines_of(path):
        if not line.strip() or line.lstrip().startswith(("--", "use ", "pub use ", "pub mod ")):
            continue
        if line.startswith("module "):
            margin = "  "
            continue
        if not line.startswith(" "):
            margin = ""
        begun = DEFINES.match(line)
        if begun and begun[1] == margin:
            current = begun[2]
        if current:
            found.setdefault(current, []).append(line)
    return found, imports(lines_of(path))


def follow(start):
    """The definitions that these names lead to, each with its lines."""
    found, left = {}, [*start]
    while left:
        crate, name, item = left.pop()
        defined, brought = module(crate, name)
        if (crate, name, item) in found or item not in defined:
            continue
        found[crate, name, item] = defined[item]
        for word in {*NAME.findall("\n".join(defined[item]))}:
            if word in brought:
                left.append(brought[word])
            elif word in defined:
                left.append((crate, name, word))
    return found


def head(lines, at):
    """The line behind the contract of a function, and whether a body begins there."""
    begins, depth = FUNCTION.match(lines[at])[1] + "{", 0
    while True:
        code = lines[at].partition("//")[0].rstrip()
        if depth == 0 and code.startswith(begins):
            return at, code.endswith("{")
        depth += code.count("{") - code.count("}")
        if depth == 0 and code.endswith((";", "{}")) or depth == 1 and code.endswith("{") and not CLAUSE.match(code):
            return at, depth == 1
        at += 1


def public_text(lines):
    """These lines without imports, bodies, and the contracts of private functions. A trait's functions are public."""
    kept, at, of_trait = [], 0, False
    while at < len(lines):
        line = lines[at]
        if re.match(r"(?:pub )?(?:trait|impl)\b", line):
            of_trait = " for " in " ".join(lines[at:at + 4]).partition("{")[0] or "trait " in line
        function = FUNCTION.match(line)
        if function:
            end, has_body = head(lines, at)
            kept += lines[at:end + 1] if PUBLIC.match(line) or of_trait and function[1] else []
            while has_body and lines[end] != f"{function[1]}}}":
                end += 1
            at = end
        elif not re.match(r"\s*(?://|(?:pub )?(?:ghost )?use )", line):
            kept.append(line)
        at += 1
    return kept


def cited(lines, text):
    """The definitions that this text of a file names."""
    brought = imports(lines)
    return [brought[word] for word in {*NAME.findall("\n".join(it.partition("//")[0] for it in text))} if word in brought]


def private():
    """The definitions in the wrong file: those that only private functions need outside Internal*.antt, and others inside."""
    files = [lines_of(path) for path in glob.glob(f"{ROOT}/crates/*/src/**/*.rt", recursive=True)]
    public = follow([it for lines in files for it in cited(lines, public_text(lines))])
    for path in sorted(glob.glob(f"{ROOT}/crates/*/specs/*.antt")):
        crate, name = path.split("/")[-3], os.path.basename(path)[:-len(".antt")]
        for item in filter(NAME.fullmatch, module(crate, name)[0]):
            if item != "mutual" and name.startswith("Internal") == ((crate, name, item) in public):
                yield f"{crate}::{name}::{item}"


def contract(promise):
    """What the clauses of a function, or one of them, name in some crate's specs."""
    function, _, clause = promise.partition("@")
    crate, *modules, name = function.split("::")
    path = f"{ROOT}/crates/{crate}/src/{'/'.join(modules)}.rt"
    if not os.path.isfile(path):
        sys.exit(f"{function}: there is no {path}")
    lines = lines_of(path)
    at = next((n for n, it in enumerate(lines) if (m := FUNCTION.match(it)) and m[2] == name), None)
    if at is None:
        sys.exit(f"{function}: it isn't in {path}")
    end, _ = head(lines, at)
    said, taken = [], not clause
    for line in (it.partition("//")[0] for it in lines[at:end + 1]):
        begun = CLAUSE.match(line)
        taken = begun[1] == clause if clause and begun else taken
        said += [line] * taken
    if not said:
        sys.exit(f"{function} has no clause {clause}")
    return cited(lines, said)


def main():
    parser = argparse.ArgumentParser(description=__doc__, formatter_class=argparse.RawDescriptionHelpFormatter)
    parser.add_argument("--list", action="store_true", help="print each definition with its lines")
    parser.add_argument("function", nargs="*", metavar="FUNCTION")
    parser.add_argument("--private", action="store_true", help="print the definitions that only private functions need")
    asked = parser.parse_args()
    if asked.private:
        print("\n".join(private()))
        return
    for promise in asked.function or PROMISES:
        found = follow(contract(promise))
        if asked.list:
            for (crate, name, item), lines in sorted(found.items(), key=lambda it: -len(it[1])):
                print(f"{len(lines):4} {crate}::{name}::{item}")
        print(f"{promise}: {len(found)} definitions, {sum(map(len, found.values()))} lines")


if __name__ == "__main__":
    main()
