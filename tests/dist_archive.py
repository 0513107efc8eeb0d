#!/usr/bin/env python3
"""Packs the built programs as `make dist` does, unpacks the archive in an empty folder, and calls what is there with
no variable of the environment but the path of the system's programs.

usage: tests/dist_archive.py CARGO_HACK POWERSET_LIST

The last line is `N passed, M failed`, and the status is 1 where one failed.
"""

import hashlib
import os
import pathlib
import re
import subprocess
import sys
import tarfile
import tempfile

ROOT = os.path.dirname(os.path.dirname(os.path.realpath(__file__)))
ENV = {"PATH": "/usr/bin:/bin"}


def called(words, text=""):
    """The status and the output of a program."""
    how = {"input": text, "stdout": subprocess.PIPE, "stderr": subprocess.STDOUT, "text": True}
    ran = subprocess.run(words, env=ENV, check=False, **how)
    return ran.returncode, ran.stdout


def unpacked(archive, room):
    """The folder that the archive holds, which is all that it holds."""
    with tarfile.open(archive) as it:
        it.extractall(room)
    (folder,) = os.listdir(room)
    return pathlib.Path(room, folder)


def rows(folder, programs):
    """Each check: its name, and whether it holds."""
    sums = [line.split("  ") for line in (folder / "SHA256SUMS").read_text().splitlines()]
    files = {str(it.relative_to(folder)) for it in folder.rglob("*") if it.is_file()} - {"SHA256SUMS"}
    yield "SHA256SUMS names each file", {name for _, name in sums} == files
    yield "each sum is its file's", all(hashlib.sha256((folder / name).read_bytes()).hexdigest() == sum for sum, name in sums)
    yield "licences and README are there", {"LICENSE-APACHE", "LICENSE-MIT", "README.md"} <= files
    links = re.findall(r"\]\(([^)#:\s]+)(?:#[^)]*)?\)", (folder / "README.md").read_text("utf-8"))
    yield "what the README links to is there", set(links) <= files
    shells = {f"completions/{it}" for it in ("cargo-hack.bash", "_cargo-hack", "cargo-hack.fish")}
    yield "man pages and completions are there", shells | {"man/cargo-hack.1", "man/powerset-list.1"} <= files
    status, text = called([folder / "cargo-hack", "hack", "--version"])
    yield "cargo-hack prints its version, by which the folder is called", (status, text) == (0, f"cargo-hack {folder.name.split('-')[2]}\n")
    status, text = called([folder / "powerset-list"], '{"a": [], "b": ["a"]}')
    yield "powerset-list lists the sets of a map", (status, text.count("\n"), "--features b" in text) == (0, 3, True)
    libraries = called(["ldd", folder / "cargo-hack"])[1] + called(["ldd", folder / "powerset-list"])[1]
    names = {line.split()[0] for line in libraries.splitlines()}
    yield "the C library is all that they need", all(name.startswith(("linux-vdso", "libc.so", "/lib")) for name in names)
    small = all(os.path.getsize(folder / name) < os.path.getsize(it) for name, it in zip(("cargo-hack", "powerset-list"), programs))
    yield "symbols are gone", small


def main(programs):
    if len(programs) != 2:
        sys.exit(__doc__)
    with tempfile.TemporaryDirectory(prefix="dist-") as room:
        pack = [f"{ROOT}/tools/dist.py", "--to", f"{room}/packed"]
        archives = [subprocess.run([*pack, *programs], stdout=subprocess.PIPE, text=True, check=True).stdout for _ in range(2)]
        (archive,) = pathlib.Path(room, "packed").iterdir()
        first = archive.read_bytes()
        subprocess.run([*pack, *programs], stdout=subprocess.DEVNULL, check=True)
        found = [("the same programs give the same archive", archive.read_bytes() == first and archives[0] == archives[1])]
        found += rows(unpacked(archive, f"{room}/empty"), programs)
    for name, holds in found:
        print(f"{'ok    ' if holds else 'FAILED'} {name}")
    failed = sum(not holds for _, holds in found)
    print(f"{len(found) - failed} passed, {failed} failed")
    return 1 if failed else 0


if __name__ == "__main__":
    sys.exit(main(sys.argv[1:]))
