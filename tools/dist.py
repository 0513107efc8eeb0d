#!/usr/bin/env python3
"""Packs the built programs for a machine that has the C library and no kit.

usage: tools/dist.py [--to FOLDER] CARGO_HACK POWERSET_LIST

Writes FOLDER/cargo-hack-VERSION-x86_64-linux.tar.gz (FOLDER is `dist` unless named): a folder of that name with both
programs without their symbols, the licences, the README and all that it links to, the man pages and completions where
there are some, and the file SHA256SUMS, which `sha256sum -c` reads. The same programs give the same archive, byte for byte.
"""

import argparse
import gzip
import hashlib
import io
import os
import pathlib
import subprocess
import tarfile
import tempfile

ROOT = pathlib.Path(__file__).resolve().parent.parent
TEXTS = ("LICENSE-APACHE", "LICENSE-MIT", "README.md", "CHANGELOG.md", "CONTRIBUTING.md")
FOLDERS = ("docs", "man", "completions")


def stripped(program):
    """The program without its symbols."""
    with tempfile.TemporaryDirectory(prefix="dist-") as room:
        to = os.path.join(room, "program")
        subprocess.run(["strip", "-o", to, program], check=True)
        return pathlib.Path(to).read_bytes()


def contents(cargo_hack, powerset_list):
    """Each file of the archive: its path there, its bytes, and its mode."""
    files = {"cargo-hack": (stripped(cargo_hack), 0o755), "powerset-list": (stripped(powerset_list), 0o755)}
    for name in TEXTS:
        files[name] = (ROOT / name).read_bytes(), 0o644
    for folder in FOLDERS:
        for file in sorted((ROOT / folder).rglob("*")) if (ROOT / folder).is_dir() else []:
            if file.is_file():
                files[str(file.relative_to(ROOT))] = file.read_bytes(), 0o644
    sums = [f"{hashlib.sha256(data).hexdigest()}  {name}\n" for name, (data, _) in sorted(files.items())]
    files["SHA256SUMS"] = "".join(sums).encode(), 0o644
    return files


def pack(top, files):
    """The archive of these files under a folder, with no time and no owner in it."""
    plain = io.BytesIO()
    with tarfile.open(fileobj=plain, mode="w", format=tarfile.USTAR_FORMAT) as archive:
        for name, (data, mode) in sorted(files.items()):
            entry = tarfile.TarInfo(f"{top}/{name}")
            entry.size, entry.mode = len(data), mode
            archive.addfile(entry, io.BytesIO(data))
    return gzip.compress(plain.getvalue(), mtime=0)


def main():
    parser = argparse.ArgumentParser(description=__doc__, formatter_class=argparse.RawDescriptionHelpFormatter)
    parser.add_argument("--to", metavar="FOLDER", default=ROOT / "dist", type=pathlib.Path)
    parser.add_argument("cargo_hack")
    parser.add_argument("powerset_list")
    asked = parser.parse_args()
    told = subprocess.run([asked.cargo_hack, "hack", "--version"], stdout=subprocess.PIPE, text=True, check=True).stdout
    top = f"cargo-hack-{told.split()[-1]}-x86_64-linux"
    asked.to.mkdir(parents=True, exist_ok=True)
    archive = asked.to / f"{top}.tar.gz"
    archive.write_bytes(pack(top, contents(asked.cargo_hack, asked.powerset_list)))
    print(os.path.relpath(archive))


if __name__ == "__main__":
    main()
