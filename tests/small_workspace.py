"""A small workspace with a private member, the stand-in for cargo there, libraries that are loaded before a program, and what a
script is called with: for refused_memory.py, kill_points.py, guarded_calls.py, broken_streams.py and whole_calls.py.
"""
import os
import subprocess
import sys

# Its files. `q` is private, the lockfile is one that cargo wouldn't write, and the workspace's manifest ends with a letter of
# two bytes.
FILES = {
    "Cargo.toml": '[workspace]\nmembers = ["p", "q"]\n# \u00e9',
    "Cargo.lock": "# kept\n",
    "p/Cargo.toml": '[package]\nname = "p"\n\n[features]\na = ["d/x"]\nb = []\n\n[dev-dependencies]\nd = "1"\n',
    "q/Cargo.toml": '[package]\nname = "q"\npublish = false\n\n[dev-dependencies]\nd = "1"\n',
}

PACKAGE = (
    '{{"id":"{0}","name":"{0}","version":"0.1.0","dependencies":[],"features":{1},"manifest_path":"{2}/{0}/Cargo.toml",'
    '"publish":{3},"rust_version":"1.60"}}'
)


def number_and_programs(option, number, usage, most=1):
    """The number that an option gives in front of the programs that a script is called with, or else this one; and these."""
    words = sys.argv[1:]
    if words[:1] == [option] and len(words) > 1:
        number, words = int(words[1]), words[2:]
    if not 0 < len(words) <= most:
        sys.exit(usage)
    return number, [os.path.realpath(it) for it in words]


def write(path, text, mode=0o644):
    """Writes a file, and the folders that it is in."""
    os.makedirs(os.path.dirname(path), exist_ok=True)
    with open(path, "w", encoding="utf-8") as it:
        it.write(text)
    os.chmod(path, mode)


def write_files(workspace):
    """The files of the workspace."""
    for name, text in FILES.items():
        write(f"{workspace}/{name}", text)


def stand_in(cargo, script, workspace):
    """A script at the path of cargo, with the answers beside it that it gives for the workspace."""
    p = PACKAGE.format("p", '{"a":["d/x"],"b":[]}', workspace, "null")
    q = PACKAGE.format("q", "{}", workspace, "[]")
    write(cargo, script, 0o755)
    write(f"{cargo}.version", "cargo 1.90.0\nrelease: 1.90.0\nhost: h\n")
    write(f"{cargo}.rustup", "rustup 1.27.1 (54dd3d00f 2024-04-24)\n")
    write(f"{cargo}.locate", f'{{"root":"{workspace}/Cargo.toml"}}')
    write(
        f"{cargo}.metadata",
        f'{{"packages":[{p},{q}],"workspace_members":["p","q"],"resolve":null,"workspace_root":"{workspace}"}}',
    )


def library(path, source):
    """Makes a library of C, to be loaded before a program."""
    write(f"{path}.c", source)
    subprocess.run(["cc", "-O1", "-shared", "-fPIC", "-o", path, f"{path}.c", "-ldl"], check=True)
