"""Odd input for the script odd_calls.py: arguments, JSON, answers of tools, and manifests, all at random."""
import json
import re

# ---- Odd arguments.

FLAGS = [
    "--all", "--workspace", "--each-feature", "--feature-powerset", "--optional-deps", "--exclude-no-default-features",
    "--exclude-all-features", "--include-deps-features", "--no-dev-deps", "--remove-dev-deps", "--no-private",
    "--ignore-private", "--ignore-unknown-features", "--rust-version", "--clean-per-run", "--clean-per-version",
    "--keep-going", "--no-manifest-path", "--locked", "-v", "--verbose", "--all-features", "--no-default-features",
    "--print-command-list", "--workspace-behavior=cargo", "--workspace-behavior", "--tests", "--test=x",
    "--all-targets", "--package-rules", "--find-conflicts",
    "-vvv", "-nq", "-n=3", "-j4", "-ab=c", "-vh", "-qF", "-p", "-F", "-h", "--help", "-V", "--version", "--list",
    "--each-features", "--no-dev-dep", "--include-dep-features", "--skip-no-default-features",
    "--ignore-non-exist-features",
    "--locked=yes", "--all=", "--frozen", "--lib=", "--message-format=json", "check", "test", "install", "bench",
]

# Ranges have few versions, since each of them starts programs.
VALUED = {
    "--depth": ["0", "1", "2", "x", "", "-1", "+1", "18446744073709551615", "18446744073709551616", "1e3", "0x1", "٣"],
    "--features": ["a", "a,b", "", "'a b'", "\"a,b\"", "'", "\"", "'\"", "nope", "é", "a,,b", " ", ",", "d/x", "dep:d"],
    "-F": ["a", "'", "a b"],
    "--exclude-features": ["a", "a b", "", ",", "nope", "'a'", "dep:d"],
    "--skip": ["b", "default"],
    "--include-features": ["a", "a,a", "''", "dep:d", "a,b,c"],
    "--optional-deps": ["d", "", ",", "d e", "'"],
    "--group-features": ["a,b", "a", ",", " ", "'a,b'", "a,nope", "a,a", "a,dep:d"],
    "--mutually-exclusive-features": ["a,b", "b", "b c", ",", "a,dep:d", "dep:d,dep:e"],
    "--at-least-one-of": ["a,b", "c", "x,y", ","],
    "--allow-together": ["alpha=a,b", "alpha", "=a,b", "alpha=", "alpha=a", "a=b=c,d"],
    "--version-range": ["1.60..=1.61", "1.60..=", "..", "1.93", "2.0..", "1..", "x..y", "1.61..1.60", "=..",
                        "1.60.1..=1.61",
                        "1.2.3.4", "..=1.60", "1.60..=1.x", "...", "", "1.4294967295..=1.4294967295", "1.4294967296..",
                        "1.90..=1.95", "+1.+60..=1.60", "1.94.4294967295.."],
    "--version-step": ["0", "1", "65535", "65536", "", "x"],
    "--partition": ["1/1", "1/2", "0/3", "4/3", "1/2/3", "", "/", "1/18446744073709551615", "1/18446744073709551616",
                    "+1/+2"],
    "--partition-kind": ["block", "turn", "", "x"],
    "--strength": ["0", "1", "2", "x", "", "18446744073709551615", "18446744073709551616"],
    "--most-runs": ["0", "1", "3", "x", "", "18446744073709551615", "18446744073709551616"],
    "--log-group": ["none", "github-actions", "x", ""],
    "--color": ["never", "always", "auto", "x", ""],
    "--target": ["b", "a", "", "a,b"],
    "--exclude": ["nope", "alpha", "", "@", "alpha@", "alpha@1..", "://", "a+://#", "x://y?z#@"],
    "-p": ["alpha", "nope", "alpha@9", "alpha:0.1", "#", "path+file://"],
    "--package": ["alpha", "*", "alpha@0.1.0", "https://x#y@"],
    "--manifest-path": ["Cargo.toml", "nope/Cargo.toml", "", ".."],
    "-m": ["Cargo.toml", "--tests"],
    "--jobs": ["4"],
}

ODD = [
    "", "-", "--", "--=", "--=x", "-=", "-é", "--é=", "'", "\"", "a\nb", "\t", "\x1b[31m", "\ufeff", "\u202e", "%s",
    "..", "/",
    "-\n", "--features=\n", "x" * 5000, "--" + "y" * 5000, "-" + "v" * 3000, "-" + "F" * 50, "--package=" + "p" * 2000,
    "--group-features=" + ",".join("g%d" % it for it in range(300)), b"\xff", b"--package=\xff\xfe", b"-\xc3", "🦀",
]


def odd_words(rng):
    """Words without regard to what fits together, with what they often need beside them."""
    words = ["hack"] if rng.random() < 0.97 else [rng.choice(["hck", "", "--all", b"\xff"])] * rng.randint(0, 1)
    if rng.random() < 0.8:
        words.append(rng.choice(["check", "check", "build", "test", "install", "clippy"]))
    for _ in range(rng.choice([0, 1, 2, 3, 4, 6, 9])):
        which = rng.random()
        if which < 0.4:
            words.append(rng.choice(FLAGS))
        elif which < 0.9:
            option = rng.choice(sorted(VALUED))
            value = rng.choice(VALUED[option])
            words += [f"{option}={value}"] if rng.random() < 0.5 else [option, value]
        elif which < 0.95:
            words.append("-" + "".join(rng.choices("pFmvhVnqrjx=é", k=rng.randint(1, 5))))
        else:
            words.append(rng.choice(ODD))
    text = " ".join(it for it in words if isinstance(it, str))
    if rng.random() < 0.7 and not re.search("--each-feature|--feature-powerset", text):
        if re.search("--depth|--group-|--mutually-|--at-least-", text):
            words.insert(1, "--feature-powerset")
        elif re.search("--optional-|--exclude-|--include-|--skip", text):
            words.insert(1, rng.choice(["--each-feature", "--feature-powerset"]))
    if rng.random() < 0.6:
        words.insert(1, "--print-command-list")
    if rng.random() < 0.1:
        words += ["--", rng.choice(["-D", "--remove-dev-deps", "", "é"])]
    return words


def edit_words(rng):
    """Words that edit manifests."""
    edits = ["--no-dev-deps", "--no-private", "--remove-dev-deps", "--ignore-private", "--workspace", "--keep-going",
             "-v"]
    words = rng.sample(edits, rng.randint(1, 4))
    if rng.random() < 0.9 and {"--no-dev-deps", "--remove-dev-deps"} <= set(words):
        words.remove(rng.choice(["--no-dev-deps", "--remove-dev-deps"]))
    if rng.random() < 0.4:
        words.append(rng.choice(["--each-feature", "--feature-powerset"]))
    if rng.random() < 0.3:
        words.append("--print-command-list")
    elif words[-1] == "--feature-powerset" and rng.random() < 0.5:
        words.append("--find-conflicts")
    return ["hack"] + ["check"] * ("--remove-dev-deps" not in words or rng.random() < 0.7) + words


# ---- Odd JSON.


def deep(rng):
    """Text of nested JSON."""
    depth = rng.choice([100, 127, 128, 129, 1000, 50000])
    opened, closed = rng.choice([("[", "]"), ('{"a":', "}")])
    return opened * depth + "1" + closed * (depth if rng.random() < 0.7 else depth - 1)


ODD_TEXTS = ["", "x", "a b", "a\nb", "é", "\x00", "/", "..", "Cargo.toml", "dep:", "dep:d", "/x", "a/b/c", "-", "--",
             "1", "1.60",
             "1.99999999999", "0.0.0", "x" * 3000, "registry+https://x#y@1", "'", "\"", ","]


def odd_value(rng):
    return rng.choice([
        None, True, False, 0, -1, 1.5, 2**70, -(2**70), 1e300, [], {}, [[]], [None], [1], [""], ["a"], ["a", "a"],
        {"a": 1},
        {"a": ["b"]}, {"": [""]}, {"a": ["a"]}, ["x"] * 300, *ODD_TEXTS,
    ])


def places(value):
    """Each element of JSON data, as what holds it and the key or place there."""
    held = list(value.items()) if isinstance(value, dict) else list(enumerate(value)) if isinstance(value, list) else []
    return [(value, key) for key, _ in held] + [it for _, one in held for it in places(one)]


def odd_json(rng, value):
    """Bytes that are nearly the text of this."""
    value = json.loads(json.dumps(value))
    for _ in range(rng.choice([0, 1, 1, 1, 2, 4])):
        everywhere = places(value)
        if everywhere:
            held, key = rng.choice(everywhere)
            which = rng.random()
            if which < 0.2:
                del held[key]
            elif which < 0.6 or not isinstance(held[key], str):
                held[key] = odd_value(rng)
            else:
                held[key] = rng.choice(ODD_TEXTS)
    text = json.dumps(value, ensure_ascii=rng.random() < 0.5, indent=rng.choice([None, None, None, 2]))
    which = rng.random()
    at = rng.randrange(len(text) + 1)
    if which < 0.08:
        text = text[:at]
    elif which < 0.12:
        text = text[:at] + deep(rng) + text[at:]
    elif which < 0.15:
        # At the place of a value.
        text = re.sub(r": (\"[^\"]*\"|null|true)", lambda it: ": " + deep(rng), text, count=1)
    elif which < 0.17:
        text = deep(rng)
    elif which < 0.22:
        odd = ["\x00", "\ufeff", ",", "}", "\"", "\\", "\\ud800", "\\u0000", "NaN", "1e999", "//", "'"]
        text = text[:at] + rng.choice(odd) + text[at:]
    elif which < 0.25:
        text = rng.choice(["", " ", "null", "1", "[]", "{}", "\"\"", "{} {}", text + text, text + "\n\n x",
                           "\ufeff" + text])
    elif which < 0.28:
        # A key that is there twice.
        text = re.sub(r"\{(\"[^\"]*\": ([^\[\]{},]*))", r"{\1, \1", text)
    elif which < 0.31:
        text = text.replace("\n", "\r\n").replace(", ", ",\r\n\t")
    given = text.encode("utf-8", "surrogatepass")
    if which > 0.95:
        at = rng.randrange(len(given) + 1)
        given = given[:at] + bytes(rng.choices(range(256), k=rng.randint(1, 4))) + given[at:]
    return given


def odd_answer(rng, tool):
    """What a tool prints of its version."""
    minor = rng.choice(["90", "60", "38", "0", "4294967295", "4294967296", "x", ""])
    return rng.choice([
        f"{tool} 1.{minor}.0 (x)\nrelease: 1.{minor}.0\nhost: h\n", f"{tool} 1.{minor}\nrelease: 1.{minor}\n",
        "release: \nhost: \n",
        f"release: 1.{minor}.0-nightly\nhost: \n", f"{tool} 2.0.0\nrelease: 2.0.0\n", "", "\n", tool, f"{tool} ",
        "\x00",
        f"{tool} 1.{minor}.0" + " " * 2000, "release: 1.60.0\nrelease: x\n", "x" * 20000,
    ]).encode()


# ---- Odd manifests.

# A manifest is made of one part, or none, of each group. The last group isn't read, or not beside the others.
PARTS = [
    ["# [dev-dependencies]\n", "\n\n\t\n", "x.y = '''\n[dev-dependencies]\nd = '1'\n'''\n",
     "s = \"\"\"\\\n  [features] \\\"\"\"\"\n",
     "x = 1979-05-27T07:32:00Z\n", "x = [inf, -nan, 0xff, 1_000]\n", "x.y.z = { a = { b = { c = [] } } }\n",
     "\"\" = ''\n",
     "'a\\b' = \"\\u00e9\\U0001F980\"\n", "x = [\n1\n,\n]\n", "x = '" + "y" * 20000 + "'\n", "#" * 20000 + "\n"],
    ["dev-dependencies.d = '1'\n", "dev-dependencies = { d = '1' }\n", "\"dev-dependencies\".'d'.version = \"1\"\n"],
    ["target.x.dev-dependencies.d = '1'\n", "target = { x = { dev-dependencies = {} } }\n", "target = { x = {} }\n"],
    ["package.name = 'q'\n", "package = { name = 'q' }\n", "package.publish = false\n"],
    ["workspace = { members = ['alpha'] }\n", "workspace.members = ['./alpha/', 'x/../beta']\n"],
    ["[package]\nname = 'q'\n", "[package]\nname = 'q'\npublish = false\n", "[package]\npublish = 1\n",
     "[package]\nrust-version = 1.60\n"],
    ["[dev-dependencies]\nd = '1'\n", "[dev-dependencies.d]\nversion = '1'\n",
     "[ 'dev-dependencies' . \"e\" ] # x\nversion = '1'\n",
     "[dev-dependencies]\n# d\nd = { version = '1', features = [ # one\n] }\n", "[dev-dependencies] # none\n\n\n",
     "\t[dev-dependencies]\nd.path = '..'\n"],
    ["[target.'cfg(unix)'.dev-dependencies]\nd = '1'\n", "[target.x]\ndev-dependencies = { d = '1' }\n",
     "[target]\nx = 1\n",
     "[[target.x.dev-dependencies]]\nd = 1\n",
     "[target.x.dependencies]\nd = '1'\n[target.x.dev-dependencies]\ne = '1'\n"],
    ["[features]\na = ['d/x', \"e/y\"]\n", "[features]\nb = [\n  'd/x', # one\n  # two\n  'c'\n  ,\n]\n",
     "[features]\na = 'x'\n",
     "[features]\na = [1, [2], { b = 3 }, 'd/x']\n", "[[features]]\n", "[[features.a]]\nx = 1\n",
     "[features]\na.b = ['d/x']\n",
     "[features]\n\"a b\" = [ 'd?/x' ,'d/x','d/y' ] # x\n'' = ['/', 'd/']\n"],
    ["[workspace]\nmembers = ['alpha', \"beta\"]\n", "[workspace]\nmembers = [\n 'alpha', # x\n]\nexclude = [ ]\n",
     "[workspace]",
     "[workspace]\nexclude = 'x'\n", "[workspace]\nexclude = ['x',]\nmembers = 1\n",
     "[workspace.package]\nversion = '1'\n",
     "[workspace] # x\nexclude = [ 'x' # y\n]\nmembers = ['al', 'zed', 'Upper', 'gamma_2']\n"],
    ["[dependencies]\nd = '1'\n", "[build-dependencies]\ne = '1'\n", "[a.b]\nc = 1\n[a]\nd = 2\n",
     "[[x]]\n[[x]]\n[x.y]\n"],
    ["[a]\n[a]\n", "a = 1\na = 2\n", "é = 1\n", "x = \"\\ud800\"\n", "[", "x =", "= 1\n", "]\n", "\"", "'''", "\x00",
     "x = 1 # \x7f\n",
     "[x] y\n", "x = {\n}\n", "\ufeff[x]\n", "x = 99999999999999999999\n", "x = [1, 2,, 3]\n",
     "x = " + "[" * 200 + "]" * 200 + "\n",
     "x = " + "[" * 20000 + "\n", "x = " + "{a=" * 300 + "1" + "}" * 300 + "\n", ".".join(["k"] * 300) + " = 1\n",
     "[" + ".".join(["k"] * 3000) + "]\n"],
]


def odd_manifest(rng, text):
    """Bytes that are nearly this manifest; a folder in its place is None."""
    if rng.random() < 0.7:
        text = "".join(rng.choice(group) for group in PARTS[:-1] if rng.random() < 0.3)
        if not re.search(r"^\[?package", text, re.M) and rng.random() < 0.9:
            text += "[package]\nname = 'q'\n"
    if rng.random() < 0.15:
        part = rng.choice(PARTS[-1])
        text = rng.choice([text + part, part + text])
    lines = text.splitlines(keepends=True)
    which = rng.random()
    if which < 0.08 and lines:
        at = rng.randrange(len(lines))
        lines.insert(rng.randrange(len(lines) + 1), lines.pop(at) if rng.random() < 0.5 else lines[at])
        text = "".join(lines)
    elif which < 0.25:
        text = text.replace("\n", "\r\n")
    elif which < 0.28:
        text = text.replace("\n", rng.choice(["\r", "\n\n", "\r\n\n", " \t\n"]))
    elif which < 0.31:
        text = text[:rng.randrange(len(text) + 1)]
    elif which < 0.4:
        text = text.rstrip("\n")
    elif which < 0.45:
        text = "\ufeff" + text
    given = text.encode()
    if which > 0.94:
        at = rng.randrange(len(given) + 1)
        given = given[:at] + bytes(rng.choices(range(256), k=rng.randint(1, 3))) + given[at + rng.randint(0, 2):]
    return None if which > 0.995 else given
