#!/usr/bin/env python3
"""Counts, in src/ of every crate, the places that docs/DESIGN-PASS.md speaks of.

    tools/places.py [COMMIT] [-v]

Without a commit the files as they stand are read; -v prints each place."""
import re
import subprocess
import sys

ROOT = subprocess.run(["git", "rev-parse", "--show-toplevel"], capture_output=True, text=True).stdout.strip()
COMMIT = next((a for a in sys.argv[1:] if not a.startswith("-")), None)
SHOW = "-v" in sys.argv[1:]


def run(*words):
    return subprocess.run(["git", "-C", ROOT, *words], capture_output=True, text=True).stdout


def sources():
    """(path, text) of every source."""
    if COMMIT:
        names = run("ls-tree", "-r", "--name-only", COMMIT, "crates").split()
    else:
        names = run("ls-files", "--cached", "--others", "--exclude-standard", "crates").split()
    for name in names:
        if re.fullmatch(r"crates/\w+/src/.*\.rt", name):
            if COMMIT:
                yield name, run("show", f"{COMMIT}:{name}")
            else:
                try:
                    yield name, open(f"{ROOT}/{name}").read()
                except FileNotFoundError:
                    pass


# One regular expression a kind of place, tried on each line without its comment.
LINES = [
    ("1a own enums", r"^\s*(pub )?enum "),
    ("1b refusals written as numbers", r"Refused\(\d+\)|answer: \d|return ([1-9]|1\d|2[0-5]);"),
    ("1c refusals in a u8", r"answer: u8|fn (number|refusal)\(.*-> u8|fn (judge|judge_values|number_answer|open_answer|place_answer|close|close_39|close_41|receive)\(.*-> u8|^\) -> u8"),
    ("1d codes of a state, a line due or a kind", r"pub const [A-Z_]+: u8 = \d+;"),
    ("1e a flag beside a value", r"pub (held|timed|never|dummy): |^\s+fits: bool,"),
    ("3 loops by hand", r"\bwhile\b"),
    ("3 loops over a range of places", r"\bfor \w+ in [^{]*\.\."),
    ("4 wrapping by a function, copies and comparisons by hand", r"std::num::wrapping_|fn (equals|larger|smaller|least|put_bytes|copy)\b"),
    ("4 zeros written out, field by field", r"^\s+(most|scale|gap|held|sends): 0,|: ChannelNumber\(0\),"),
    ("6 room with a length beside it", r"at: usize"),
    ("7 a step chosen by a letter or a kind", r"if call == b'|if kind == trace::|if due == trace::"),
]


def functions(text):
    """(name, body's tokens) of each function, with its contract left out."""
    bare = re.sub(r"//.*", "", text)
    for m in re.finditer(r"\bfn (\w+)", bare):
        start = bare.find("\n{", m.end())
        brace = bare.find("{", m.end())
        line = bare[m.end():bare.find("\n", m.end())]
        at = brace if line.rstrip().endswith("{") else start + 1
        if at <= 0:
            continue
        depth, i = 0, at
        while i < len(bare):
            depth += {"{": 1, "}": -1}.get(bare[i], 0)
            i += 1
            if depth == 0:
                break
        yield m.group(1), bare[at:i]


KEYWORDS = set("if else match while for in return let mut true false as break loop fn pub struct enum impl use self".split())


def shape(body):
    """The tokens with names, numbers and strings made alike."""
    out = []
    for t in re.findall(r'b?"[^"]*"|b?\'[^\']*\'|\d[\w.]*|[A-Za-z_]\w*|[^\s\w]', body):
        if re.match(r"\d", t) or t.startswith("b'"):
            out.append("0")
        elif '"' in t:
            out.append('"')
        elif re.match(r"[A-Za-z_]", t) and t not in KEYWORDS:
            out.append("x")
        else:
            out.append(t)
    return " ".join(out)


def main():
    files = list(sources())
    print("commit", COMMIT or "(as it stands)", "-", len(files), "files")
    for name, pattern in LINES:
        hits = []
        for path, text in files:
            for i, line in enumerate(text.split("\n"), 1):
                if re.search(pattern, re.sub(r"//.*", "", line)):
                    hits.append(f"    {path}:{i}: {line.strip()}")
        print(f"{len(hits):4d}  {name}")
        if SHOW:
            print("\n".join(hits))
    groups = {}
    for path, text in files:
        for name, body in functions(text):
            s = shape(body)
            if len(s.split()) >= 25:
                groups.setdefault(s, []).append(f"{path.split('/')[1]}::{name}")
    twins = [g for g in groups.values() if len(g) > 1]
    print(f"{len(twins):4d}  2 groups of functions of one shape, {sum(map(len, twins))} functions")
    if SHOW:
        for g in sorted(twins, key=len, reverse=True):
            print("    " + ", ".join(g))


main()
