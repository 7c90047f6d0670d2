#!/usr/bin/env python3
"""Brings the repository's own names to snake case: definitions, lemmas, fields and local names of specs/ and proofs/.

usage: tools/respell.py [--look] [--prose]     at the top of the repository, once, after the toolchain's port script

A word that begins small and has capitals (numbersOf) gets underscores (numbers_of). A word with dashes gets them too, if
respell.tsv beside this script has it: there a lemma that would get the name of a definition ends in _lem. What stays:
names of src/ that are Rust's, strings, generated names of proof files (they are declared at a type of 'tie' or 'goal'),
names of the toolchain's library. Clauses, edits, and code spans of comments and pages follow.
--prose turns code spans of comments and pages alone. --look writes nothing and lists the files in which a new name stood already.
"""

import os
import re
import sys

HERE = os.path.dirname(os.path.abspath(__file__))
WORD = re.compile(r"""[^\s(){}.;,@"«»]+""")
CAMEL = re.compile(r"[a-z][a-z0-9]*(?:[A-Z][a-z0-9]*)+(?:-[A-Za-z0-9]+)*'*$")
SPAN = re.compile(r"`[^`\n]+`")
STRING = re.compile(r'b?"(?:\\.|[^"\\])*"')


def rows():
    with open(os.path.join(HERE, "respell.tsv"), encoding="utf-8") as f:
        return dict(line.rstrip("\n").split("\t") for line in f if line.strip())


TABLE = rows()
LEFT = {"repeat_n"}
PROSE = "--prose" in sys.argv[1:]


def snake(word):
    return re.sub(r"(?<=[a-z0-9])([A-Z])", lambda m: "_" + m[1].lower(), word.replace("-", "_"))


def spelled(word, kept=(), behind_dot=False):
    """The word's new spelling, or itself."""
    if word in kept or word in LEFT:
        return word
    if word in TABLE:
        new = TABLE[word]
        # behind a dot a word with dashes is a step of a function's proof, named after a function of src/
        if behind_dot and new.endswith("_lem") and "-" in word:
            return word.replace("-", "_")
        return new
    if CAMEL.match(word):
        return snake(word)
    return word


def turned(text, kept=(), known=None):
    """Code, with each word turned. A word behind a path's root of generated names stays, unless it is the repository's."""

    def one(m):
        dot = m.start() > 0 and text[m.start() - 1] == "."
        if known is not None and m[0] not in TABLE and m[0] not in known:
            return m[0]
        return spelled(m[0], kept, dot)

    return WORD.sub(one, text)


def comment(text, known):
    return SPAN.sub(lambda m: "`" + turned(m[0][1:-1], (), known) + "`", text)


GENERATED = re.compile(r"^(?:pub )?([^\s(){}.;,:]+) : (?:\{[^}]*\} → )?(?:tie\.|goal\.|statement\b|Tie\.)")


def antt(text, known):
    lines = text.split("\n")
    kept = {m[1] for m in map(GENERATED.match, lines) if m}
    out = []
    for line in lines:
        at = re.search(r"(?:^|\s)--(?=\s|$)", line)
        code, note = (line[: at.start()], line[at.start() :]) if at else (line, "")
        out.append((code if PROSE else turned(code, kept)) + comment(note, known))
    return "\n".join(out)


def rt(text, known):
    """Words with capitals inside or dashes are never Rust's, so only strings are left out."""
    out = []
    for line in text.split("\n"):
        at = re.search(r"//", line)
        code, note = (line[: at.start()], line[at.start() :]) if at else (line, "")
        parts, last = [], 0
        if PROSE:
            out.append(code + comment(note, known))
            continue
        for m in STRING.finditer(code):
            parts += [turned(code[last : m.start()], (), known), m[0]]
            last = m.end()
        parts.append(turned(code[last:], (), known))
        out.append("".join(parts) + comment(note, known))
    return "\n".join(out)


def edit(text, known):
    return "\n".join(
        line if line.startswith("file:") else (line[:5] + turned(line[5:], (), known) if line[:5] in ("old: ", "new: ") else line)
        for line in text.split("\n")
    )


def page(text, known):
    return comment(text, known)


def files(top):
    for folder, dirs, names in os.walk(top):
        dirs[:] = sorted(d for d in dirs if d not in ("out", "target", ".git"))
        for n in sorted(names):
            yield os.path.join(folder, n)


DECLARED = re.compile(r"^\s*(?:abbrev |unfoldable )?(?:pub )?([^\s(){}.;,:]+)(?: [^\s(){}.;,:]+)* : ")


def main():
    look = "--look" in sys.argv[1:]
    paths = [p for p in files("crates") if p.endswith((".antt", ".rt", ".edit"))]
    paths += [p for p in ["README.md"] + sorted(files("docs")) if p.endswith(".md")]
    texts = {p: open(p, encoding="utf-8").read() for p in paths}
    known = set()
    for p, text in texts.items():
        if p.endswith(".antt"):
            for line in text.split("\n"):
                m = DECLARED.match(line)
                if m and CAMEL.match(m[1]):
                    known.add(m[1])
                for m in re.finditer(r"\bas ([a-z]+[A-Z]\w*)", line):
                    known.add(m[1])
    for p, text in texts.items():
        if look:
            words = set(WORD.findall(text))
            both = sorted((w, spelled(w)) for w in words if spelled(w) != w and spelled(w) in words and spelled(spelled(w)) == spelled(w))
            for w, new in both:
                print(f"{p}: {w} and {new}")
            continue
        if PROSE and p.endswith(".edit"):
            continue
        how = antt if p.endswith(".antt") else rt if p.endswith(".rt") else edit if p.endswith(".edit") else page
        new = how(text, known)
        if new != text:
            with open(p, "w", encoding="utf-8") as f:
                f.write(new)


main()
