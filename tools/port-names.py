#!/usr/bin/env python3
"""Brings the repository's own names to the spelling of today's Rattle: words in snake case, `'` for a prime.

usage: python3 tools/port-names.py      once, on a tree that /opt/rattle/port/port.py has turned and nobody has edited since

port.py turns the language and the names of the standard library. A repository's own definitions, lemmas and fields it leaves as
they were, but for those that std names alike, and of these it leaves what pages and edits say. tools/port-names.txt has them
all, a line `OLD NEW` each. A name is rewritten where it stands as a whole word: in the definitions and proofs (.antt), in the
contracts (.rt), in the edits of must-fail, in the pages and in .ci. It stays:

  in a proof, after a dot, where it is the name of a function of src/ or `well-formed`: a step that the toolchain generates;
  in strings of the code;
  in comments and pages a word with a dash that is English, and in pages each dashed word that is not in code font.

One file moves too: laws/specs/Contracts.antt is Uniqueness.antt.
"""

import os
import re
import sys

ROOT = os.path.dirname(os.path.dirname(os.path.abspath(__file__)))
PAGES = ["README.md", "bindings/README.md", "oracle/README.md", ".ci/trace", ".ci/trace-can-fail"]
WORD = re.compile(r"(?<![\w'′-])[^\W\d][\w'′]*(?:-[\w'′]+)*(?![\w'′])")
ENGLISH = {"well-formed"}  # and a step, which the toolchain generates
MOVED = ("crates/laws/specs/Contracts.antt", "crates/laws/specs/Uniqueness.antt")
PATHS = [("laws.specs.Contracts", "laws.specs.Uniqueness"), ("laws/specs/Contracts.antt", "laws/specs/Uniqueness.antt")]


def read(path):
    with open(os.path.join(ROOT, path), encoding="utf-8", newline="") as f:
        return f.read()


def table():
    names = {}
    for line in read("tools/port-names.txt").splitlines():
        old, new = line.split()
        if old in names:
            sys.exit(f"tools/port-names.txt: {old} stands twice")
        names[old] = new
    return names


def files():
    """Every file that names a definition, relative to the root, in order."""
    found = [p for p in PAGES if os.path.exists(os.path.join(ROOT, p))]
    found += ["docs/" + f for f in os.listdir(os.path.join(ROOT, "docs")) if f.endswith(".md")]
    for folder, dirs, names in os.walk(os.path.join(ROOT, "crates")):
        dirs[:] = [d for d in dirs if d not in ("out", "target")]
        found += [os.path.relpath(os.path.join(folder, f), ROOT) for f in names if f.endswith((".antt", ".rt", ".edit", ".md"))]
    return sorted(found)


def steps(paths):
    """The functions of src/ as a proof names the step of a call: with dashes."""
    calls = set()
    for path in paths:
        if path.endswith(".rt"):
            calls |= {n.replace("_", "-") for n in re.findall(r"\bfn (\w+)", read(path))}
    return calls


def turn(text, names, keep=lambda word, before: False):
    def one(m):
        word = m[0]
        return word if word not in names or keep(word, text[: m.start()][-1:]) else names[word]

    return WORD.sub(one, text)


def turned(path, text, names, calls):
    prose = lambda word, before: word in ENGLISH
    if path.endswith(".antt"):
        lines = text.split("\n")
        for i, line in enumerate(lines):
            if line.lstrip().startswith("--"):
                lines[i] = turn(line, names, prose)
            else:
                lines[i] = turn(line, names, lambda word, before: before == "." and word in calls | ENGLISH)
        text = "\n".join(lines)
    elif path.endswith(".rt"):
        parts = re.split(r'("(?:[^"\\\n]|\\.)*")', text)
        text = "".join(p if i % 2 else turn(p, names, prose) for i, p in enumerate(parts))
    elif path.endswith(".md"):
        parts = re.split(r"(`[^`\n]*`)", text)
        camel = {old: new for old, new in names.items() if "-" not in old}
        text = "".join(turn(p, names if i % 2 else camel) for i, p in enumerate(parts))
    else:
        text = turn(text, names, prose)
    for old, new in PATHS:
        text = re.sub(re.escape(old) + r"(?![\w-])", new, text)
    if path == "crates/laws/specs/Lib.antt":
        text = text.replace("pub mod Contracts\n", "pub mod Uniqueness\n")
    if path == ".ci/trace-can-fail":  # it takes a definition's name, which may have a `_` now
        text = text.replace(r"s/^abbrev \([a-z][A-Za-z]*\) :", r"s/^abbrev \([a-z][A-Za-z_]*\) :")
    return text


def main():
    names, paths, changed = table(), files(), 0
    calls = steps(paths)
    for path in paths:
        old = read(path)
        new = turned(path, old, names, calls)
        if new != old:
            with open(os.path.join(ROOT, path), "w", encoding="utf-8", newline="") as f:
                f.write(new)
            changed += 1
    if os.path.exists(os.path.join(ROOT, MOVED[0])):
        os.rename(*(os.path.join(ROOT, p) for p in MOVED))
    print(f"port-names: {len(names)} names, {changed} of {len(paths)} files changed")


if __name__ == "__main__":
    main()
