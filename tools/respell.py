#!/usr/bin/env python3
"""Gives the repository's own definitions, fields and lemmas today's spelling, by the table beside it: words in snake case; a dash in a
lemma's name joins two names.

usage: tools/respell.py, once, at the top of the repository, after port.py. It turns code of specs/, proofs/ and clauses, edits, and what
stands between backticks in comments and documents; no function of src/, no exported name, no string, input or output.
"""
import os
import re

HERE = os.path.dirname(os.path.realpath(__file__))
NAME = re.compile(r"[^\s(){}\[\],;.:\"⟦⟧⌜⌝λ→`|!]+")
QUOTED = re.compile(r"`[^`\n]*`")

with open(os.path.join(HERE, "respell.tsv"), encoding="utf-8") as f:
    TABLE = dict(line.rstrip("\n").split("\t") for line in f)


def turned(code):
    return NAME.sub(lambda m: TABLE.get(m.group(0), m.group(0)), code)


def in_quotes(text):
    # a document cites as crate/specs/File#name
    return QUOTED.sub(lambda m: "".join(turned(p) for p in re.split(r"([#/])", m.group(0))), text)


def by_lines(text, comment):
    """Code whose comments begin with the given mark; strings stay."""
    out = []
    for line in text.split("\n"):
        at = line.find(comment) if line.lstrip().startswith(comment) or comment == "//" and " //" in line else -1
        code, rest = (line, "") if at < 0 else (line[:at], line[at:])
        parts = re.split(r'(b?"(?:[^"\\]|\\.)*")', code)
        out.append("".join(p if i % 2 else turned(p) for i, p in enumerate(parts)) + in_quotes(rest))
    return "\n".join(out)


def edit(text):
    out = []
    for line in text.split("\n"):
        out.append(turned(line) if re.match(r"(old|new): ", line) else in_quotes(line))
    return "\n".join(out)


# Rattle makes a module specs.contracts, so no file of specs/ may be called Contracts.
MOVED = [(re.compile(r"(Rattle\.\w+\.specs)\.Contracts\b"), r"\1.Clauses"), (re.compile(r"^pub mod Contracts$", re.M), "pub mod Clauses"), (re.compile(r"\bContracts\.antt\b"), "Clauses.antt"), (re.compile(r"\bspecs/Contracts\b"), "specs/Clauses")]


def main():
    for crate in sorted(os.listdir("crates")):
        specs = os.path.join("crates", crate, "specs")
        if os.path.exists(os.path.join(specs, "Contracts.antt")):
            os.rename(os.path.join(specs, "Contracts.antt"), os.path.join(specs, "Clauses.antt"))
    for folder, dirs, files in os.walk("."):
        dirs[:] = [d for d in dirs if d not in ("out", ".git", "target", "vectors")]
        for name in files:
            path = os.path.join(folder, name)
            if path.startswith("./tools/") or os.path.islink(path):
                continue
            if name.endswith(".antt"):
                turn = lambda t: by_lines(t, "--")
            elif name.endswith(".rt"):
                turn = lambda t: by_lines(t, "//")
            elif name.endswith((".edit", ".control")):
                turn = edit
            elif name.endswith(".md"):
                turn = in_quotes
            else:
                continue
            with open(path, encoding="utf-8") as f:
                text = f.read()
            new = turn(text)
            for pattern, to in MOVED:
                new = pattern.sub(to, new)
            if new != text:
                with open(path, "w", encoding="utf-8") as f:
                    f.write(new)


main()
