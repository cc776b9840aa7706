#!/usr/bin/env python3
"""Definitions and lemmas in the spelling of the kit 13f: words in snake case.

usage: tools/respell.py          at the top of the repository, once, after the kit's port.py

tools/respell.tsv has each name and its new spelling. A definition in camel case and a lemma with dashes get underscores; a lemma that would
have its definition's name ends in _lem. Names that the kit makes or exports, Rust names, exported C names and strings stay as they are.
In documents only names in backquotes change.
"""
import os
import re
import sys

TOP = os.path.dirname(os.path.dirname(os.path.realpath(__file__)))
with open(os.path.join(TOP, "tools", "respell.tsv"), encoding="utf-8") as rows:
    NEW = dict(line.rstrip("\n").split("\t") for line in rows)
# a name with what stands before it, as far as it decides; strings are passed over
TOKEN = re.compile(r"\"(?:[^\"\\\n]|\\.)*\"|(?<![\w'₀-₉-])(\.?)([A-Za-z_][\w'₀-₉ᶜ-]*)")
# local to two files: a lemma beside the definition of its name
LOCAL = {"crates/cuts/specs/Acts.antt": {"too_short": "too_short_lem"}, "crates/cuts/specs/AnyRestart.antt": {"too_short": "too_short_lem"}}


def respelled(text, path, is_walk=False):
    local = LOCAL.get(path, {})

    def one(m):
        if m.group(2) is None:
            return m.group(0)
        dot, name = m.group(1), m.group(2)
        if name in local:
            return dot + local[name]
        if name not in NEW or (is_walk and dot and "-" in name):
            return m.group(0)  # in a walk a dash behind a dot is the kit's
        return dot + NEW[name]

    return TOKEN.sub(one, text)


def source(text, path):
    """A comment keeps its words, but for names in camel case, which no English word is."""
    comment = "--" if path.endswith(".antt") else "//"
    lines = []
    for line in text.split("\n"):
        at = re.search(re.escape(comment) + r"(?= |$)", line)
        code, rest = (line[: at.start()], line[at.start() :]) if at else (line, "")
        rest = re.sub(r"\b[a-z]+[a-z0-9]*[A-Z]\w*", lambda m: NEW.get(m.group(0), m.group(0)), rest)
        rest = re.sub(r"`[^`]*`", lambda m: respelled(m.group(0), path), rest)
        lines.append(respelled(code, path, path.endswith("/Proof.antt")) + rest)
    return "\n".join(lines)


def document(text):
    return re.sub(r"`[^`\n]*`", lambda m: respelled(m.group(0), ""), text)


def main():
    os.chdir(TOP)
    paths = []
    for folder, dirs, files in os.walk("crates"):
        dirs[:] = sorted(d for d in dirs if d != "out")
        paths += [os.path.join(folder, f) for f in sorted(files) if f.endswith((".antt", ".rt"))]
    paths += ["README.md"] + [os.path.join(d, f) for d, _, fs in os.walk("docs") for f in sorted(fs) if f.endswith(".md")]
    changed = 0
    for path in paths:
        with open(path, encoding="utf-8") as f:
            text = f.read()
        new = document(text) if path.endswith(".md") else source(text, path)
        if new != text:
            with open(path, "w", encoding="utf-8") as f:
                f.write(new)
            changed += 1
    print(f"respell: {changed} files")


if __name__ == "__main__":
    sys.exit(main())
