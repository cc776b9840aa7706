#!/usr/bin/env python3
"""check.py: holds the documents to the tree; prints what is wrong, and ends with status 1 if anything is.

Of README files and docs/*.md: lines of 140 characters at most (but of PORT.md, which has statements whole), links that lead somewhere. Of
these and of the landings: no placeholder, a word of capitals on a line of its own. Of README.md: its lines of C stand as they are in an example. Of
ARCHITECTURE.md: every name stands in the file that it is said to be in, or in the file of the same name in the other one of specs/ and
proofs/; every edit is there, and the contract of every function in a column "code" cites what its row says.
"""

import pathlib
import re
import sys

ROOT = pathlib.Path(__file__).resolve().parent.parent
WIDTH = 140
wrong = []


def anchors(path):
    """The anchors of a document's headings."""
    found = set()
    for line in path.read_text(encoding="utf-8").splitlines():
        if line.startswith("#"):
            words = re.sub(r"[^\w\- ]", "", line.lstrip("#").strip().lower())
            found.add(words.replace(" ", "-"))
    return found


def check_link(path, target):
    """A link to a file of the tree, to a heading, or to both."""
    if re.match(r"https?:", target):
        return
    name, _, anchor = target.partition("#")
    file = (path.parent / name).resolve() if name else path
    if not file.exists():
        wrong.append(f"{path.relative_to(ROOT)}: no {target}")
    elif anchor and anchor not in anchors(file):
        wrong.append(f"{path.relative_to(ROOT)}: no heading for {target}")


def references(text):
    """The link references at the end of a document."""
    return dict(re.findall(r"^\[([^\]]+)\]: (\S+)$", text, re.M))


def check_document(path):
    text = path.read_text(encoding="utf-8")
    for number, line in enumerate(text.splitlines(), 1):
        if len(line) > WIDTH and path.name != "PORT.md":
            wrong.append(f"{path.relative_to(ROOT)}:{number}: {len(line)} characters")
    prose = re.sub(r"`[^`]*`", "", text)
    for target in re.findall(r"\]\(([^)\s]+)\)", prose):
        check_link(path, target)
    known = references(text)
    for target in known.values():
        check_link(path, target)
    used = {label or name for name, label in re.findall(r"(?<![\]\w])\[([^\]\[]+)\](?:\[([^\]]+)\])?(?!\()", prose)}
    for label in sorted(set(known) - used):
        wrong.append(f"{path.relative_to(ROOT)}: nothing uses the reference [{label}]")
    for label in sorted(used - set(known)) if known else []:
        wrong.append(f"{path.relative_to(ROOT)}: no reference [{label}]")


def check_quotes(path):
    """Lines of C, between ```c and ```, are those of a file of examples."""
    sources = [source.read_text(encoding="utf-8") for source in sorted((ROOT / "examples").glob("*.c"))]
    for quote in re.findall(r"^```c\n(.*?)^```$", path.read_text(encoding="utf-8"), re.M | re.S):
        if not any("\n" + quote in source for source in sources):
            wrong.append(f"{path.relative_to(ROOT)}: no example has the lines from {quote.splitlines()[0]!r} on")


def check_placeholders(path):
    """What is still to come: a line of one word, three capitals or more and nothing else."""
    for number, line in enumerate(path.read_text(encoding="utf-8").splitlines(), 1):
        if re.fullmatch(r"[A-Z_]{3,}:?", line.strip()):
            wrong.append(f"{path.relative_to(ROOT)}:{number}: placeholder {line.strip()}")


def braced(text, start):
    """What stands between the brace that is open at `start` and the one that closes it."""
    depth = 1
    for at in range(start, len(text)):
        depth += {"{": 1, "}": -1}.get(text[at], 0)
        if not depth:
            return text[start:at]
    return text[start:]


def contract(source, name):
    """What the contract of a function ensures; nothing if there is no such function."""
    found = re.search(rf"^( *)(?:pub )?(?:extern \"C\" )?fn {name}\b.*?\n\1\{{", source, re.M | re.S)
    clauses = re.finditer(r"^ *ensures\b[^{\n]*\{", found.group(0), re.M) if found else ()
    return found and " ".join(braced(found.group(0), clause.end()) for clause in clauses)


def items(cell):
    """The pairs of a label and a name in a cell: `[label]: `name`, `name`; [label]: ..`."""
    for label, names in re.findall(r"\[([^\]]+)\]:((?: ?`[^`]+`,?)+)", cell):
        for name in re.findall(r"`([^`]+)`", names):
            yield label, name


def tables(text):
    """Rows of the tables, each as a mapping from the column's heading to its cell."""
    heads = None
    for line in text.splitlines():
        cells = [cell.strip() for cell in line.strip("|").split("|")] if line.startswith("|") else None
        if cells is None:
            heads = None
        elif heads is None:
            heads = cells
        elif not set("".join(cells)) <= set("-"):
            yield dict(zip(heads, cells))


def cites(ensures, name):
    return re.search(rf"(?<![\w-]){re.escape(name)}(?![\w-])", ensures or "")


def declared(file):
    """The text of a file, and of that of the same name beside it: a crate of theorems has definitions in specs/, theorems in proofs/."""
    other = {"specs": "proofs", "proofs": "specs"}.get(file.parent.name)
    beside = file.parent.parent / other / file.name if other else file
    return "\n".join(source.read_text(encoding="utf-8") for source in sorted({file, beside}) if source.exists())


def check_names(path):
    text = path.read_text(encoding="utf-8")
    files = references(text)
    defines = r"^ *(?:(?:abbrev|unfoldable|opaque) )?(?:pub )?(?:record |data )?"
    for row in tables(text):
        for label, name in sum((list(items(cell)) for cell in row.values()), []):
            source = declared((path.parent / files[label]).resolve())
            form = rf"\b(?:fn|struct|enum|const) {name}\b" if files[label].endswith(".rt") else defines + re.escape(name) + " "
            if not re.search(form, source, re.M):
                wrong.append(f"{path.relative_to(ROOT)}: no {name} in {label}")
        cited = {name for _, name in items(row.get("its contract cites", row.get("definition", "")))}
        code = list(items(row.get("code", ""))) if cited else []
        ensures = [contract((path.parent / files[label]).read_text(encoding="utf-8"), name) for label, name in code]
        for (label, name), promise in zip(code, ensures):
            if not any(cites(promise, word) for word in cited):
                wrong.append(f"{path.relative_to(ROOT)}: the contract of {label}::{name} cites none of {', '.join(sorted(cited))}")
        for crate, edit in re.findall(r"`(\w+)/(\w+)`", row.get("edit", "")):
            if not (ROOT / "crates" / crate / "must-fail" / f"{edit}.edit").exists():
                wrong.append(f"{path.relative_to(ROOT)}: no edit {crate}/{edit}")
        for word in sorted(cited) if "its contract cites" in row else []:
            if not any(cites(promise, word) for promise in ensures):
                wrong.append(f"{path.relative_to(ROOT)}: no contract of that row cites {word}")


READMES = [ROOT / name / "README.md" for name in (".", "rust", "tests/vectors")]
for document in READMES + sorted((ROOT / "docs").glob("*.md")):
    check_document(document)
for document in READMES + sorted((ROOT / "docs").glob("**/*.md")):
    check_placeholders(document)
check_quotes(ROOT / "README.md")
check_names(ROOT / "docs" / "ARCHITECTURE.md")
print("\n".join(wrong) or "the documents agree with the tree")
sys.exit(1 if wrong else 0)
