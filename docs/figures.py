#!/usr/bin/env python3
"""figures.py [--write]: how many functions, lines of code, of definitions and of proof the crates have.

Prints the lines of README.md's table that are counted; with --write it puts them there. In a crate of theorems, which has no function, what
stands in proofs/ are the theorems; elsewhere it is proofs of functions.
"""

import pathlib
import re
import sys

ROOT = pathlib.Path(__file__).resolve().parent.parent
CRATES = ROOT / "crates"


def lines(paths):
    """Lines that are neither empty nor comments."""
    count = 0
    for path in paths:
        for line in path.read_text(encoding="utf-8").splitlines():
            text = line.strip()
            if text and not text.startswith(("//", "--")):
                count += 1
    return f"{count:,}"


def has_code(crate):
    """Has a crate functions."""
    return any(functions(path) for path in (crate / "src").glob("**/*.rt"))


def functions(path):
    """How many functions a source has."""
    return len(re.findall(r"^ *(?:pub )?(?:extern \"C\" )?fn ", path.read_text(encoding="utf-8"), re.M))


def rows():
    crates = [path for path in CRATES.iterdir() if (path / "src").is_dir()]
    programs = [path for path in crates if (path / "src" / "main.rt").exists()]
    code = sorted(CRATES.glob("*/src/**/*.rt"))
    definitions = [path for name in ("layout", "script") for path in sorted((CRATES / name / "specs").glob("*.antt"))]
    specs = [path for path in sorted(CRATES.glob("*/specs/*.antt")) if path not in definitions]
    theorems = [path for crate in sorted(crates) if not has_code(crate) for path in sorted(crate.glob("proofs/**/*.antt"))]
    proofs = [path for path in sorted(CRATES.glob("*/proofs/**/*.antt")) if path not in theorems]
    edits = len(list(CRATES.glob("*/must-fail/*.edit")))
    libraries = len(crates) - len(programs) - 1
    return {
        "crates": f"{len(crates)}: {libraries} libraries of code or theorems, {len(programs)} programs, the C interface",
        "functions, each proved": f"{sum(map(functions, code)):,}",
        "lines of code, contracts included": lines(code),
        "lines of definitions, examples included (`layout`, `script`)": lines(definitions),
        "lines of other specs and theorems": lines(specs + theorems),
        "lines of proof": lines(proofs),
        "wrong programs that must be refused": f"{edits}, all tried by the gate",
    }


def main():
    readme = ROOT / "README.md"
    text = readme.read_text(encoding="utf-8")
    for name, value in rows().items():
        row = f"| {name} | {value} |"
        print(row)
        text = re.sub(rf"^\| {re.escape(name)} \|.*$", lambda _: row, text, flags=re.M)
    if sys.argv[1:] == ["--write"]:
        readme.write_text(text, encoding="utf-8")


main()
