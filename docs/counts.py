#!/usr/bin/env python3
"""counts.py [--before FOLDER] [--rows TEXT] [--most N] [--hashes K]: instructions of a call, by valgrind's callgrind.

Prints a table of the proved store beside the optimised Rust, as document PERFORMANCE.md has it. With --before, FOLDER
holds another libcapi.a of the same C interface, whose instructions stand in a column of their own. With --rows, only rows that begin with TEXT,
as `16 insert`; with --most, only those of up to N records. With --hashes, volumes of K hash functions (3). Counts do not depend on what else the machine does, so one run is enough.
"""

import argparse
import os
import pathlib
import re
import subprocess
import sys
import tempfile

ROOT = pathlib.Path(__file__).resolve().parent.parent
RUST = ROOT / "rust"
CALLS = ["lookup hit", "lookup miss", "insert", "update"]
SETS = {16: [1024, 2048, 4096], 64: [4096, 8192, 65536], 512: [32768, 65536, 557056]}


def bench(folder):
    """Builds the benchmark over the library in a folder, and gives its path."""
    target = pathlib.Path(tempfile.mkdtemp(prefix="counts-"))
    environment = dict(os.environ, LEVEL_STORE_LIB_DIR=str(folder.resolve()), CARGO_TARGET_DIR=str(target))
    command = ["cargo", "build", "--offline", "--release", "--quiet", "-p", "bench", "--features", "proved"]
    subprocess.run(command, cwd=RUST, env=environment, check=True)
    return target / "release" / "bench"


def instructions(program, store, size, call, n, hashes):
    """Instructions of one call, the average of a round."""
    with tempfile.TemporaryDirectory() as folder:
        out = pathlib.Path(folder) / "out"
        command = ["valgrind", "--tool=callgrind", "--toggle-collect=counted_round", "--collect-atstart=no", f"--callgrind-out-file={out}"]
        run = subprocess.run(
            command + [str(program), "--count", store, str(size), call, str(n), str(hashes)], capture_output=True, text=True, check=True
        )
        total = re.search(r"^(?:summary|totals): (\d+)", out.read_text(), re.M)
    return int(total.group(1)) / int(run.stdout)


def rows():
    for size in (16, 64, 512):
        for call in CALLS:
            for n in (1000, 10000, 100000):
                yield size, call, n
        for n in SETS[size]:
            yield size, "set", n
        for call in ("load", "inserts"):
            yield size, call, 10000


def main():
    arguments = argparse.ArgumentParser(description=__doc__)
    arguments.add_argument("--before", type=pathlib.Path)
    arguments.add_argument("--rows", default="")
    arguments.add_argument("--most", type=int, default=1 << 32)
    arguments.add_argument("--hashes", type=int, default=3)
    options = arguments.parse_args()
    after = bench(ROOT / "target" / "staticlib")
    before = bench(options.before) if options.before else None
    heads = ["S", "call", "n"] + (["before"] if before else []) + ["proved"] + (["proved/before"] if before else []) + ["fast", "proved/fast"]
    print("| " + " | ".join(heads) + " |")
    print("|" + "---|" * len(heads))
    for size, call, n in rows():
        if n > options.most or not f"{size} {call} {n}".startswith(options.rows):
            continue
        proved = instructions(after, "proved", size, call, n, options.hashes)
        fast = instructions(after, "fast", size, call, n, options.hashes)
        cells = [f"{size}", call, f"{n}"]
        if before:
            old = instructions(before, "proved", size, call, n, options.hashes)
            cells += [f"{old:,.0f}", f"{proved:,.0f}", f"{proved / old:.3f}"]
        else:
            cells += [f"{proved:,.0f}"]
        print("| " + " | ".join(cells + [f"{fast:,.0f}", f"{proved / fast:.2f}"]) + " |", flush=True)


if __name__ == "__main__":
    sys.exit(main())
