#!/usr/bin/env python3
"""run.py [--rounds N] [--levels N] [--folder FOLDER]: the proved store beside SQLite, LMDB, LevelDB and GDBM, in one run.

Builds bench.c with each peer that is installed (Debian: libsqlite3-dev liblmdb-dev libleveldb-dev libgdbm-dev) and with the store
(`tools/staticlib` first), runs them in turns, one process each, and prints the table of PERFORMANCE.md, "What one would take instead": of
each time the least of all rounds. FOLDER, where they keep their files, should be in memory (/dev/shm).
"""

import argparse
import hashlib
import pathlib
import shutil
import subprocess
import sys
import tempfile

HERE = pathlib.Path(__file__).resolve().parent
ROOT = HERE.parent.parent
LIBRARY = ROOT / "target" / "staticlib" / "libcapi.a"

# Name, source, mode. A peer whose program cannot be linked is left out.
PEERS = [
    ("store, S = 16", "store", "16"),
    ("store, S = 64", "store", "64"),
    ("store, S = 512", "store", "512"),
    ("SQLite, in memory", "sqlite", "memory"),
    ("SQLite, WAL", "sqlite", "wal"),
    ("LMDB", "lmdb", "-"),
    ("LevelDB", "leveldb", "-"),
    ("GDBM", "gdbm", "-"),
]
# How each is linked: its archive if there is one, so that the size of its code can be seen; else as a shared library.
LINKS = {
    "none": [[]],
    "store": [[str(LIBRARY)]],
    "sqlite": [["-l:libsqlite3.a", "-lm", "-lpthread", "-ldl"], ["-lsqlite3"]],
    "lmdb": [["-l:liblmdb.a", "-lpthread"], ["-llmdb"]],
    "leveldb": [["-l:libleveldb.a", "-l:libsnappy.so.1", "-lstdc++", "-lpthread"], ["-lleveldb"]],
    "gdbm": [["-l:libgdbm.a"], ["-lgdbm"]],
}


def built(source, folder):
    """The program of a peer and whether its archive is in it; nothing if the peer is not installed."""
    program = folder / source
    sources = [str(HERE / "bench.c"), str(HERE / f"{source}.c")]
    for link in LINKS[source]:
        command = ["gcc", "-std=c11", "-O2", f"-I{ROOT / 'include'}"] + sources + ["-o", str(program)] + link
        if subprocess.run(command, stderr=subprocess.DEVNULL, check=False).returncode == 0:
            return program, link is LINKS[source][0]
    return None


def code(program):
    """Bytes of code and constants."""
    return int(subprocess.run(["size", str(program)], capture_output=True, text=True, check=True).stdout.splitlines()[1].split()[0])


def digests(path):
    """Of each file at a path, and how many bytes they have together."""
    files = sorted(file for file in [path, *path.rglob("*")] if file.is_file()) if path.exists() else []
    found = {str(file.relative_to(path)): hashlib.sha256(file.read_bytes()).hexdigest() for file in files}
    return found, sum(file.stat().st_size for file in files)


def main():
    arguments = argparse.ArgumentParser(description=__doc__)
    arguments.add_argument("--rounds", type=int, default=7)
    arguments.add_argument("--levels", type=int, default=100_000)
    arguments.add_argument("--folder", type=pathlib.Path, default=pathlib.Path("/dev/shm"))
    options = arguments.parse_args()
    work = pathlib.Path(tempfile.mkdtemp(prefix="peers-", dir=options.folder))
    try:
        programs = {source: built(source, work) for source in LINKS}
        peers = [peer for peer in PEERS if programs[peer[1]]]
        missing = [source for source in LINKS if not programs[source]]
        if missing:
            print("not installed: " + ", ".join(missing), file=sys.stderr)
        results = {name: [] for name, _, _ in peers}
        left = {name: [] for name, _, _ in peers}
        for number in range(options.rounds):
            for name, source, mode in peers:
                path = work / "medium" / "levels"
                path.parent.mkdir()
                command = [str(programs[source][0]), mode, str(path), str(options.levels)]
                out = subprocess.run(command, capture_output=True, text=True, check=True).stdout
                results[name].append([float(word) for word in out.split()])
                left[name].append(digests(path))
                shutil.rmtree(path.parent)
            print(f"round {number + 1} of {options.rounds}", file=sys.stderr)
        heads = ["", "insert us", "update us", "hit us", "miss us", "written, insert", "update"]
        heads += ["memory KB", "medium MB", "code KB", "same bytes"]
        print("| " + " | ".join(heads) + " |")
        print("|" + "---|" * len(heads))
        for name, source, _ in peers:
            least = [min(column) for column in zip(*results[name])]
            files = [digest for digest, _ in left[name]]
            differ = {file for digest in files for file in digest if any(other.get(file) != digest[file] for other in files)}
            program, archive = programs[source]
            cells = [f"{time:.2f}" for time in least[:4]]
            # Writes and memory: of the last round, they hardly vary.
            cells += [f"{number:,.1f}" if number else "–" for number in results[name][-1][4:6]]
            cells += [f"{results[name][-1][6] / 1000:,.1f}", f"{left[name][-1][1] / 1e6:.1f}" if files[0] else "–"]
            cells += [f"{(code(program) - code(programs['none'][0])) / 1000:,.0f}" if archive else "shared"]
            cells += [("no: " + ", ".join(sorted(differ)) if differ else "yes") if files[0] else "–"]
            print("| " + " | ".join([name] + cells) + " |")
    finally:
        shutil.rmtree(work)


if __name__ == "__main__":
    sys.exit(main())
