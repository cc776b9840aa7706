#!/usr/bin/env python3
"""Contracts by the kit 13f's own names for what a reference points at.

usage: tools/lent.py          at the top of the repository, once, after tools/respell.py

The module memory.specs.Lent (`before s`, `after s`) gave names to what `s.now`, `s.old` and `s.new` say now, and `&` and `&mut` no longer have
one type. A clause says `s.now` of a `&`, `s.old` and `s.new` of a `&mut`; a definition that took lent slices takes their lists.
"""
import os
import re
import sys

TOP = os.path.dirname(os.path.dirname(os.path.realpath(__file__)))
ONE = r"(?:«\w+»|\w+)"
FIRST = r"(?:\([^()]*(?:\([^()]*\))*[^()]*\)|[\w.]+)"


def parameters(head):
    """Of each parameter that is a reference, whether it is a `&mut`."""
    return {m.group(1): bool(m.group(2)) for m in re.finditer(r"(\w+): &(mut )?", head)}


def clause(text, kinds, after):
    """The text of clauses, with the parameters' kinds."""
    old = lambda x: x + (".old" if kinds[x.strip("«»")] else ".now")

    def new(x):
        return x + (".new" if kinds[x.strip("«»")] else ".now")  # what a `&` points at stays

    known = lambda *xs: all(x.strip("«»") in kinds for x in xs)

    def several(pattern, write, of):
        nonlocal text
        text = re.sub(pattern, lambda m: write(m, [of(x) for x in m.groups()[-n:]]) if known(*m.groups()[-n:]) else m.group(0), text)

    three, two, five = rf" ({ONE}) ({ONE}) ({ONE})\b", rf" ({ONE}) ({ONE})\b", rf" ({ONE}) ({ONE}) ({ONE}) ({ONE}) ({ONE})\b"
    n = 3
    several(rf"\bgiven ({FIRST})" + three, lambda m, x: f"volume {m.group(1)} {' '.join(x)}", old)
    several(rf"\beffect_by ({FIRST})" + three, lambda m, x: f"change_effect {m.group(1)} {' '.join(x)}", new)
    several(rf"\bcut_by ({FIRST})" + three, lambda m, x: f"cut_by {m.group(1)} {' '.join(x)}", new)
    several(rf"\bloaded_by ({FIRST})" + three, lambda m, x: f"loaded_by {m.group(1)} {' '.join(x)}", new)
    several(r"\bmemory_before" + three, lambda m, x: f"memory_of {' '.join(x)}", old)
    several(r"\bmemory_after" + three, lambda m, x: f"memory_of {' '.join(x)}", new)
    n = 2
    several(r"\bflash_before" + two, lambda m, x: f"flash_of {' '.join(x)}", old)
    several(r"\bflash_after" + two, lambda m, x: f"flash_of {' '.join(x)}", new)
    n = 5
    several(rf"\bbuffers_before ({FIRST})" + five, lambda m, x: f"buffers_of {m.group(1)} {' '.join(x)}", old)
    several(rf"\bbuffers_after ({FIRST})" + five, lambda m, x: f"buffers_of {m.group(1)} {' '.join(x)}", new)
    for word, of in (("before", old), ("after", new)):
        if word == "after" and not after:
            continue
        text = re.sub(rf"\({word} ({ONE})\)", lambda m: of(m.group(1)) if known(m.group(1)) else m.group(0), text)
        text = re.sub(rf"(?<![\w.]){word} ({ONE})(?![\w.])", lambda m: of(m.group(1)) if known(m.group(1)) else m.group(0), text)
    return text


def imports(text):
    text = re.sub(r"ghost use Rattle\.memory\.specs\.Lent\.\{[^}]*\};\n", "", text)
    if "Rattle.laws.specs.LentFlash" in text:
        text = re.sub(r"ghost use Rattle\.laws\.specs\.LentFlash\.\{[^}]*\};\n", "", text)
        at = re.search(r"(ghost use Rattle\.layout\.specs\.Flash\.\{)([^}]*)\}", text)
        if at:
            if "flash_of" not in re.split(r"[,\s]+", at.group(2)):
                text = text[: at.end() - 1] + ", flash_of" + text[at.end() - 1 :]
        else:
            last = [m.end() for m in re.finditer(r"(?m)^ghost use [^;]*;\n", text)][-1]
            text = text[:last] + "ghost use Rattle.layout.specs.Flash.{flash_of};\n" + text[last:]
    names = {"given": "volume", "effect_by": "change_effect", "memory_before": "memory_of", "memory_after": "memory_of", "buffers_before": "buffers_of", "buffers_after": "buffers_of"}

    def one(m):
        seen = []
        for name in re.split(r",\s*", m.group(2).strip()):
            name = names.get(name, name)
            if name not in seen:
                seen.append(name)
        return m.group(1) + ", ".join(seen) + "}"

    return re.sub(r"(ghost use Rattle\.(?:state|console)\.specs\.Contract\.\{)([^}]*)\}", one, text)


def source(text):
    after = bool(re.search(r"Rattle\.memory\.specs\.Lent\.\{[^}]*\bafter\b", text))
    if not re.search(r"Lent|Contract\.\{[^}]*\b(given|effect_by|cut_by|loaded_by|buffers_\w+)", text):
        return text
    out, at = [], 0
    # a function: its head up to the parameters' end, then clauses up to a line that is `{` or ends in ` {` with no clause word
    for m in re.finditer(r"(?m)^( *)(?:pub )?(?:unsafe )?(?:extern \"C\" )?fn \w+(?:<[^>]*>)?\(", text):
        depth, end = 1, m.end()
        while depth:
            depth += (text[end] in "([") - (text[end] in ")]")
            end += 1
        kinds = parameters(text[m.end() : end])
        body = re.compile(rf"(?m)^{m.group(1)}{{$|(?<=[\w>\]]) {{$").search(text, end)
        stop = body.start() if body else end
        out += [text[at:end], clause(text[end:stop], kinds, after)]
        at = stop
    return imports("".join(out) + text[at:])


# the definitions that took lent slices, now of their lists; what was one of two moments of the same is said once
SPECS = {
    "crates/state/specs/Contract.antt": [
        ("use Rattle.memory.specs.Lent.{Lent, before, after}\n", ""),
        ("use Rattle.laws.specs.LentFlash.{flash_before, flash_after}\n", ""),
        (
            "-- the same of the slices lent to a call\nabbrev pub given : State → Lent → Lent → Lent → Volume\n"
            "given s main spare ram = volume s (before main) (before spare) (before ram)\n\n",
            "",
        ),
        (
            "abbrev pub effect_by : Change → Lent → Lent → Lent → Effect\n"
            "effect_by c main spare ram = change_effect c (after main) (after spare) (after ram)\n\n",
            "",
        ),
        ("abbrev pub cut_by : Cut → Lent → Lent → Lent → CutEffect", "abbrev pub cut_by : Cut → List ℕ → List ℕ → List ℕ → CutEffect"),
        ("      left = volume c.state (after main) (after spare) (after ram);\n", "      left = volume c.state main spare ram;\n"),
        (
            "-- the chip and the RAM, lent to a run of steps\nabbrev pub memory_before : Lent → Lent → Lent → Memory\n"
            "memory_before main spare ram = memory (flash_before main spare) (before ram)\n\n"
            "abbrev pub memory_after : Lent → Lent → Lent → Memory\n"
            "memory_after main spare ram = memory (flash_after main spare) (after ram)\n",
            "-- the chip and the RAM, lent to a run of steps\nabbrev pub memory_of : List ℕ → List ℕ → List ℕ → Memory\n"
            "memory_of main spare ram = memory (flash_of main spare) ram\n",
        ),
    ],
    "crates/load/specs/Contract.antt": [
        ("use Rattle.std.specs.Prelude.{◌≡◌}\n", "use Rattle.std.specs.Prelude.{◌≡◌, List, ℕ}\n"),
        ("use Rattle.memory.specs.Lent.{Lent, after}\n", ""),
        ("abbrev pub loaded_by : Loaded → Lent → Lent → Lent → Several", "abbrev pub loaded_by : Loaded → List ℕ → List ℕ → List ℕ → Several"),
        (
            "    record { outcome = outcome_of r.refusal; done = r.rows; volume = volume r.state (after main) (after spare) (after ram) }\n",
            "    record { outcome = outcome_of r.refusal; done = r.rows; volume = volume r.state main spare ram }\n",
        ),
    ],
    "crates/console/specs/Contract.antt": [
        ("use Rattle.memory.specs.Lent.{Lent, before, after}\n", ""),
        (
            "\n-- of the slices lent to a function, when it is entered and when it returns\n"
            "abbrev pub buffers_before : Fill → Lent → Lent → Lent → Lent → Lent → Buffers\n"
            "buffers_before p line main spare ram out = buffers_of p (before line) (before main) (before spare) (before ram) (before out)\n\n"
            "abbrev pub buffers_after : Fill → Lent → Lent → Lent → Lent → Lent → Buffers\n"
            "buffers_after p line main spare ram out = buffers_of p (after line) (after main) (after spare) (after ram) (after out)\n",
            "",
        ),
    ],
    "crates/memory/specs/Lib.antt": [("pub mod Lent\n", "")],
    "crates/laws/specs/Lib.antt": [("pub mod LentFlash\n", "")],
}
GONE = ["crates/memory/specs/Lent.antt", "crates/laws/specs/LentFlash.antt"]


def main():
    os.chdir(TOP)
    changed = 0
    for path, pairs in SPECS.items():
        with open(path, encoding="utf-8") as f:
            text = f.read()
        for old, new in pairs:
            assert text.count(old) == 1, (path, old)
            text = text.replace(old, new)
        with open(path, "w", encoding="utf-8") as f:
            f.write(text)
    for path in GONE:
        os.remove(path)
    for folder, dirs, files in os.walk("crates"):
        dirs[:] = sorted(d for d in dirs if d != "out")
        for name in sorted(files):
            path = os.path.join(folder, name)
            if not name.endswith(".rt"):
                continue
            with open(path, encoding="utf-8") as f:
                text = f.read()
            new = source(text)
            if new != text:
                with open(path, "w", encoding="utf-8") as f:
                    f.write(new)
                changed += 1
    print(f"lent: {changed} files")


if __name__ == "__main__":
    sys.exit(main())
