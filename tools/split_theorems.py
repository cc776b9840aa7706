#!/usr/bin/env python3
"""Theorems of a crate of definitions and theorems, moved from specs/ to proofs/.

usage: tools/split_theorems.py CRATE|CRATE/FILE..          at the top of the repository, once

The kit counts an edit of a definition as unread where theorems in specs/ rest on what falls. A file of specs/ keeps its definitions; theorems,
and modules that have some, go to the file of the same name in proofs/, statements and proofs unchanged. Imports and edits follow.
"""
import os
import re
import sys

TOP = os.path.dirname(os.path.dirname(os.path.realpath(__file__)))
DEFINES = re.compile(r"(abbrev|unfoldable|opaque|(pub )?(record|data|syntax|ruleset|infixl?|infixr))\b")
NAME = re.compile(r"(?:abbrev |unfoldable |opaque )?(?:pub )?(?:record |data )?([^\s:({]+)")
WORD = r"(?<![\w'₀-₉.-]){}(?![\w'₀-₉ᶜ-])"


def read(path):
    with open(path, encoding="utf-8") as f:
        return f.read()


def write(path, text):
    os.makedirs(os.path.dirname(path), exist_ok=True)
    with open(path, "w", encoding="utf-8") as f:
        f.write(text)


def blocks(text):
    """(kind, names, text) of each block at the margin: head, use, note, definition, theorem, module."""
    out, before = [], []
    for line in text.split("\n"):
        if re.match(r"\s|[)\]}]", line) or not line:
            (out[-1][2] if out and not before else before).append(line)
        elif line.startswith("--"):
            before.append(line)
        elif re.match(r"(unfolding|by) ", line) and out:
            out[-1][2].extend(before + [line])
            before = []
        else:
            name = NAME.match(line).group(1)
            if line.startswith("use "):
                kind = "use"
            elif line.startswith("module "):
                kind = "module"
            elif out and out[-1][0] in ("definition", "theorem") and out[-1][1] == name:
                out[-1][2].extend(before + [line])
                before = []
                continue
            else:
                kind = "definition" if DEFINES.match(line) else "theorem"
            out.append([kind, name, before + [line]])
            before = []
    if before:
        out.append(["note", "", before])
    return [(k, n, "\n".join(ls).strip("\n")) for k, n, ls in out]


def inner(text):
    """Names that a module block declares, and its theorems among them."""
    names, proved, defined = set(), set(), set()
    for m in re.finditer(r"(?m)^( +)(?:(abbrev|unfoldable|opaque) )?(?:pub )?(?:(record|data) )?([^\W\d][^\s:({=]*)(?: [^\s:=]+| \([^\n]*?\))* :(?= |$)", text):
        name = m.group(4)
        if name in ("let", "in", "module"):
            continue
        if m.group(2) or m.group(3):
            names.add(name)
            defined.add(name)
        elif re.search(rf"(?m)^{m.group(1)}{re.escape(name)}(?: [^\n]*?)? =(?= |$)", text):
            names.add(name)
            proved.add(name)
    return names, proved - defined


def uses(text):
    return [b for b in blocks(text) if b[0] == "use"]


def used(lines, text):
    """The imports among lines that text uses."""
    text = re.sub(r"(?m)--.*$", "", text)
    out = []
    for line in lines:
        m = re.match(r"use (\S+)\.\{(.*)\}$", line)
        if not m:
            name = re.match(r"use \S+ as (\S+)$", line)
            if not name or re.search(rf"(?<![\w.'-]){re.escape(name.group(1))}\.", text):
                out.append(line)
            continue
        names = []
        for n in (x.strip() for x in m.group(2).split(",")):
            word = n.split(" as ")[-1]
            parts = [q for q in re.split("◌", word) if q] if "◌" in word else []
            if (parts and all(q in text for q in parts)) or (not parts and re.search(r"(?<![\w'₀-₉-])" + re.escape(word) + r"(?![\w'₀-₉-])", text)):
                names.append(n)
        if names:
            out.append(f"use {m.group(1)}.{{{', '.join(names)}}}")
    return out


def main(crates):
    os.chdir(TOP)
    only = {tuple(c.split("/")) for c in crates if "/" in c}
    crates = sorted({c.split("/")[0] for c in crates})
    moved = {}  # (crate, file) -> names that stand in proofs/ now; None where the whole file does
    new = {}
    for crate in crates:
        folder = f"crates/{crate}/specs"
        parts = {f[:-5]: blocks(read(f"{folder}/{f}")) for f in sorted(os.listdir(folder)) if f.endswith(".antt") and f != "Lib.antt"}
        if any(c == crate for c, _ in only):
            parts = {f: bs for f, bs in parts.items() if (crate, f) in only}
        goes = {}
        theorems = set()
        for f, bs in parts.items():
            for i, (k, n, t) in enumerate(bs):
                if k == "theorem":
                    goes[f, i] = True
                    theorems.add((f, n))
                elif k == "module":
                    names, proved = inner(t)
                    if proved:
                        goes[f, i] = True
                        theorems |= {(f, n) for n in proved} | {(f, n) for n in names if re.search(rf"(?m)^ +(?:abbrev |unfoldable )?pub (?:record |data )?{re.escape(n)}[ :]", t)}
        changed = True
        while changed:  # a definition that rests on what goes, goes with it
            changed = False
            for f, bs in parts.items():
                here = {(m.group(1), n.strip()) for k, _, u in bs if k == "use" for m in re.finditer(rf"Rattle\.{crate}\.specs\.(\w+)\.\{{([^}}]*)\}}", u) for n in m.group(2).split(",")}
                for i, (k, n, t) in enumerate(bs):
                    if (f, i) in goes or k not in ("definition", "module"):
                        continue
                    mine = {n} if k == "definition" else inner(t)[0]
                    for w in set(re.findall(r"(?<![\w'₀-₉.-])[^\s(){}\[\];,.:λ]+(?! *[=:] )(?![^\s(){}\[\];,.:λ])", re.sub(r"(?m)--.*$", "", t))) - mine:
                        if (f, w) in theorems or any(g != f and x == w and (g, w) in theorems for g, x in here):
                            print(f"{crate}/{f}: {n} goes with {w}")
                            goes[f, i] = True
                            theorems |= {(f, x) for x in mine if k == "definition" or re.search(rf"(?m)^ +(?:abbrev |unfoldable )?pub (?:record |data )?{re.escape(x)}[ :]", t)}
                            changed = True
                            break
        for f, bs in parts.items():
            gone = [i for i in range(len(bs)) if (f, i) in goes]
            if not gone:
                continue
            stay = [i for i in range(len(bs)) if i not in gone and bs[i][0] in ("definition", "module")]
            names = set()
            for i in gone:
                names |= {bs[i][1]} if bs[i][0] == "theorem" or bs[i][0] == "definition" else inner(bs[i][2])[0]
            declared = lambda t: set(re.findall(r"(?m)^ *(?:(?:abbrev|unfoldable|opaque) )?(?:pub )?(?:(?:record|data) )?([^\W\d][^\s:({=]*)(?: [^\s:=]+| \([^\n]*?\))* :(?= |$)", t))
            for i in gone:
                names |= declared(bs[i][2])
            for i in stay:
                names -= declared(bs[i][2]) - {bs[j][1] for j in gone}
            moved[crate, f] = names if stay else None
            new[crate, f] = (bs, gone, stay)
    for (crate, f), (bs, gone, stay) in new.items():
        head = [t for k, _, t in bs if k == "use"]
        first = head[0].split("\n")[0] if head and head[0].startswith("--") else None
        plain = [re.sub(r"(?m)^--.*\n", "", t) for t in head]
        top = "\n".join(l for l in head[0].split("\n") if l.startswith("--")) if head and head[0].startswith("--") else ""
        there = "\n\n".join(bs[i][2] for i in gone)
        cited = []
        kept = []
        for i in stay:
            t = bs[i][2]
            for n in [bs[i][1]] if bs[i][0] == "definition" else sorted(inner(t)[0]):
                if re.search(WORD.format(re.escape(n)), there):
                    cited.append(n)
                    t = re.sub(rf"(?m)^( *)(abbrev|unfoldable) (?!pub )(?={re.escape(n)}[ :])", r"\1\2 pub ", t)
                    t = re.sub(rf"(?m)^( *)(record|data) (?={re.escape(n)}[ :])", r"\1pub \2 ", t)
            if bs[i][0] == "definition" and bs[i][1] in cited and re.search(r"(?m)^(pub )?record ", t):
                t = re.sub(r"(?m)^  (?!pub |--)([^\s:(]+(?: [^\s:(]+)*) : ", r"  pub \1 : ", t)
            for n in re.findall(r"(?m)^  (?:pub )?([^\s:]+) : ", t) if re.search(r"(?m)^(pub )?data ", t) else []:
                if re.search(WORD.format(re.escape(n)), there):
                    cited.append(n)
            kept.append(t)
        own_use = [f"use Rattle.{crate}.specs.{f}.{{{', '.join(cited)}}}"] if cited else []
        plain = [l for t in plain for l in t.split("\n") if l]
        write(f"crates/{crate}/proofs/{f}.antt", "\n".join(([top] if top else []) + used(plain, there) + own_use) + "\n\n" + there + "\n")
        if stay:
            low = "\n\n".join(kept)
            write(f"crates/{crate}/specs/{f}.antt", "\n".join(([top] if top else []) + used(plain, low)) + "\n\n" + low + "\n")
        else:
            os.remove(f"crates/{crate}/specs/{f}.antt")
    for crate in crates:
        lib = f"crates/{crate}/specs/Lib.antt"
        names = re.findall(r"(?m)^pub mod (\w+)$", read(lib))
        write(lib, "".join(f"pub mod {n}\n" for n in names if os.path.exists(f"crates/{crate}/specs/{n}.antt")))
        plib = f"crates/{crate}/proofs/Lib.antt"
        old = read(plib) if os.path.exists(plib) else ""
        write(plib, old + "".join(f"pub mod {n}\n" for n in names if (crate, n) in moved and f"pub mod {n}\n" not in old))
    for folder, dirs, files in os.walk("crates"):  # imports and edits follow
        dirs[:] = sorted(d for d in dirs if d != "out")
        for name in sorted(files):
            path = os.path.join(folder, name)
            if name.endswith((".antt", ".rt")):
                text = read(path)
                is_rt = name.endswith(".rt")

                def one(m):
                    ghost, crate, f, group = m.group(1), m.group(2), m.group(3), m.group(4)
                    if (crate, f) not in moved:
                        return m.group(0)
                    names = moved[crate, f]
                    end = ";" if is_rt else ""
                    each = [n.strip() for n in group.split(",") if n.strip()]
                    up = [n for n in each if names is not None and n.split(" as ")[0] not in names]
                    down = [n for n in each if n not in up]
                    lines = []
                    if up:
                        lines.append(f"{ghost}use Rattle.{crate}.specs.{f}.{{{', '.join(up)}}}{end}")
                    if down:
                        lines.append(f"{ghost}use Rattle.{crate}.proofs.{f}.{{{', '.join(down)}}}{end}")
                    return "\n".join(lines)

                turned = re.sub(r"(?m)^(ghost )?use Rattle\.(\w+)\.specs\.(\w+)\.\{([^}]*)\};?$", lambda m: one_(m, one), text)
                def alias(m):
                    crate, f, name = m.groups()
                    if (crate, f) not in moved:
                        return m.group(0)
                    names = moved[crate, f]
                    cited = set(re.findall(rf"(?<![\w.'-]){re.escape(name)}\.([^\s(){{}}\[\];,.]+)", re.sub(r"(?m)--.*$", "", text)))
                    down = cited if names is None else cited & names
                    if down and down != cited:
                        print(f"{path}: {name} names both {sorted(down)} and {sorted(cited - down)}")
                    return f"use Rattle.{crate}.{'proofs' if down else 'specs'}.{f} as {name}"

                turned = re.sub(r"(?m)^use Rattle\.(\w+)\.specs\.(\w+) as (\w+)", alias, turned)
                if turned != text:
                    write(path, turned)
            elif name.endswith(".edit"):
                text = read(path)
                crate = path.split(os.sep)[1]
                if crate not in crates:
                    continue
                out = []
                f = None
                for line in text.split("\n"):
                    if line.startswith("file: specs/"):
                        f = line[len("file: specs/") : -len(".antt")]
                        out.append(line)
                        continue
                    if line.startswith("file: "):
                        f = None
                    if line.startswith("old: ") and f and (crate, f) in moved:
                        low = f"crates/{crate}/proofs/{f}.antt"
                        high = f"crates/{crate}/specs/{f}.antt"
                        is_down = read(low).count(line[5:]) == 1 and (not os.path.exists(high) or read(high).count(line[5:]) == 0)
                        want = f"file: {'proofs' if is_down else 'specs'}/{f}.antt"
                        last = [l for l in out if l.startswith("file: ")][-1]
                        if last != want:
                            if out[-1] == last:
                                out[-1] = want
                            else:
                                out.append(want)
                    out.append(line)
                if "\n".join(out) != text:
                    write(path, "\n".join(out))
    return 0


def one_(m, one):
    class M:
        def group(self, i):
            return (m.group(0), m.group(1) or "", m.group(2), m.group(3), m.group(4))[i]

    return one(M())


if __name__ == "__main__":
    sys.exit(main(sys.argv[1:]))
