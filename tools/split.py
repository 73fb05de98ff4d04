#!/usr/bin/env python3
"""Moves laws from a crate's specs/ to its proofs/, statements unchanged, and mends every import of them.

usage: tools/split.py CRATE MODULE..     at the top of the repository. A MODULE moves whole; MODULE! leaves its definitions (records, data, abbrev, unfoldable) in specs/

A must-fail edit of a definition is read as a bad edit where a file of specs/ no longer checks, so the theorems that such an edit breaks stand in proofs/.
"""
import glob
import os
import re
import sys

WORD = r'[^\s(){}.;,@"«»]+'
DECL = re.compile(rf"((?:(?:pub|abbrev|unfoldable|private) +)*)({WORD})((?: +\{{[^{{}}\n]*\}})*(?: +\([^()\n]*\))*) :(?= |$)")


def items(lines):
    """The file's items: (kind, names, lines); a comment belongs to the item after it."""
    out, cur, comments = [], None, []
    for l in lines:
        if l.startswith("--"):
            comments.append(l)
            continue
        if l.strip() == "":
            (comments if comments else cur[2] if cur else comments).append(l)
            continue
        start = None
        if not l[0].isspace():
            m = re.match(rf"pub (record|data) +({WORD})", l)
            if m:
                start = ("def", {m[2]})
            elif l.startswith("module "):
                start = ("block", set())
            elif re.match(rf"(pub )?ruleset ", l):
                start = ("law", {re.match(rf"(?:pub )?ruleset +({WORD})", l)[1]})
            elif not l.startswith("unfolding"):
                m = DECL.match(l)
                if m:
                    start = ("def" if re.search("abbrev|unfoldable", m[1]) else "law", {m[2]})
        if start:
            if cur:
                out.append(cur)
            cur = (start[0], start[1], comments + [l])
            comments = []
        else:
            if cur is None:
                raise SystemExit(f"a line before the first item: {l}")
            cur[2].extend(comments + [l])
            comments = []
            m = re.match(rf" +((?:(?:pub|abbrev|unfoldable) +)*)({WORD})(?: +\{{[^{{}}\n]*\}})* :(?= |$)", l)
            if m:
                if cur[0] == "block":
                    cur[1].add(m[2])
                    if re.search("abbrev|unfoldable", m[1]):
                        print(f"look: a definition in a block: {m[2]}")
                elif cur[0] == "def" and any("data" in x for x in cur[2][:6]):
                    cur[1].add(m[2])
            elif cur[0] == "block":
                m = re.match(rf" +pub (?:record|data) +({WORD})", l)
                if m:
                    cur[1].add(m[1])
                    print(f"look: a record in a block: {m[1]}")
    if cur:
        out.append(cur)
    return out


def read(p):
    with open(p, encoding="utf-8") as f:
        return f.read()


def write(p, t):
    os.makedirs(os.path.dirname(p), exist_ok=True)
    with open(p, "w", encoding="utf-8") as f:
        f.write(t)


def declare(folder, module):
    """Adds `pub mod` lines down to the module."""
    steps = module.split(".")
    for i, s in enumerate(steps):
        lib = os.path.join(folder, *steps[:i]) + ".antt" if i else os.path.join(folder, "Lib.antt")
        t = read(lib) if os.path.exists(lib) else ""
        if not re.search(rf"(?m)^(pub )?mod {s}$", t):
            head = [l for l in t.split("\n") if l and not re.match(r"(pub )?mod ", l)]
            mods = sorted([l for l in t.split("\n") if re.match(r"(pub )?mod ", l)] + [f"pub mod {s}"])
            write(lib, "\n".join(head + mods) + "\n")


def undeclare(folder, module):
    steps = module.split(".")
    lib = os.path.join(folder, *steps[:-1]) + ".antt" if len(steps) > 1 else os.path.join(folder, "Lib.antt")
    t = re.sub(rf"(?m)^(pub )?mod {steps[-1]}\n", "", read(lib))
    if t.strip() == "" or not re.search(r"(?m)^(pub )?mod ", t):
        os.remove(lib)
        if len(steps) > 1:
            undeclare(folder, ".".join(steps[:-1]))
    else:
        write(lib, t)


def pruned(uses, body, pub):
    """The import lines that the body needs."""
    code = re.sub(r"(?m)(?<!\S)--.*$", "", body)
    words = set(re.findall(WORD, code))
    out = []
    for u in uses:
        if u.startswith("pub use"):
            out.append(u if pub else u[4:])
            continue
        m = re.match(r"((?:unfoldable pub )?use [^{\s]+?)\.?\{(.*)\}\s*$", u)
        if not m:
            last = re.split(r"[.\s]", u.strip())[-1]
            if re.search(rf"(?<![\w.]){re.escape(last)}\.", code):
                out.append(u)
            continue
        keep = []
        for it in (i.strip() for i in m[2].split(",")):
            word = it.split(" as ")[-1].strip("«» ")
            bits = [q for q in word.split("◌") if q]
            if word in words or ("◌" in word and all(q in code for q in bits)):
                keep.append(it)
        if keep:
            out.append(f"{m[1]}.{{{', '.join(keep)}}}")
    return out


def main(crate, wanted):
    specs, proofs = f"crates/{crate}/specs", f"crates/{crate}/proofs"
    moved = {}  # module -> None (whole) or the set of names that moved
    for w in wanted:
        part = w.endswith("!")
        m = w.rstrip("!")
        src, dst = (os.path.join(d, *m.split(".")) + ".antt" for d in (specs, proofs))
        if not part:
            t = read(src)
            os.remove(src)
            write(dst, t)
            undeclare(specs, m)
            declare(proofs, m)
            moved[m] = None
            continue
        lines = read(src).rstrip("\n").split("\n")
        k = max(i for i, l in enumerate(lines) if l.startswith("use ")) + 1
        head = lines[:k]
        uses = [l for l in head if not l.startswith("--")]
        comment = [l for l in head if l.startswith("--")]
        its = items(lines[k:])
        defs = [i for i in its if i[0] == "def"]
        laws = [i for i in its if i[0] != "def"]
        names = set().union(*(i[1] for i in defs)) if defs else set()
        gone = set().union(*(i[1] for i in laws)) if laws else set()
        text = lambda part: "\n".join("\n".join(i[2]) for i in part).strip("\n")
        short = comment
        for i, l in enumerate(comment):
            if l.startswith("-- Main results"):
                short = comment[:i]
                break
        write(src, "\n".join(short + pruned(uses, text(defs), True) + ["", text(defs), ""]))
        body = text(laws)
        words = set(re.findall(WORD, re.sub(r"(?m)(?<!\S)--.*$", "", body)))
        used = sorted(n for n in names if n in words)
        own = [f"use Rattle.{crate}.specs.{m}.{{{', '.join(used)}}}"] if used else []
        write(dst, "\n".join(comment + pruned(uses, body, False) + own + ["", body, ""]))
        declare(proofs, m)
        moved[m] = gone
    for p in sorted(glob.glob("crates/**/*.antt", recursive=True) + glob.glob("crates/**/*.rt", recursive=True)):
        if "/out/" in p:
            continue
        t = old = read(p)
        for m, gone in moved.items():
            path = rf"Rattle\.{crate}\.specs\.{re.escape(m)}"
            if gone is None:
                t = re.sub(rf"{path}(?![\w'.-])|{path}(?=\.\{{|\.[A-Z{{]|\.[a-z_])", f"Rattle.{crate}.proofs.{m}", t)
                continue

            def one(x):
                its = [i.strip() for i in x[2].split(",")]
                there = [i for i in its if i.split(" as ")[0].strip("«» ") in gone]
                here = [i for i in its if i not in there]
                out = []
                if here:
                    out.append(f"{x[1]}use Rattle.{crate}.specs.{m}.{{{', '.join(here)}}}{x[3]}")
                if there:
                    out.append(f"{x[1]}use Rattle.{crate}.proofs.{m}.{{{', '.join(there)}}}{x[3]}")
                return "\n".join(out)

            t = re.sub(rf"(?m)^([ \w]*)use {path}\.\{{([^}}]*)\}}(;?)$", one, t)
            if re.search(rf"use {path}(?!\.\{{)(?![\w.])", t):
                taken = set(re.findall(rf"(?<![\w.]){m.split('.')[-1]}\.({WORD})", re.sub(rf"use {path}.*", "", t)))
                if taken & gone and taken - gone:
                    print(f"look: {p}: takes the module {m}: {taken}")
                elif taken & gone:
                    t = re.sub(rf"use {path}(?!\.\{{)(?![\w.])", f"use Rattle.{crate}.proofs.{m}", t)
        if t != old:
            write(p, t)


if __name__ == "__main__":
    main(sys.argv[1], sys.argv[2:])
