#!/usr/bin/env python3
"""Spells the repository's own definitions and lemmas in snake case, after port.py: `xorOver-ext` becomes `xor_over_ext`.

usage: tools/respell.py [--check] [FOLDER]     FOLDER is the top of the repository; --check writes nothing

A name is the repository's own if a file of specs/, or a lemma file that stands directly in proofs/, declares it. Types keep their camel case. The names that the check
makes (goals, in proofs/F/), names of Rust code, strings and the library's names stay: a name that a file brings in from elsewhere is left alone in that file.
A line `meets:` names a new spelling that stands in the file already, and `twice:` two names that would fall together.
"""
import collections
import os
import re
import sys

WORD = r'[^\s(){}.;,@"«»]+'
DECLARED = re.compile(rf"(?m)^ *(?:(?:pub|abbrev|unfoldable|ruleset) +)*({WORD})(?: +\{{[^{{}}\n]*\}})* :(?= |$)")
RULESET = re.compile(rf"(?m)^ *pub ruleset ({WORD}) =")
COMMENT = re.compile(r"(?<![^\s(){}.;,@\"«»])--[^\n]*")
USE = re.compile(r"\buse ([^\s;{]+?)\.?(?:\{([^}]*)\}|(?=[\s;]|$))", re.M)
STRING = re.compile(r'b?"(?:\\.|[^"\\\n])*"')
# what is no plain respelling: std has another name, or the plain one is taken
SPECIAL = {
    # a lemma that would have its function's name gets _lem
    n: n.replace("-", "_") + "_lem"
    for n in "class-sum count-number first-in is-ruler line-length mark-bytes message-count message-count-of no-plan pair-number part-fits top-offset width-from bit-and bit-or".split()
}
# names within one file that a new spelling would meet: the end of the file's path, the name, the new name
LOCALS = [("tables/specs/PictureLaws.antt", "on_row", "on_rows"), ("stream/specs/Theorems.antt", "asks_read", "asks_read_lem")]
PARTS = {"getD": "get_or"}


def snake(name):
    for old, new in PARTS.items():
        name = re.sub(rf"(?<![A-Za-z]){old}(?![A-Za-z])", new, name)
    name = re.sub(r"(?<=[a-z0-9])[A-Z]", lambda m: "_" + m[0].lower(), name)
    return name.replace("-", "_")


def files(root, endings):
    for folder, dirs, names in os.walk(os.path.join(root, "crates")):
        dirs[:] = sorted(d for d in dirs if d != "out")
        for n in sorted(names):
            if n.endswith(endings):
                yield os.path.join(folder, n)


def read(path):
    with open(path, encoding="utf-8") as f:
        return f.read()


def is_ours(path):
    return "/specs/" in path or re.search(r"/proofs/[^/]+\.antt$", path) is not None


def brought(text, crates):
    """The names that a file takes from modules that are not the repository's."""
    theirs = set()
    for m in USE.finditer(text):
        steps = m[1].split(".")
        if steps[0] == "Rattle" and len(steps) > 1 and steps[1] in crates:
            continue
        theirs.update(re.findall(WORD, m[2] or ""))
    return theirs


def table(root):
    names = {}
    for p in files(root, ".antt"):
        if is_ours(p):
            code = COMMENT.sub("", read(p))
            for n in DECLARED.findall(code) + RULESET.findall(code):
                if n[0].isupper() or n in ("let", "where"):
                    continue
                new = SPECIAL.get(n, snake(n))
                if new != n:
                    names[n] = new
    return names


def main(argv):
    check = "--check" in argv
    rest = [a for a in argv if a != "--check"]
    root = rest[0] if rest else "."
    crates = set(os.listdir(os.path.join(root, "crates")))
    names = table(root)
    olds = collections.defaultdict(set)
    for old, new in names.items():
        olds[new].add(old)
    for new, old in sorted(olds.items()):
        if len(old) > 1:
            print(f"twice: {new}: {' '.join(sorted(old))}")
    changed = 0
    for p in files(root, (".antt", ".rt")):
        text = before = read(p)
        for end, old, new in LOCALS:
            if p.endswith(end):
                text = re.sub(rf"(?<![\w-]){old}(?![\w-])", new, text)
        stay = brought(text, crates)
        if p.endswith(".antt") and not is_ours(p):
            stay |= set(re.findall(rf"(?m)^(?:pub |abbrev )*({WORD})", text))
        words = set(re.findall(WORD, COMMENT.sub("", text) if p.endswith(".antt") else re.sub(r"//[^\n]*", "", text)))

        new = respelled(text, names, stay, p.endswith(".rt"))
        for w in sorted(words & set(names) - stay):
            if names[w] in words:
                print(f"meets: {p}: {w} -> {names[w]}")
        if new != before:
            changed += 1
            if not check:
                with open(p, "w", encoding="utf-8") as f:
                    f.write(new)
    print(f"{len(names)} names, {changed} files")


def respelled(text, names, stay, rust):
    word = re.compile(r"[^\s(){}.;,@\"«»`]+")

    def turn(part, before):
        def one(m):
            w, tail = m[0], ""
            if w not in names:
                w, tail = m[0].rstrip(":"), m[0][len(m[0].rstrip(":")) :]
            if w in stay or w not in names:
                return m[0]
            left = (before + part[: m.start()])[-5:]
            return m[0] if left.endswith("goal.") else names[w] + tail

        return word.sub(one, part)

    if not rust:
        return turn(text, "")
    out, at = [], 0
    for s in STRING.finditer(text):
        out += [turn(text[at : s.start()], text[max(0, at - 5) : at]), s[0]]
        at = s.end()
    return "".join(out) + turn(text[at:], text[max(0, at - 5) : at])


if __name__ == "__main__":
    main(sys.argv[1:])
