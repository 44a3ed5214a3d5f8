#!/usr/bin/env python3
"""Brings the repository's own definitions and lemmas to today's spelling, once, after port.py.

usage: python3 tools/respell.py          in the repository, after /opt/rattle/port/port.py

A name of ours with a dash, as plain-bit, becomes plain_bit; a type's, as Whole-bytes, becomes WholeBytes,
and a module's that a file brings under another name, as xor-gate, becomes XorGate.
The old word getD in a name is get_or. A lemma that would get the name of a word of the library, as bit-xor, becomes bit_xor_lem.
Names of the toolchain's library, and the goals and steps that the toolchain names, keep their dashes.
Functions of src/, strings, inputs and outputs are not touched. It says which names fall together, and then writes nothing.
"""
import os
import re

TOKEN = re.compile(r"[^\s(){}\[\],;.:⌜⌝«»\"`]+")
DASHED = re.compile(r"^[A-Za-z][\w'₀-₉→]*(-[\w'₀-₉→]+)+$")
WORDS = r"(?:(?:pub|abbrev|unfoldable|foldable|data|record|opaque|ruleset)\s+)*"
# a signature, a field or a constructor at the head of a line; and a record, a data type or a ruleset
HEAD = re.compile(r"^\s*(?:\|\s*)?" + WORDS + r"([^\s(){},]+)(?:\s+[({].*?)?\s*:(?:\s|$)(.*)$")
BLOCK = re.compile(r"^\s*(?:pub\s+)?(?:data|record|ruleset)\s+([^\s(){},]+)")
# what the toolchain asks for, under its own name
GOAL = re.compile(r"^\s*goal\.")
MODULE = re.compile(r"^use \S+ as (\S+)\s*$", re.M)
IMPORT = re.compile(r"\buse\s+(\S+?)\.\{([^}]*)\}", re.S)


def texts():
    for folder, dirs, files in os.walk("crates"):
        dirs[:] = sorted(d for d in dirs if d != "out")
        for f in sorted(files):
            if f.endswith((".rt", ".antt")):
                yield os.path.join(folder, f)


def comment(path):
    return "//" if path.endswith(".rt") else "--"


def spelled(name):
    parts = name.replace("getD", "get_or").split("-")
    if name[0].isupper():
        return parts[0] + "".join(p[:1].upper() + p[1:] for p in parts[1:])
    return "_".join(parts)


def declared(path, text):
    if not path.endswith(".antt"):
        return
    for line in text.split("\n"):
        line = line.split("--")[0]
        m = HEAD.match(line)
        if m and not GOAL.match(m.group(2)):
            yield m.group(1)
        m = BLOCK.match(line)
        if m:
            yield m.group(1)


def renamed(text):
    """The names that a text gives to what it imports."""
    for _, names in IMPORT.findall(text):
        for n in names.split(","):
            if " as " in n:
                yield n.split(" as ")[-1].strip()


def imported(text, ours):
    """What a text takes from the toolchain's library."""
    for where, names in IMPORT.findall(text):
        parts = where.split(".")
        if parts[0] == "Rattle" and parts[1] in ours:
            continue
        for n in names.split(","):
            yield n.split(" as ")[-1].strip()


def main():
    ours = set(os.listdir("crates"))
    read = {p: open(p, encoding="utf-8").read() for p in texts()}
    kit = {n for t in read.values() for n in imported(t, ours)}
    names = {n for p, t in read.items() for n in declared(p, t)} | {n for t in read.values() for n in renamed(t)}
    turned = {n: spelled(n) for n in names if (DASHED.match(n) or "getD" in n) and n not in kit}
    turned = {n: to + "_lem" if to in kit else to for n, to in turned.items()}
    turned |= {n: "".join(p.capitalize() for p in n.split("-")) for t in read.values() for n in MODULE.findall(t) if DASHED.match(n)}
    bad = False
    for n, to in sorted(turned.items()):
        same = [m for m, u in turned.items() if u == to and m != n] + [m for m in (to,) if m in names]
        if same:
            bad = True
            print(f"falls together: {n} -> {to}, beside {', '.join(same)}")
    if bad:
        return 1
    changed = 0
    for p, t in read.items():
        lines = []
        for line in t.split("\n"):
            code, mark, rest = line.partition(comment(p))
            if p.endswith(".rt"):
                pieces = re.split(r'("(?:[^"\\]|\\.)*")', code)
                code = "".join(s if s.startswith('"') else TOKEN.sub(lambda m: turned.get(m.group(0), m.group(0)), s) for s in pieces)
            else:
                code = TOKEN.sub(lambda m: turned.get(m.group(0), m.group(0)), code)
            lines.append(code + mark + rest)
        new = "\n".join(lines)
        if new != t:
            changed += 1
            with open(p, "w", encoding="utf-8") as f:
                f.write(new)
    print(f"{len(turned)} names, {changed} files")
    return 0


if __name__ == "__main__":
    raise SystemExit(main())
