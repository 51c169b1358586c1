#!/usr/bin/env python3
"""Turns the repository's own definitions and lemmas to today's spelling: words in snake case, types and modules in camel case, a prime is an apostrophe.

usage: tools/respell.py [--dry]     at the top of the repository, once, right after the kit's port.py

A name is the repository's own where a line of a crate's specs/ or proofs/ declares it. Types, answers to generated goals, functions of src/, exports and
strings keep their spelling, and so does a name in a file that imports it from a library. Of a definition and a lemma whose names would fall together, the
lemma gets _lem. Comments and pages change in backticks alone. What would still fall together is printed, and then nothing is written.
"""
import collections
import glob
import re
import subprocess
import sys

DECL = re.compile(r"^\s*(?:(?:abbrev|unfoldable|private|pub|opaque|instance)\s+)*([^\s(){};.,:@\"λ=]+(?:\s+[^\s(){};.,:@\"λ=]+)*)\s+:(?:\s|$)")
WORD = re.compile(r"(?<![\w'′→⁻¹#·-])([A-Za-z][A-Za-z0-9_]*(?:-[A-Za-z0-9_]+)*['′]*)(?![\w'′→-])")
USE = re.compile(r"use\s+([\w.'·+-]+)\.\{([^}]*)\}")
GENERATED = re.compile(r":\s*(tie|goal)\.")
# Lemmas that port.py put in snake case already, under the name of a definition that this script turns.
LEMMAS = {
    "round_number": ["crates/buffer/proofs/Refusals.antt"],
    "first_on": ["crates/flood/proofs/Spreads.antt"],
    "same_way": ["crates/tree/proofs/ComputedWays.antt"],
    "two_digits": ["crates/packet/proofs/FieldsBack.antt"],
    "units_of": ["crates/promises/proofs/Dropped.antt"],
    "ready_links": ["crates/promises/proofs/Plains.antt"],
    "mark_on": ["crates/promises/proofs/Detours.antt"],
    "made_in": ["crates/promises/proofs/Sequences.antt"],
    "round_room": ["crates/buffer/proofs/RoundCall.antt"],
}
BY_HAND = {"headFine-same": "head_fine_is"}


def snake(name):
    """The name in snake case."""
    if not name[0].islower():
        return name
    return re.sub(r"(?<=[a-z0-9])([A-Z])", lambda m: "_" + m.group(1).lower(), name.replace("′", "'").replace("-", "_")) if not re.search(r"-[A-Z]", name) else name


def text_of(path):
    with open(path, encoding="utf-8") as f:
        return f.read()


def files(pattern):
    return sorted(f for f in glob.glob("crates/*/" + pattern, recursive=True) if "/out/" not in f)


def declared(text):
    """Names that the file declares, but for answers to generated goals."""
    found = set()
    for line in text.splitlines():
        if line.lstrip().startswith("--") or GENERATED.search(line):
            continue
        m = DECL.match(line)
        if m:
            found |= set(m.group(1).split())
    return found


def imported(text, own):
    """Names that the file imports from a library, or else from a crate of the repository."""
    found = set()
    for m in USE.finditer(text):
        mine = m.group(1).startswith("Rattle.") and not m.group(1).startswith("Rattle.std.")
        if mine == own:
            for w in m.group(2).split(","):
                found |= {w.strip().split(" ")[-1], w.strip().split(" ")[0]}
    return found


def turned(text, table):
    return WORD.sub(lambda m: table.get(m.group(1), m.group(1)), text)


def in_ticks(text, table):
    return re.sub(r"`[^`\n]*`", lambda m: turned(m.group(0), table), text)


def turned_antt(text, table):
    out = []
    for line in text.split("\n"):
        at = line.find("-- ") if not line.lstrip().startswith("--") else len(line) - len(line.lstrip())
        code, said = (line, "") if at < 0 else (line[:at], line[at:])
        out.append(turned(code, table) + in_ticks(said, table))
    return "\n".join(out)


def turned_rt(text, table):
    """Code of Rust has no dash in a name: dashed names turn in ghost imports alone; strings and comments stay."""
    plain = {n: t for n, t in table.items() if "-" not in n}
    out = []
    for line in text.split("\n"):
        if line.lstrip().startswith("ghost use"):
            out.append(turned(line, table))
            continue
        parts = re.split(r'("(?:[^"\\]|\\.)*"|//.*$)', line)
        out.append("".join(p if p.startswith('"') else in_ticks(p, table) if p.startswith("//") else turned(p, plain) for p in parts))
    return "\n".join(out)


def turned_edit(text, table):
    of_antt = re.search(r"^file: .*\.antt", text, re.M)
    out = []
    for line in text.split("\n"):
        m = re.match(r"(old: |new: )(.*)$", line)
        out.append(line if not m else m.group(1) + (turned_antt if of_antt else turned_rt)(m.group(2), table))
    return "\n".join(out)


def main():
    dry = "--dry" in sys.argv
    antts, rts, edits = files("**/*.antt"), files("src/**/*.rt"), files("must-fail/*.edit")
    texts = {p: text_of(p) for p in antts + rts + edits}
    local = {p for p in antts if p.endswith("/Proof.antt")}
    where = collections.defaultdict(set)
    for p in antts:
        for n in declared(texts[p]):
            where[n].add(p)
    table = {n: BY_HAND.get(n, snake(n)) for n in where if BY_HAND.get(n, snake(n)) != n}
    back = collections.defaultdict(set)
    for n, t in table.items():
        back[t].add(n)
    for t, ns in back.items():
        for n in ns:
            if "-" in n and (len(ns) > 1 or (t in where and where[t] - local)):
                table[n] = t + "_lem"
    for n in LEMMAS:
        table[n] = n + "_lem"
    # What falls together all the same, in one file; a word of a path, as of a function's folder, is no name of its own.
    bad = []
    words = {p: set(WORD.findall(re.sub(r"\.\w[\w'-]*", "", texts[p]))) for p in antts}
    for n, t in table.items():
        for p in antts:
            if n in words[p] and t in words[p] and not (t in LEMMAS and p in LEMMAS[t]):
                bad.append(f"{n} would be {t}, which stands in {p}")
    back = collections.defaultdict(set)
    for n, t in table.items():
        back[t].add(n)
    for t, ns in back.items():
        if len(ns) > 1:
            bad.append(f"{sorted(ns)} would all be {t}")
    for b in sorted(set(bad)):
        print(b)
    print(f"{len(table)} names, {len([t for t in table.values() if t.endswith('_lem')])} with _lem; with a dash or a capital: {sorted(t for t in table.values() if '-' in t or t[0].isupper())}")
    if dry:
        return 0
    everywhere = {n for n in table if where[n] - local and n not in LEMMAS}
    for p in antts + rts + edits:
        mine = {n for n in table if p in where[n] and n not in LEMMAS} | {n for n in LEMMAS if p in LEMMAS[n]}
        skip = imported(texts[p], False)
        here = {n: table[n] for n in (everywhere | mine) if n not in skip}
        t = (turned_antt if p in antts else turned_rt if p in rts else turned_edit)(texts[p], here)
        if t != texts[p]:
            with open(p, "w", encoding="utf-8") as f:
                f.write(t)
    # The pages may name what port.py turned, too: both by the names of the commit that the port began at.
    landed = set()
    for line in subprocess.run(["git", "grep", "-hE", "^[^-].* : ", "16e600f", "--", "crates/*.antt"], capture_output=True, text=True).stdout.splitlines():
        m = DECL.match(line)
        if m:
            landed |= set(m.group(1).split())
    pages = {n: snake(n) for n in landed if snake(n) != n} | {n: table[n] for n in everywhere}
    for p in ["README.md"] + sorted(glob.glob("docs/*.md")) + ["examples/README.md", "include/yagbolshen.h"]:
        t = in_ticks(text_of(p), pages)
        if t != text_of(p):
            with open(p, "w", encoding="utf-8") as f:
                f.write(t)
    return 0


if __name__ == "__main__":
    raise SystemExit(main())
