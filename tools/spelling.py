#!/usr/bin/env python3
"""Brings the repository's own definitions, laws and fields to today's spelling: words in snake case.

usage: tools/spelling.py        at the top of the repository, once, after the kit's port.py

A name that specs/ or proofs/ of a crate defines, a record's field and a constructor become `place_is`, `length_run`, `steps_to`
where they were `place-is`, `length-run`, `stepsTo`. Names that begin with a capital (types, facts), names of src/, names of the
library and names that Rattle makes (the goals of a proof) stay. It says which names fell together and writes nothing then.
"""
import os
import re
import sys

WORD = r"[^\s(){};,.\"`|\[\]←:]"
NAME = re.compile(WORD + "+")
HEAD = re.compile(r"^(?:(?:unfoldable|abbrev|pub|data|record)\s+)*([^\s:(){};,.]+)(?:\s*(?:\([^()]*\)|\{[^{}]*\}))*\s*:(?:\s|$)")
FIELD = re.compile(r"^\s+(?:pub )?([a-z][^\s:(){};,.]*) :\s")
INSIDE = re.compile(r"^\s+(?:(?:unfoldable|abbrev|pub)\s+)*([a-z][^\s:(){};,.]*)(?:\s*(?:\([^()]*\)|\{[^{}]*\}))*\s*:\s")
IMPORT = re.compile(r"^(?:pub )?(?:ghost )?use\s+([^\s{;]+)\.\{([^}]*)\}")
# A definition with the name of a function of src/ gets `_lem`; the others here would fall together with another name.
BY_HAND = {
    "get_d_any": "get_or_any",
    "get_d_part": "get_or_part",
    "has_get_d": "has_get_or",
    "isLeaf": "is_leaf",
    "is_leaf": "is_leaf_lem",
    "offerCounts": "offer_counts",
    "offer-counts": "offer_counts_are",
    "family-words": "family_words_back",
    "is-number": "is_number_fits",
    "is-root": "is_root_top",
    "rank-of": "rank_is",
    "inSize": "in_size_lem",
    "lowHigh": "low_high_lem",
    "putByte": "put_byte_lem",
    "putBytes": "put_bytes_lem",
    "sideCode": "side_code_lem",
    "slotOf": "slot_of_lem",
    "spotOver": "spot_over_lem",
    "stepsTo": "steps_to_lem",
    "twoAt": "two_at_lem",
    "upToFive": "up_to_five_lem",
}
# Fields of one record, which are cited behind a dot alone: they may be called as a parameter elsewhere.
FIELDS_ALONE = {"species-taxa", "gene-taxa"}


def respelled(name):
    if name in BY_HAND:
        return BY_HAND[name]
    name = name.replace("getD", "get_or")
    name = re.sub(r"(?<=[a-z0-9])([A-Z])(?=[a-z])", lambda m: "_" + m.group(1).lower(), name)
    return name.replace("-", "_")


def is_proof(path):
    """Is the file in the folder of one function's proof?"""
    return bool(re.search(r"/proofs/.*/(Proof|Answers|Invariants)\.antt$", path))


def files():
    for folder, dirs, names in os.walk("crates"):
        dirs[:] = sorted(d for d in dirs if d != "out")
        for n in sorted(names):
            if n.endswith((".antt", ".rt")):
                yield os.path.join(folder, n)


def read(path):
    with open(path, encoding="utf-8") as f:
        return f.read()


def is_own(module, crates):
    m = re.match(r"Rattle\.(\w+)", module)
    return bool(m) and m.group(1) in crates


def main():
    texts = {p: read(p) for p in files()}
    crates = set(os.listdir("crates"))
    defined, fields, foreign, everything = set(), set(), set(), set()
    for p, t in texts.items():
        everything |= set(NAME.findall(t))
        for line in t.split("\n"):
            m = IMPORT.match(line)
            if m and not is_own(m.group(1), crates):
                foreign |= {w.strip() for w in m.group(2).split(",")}
        if not p.endswith(".antt") or is_proof(p):
            continue
        in_record = False
        for line in t.split("\n"):
            m = HEAD.match(line)
            if m and not line.startswith(("--", "use ")):
                defined.add(m.group(1))
            if re.match(r"(pub )?(record|data)\b", line):
                in_record = True
            elif line and not line.startswith((" ", "-")):
                in_record = False
            m = FIELD.match(line)
            if in_record and m:
                fields.add(m.group(1))
            # a definition inside a module of laws that share their variables
            m = INSIDE.match(line)
            if not in_record and m and re.search(r"(?m)^\s+" + re.escape(m.group(1)) + r"(?![^\s]).*=", t):
                defined.add(m.group(1))
    new = {n: respelled(n) for n in defined | fields if n[0].islower() and n not in foreign}
    new = {n: m for n, m in new.items() if n != m}
    clashes = []
    by_new = {}
    for n, m in new.items():
        by_new.setdefault(m, []).append(n)
    for m, ns in sorted(by_new.items()):
        if len(ns) > 1 or m in everything and m not in new and ns[0] not in FIELDS_ALONE:
            clashes.append((m, ns))
    for m, ns in clashes:
        where = [p for p, t in texts.items() if m in set(NAME.findall(t))]
        print(f"falls together: {' '.join(ns)} with {m}: {' '.join(where[:6])}")
    if clashes:
        return 1

    def turned(line, skip, proof):
        out, at = [], 0
        for m in NAME.finditer(line):
            w = m.group(0)
            if w in new and w not in skip:
                before = line[: m.start()]
                if not (proof and (before.endswith("tie.") or before.endswith(".") and w not in fields)):
                    out += [line[at : m.start()], new[w]]
                    at = m.end()
        return "".join(out) + line[at:]

    changed = 0
    for p, t in texts.items():
        proof, skip = is_proof(p), set()
        if proof:
            skip = {m.group(1) for m in map(HEAD.match, t.split("\n")) if m}
        lines, clause = [], 0
        for line in t.split("\n"):
            if p.endswith(".antt"):
                use = line.startswith(("use ", "pub use "))
                lines.append(turned(line, skip, proof and not use))
                continue
            # of a .rt file only the `ghost use` lines and the clauses
            if line.startswith("ghost use") or clause or re.match(r"\s+(requires|ensures)\b", line):
                if not line.startswith("ghost use"):
                    clause += line.count("{") - line.count("}")
                line = turned(line, skip, False)
            lines.append(line)
        s = "\n".join(lines)
        if s != t:
            changed += 1
            with open(p, "w", encoding="utf-8") as f:
                f.write(s)
    pages = 0
    for p in ["README.md"] + [os.path.join("docs", n) for n in sorted(os.listdir("docs")) if n.endswith(".md")]:
        t = read(p)
        s = re.sub(r"`([^`\n]+)`", lambda m: "`" + turned(m.group(1), set(), False) + "`", t)
        if s != t:
            pages += 1
            with open(p, "w", encoding="utf-8") as f:
                f.write(s)
    print(f"{len(new)} names respelled in {changed} files and {pages} pages")
    return 0


sys.exit(main())
