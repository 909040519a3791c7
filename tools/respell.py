#!/usr/bin/env python3
"""Respells this repository's own definitions, lemmas and fields as today's Rattle spells them.

usage: python3 tools/respell.py            at the top, once, right after the kit's port.py
       python3 tools/respell.py --list     prints the pairs and changes nothing

Three rules. A name in camel case that begins small becomes snake case (also a part of a lemma's name). The dash in the
name of a value or of a record's field becomes an underscore; in a lemma's name, where it joins two names, it stays. A
value under a single capital gets a word. Functions of src/, strings, inputs and outputs are left as they are. A new
name that is somewhere a name already is reported, and nothing is written.
"""

import os
import re
import sys

# A value that was named by one capital letter: folder, old, new.
CAPITALS = [
    ("crates/grow/proofs", "T", "branch"),
    ("crates/grow/proofs", "U", "grown_forest"),
    ("crates/grow/proofs", "V", "wider_forest"),
    ("crates/grow/proofs", "uses-U", "uses-grown_forest"),
    ("crates/grow/proofs", "count-V", "count-wider_forest"),
    ("crates/shrink/proofs", "G", "branch_at"),
    ("crates/shrink/proofs/Wholes.antt", "H", "tall"),
]
EDGE = r"[\w'\-]"

# Lemmas that would have their definition's name after it is respelled: the file, the lemma.
LEMMAS = [
    ("crates/kinds/specs/Orders.antt", "by_number"),
    ("crates/kinds/specs/Weights.antt", "by_number"),
    ("crates/kinds/specs/Codes.antt", "by_number"),
    ("crates/plain/proofs/Keys.antt", "by_number"),
    ("crates/checker/proofs/Rises.antt", "first_key"),
    ("crates/tree/proofs/Settles.antt", "first_key"),
    ("crates/grow/proofs/Forked.antt", "first_key"),
    ("crates/shrink/proofs/Renews.antt", "first_key"),
]

# New names that a function of src/ has too. The definition says what that function answers, and a clause sees no function.
FUNCTIONS = {
    "change_refused", "fit_weight", "frontier_refused", "header_of", "insert_refused", "is_before", "key_order", "next_key",
    "pattern_text", "range_refused", "rank_order", "starts_by", "starts_from", "take_out", "weight_of", "with_weight",
}


def files():
    for folder, dirs, names in os.walk("crates"):
        dirs[:] = sorted(d for d in dirs if d != "out")
        for name in sorted(names):
            if name.endswith((".antt", ".rt", ".edit")):
                yield os.path.join(folder, name)


def snake(name):
    return re.sub(r"(?<=[a-z0-9])([A-Z])", lambda m: "_" + m.group(1).lower(), name)


SIGNATURE = re.compile(r"^\s*((?:(?:abbrev|unfoldable|pub)\s+)*)([^\s:(){}]+)\s*(?:\{[^}]*\}\s*|\([^)]*\)\s*)*:\s", re.M)
RECORD = re.compile(r"^( *)(?:pub )?record [^\n]*\n((?:\1  [^\n]*\n|\n)+)", re.M)


def pairs(texts):
    found = {}
    for path, text in texts.items():
        if not path.endswith(".antt"):
            continue
        for m in SIGNATURE.finditer(text):
            words, name = m.group(1).split(), m.group(2)
            if name.startswith("--"):
                continue
            new = snake(name) if name[0].islower() else name
            if "-" in name and ("abbrev" in words or "unfoldable" in words) and not name.startswith(("invariant-", "decreases-", "ghost-")):
                new = new.replace("-", "_")
            if new != name:
                found[name] = new
        for m in RECORD.finditer(text):
            for line in m.group(2).split("\n"):
                f = re.match(r"\s*(?:pub )?([^\s:{}()]+)\s*:", line)
                if f and "-" in f.group(1) and not f.group(1).startswith("--"):
                    found[f.group(1)] = snake(f.group(1)).replace("-", "_")
    return found


def main():
    texts = {p: open(p, encoding="utf-8").read() for p in files()}
    first = dict(texts)
    for path, name in LEMMAS:
        texts[path] = re.sub(f"(?<!{EDGE}){name}(?!{EDGE})", name + "_lem", texts[path])
    found = pairs(texts)
    everything = "\n".join(texts.values())
    clash = [(a, b) for a, b in sorted(found.items()) if re.search(f"(?<!{EDGE}){re.escape(b)}(?!{EDGE})", everything)]
    twice = [b for b in set(found.values()) if list(found.values()).count(b) > 1]
    if "--list" in sys.argv:
        for a, b in sorted(found.items()):
            print(a, "->", b, "  CLASH" if (a, b) in clash else "")
        return 0
    bad = [c for c in clash if c[1] not in FUNCTIONS]
    if bad or twice:
        print("a new name is taken:", bad, twice)
        return 1
    one = re.compile("(?<!%s)(?:%s)(?!%s)" % (EDGE, "|".join(sorted(map(re.escape, found), key=len, reverse=True)), EDGE))
    for path, text in texts.items():
        new = one.sub(lambda m: found[m.group(0)], text)
        for folder, a, b in CAPITALS:
            if path.startswith(folder) and path.endswith(".antt"):
                new = re.sub(rf"(?<![\w'\-◌]){re.escape(a)}(?![\w'\-])", b, new)
        if new != first[path]:
            with open(path, "w", encoding="utf-8") as f:
                f.write(new)
    return 0



if __name__ == "__main__":
    raise SystemExit(main())
