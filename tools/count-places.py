#!/usr/bin/env python3
"""Counts in the src/ folders of a commit the places of older forms of code.

    python3 tools/count-places.py [COMMIT] [--list]

Each form is a pattern over the lines of src/*.rt (proofs/*.antt for the last group); a line counts once.
With --list each line is printed. No COMMIT: the files as they lie here.
"""
import os
import re
import subprocess
import sys

SRC = [
    ("1 flags and numbers for a choice", [
        ("a flag with a value beside it", r"\bkeeps\b"),
        ("a number for a way or kind", r"\bway\b"),
        ("a refusal as an Option, or matched into an Err by hand", r"-> Option<Refusal>|Some\(refusal\) => Err|if let Some\(refusal\)|Err\(_\) => Err|None => Err\(Refusal"),
        ("an Option or Result handed on by hand", r"^\s*None => None,|^\s*Ok\(\(\)\) => Ok\(\(\)\),|else \{ return None;|ELSE-NONE"),
    ]),
    ("2 twins", [
        ("kinds large and small", r"^impl Kind for (Large|Small)\b"),
        ("a root with its height", r"^pub struct (Top|Entry)\b"),
        ("the children of two nodes", r"^pub struct (Halves|Portions)\b"),
        ("a node made of the parts of another", r"^(pub )?fn (renew|over_first|new_leaf|lone_leaf|leaf_for|parent|with_kept|emptied|keeping_as|with_weight)\b"),
        ("a header with another count", r"^fn (raised|lessened)\b"),
        ("children of one size", r"fn (one|two)\(p: u16"),
        ("fields read by bounds written out in each function", r"\bhead\(\w+, TOP_|decimal\(\w+, TOP_"),
        ("one test with its arguments exchanged", r"^fn (starts_by|starts_from)\b"),
        ("bytes before a mark", r"^fn (field|line_len)\b"),
    ]),
    ("3 loops that count by hand", [
        ("while over a count", r"^\s*while (?!let )"),
        ("a counter", r"^\s*(count|top|made|visited|matches|i|n) \+= 1;|^\s*i -= 1;"),
        ("for over numbers that index a list", r"INDEX-LOOP"),
        ("a search that returns from its for", r"SEARCH-LOOP"),
    ]),
    ("4 equality, order, copying, conversion, printing by hand", [
        ("equality and order", r"fn (same|same_key|before|by_byte|is_printable)\b|if a < b \{|by_byte\(x\.[a-h]"),
        ("a cast", r" as (u8|u16|u32|u64|usize)\b"),
        ("a key or point built from its fields", r"fn (key_of|stored)\b|number: (s|x)\.number"),
        ("printing", r"fn (put_\w+|pattern_text|last_digit)\b"),
        ("a number for a refusal", r"fn number\(self\)"),
    ]),
    ("5 facts and parameters that go together", [
        ("a place beside its height", r"PLACE-HEIGHT"),
        ("two bounds of a window", r"\bl: K::Coordinate,|\blo: u64, hi: u64|^\s*lo: u64,$"),
        ("heap beside an output or a set", r"HEAP-OUT"),
        ("a table, its header and the points beside it", r"list: &mut Vec<Pt>"),
        ("Sound, of a tree in a table", r"requires (\w+ )?\{ Sound \(length"),
        ("Standing, of a table and its header", r"requires (\w+ )?\{ Standing "),
        ("points_of, of a set of residuals", r"points_of s(elf|et)"),
    ]),
    ("6 buffers with a length, arenas", [
        ("an array or slice with a length beside it", r"pub count: u8,|depth: usize|pub (first|second|third|fourth): u16,"),
        ("text in bytes", r"out: &mut Vec<u8>|-> Result<Vec<u8>"),
        ("a sorted list searched from its front", r"^pub fn (place|index_of|has_key|put|take|set_weight)\b"),
        ("functions over a table of nodes", r"nodes: &(mut )?\[Node<"),
    ]),
    ("7 switches on a step, tables of functions", [
        ("match on a step or way", r"match (act|order|way|damage)\b|if way =="),
        ("dyn, function pointers, boxed functions", r"\bdyn\b|Box<|(?<!\w)fn\("),
    ]),
]

PROOFS = [
    ("8 proofs", [
        ("lemmas of std/proofs/ByRecursion", r"Rattle\.std\.proofs\.ByRecursion"),
        ("ContainsAt", r"\bContainsAt\b"),
    ]),
]


def files(commit, root_filter):
    if commit:
        names = subprocess.run(["git", "ls-tree", "-r", "--name-only", commit], capture_output=True, text=True, check=True).stdout.split("\n")
    else:
        names = subprocess.run(["git", "ls-files"], capture_output=True, text=True, check=True).stdout.split("\n")
    for n in names:
        if root_filter(n):
            if commit:
                yield n, subprocess.run(["git", "show", f"{commit}:{n}"], capture_output=True, text=True, check=True).stdout
            elif os.path.exists(n):
                yield n, open(n, encoding="utf-8").read()


def marks(lines, i):
    """What a line begins, beyond its own text."""
    found = ""
    line = lines[i]
    m = re.match(r"(\s*)for (\w+) in .*\.\.", line)
    n = re.match(r"(\s*)for .* in ", line)
    if n:
        body = []
        for other in lines[i + 1:]:
            if other.startswith(n.group(1) + "}"):
                break
            body.append(other)
        if m and any(re.search(r"(\[|\.at\()%s( [-+] 1)?[\])]" % m.group(2), b) for b in body):
            found += " INDEX-LOOP"
        elif len(body) <= 4 and any(re.search(r"return (Some\(|i\b|true)", b) for b in body):
            found += " SEARCH-LOOP"
    if re.search(r"else \{$", line) and i + 1 < len(lines) and lines[i + 1].strip() == "return None;":
        found += " ELSE-NONE"
    if re.search(r"\b(at|root|place|p|q|next): u16,$", line) and i + 1 < len(lines) and re.search(r"\bheight: u8", lines[i + 1]):
        found += " PLACE-HEIGHT"
    if re.search(r"(at|root|place|l|r): u16, (r: u16, )?height: u8", line) or re.search(r"^\s*r: u16,$", line):
        found += " PLACE-HEIGHT"
    if re.search(r"heap: Global,", line) and re.search(r"out|set", line + " ".join(lines[i + 1:i + 3])):
        found += " HEAP-OUT"
    return line + found


def place_of(lines, i):
    """The function or type that a line belongs to."""
    for k in range(i, -1, -1):
        m = re.match(r"\s*(pub(\(crate\))? )?(fn|struct|enum|impl) ?(<[^>]*> )?([\w:]+)", lines[k])
        if m:
            return m.group(5)
    return "(file)"


def count(groups, texts, listing):
    for group, forms in groups:
        print(group)
        total = set()
        for form, pattern in forms:
            r = re.compile(pattern)
            hits = []
            for n, text in texts:
                lines = text.split("\n")
                for i, line in enumerate(lines):
                    if line.strip().startswith(("//", "--")):
                        continue
                    if r.search(marks(lines, i)):
                        hits.append((n, i + 1, place_of(lines, i), line.strip()))
            places = {(n, p) for n, _, p, _ in hits}
            total |= places
            print(f"  {len(hits):4} lines, {len(places):3} places  {form}")
            if listing:
                for n, i, p, line in hits:
                    print(f"          {n}:{i} {p}: {line[:90]}")
        print(f"  in all {len(total)} places")


def main():
    args = [a for a in sys.argv[1:] if not a.startswith("--")]
    commit = args[0] if args else None
    listing = "--list" in sys.argv
    src = list(files(commit, lambda n: n.startswith("crates/") and "/src/" in n and n.endswith(".rt")))
    antt = list(files(commit, lambda n: n.startswith("crates/") and ("/proofs/" in n or "/specs/" in n) and n.endswith(".antt")))
    print(f"src: {len(src)} files, {sum(t.count(chr(10)) for _, t in src)} lines")
    count(SRC, src, listing)
    proofs = [(n, t) for n, t in antt if "/proofs/" in n]
    print(f"proofs: {len(proofs)} files, {sum(t.count(chr(10)) for _, t in proofs)} lines; specs: {len(antt) - len(proofs)} files")
    count(PROOFS, antt, listing)


main()
