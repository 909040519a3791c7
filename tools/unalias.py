#!/usr/bin/env python3
"""Names two list words of std as std does, spells the other aliases in snake case, and keeps off a word of std.

usage: python3 tools/unalias.py     at the top, once, right after tools/respell.py

The kit's port.py brings the older `All` and `Has` in as aliases of `AllByRecursion` and `ContainsAt`. The gate takes an
alias under the name of a word of the library for that word, so the alias goes and the word stands as std names it.
`Any` is a word of today's library too ("some element"): what holds of every value is `IsAny`.
"""

import os
import re

EDGE = r"[\w'\-]"
ALIASES = [("All", "AllByRecursion"), ("Has", "ContainsAt")]
SPELLED = [("takenOut", "taken_out"), ("removedFrom", "removed_from"), ("occursIn", "occurs_in"), ("Any", "IsAny")]


def main():
    for folder, dirs, names in os.walk("crates"):
        dirs[:] = sorted(d for d in dirs if d != "out")
        for name in sorted(names):
            if not name.endswith((".antt", ".rt")):
                continue
            path = os.path.join(folder, name)
            text = new = open(path, encoding="utf-8").read()
            for alias, word in ALIASES:
                if re.search(rf"\b{word} as {alias}\b", new):
                    new = new.replace(f"{word} as {alias}", word)
                    lines = new.split("\n")
                    new = "\n".join(
                        line if re.match(r"\s*(--|//)", line) else re.sub(rf"(?<!{EDGE}){alias}(?!{EDGE})", word, line)
                        for line in lines
                    )
            for a, b in SPELLED:
                new = re.sub(rf"(?<!{EDGE}){a}(?!{EDGE})", b, new)
            if new != text:
                with open(path, "w", encoding="utf-8") as f:
                    f.write(new)
    return 0


if __name__ == "__main__":
    raise SystemExit(main())
