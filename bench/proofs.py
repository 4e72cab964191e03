#!/usr/bin/env python3
"""What each function of a crate cost the prover, from the files that a check left.

Usage: bench/proofs.py CRATE [ROWS]

`rt check --jobs 1` in the crate's folder comes first, with no out/incremental there, so that all is checked by one
process in one run: each module of the crate is then written as its check ends, and the time between two files is
what the later one cost. A function has several modules: `Lts` is its code as steps, `Tie` and `Proof` its contract.
"""

import collections
import os
import re
import sys

PARTS = ("Lts", "Tie", "Proof", "Mir", "Code", "Kinds", "Layout", "Reads", "Named", "Met", "Answers", "Invariants", "Carried", "Statement", "Symbol", "Key")


def written(folder):
    """The modules below a folder, with the seconds at which each was written, first the first."""
    found = []
    for at, _, names in os.walk(folder):
        if "/records" not in at:
            for name in names:
                if name.endswith(".oantt"):
                    found.append((os.stat(f"{at}/{name}").st_mtime_ns / 1e9, name[: -len(".oantt")]))
    return sorted(found)


def main():
    crate = sys.argv[1]
    rows = int(sys.argv[2]) if len(sys.argv) > 2 else 20
    top = os.path.dirname(os.path.dirname(os.path.abspath(__file__)))
    modules = written(f"{top}/crates/{crate}/out/incremental")
    if not modules:
        sys.exit(f"nothing below crates/{crate}/out/incremental: run rt check --jobs 1 there first")
    spent = collections.defaultdict(collections.Counter)
    before = modules[0][0]
    for time, name in modules:
        words = name.split(".")[1:]
        part = re.sub(r"-.*", "", words[-1]) if words else ""
        function = ".".join(words[:-1] if part in PARTS else words) or "(the crate)"
        spent[re.sub(r"\.Code$", "", function)][part if part in PARTS else "other"] += time - before
        before = time
    total = sum(it.total() for it in spent.values())
    print(f"{total:.0f} seconds, {len(modules)} modules")
    for function, parts in sorted(spent.items(), key=lambda it: -it[1].total())[:rows]:
        most = ", ".join(f"{part} {seconds:.1f}" for part, seconds in parts.most_common(3))
        print(f"{parts.total():7.1f}  {function}  ({most})")


main()
