#!/usr/bin/env python3
"""Compares the refusals that include/eiderwagon.h lists of each function with those of its contract.

    tools/header_refusals.py --check    compares, and exits 1 on a difference

A contract says `RefusesOnly result (19 ∷ 41 ∷ [])`, and the comment in front of the declaration `refusals:  19, 41`, up to
the first full stop. The numbers are to be the same ones, and in the same order but for 41. Where a number has two
places in a function's order the header lists it twice, and the first one counts: 41 for a state and again for words.
A function without the clause has no list.
"""
import re
import sys

import sources
from sources import ROOT

LAST = 41


def in_contracts():
    """Of each exported function the numbers of its RefusesOnly."""
    found = {}
    for item in (item for crate in sources.libraries() for item in sources.items_of(crate) if item.is_exported):
        clauses = " ".join(" ".join(text.split()) for kind, text in item.clauses if kind == "ensures")
        listed = re.findall(r"RefusesOnly result \(([\d ∷]*)\[\]\)", clauses)
        found[item.name] = [int(n) for numbers in listed for n in re.findall(r"\d+", numbers)]
    return found


def in_header():
    """Of each declared function the numbers behind the last `refusals:` of the comment in front of it."""
    text, found, end = (ROOT / "include/eiderwagon.h").read_text(), {}, 0
    for m in re.finditer(r"^uint32_t (eiderwagon_\w+)\(", text, re.M):
        comment = text[end : m.start()].rpartition("/*")[2]
        listed = re.search(r"refusals:([\d,\s*]*)", comment)
        found[m.group(1)] = [int(n) for n in re.findall(r"\d+", listed.group(1))] if listed else []
        end = m.end()
    return found


def but_for_last(numbers):
    """The others in the order in which each first stands."""
    return [n for n in dict.fromkeys(numbers) if n != LAST]


def main():
    if sys.argv[1:] != ["--check"]:
        sys.exit(__doc__)
    ours, theirs, faults = in_contracts(), in_header(), []
    for name in sorted(ours.keys() | theirs.keys()):
        contract, header = ours.get(name), theirs.get(name)
        same = contract is not None and header is not None and set(contract) == set(header)
        if not same or but_for_last(contract) != but_for_last(header):
            faults.append(f"{name}: its contract has {contract}, and include/eiderwagon.h {header}")
    print("\n".join([*faults, f"header refusals: {len(theirs)} functions, {len(faults)} faults"]))
    sys.exit(1 if faults else 0)


if __name__ == "__main__":
    main()
