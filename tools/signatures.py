#!/usr/bin/env python3
"""Compares the exported functions in src/ with include/eiderwagon.h and with the Rust wrapper's declarations.

A slice of Rattle is a pointer and its size in C. A parameter has the same name, kind and place in all three; where one
hasn't, it exits 1.
"""
import re
import sys

import sources
from sources import ROOT

PREFIX = "eiderwagon_"


def split(parameters):
    """`a: &[u8], b: u64` as pairs of a name and a type."""
    pairs = [part.split(":") for part in parameters.split(",") if part.strip()]
    return [(name.strip(), " ".join(kind.split())) for name, kind in pairs]


def in_sources():
    """The functions marked `pub extern "C"`, over all libraries."""
    found = {}
    for item in (item for crate in sources.libraries() for item in sources.items_of(crate) if item.is_exported):
        parameters, answer = re.fullmatch(r"\((.*)\)(.*)", item.signature).groups()
        found[item.name] = split(parameters) + [("answer", answer.replace("->", "").strip())]
    return found


def number(kind):
    """`uint8_t` is `u8`, and so on."""
    return re.sub(r"uint(\d+)_t", r"u\1", kind).replace("size_t", "usize")


def in_header():
    text = re.sub(r"/\*.*?\*/", "", (ROOT / "include/eiderwagon.h").read_text(), flags=re.S)
    found = {}
    for answer, name, parameters in re.findall(rf"^(\w+) ({PREFIX}\w+)\(([^)]*)\);", text, re.M):
        kinds, parts = [], [" ".join(part.split()) for part in parameters.split(",") if part.strip() != "void"]
        while parts:
            kind, name_of = parts.pop(0).rsplit(" ", 1)
            kind = number(kind)
            if name_of.startswith("*"):
                name_of, size = name_of[1:], parts.pop(0) if parts else "nothing"
                kind = f"&[{kind[6:]}]" if kind.startswith("const ") else f"&mut [{kind}]"
                if size != f"size_t {name_of}_size":
                    kind += f" with {size} behind it"
            kinds.append((name_of, kind))
        found[name] = kinds + [("answer", number(answer))]
    return found


def in_wrapper():
    text = (ROOT / "hosts/eiderwagon/src/raw.rs").read_text()
    listed = re.search(r"^exported! \{\n(.*?)^\}", text, re.M | re.S).group(1)
    listed = re.sub(r"///[^\n]*", "", listed)
    functions = re.findall(r"(\w+)\(([^)]*)\);", listed)
    return {PREFIX + name: split(parameters) + [("answer", "u32")] for name, parameters in functions}


def main():
    ours, faults = in_sources(), []
    for place, theirs in (("include/eiderwagon.h", in_header()), ("hosts/eiderwagon/src/raw.rs", in_wrapper())):
        for name in sorted(ours.keys() | theirs.keys()):
            if ours.get(name) != theirs.get(name):
                faults.append(f"{name}: src/ has {ours.get(name)}, and {place} {theirs.get(name)}")
    print("\n".join([*faults, f"signatures: {len(ours)} exported functions, {len(faults)} faults"]))
    sys.exit(1 if faults else 0)


if __name__ == "__main__":
    main()
