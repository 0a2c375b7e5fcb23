#!/usr/bin/env python3
"""Says whether each name on docs/ACCEPTANCE.md stands in the sources, and exits 1 where one doesn't.

A name is a word between back-quotes: a definition, a statement or a field of specs/, a function, a type or a constant
of src/, a must-fail edit, a crate, or the path of a file.
"""
import pathlib
import re
import sys

ROOT = pathlib.Path(__file__).resolve().parent.parent
PAGE = ROOT / "docs/ACCEPTANCE.md"


def known():
    """Every word of the sources, but for comments, that a name may be made of."""
    words = set()
    for path in (path for path in ROOT.glob("crates/**/*") if "out" not in path.parts):
        if path.suffix in (".rt", ".antt") and "proofs" not in path.parts:
            code = re.sub(r"(//|--)[^\n]*", "", path.read_text())
            words |= set(re.findall(r"[\w-]+", code))
        words |= {path.stem} if path.suffix == ".edit" else {path.name}
    return words | {"rt", "requires", "ensures"}


def main():
    words = known()
    page = PAGE.read_text()
    paths = set(re.findall(r"`((?:bench|crates|docs|hosts|include|tools)/[\w./-]+)`", page))
    names = set(re.findall(r"`(\w[\w:-]*)`", page))
    missing = [path for path in sorted(paths) if not (ROOT / path).exists()]
    missing += [name for name in sorted(names) if not set(name.split("::")) <= words]
    faults = [f"{PAGE.name}: `{name}` stands nowhere" for name in missing]
    print("\n".join([*faults, f"acceptance: {len(names | paths)} names, {len(missing)} missing"]))
    sys.exit(1 if missing else 0)


if __name__ == "__main__":
    main()
