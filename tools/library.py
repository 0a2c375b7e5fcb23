#!/usr/bin/env python3
"""The static libraries: each function that a crate `exports_X` exports, with its clauses, as a call in `exports_X_c`.

    tools/library.py            writes crates/exports_X_c/src from the sources of crates/exports_X; `rt fmt` lays it out
    tools/library.py --check    compares, and exits 1 on a difference

A crate is a library or a static library, and a static library exports only functions of its own. So the crates
`exports_` are libraries, for the crates above them, and hosts in other languages link the static ones, whose archives
tools/host_library.sh joins. A function has the same name, parameters and clauses in both, and its body is the call.
"""
import re
import sys

import sources
from sources import ROOT

PREFIX = "exports_"
TACTIC = re.compile(r"^#\[tactic\((?:[^()]|\([^()]*\))*\)\]\n", re.M)
IMPORT = re.compile(r"^ghost use ([\w.]+)\.\{([^}]*)\};$", re.M)


def exporting():
    """The crates whose functions hosts link, in the order of crates.txt."""
    return [name for name in sources.libraries() if name.startswith(PREFIX)]


def is_named(word, clauses):
    """Whether clauses use an imported word: a name, or an operator with `◌` at its places."""
    parts = [part for part in word.split("◌") if part]
    if re.fullmatch(r"[\w']+", word):
        return re.search(rf"(?<![\w']){re.escape(word)}(?![\w'])", clauses) is not None
    return all(part in clauses for part in parts)


def imports_of(items):
    """The imports of what the clauses of some functions use, those of one module in lines that are short enough."""
    clauses, found = "\n".join(text for item in items for _, text in item.clauses), {}
    for path in dict.fromkeys(item.path for item in items):
        for module, words in IMPORT.findall(path.read_text()):
            used = [word.strip() for word in words.split(",") if is_named(word.strip(), clauses)]
            known = found.setdefault(module, [])
            known += [word for word in used if word not in known]
    lines = []
    for module, words in found.items():
        while words:
            count = len(words)
            while len(line := f"ghost use {module}.{{{', '.join(words[:count])}}};") > 120:
                count -= 1
            lines.append(line)
            words = words[count:]
    return lines


def text_of(crate, item):
    """A function: the lines from its comment to its clauses as they stand there, and the call."""
    lines = item.path.read_text().split("\n")
    head = next(i for i in range(item.lines[0], -1, -1) if lines[i].startswith("#[unsafe(no_mangle)]"))
    start = head
    while lines[start - 1]:
        start -= 1
    # how its own body is proved is no matter of the call's
    promise = TACTIC.sub("", "\n".join(lines[start : item.lines[0]]))
    names = re.findall(r"(?:^\(|, )(\w+):", item.signature.replace(",)", ")").replace("( ", "("))
    call = "::".join((crate, *item.module, item.name))
    return "\n".join([promise, "{", f"    {call}({', '.join(names)})", "}"])


def static_of(crate):
    """The source of a crate's static library."""
    items = [item for item in sources.items_of(crate) if item.is_exported]
    about = re.match(r"(?://[^\n]*\n)+", (ROOT / "crates" / crate / "src/lib.rt").read_text()).group(0)
    head = f"{about}// Made by tools/library.py from the crate {crate}, whose functions it calls.\n#![tactic(auto)]\n"
    return "\n".join([head, *imports_of(items), "", *"\n\n".join(text_of(crate, i) for i in items).split("\n"), ""])


def words_of(text):
    """A text without its layout: a list may end with a comma, and take one line or more."""
    return re.sub(r",(?=[)}])", "", re.sub(r"\s+", "", text))


def main():
    if sys.argv[1:] not in ([], ["--check"]):
        sys.exit(__doc__)
    faults, functions = [], 0
    for crate in exporting():
        path, wanted = ROOT / "crates" / f"{crate}_c" / "src/lib.rt", static_of(crate)
        if not sys.argv[1:]:
            path.parent.mkdir(parents=True, exist_ok=True)
            path.write_text(wanted)
        if not path.exists() or words_of(path.read_text()) != words_of(wanted):
            faults.append(f"crates/{crate}_c isn't what {crate} has: run tools/library.py")
        functions += wanted.count("#[unsafe(no_mangle)]")
    print("\n".join([*faults, f"static libraries: {functions} functions, {len(faults)} faults"]))
    sys.exit(1 if faults else 0)


if __name__ == "__main__":
    main()
