#!/usr/bin/env python3
"""Lists every public function of the libraries with its promise and what was tried against it, from the sources.

    tools/entry_points.py            writes docs/ENTRY-POINTS.md
    tools/entry_points.py --check    compares with that file, and exits 1 on a difference

Either way it exits 1 where a public function has a `requires`, has no `ensures`, lends `&mut` memory of which no clause
speaks, or has fewer than two refused changes in docs/mutations/ (tools/mutations.py) and neither an edit nor a reason;
and where an edit names neither a public function nor a statement of its crate. An edit's first line names the functions
whose wrong answers it is: `# step: ..`, or `# Server::step, Server::step_with: ..` where a crate has several of one
name; or the statement of specs/ that it breaks: `# AnyCutting: ..`.
"""
import re
import sys

import mutations
import sources
from sources import ROOT

LIST = ROOT / "docs/ENTRY-POINTS.md"
# what a program reads from: no contract can say what it gives
READER = "input: &mut impl Read"
HEADER = """# Entry points

Made by `tools/entry_points.py` from the sources; the gate compares. Every public function of the libraries: what it
promises of its `result` and of lent memory (`out` is a lent output as it came, `out′` as it is left); how many drawn
changes of its code the prover refused (`docs/MUTATIONS.md` shows them); and the mistakes that a reader of the tender
would name (`must-fail/`). None has a `requires`. A statement in capitals is a theorem in `specs/`.
"""


def plain(clause):
    """A clause on one line, without the marks that every clause has."""
    text = re.sub(r"\s*(?://[^\n]*)?\n\s*", " ", clause).strip()
    return re.sub(r"\b([a-z]\w*)\.(now|old|new)\b", lambda m: m[1] + "′" * (m[2] == "new"), text)


def faults_of(function, promises, refused, why, edits):
    if any(kind == "requires" for kind, _ in function.clauses):
        yield "has a requires"
    if not promises:
        yield "promises nothing"
    signature = function.signature.replace(READER, "")
    for lent in re.findall(r"(\w+): &(?:'\w+ )?mut\b|&(?:'\w+ )?mut (self)\b", signature):
        if f"{''.join(lent)}′" not in " ".join(promises):
            yield f"lends `{''.join(lent)}`, of which no clause speaks"
    if refused < 2 and not why and not edits:
        yield f"has {refused} refused changes, and no edit"


def statements_of(crate):
    """The names of the statements of a crate's specs/."""
    texts = [path.read_text() for path in (ROOT / "crates" / crate / "specs").glob("*.antt")]
    return set(re.findall(r"^ *(?:pub record|unfoldable pub|abbrev pub) ([A-Z]\w*)", "\n".join(texts), re.M))


def section(crate, faults):
    """The part of the list that is about a crate; what is wrong with it is added to the faults."""
    functions, statements, broken = sources.functions_of(crate), statements_of(crate), []
    edits, refused = {f: [] for f in functions}, mutations.refused_of(crate)
    for label, names in sources.edits_of(crate):
        for name in names:
            meant = [f for f in functions if name in f.names()]
            if name in statements:
                broken.append(f"`{label}` of `{name}`")
            elif len(meant) != 1:
                faults.append(f"{crate}/must-fail/{label}: `{name}` names {len(meant)} public functions")
            for f in meant:
                edits[f].append(label)
    rows = []
    for f in functions:
        promises = [plain(text) for kind, text in f.clauses if kind == "ensures"]
        count, why = refused.get(f.title, (0, ""))
        faults += [f"{crate}::{f.title} {fault}" for fault in faults_of(f, promises, count, why, edits[f])]
        shown = "; ".join(f"`{text}`" for text in promises).replace("|", "\\|")
        rows.append(f"| `{f.title}` | {shown} | {count} | {', '.join(f'`{label}`' for label in edits[f])} |")
    if not rows and not broken:
        return ""
    head = ["\n| function | promises | refused | edits |", "|---|---|---|---|"] if rows else []
    also = [f"\nEdits of a statement: {', '.join(broken)}."] if broken else []
    return "\n".join([f"\n## `{crate}`", *head, *rows, *also]) + "\n"


def main():
    if sys.argv[1:] not in ([], ["--check"]):
        sys.exit(__doc__)
    faults = []
    text = HEADER + "".join(section(crate, faults) for crate in sources.libraries())
    if not sys.argv[1:]:
        LIST.write_text(text)
    elif not LIST.exists() or LIST.read_text() != text:
        faults.append("docs/ENTRY-POINTS.md is not what the sources say: run tools/entry_points.py")
    count = len(re.findall(r"^\| `", text, re.M))
    print("\n".join([*faults, f"entry points: {count} public functions, {len(faults)} faults"]))
    sys.exit(1 if faults else 0)


if __name__ == "__main__":
    main()
