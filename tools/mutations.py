#!/usr/bin/env python3
"""Two wrong answers for each public function: changes of its code, drawn by a seed, that the prover has to refuse.

    tools/mutations.py [--seed N] [--each N] [--jobs N] [NAME ...]    draws for these libraries (default: all)
    tools/mutations.py --due [NAME ...]                               only for functions that --check finds fault with
    tools/mutations.py --check                                        compares what is recorded with the sources
    tools/mutations.py --page                                         writes docs/MUTATIONS.md from what is recorded

A change (tools/changes.py) is of one operator, number or name, in a line of the function or of a helper that no other
public function of its crate reaches. For each function changes are drawn until `each` of them (2) are refused for a
fact that fails, on lines that differ where there are such. What the compiler turns down is no change. One after which
the proof only no longer fits the code (it names what the code no longer has) is unfit: it shows nothing, and isn't
counted. One that is still proved is a survivor: the two programs mean the same, or a contract has a hole; a person
writes which, as its `reason`, into docs/mutations/NAME.json. A function that offers fewer than two gets a must-fail
edit that names it, or a `why` there. Drawing anew keeps both.

The work is done in a copy, over what `rt check` proved, and takes a few seconds for each change.
"""
import argparse
import concurrent.futures
import json
import pathlib
import random
import re
import subprocess
import sys
import tempfile

import sources
from changes import Names, changes_of
from sources import ROOT

DATA = ROOT / "docs/mutations"
PAGE = ROOT / "docs/MUTATIONS.md"
# what the prover says where it refuses, and what it says where a proof names what the code no longer has
ERROR = re.compile(r"^(?:\S+:\d+:\d+: error.*|note: \S+:\d+:\d+: .*)", re.M)
OF_NAMES = re.compile(r"^(?:note: )?(?:\./)?proofs/.*(?:has no field|is not in scope|has no `|was not admitted)")


class Room:
    """A copy of a crate and of those below it, in which the crate can be changed and checked over what is proved."""

    def __init__(self, name, folder):
        self.name, self.copy = name, folder / "copy"
        wanted = [crate for crate in sources.crates() if crate in sources.reached_by(name) | {name}]
        (self.copy / "crates").mkdir(parents=True)
        for crate in wanted:
            subprocess.run(["cp", "-R", ROOT / "crates" / crate, self.copy / "crates"], check=True)
        listed = (f"{crate}: {' '.join(sources.crates()[crate])}\n" for crate in wanted)
        (self.copy / "crates.txt").write_text("".join(listed))
        self.is_proved = self.check()[0] == "proved"

    def check(self):
        """What the prover says of the crate as it stands (nothing where it can't tell), and the errors it names."""
        pipes = {"stdin": subprocess.DEVNULL, "stdout": subprocess.PIPE, "stderr": subprocess.STDOUT}
        run = subprocess.run(["rt", "check"], cwd=self.copy / "crates" / self.name, check=False, **pipes)
        said = run.stdout.decode(errors="replace")
        logic = re.findall(r"^logic=(proved|not-proved)", said, re.M)
        return logic[-1] if logic else None, ERROR.findall(said)

    def verdict_on(self, change):
        """proved, refused (for a fact that fails), unfit (the proof no longer fits), or nothing (no program)."""
        path, at, line, new, _ = change
        file = self.copy / path
        text = file.read_text()
        lines = text.splitlines(keepends=True)
        assert lines[at] == line + "\n"
        lines[at] = new + "\n"
        file.write_text("".join(lines))
        try:
            said, errors = self.check()
        finally:
            file.write_text(text)
        if said != "not-proved":
            return said
        return "refused" if any(not OF_NAMES.search(error) for error in errors) else "unfit"


def row_of(change):
    path, _, line, new, words = change
    return {"file": "/".join(path.parts[2:]), "old": line.strip(), "new": new.strip(), "words": words}


def draw(room, function, offered, each, seed, before):
    """Tries the changes of one function until enough are refused; what is to be recorded."""
    random.Random(f"{seed} {room.name} {function.title}").shuffle(offered)
    row = {"function": function.title, "offered": len(offered), "tried": 0, "unfit": 0, "changes": [], "survivors": []}
    row["why"] = before.get("why", "")  # a person's words, kept
    reasons = {(s["file"], s["old"], s["new"]): s["reason"] for s in before.get("survivors", [])}
    used = set()
    while offered and len(row["changes"]) < each:
        # a line that no change has been refused in comes first
        change = next((c for c in offered if c[:2] not in used), offered[0])
        offered.remove(change)
        said, shown = room.verdict_on(change), row_of(change)
        row["tried"] += said is not None
        row["unfit"] += said == "unfit"
        if said == "refused":
            used.add(change[:2])
            row["changes"].append(shown)
        if said == "proved":
            reason = reasons.get((shown["file"], shown["old"], shown["new"]), "")
            row["survivors"].append({**shown, "reason": reason})
    return row


def run(name, seed, each, names, due):
    """Draws for a crate, records it, and answers what is to be printed."""
    before = {row["function"]: row for row in recorded(name).get("functions", [])}
    # read before the copy is made, so that somebody may work on while the changes are tried
    offers = [(f, changes_of(f, own, names)) for f, own in sources.owned_by(name).items()]
    with tempfile.TemporaryDirectory() as folder:
        room = Room(name, pathlib.Path(folder))
        if not room.is_proved:
            return [f"{name}: not proved as it is: nothing is drawn"]
        kept = before.keys() - at_fault(name) if due else ()
        rows = [
            before[f.title] if f.title in kept else draw(room, f, offered, each, seed, before.get(f.title, {}))
            for f, offered in offers
        ]
    DATA.mkdir(exist_ok=True)
    text = json.dumps({"crate": name, "seed": seed, "functions": rows}, indent=1, ensure_ascii=False)
    (DATA / f"{name}.json").write_text(text + "\n")
    said = []
    for r in rows:
        title, counts = f"{name}::{r['function']}", f"{len(r['changes'])} refused, {r['unfit']} unfit"
        said.append(f"{title}: {r['tried']} tried of {r['offered']}, {counts}")
        said += [f"{title}: STILL PROVED: {s['old']}  ->  {s['new']}" for s in r["survivors"]]
    return said + [f"{name}: {len(rows)} functions, {sum(r['tried'] for r in rows)} tried"]


def at_fault(name):
    """The functions of a crate whose record is missing or no longer stands."""
    return {fault.removeprefix(f"{name}::").split(": ")[0] for fault in faults_of(name)}


def recorded(name):
    """What is recorded of a crate."""
    path = DATA / f"{name}.json"
    return json.loads(path.read_text()) if path.exists() else {}


def refused_of(name):
    """For each function how many refused changes are recorded, and why where there are fewer than two."""
    return {row["function"]: (len(row["changes"]), row["why"]) for row in recorded(name).get("functions", [])}


def faults_of(name):
    """What is wrong with the record of a crate."""
    rows = {row["function"]: row for row in recorded(name).get("functions", [])}
    edited = {title for _, titles in sources.edits_of(name) for title in titles}
    owned = sources.owned_by(name)
    for title in rows.keys() - {f.title for f in owned}:
        yield f"{name}::{title}: is recorded, and there is no such function"
    for f, own in owned.items():
        if f.title not in rows:
            yield f"{name}::{f.title}: nothing is recorded: run tools/mutations.py {name}"
            continue
        row = rows[f.title]
        files = {str(i.path.relative_to(ROOT / "crates" / name)): i.path.read_text() for i in own}
        lines = {(file, line.strip()) for file, text in files.items() for line in text.splitlines()}
        for change in row["changes"] + row["survivors"]:
            if (change["file"], change["old"]) not in lines:
                yield f"{name}::{f.title}: `{change['old']}` no longer stands in {change['file']}: draw anew"
        for survivor in row["survivors"]:
            if not survivor["reason"]:
                yield f"{name}::{f.title}: still proved, and no reason given: {survivor['new']}"
        if len(row["changes"]) < 2 and not row["why"] and not edited & f.names():
            yield f"{name}::{f.title}: {len(row['changes'])} changes refused, and no edit names it"


HEADER = """# Two wrong answers for each public function

Made by `tools/mutations.py` from `docs/mutations/`; the gate compares both with the sources. For each public function
of the libraries: how many changes of its code, or of a helper's that only it uses, were given to the prover, and how
many it refused for a fact that fails. `unfit` changes were refused only because the proof no longer fitted the code:
they show nothing. Drawn with seed {seeds}.

| crate | functions | tried | refused | unfit | still proved |
|---|---|---|---|---|---|
"""
COUNTS = (
    lambda r: 1,
    lambda r: r["tried"],
    lambda r: len(r["changes"]),
    lambda r: r["unfit"],
    lambda r: len(r["survivors"]),
)


def cell(text):
    return text.replace("|", "\\|")


def shown(change):
    return f"`{change['old']}` → `{change['new']}`"


def row_on_page(row, labels):
    """A function's line of the page; the labels are those of the edits that name it."""
    wrong = [f"{shown(m)} ({m['words']})" for m in row["changes"]]
    if len(wrong) < 2:
        more = "other" if wrong else "change"
        wrong.append(row["why"] or f"offers no {more} that counts: edits {', '.join(labels) or 'none'}")
    stays = "; ".join(f"{shown(s)}: {s['reason']}" for s in row["survivors"])
    cells = [f"`{row['function']}`", str(row["tried"]), str(len(row["changes"])), "; ".join(wrong), stays]
    return f"| {' | '.join(map(cell, cells))} |\n"


def page():
    """docs/MUTATIONS.md."""
    found = [recorded(name) for name in sources.libraries() if recorded(name)]
    text = HEADER.format(seeds=", ".join(sorted({str(c["seed"]) for c in found})))
    for c in found:
        sums = [str(sum(count(r) for r in c["functions"])) for count in COUNTS]
        text += f"| {c['crate']} | {' | '.join(sums)} |\n"
    for c in found:
        edits = list(sources.edits_of(c["crate"]))
        names = {f.title: f.names() for f in sources.functions_of(c["crate"])}
        text += f"\n## `{c['crate']}`\n\n| function | tried | refused | the wrong answers | still proved, and why |\n"
        text += "|---|---|---|---|---|\n"
        for row in c["functions"]:
            labels = [f"`{label}`" for label, titles in edits if names.get(row["function"], set()) & set(titles)]
            text += row_on_page(row, labels)
    return text


def check():
    faults = [fault for name in sources.libraries() for fault in faults_of(name)]
    gone = {path.stem for path in DATA.glob("*.json")} - set(sources.libraries())
    faults += [f"docs/mutations/{name}.json is of no library with promises" for name in sorted(gone)]
    if not PAGE.exists() or PAGE.read_text() != page():
        faults.append("docs/MUTATIONS.md is not what is recorded: run tools/mutations.py --page")
    count = sum(len(sources.functions_of(name)) for name in sources.libraries())
    print("\n".join([*faults, f"mutations: {count} public functions, {len(faults)} faults"]))
    sys.exit(1 if faults else 0)


def main():
    words = argparse.ArgumentParser(description=__doc__, formatter_class=argparse.RawDescriptionHelpFormatter)
    words.add_argument("--seed", type=int, default=1)
    words.add_argument("--each", type=int, default=2)
    words.add_argument("--jobs", type=int, default=2)
    words.add_argument("--due", action="store_true")
    words.add_argument("--check", action="store_true")
    words.add_argument("--page", action="store_true")
    words.add_argument("names", nargs="*", metavar="NAME")
    said = words.parse_args()
    unknown = set(said.names) - set(sources.libraries())
    if unknown:
        known = " ".join(sources.libraries())
        words.error(f"no library with promises: {' '.join(sorted(unknown))}; there are: {known}")
    if said.check:
        check()
    if not said.page:
        names = Names()
        wanted = [n for n in said.names or sources.libraries() if not said.due or at_fault(n)]
        with concurrent.futures.ThreadPoolExecutor(said.jobs) as pool:
            drawn = pool.map(lambda name: run(name, said.seed, said.each, names, said.due), wanted)
            for lines in drawn:
                print("\n".join(lines), flush=True)
    PAGE.write_text(page())


if __name__ == "__main__":
    main()
