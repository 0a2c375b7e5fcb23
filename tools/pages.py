#!/usr/bin/env python3
"""Holds the pages to the sources: what they print of them, the numbers that they give, and the places they lead to.

    tools/pages.py            writes the printed parts and the numbers anew
    tools/pages.py --check    says what differs, and exits 1 where something does

A part of a page between `<!-- from FILE: NAME .. -->` and the end of the code block behind it is those declarations of
the file, word for word. The table behind `<!-- evidence -->` is counted from the repository. Beside these: a page's prose has
at most 100 columns (tables and code may be wider), README.md at most 8 KB, and every relative link leads to a file."""
import json
import pathlib
import re
import sys
import textwrap

import sources
from sources import ROOT

PAGES = sorted([*ROOT.glob("*.md"), *ROOT.glob("docs/*.md"), *ROOT.glob("hosts/*.md"), *ROOT.glob("hosts/program/*.md"), *ROOT.glob("captures/*.md")])
# by other tools, tables for the most part; and old and new words side by side
WIDE = {"DESIGN-PASS.md", "ENTRY-POINTS.md", "MUTATIONS.md", "PORT.md"}
COLUMNS = 100
README_BYTES = 8192
PRINTED = re.compile(r"(<!-- from (\S+): ([^>]+?) -->\n\n```text\n)(.*?)(```\n)", re.S)
EVIDENCE = re.compile(r"(<!-- evidence -->\n\n)((?:\|.*\n)+)")


def declaration(text, name):
    """The lines of a definition, up to the next empty line."""
    found = re.search(rf"^ *(?:(?:unfoldable|abbrev|pub|record|data) )*{re.escape(name)} .*?(?=\n\s*\n|\Z)", text, re.M | re.S)
    if not found:
        raise SystemExit(f"pages: {name} stands nowhere")
    return textwrap.dedent(found[0]).rstrip("\n") + "\n"


def printed(match):
    text = (ROOT / match[2]).read_text()
    return match[1] + "\n".join(declaration(text, name) for name in match[3].split()) + match[5]


def counted(pattern, *globs):
    """How many lines of these files fit a pattern."""
    files = [path for glob in globs for path in sorted(ROOT.glob(glob))]
    return sum(len(re.findall(pattern, path.read_text(), re.M)) for path in files)


def compared():
    """The inputs of the comparison that the gate runs."""
    text = (ROOT / "hosts/differential/src/lib.rs").read_text()
    return int(re.search(r"INPUTS: \w+ = ([\d_]+)", text)[1].replace("_", ""))


def evidence():
    functions = [item for name in sources.crates() for item in sources.items_of(name) if item.is_function]
    public = [function for name in sources.libraries() for function in sources.functions_of(name)]
    records = [json.loads(path.read_text()) for path in sorted((ROOT / "docs/mutations").glob("*.json"))]
    drawn = [change for record in records for function in record["functions"] for change in function["changes"]]
    rows = [
        ("functions, each proved to end, to be safe and to keep its promise", len(functions)),
        ("public ones among them, each with a promise and without a `requires`", len(public)),
        ("mistakes that the prover has to refuse at every gate", len(list(ROOT.glob("crates/*/must-fail/*.edit")))),
        ("changes of public functions, drawn by a seed, that it refused", len(drawn)),
        ("recorded calls whose answers come from an independent reading of the rules", counted(r"^\d+ \w+ \|", "crates/vectors*/stdin")),
        ("inputs at every gate on which an independent implementation in Rust gives the same", compared()),
    ]
    return "| what | how many |\n|---|---|\n" + "".join(f"| {what} | {number:,} |\n" for what, number in rows)


def renewed(page):
    text = PRINTED.sub(printed, page.read_text())
    return EVIDENCE.sub(lambda match: match[1] + evidence(), text)


def wide(text):
    """The lines of prose that are too long: no table, no code, no line that is one word."""
    code = False
    for number, line in enumerate(text.split("\n"), 1):
        code ^= line.startswith("```")
        plain = not (code or line.startswith(("|", "    ", "```", "<!--")))
        if plain and len(line) > COLUMNS and " " in line.strip():
            yield number


def links(page, text):
    for target in re.findall(r"\]\(([^)#\s]+)[^)]*\)", re.sub(r"```.*?```", "", text, flags=re.S)):
        if "://" not in target and not (page.parent / target).exists():
            yield target


def faults(page):
    text, name = page.read_text(), page.relative_to(ROOT)
    if renewed(page) != text:
        yield f"{name}: what it prints of the sources differs: run tools/pages.py"
    if page.name not in WIDE:
        yield from (f"{name}:{number}: more than {COLUMNS} columns" for number in wide(text))
    yield from (f"{name}: {target} leads nowhere" for target in links(page, text))
    if name.name == "README.md" and page.parent == ROOT and len(text.encode()) > README_BYTES:
        yield f"{name}: {len(text.encode())} bytes, more than {README_BYTES}"


def main():
    if sys.argv[1:] != ["--check"]:
        for page in PAGES:
            if renewed(page) != page.read_text():
                page.write_text(renewed(page))
                print(f"wrote {page.relative_to(ROOT)}")
    found = [fault for page in PAGES for fault in faults(page)]
    print("\n".join([*found, f"pages: {len(PAGES)} read, {len(found)} faults"]))
    sys.exit(1 if found else 0)


main()
