#!/usr/bin/env python3
"""Lists the names that a source file brings in and never uses, one to a line; exits 1 where there is one.

    python3 tools/imports.py          says which
    python3 tools/imports.py --fix    takes them out"""
import pathlib
import re
import sys

ROOT = pathlib.Path(__file__).resolve().parent.parent
USE = re.compile(r"^((?:pub )?(?:ghost )?use [^\n{;]+?(?:\.|::))\{([^}]*)\}(;?)\n", re.M)
ALIAS = re.compile(r"^(?:ghost )?use [^\n{;]+ as (\S+?);?\n", re.M)
PATH = re.compile(r"^use (?:\w+::)*(\w+);\n", re.M)


def is_used(name, body):
    """A name, or each word of an operator, stands in the text."""
    words = [word for word in name.split("◌") if word]
    return all(re.search(as_word(word), body) for word in words)


def as_word(word):
    """A pattern that finds a word, and no longer word that has it in it."""
    edge = r"[\w\-₀-₉']"
    before = rf"(?<!{edge})" if re.match(r"\w", word) else ""
    behind = rf"(?!{edge})" if re.search(r"\w$", word) else ""
    return before + re.escape(word) + behind


def body_of(text, comment):
    text = USE.sub("", text)
    lines = [line for line in text.split("\n") if not re.match(r"\s*(?:pub )?(?:ghost )?use ", line)]
    return re.sub(comment + r".*", "", "\n".join(lines))


def last_of(name, before):
    """What a name of a list is called in its file: `b` of `a::b`, `c` of `b as c`, and the path's end of `self`."""
    last = re.split(r" as |::", name)[-1]
    return re.split(r"[.:]+", before.rstrip(".:"))[-1] if last == "self" else last


def unused(path, fix):
    text = path.read_text()
    body = body_of(text, "--" if path.suffix == ".antt" else "//")
    found = []

    def names(match):
        listed = [name.strip() for name in match[2].split(",") if name.strip()]
        left = [name for name in listed if match[1].startswith("pub") or is_used(last_of(name, match[1]), body)]
        found.extend(name for name in listed if name not in left)
        if left == listed:
            return match[0]
        return f"{match[1]}{{{', '.join(left)}}}{match[3]}\n" if left else ""

    def one(match):
        if is_used(match[1], body):
            return match[0]
        found.append(match[1])
        return ""

    fixed = USE.sub(names, text)
    fixed = ALIAS.sub(one, fixed)
    if path.suffix == ".rt":
        fixed = PATH.sub(one, fixed)
    if fix and found:
        path.write_text(fixed)
    return found


def main():
    fix = sys.argv[1:] == ["--fix"]
    count = 0
    files = (path for part in ("src", "specs", "proofs") for path in ROOT.glob(f"crates/*/{part}/**/*"))
    for path in sorted(path for path in files if path.suffix in (".antt", ".rt")):
        for name in unused(path, fix):
            print(f"{path.relative_to(ROOT)}: {name} is brought in and never used")
            count += 1
    if count == 0:
        print("imports: all are used")
    sys.exit(1 if count and not fix else 0)


main()
