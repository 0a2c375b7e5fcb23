#!/usr/bin/env python3
"""Says of each must-fail edit whether every `old:` text stands exactly once in its file, and exits 1 where one doesn't.

`rt ci` says so too, but only after everything is proved.
"""
import sys

from sources import ROOT


def faults_of(edit):
    """What is wrong with an edit, its pairs tried one after the other as `rt` does."""
    texts, file, old, pairs = {}, "", "", 0
    for line in edit.read_text().splitlines():
        word, _, rest = line.partition(":")
        if word == "file":
            file = rest.strip()
            path = edit.parent.parent / file
            texts.setdefault(file, path.read_text() if path.is_file() else "")
        elif word == "old":
            old = rest[1:]
        elif word == "new":
            count, pairs = texts.get(file, "").count(old) if old else 0, pairs + 1
            if count != 1:
                yield f"`{old}` stands {count} times in {file or 'no file'}"
            else:
                texts[file] = texts[file].replace(old, rest[1:])
            old = ""
    if not pairs:
        yield "it has no old: and new: pair"


def main():
    edits = sorted(ROOT.glob("crates/*/must-fail/*.edit"))
    faults = [f"{edit.relative_to(ROOT)}: {fault}" for edit in edits for fault in faults_of(edit)]
    print("\n".join([*faults, f"edits: {len(edits)}, {len(faults)} faults"]))
    sys.exit(1 if faults else 0)


if __name__ == "__main__":
    main()
