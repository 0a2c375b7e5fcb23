#!/usr/bin/env python3
"""One table of the refusals: crates/wire/src/refusal.rt has each with its number, its name and, in words, its ground.

    tools/refusals.py            writes its names and words into the five places that repeat them
    tools/refusals.py --check    compares, and exits 1 on a difference

Where OUTPUT_SHORT stands in the table, the definitions say output_short, the header EIDERWAGON_REFUSED_OUTPUT_SHORT, the
wrapper REFUSED_OUTPUT_SHORT and Ground::OutputShort. A missing row is said, and written by hand.
"""
import re
import sys
import textwrap

from sources import ROOT

TABLE = ROOT / "crates/wire/src/refusal.rt"


def table():
    """The rows: number, name, ground, as the source has them; 0 is no refusal."""
    row = r"((?:^// .*\n)+)pub const (\w+): Refusal = Refusal \{ number: (\d+) \};"
    found = re.findall(row, TABLE.read_text(), re.M)
    lines = [(int(number), name, " ".join(re.findall(r"// (.*)", comment))) for comment, name, number in found]
    return [(number, name, ground.rstrip(".")) for number, name, ground in lines if number]


def pascal(name):
    return name.title().replace("_", "")


def small(text):
    """A ground inside a line: its first letter small."""
    return text[0].lower() + text[1:]


def wrapped(ground):
    """A ground in the header, in lines of at most 120 columns."""
    return ("\n" + " " * 51).join(textwrap.wrap(ground, 66))


def wide(row):
    """A row of the wrapper's enum; a long one takes two lines."""
    line = f'    {pascal(row[1])} = {row[0]}, "{small(row[2])}";'
    return line if len(line) <= 100 else line.replace(', "', ',\n        "', 1)


# each place: its file, how a row is found there (its number or its name in a group), and how it is to read
PLACES = (
    (
        "crates/wire/specs/Refusals.antt",
        r"^-- .*\nabbrev pub \w+ : ℕ\n\w+ = (?P<number>\d+)$",
        lambda row: f"-- {small(row[2])}\nabbrev pub {row[1].lower()} : ℕ\n{row[1].lower()} = {row[0]}",
    ),
    (
        "include/eiderwagon.h",
        r"^    EIDERWAGON_REFUSED_\w+ = (?P<number>\d+),? */\* [^*]*? \*/$",
        lambda row: f"    {f'EIDERWAGON_REFUSED_{row[1]} = {row[0]}' + row[3]:<44}/* {wrapped(small(row[2]))} */",
    ),
    # the rows of eiderwagon_ground
    (
        "include/eiderwagon.h",
        r"^    case EIDERWAGON_REFUSED_(?P<name>\w+):\n        return \"[^\"]*\";$",
        lambda row: f'    case EIDERWAGON_REFUSED_{row[1]}:\n        return "{small(row[2])}";',
    ),
    (
        "hosts/eiderwagon/src/raw.rs",
        r"^    /// .*\n    REFUSED_\w+: u32 = (?P<number>\d+);$",
        lambda row: f"    /// {row[2]}.\n    REFUSED_{row[1]}: u32 = {row[0]};",
    ),
    ("hosts/eiderwagon/src/refusal.rs", r"^    \w+ = (?P<number>\d+),\s*\"[^\"]*\";$", wide),
)


def main():
    if sys.argv[1:] not in ([], ["--check"]):
        sys.exit(__doc__)
    rows, faults = table(), []
    # C takes no comma behind the last one
    rows = [(*row, "," if row is not rows[-1] else "") for row in rows]
    by_number, by_name = {str(row[0]): row for row in rows}, {row[1]: row for row in rows}
    for file, pattern, written in PLACES:
        path = ROOT / file
        text, seen = path.read_text(), []

        def renewed(m):
            found = m.groupdict()
            row = by_number.get(found["number"]) if "number" in found else by_name.get(found["name"])
            seen.append(row[0] if row else m.group(0))
            return written(row) if row else m.group(0)

        new = re.sub(pattern, renewed, text, flags=re.M)
        if seen != [row[0] for row in rows]:
            faults.append(f"{file} has the refusals {seen}, and the table {[row[0] for row in rows]}")
        elif new != text and sys.argv[1:]:
            there = re.findall(r"[^\n]+", text)
            first = next(line for line in re.findall(r"[^\n]+", new) if line not in there)
            faults.append(f"{file} should have `{first.strip()}`: run tools/refusals.py")
        if not sys.argv[1:]:
            path.write_text(new)
    print("\n".join([*faults, f"refusals: {len(rows)} rows, {len(faults)} faults"]))
    sys.exit(1 if faults else 0)


if __name__ == "__main__":
    main()
