"""The changes that tools/mutations.py draws from: what may stand in the place of an operator, a number or a name.

Each is one wrong answer, said in words: "`<` became `<=`: the bound itself is taken".
"""
import re

import refusals
import sources
from sources import ROOT

OPERATORS = {
    "<": {"<=": "the bound itself is taken", ">": "the test is turned round"},
    "<=": {"<": "the bound itself is left out", ">=": "the test is turned round"},
    "==": {"!=": "the test is turned round"},
    "!=": {"==": "the test is turned round"},
    "+": {"-": "taken away and not added"},
    "-": {"+": "added and not taken away"},
    "*": {"+": "added and not multiplied"},
    "/": {"*": "multiplied and not divided"},
    "%": {"/": "the quotient and not the rest"},
    "&": {"|": "one of the two is enough"},
    "|": {"&": "both are asked for"},
    "+=": {"-=": "it goes down and not up"},
    "-=": {"+=": "it goes up and not down"},
}
OPERATOR = re.compile(r"(?<= )(<=|==|!=|\+=|-=|[<+\-*/%&|])(?= )")
NUMBER = re.compile(r"(?<![\w.'])\d+(?=u8\b|\b)(?!\.\w)")
BYTE = re.compile(r"b'([^\\])'")
TRUTH = re.compile(r"\b(true|false)\b")
BRANCH = re.compile(r"(?<=if )(!?)(?=[\w.:]+(?:\([^()]*\))? \{)")
REFUSAL = re.compile(r"(?<=refusal::)[A-Z][A-Z_]+")
TEXT = re.compile(r'b"([^\\"])')
ARGUMENTS = re.compile(r"(?<=\()(?:&mut \w+, )?([\w.&]+), ([\w.&]+)(?=[,)])")
FIELD = re.compile(r"(?<=[\w)]\.)([a-z_]+)\b(?!\()")
VARIANT = re.compile(r"\b([A-Z]\w*)::([A-Z][a-z]\w*)\b(?! *(?:=>|\{|\(|\|))")
CONSTANT = re.compile(r"(?:\b(\w+)::)?\b([A-Z][A-Z_0-9]+)\b(?!::)")
CALL = re.compile(r"(?:\b(\w+)::)?\b([a-z]\w*)(?=\()")
PARAMETER = re.compile(r"(\w+): ([^,()]+(?:\[[^\]]*\])?)(?=[,)])")
# the three kinds of number that are never mixed
KINDS = ("SequenceNumber", "MessageCount", "ByteOffset")


def place_of(item):
    """What stands before the name of an item of this file: its module, or its crate."""
    return item.module[-1] if item.module else item.path.relative_to(ROOT / "crates").parts[0]


class Names:
    """What may stand in a name's place: the other fields, cases, constants and functions of its kind."""

    def __init__(self):
        self.fields, self.cases, self.constants, self.functions = {}, {}, {}, {}
        for path in sorted(ROOT.glob("crates/*/src/**/*.rt")):
            text = path.read_text()
            for body in re.findall(r"struct \w+(?:<'a>)? \{\n(.*?)\n\}", text, re.S):
                typed = re.findall(r"^    pub (\w+): (.*),$", body, re.M)
                for name, kind in typed:
                    self.fields.setdefault(name, set()).update(n for n, k in typed if k == kind and n != name)
            for name, body in re.findall(r"enum (\w+) \{\n(.*?)\n\}", text, re.S):
                self.cases.setdefault(name, set()).update(re.findall(r"^    (\w+),$", body, re.M))
        for crate in sources.crates():
            for item in sources.items_of(crate):
                if item.is_function:
                    found, kind = self.functions, re.sub(r"\b\w+: ", "", item.signature)
                else:
                    found, kind = self.constants, item.code.split("=")[0].split(":")[-1]
                for place in {place_of(item), *item.owner}:
                    found.setdefault((place, kind), []).append(item.name)
        self.refusals = {"NONE": 0, **{name: number for number, name, _ in refusals.table()}}

    @staticmethod
    def others(found, place, name):
        """The names of a place that have the kind of this one: a function's types, a constant's type."""
        for (where, _), names in found.items():
            if where == place and name in names:
                return sorted(set(names) - {name})[:2]
        return []


def of_tokens(line):
    """The changes of operators, numbers, letters, flags, branches, texts and the order of arguments."""
    for m in OPERATOR.finditer(line):
        yield from ((m.start(), m.end(), new, words) for new, words in OPERATORS[m.group(1)].items())
    for m in NUMBER.finditer(line):
        yield m.start(), m.end(), str(int(m.group(0)) + 1), "one more"
        if int(m.group(0)):
            yield m.start(), m.end(), str(int(m.group(0)) - 1), "one less"
    for m in BYTE.finditer(line):
        yield from ((m.start(1), m.end(1), chr(ord(m.group(1)) + by), "another letter") for by in (1, -1))
    for m in TRUTH.finditer(line):
        yield m.start(), m.end(), {"true": "false", "false": "true"}[m.group(0)], "the flag is turned"
    for m in BRANCH.finditer(line):
        yield m.start(), m.end(), "" if m.group(1) else "!", "the branch is taken where it isn't due"
    for m in TEXT.finditer(line):
        yield m.start(1), m.end(1), "#", "the text begins with another byte"
    for m in ARGUMENTS.finditer(line):
        yield m.start(1), m.end(2), f"{m.group(2)}, {m.group(1)}", "two arguments change places"


def of_names(line, names, place):
    """The changes of refusals, fields, cases, constants and functions into another of their kind."""
    for m in REFUSAL.finditer(line):
        known = list(names.refusals)
        new = known[known.index(m.group(0)) - 1]
        yield m.start(), m.end(), new, f"{names.refusals[new]} is answered and not {names.refusals[m.group(0)]}"
    for m in FIELD.finditer(line):
        yield from ((m.start(), m.end(), new, "another field") for new in sorted(names.fields.get(m.group(1), ())))
    for m in VARIANT.finditer(line):
        others = sorted(names.cases.get(m.group(1), set()) - {m.group(2)})
        yield from ((m.start(2), m.end(2), new, "another case") for new in others[:2])
    for m in CONSTANT.finditer(line):
        if m.group(1) != "refusal":
            others = names.others(names.constants, m.group(1) or place, m.group(2))
            yield from ((m.start(2), m.end(2), new, "another constant") for new in others)
    for m in CALL.finditer(line):
        others = names.others(names.functions, m.group(1) or place, m.group(2))
        yield from ((m.start(2), m.end(2), new, "another function is asked") for new in others)


def of_parameters(line, item):
    """The changes of a parameter into another of its type, or into 0 or a truth value."""
    typed = PARAMETER.findall(item.signature)
    for name, kind in typed:
        others = [(n, "another argument is taken") for n, k in typed if k == kind and n != name]
        if kind in KINDS:
            others.append((f"{kind}(0)", "0 is taken for it"))
        if re.fullmatch(r"[ui](?:8|16|32|64|size)", kind):
            others.append(("0", "0 is taken for it"))
        if kind == "bool":
            others += [(truth, "whatever it is") for truth in ("true", "false")]
        for m in re.finditer(rf"(?<![\w.]){name}\b(?!: |\()", line):
            yield from ((m.start(), m.end(), new, words) for new, words in others)


def changes_of(function, items, names):
    """Every change that a function's items offer: its file, line (from 0), text before and after, and words."""
    found = {}
    for item in items:
        lines = item.path.read_text().splitlines()
        where = "" if item is function else f", in `{item.name}`"
        for at in item.lines:
            line = lines[at]
            comment = [m.start() for m in sources.HIDDEN.finditer(line) if m.group(0).startswith("//")]
            changes = [*of_tokens(line), *of_names(line, names, place_of(item)), *of_parameters(line, item)]
            for start, end, new, words in changes:
                changed = line[:start] + new + line[end:]
                said = f"`{line[start:end]}` became `{new}`: {words}" if line[start:end] and new else words
                if changed != line and start < min([len(line), *comment]):
                    found.setdefault((item.path.relative_to(ROOT), at, line, changed), said + where)
    return [(*key, said) for key, said in sorted(found.items())]
