"""The sources of the libraries, read by name: functions and constants, what a function reaches, and its promises.

What the scripts beside it share. A call is found by its name alone, which is enough inside a crate.
"""
import pathlib
import re

ROOT = pathlib.Path(__file__).resolve().parent.parent
# what the program of vectors stands on, and what is only measured: no library of the tender's (docs/DECISIONS.md)
ASIDE = ("vector", "bench_")
ITEM = re.compile(r'^( *)(?:#\[\w+\]\s*)*((?:pub )?)(?:extern "C" |unsafe )*(?:(fn) (\w+)|(const) (\w+):)', re.M)
HEAD_ENDS = re.compile(r"\s*(?:\{|\b(?:ghost|requires|ensures)\b)")
CLAUSE = re.compile(r"\s*(ghost|requires|ensures)\b ?(\w*)\s*(?=\{)")
HIDDEN = re.compile(r"//[^\n]*|b'(?:\\.|[^'\\\n])'|b\"(?:\\.|[^\"\\\n])*\"")
CLOSING = {"(": ")", "{": "}"}


def crates():
    """Each line of crates.txt: the crate, and what it depends on."""
    lines = re.findall(r"^(\w+)(?: staticlib)?:([^\n#]*)", (ROOT / "crates.txt").read_text(), re.M)
    return {name: deps.split() for name, deps in lines}


def static_libraries():
    """The crates that hosts in other languages link; no crate stands on one."""
    return re.findall(r"^(\w+) staticlib:", (ROOT / "crates.txt").read_text(), re.M)


def libraries():
    """The libraries of crates.txt that make promises, in its order."""
    aside = set(static_libraries())
    listed = [name for name in crates() if name not in aside and not name.startswith(ASIDE)]
    return [name for name in listed if (ROOT / "crates" / name / "src/lib.rt").exists()]


def reached_by(crate):
    """The crates of the repository that a crate depends on, directly or not."""
    listed, found, todo = crates(), set(), [crate]
    while todo:
        new = {dep for dep in listed[todo.pop()] if dep in listed} - found
        found |= new
        todo += new
    return found


def masked(text):
    """The text with comments and literals blanked, each place as it was, so that braces can be counted."""
    return HIDDEN.sub(lambda m: re.sub(r"[^\n]", " ", m.group(0)), text)


def after(text, at):
    """The place behind the bracket that closes the one at a place."""
    opening, depth = text[at], 0
    for i in range(at, len(text)):
        depth += (text[i] == opening) - (text[i] == CLOSING[opening])
        if depth == 0:
            return i + 1
    raise ValueError(f"no end of {text[at:at + 60]!r}")


class Item:
    """A function or a constant: where it stands, its clauses, and its lines of code."""

    def __init__(self, path, module, owner, m, text, plain):
        self.path, self.module, self.owner = path, module, owner
        self.public, self.is_function = bool(m.group(2)), m.group(3) is not None
        self.name = m.group(4) or m.group(6)
        self.is_exported = 'extern "C"' in m.group(0)
        self.clauses = []
        if self.is_function:
            body = HEAD_ENDS.search(plain, after(plain, plain.index("(", m.end()))).start()
            self.signature = " ".join(text[m.end() : body].split())
            while clause := CLAUSE.match(plain, body):
                body = after(plain, clause.end())
                self.clauses.append((clause.group(1), text[clause.end() + 1 : body - 1]))
            body = plain.index("{", body)
            end = after(plain, body)
        else:
            self.signature, body, end = "", m.start(), plain.index(";", m.end())
        self.code = plain[body:end]
        # the lines of the file that are its code, from 0
        self.lines = range(text.count("\n", 0, body), text.count("\n", 0, end) + 1)

    @property
    def title(self):
        return "::".join((*self.module, *self.owner, self.name))

    def names(self):
        """What an edit may call it: its path, or an end of it."""
        words = self.title.split("::")
        return {"::".join(words[at:]) for at in range(len(words))}

    def uses(self, other, imported):
        """Whether its code names another item of its crate."""
        for m in re.finditer(rf"((?:\w+::)*)(\.?)\b{other.name}\b", self.code):
            qualifier = m.group(1).split("::")[-2:-1]
            if m.group(2):
                if other.owner and other.is_function:
                    return True
            elif qualifier:
                own = qualifier == ["Self"] and other.owner == self.owner
                if own or qualifier[0] in (*other.module[-1:], *other.owner):
                    return True
            elif not other.owner and (other.path == self.path or other.name in imported.get(self.path, ())):
                return True
        return False


def items_of(crate):
    """The functions and constants of a crate, in the order of its files."""
    src, items = ROOT / "crates" / crate / "src", []
    for path in sorted(src.rglob("*.rt")):
        text = path.read_text()
        plain = masked(text)
        module = () if path.stem in ("lib", "main") else path.relative_to(src).with_suffix("").parts
        owners = [(m.start(), m.group(1)) for m in re.finditer(r"^impl(?:<[^>]*>)? (\w+)", plain, re.M)]
        for m in ITEM.finditer(plain):
            owner = tuple(name for at, name in owners if at < m.start())[-1:] if m.group(1) else ()
            items.append(Item(path, module, owner, m, text, plain))
    return items


def functions_of(crate):
    """The public functions of a crate."""
    return [item for item in items_of(crate) if item.public and item.is_function]


def imported_in(text):
    """The names that a file brings in from its own crate, one to a `use` or several in braces."""
    listed = re.findall(r"^use crate::(?:\w+::)*(\w+|\{[^}]*\});", text, re.M)
    return [name for names in listed for name in re.findall(r"\w+", names)]


def owned_by(crate):
    """For each public function of a crate its own items: itself, and what no other public function reaches."""
    items = items_of(crate)
    imported = {i.path: imported_in(i.path.read_text()) for i in items}
    used = {a: [b for b in items if b is not a and a.uses(b, imported)] for a in items}
    public = [i for i in items if i.public and i.is_function]
    reached = {}
    for function in public:
        found, todo = {function}, [function]
        while todo:
            for other in used[todo.pop()]:
                # a public function answers for itself
                if other not in found and other not in public:
                    found.add(other)
                    todo.append(other)
        reached[function] = found
    shared = {i for i in items if sum(i in reached[f] for f in public) > 1}
    return {f: [i for i in items if i in reached[f] - shared] for f in public}


def edits_of(crate):
    """For each must-fail edit of a crate: its label, and what its first line names."""
    for path in sorted((ROOT / "crates" / crate / "must-fail").glob("*.edit")):
        first = path.read_text().splitlines()[0]
        yield path.stem, re.sub(r"^# ", "", first).split(": ")[0].split(", ")
