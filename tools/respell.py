#!/usr/bin/env python3
"""Brings the repository's own definitions and lemmas to today's spelling: once, after the kit's port.py.

    tools/respell.py              respells the crates in place, and says which names fall together
    tools/respell.py --dry        says only what it would do

A name of specs/ or proofs/ in camel case gets underscores (`sameBytes` is `same_bytes`), a dash in a definition, a
constructor or a field becomes one (`data-packet` is `data_packet`), and the proof of a function `f` is `f_spec`. A
lemma keeps the dashes between its words. Types, modules, functions of src/, exported names and strings stay as they
are, and so does every name of the library. The texts of must-fail edits are respelled alike.
"""
import collections
import pathlib
import re
import sys

ROOT = pathlib.Path(__file__).resolve().parent.parent
CRATES = ROOT / "crates"
NAME = r"[A-Za-z_][\w'\-]*"
# where a field or a constructor would fall together with a definition, or hide one in its record
APART = {
    "asks-always": "asking_always",
    "data-at": "data_from",
    "end-at": "end_there",
    "heartbeat-at": "heartbeat_there",
    "her-own": "by_her_own",
    "holds-nothing": "never_holds",
    "how-many": "how_many_left",
    "is-data": "is_of_data",
    "is-sequenced": "is_a_sequenced",
    "is-unsequenced": "is_an_unsequenced",
    "no-message-yet": "before_any_message",
    "old-to-all": "always_old",
    "password-size": "size_of_password",
    "refuses-all": "always_refuses",
    "request-read": "reads_request",
    "request-session": "session_of_request",
    "session-size": "size_of_session",
    "stops-early": "stopping_early",
    "unsequenced-in": "in_unsequenced",
    "username-size": "size_of_username",
    "well-formed": "is_well_formed",
}
# a signature: at the margin, or indented in a record, a data type or a where block
SIGNATURE = re.compile(rf"(?m)^(?P<indent>\s*)(?:(?:pub|abbrev|unfoldable)\s+)*(?P<names>(?:{NAME} +)*{NAME})\s*:\s")
COMMENT = re.compile(r"--.*|//.*")
STRING = re.compile(r'"(?:\\.|[^"\\])*"')


def antt_files():
    return sorted(p for p in CRATES.glob("*/*/**/*.antt") if p.relative_to(CRATES).parts[1] in ("specs", "proofs"))


def is_camel(name):
    return any(re.match(r"[a-z]", part) and re.search(r"[A-Z]", part) for part in name.split("-"))


def snake(name):
    parts = []
    for part in name.split("-"):
        if re.match(r"[a-z]", part):
            part = re.sub(r"(?<=[a-z0-9])([A-Z])(?=[a-z0-9]|$)", lambda m: "_" + m.group(1).lower(), part)
            part = re.sub(r"(?<=[a-z0-9])([A-Z])(?=[A-Z])", lambda m: "_" + m.group(1).lower(), part)
            part = re.sub(r"([A-Z])(?=[A-Z])", lambda m: m.group(1).lower() + "_", part)
            part = re.sub(r"([A-Z])", lambda m: m.group(1).lower(), part)
        parts.append(part)
    return "-".join(parts)


def new_names():
    """Each name of the repository's own that is spelled anew, with its new spelling."""
    camel, dashed = set(), set()
    for path in antt_files():
        text = STRING.sub('""', COMMENT.sub("", path.read_text()))
        in_specs = path.relative_to(CRATES).parts[1] == "specs"
        for found in SIGNATURE.finditer(text):
            for name in found["names"].split():
                if is_camel(name):
                    camel.add(name)
                # a name that begins with a capital is a fact's, as `Nearer-wf`, and keeps its dash
                if in_specs and "-" in name and name[0].islower():
                    dashed.add(name)
    return {n: APART.get(n) or (snake(n).replace("-", "_") if n in dashed else snake(n)) for n in camel | dashed}


# the names that a file's tokens are; a comment's and a string's words are no names of two parts
TOKEN = re.compile(rf'(?P<string>"(?:\\.|[^"\\])*")|(?P<comment>--.*|//.*)|(?P<name>{NAME})')


def respelled(text, new, is_rust):
    def one(found):
        if found["string"]:
            return found["string"]
        if found["comment"]:
            # only names in camel case are told from plain words
            return re.sub(r"[A-Za-z_][\w']*", lambda m: new.get(m.group(0), m.group(0)) if is_camel(m.group(0))
                          else m.group(0), found["comment"])
        name = found["name"]
        if is_rust and not is_camel(name) and not is_ghost(text, found.start()):
            return name
        return new.get(name, name)

    return TOKEN.sub(one, text)


def is_ghost(text, at):
    """Whether a place of a .rt file lies in an import of definitions or in a clause."""
    line = text.rfind("\n", 0, at) + 1
    start = max(text.rfind("ghost use ", 0, at), text.rfind("ensures", 0, at), text.rfind("requires", 0, at))
    if start < 0:
        return False
    between = text[start:at]
    if between.startswith("ghost use "):
        return ";" not in between
    return between.count("{") > between.count("}") or start >= line and "{" in between


def respelled_edit(text, new):
    """An edit's lines, each in the language of the file that it is of; its comments are plain words."""
    is_rust, lines = True, []
    for line in text.splitlines(keepends=True):
        if line.startswith("file:"):
            is_rust = line.strip().endswith(".rt")
        if line.startswith("#"):
            line = re.sub(r"[A-Za-z_][\w']*", lambda m: new.get(m.group(0), m.group(0)), line)
        lines.append(respelled(line, new, is_rust) if line.startswith(("old:", "new:")) else line)
    return "".join(lines)


def function_proof(path, text):
    """The proof of a function is named after its folder."""
    if path.name != "Proof.antt":
        return text
    wanted = path.parent.name + "_spec"
    for found in re.finditer(rf"(?m)^pub ({NAME}-spec)\s*:", text):
        if found.group(1).replace("-", "_") == wanted:
            old = found.group(1)
            text = re.sub(rf"(?<![\w'\-]){re.escape(old)}(?![\w'\-])", wanted, text)
    return text


def main():
    dry = "--dry" in sys.argv[1:]
    new = new_names()
    by_new = collections.defaultdict(set)
    for old, now in new.items():
        by_new[now].add(old)
    for now, olds in sorted(by_new.items()):
        if len(olds) > 1:
            print(f"fall together: {' and '.join(sorted(olds))} as {now}")
    changed = 0
    for path in antt_files() + sorted(CRATES.glob("*/src/**/*.rt")) + sorted(CRATES.glob("*/must-fail/*.edit")):
        text = path.read_text()
        code = STRING.sub('""', COMMENT.sub("", text))
        tokens = set(re.findall(NAME, code))
        for old in sorted(tokens & new.keys()):
            if new[old] in tokens and path.suffix != ".edit":
                print(f"stands there already: {path.relative_to(ROOT)}: {new[old]}, for {old}")
        if path.suffix == ".edit":
            made = respelled_edit(text, new)
        else:
            made = respelled(text, new, path.suffix == ".rt")
        made = function_proof(path, made)
        if made != text:
            changed += 1
            if not dry:
                path.write_text(made)
    print(f"{len(new)} names, {changed} files")


if __name__ == "__main__":
    main()
