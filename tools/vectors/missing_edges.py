"""What is missing from a capture as the library keeps it, for the vectors' exact bytes: how far the capture was read,
and the edges of the missing ranges in lent words, at which missing and present change places. `[3, 5, 9]` says that 3
and 4 are missing, and everything from 9 on, as far as numbers are known. What it all means is `missing_rules`'s to say,
and `missing.py` holds the one to the other; only a state that was made up has edges that don't rise."""

import typing

from capture_rules import LONGEST, MOST_RECORDS, REFUSED_TEXT, settings_of, split
from missing_rules import MOST_RANGES, TOO_MANY_TEXT, said_by
from mold_rules import TOP, Refused

WORDS = 2 * MOST_RANGES + 1


class Notes(typing.NamedTuple):
    session: bytes
    highest: int
    closed: int  # the ranges that have both edges
    refused: bool


class Reading(typing.NamedTuple):
    stage: str
    left: int  # how many records may still be read
    notes: Notes


START = Reading("settings", 0, Notes(b" " * 10, 0, 0, True))


def is_usable(notes):
    return not notes.refused and notes.closed <= MOST_RANGES


# ---- a datagram's numbers


def place_past(edges, size, number):
    """Behind the last of the first edges that is the number or lies below it, looked for by halves: where they don't
    rise, that decides."""
    low, high = 0, size
    while low < high:
        middle = low + (high - low) // 2
        if edges[middle] <= number:
            low = middle + 1
        else:
            high = middle
    return low


def cut(edges, first, after):
    """Edges with the numbers from first to just below after carried."""
    j = place_past(edges, len(edges), after)
    i = place_past(edges, j, first - 1) if first else 0
    return edges[:i] + [first] * (i % 2) + [after] * (j % 2) + edges[j:]


def note(notes, words, said):
    """Notes and words after what a datagram said. Where it would need more ranges than are kept, only that is noted."""
    first, after = said
    edges = words[: 2 * notes.closed + 1]
    if first < after and is_usable(notes):
        edges = cut(edges, first, after)
    highest = max(notes.highest, after)
    many = len(edges) // 2
    if not is_usable(notes) or many + (edges[-1] < highest) > MOST_RANGES:
        return notes._replace(refused=True), words
    return Notes(notes.session, highest, many, False), edges + words[len(edges) :]


# ---- a capture in pieces


def advance(reading, words, data):
    """A reading and its words after some bytes that are enough to tell the settings, and how many of them were used:
    all once nothing more is read."""
    stage, left, notes = reading
    used = 0
    if stage == "settings":
        try:
            session, start, _, used = settings_of(data)
        except Refused:
            return Reading("refused", 0, notes), words, len(data)
        stage, left, notes, words = "records", MOST_RECORDS, Notes(session, start, 0, False), [start, *words[1:]]
    if stage != "records":
        return Reading(stage, 0, notes), words, len(data)
    datagrams, rest = split(data[used:], left)
    for said in filter(None, (said_by(notes.session, datagram) for datagram in datagrams)):
        notes, words = note(notes, words, said)
    if left == len(datagrams):
        return Reading("done", 0, notes), words, len(data)
    return Reading("records", left - len(datagrams), notes), words, len(data) - len(rest)


def feed(reading, words, data):
    if reading.stage == "settings" and len(data) < LONGEST:
        return reading, words, 0
    return advance(reading, words, data)


def finish(reading, words, data):
    after, words, _ = advance(reading, words, data)
    return (Reading("done", 0, after.notes) if after.stage == "records" else after), words


# ---- what is listed


def is_listed(reading):
    return reading.stage in ("records", "done") and is_usable(reading.notes)


def ranges_of(reading, words):
    """The listed ranges, as edges have them: none where nothing is listed."""
    if not is_listed(reading):
        return []
    _, highest, closed, _ = reading.notes
    edges = words[: 2 * closed + 1] + [highest] * (words[2 * closed] < highest)
    # the number before 0 is 0
    return [(edges[at], max(edges[at + 1] - 1, 0)) for at in range(0, len(edges) - 1, 2)]


def total_of(ranges):
    """A range whose edges don't rise has no numbers, and a sum stops at the largest number."""
    return min(TOP, sum(max(last + 1 - first, 0) for first, last in ranges))


def text_of(reading, words):
    if reading.stage not in ("records", "done"):
        return REFUSED_TEXT
    if not is_listed(reading):
        return TOO_MANY_TEXT
    ranges = ranges_of(reading, words)
    lines = [b"session=" + reading.notes.session, *(b"from=%d\nto=%d" % each for each in ranges)]
    return b"\n".join([*lines, b"missing=%d" % total_of(ranges), b""])
