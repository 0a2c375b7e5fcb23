"""Order 11's rules for what is missing from a capture, written from document 02 and not from the Rattle code, so that
the two check each other. What is carried is kept as runs of numbers, and what is missing is what lies between them.
Settings and records are those of capture_rules."""

import bisect

from capture_rules import MOST_RECORDS, REFUSED_TEXT, settings_of, split
from mold_rules import Refused, packet_of

MOST_RANGES = 4096
TOO_MANY_TEXT = b"ranges=refused\n"


def said_by(session, datagram):
    """The numbers that an accepted datagram carries, from one to just below another, and so the next number that it
    states or implies: none carried where the two are equal. Nothing of one that isn't accepted: it is refused by the
    reader, or has another name. 18 and 20 don't count here."""
    try:
        _, number, places = packet_of(datagram)
    except Refused:
        return None
    return (number, number + len(places)) if datagram[: len(session)] == session else None


def carry(runs, first, after):
    """Adds the numbers from first to just below after to runs of numbers that rise and don't touch, in place."""
    if first == after:
        return
    low = bisect.bisect_left(runs, first, key=lambda run: run[1])
    high = bisect.bisect_right(runs, after, key=lambda run: run[0])
    touched = [(first, after), *runs[low:high]]
    runs[low:high] = [(min(run[0] for run in touched), max(run[1] for run in touched))]


def between(start, highest, runs):
    """The ranges of numbers from the start to just below the highest next number that no run has, both ends missing."""
    ranges, at = [], start
    for first, after in runs:
        if at < first:
            ranges.append((at, first - 1))
        at = max(at, after)
    return ranges + [(at, highest - 1)] * (at < highest)


def missing_ranges(session, start, datagrams):
    """The missing ranges of a session, or None where a record would need more than are kept: they are counted after
    each whole record, and what follows doesn't mend it."""
    runs, highest = [], start
    for said in filter(None, (said_by(session, datagram) for datagram in datagrams)):
        carry(runs, *said)
        highest = max(highest, said[1])
        # so few runs have no more ranges between them
        if len(runs) >= MOST_RANGES and len(between(start, highest, runs)) > MOST_RANGES:
            return None
    return between(start, highest, runs)


def ranges_text(session, ranges):
    lines = [f"from={first}\nto={last}\n" for first, last in ranges]
    missing = sum(last - first + 1 for first, last in ranges)
    return b"session=%b\n" % session + "".join(lines).encode() + b"missing=%d\n" % missing


def missing_text(data):
    """What is printed of a whole capture. A record that is cut short ends it, and says nothing."""
    try:
        session, start, _, size = settings_of(data)
    except Refused:
        return REFUSED_TEXT
    ranges = missing_ranges(session, start, split(data[size:], MOST_RECORDS)[0])
    return TOO_MANY_TEXT if ranges is None else ranges_text(session, ranges)
