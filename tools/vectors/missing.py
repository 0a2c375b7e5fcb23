"""Vectors of what is missing from a capture. A piece goes to the state and the edges that the line before left. A line
has no room for 4,096 ranges that rise: `tools/capture_program.py` runs them, and here the edges are made by hand."""
import pathlib

from boundary import (
    EDGES_SIZE,
    MISSING_ROOM,
    MISSING_SIZE,
    by_hand,
    missing_bytes,
    missing_in,
    words_bytes,
    words_in,
)
from capture_rules import MOST_RECORDS, REFUSED_TEXT
from captures import BAD_SETTINGS, BLANK, GAPS, GOOD_SETTINGS, capture, lines, record
from datagrams import FULLEST, REFUSED, ROOM, data_of, end, heartbeat, packet
from lines import room
from missing_edges import WORDS, Notes, Reading, ranges_of, text_of
from missing_rules import MOST_RANGES, TOO_MANY_TEXT, missing_text
from mold_rules import TOP

ROOT = pathlib.Path(__file__).resolve().parent.parent.parent
OTHER = b"READROOM02"
ALL = 200000  # a piece that holds a whole capture


def edges_of(words):
    """Lent words with some edges at their front."""
    return words_bytes(words) + room(EDGES_SIZE - len(words_bytes(words)))


class Reader:
    """A reading whose state and edges go from line to line."""

    def __init__(self, v):
        self.v = v

    def start(self):
        self.state, self.edges = self.v.ask("missing_start", s=room(MISSING_SIZE)).lent, room(EDGES_SIZE)

    def hand(self, notes, words, left=9):
        """A state made by hand, with records to follow."""
        self.state, self.edges = missing_bytes(Reading("records", left, Notes(*notes))), edges_of(words)

    def now(self):
        return missing_in(self.state)

    def ranges(self):
        return ranges_of(self.now(), words_in(self.edges))

    def feed(self, data, used=None, stage=None):
        """Some bytes, how many of them have to be used, and the stage after them."""
        answer = self.v.ask("missing_feed", () if used is None else (used,), s=self.state, a=data, c=self.edges)
        self.state, self.edges = answer.lent, answer.slots
        assert stage in (None, self.now().stage), (data, self.now())
        return answer.said[0]

    def takes(self, *lines):
        """Datagrams, one a feed, each with the ranges that are missing then."""
        for datagram, *ranges in lines:
            self.feed(record(datagram))
            assert self.ranges() == ranges, (self.ranges(), ranges)

    def finish(self, data=b""):
        answer = self.v.ask("missing_finish", s=self.state, a=data, c=self.edges)
        self.state, self.edges = answer.lent, answer.slots

    def look(self):
        """How many ranges there are, each by its place, and two places where none is."""
        given = dict(a=self.state, c=self.edges)
        ranges = self.ranges()
        assert self.v.ask("missing_count", **given).words[1] == len(ranges)
        for place in (*range(len(ranges)), len(ranges), TOP):
            found = (1, *ranges[place]) if place < len(ranges) else (0, 0, 0)
            self.v.ask("missing_range", found, n=place, **given)

    def write(self, text=None):
        wanted = text_of(self.now(), words_in(self.edges)) if text is None else text
        answer = self.v.ask("missing_write", (len(wanted),), a=self.state, c=self.edges, s=room(MISSING_ROOM))
        assert answer.lent[: len(wanted)] == wanted, (answer.lent[: len(wanted)], wanted)


def whole(r, name, data, *pieces, text=None):
    """A capture in pieces of some sizes, all of it where none is given: however it is cut, what is printed is what the
    rules say. What isn't used is fed again in front of the next piece."""
    r.v.heading(name)
    wanted = missing_text(data)
    assert text in (None, wanted), (name, wanted)
    for size in pieces or (ALL,):
        r.start()
        left = b""
        for at in range(0, len(data), size):
            left += data[at : at + size]
            left = left[r.feed(left) :]
        r.finish(left)
        r.write(wanted)


def listed(*ranges, session=ROOM):
    """The text of some ranges."""
    missing = sum(last - first + 1 for first, last in ranges)
    shown = b"".join(b"from=%d\nto=%d\n" % each for each in ranges)
    return b"session=%b\n%bmissing=%d\n" % (session, shown, missing)


# ---- whole captures


def samples(r):
    r.v.section("the samples")
    readme = (ROOT / "captures" / "README.md").read_text()
    program = ROOT / "crates" / "missing_report"
    assert (ROOT / "captures" / "gaps.capture").read_bytes() == GAPS == (program / "stdin").read_bytes()
    assert (program / "stdout").read_bytes() == missing_text(GAPS)
    for path in sorted((ROOT / "captures").glob("*.capture")):
        data = path.read_bytes()
        shown = "".join(f"    {line}\n" for line in missing_text(data).decode().splitlines())
        assert shown in readme, f"captures/README.md does not show what is missing from {path.name}"
        whole(r, path.name, data, 64, ALL)
        r.look()


def small(r):
    r.v.section("a small capture, cut at every place")
    data = capture(data_of(4, 1), heartbeat(6), start=lines(next=2, limit=7))
    assert missing_text(data) == listed((2, 3), (5, 5))
    for size in range(len(data) + 1):
        r.v.heading(f"{size} bytes, then the others")
        r.start()
        used = r.feed(data[:size])
        r.finish(data[used:])
        r.write(listed((2, 3), (5, 5)))
    r.v.section("the same, ended at every place: what is cut short says nothing")
    for size in range(len(data)):
        r.v.heading(f"{size} bytes")
        r.start()
        r.finish(data[:size])
        r.write(missing_text(data[:size]))


def ends(r):
    r.v.section("no records, records cut short, and bad settings")
    whole(r, "no records", capture(), 7, ALL, text=listed())
    whole(r, "no records, from 2^64-1", capture(start=lines(next=TOP)), text=listed())
    for name, after in (
        ("one byte of a length", b"\x00"),
        ("a length alone", b"\x00\x17"),
        ("all but one byte of a datagram", record(data_of(2, 1))[:-1]),
        ("records inside what is cut off", b"\xff\xff" + record(data_of(2, 1)) * 3),
        ("a heartbeat far ahead", record(heartbeat(99))[:-1]),
    ):
        whole(r, name, capture(data_of(1, 1), heartbeat(4), after=after), 64, text=listed((2, 3)))
    for name, start in GOOD_SETTINGS:
        whole(r, name, start + record(b""), text=listed(session=start[8:18]))
    for name, start in BAD_SETTINGS:
        whole(r, name, start + record(heartbeat(9)), text=REFUSED_TEXT)


# ---- what a datagram says


def rule(r):
    r.v.section("data carries its numbers, and implies the next; heartbeats and ends of session state it")
    r.hand((ROOM, 1, 0, False), [1])
    r.takes(
        (heartbeat(1),),
        (data_of(1, 2),),
        (heartbeat(5), (3, 4)),
        (end(7), (3, 6)),
        (data_of(9, 2), (3, 8)),
        (heartbeat(2), (3, 8)),
        (end(2), (3, 8)),
        (data_of(1, 2), (3, 8)),
    )
    r.look()
    r.write(listed((3, 8)))
    r.v.section("what a datagram does to a range: it splits, trims, covers and joins")
    begun = (ROOM, 10, 0, False), [10]
    for name, *datagrams in (
        ("split in its midst", (heartbeat(20), (10, 19)), (data_of(13, 2), (10, 12), (15, 19))),
        ("its first number", (heartbeat(20), (10, 19)), (data_of(10, 1), (11, 19))),
        ("its last number", (heartbeat(20), (10, 19)), (data_of(19, 1), (10, 18))),
        ("its front, from below the start", (heartbeat(20), (10, 19)), (data_of(7, 5), (12, 19))),
        ("its back, and past it", (heartbeat(20), (10, 19)), (data_of(18, 5), (10, 17))),
        ("all of it, and no more", (heartbeat(20), (10, 19)), (data_of(10, 10),)),
        ("all of it, and more", (heartbeat(20), (10, 19)), (data_of(8, 14),)),
        ("all but the ends", (heartbeat(20), (10, 19)), (data_of(11, 8), (10, 10), (19, 19))),
        ("a second range behind what is present", (data_of(12, 1), (10, 11)), (heartbeat(15), (10, 11), (13, 14))),
        ("numbers that touch", (data_of(12, 1), (10, 11)), (data_of(13, 1), (10, 11)), (data_of(11, 1), (10, 10))),
        ("what is present twice", (data_of(12, 3), (10, 11)), (data_of(13, 1), (10, 11)), (data_of(12, 3), (10, 11))),
        ("numbers below the start", (data_of(3, 4),), (heartbeat(9),), (data_of(9, 1),), (heartbeat(11), (10, 10))),
        ("a number of no bytes", (packet(12, b"", b""), (10, 11))),
        ("the most messages", (packet(12, *[b""] * 32743), (10, 11)), (heartbeat(32760), (10, 11), (32755, 32759))),
    ):
        r.v.heading(name)
        r.hand(*begun)
        r.takes(*datagrams)
        r.look()
    r.v.section("several ranges at once")
    three = (ROOM, 30, 2, False), [10, 13, 16, 19, 25]
    for name, datagram, *ranges in (
        ("the second is covered", data_of(15, 5), (10, 12), (25, 29)),
        ("the second and the ends of the others", data_of(12, 15), (10, 11), (27, 29)),
        ("the first two", data_of(1, 20), (25, 29)),
        ("the last two", data_of(16, 14), (10, 12)),
        ("all", data_of(10, 20)),
        ("all, and numbers on both sides", data_of(5, 40)),
        ("the second's midst", data_of(17, 1), (10, 12), (16, 16), (18, 18), (25, 29)),
        ("from a range's edge to the next one's", data_of(13, 3), (10, 12), (16, 18), (25, 29)),
        ("from a range's last to the next one's first", data_of(12, 5), (10, 11), (17, 18), (25, 29)),
        ("a heartbeat far ahead", heartbeat(40), (10, 12), (16, 18), (25, 39)),
        ("data far ahead", data_of(40, 2), (10, 12), (16, 18), (25, 39)),
    ):
        r.v.heading(name)
        r.hand(*three)
        r.takes((datagram, *ranges))
        r.finish()
        r.look()
        r.write(listed(*ranges))


def accepted(r):
    r.v.section("what isn't accepted says nothing: refused by the reader, or of another name")
    drawn = set()
    for name, data in REFUSED:
        if name[:2] not in drawn and len(data) <= 65535:
            drawn.add(name[:2])
            whole(r, name, capture(data_of(3, 1), data, heartbeat(5)), text=listed((1, 2), (4, 4)))
    for session in (OTHER, BLANK, bytes(10), b"READROOM0 "):
        others = (data_of(1, 9, session=session), heartbeat(99, session=session), end(9, session=session))
        whole(r, f"{session}", capture(data_of(2, 1), *others), text=listed((1, 1)))
    r.v.section("18 and 20 don't count: what follows an end of session, and an end below")
    ended = (data_of(1, 2), end(3), data_of(5, 1), end(2), heartbeat(8))
    whole(r, "after an end", capture(*ended), 64, text=listed((3, 4), (6, 7)))
    whole(r, "an end ahead, and what it waits for", capture(end(4), data_of(1, 2)), text=listed((3, 3)))
    r.v.section("long records")
    long = capture(b"x" * 65535, FULLEST, heartbeat(32750))
    whole(r, "65,535 bytes, and 32,743 messages", long, 60000, ALL, text=listed((32744, 32749)))


def largest(r):
    r.v.section("numbers near 2^64")
    whole(r, "everything", capture(heartbeat(TOP)), text=listed((1, TOP - 1)))
    whole(r, "one present", capture(data_of(TOP - 1, 1)), text=listed((1, TOP - 2)))
    whole(r, "14", capture(data_of(TOP, 1), data_of(TOP - 1, 2)), text=listed())
    top = lines(next=TOP)
    whole(r, "from the top", capture(heartbeat(TOP), end(TOP), data_of(TOP - 1, 1), start=top), text=listed())
    below = lines(next=TOP - 3)
    whole(r, "the last three", capture(end(TOP), start=below), text=listed((TOP - 3, TOP - 1)))
    whole(r, "the last one present", capture(data_of(TOP - 1, 1), start=below), text=listed((TOP - 3, TOP - 2)))
    whole(r, "all present", capture(data_of(TOP - 3, 3), start=below), text=listed())
    most = capture(packet(TOP - 32743, *[b""] * 32743))
    whole(r, "the most messages", most, text=listed((1, TOP - 32744)))


# ---- states made by hand


def many(r):
    """Edges that don't rise, since a line has room for these alone: each range of them has no number."""
    r.v.section("4,096 ranges, and one more")
    same = 0x0101010101010101
    full = (ROOM, same, MOST_RANGES, False), [same] * WORDS
    nearly = (ROOM, same, MOST_RANGES - 1, False), [same] * (WORDS - 2)
    for name, state, datagram, refused in (
        ("4,095 and one more with both edges", nearly, data_of(same + 2, 1), False),
        ("4,095 and an open one", nearly, heartbeat(same + 1), False),
        ("4,096 and an open one", full, heartbeat(same + 1), True),
        ("4,096, and numbers that touch the last edge", full, data_of(same, 1), False),
        ("4,096 and one more with both edges", full, data_of(same + 2, 1), True),
        ("4,096, and the highest number stays", full, heartbeat(same), False),
        ("4,096, and all are covered", full, data_of(same - 1, 2), False),
    ):
        r.v.heading(name)
        r.hand(*state)
        r.feed(record(datagram))
        assert r.now().notes.refused == refused, name
    r.v.section("it stays refused, at once, whatever follows")
    r.hand(*full)
    r.feed(record(heartbeat(same + 1)) + record(data_of(same, 2)), stage="records")
    r.look()
    r.write(TOO_MANY_TEXT)
    for data in (record(data_of(same - 1, 9)), b"\x00"):
        r.feed(data)
    r.finish(b"\x00")
    r.look()
    r.write(TOO_MANY_TEXT)


def forged(r):
    r.v.section("made by hand: refused by any byte but 0, and more ranges than are kept")
    noted = (ROOM, 12, 1, False), [3, 5, 9]
    for byte in (1, 2, 255):
        r.hand(*noted)
        r.state = r.state[:-1] + bytes([byte])
        r.look()
        r.write(TOO_MANY_TEXT)
        r.feed(record(heartbeat(20)))
        r.feed(record(b""))
        r.finish()
    for closed in (MOST_RANGES + 1, 2**63, TOP):
        r.hand((ROOM, 12, closed, False), [3, 5, 9])
        r.look()
        r.write(TOO_MANY_TEXT)
        r.feed(record(b""))
        r.feed(record(data_of(4, 1)))
    r.v.section("made by hand: edges that don't rise, and numbers that no settings give")
    for name, notes, words, *datagrams in (
        ("they fall", (ROOM, 12, 1, False), [9, 5, 3], data_of(4, 1), data_of(8, 2), heartbeat(20)),
        ("they fall, five", (ROOM, 7, 2, False), [9, 7, 5, 3, 1], data_of(6, 1), data_of(2, 1), heartbeat(9)),
        ("equal", (ROOM, 12, 2, False), [5, 5, 5, 5, 5], data_of(5, 1), data_of(4, 1), data_of(5, 2)),
        ("all 0", (ROOM, 0, 2, False), [0, 0, 0, 0, 0], data_of(1, 1), heartbeat(1), data_of(3, 2)),
        ("from 0 on", (ROOM, 0, 0, False), [0], heartbeat(2), data_of(1, 1), data_of(4, 1)),
        ("the largest", (ROOM, TOP, 1, False), [TOP, TOP, TOP], heartbeat(TOP), data_of(TOP - 1, 1)),
        ("two ranges of all numbers", (ROOM, TOP, 1, False), [0, TOP, 1], heartbeat(3), data_of(7, 2)),
        ("the highest below the start", (ROOM, 3, 0, False), [9], data_of(4, 2), data_of(11, 1)),
        ("rising and falling", (ROOM, 40, 3, False), [10, 30, 20, 25, 22, 50, 35], data_of(21, 3), data_of(31, 9)),
    ):
        r.v.heading(name)
        r.hand(notes, words)
        r.look()
        r.write()
        for datagram in datagrams:
            r.feed(record(datagram))
            r.look()
        r.write()
    r.v.section("another first byte, and bytes past the state")
    r.hand(*noted)
    r.state = by_hand(r.state + b"\x07", 2)
    r.feed(record(heartbeat(20)))
    r.look()
    r.hand(*noted)
    r.state += b"\x07"
    r.takes((heartbeat(20), (3, 4), (9, 19)))
    assert r.state[MISSING_SIZE:] == b"\x07"


def counted(r):
    r.v.section("2^32-1 records are the most: the bytes after them are ignored")
    one = record(data_of(4, 1))
    noted = (ROOM, 12, 1, False), [3, 5, 9]
    for left in (0, 1, 2):
        r.v.heading(f"{left} left: two are fed, then a part of one")
        r.hand(*noted, left=left)
        r.feed(one + record(data_of(9, 1)) + b"\x00", stage="done")
        r.feed(one, len(one), "done")
        r.look()
        r.hand(*noted, left=left)
        r.feed(b"", 0, "records" if left else "done")
        r.finish(one)
        r.write()
    r.v.heading("more than that count as that")
    for left in (MOST_RECORDS, MOST_RECORDS + 1, TOP):
        r.hand(*noted, left=left)
        r.feed(one, len(one), "records")
        assert r.now().left == MOST_RECORDS - 1


def settings(r):
    r.v.section("a reading: its settings")
    shortest, longest = lines(limit=1), lines(next=TOP, limit=65534)
    behind = shortest + record(data_of(3, 1)) + record(heartbeat(9))
    r.v.heading("nothing is used before 57 bytes are there, though the settings are")
    r.start()
    r.look()
    r.write(REFUSED_TEXT)
    for size in (0, 1, len(shortest), 56):
        r.feed(behind[:size], 0, "settings")
    r.feed(behind[:57], len(shortest), "records")
    r.v.heading("57 bytes of settings: all are used")
    r.start()
    r.feed(longest[:-1], 0, "settings")
    r.feed(longest, 57, "records")
    r.v.heading("they start it anew, whatever was noted, in words that had any edges")
    r.hand((OTHER, 99, 2, True), [1, 2, 3, 4, 5])
    r.state = by_hand(r.state, r.state[0], 1)
    r.feed(behind[:56], 0, "settings")
    r.feed(behind, len(behind), "records")
    assert (r.now().left, r.ranges()) == (MOST_RECORDS - 2, [(1, 2), (4, 8)])
    r.v.heading("bad ones wait for 57 bytes too; then all bytes are used, and nothing follows")
    r.start()
    bad = b"x" + lines() + bytes(40)
    r.feed(bad[:56], 0, "settings")
    r.feed(bad[:57], 57, "refused")
    r.feed(b"", 0, "refused")
    r.feed(behind, len(behind), "refused")
    r.finish(behind)
    r.look()
    r.write(REFUSED_TEXT)
    r.v.heading("bad ones leave what was noted as it was")
    r.hand((OTHER, 99, 2, False), [1, 2, 3, 4, 5], left=TOP)
    r.state = by_hand(r.state, r.state[0], 1)
    r.finish(bad)
    assert r.now() == Reading("refused", 0, Notes(OTHER, 99, 2, False))
    r.look()
    r.v.heading("after the end nothing changes: all bytes are used")
    r.start()
    r.finish(behind)
    for data in (behind, b"", b"\x00"):
        r.feed(data, len(data), "done")
        r.finish(data)
    r.look()
    r.write(listed((1, 2), (4, 8)))
    r.v.section("bytes past a fresh state are not touched")
    r.v.ask("missing_start", s=room(MISSING_SIZE + 2))


def missings(v):
    reader = Reader(v)
    for part in (samples, small, ends, rule, accepted, largest, many, forged, counted, settings):
        part(reader)


GROUPS = (missings,)
