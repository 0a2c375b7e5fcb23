"""Vectors of captures: whole, and read in pieces, each line given the state that the line before left."""
import itertools
import pathlib

from boundary import CAPTURE_SIZE, reading_bytes, reading_in
from capture_rules import (
    COUNTS,
    LONGEST,
    MOST_RECORDS,
    REFUSED_TEXT,
    Reading,
    Report,
    Tally,
    capture_text,
    reading_text,
)
from captures import BAD_SETTINGS, BLANK, GOOD_SETTINGS, capture, lines, record
from datagrams import FULLEST, LARGEST, REFUSED, ROOM, data_of, end, heartbeat, packet
from early_rules import SLOTS_SIZE, Early
from lines import room
from mold_rules import TOP

ROOT = pathlib.Path(__file__).resolve().parent.parent.parent
OTHER = b"READROOM02"
ALL = 200000  # a piece that holds a whole capture


# ---- whole captures


def whole(v, name, data, *pieces, more=4, **expected):
    """A capture with what some lines of its report have to say, written into so many bytes more than that has; and the
    same capture in pieces of some sizes."""
    text = capture_text(data)
    for key, value in expected.items():
        assert f"{key}={value}\n" in text.decode(), (name, text)
    v.heading(name)
    answer = v.ask("capture_report", (len(text),) if more >= 0 else (41,), a=data, s=room(len(text) + more))
    assert answer.code or answer.lent[: len(text)] == text
    for size in pieces:
        in_pieces(v, data, size, text)


def in_pieces(v, data, size, text):
    """However a capture is cut, its report is the whole's. What isn't used is fed again in front of the next piece."""
    v.heading(f"in pieces of {size}")
    reader = Reader(v)
    reader.start()
    left = b""
    for at in range(0, len(data), size):
        left += data[at : at + size]
        left = left[reader.feed(left) :]
    reader.finish(left)
    assert reader.write(len(text)).lent == text


def document(v):
    v.section("document 01's example")
    example = (ROOT / "captures" / "readroom.capture").read_bytes()
    first = (packet(1, b"a", b"b"), packet(5, b"e"), heartbeat(6), packet(2, b"b", b"c", b"d"), packet(1, b"a", b"b"))
    assert example == capture(*first, packet(5, b"e"), heartbeat(6), b"x" * 19, end(6))
    assert example == (ROOT / "crates" / "capture_report" / "stdin").read_bytes()
    text = (ROOT / "crates" / "capture_report" / "stdout").read_bytes()
    assert text == capture_text(example) == DOCUMENT_TEXT
    counts = dict(next=6, ended="yes", delivered=5, old=2, quiet=1, asked=2, refused=1)
    whole(v, "room to spare", example, 1, 7, 64, ALL, **counts)
    whole(v, "exactly enough", example, more=0)
    whole(v, "41: one byte short", example, more=-1)
    whole(v, "41: no room", example, more=-len(text))
    whole(v, "much room", example, 2, 11, 22, 260, 261, more=500 - len(text))


DOCUMENT_TEXT = b"""\
session=READROOM01
next=6
ended=yes
delivered=5
old=2
quiet=1
asked=2
refused=1
"""


def samples(v):
    v.section("the samples")
    readme = (ROOT / "captures" / "README.md").read_text()
    for path in sorted((ROOT / "captures").glob("*.capture")):
        data = path.read_bytes()
        shown = "".join(f"    {line}\n" for line in capture_text(data).decode().splitlines())
        assert shown in readme, f"captures/README.md does not show the report of {path.name}"
        whole(v, path.name, data, 64)


def answers(v):
    v.section("each answer, alone and after another")
    first = data_of(1, 2)
    nothing = dict(delivered=0, old=0, quiet=0, asked=0, refused=0)
    whole(v, "no records at all", capture(), 7, ALL, next=1, ended="no", **nothing)
    whole(v, "no records at all, 41", capture(), more=-1)
    whole(v, "deliver", capture(first), 7, next=3, delivered=2, refused=0)
    whole(v, "deliver, some skipped", capture(first, data_of(2, 3)), 64, next=5, delivered=4, old=0)
    whole(v, "old data", capture(first, first), 64, next=3, delivered=2, old=1)
    whole(v, "an old heartbeat", capture(first, heartbeat(2)), 64, delivered=2, old=1, quiet=0)
    whole(v, "quiet", capture(heartbeat(1)), 64, next=1, old=0, quiet=1)
    whole(v, "ask at data ahead", capture(data_of(3, 1)), 64, next=1, delivered=0, asked=1)
    whole(v, "ask at a heartbeat ahead", capture(heartbeat(2)), 64, asked=1, quiet=0)
    whole(v, "ask at an end of session ahead", capture(end(2)), 64, ended="no", asked=1)
    whole(v, "ended", capture(end(1)), 64, next=1, ended="yes", **nothing)
    several = capture(*[data_of(9, 2)] * 3, *[heartbeat(1)] * 2)
    whole(v, "a count counts answers, but for delivered", several, 64, asked=5, quiet=2)
    whole(v, "a zero-length message", capture(packet(1, b"")), 64, next=2, delivered=1)
    whole(v, "zero-length messages alone", capture(packet(1, b"", b"", b"")), 64, next=4, delivered=3)
    whole(v, "a zero-length message skipped", capture(packet(1, b""), packet(1, b"", b"a")), 64, next=3, delivered=2)
    v.section("every order of four records")
    four = {"1": data_of(1, 2), "3": data_of(3, 1), "h": heartbeat(4), "e": end(4)}
    for order in itertools.permutations(four):
        whole(v, "".join(order), capture(*(four[key] for key in order)))
    early(v)
    v.section("the asking limit is no part of the report")
    for limit in (1, 65534):
        whole(v, f"limit {limit}", capture(data_of(70000, 1), start=lines(limit=limit)), asked=1, refused=0)


def early(v):
    """Order 6: early messages are kept, and a request counts beside any other answer."""
    v.section("early messages, kept and delivered later")
    two, three, four = data_of(2, 1), data_of(3, 1), data_of(4, 1)
    one, five = data_of(1, 1), data_of(5, 1)
    whole(v, "swapped", capture(two, one), 7, 64, next=3, delivered=2, asked=1)
    whole(v, "in reverse", capture(four, three, two, one), 64, next=5, delivered=4, asked=3)
    whole(v, "a gap behind what is delivered", capture(three, one), 64, next=2, delivered=1, asked=2)
    whole(v, "old, and asks", capture(one, three, one), 64, next=2, old=1, asked=2)
    whole(v, "an old heartbeat that asks", capture(one, three, heartbeat(1)), 64, old=1, asked=2)
    whole(v, "quiet, and asks", capture(three, heartbeat(1)), 64, next=1, quiet=1, asked=2)
    whole(v, "ahead counts in asked alone", capture(three, heartbeat(9), end(9)), 64, old=0, quiet=0, asked=3)
    whole(v, "two gaps", capture(five, three, one, two, four), 64, next=6, delivered=5, asked=4)
    whole(v, "too long to keep", capture(packet(2, b"a" * 1025), one), 64, next=2, delivered=1, asked=1)
    whole(v, "as long as is kept", capture(packet(2, b"a" * 1024), one), 500, next=3, delivered=2, asked=1)
    whole(v, "too far to keep", capture(data_of(66, 1), one), 64, next=2, delivered=1, asked=1)
    whole(v, "as far as is kept", capture(data_of(65, 1), data_of(1, 64)), 64, next=66, delivered=65, asked=1)
    whole(v, "the end forgets them", capture(three, end(1)), 64, next=1, ended="yes", delivered=0, asked=1)
    last = capture(data_of(TOP - 1, 1), data_of(TOP - 2, 1), start=lines(next=TOP - 2))
    whole(v, "kept up to the largest number", last, next=TOP, delivered=2, asked=1)
    v.section("early messages over the feeds of one reading, and slots that are used again")
    reader = Reader(v)
    reader.forge((ROOM, 1, 100, False))
    for datagrams in ((data_of(2, 2), data_of(6, 1)), (one,), (data_of(66, 2),), (data_of(4, 2),), (data_of(7, 59),)):
        reader.feed(b"".join(map(record, datagrams)))
    assert reader.finish(b"").report.tally == (67, 0, 0, 5, 0), reader.now().report


def names(v):
    v.section("names")
    for name, session in (
        ("spaces and =", b" a = b==  "),
        ("nine spaces and a letter", b"         a"),
        ("ten =", b"=" * 10),
        ("a key", b"session=se"),
        ("a mark of vectors", b"a|b |c||| "),
        ("0x20 and 0x7E", b" ~ ~ ~ ~ ~"),
        ("digits", b"0123456789"),
    ):
        datagrams = (data_of(1, 1, session=session), data_of(2, 1), heartbeat(2, session=session))
        data = capture(*datagrams, start=lines(session))
        whole(v, name, data, session=session.decode(), next=2, delivered=1, quiet=1, refused=1)


def refusals(v):
    v.section("each refusal: it is counted, and the records after it are read")
    drawn = set()
    for name, datagram in REFUSED:
        number = int(name[:2])
        if len(datagram) > 65507 or (number in drawn and "before" not in name):
            continue
        drawn.add(number)
        whole(v, name, capture(data_of(1, 2), datagram, data_of(3, 1)), next=4, delivered=3, refused=1)
    assert drawn == {11, 13, 14, 15, 16}
    for name, datagrams, ended in (
        ("17: another name", (data_of(1, 2), data_of(3, 1, session=OTHER), data_of(3, 1)), "no"),
        ("17: another name, a heartbeat", (data_of(1, 2), heartbeat(3, session=OTHER), data_of(3, 1)), "no"),
        ("17: another name, an end of session", (data_of(1, 2), end(3, session=OTHER), data_of(3, 1)), "no"),
        ("18: after the end of session", (data_of(1, 3), end(4), data_of(4, 1)), "yes"),
        ("20: an end of session below n", (data_of(1, 2), end(2), data_of(3, 1)), "no"),
    ):
        whole(v, name, capture(*datagrams), 64, next=4, ended=ended, delivered=3, refused=1)
    v.section("records after the end of session are counted, as refusals")
    after = (data_of(3, 1), heartbeat(3), end(3), data_of(1, 2), data_of(9, 1), data_of(3, 1, session=OTHER), b"", b"x")
    ended = capture(data_of(1, 2), end(3), *after)
    whole(v, "one of each", ended, 64, next=3, ended="yes", delivered=2, refused=len(after))
    cut = capture(end(1), heartbeat(1), after=b"\x00")
    whole(v, "the last is cut short", cut, 64, ended="yes", quiet=0, refused=2)


def cuts(v):
    v.section("records cut short: one refusal, and the end of the run")
    first, second = data_of(1, 2), data_of(3, 1)
    for name, data, counts in (
        ("one byte of a length", capture(first, after=b"\x00"), dict(next=3, delivered=2)),
        ("one byte of a length, 0xFF", capture(first, after=b"\xff"), {}),
        ("one byte alone", capture(after=b"\x00"), dict(delivered=0)),
        ("a length alone", capture(first, after=b"\x00\x17"), {}),
        ("one byte of a datagram", capture(first, after=record(second)[:3]), {}),
        ("all but one byte of a datagram", capture(first, after=record(second)[:-1]), dict(next=3)),
        ("a datagram whose front is whole by itself", capture(after=b"\x00\x15" + heartbeat(1)), dict(quiet=0)),
        ("records inside what is cut off", capture(first, after=b"\xff\xff" + record(second) * 3), dict(next=3)),
        ("an end of session cut short", capture(first, after=record(end(3))[:-1]), dict(ended="no")),
        ("a record of length 0 is whole", capture(first, after=b"\x00\x00"), {}),
    ):
        whole(v, name, data, 64, refused=1, **counts)
    several = capture(b"", first, b"", b"", second)
    whole(v, "a length of 0 doesn't end the run", several, 64, next=4, delivered=3, refused=3)
    whole(v, "then one byte", capture(first, b"", after=b"\x00"), 64, next=3, refused=2)
    v.section("a capture cut at every place")
    data = capture(packet(1, b"a"), heartbeat(2), start=lines(next=1, limit=7))
    for size in range(len(data) + 1):
        whole(v, f"{size} bytes", data[:size])


def settings(v):
    v.section("good settings")
    assert max(len(start) for _, start in GOOD_SETTINGS) == LONGEST == 57
    for name, start in GOOD_SETTINGS:
        whole(v, name, start + record(b""), session=start[8:18].decode(), refused=1)
    v.section("what stands after them is a record: a digit, a fourth line and a line feed are cut short")
    for after in (b"0", b"next=2\n", b"\n"):
        whole(v, f"{after}", lines() + after, refused=1)

    v.section("bad settings")
    for name, start in BAD_SETTINGS:
        data = start + record(heartbeat(1))
        assert capture_text(data) == REFUSED_TEXT, name
        whole(v, name, data, more=3)
    whole(v, "alone: no bytes", b"", 64)
    whole(v, "alone: the third line feed missing", lines()[:-1], 64)
    whole(v, "exactly enough", b"", more=0)
    whole(v, "41: one byte short", b"", more=-1)
    whole(v, "41: no room", b"", more=-len(REFUSED_TEXT))
    whole(v, "many bytes after bad settings", b"session=" + b"x" * 3000, 64)


def largest(v):
    v.section("n at 2^64-1")
    top = lines(next=TOP)
    whole(v, "a heartbeat at it is quiet", capture(heartbeat(TOP), start=top), next=TOP, quiet=1)
    whole(v, "data at it is 14", capture(data_of(TOP, 1), start=top), next=TOP, delivered=0, refused=1)
    whole(v, "data below it is old", capture(data_of(TOP - 1, 1), start=top), old=1)
    whole(v, "a heartbeat below it is old", capture(heartbeat(TOP - 1), start=top), old=1)
    whole(v, "an end of session at it", capture(end(TOP), start=top), next=TOP, ended="yes")
    whole(v, "an end of session below it is 20", capture(end(TOP - 1), start=top), ended="no", refused=1)
    three = (data_of(TOP - 1, 1), heartbeat(TOP), end(TOP))
    whole(v, "up to it", capture(*three, start=lines(next=TOP - 1)), 64, next=TOP, ended="yes", delivered=1, quiet=1)
    whole(v, "far ahead", capture(*three, start=lines(limit=65534)), 64, next=1, asked=3)


def long_captures(v):
    v.section("long captures")
    whole(v, "a datagram of 65,507 bytes", capture(LARGEST, data_of(2, 1)), 5000, 65537, next=3, delivered=2)
    fullest = capture(FULLEST, heartbeat(32744))
    whole(v, "a datagram of 65,507 bytes, 32,743 messages", fullest, 60000, delivered=32743, quiet=1)
    short = capture(after=record(LARGEST)[:-1])
    whole(v, "a datagram of 65,507 bytes, one byte short", short, 60000, ALL, delivered=0, refused=1)
    for name, datagram in REFUSED:
        if 65507 < len(datagram) <= 65535:
            whole(v, name, capture(data_of(1, 2), datagram, data_of(3, 1)), 60000, next=4, delivered=3, refused=1)
    data = capture(b"x" * 65535, data_of(1, 1))
    whole(v, "12: a length of 65,535", data, 5000, 65537, next=2, delivered=1, refused=1)
    two = capture(b"x" * 65535, packet(1, b"a" * 65513), data_of(1, 1), b"\x00" * 65535)
    whole(v, "12: a length of 65,535, in front and at the end", two, 65537, next=2, delivered=1, refused=3)
    whole(v, "a length of 65,535, one byte short", capture(after=b"\xff\xff" + b"x" * 65534), 60000, refused=1)
    whole(v, "a length of 65,535, one byte there", capture(after=b"\xff\xffx"), refused=1)
    whole(v, "a length of 65,535, then one byte", capture(b"x" * 65535, after=b"\x00"), 60000, refused=2)
    many = capture(*(packet(number, b"") for number in range(1, 201)), heartbeat(201), end(201))
    whole(v, "200 records", many, 1000, ALL, next=201, ended="yes", delivered=200, quiet=1)


# ---- a capture in pieces


class Reader:
    """A reading whose state and slots go from line to line."""

    def __init__(self, v):
        self.v = v
        self.state, self.slots = b"", room(SLOTS_SIZE)

    def start(self):
        self.state = self.v.ask("capture_start", s=room(CAPTURE_SIZE)).lent

    def forge(self, receiver, records=0, counts=(0,) * 5):
        """A state made by hand, with records to follow."""
        self.state = reading_bytes(Reading("records", Report(Early(*receiver), records, Tally(*counts))))

    def feed(self, data, used=None, stage=None):
        """Some bytes, how many of them have to be used, and the stage after them."""
        answer = self.v.ask("capture_feed", () if used is None else (used,), s=self.state, a=data, c=self.slots)
        self.state, self.slots = answer.lent, answer.slots
        assert stage in (None, self.now().stage), (data, self.now())
        return answer.said[0]

    def finish(self, data):
        answer = self.v.ask("capture_finish", s=self.state, a=data, c=self.slots)
        self.state, self.slots = answer.lent, answer.slots
        return self.now()

    def write(self, size):
        return self.v.ask("capture_write", a=self.state, s=room(size))

    def now(self):
        return reading_in(self.state, self.slots)


def reading(v):
    reader = Reader(v)
    shortest = lines(limit=1)
    behind = shortest + record(data_of(1, 3)) + record(heartbeat(4))
    v.section("a reading: its settings")
    v.heading("nothing is used before 57 bytes are there, though the settings are")
    reader.start()
    for size in (0, 1, len(shortest), 56):
        reader.feed(behind[:size], 0, "settings")
    reader.feed(behind[:57], len(shortest), "records")
    v.heading("57 bytes of settings: all are used")
    reader.start()
    longest = lines(next=TOP, limit=65534)
    reader.feed(longest[:-1], 0, "settings")
    reader.feed(longest, 57, "records")
    v.heading("settings and records at once")
    reader.start()
    reader.feed(behind, len(behind), "records")
    v.heading("bad settings wait for 57 bytes too; then all bytes are used, and nothing follows")
    reader.start()
    bad = b"x" + lines() + bytes(40)
    reader.feed(bad[:56], 0, "settings")
    reader.feed(bad[:57], 57, "refused")
    reader.feed(b"", 0, "refused")
    reader.feed(lines() + record(heartbeat(1)) + bytes(20))
    reader.finish(b"")
    reader.finish(lines())
    v.heading("a blank session is bad: at a feed, whatever records follow, and at the end of the input")
    blank = lines(BLANK)
    for data in (blank + record(heartbeat(1, session=BLANK)), blank + record(data_of(1, 1)), lines(BLANK, TOP, 65534)):
        reader.start()
        reader.feed(data[:56], 0, "settings")
        reader.feed(data, len(data), "refused")
        reader.start()
        assert reader.finish(data).stage == "refused"
    for data in (blank, lines(BLANK, 0), lines(BLANK, limit=0), blank[:19]):
        reader.start()
        assert reader.finish(data).stage == "refused"
    v.heading("nine spaces and a letter are a session")
    reader.start()
    nearly = lines(b"         R") + record(heartbeat(1, session=b"         R"))
    reader.feed(nearly, len(nearly), "records")
    assert reader.finish(b"").report.tally.quiet == 1
    v.heading("the end of the input tells settings of any length")
    for data in (b"", b"x", lines(), lines()[:-1], shortest + b"\x00", behind, behind[:-1], bad):
        reader.start()
        reader.finish(data)

    v.section("a reading: its records")
    reader.start()
    reader.feed(behind[:57])
    first = record(data_of(1, 3))
    v.heading("no byte, a part of a length, a length, a part of a datagram")
    for size in (0, 1, 2, 3, len(first) - 1):
        reader.feed(first[:size], 0, "records")
    v.heading("a whole record, and one with a part of the next")
    for after in (b"", b"\x00", record(heartbeat(4))[:-1]):
        reader.feed(first + after, len(first), "records")
    v.heading("many records, among them refused ones")
    reader.feed(b"".join(map(record, (heartbeat(4), b"", data_of(9, 1), b"x", data_of(4, 2)))) + b"\x00\x01")
    v.heading("the end, with nothing left")
    done = reader.finish(b"")
    assert (done.stage, done.report.records) == ("done", 8)
    v.heading("after the end nothing changes: all bytes are used")
    for data in (first, b"", b"\x00"):
        reader.feed(data, len(data), "done")
    for data in (first, b"\x00", b""):
        assert reader.finish(data) == done
    for name, left in (
        ("one byte left", b"\x00"),
        ("a record and a part of the next", first + b"\x00\x01"),
        ("whole records alone", first + record(end(4))),
    ):
        v.heading(f"the end: {name}")
        reader.start()
        reader.feed(behind[:57])
        assert reader.finish(left) == reader.finish(left)

    v.section("what a reading writes, in each of its stages")
    for stage, go in (
        ("settings", lambda: None),
        ("records", lambda: reader.feed(behind)),
        ("done", lambda: reader.finish(behind)),
        ("refused", lambda: reader.finish(b"")),
    ):
        v.heading(stage)
        reader.start()
        go()
        assert reader.now().stage == stage
        size = len(reading_text(reader.now()))
        for out in (size + 3, size, size - 1, 0):
            reader.write(out)


def reports(v):
    reader = Reader(v)
    fresh = (ROOM, 3, 100, False)
    counts = (2, 3, 4, 5, 6)
    v.section("a report, from record to record")
    reader.forge((ROOM, 1, 100, False))
    for datagram in (data_of(1, 2), data_of(1, 2), heartbeat(3), data_of(5, 1), b"", end(2), end(3), heartbeat(3)):
        reader.feed(record(datagram))
    reader.finish(b"\x00")
    v.section("a report of any receiver: ended, and with numbers that no start gives")
    for receiver, session in (((b" " * 10, 1, 1, True), b" " * 10), ((ROOM, 0, 0, False), ROOM)):
        reader.forge(receiver)
        reader.feed(record(heartbeat(1, session=session)))
        reader.finish(b"\x00")

    v.section("2^32-1 records are the most: what is counted stops with them, and the bytes after them are ignored")
    one, two = record(data_of(3, 1)), record(data_of(4, 1))
    for records in (MOST_RECORDS - 2, MOST_RECORDS - 1, MOST_RECORDS):
        taken = min(2, MOST_RECORDS - records)
        v.heading(f"{records} records: two are fed, then the end")
        reader.forge(fresh, records, counts)
        reader.feed(one + two, len(one + two), "done")
        reader.feed(one, len(one), "done")
        assert reader.finish(one).report.tally == (2 + taken, *counts[1:])
        v.heading(f"{records} records: one more, then a part of a record, and the end")
        reader.forge(fresh, records, counts)
        assert reader.finish(one + two[:-1]).report.tally.refused == (7 if taken == 2 else 6)
        v.heading(f"{records} records: a refused one, then another")
        reader.forge(fresh, records, counts)
        reader.feed(record(b""))
        reader.feed(one)
    v.heading("one record more fits, and it is cut short")
    reader.forge(fresh, MOST_RECORDS - 1, counts)
    assert reader.finish(one[:-1]).report.tally.refused == 7
    v.heading("more records than that count as that")
    reader.forge(fresh, MOST_RECORDS + 1, counts)
    reader.feed(one, len(one), "done")
    reader.forge(fresh, TOP, counts)
    reader.finish(one)

    v.section("counts near 2^64-1 are capped, each by itself")
    for before in (TOP - 3, TOP - 2, TOP - 1, TOP):
        v.heading(f"three messages delivered, {before} before")
        reader.forge(fresh, 0, (before, 1, 2, 3, 4))
        reader.feed(record(data_of(3, 3)))
        assert reader.now().report.tally == (TOP, 1, 2, 3, 4)
    for name, datagram in (("old", heartbeat(2)), ("quiet", heartbeat(3)), ("asked", heartbeat(4)), ("refused", b"")):
        for before in (TOP - 1, TOP):
            v.heading(f"{name} {before}")
            start = [before if key == name else 5 for key in COUNTS]
            reader.forge(fresh, 7, start)
            reader.feed(record(datagram))
            assert reader.now().report.tally == tuple(TOP if key == name else 5 for key in COUNTS)
            if name == "refused":
                reader.forge(fresh, 7, start)
                assert reader.finish(b"\x00").report.tally.refused == TOP


def texts(v):
    reader = Reader(v)
    v.section("reports written")
    for name, receiver, counts in (
        ("the smallest numbers", (ROOM, 1, 1, False), (0, 0, 0, 0, 0)),
        ("a count each, so that no line has another's", (ROOM, 60, 100, True), (1, 2, 3, 4, 5)),
        ("numbers of many lengths", (b" a = b==  ", 1234567890, 7, False), (9, 10, 99, 100, 12345678901234567890)),
        ("the largest numbers", (b"~" * 10, TOP, 65534, False), (TOP,) * 5),
        ("a receiver that no start gives", (b" " * 10, 0, 0, True), (0, 0, 0, 0, 0)),
    ):
        v.heading(name)
        reader.forge(receiver, 4, counts)
        size = len(reading_text(reader.now()))
        for out in (256, size, size - 1, 0):
            reader.write(out)


GROUPS = (
    document,
    samples,
    answers,
    names,
    refusals,
    cuts,
    settings,
    largest,
    long_captures,
    reading,
    reports,
    texts,
)
