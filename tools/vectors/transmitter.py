"""Vectors of our own transmitter."""
from boundary import NOT_OPEN, NOT_OPEN_TOO, TRANSMITTER_SIZE, by_hand, lengths_bytes, transmitter_bytes
from datagrams import ROOM, packet
from lines import room
from mold_rules import TOP, packet_of

MESSAGES = [b"one", b"", b"go", b"four", b"x"]
# how sizes cut them, and the place of each packet's first
CUTS = (
    (26, [MESSAGES[:1], MESSAGES[1:3], MESSAGES[3:4], MESSAGES[4:]]),
    (27, [MESSAGES[:2], MESSAGES[2:3], MESSAGES[3:4], MESSAGES[4:]]),
    (29, [MESSAGES[:2], MESSAGES[2:3], MESSAGES[3:]]),
    (31, [MESSAGES[:3], MESSAGES[3:]]),
    (39, [MESSAGES[:4], MESSAGES[4:]]),
    (40, [MESSAGES]),
    (65507, [MESSAGES]),
)


def run(messages=MESSAGES, first=6, size=29, joined=None):
    """The fields of a run: its lengths, its joined data, its first number and its size."""
    lengths = lengths_bytes([len(message) for message in messages])
    return lengths, b"".join(messages) if joined is None else joined, first, size


def by_place(v, heading, place, *expected, session=ROOM, out=100, **fields):
    lengths, joined, first, size = run(**fields)
    given = dict(a=session, b=lengths, c=joined, n=first, m=size, p=place, s=room(out))
    return v.case(heading, "transmitter_packet", *expected, **given)


def start(v, heading, *expected, out=TRANSMITTER_SIZE, **fields):
    lengths, joined, first, size = run(**fields)
    return v.case(heading, "transmitter_start", *expected, a=lengths, b=joined, n=first, m=size, s=room(out))


def turn(v, heading, state, *expected, session=ROOM, out=100, **fields):
    lengths, joined, first, size = run(**fields)
    given = dict(a=session, b=lengths, c=joined, d=room(out), n=first, m=size, s=state)
    return v.case(heading, "transmitter_next", *expected, **given)


def runs(v):
    for size, cut in CUTS:
        v.section(f"a run of five messages in packets of at most {size} bytes: by turns, and by place")
        state = start(v, "the start", size=size).lent
        number, read = 6, []
        for place, messages in enumerate(cut):
            written = packet(number, *messages)
            answer = turn(v, f"packet {place}", state, len(written), size=size)
            same = by_place(v, "the same by place", place, len(written), size=size)
            assert answer.also[: len(written)] == same.lent[: len(written)] == written
            read += [written[at : at + length] for at, length in packet_of(written)[2]]
            number, state = number + len(messages), answer.lent
        assert read == MESSAGES
        assert turn(v, "54: no packet is left", state, size=size).lent == state
        by_place(v, "54: one past the last", len(cut), size=size)
        by_place(v, "54: the largest place", TOP, size=size)


def bounds(v):
    v.section("what a whole run is refused for: at a start, and whichever packet is asked for")
    for heading, fields in (
        ("19: size 21", dict(size=21)),
        ("19: size 0", dict(size=0)),
        ("19: size 65,508", dict(size=65508)),
        ("19: size 2^32 + 29, which isn't cut to 32 bits", dict(size=2**32 + 29)),
        ("44: the lengths add up to one less", dict(joined=b"onegofourxy")),
        ("44: the lengths add up to one more", dict(joined=b"onegofour")),
        ("13: first number 0", dict(first=0)),
        ("14: the last message has number 2^64-1", dict(first=TOP - 4)),
        ("52: the fourth message just doesn't fit", dict(size=25)),
    ):
        start(v, heading, **fields)
        for place in (0, 9):
            by_place(v, heading, place, **fields)
    start(v, "the last message has number 2^64-2", first=TOP - 5)
    by_place(v, "its packet", 2, 29, first=TOP - 5)
    v.section("a run of no messages has no packet, and 14 isn't applied to it")
    for first in (1, TOP):
        state = start(v, "the start", messages=[], first=first, size=22).lent
        turn(v, "54: by turns", state, messages=[], first=first, size=22)
        by_place(v, "54: by place", 0, messages=[], first=first, size=22)
    start(v, "13: first number 0, of no messages too", messages=[], first=0)
    start(v, "44: data without messages", messages=[], joined=b"a")
    v.section("messages of no bytes, and the largest")
    by_place(v, "each in a packet of its own", 2, 22, messages=[b""] * 3, size=22)
    by_place(v, "54: three messages, three packets", 3, messages=[b""] * 3, size=22)
    by_place(v, "65,485 bytes in the largest packet", 1, 65507, messages=[b"a", b"b" * 65485], size=65507, out=65507)
    start(v, "52: 65,486 bytes fit none", messages=[b"b" * 65486], size=65507)
    many = dict(messages=[b""] * 65536, first=1)
    by_place(v, "65,536 messages: 32,743 in each packet but the last", 2, 120, **many, size=65507, out=120)
    by_place(v, "one in each packet: the last place passes 65,534", 65535, 22, **many, size=22)
    by_place(v, "54: the place behind it", 65536, **many, size=22)


def outputs(v):
    v.section("a session of another size, and an output that is too short, leave the transmitter where it was")
    state = start(v, "the start").lent
    for heading, fields in (
        ("41: nine bytes", dict(session=ROOM[:9])),
        ("41: eleven bytes", dict(session=ROOM + b"x")),
        ("41: a byte less than the packet", dict(out=26)),
        ("41: no output", dict(out=0)),
    ):
        assert turn(v, heading, state, **fields).lent == state
        by_place(v, heading, 0, **fields)
    turn(v, "room for the packet alone", state, 27, out=27)
    by_place(v, "room for the packet alone, by place", 0, 27, out=27)
    start(v, "41: a state of 16 bytes", out=TRANSMITTER_SIZE - 1)
    start(v, "a state of 18 bytes", out=TRANSMITTER_SIZE + 1)
    v.heading("41: a state of 16 bytes, but for the size, which needs none")
    v.ask("transmitter_next", (41,), **turn_fields(state[:-1]))
    v.ask("transmitter_next", (19,), **{**turn_fields(state[:-1]), "m": 21})


def turn_fields(state):
    lengths, joined, first, size = run()
    return dict(a=ROOM, b=lengths, c=joined, d=room(40), n=first, m=size, s=state)


def by_hand_or_of_another(v):
    v.section("transmitters made by hand, or of another run: the next packet of the lent run, or why there is none")
    state = transmitter_bytes((2, 3))
    turn(v, "as turns leave it", state, 24)
    turn(v, "54: past the last message", transmitter_bytes((5, 10)))
    turn(v, "54: far past it", transmitter_bytes((TOP, 0)))
    turn(v, "bytes of other messages", transmitter_bytes((2, 0)), 24)
    turn(v, "44: too few bytes are left", transmitter_bytes((2, 9)))
    turn(v, "44: none is left", transmitter_bytes((2, TOP)))
    turn(v, "messages of no bytes need none", transmitter_bytes((1, TOP)), 24, messages=[b"", b"", b""], size=24)
    turn(v, "13: number 0", transmitter_bytes((0, 0)), first=0)
    turn(v, "number 1, of a run that begins at 0", transmitter_bytes((1, 3)), 26, first=0)
    turn(v, "14: the packet's last number is 2^64-1", transmitter_bytes((3, 5)), first=TOP - 4)
    turn(v, "one that ends just below", transmitter_bytes((2, 3)), 24, first=TOP - 4)
    turn(v, "52: the next message doesn't fit", transmitter_bytes((3, 5)), size=25)
    turn(v, "a later one that doesn't fit is no refusal here", transmitter_bytes((0, 0)), 25, size=25)
    turn(v, "54 before 44", transmitter_bytes((5, 99)))
    for first in (NOT_OPEN, NOT_OPEN_TOO):
        turn(v, "54: another first byte", by_hand(state, first))
    v.section("a transmitter with bytes behind it: they stay")
    assert v.ask("transmitter_next", (24,), **turn_fields(state + b"\x07")).lent == transmitter_bytes((3, 5)) + b"\x07"


GROUPS = (runs, bounds, outputs, by_hand_or_of_another)
