"""Vectors of the receiver that keeps early messages. A datagram goes to the state and the slots that the line before
left."""
from boundary import (
    EARLY_SIZE,
    NOT_OPEN_TOO,
    WALK_SIZE,
    by_hand,
    early_bytes,
    early_in,
    early_places_bytes,
    places_room,
    walk_bytes,
)
from datagrams import FULLEST, HEARTBEAT, REFUSED, ROOM, TWO, data_of, end, heartbeat, packet
from early_rules import SLOT_SIZE, SLOTS_SIZE, Early, will_deliver
from lines import room
from mold_rules import TOP

OTHER = b"READROOM02"
SPACES = b" " * 10
NOTHING = (0, 0, 0)  # the words of no request


class Feed:
    """A receiver and its slots."""

    def __init__(self, v):
        self.v = v
        self.begin(1)

    def begin(self, number, limit=100, session=ROOM):
        self.slots = room(SLOTS_SIZE)
        self.state = self.v.ask("early_start", a=session, n=number, m=limit, s=room(EARLY_SIZE)).lent

    def hand(self, receiver):
        """A state made by hand, with messages in its slots."""
        self.state, self.slots = early_bytes(receiver), room(SLOTS_SIZE)
        for number, message in receiver.held.items():
            at = number % 64 * SLOT_SIZE
            self.slots = self.slots[:at] + message + self.slots[at + len(message) :]

    def now(self):
        return early_in(self.state, self.slots)

    def take(self, data, *expected):
        """A datagram, with how the answer begins."""
        answer = self.v.ask("early_take", expected, a=data, c=self.slots, s=self.state)
        self.state, self.slots = answer.lent, answer.slots

    def takes(self, *lines):
        for data, *expected in lines:
            self.take(data, *expected)

    def look(self, data):
        """What is said of a datagram beforehand: how many it will deliver, each by place and in a walk, and one more;
        and all of them in one call with room for a word more."""
        given = dict(a=data, b=self.state, c=self.slots)
        messages = will_deliver(self.now(), data)
        self.v.ask("early_count", (len(messages),), **given)
        walk = self.v.ask("early_walk", s=room(WALK_SIZE), **given).lent
        for place in range(len(messages) + 1):
            located = self.v.ask("early_locate", n=place, **given)
            walked = self.v.ask("early_next", s=walk, **given)
            assert located.words[:4] == walked.words[:4]
            assert located.words[0] == (place < len(messages))
            walk = walked.lent
        laid = early_places_bytes(messages)
        spare = places_room(3 * len(messages) + 1)
        answer = self.v.ask("early_deliver", a=data, c=self.slots, d=spare, s=self.state)
        assert answer.code or answer.also == laid + places_room(1)

    def looks(self, data, *expected):
        self.look(data)
        self.take(data, *expected)


def starts(f):
    f.v.section("starts of a receiver that keeps early messages")
    for number, limit, *expected in ((0, 1, 19), (1, 0, 19), (1, 65535, 19), (1, 1), (TOP, 65534)):
        f.v.ask("early_start", expected, a=ROOM, n=number, m=limit, s=room(EARLY_SIZE))
    f.v.heading("bytes past the state are not touched")
    f.v.ask("early_start", a=SPACES, n=7, m=258, s=room(EARLY_SIZE + 2))


def rule(f):
    f.v.section("number n is delivered, and then every held message that follows without a gap")
    f.begin(1)
    f.looks(packet(2, b"two", b"three"), "ahead", *NOTHING, 1, 1, 1)
    f.looks(packet(5, b"five"), "ahead", *NOTHING, 1, 1, 1)
    f.looks(packet(1, b"one"), "deliver", 1, 3, 0, 1, 4, 1)
    f.looks(packet(3, b"three", b"four"), "deliver", 4, 2, 1, *NOTHING)
    assert (f.now().next, f.now().held) == (6, {})
    f.v.section("what is held keeps its first bytes, and is delivered from the slots though the datagram has it")
    f.begin(1)
    f.takes((packet(2, b"first"), "ahead"), (packet(2, b"second"), "ahead"), (packet(3, b""), "ahead"))
    f.looks(packet(1, b"one", b"third", b"more", b"four"), "deliver", 1, 4, 0, *NOTHING)
    f.v.section("the window: n + 1 to n + 64")
    for number, holds in ((2, True), (64, True), (65, True), (66, False), (TOP - 1, False)):
        f.begin(1, 65534)
        f.take(packet(number, b"x"), "ahead", *NOTHING, 1, 1, min(number - 1, 65534))
        assert len(f.now().held) == holds
    f.v.section("a slot has 1,024 bytes")
    for size, holds in ((0, True), (SLOT_SIZE - 1, True), (SLOT_SIZE, True), (SLOT_SIZE + 1, False)):
        f.begin(1)
        f.take(packet(2, b"x" * size), "ahead")
        assert len(f.now().held) == holds
        f.take(packet(1, b"y" * size), "deliver", 1, 1 + holds)
    f.v.section("64 messages are held, and delivered at once")
    f.begin(1)
    f.take(packet(2, *[b"x"] * 66), "ahead", *NOTHING, 1, 1, 1)
    assert len(f.now().held) == 64
    f.take(packet(1, b"one"), "deliver", 1, 65, 0, *NOTHING)
    f.v.section("a datagram is held in part: what lies below n, too far or too long isn't")
    f.begin(10)
    f.take(packet(12, b"12", b"x" * 1025, b"14"), "ahead", *NOTHING, 1, 10, 2)
    f.take(packet(73, b"73", b"74", b"75"), "ahead")
    assert sorted(f.now().held) == [12, 14, 73, 74]
    f.looks(packet(9, b"9", b"10", b"11"), "deliver", 10, 3, 1, 1, 13, 1)
    f.looks(packet(13, b"13"), "deliver", 13, 2, 0, 1, 15, 58)


def asking(f):
    f.v.section("what it asks for: to the lowest held number, else to the datagram's, within the limit")
    f.begin(10, 5)
    f.takes(
        (heartbeat(12), "ahead", *NOTHING, 1, 10, 2),
        (heartbeat(15), "ahead", *NOTHING, 1, 10, 5),
        (heartbeat(16), "ahead", *NOTHING, 1, 10, 5),
        (end(12), "ahead", *NOTHING, 1, 10, 2),
        (packet(100, b"far"), "ahead", *NOTHING, 1, 10, 5),
        (heartbeat(10), "quiet", *NOTHING, *NOTHING),
        (heartbeat(9), "old", *NOTHING, *NOTHING),
        (data_of(8, 2), "old", *NOTHING, *NOTHING),
        (packet(13, b"13"), "ahead", *NOTHING, 1, 10, 3),
        (heartbeat(11), "ahead", *NOTHING, 1, 10, 3),
        (heartbeat(99), "ahead", *NOTHING, 1, 10, 3),
        (heartbeat(10), "quiet", *NOTHING, 1, 10, 3),
        (heartbeat(9), "old", *NOTHING, 1, 10, 3),
        (data_of(8, 2), "old", *NOTHING, 1, 10, 3),
        (packet(16, b"16"), "ahead", *NOTHING, 1, 10, 3),
        (data_of(10, 2), "deliver", 10, 2, 0, 1, 12, 1),
        (data_of(12, 1), "deliver", 12, 2, 0, 1, 14, 2),
        (data_of(14, 2), "deliver", 14, 3, 0, *NOTHING),
    )
    f.v.section("an ended session holds nothing, and asks for nothing")
    f.begin(1)
    f.takes((packet(3, b"three"), "ahead"), (end(1), "ended", *NOTHING, *NOTHING), (end(1), 18), (data_of(1, 1), 18))
    assert f.now().held == {}


def swaps(f):
    f.v.section("order 13: two neighbours, in either order, leave the same")
    for first, second in (
        (data_of(1, 2), data_of(3, 2)),
        (data_of(2, 2), data_of(4, 1)),
        (data_of(1, 3), data_of(2, 3)),
        (data_of(60, 5), data_of(1, 1)),
    ):
        left = []
        for pair in ((first, second), (second, first)):
            f.begin(1)
            for data in pair:
                f.take(data)
            left.append(f.now())
        assert left[0] == left[1]


def refusals(f):
    f.v.section("refused by the reader: 11 to 16, and nothing will be delivered")
    f.begin(1)
    f.take(packet(3, b"three"), "ahead")
    drawn = set()
    for name, data in REFUSED:
        if name[:2] not in drawn:
            drawn.add(name[:2])
            f.v.heading(name)
            f.take(data, int(name[:2]))
    f.look(TWO[:-1])
    f.v.section("17, 18, 19 and 20")
    for data, number in ((data_of(1, 1, session=OTHER), 17), (heartbeat(1, session=SPACES), 17)):
        f.looks(data, number)
    for slots in (b"", f.slots[1:], f.slots + b"\x00"):
        f.v.ask("early_take", (19,), a=data_of(1, 1), c=slots, s=f.state)
        f.v.ask("early_take", (19,), a=end(1), c=slots, s=f.state)
    f.take(data_of(1, 1), "deliver")
    f.looks(end(1), 20)
    f.take(end(2), "ended")
    f.looks(data_of(2, 1), 18)
    f.looks(data_of(2, 1, session=OTHER), 17)


def names(f):
    f.v.section("a start on ten spaces: any answer names, no refusal does")
    for data, *expected in (
        (data_of(5, 2), "deliver", 5, 2, 0),
        (data_of(3, 2), "old"),
        (heartbeat(5), "quiet"),
        (data_of(6, 1), "ahead", *NOTHING, 1, 5, 1),
        (end(5), "ended"),
    ):
        f.begin(5, session=SPACES)
        f.takes((SPACES + data[10:], 17), (end(4), 20))
        f.v.ask("early_take", (19,), a=data, c=b"", s=f.state)
        assert f.now().session == SPACES
        f.take(data, *expected)
        assert f.now().session == ROOM
        f.take(OTHER + data[10:], 17)


def forged(f):
    f.v.section("ended by another first byte; and its bytes past the state, and another kind's")
    f.hand(Early(ROOM, 5, 9, False, {6: b"six"}))
    f.state += b"\x07"
    f.looks(data_of(5, 1), "deliver", 5, 2)
    f.state = by_hand(f.state, NOT_OPEN_TOO)
    f.looks(data_of(7, 1), 18)
    f.v.section("made by hand: numbers that no start gives")
    f.hand(Early(ROOM, 0, 0, False, {1: b"one"}))
    f.looks(heartbeat(1), "ahead", *NOTHING, 1, 0, 0)
    f.hand(Early(ROOM, 0, 65535, False))
    f.looks(heartbeat(TOP), "ahead", *NOTHING, 1, 0, 65535)
    f.v.section("made by hand: lengths that no slot holds end with the slots")
    f.hand(Early(ROOM, 61, 9, False, {62: b"", 63: b"", 64: b""}))
    for slot in (62, 63, 0):
        at = 29 + slot * 2
        f.state = f.state[:at] + b"\xff\xff" + f.state[at + 2 :]
    f.looks(data_of(61, 1), "deliver", 61, 4)
    f.v.section("made by hand: held numbers past the largest")
    for word in (b"\xff" * 8, b"\x06" + bytes(7)):
        for number in (TOP - 2, TOP - 1, TOP):
            f.hand(Early(ROOM, number, 9, False))
            f.state = f.state[:21] + word + f.state[29:]
            if number == TOP - 1:
                f.look(data_of(TOP - 2, 2))
            f.take(data_of(TOP - 2, 2))
    f.v.section("walks made by hand")
    f.hand(Early(ROOM, 5, 9, False, {6: b"six", 9: b""}))
    given = dict(b=f.state, c=f.slots)
    for name, walk, data in (
        ("none left", (6, 0, 20, 2), TWO),
        ("a held number, no messages left there", (6, 1, 20, 0), TWO),
        ("a held number at a block", (6, 2, 20, 2), TWO),
        ("a held number, past the end", (9, 65535, TOP, 65535), TWO),
        ("a held number, in a heartbeat", (9, 1, 20, 1), HEARTBEAT),
        ("another number at a block", (7, 1, 20, 2), TWO),
        ("another number, no messages left there", (7, 1, 20, 0), TWO),
        ("another number, past the end", (7, 1, 30, 2), TWO),
        ("the largest number", (TOP, 3, 20, 2), TWO),
        ("a datagram of no bytes", (7, 1, 20, 1), b""),
        ("at a message's data", (7, 1, 22, 1), packet(1, b"\x00\x01a")),
    ):
        f.v.heading(name)
        f.v.ask("early_next", a=data, s=walk_bytes(walk) + b"\x07", **given)
    f.v.heading("bytes that are no walk stay")
    for first in (0, 0xE1, 0xE7, 0xFF):
        state = by_hand(walk_bytes((6, 1, 20, 1)), first)
        assert f.v.ask("early_next", (0, 0, 0, 0), a=TWO, s=state, **given).lent == state


def largest(f):
    f.v.section("up to the largest number")
    f.begin(TOP - 3)
    f.looks(data_of(TOP - 2, 2), "ahead", *NOTHING, 1, TOP - 3, 1)
    f.looks(data_of(TOP - 3, 1), "deliver", TOP - 3, 3, 0, *NOTHING)
    f.takes((data_of(TOP, 1), 14), (heartbeat(TOP), "quiet"), (data_of(TOP - 1, 1), "old"), (end(TOP), "ended"))
    f.begin(1, 65534)
    f.take(data_of(TOP - 1, 1), "ahead", *NOTHING, 1, 1, 65534)
    f.v.section("the most messages: 32,743, the last two new; and places for too few")
    f.hand(Early(ROOM, 32742, 9, False, {32744: b"held"}))
    f.looks(FULLEST, "deliver", 32742, 3, 32741, *NOTHING)
    f.begin(1)
    f.v.ask("early_deliver", (41,), a=FULLEST, c=f.slots, d=places_room(16000), s=f.state)
    for words in (0, 3, 5, 6, 7):
        f.hand(Early(ROOM, 5, 9, False, {6: b"six", 8: b"eight"}))
        expected = ("deliver", 5, 2, 1, 1, 7, 1) if words > 5 else (41,)
        answer = f.v.ask("early_deliver", expected, a=data_of(4, 2), c=f.slots, d=places_room(words), s=f.state)
        assert words > 5 or (answer.lent, answer.also) == (f.state, places_room(words))
        assert answer.slots == f.slots


def earlies(v):
    feed = Feed(v)
    for part in (starts, rule, asking, swaps, refusals, names, forged, largest):
        part(feed)


GROUPS = (earlies,)
