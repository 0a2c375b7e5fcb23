"""Vectors of the branch store."""
from boundary import lengths_bytes
from datagrams import ROOM, packet
from lines import room
from mold_rules import TOP, Receiver, header, packet_of, receiver_take
from store_rules import answer_packet

OTHER = b"READROOM02"
MESSAGES = [b"one", b"", b"three", b"four"]
MANY = 65536  # more messages than a datagram can count


def answer(v, heading, request, *expected, session=ROOM, first=6, messages=MESSAGES, size=100, out=None, joined=None):
    """One answer of a store of messages, under a heading."""
    lengths = lengths_bytes([len(message) for message in messages])
    joined = b"".join(messages) if joined is None else joined
    fields = dict(a=session, b=lengths, c=joined, d=request, n=first, m=size, s=room(size if out is None else out))
    return v.case(heading, "store_answer", *expected, **fields)


def chosen(v):
    v.section("a store answers: from the wanted number on, up to the count, the size and its end")
    for heading, wanted, count, size, held in (
        ("all of it", 6, 4, 100, MESSAGES),
        ("one message", 6, 1, 100, MESSAGES[:1]),
        ("one of no bytes", 7, 1, 100, MESSAGES[1:2]),
        ("from the middle on", 8, 2, 100, MESSAGES[2:]),
        ("the last one", 9, 1, 100, MESSAGES[3:]),
        ("a request that goes on past the end", 8, 65534, 100, MESSAGES[2:]),
        ("a size that all just fit", 6, 4, 40, MESSAGES),
        ("a size that the last just doesn't fit", 6, 4, 39, MESSAGES[:3]),
        ("a size that three just fit", 6, 4, 34, MESSAGES[:3]),
        ("a size that two just fit", 6, 4, 27, MESSAGES[:2]),
        ("a size that the second, of no bytes, doesn't fit", 6, 4, 26, MESSAGES[:1]),
        ("the smallest size that the first fits", 6, 4, 25, MESSAGES[:1]),
        ("the smallest size of all", 7, 4, 22, MESSAGES[1:2]),
    ):
        given = answer(v, heading, header(ROOM, wanted, count), size=size)
        written = packet(wanted, *held)
        assert given.said == [len(written)] and given.lent[: len(written)] == written


def bounds(v):
    v.section("a store's bounds")
    six = header(ROOM, 6, 1)
    for heading, fields in (
        ("19: size 21", dict(size=21, out=40)),
        ("19: size 0", dict(size=0, out=40)),
        ("size 65,507", dict(size=65507, out=40)),
        ("19: size 65,508", dict(size=65508, out=40)),
        ("19: size 2^64-1", dict(size=TOP, out=40)),
        ("19: size 2^32 + 25, which isn't cut to 32 bits", dict(size=2**32 + 25, out=40)),
        ("19: first number 0", dict(first=0)),
        ("44: the lengths add up to one less", dict(joined=b"onethreefours")),
        ("44: the lengths add up to one more", dict(joined=b"onethreefou")),
        ("44: data without lengths", dict(messages=[], joined=b"a")),
        ("51: a store of no messages", dict(messages=[])),
        ("41: a session of nine bytes", dict(session=ROOM[:9])),
        ("41: a session of eleven bytes is not cut", dict(session=ROOM + b"x")),
        ("41: no session", dict(session=b"")),
    ):
        answer(v, heading, six, **fields)
    v.heading("numbers that end at 2^64-1, and past it")
    answer(v, "the last message has number 2^64-2", header(ROOM, TOP - 1, 9), 26, first=TOP - 4)
    answer(v, "19: the last message has number 2^64-1", header(ROOM, TOP - 1, 9), first=TOP - 3)
    answer(v, "51: 2^64-1 is no message's number", header(ROOM, TOP, 9), first=TOP - 4)
    answer(v, "a store of no messages at 2^64-1 is good: 51", header(ROOM, TOP, 9), 51, first=TOP, messages=[])
    v.heading("more messages than a datagram can count")
    many = dict(first=1, messages=[b""] * MANY)
    answer(v, "the last of 65,536", header(ROOM, MANY, 9), 22, **many)
    answer(v, "as many as fit 65,507 bytes: 32,743", header(ROOM, 1, 65534), 65506, **many, size=65507)
    answer(v, "51: one past the last of them", header(ROOM, MANY + 1, 9), **many)


def requests(v):
    v.section("requests to a store")
    for heading, request in (
        ("47: 19 bytes", header(ROOM, 6, 1)[:19]),
        ("47: 21 bytes", header(ROOM, 6, 1) + b"\x00"),
        ("47: no bytes", b""),
        ("13: number 0", header(ROOM, 0, 1)),
        ("48: count 0", header(ROOM, 6, 0)),
        ("48: count 65,535", header(ROOM, 6, 65535)),
        ("53: another session", header(OTHER, 6, 1)),
        ("53: its first byte differs", header(b"rEADROOM01", 6, 1)),
        ("53 before 51", header(OTHER, 5, 1)),
        ("51: one below the first", header(ROOM, 5, 9)),
        ("51: one past the last", header(ROOM, 10, 1)),
        ("51: 2^64-1", header(ROOM, TOP, 1)),
        ("51: number 1", header(ROOM, 1, 65534)),
    ):
        answer(v, heading, request)
    answer(v, "52: the first wanted message just doesn't fit", header(ROOM, 8, 9), size=26)
    answer(v, "27 bytes, and it fits", header(ROOM, 8, 9), 27, size=27)
    answer(v, "a later one that doesn't fit is no refusal", header(ROOM, 7, 9), 22, size=26)
    answer(v, "a count of one leaves the others out", header(ROOM, 9, 1), 26, size=26)
    v.section("41 is for the packet that is written, not for the size")
    answer(v, "room for the packet alone", header(ROOM, 6, 1), 25, size=1500, out=25)
    answer(v, "41: a byte less", header(ROOM, 6, 1), size=1500, out=24)
    answer(v, "41: no output", header(ROOM, 6, 1), size=1500, out=0)


def rounds(v):
    """A heartbeat at a receiver that misses everything, its request and an answer, until nothing is missing."""
    v.section("rounds of heartbeat, request and answer: a receiver that misses four messages")
    receiver, heard = Receiver(ROOM, 6, 100, False), packet(10)
    taken = []
    for size in (25, 26, 29, 29):
        (_, first, count), _ = receiver_take(receiver, heard)
        given = answer(v, f"it asks from {first} for {count}", header(ROOM, first, count), size=size)
        datagram = given.lent[: given.said[0]]
        assert datagram == answer_packet(
            ROOM, 6, [len(message) for message in MESSAGES], b"".join(MESSAGES), size, header(ROOM, first, count)
        )
        (_, _, held, skipped), receiver = receiver_take(receiver, datagram)
        assert held > 0 and skipped == 0
        taken += [datagram[at : at + length] for at, length in packet_of(datagram)[2]]
    assert taken == MESSAGES and receiver_take(receiver, heard)[0] == ("quiet",)


GROUPS = (chosen, bounds, requests, rounds)
