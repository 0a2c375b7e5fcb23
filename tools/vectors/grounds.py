"""Vectors to which two grounds of refusal apply at once, of every function that has several: the first of its ladder is
given. A ladder is a good call, and its grounds in their order, each with what is to be changed for it to apply; two
whose changes touch other fields are put together. The order is the documents': what needs no state, 41 for the state,
the state's own, and 41 for what is lent to write in."""
import itertools

from boundary import (
    CAPTURE_SIZE,
    CLIENT_SIZE,
    CURSOR_SIZE,
    EARLY_SIZE,
    MISSING_ROOM,
    MISSING_SIZE,
    RECEIVER_SIZE,
    SERVER_SIZE,
    TRANSMITTER_SIZE,
    WALK_SIZE,
    client_bytes,
    cursor_bytes,
    early_bytes,
    lengths_bytes,
    places_room,
    reading_bytes,
    receiver_bytes,
    server_bytes,
    transmitter_bytes,
    walk_bytes,
)
from capture_rules import START
from captures import lines, record
from datagrams import ROOM, TWO, data_of, end
from early_rules import Early
from lines import room
from logins import LOGIN, READER, SOUND_RECORD
from mold_rules import TOP, Receiver, header
from session_rules import Client, Server
from sizes import EDGES, HOLDS, KEPT, NOTED, SLOTS
from streams import BLANK, PASSWORD, USER, accepted, login, packet, raw

OTHER = b"READROOM02"
SHORT_NAME, LONG_NAME = ROOM[:9], ROOM + b"1"
# one word fewer than a function sets
FEW_WORDS = ("41 words", dict(spare=-1))
LONG = b"m" * 4097  # a payload that no packet has


def short(size):
    """A state that lacks a byte."""
    return ("41 state", dict(s=room(size - 1)))


def output(size, key="s"):
    """An output that lacks a byte."""
    return ("41 output", {key: room(size - 1)})


def named(number):
    """A session's name of another size, shorter and longer."""
    return [(f"{number} nine bytes", dict(a=SHORT_NAME)), (f"{number} eleven bytes", dict(a=LONG_NAME))]


# of a datagram, and of a client's and a server's stream
OF_DATAGRAM = [
    ("11", dict(a=TWO[:19])),
    ("12", dict(a=TWO + bytes(65507))),
    ("13", dict(a=data_of(0, 1))),
    ("14", dict(a=data_of(TOP, 1))),
    ("15", dict(a=TWO[:-1])),
    ("16", dict(a=TWO + b"\x00")),
]

# of a receiver at number 2
OF_RECEIVER = [
    ("17", dict(s=receiver_bytes(Receiver(OTHER, 2, 9, False)))),
    ("18", dict(s=receiver_bytes(Receiver(ROOM, 2, 9, True)))),
]


# of one at number 2 without a name, and an end of session
OF_UNNAMED = [
    *OF_DATAGRAM,
    short(RECEIVER_SIZE),
    ("17", dict(a=end(2, session=BLANK))),
    ("18", dict(s=receiver_bytes(Receiver(BLANK, 2, 9, True)))),
    ("20", dict(s=receiver_bytes(Receiver(BLANK, 3, 9, False)))),
    FEW_WORDS,
]


# slots of another size, and of a receiver that keeps early messages, at number 2
OTHER_SLOTS = [("19 slots, one byte short", dict(c=SLOTS[1:])), ("19 slots, one byte more", dict(c=SLOTS + b"\x00"))]
OF_EARLY = [
    *OF_DATAGRAM,
    short(EARLY_SIZE),
    ("17", dict(s=early_bytes(Early(OTHER, 2, 9, False)))),
    ("18", dict(s=early_bytes(Early(ROOM, 2, 9, True)))),
    *OTHER_SLOTS,
]
EARLY = early_bytes(Early(ROOM, 2, 9, False))
BELOW = ("20", dict(s=early_bytes(Early(ROOM, 3, 9, False))))
READ_ONLY = [("41 receiver", dict(b=room(EARLY_SIZE - 1))), *OTHER_SLOTS]
LOOK = dict(a=data_of(5, 1), b=HOLDS, c=SLOTS)
# edges of another size: a word fewer, and a word more
OTHER_EDGES = [("19 edges, one word short", dict(c=EDGES[8:])), ("19 edges, one word more", dict(c=EDGES + room(8)))]
UNREAD = ("41 state", dict(a=room(MISSING_SIZE - 1)))


def of_stream(key, letter, other, bad_field):
    """21 to 25, in the field of the stream."""
    streams = (raw(0, letter), raw(4098, letter), packet(other), raw(48, letter), bad_field)
    return [(str(21 + at), {key: data}) for at, data in enumerate(streams)]


FROM_CLIENT = of_stream("b", b"L", b"H", login(session=b"READ ROOM"))
FROM_SERVER = of_stream("a", b"A", b"R", accepted(session=b"READ ROOM"))
WAITING, ASKED, IN = (
    server_bytes(Server(ROOM, 5, "waiting")),
    client_bytes(Client(ROOM, 7, "asked")),
    client_bytes(Client(ROOM, TOP, "in")),
)
OF_SERVER = [
    ("19", dict(a=SOUND_RECORD * 1025)),
    *FROM_CLIENT,
    short(SERVER_SIZE),
    ("32", dict(s=server_bytes(Server(ROOM, 5, "closed")))),
    ("31", dict(s=server_bytes(Server(ROOM, 5, "in")))),
]
# any session is asked for, so that a server with a bad one accepts too
STEP = dict(a=READER, b=login(BLANK, b"3", READER[:6], READER[6:]), s=WAITING)

# of each function a good call, and its ladder
LADDERS = [
    ("mold_read", dict(a=TWO), [*OF_DATAGRAM, FEW_WORDS]),
    ("mold_next", dict(a=TWO, s=cursor_bytes((20, 2))), [short(CURSOR_SIZE), FEW_WORDS]),
    (
        "mold_write_data",
        dict(a=ROOM, n=1, b=lengths_bytes([3]), c=b"one", s=room(25)),
        [
            ("42", dict(b=lengths_bytes([0] * 65535), c=b"")),
            ("44", dict(c=b"four")),
            ("13", dict(n=0)),
            ("14", dict(n=TOP)),
            ("12", dict(b=lengths_bytes([65486]), c=b"a" * 65486)),
            *named(41),
            output(25),
            FEW_WORDS,
        ],
    ),
    *(
        (name, dict(a=ROOM, n=6, s=room(20)), [("13", dict(n=0)), *named(41), output(20), FEW_WORDS])
        for name in ("mold_write_heartbeat", "mold_write_end")
    ),
    (
        "mold_read_request",
        dict(a=header(ROOM, 3, 2)),
        [("47", dict(a=b"")), ("13", dict(a=header(ROOM, 0, 2))), ("48", dict(a=header(ROOM, 3, 0))), FEW_WORDS],
    ),
    (
        "mold_write_request",
        dict(a=ROOM, n=3, m=2, s=room(20)),
        [("13", dict(n=0)), ("48", dict(m=65535)), *named(41), output(20), FEW_WORDS],
    ),
    (
        "receiver_start",
        dict(a=ROOM, n=1, m=100, s=room(RECEIVER_SIZE)),
        [*named(19), ("19 number", dict(n=0)), ("19 limit", dict(m=65535)), short(RECEIVER_SIZE)],
    ),
    (
        "receiver_take",
        dict(a=end(2), s=receiver_bytes(Receiver(ROOM, 2, 9, False))),
        [
            *OF_DATAGRAM,
            short(RECEIVER_SIZE),
            *OF_RECEIVER,
            ("20", dict(s=receiver_bytes(Receiver(ROOM, 3, 9, False)))),
            FEW_WORDS,
        ],
    ),
    ("receiver_take", dict(a=end(2), s=receiver_bytes(Receiver(BLANK, 2, 9, False))), OF_UNNAMED),
    ("receiver_deliver", dict(a=end(2), d=b"", s=receiver_bytes(Receiver(BLANK, 2, 9, False))), OF_UNNAMED),
    # the same with no place needed, and where two messages are delivered
    (
        "receiver_deliver",
        dict(a=end(2), d=b"", s=receiver_bytes(Receiver(ROOM, 2, 9, False))),
        [
            *OF_DATAGRAM,
            short(RECEIVER_SIZE),
            *OF_RECEIVER,
            ("20", dict(s=receiver_bytes(Receiver(ROOM, 3, 9, False)))),
            FEW_WORDS,
        ],
    ),
    (
        "receiver_deliver",
        dict(a=data_of(1, 3), d=places_room(4), s=receiver_bytes(Receiver(ROOM, 2, 9, False))),
        [
            *OF_DATAGRAM,
            short(RECEIVER_SIZE),
            *OF_RECEIVER,
            ("41 places", dict(d=places_room(3))),
            FEW_WORDS,
        ],
    ),
    ("soup_read", dict(a=LOGIN, n=1), [(ground, dict(a=change["b"])) for ground, change in FROM_CLIENT] + [FEW_WORDS]),
    *(
        (f"soup_write_{name}", dict(a=b"note", s=room(7)), [("22", dict(a=LONG)), output(7), FEW_WORDS])
        for name in ("debug", "sequenced", "unsequenced")
    ),
    (
        "soup_write_accepted",
        dict(a=ROOM, n=7, s=room(33)),
        [*named(46), ("46 number", dict(n=0)), output(33), FEW_WORDS],
    ),
    ("soup_write_rejected", dict(n=ord("A"), s=room(4)), [("46", dict(n=0)), output(4), FEW_WORDS]),
    (
        "soup_write_login",
        dict(a=USER, b=PASSWORD, c=ROOM, n=7, s=room(49)),
        [
            ("46 username of five bytes", dict(a=USER[:5])),
            ("46 username of seven bytes", dict(a=USER + b" ")),
            ("46 password of eleven bytes", dict(b=PASSWORD + b" ")),
            ("46 session of nine bytes", dict(c=SHORT_NAME)),
            ("46 session", dict(c=b"READ ROOM1")),
            output(49),
            FEW_WORDS,
        ],
    ),
    *(
        (f"soup_write_{name}", dict(s=room(3)), [output(3), FEW_WORDS])
        for name in ("server_heartbeat", "end", "client_heartbeat", "logout")
    ),
    (
        "server_start",
        dict(a=ROOM, n=5, s=room(SERVER_SIZE)),
        [*named(19), ("19 session", dict(a=BLANK)), ("19 last", dict(n=TOP)), short(SERVER_SIZE)],
    ),
    ("server_step", STEP, [*OF_SERVER, FEW_WORDS]),
    ("server_set_last", dict(n=6, s=WAITING), [("19 top", dict(n=TOP)), short(SERVER_SIZE), ("19 falls", dict(n=4))]),
    (
        "server_reply",
        dict(**STEP, c=room(33)),
        [*OF_SERVER, ("46", dict(s=server_bytes(Server(BLANK, 5, "waiting")))), output(33, "c"), FEW_WORDS],
    ),
    (
        "client_start",
        dict(a=ROOM, n=7, s=room(CLIENT_SIZE)),
        [*named(19), ("19 session", dict(a=bytes(10))), short(CLIENT_SIZE)],
    ),
    (
        "client_step",
        dict(a=accepted(), s=ASKED),
        [
            *FROM_SERVER,
            short(CLIENT_SIZE),
            ("32", dict(s=client_bytes(Client(ROOM, 7, "ended")))),
            ("31", dict(s=client_bytes(Client(ROOM, 7, "in")))),
            ("33", dict(s=client_bytes(Client(ROOM, 8, "asked")))),
            FEW_WORDS,
        ],
    ),
    ("client_step", dict(a=packet(b"H"), s=IN), [("34", dict(a=packet(b"S", b"x"))), FEW_WORDS]),
    (
        "capture_feed",
        dict(a=lines() + bytes(40), c=SLOTS, s=reading_bytes(START)),
        [short(CAPTURE_SIZE), *OTHER_SLOTS, FEW_WORDS],
    ),
    ("capture_finish", dict(a=lines(), c=SLOTS, s=reading_bytes(START)), [short(CAPTURE_SIZE), *OTHER_SLOTS]),
    (
        "capture_write",
        dict(a=reading_bytes(START), s=room(17)),
        [("41 state", dict(a=room(CAPTURE_SIZE - 1))), output(17), FEW_WORDS],
    ),
    ("capture_report", dict(a=b"", s=room(17)), [output(17), FEW_WORDS]),
    (
        "store_answer",
        dict(a=ROOM, n=6, **KEPT, m=29, d=header(ROOM, 6, 9), s=room(27)),
        [
            ("19 size", dict(m=21)),
            ("19 number", dict(n=0)),
            ("44", dict(c=b"onethreefours")),
            ("47", dict(d=header(ROOM, 6, 9)[:19])),
            ("13", dict(d=header(ROOM, 0, 9))),
            ("48", dict(d=header(ROOM, 6, 65535))),
            *named(41),
            ("53", dict(d=header(OTHER, 6, 9))),
            ("51", dict(d=header(ROOM, 5, 9))),
            ("52", dict(m=24)),
            output(27),
            FEW_WORDS,
        ],
    ),
    # the same with each ground of the request behind a change of the size
    (
        "store_answer",
        dict(a=ROOM, n=6, **KEPT, m=29, d=header(ROOM, 8, 1), s=room(27)),
        [("53", dict(d=header(OTHER, 8, 1))), ("51", dict(n=9)), ("52", dict(m=26)), output(27), FEW_WORDS],
    ),
    (
        "transmitter_packet",
        dict(a=ROOM, n=6, **KEPT, m=29, p=0, s=room(27)),
        [
            ("19", dict(m=65508)),
            ("44", dict(c=b"onethreefou")),
            ("13", dict(n=0)),
            ("14", dict(n=TOP - 3)),
            ("52", dict(m=26)),
            ("54", dict(p=3)),
            *named(41),
            output(27),
            FEW_WORDS,
        ],
    ),
    (
        "transmitter_start",
        dict(a=KEPT["b"], b=KEPT["c"], n=6, m=29, s=room(TRANSMITTER_SIZE)),
        [
            ("19", dict(m=21)),
            ("44", dict(b=b"")),
            ("13", dict(n=0)),
            ("14", dict(n=TOP - 3)),
            ("52", dict(m=26)),
            short(TRANSMITTER_SIZE),
        ],
    ),
    # here what is left of the run comes first, and the rest is about one packet
    (
        "transmitter_next",
        dict(a=ROOM, n=6, **KEPT, m=29, d=room(27), s=transmitter_bytes((0, 0))),
        [
            ("19", dict(m=21)),
            short(TRANSMITTER_SIZE),
            ("54", dict(s=transmitter_bytes((4, 12)))),
            ("44", dict(c=b"on")),
            ("13", dict(n=0)),
            # a packet without a message has no data that could be missing
            ("52", dict(m=24, c=KEPT["c"])),
            *named(41),
            output(27, "d"),
            FEW_WORDS,
        ],
    ),
    (
        "transmitter_next",
        dict(a=ROOM, n=6, **KEPT, m=29, d=room(27), s=transmitter_bytes((2, 3))),
        [
            ("19", dict(m=65508)),
            ("54", dict(s=transmitter_bytes((4, 0)))),
            ("44", dict(c=b"onethre")),
            ("14", dict(n=TOP - 1)),
            ("52", dict(m=26, c=KEPT["c"])),
            output(27, "d"),
            FEW_WORDS,
        ],
    ),
    (
        "early_start",
        dict(a=ROOM, n=1, m=100, s=room(EARLY_SIZE)),
        [*named(19), ("19 number", dict(n=0)), ("19 limit", dict(m=0)), short(EARLY_SIZE)],
    ),
    ("early_take", dict(a=end(2), c=SLOTS, s=EARLY), [*OF_EARLY, BELOW, FEW_WORDS]),
    # without a name
    (
        "early_take",
        dict(a=end(2), c=SLOTS, s=early_bytes(Early(BLANK, 2, 9, False))),
        [short(EARLY_SIZE), ("17", dict(a=end(2, session=BLANK))), *OTHER_SLOTS, BELOW, FEW_WORDS],
    ),
    ("early_count", LOOK, [*READ_ONLY, FEW_WORDS]),
    ("early_locate", dict(**LOOK, n=0), [*READ_ONLY, FEW_WORDS]),
    ("early_walk", dict(**LOOK, s=room(WALK_SIZE)), [*READ_ONLY, ("41 cursor", dict(s=room(WALK_SIZE - 1)))]),
    (
        "early_next",
        dict(**LOOK, s=walk_bytes((5, 2, 20, 1))),
        [("41 cursor", dict(s=room(WALK_SIZE - 1))), *READ_ONLY, FEW_WORDS],
    ),
    ("early_deliver", dict(a=end(2), c=SLOTS, d=b"", s=EARLY), [*OTHER_SLOTS, BELOW, FEW_WORDS]),
    (
        "early_deliver",
        dict(a=data_of(1, 3), c=SLOTS, d=places_room(6), s=EARLY),
        [*OF_EARLY[4:], ("41 places", dict(d=places_room(5))), FEW_WORDS],
    ),
    (
        "missing_feed",
        dict(a=record(data_of(4, 1)), c=EDGES, s=NOTED),
        [short(MISSING_SIZE), *OTHER_EDGES, FEW_WORDS],
    ),
    ("missing_finish", dict(a=record(data_of(4, 1)), c=EDGES, s=NOTED), [short(MISSING_SIZE), *OTHER_EDGES]),
    ("missing_count", dict(a=NOTED, c=EDGES), [UNREAD, *OTHER_EDGES, FEW_WORDS]),
    ("missing_range", dict(a=NOTED, c=EDGES, n=0), [UNREAD, *OTHER_EDGES, FEW_WORDS]),
    (
        "missing_write",
        dict(a=NOTED, c=EDGES, s=room(MISSING_ROOM)),
        [UNREAD, *OTHER_EDGES, output(MISSING_ROOM), FEW_WORDS],
    ),
]


def pairs(v):
    for name, good, ladder in LADDERS:
        v.section(f"two grounds at once: {name}")
        assert v.ask(name, **good).code == 0
        for ground, change in ladder:
            v.heading(ground)
            v.ask(name, (int(ground[:2]),), **{**good, **change})
        for (first, one), (second, other) in itertools.combinations(ladder, 2):
            if not one.keys() & other.keys():
                v.heading(f"{first} before {second}")
                v.ask(name, (int(first[:2]),), **{**good, **one, **other})


def needs_more(v):
    v.section("more is needed: no ground but the lent memory's")
    for name, fields in (
        ("server_step", dict(a=READER, b=b"", s=WAITING)),
        ("server_reply", dict(a=READER, b=LOGIN[:48], c=b"", s=WAITING)),
        ("client_step", dict(a=b"\x00", s=ASKED)),
    ):
        v.ask(name, ("need more", 0), **fields)
        v.ask(name, (41,), **{**fields, "s": fields["s"][:-1]})
        v.ask(name, (41,), spare=-1, **fields)


GROUPS = (pairs, needs_more)
