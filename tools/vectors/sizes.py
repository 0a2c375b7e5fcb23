"""Vectors of every function with lent buffers of other sizes: states, outputs, words and inputs of a fixed size that
are one element too short, as long as needed, and longer; in a good call, and in one that is refused on another ground.
Which ground comes first is the boundary's to say, so nothing is expected here; `grounds.py` expects it."""
from boundary import (
    CAPTURE_SIZE,
    CLIENT_SIZE,
    CURSOR_SIZE,
    EARLY_SIZE,
    EDGES_SIZE,
    FUNCTIONS,
    MISSING_ROOM,
    MISSING_SIZE,
    RECEIVER_SIZE,
    SERVER_SIZE,
    TRANSMITTER_SIZE,
    WALK_SIZE,
    client_bytes,
    cursor_bytes,
    early_bytes,
    lengths_bytes,
    missing_bytes,
    places_room,
    reading_bytes,
    receiver_bytes,
    server_bytes,
    transmitter_bytes,
    walk_bytes,
    words_bytes,
)
from capture_rules import START
from captures import lines, record
from datagrams import ROOM, TWO, data_of, heartbeat
from early_rules import SLOTS_SIZE, Early
from lines import FILL, room
from logins import LOGIN, READER, UNSOUND_RECORD
from missing_edges import Notes
from missing_edges import Reading as Noting
from mold_rules import TOP, Receiver, header
from session_rules import Client, Server
from streams import BLANK, PASSWORD, USER, accepted, packet, raw

LONG = b"m" * 4097  # a payload that no packet has
SLOTS = room(SLOTS_SIZE)
HOLDS = early_bytes(Early(ROOM, 5, 9, False, {6: b"six"}))  # an early receiver that holds a message
# edges of missing ranges, with room behind them, and a reading that has noted them
EDGES = words_bytes([3, 5, 9])
EDGES += room(EDGES_SIZE - len(EDGES))
NOTED = missing_bytes(Noting("records", 5, Notes(ROOM, 12, 1, False)))
# messages that a store keeps or a transmitter sends: one with no bytes
KEPT = dict(b=lengths_bytes([3, 0, 5, 4]), c=b"onethreefour")

# of each function a good call, and refused ones
CALLS = {
    "mold_read": [dict(a=TWO), dict(a=b"")],
    "mold_locate": [dict(a=TWO, n=0)],
    "mold_walk": [dict(a=TWO, s=room(CURSOR_SIZE))],
    "mold_next": [dict(a=TWO, s=cursor_bytes((20, 2)))],
    "mold_write_data": [
        dict(a=ROOM, n=1, b=lengths_bytes([1]), c=b"a", s=room(24)),
        dict(a=ROOM, n=0, b=lengths_bytes([1]), c=b"a", s=room(40)),
    ],
    "mold_write_heartbeat": [dict(a=ROOM, n=6, s=room(20)), dict(a=ROOM, n=0, s=room(30))],
    "mold_write_end": [dict(a=ROOM, n=6, s=room(20)), dict(a=ROOM, n=0, s=room(30))],
    "mold_read_request": [dict(a=header(ROOM, 3, 2)), dict(a=b"")],
    "mold_write_request": [dict(a=ROOM, n=3, m=2, s=room(20)), dict(a=ROOM, n=0, m=2, s=room(20))],
    "receiver_start": [
        dict(a=ROOM, n=1, m=100, s=room(RECEIVER_SIZE)),
        dict(a=ROOM, n=0, m=0, s=room(RECEIVER_SIZE)),
        dict(a=BLANK, n=1, m=100, s=room(RECEIVER_SIZE)),
    ],
    "receiver_take": [
        dict(a=data_of(5, 1), s=receiver_bytes(Receiver(ROOM, 5, 9, False))),
        dict(a=data_of(5, 1), s=receiver_bytes(Receiver(ROOM, 5, 9, True))),
        dict(a=data_of(5, 1), s=receiver_bytes(Receiver(BLANK, 5, 9, False))),
        dict(a=b"", s=room(RECEIVER_SIZE)),
    ],
    "receiver_deliver": [
        dict(a=data_of(4, 3), d=places_room(4), s=receiver_bytes(Receiver(ROOM, 5, 9, False))),
        dict(a=data_of(5, 1), d=places_room(2), s=receiver_bytes(Receiver(ROOM, 5, 9, True))),
        dict(a=heartbeat(5), d=b"", s=receiver_bytes(Receiver(ROOM, 5, 9, False))),
        dict(a=data_of(5, 1), d=places_room(2), s=receiver_bytes(Receiver(BLANK, 5, 9, False))),
        dict(a=b"", d=places_room(2), s=room(RECEIVER_SIZE)),
    ],
    "receiver_walk": [dict(a=TWO, n=1, m=0, s=room(CURSOR_SIZE))],
    "soup_read": [dict(a=LOGIN, n=1), dict(a=raw(0, b"L"), n=1)],
    "soup_scan": [dict(a=LOGIN, n=1), dict(a=raw(0, b"L"), n=1)],
    "soup_write_debug": [dict(a=b"note", s=room(7)), dict(a=LONG, s=room(8192))],
    "soup_write_accepted": [dict(a=ROOM, n=7, s=room(33)), dict(a=BLANK, n=0, s=room(33))],
    "soup_write_rejected": [dict(n=ord("A"), s=room(4)), dict(n=0, s=room(5))],
    "soup_write_sequenced": [dict(a=b"note", s=room(7)), dict(a=LONG, s=room(8192))],
    "soup_write_server_heartbeat": [dict(s=room(3))],
    "soup_write_end": [dict(s=room(3))],
    "soup_write_login": [
        dict(a=USER, b=PASSWORD, c=ROOM, n=7, s=room(49)),
        dict(a=b" " * 6, b=PASSWORD, c=ROOM, n=7, s=room(49)),
    ],
    "soup_write_unsequenced": [dict(a=b"note", s=room(7)), dict(a=LONG, s=room(8192))],
    "soup_write_client_heartbeat": [dict(s=room(3))],
    "soup_write_logout": [dict(s=room(3))],
    "server_start": [dict(a=ROOM, n=5, s=room(SERVER_SIZE)), dict(a=BLANK, n=5, s=room(SERVER_SIZE))],
    "server_step": [
        dict(a=READER, b=LOGIN, s=server_bytes(Server(ROOM, 5, "waiting"))),
        dict(a=READER, b=LOGIN, s=server_bytes(Server(ROOM, 5, "closed"))),
        dict(a=UNSOUND_RECORD * 1025, b=b"", s=room(SERVER_SIZE)),
    ],
    "server_set_last": [
        dict(n=6, s=server_bytes(Server(ROOM, 5, "waiting"))),
        dict(n=4, s=server_bytes(Server(ROOM, 5, "waiting"))),
        dict(n=TOP, s=server_bytes(Server(ROOM, 5, "waiting"))),
    ],
    "server_reply": [
        dict(a=READER, b=LOGIN, c=room(33), s=server_bytes(Server(ROOM, 5, "waiting"))),
        dict(a=b"", b=LOGIN, c=room(4), s=server_bytes(Server(ROOM, 5, "waiting"))),
        dict(a=READER, b=LOGIN, c=room(33), s=server_bytes(Server(BLANK, 5, "waiting"))),
        dict(a=READER, b=LOGIN, c=room(33), s=server_bytes(Server(ROOM, 5, "closed"))),
        dict(a=UNSOUND_RECORD * 1025, b=b"", c=b"", s=room(SERVER_SIZE)),
    ],
    "client_start": [dict(a=ROOM, n=7, s=room(CLIENT_SIZE)), dict(a=bytes(10), n=7, s=room(CLIENT_SIZE))],
    "client_step": [
        dict(a=accepted(), s=client_bytes(Client(ROOM, 7, "asked"))),
        dict(a=packet(b"S"), s=client_bytes(Client(ROOM, 7, "closed"))),
        dict(a=raw(0, b"S"), s=room(CLIENT_SIZE)),
    ],
    "capture_start": [dict(s=room(CAPTURE_SIZE))],
    "capture_feed": [
        dict(a=lines() + bytes(40), c=SLOTS, s=reading_bytes(START)),
        dict(a=b"", c=SLOTS, s=room(CAPTURE_SIZE)),
    ],
    "capture_finish": [
        dict(a=lines(), c=SLOTS, s=reading_bytes(START)),
        dict(a=b"", c=SLOTS, s=room(CAPTURE_SIZE)),
    ],
    "capture_write": [dict(a=reading_bytes(START), s=room(17))],
    "capture_report": [dict(a=b"", s=room(17))],
    "store_answer": [
        dict(a=ROOM, n=6, **KEPT, m=29, d=header(ROOM, 6, 9), s=room(27)),
        dict(a=ROOM, n=6, **KEPT, m=29, d=header(ROOM, 5, 9), s=room(27)),
        dict(a=ROOM, n=6, **KEPT, m=29, d=b"", s=room(27)),
    ],
    "transmitter_packet": [
        dict(a=ROOM, n=6, **KEPT, m=29, p=0, s=room(27)),
        dict(a=ROOM, n=6, **KEPT, m=29, p=3, s=room(27)),
    ],
    "transmitter_start": [
        dict(a=KEPT["b"], b=KEPT["c"], n=6, m=29, s=room(TRANSMITTER_SIZE)),
        dict(a=KEPT["b"], b=KEPT["c"], n=0, m=29, s=room(TRANSMITTER_SIZE)),
    ],
    "transmitter_next": [
        dict(a=ROOM, n=6, **KEPT, m=29, d=room(27), s=transmitter_bytes((0, 0))),
        dict(a=ROOM, n=6, **KEPT, m=29, d=room(27), s=transmitter_bytes((4, 12))),
        dict(a=ROOM, n=6, **KEPT, m=21, d=room(27), s=room(TRANSMITTER_SIZE)),
    ],
    "early_start": [
        dict(a=ROOM, n=1, m=100, s=room(EARLY_SIZE)),
        dict(a=ROOM, n=0, m=0, s=room(EARLY_SIZE)),
    ],
    "early_take": [
        dict(a=data_of(5, 1), c=SLOTS, s=HOLDS),
        dict(a=data_of(7, 1), c=SLOTS, s=HOLDS),
        dict(a=b"", c=SLOTS, s=room(EARLY_SIZE)),
    ],
    "early_count": [dict(a=data_of(5, 1), b=HOLDS, c=SLOTS)],
    "early_locate": [dict(a=data_of(5, 1), b=HOLDS, c=SLOTS, n=1)],
    "early_walk": [dict(a=data_of(5, 1), b=HOLDS, c=SLOTS, s=room(WALK_SIZE))],
    "early_next": [dict(a=data_of(5, 1), b=HOLDS, c=SLOTS, s=walk_bytes((5, 2, 20, 1)))],
    "early_deliver": [
        dict(a=data_of(5, 1), c=SLOTS, d=places_room(6), s=HOLDS),
        dict(a=data_of(7, 1), c=SLOTS, d=b"", s=HOLDS),
    ],
    "missing_start": [dict(s=room(MISSING_SIZE))],
    "missing_feed": [dict(a=record(data_of(4, 1)), c=EDGES, s=NOTED), dict(a=b"", c=EDGES, s=room(MISSING_SIZE))],
    "missing_finish": [dict(a=record(data_of(4, 1)), c=EDGES, s=NOTED), dict(a=b"", c=EDGES, s=room(MISSING_SIZE))],
    "missing_count": [dict(a=NOTED, c=EDGES)],
    "missing_range": [dict(a=NOTED, c=EDGES, n=1)],
    "missing_write": [dict(a=NOTED, c=EDGES, s=room(MISSING_ROOM))],
}


def sizes(v):
    assert list(CALLS) == list(FUNCTIONS), "every function, in the table's order"
    for name, calls in CALLS.items():
        v.section(f"buffers of other sizes: {name}")
        for fields in calls:
            for spare in (-1, 0) if FUNCTIONS[name].words else (0,):
                v.ask(name, spare=spare, **fields)
            function = FUNCTIONS[name]
            lent = {"s", function.second, function.slots} - {None}
            for key in sorted({*function.state, *function.sized, *lent} & set(fields)):
                for value in (fields[key][:-1], fields[key] + bytes([FILL]), b""):
                    v.ask(name, **{**fields, key: value})


GROUPS = (sizes,)
