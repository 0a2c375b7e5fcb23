"""Vectors of states: the bytes of each kind lent to every kind's functions, which take none but their own for open;
first bytes and phases made by hand; what needs more, or has no message, and changes no byte; the reply, and the last
number of a server."""
import itertools

from boundary import (
    CAPTURE_SIZE,
    CODES,
    EARLY_SIZE,
    MISSING_ROOM,
    NOT_OPEN,
    NOT_OPEN_TOO,
    by_hand,
    client_bytes,
    client_in,
    cursor_bytes,
    early_bytes,
    places_room,
    reading_bytes,
    reading_in,
    receiver_bytes,
    server_bytes,
    server_in,
    transmitter_bytes,
    walk_bytes,
)
from capture_rules import START, Reading, Report
from captures import record
from datagrams import ROOM, TWO, data_of, heartbeat
from early_rules import SLOTS_SIZE, Early
from lines import room
from logins import GUEST, LOGIN, READER, SOUND_RECORD
from mold_rules import TOP, Receiver
from server import MORE, NOT_AUTHORIZED, STATES, rows
from session_rules import Client, Server
from sizes import EDGES, KEPT, NOTED
from streams import BLANK, accepted, login, packet

OPEN_RECEIVER = Receiver(ROOM, 1, 100, False)
OPEN_EARLY = Early(*OPEN_RECEIVER)
SLOTS = room(SLOTS_SIZE)
# an open state of each kind
KINDS = {
    "a cursor": cursor_bytes((20, 2)),
    "a receiver": receiver_bytes(OPEN_RECEIVER),
    "a server": server_bytes(Server(ROOM, 5, "waiting")),
    "a client": client_bytes(Client(ROOM, 7, "asked")),
    "a reading": reading_bytes(Reading("records", Report(OPEN_EARLY))),
    "a transmitter": transmitter_bytes((0, 0)),
    "an early receiver": early_bytes(OPEN_EARLY),
    "a walk": walk_bytes((1, 2, 20, 2)),
    "a reading of what is missing": NOTED,
}
# what each kind's function answers to an open state, and to one that isn't; a receiver's own name may differ too
TAKERS = {
    "a cursor": ("mold_next", dict(a=TWO), (1,), (0,)),
    "a receiver": ("receiver_take", dict(a=TWO), ("deliver",), (17, 18)),
    "a server": ("server_step", dict(a=READER, b=packet(b"+")), ("debug",), (32,)),
    "a client": ("client_step", dict(a=packet(b"+")), ("debug",), (32,)),
    "a reading": ("capture_feed", dict(a=record(heartbeat(1)), c=SLOTS), None, None),
    "a transmitter": ("transmitter_next", dict(a=ROOM, n=6, **KEPT, m=29, d=room(29)), (27,), (54,)),
    "an early receiver": ("early_take", dict(a=TWO, c=SLOTS), ("deliver",), (17, 18)),
    "a walk": ("early_next", dict(a=TWO, b=early_bytes(OPEN_EARLY), c=SLOTS), (1,), (0,)),
    "a reading of what is missing": ("missing_feed", dict(a=record(heartbeat(1)), c=EDGES), None, None),
}


def taken(v, taker, state, is_open):
    """Lends a state to a kind's function, which takes it for open, or leaves it as it is."""
    name, fields, opened, shut = TAKERS[taker]
    answer = v.ask(name, s=state, **fields)
    said = answer.said
    if opened is None:
        # a feed of what isn't open is over, and lays it as such
        assert said[1] == (not is_open), (taker, said)
        return
    assert said[0] in (opened if is_open else shut), (taker, said)
    assert is_open or answer.lent == state


def kinds(v):
    v.section("the bytes of each kind, lent to every kind's functions: its own alone take it for open")
    for (kind, state), taker in itertools.product(KINDS.items(), TAKERS):
        v.heading(f"{kind}, lent to the functions of {taker}")
        taken(v, taker, state.ljust(CAPTURE_SIZE, b"\x00"), taker == kind)
    v.section("first bytes: the kind's code is open, and no other")
    for kind, state in KINDS.items():
        v.heading(kind)
        for first in sorted({*CODES, NOT_OPEN, 1, NOT_OPEN_TOO, 0xE0, 0xEA, 0xFF}):
            taken(v, kind, by_hand(state, first), first == state[0])
    v.section("bytes of zero are never open")
    for taker in TAKERS:
        taken(v, taker, bytes(CAPTURE_SIZE), False)
    v.section("the receiver inside a reading, lent to the functions of the receiver that keeps early messages")
    inside = dict(a=data_of(1, 2), c=SLOTS, s=KINDS["a reading"][2 : 2 + EARLY_SIZE])
    v.ask("early_take", ("deliver", 1, 2, 0), **inside)
    v.ask("early_deliver", ("deliver", 1, 2, 0), d=places_room(6), **inside)
    v.heading("before its settings it is blank and ended, as after a refused start")
    inside = dict(c=SLOTS, s=reading_bytes(START)[2 : 2 + EARLY_SIZE])
    for session, number in ((BLANK, 17), (ROOM, 18)):
        v.ask("early_take", (number,), a=data_of(1, 2, session=session), **inside)
        v.ask("early_deliver", (number,), a=data_of(1, 2, session=session), d=places_room(6), **inside)
    v.section("every kind's bytes, lent to the call that lays places: what isn't a receiver changes no byte")
    for kind, state in (*KINDS.items(), ("bytes of zero", bytes(CAPTURE_SIZE))):
        v.heading(kind)
        state = state.ljust(CAPTURE_SIZE, b"\x00")
        answer = v.ask("receiver_deliver", a=TWO, d=places_room(5), s=state)
        assert (answer.said[0] == "deliver") == (kind == "a receiver")
        assert answer.code == 0 or (answer.lent, answer.also) == (state, places_room(5))


PHASES = (0, 1, 2, 3, 4, 9, 255)


def made(state):
    """A state with every first byte and phase that mean something, and some that mean nothing of their own."""
    for first, phase in itertools.product((state[0], NOT_OPEN, NOT_OPEN_TOO), PHASES):
        yield by_hand(state, first, phase)


def phases(v):
    server, client, reading, noting = (
        KINDS[kind] for kind in ("a server", "a client", "a reading", "a reading of what is missing")
    )
    v.section("phases made by hand: a debug packet, which lays the state in its form where it is taken")
    for state in made(server):
        answer = v.ask("server_step", a=READER, b=packet(b"+"), s=state)
        assert answer.lent == (state if answer.code else server_bytes(server_in(state)))
    for state in made(client):
        answer = v.ask("client_step", a=packet(b"+"), s=state)
        assert answer.lent == (state if answer.code else client_bytes(client_in(state)))
    v.section("more is needed: no byte changes, whatever the state was made of")
    for state in made(server):
        for name, fields in (("server_step", {}), ("server_reply", dict(c=room(5)))):
            assert v.ask(name, MORE, a=READER, b=LOGIN[:48], s=state, **fields).lent == state
    for state in made(client):
        assert v.ask("client_step", MORE, a=accepted()[:32], s=state).lent == state
    v.section("stages made by hand: a feed of no bytes, one of a whole record, and the end")
    for state in made(reading):
        fed = v.ask("capture_feed", (0,), a=b"", c=SLOTS, s=state)
        assert fed.said[1] or fed.lent == state
        v.ask("capture_feed", a=record(heartbeat(1)), c=SLOTS, s=state)
        v.ask("capture_finish", a=b"", c=SLOTS, s=state)
        v.ask("capture_write", a=state, s=room(120))
    for state in made(noting):
        fed = v.ask("missing_feed", (0,), a=b"", c=EDGES, s=state)
        assert fed.said[1] or fed.lent == state
        v.ask("missing_feed", a=record(heartbeat(20)), c=EDGES, s=state)
        v.ask("missing_finish", a=b"", c=EDGES, s=state)
        v.ask("missing_count", a=state, c=EDGES)
        v.ask("missing_range", a=state, c=EDGES, n=1)
        v.ask("missing_write", a=state, c=EDGES, s=room(MISSING_ROOM))
    v.heading("before its settings, with a receiver made by hand: too few bytes change none of it")
    counted = by_hand(reading, reading[0], 1)
    assert v.ask("capture_feed", (0, 0), a=bytes(56), c=SLOTS, s=counted).lent == counted
    v.section("the receiver of a reading, with a first byte made by hand")
    for first in (*CODES, NOT_OPEN, NOT_OPEN_TOO):
        state = reading[:2] + by_hand(KINDS["an early receiver"], first) + reading[2 + EARLY_SIZE :]
        v.ask("capture_feed", (22,), a=record(heartbeat(1)), c=SLOTS, s=state)
    v.section("the receiver of a reading, made by hand without a name: a record names it, and the report has the name")
    blank = reading_bytes(Reading("records", Report(OPEN_EARLY._replace(session=BLANK))))
    for datagram, name in (
        (heartbeat(1), ROOM),
        (data_of(1, 2), ROOM),
        (data_of(5, 2), ROOM),
        (heartbeat(1, session=BLANK), BLANK),
        (heartbeat(1)[:19], BLANK),
    ):
        fed = v.ask("capture_feed", a=record(datagram), c=SLOTS, s=blank).lent
        assert reading_in(fed).report.receiver.session == name
        v.ask("capture_write", a=fed, s=room(120))
        v.ask("capture_finish", a=record(datagram)[:-1], c=SLOTS, s=blank)
    v.section("no message is there: no byte changes, whatever the cursor was made of")
    cursor = KINDS["a cursor"]
    for data, state in (
        *((TWO, by_hand(cursor, first)) for first in (*CODES[1:], NOT_OPEN, NOT_OPEN_TOO)),
        (TWO, cursor_bytes((20, 0))),
        (TWO, cursor_bytes((TOP, 2))),
        (TWO[:21], cursor),
        (b"", cursor),
    ):
        assert v.ask("mold_next", (0, 0, 0), a=data, s=state + b"\x07").lent == state + b"\x07"


# ---- the last number, and the reply


def last_numbers(v):
    v.section("the last number moves, in every state: it never falls, and is at most 2^64-2")
    for state in STATES:
        for last in (0, 5, TOP - 1, TOP):
            v.heading(f"{state}, last {last}")
            for number in sorted({0, max(last - 1, 0), last, min(last + 1, TOP), TOP - 1, TOP}):
                good = last <= number < TOP
                server = Server(ROOM, last, state)
                answer = v.ask("server_set_last", () if good else (19,), n=number, s=server_bytes(server) + b"\x07")
                after = server._replace(last=number) if good else server
                assert answer.lent == server_bytes(after) + b"\x07"
    v.heading("a closed one by another first byte is laid in its form")
    closed = by_hand(server_bytes(Server(ROOM, 5, "waiting")), NOT_OPEN_TOO)
    assert v.ask("server_set_last", n=6, s=closed).lent == server_bytes(Server(ROOM, 6, "closed"))
    v.heading("a login looks at it")
    moved = v.ask("server_set_last", n=9, s=server_bytes(Server(ROOM, 5, "waiting"))).lent
    v.ask("server_step", ("accepted", 49, 9), a=READER, b=login(BLANK, b"0", READER[:6], READER[6:]), s=moved)


def reply(v, expected, written, server, data, table=READER, size=33):
    """A step with its reply, beside the step alone: they answer the same, and leave the same server."""
    fields = dict(a=table, b=data, s=server_bytes(server))
    alone = v.ask("server_step", expected, **fields)
    answer = v.ask("server_reply", expected, c=room(size), **fields)
    assert answer.lent == alone.lent and answer.also == written + room(size)[len(written) :]
    assert answer.said == alone.said if alone.code else answer.said == [*alone.said, len(written)]


def replies(v):
    waiting = Server(ROOM, 5, "waiting")
    v.section("replies: every state and every letter, each beside the step alone")
    for state, letter, data, expected, _ in rows():
        v.heading(f"{state}: {letter}")
        written = accepted(ROOM, b"3") if expected[0] == "accepted" else b""
        reply(v, expected, written, Server(ROOM, 5, state), data, size=40)
    v.section("replies to logins: A with the server's session and the granted number, J with its reason")
    for wanted, granted in ((0, 5), (1, 1), (5, 5), (6, 6)):
        data = login(BLANK, b"%d" % wanted, READER[:6], READER[6:])
        reply(v, ("accepted", 49, granted), accepted(ROOM, b"%d" % granted), waiting, data)
    reply(v, NOT_AUTHORIZED, packet(b"J", b"A"), waiting, LOGIN, GUEST)
    reply(v, ("rejected", 49, ord("S")), packet(b"J", b"S"), waiting, login(ROOM, b"7", READER[:6], READER[6:]))
    v.heading("the largest number, and a table of too many")
    top = login(ROOM, b"%d" % TOP, READER[:6], READER[6:])
    reply(v, ("accepted", 49, TOP), accepted(ROOM, b"%d" % TOP), Server(ROOM, TOP - 1, "waiting"), top)
    reply(v, (19,), b"", waiting, LOGIN, SOUND_RECORD * 1025)
    v.section("a reply that can't be written undoes its step")
    for size, fields, number in ((32, {}, 41), (0, {}, 41), (3, dict(a=GUEST), 41)):
        given = dict(a=READER, b=LOGIN, s=server_bytes(waiting), c=room(size))
        given.update(fields)
        answer = v.ask("server_reply", (number,), **given)
        assert answer.lent == given["s"] and answer.also == room(size)
    v.heading("46 at a server made by hand, whose session can't stand in A; J is written there all the same")
    for session in (BLANK, bytes(10), b"READ ROOM1"):
        server = server_bytes(Server(session, 5, "waiting"))
        data = login(BLANK, b"0", READER[:6], READER[6:])
        v.ask("server_reply", (46,), a=READER, b=data, c=room(33), s=server)
        v.ask("server_reply", (46,), a=READER, b=data, c=b"", s=server, spare=-1)
        v.ask("server_reply", NOT_AUTHORIZED, a=GUEST, b=data, c=room(4), s=server)


GROUPS = (kinds, phases, last_numbers, replies)
