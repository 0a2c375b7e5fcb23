"""Vectors of the SoupBinTCP session at the client."""
import itertools

from boundary import CLIENT_SIZE, client_bytes, client_in
from lines import room, show_bytes
from logins import BROKEN, LETTERS, OTHER, SHORT, SMALL
from mold_rules import TOP
from server import ALL, MORE, run
from session_rules import Client
from streams import BLANK, MORE_SESSIONS, ROOM, SESSIONS, accepted, packet, raw, right

STATES = ("asked", "in", "ended", "closed")


def at(v, expected, state, data, session=ROOM, number=7):
    """A step of a client that is made by hand, and the client after it: the same where the step is refused."""
    client = Client(session, number, state)
    answer = v.ask("client_step", expected, s=client_bytes(client), a=data)
    assert answer.code == 0 or answer.lent == client_bytes(client)
    return client_in(answer.lent)


def start(v, expected, session, number, more=0):
    """A start into so many bytes more than a state has."""
    answer = v.ask("client_start", expected, a=session, n=number, s=room(CLIENT_SIZE + more))
    assert answer.code or client_in(answer.lent) == Client(session, number, "asked")


def starts(v):
    v.section("starts of a client: the session as in L, and any number")
    for name, session, _, good in SESSIONS + MORE_SESSIONS:
        v.heading(name)
        start(v, () if good else (19,), session, 7, 1)
    for number in (0, 1, 2**32, TOP - 1, TOP):
        v.heading(f"number {number}")
        for session in (ROOM, BLANK):
            start(v, (), session, number, 1)
        start(v, (19,), b"READROOM  ", number, 1)


# what each state answers to each of the server's letters, and the client after it where that is another
TABLE = {
    "asked": {
        "+": (("debug", 7), None),
        "A": (("accepted", 33, 7), Client(ROOM, 7, "in")),
        "J": (("rejected", 4, ord("A")), Client(ROOM, 7, "closed")),
    },
    "in": {
        "+": (("debug", 7), None),
        "S": (("sequenced", 14, 7, 3, 11), Client(ROOM, 8, "in")),
        "H": (("heartbeat", 3), None),
        "Z": (("end of session", 3), Client(ROOM, 7, "ended")),
    },
    "ended": {},
    "closed": {},
}


def grid(v):
    v.section("a client in every state, and every letter of both senders")
    for state, (letter, sender, data) in itertools.product(STATES, LETTERS):
        v.heading(f"{state}: {letter}")
        other = (32 if state in ("ended", "closed") else 31,), None
        expected, after = TABLE[state].get(letter, other) if sender == "server" or letter == "+" else ((23,), None)
        assert at(v, expected, state, data) == (after or Client(ROOM, 7, state))
        at(v, expected, state, data + b"\x00\x01")
    v.section("a client in every state: need more, and 21 to 25 before 32 and 31")
    for state in STATES:
        for name, data in SHORT:
            v.heading(f"{state}: {name}")
            at(v, MORE, state, data)
        for number, name, data in BROKEN["server"]:
            v.heading(f"{state}: {number}, {name}")
            at(v, (number,), state, data)
    v.section("need more at every cut of a login accepted, though its session is another")
    for size in range(33):
        assert at(v, MORE, "asked", accepted(OTHER)[:size]) == Client(ROOM, 7, "asked")
    v.section("both reasons, and others")
    for reason, number in ((b"A", 0), (b"S", 0), (b"a", 25), (b"s", 25), (b" ", 25), (b"\x00", 25)):
        expected = (number,) if number else ("rejected", 4, ord(reason))
        at(v, expected, "asked", packet(b"J", reason))
        at(v, (number or 31,), "in", packet(b"J", reason))
        at(v, (number or 32,), "closed", packet(b"J", reason))
        at(v, expected, "asked", packet(b"J", reason), BLANK, 0)


def logins(v):
    v.section("a login accepted: the asked session unless that was blank, the asked number unless that was 0")
    for asked, number in itertools.product((ROOM, BLANK), (7, 0, 1, TOP)):
        v.heading(f"asked for {show_bytes(asked)} and {number}")
        for given, digits in itertools.product((ROOM, OTHER, SMALL), (b"7", b"0000007", b"8", b"6", b"1", b"%d" % TOP)):
            expected, after = (33,), Client(asked, number, "asked")
            if asked in (BLANK, given) and number in (0, int(digits)):
                expected, after = ("accepted", 33, int(digits)), Client(given, int(digits), "in")
            assert at(v, expected, "asked", accepted(given, digits), asked, number) == after
    v.section("sessions that are like the asked one")
    for asked, given in itertools.product((right(b"ROOM", 10), right(b"ROOM0", 10), b"0000000007"), repeat=2):
        at(v, ("accepted", 33, 7) if asked == given else (33,), "asked", accepted(given), asked, 7)
    for place in range(10):
        other = ROOM[:place] + bytes([ROOM[place] ^ 1]) + ROOM[place + 1 :]
        if other.isalnum():
            at(v, (33,), "asked", accepted(other))
            at(v, ("accepted", 33, 7), "asked", accepted(other), BLANK)
    v.heading("a blank one in the packet is 25, whatever was asked for")
    for asked in (ROOM, BLANK):
        at(v, (25,), "asked", accepted(BLANK), asked)
    v.section("numbers that are like the asked one")
    for asked, given in itertools.product((1, 2**32, 2**32 + 1, 2**63, TOP - 1, TOP), repeat=2):
        expected = ("accepted", 33, given) if asked == given else (33,)
        at(v, expected, "asked", accepted(ROOM, b"%d" % given), ROOM, asked)
    v.heading("0 in the packet is 25, whatever was asked for")
    for asked in (0, 7):
        at(v, (25,), "asked", accepted(ROOM, b"0"), ROOM, asked)
    v.section("31 and 32 before 33")
    for state, number in (("in", 31), ("ended", 32), ("closed", 32)):
        for data in (accepted(), accepted(OTHER), accepted(ROOM, b"8")):
            at(v, (number,), state, data)
            at(v, (number,), state, data, BLANK, 0)


def messages(v):
    v.section("messages: the number moves by one")
    for number in (1, 2, 255, 2**32 - 1, 2**63 - 1, TOP - 2, TOP - 1):
        after = at(v, ("sequenced", 4, number, 3, 1), "in", packet(b"S", b"x"), number=number)
        assert after == Client(ROOM, number + 1, "in")
    v.heading("none of its bytes, the longest, and several packets")
    at(v, ("sequenced", 3, 7, 3, 0), "in", packet(b"S"))
    at(v, ("sequenced", 4099, 7, 3, 4096), "in", packet(b"S", b"m" * 4096) + packet(b"Z"))
    at(v, ("sequenced", 4, 7, 3, 1), "in", packet(b"S", b"\x00") + packet(b"S", b"\x01"))
    at(v, ("debug", 4099), "in", packet(b"+", b"m" * 4096))
    v.heading("of a blank session and number 0, which no login gives")
    at(v, ("sequenced", 4, 0, 3, 1), "in", packet(b"S", b"x"), BLANK, 0)
    v.section("34: a message at 2^64-1")
    for payload in (b"x", b"", b"m" * 4096):
        at(v, (34,), "in", packet(b"S", payload), number=TOP)
    v.heading("need more and 21 to 25 before it; only a message draws it")
    for expected, data in (
        (MORE, packet(b"S", b"x")[:3]),
        ((22,), raw(4098, b"S")),
        (("heartbeat", 3), packet(b"H")),
        (("debug", 3), packet(b"+")),
        (("end of session", 3), packet(b"Z")),
        ((31,), accepted(ROOM, b"%d" % TOP)),
    ):
        at(v, expected, "in", data, number=TOP)
    v.heading("31 and 32 before it")
    for state, number in (("asked", 31), ("ended", 32), ("closed", 32)):
        at(v, (number,), state, packet(b"S", b"x"), number=TOP)


def connections(v):
    def runs(name, data, *pieces, session=ROOM, number=7):
        v.heading(name)
        for piece in pieces or (ALL,):
            v.ask("client_start", a=session, n=number, s=room(CLIENT_SIZE))
            state = client_bytes(Client(session, number, "asked"))
            state = run(lambda state, left: v.ask("client_step", s=state, a=left), state, data, piece)
        return client_in(state)

    v.section("runs of a client, whole and in pieces")
    more = packet(b"S") + packet(b"+", b"note") + packet(b"S", b"\x00\x01S") + packet(b"S", b"last")
    after = packet(b"S", b"first") + packet(b"H") + more + packet(b"Z")
    whole = packet(b"+") + accepted() + after
    assert runs("a whole session", whole, ALL, 50, 33, 7, 1) == Client(ROOM, 11, "ended")
    runs("any session and any number: both from the login accepted", whole, ALL, 9, session=BLANK, number=0)
    runs("any session", whole, session=BLANK)
    runs("any number", whole, number=0)
    runs("leading zeros", accepted(ROOM, b"0007") + after)
    runs("from 1", accepted(ROOM, b"1") + after, number=1)
    for name, data in (
        ("debug", packet(b"+")),
        ("a message", packet(b"S", b"x")),
        ("a heartbeat", packet(b"H")),
        ("an end", packet(b"Z")),
        ("a login accepted", accepted()),
    ):
        runs(f"{name} after the end: 32", whole + data)
        runs(f"{name} after a rejection: 32", packet(b"J", b"A") + data)
    runs("rejected for the session", packet(b"J", b"S"), ALL, 1)
    runs("rejected after debug", packet(b"+", b"note") + packet(b"J", b"A"), session=BLANK, number=0)
    runs("a second login accepted: 31", accepted() + accepted())
    runs("rejected after the login: 31", accepted() + packet(b"J", b"A"))
    runs("a message before the login: 31", packet(b"S", b"x") + accepted())
    runs("a heartbeat before the login: 31", packet(b"H") + accepted())
    runs("an end before the login: 31", packet(b"Z") + accepted())
    runs("another session: 33", packet(b"+") + accepted(OTHER) + after, ALL, 10)
    runs("another number: 33", packet(b"+") + accepted(ROOM, b"8") + after)
    runs("the last packet cut short", whole[:-1], ALL, 30)
    runs("a letter of the client: 23", accepted() + packet(b"R"))
    runs("no bytes", b"")
    runs("the longest message", accepted() + packet(b"S", b"m" * 4096) + packet(b"S", b"n"), ALL, 1000)
    runs("a longer one: 22", accepted() + raw(4098, b"S", b"m" * 4097))
    v.section("runs up to 2^64-1")
    two = packet(b"S", b"x") * 2
    runs("two messages from 2^64-3", accepted(ROOM, b"%d" % (TOP - 2)) + two + packet(b"Z"), number=0)
    runs("two messages from 2^64-2: the second is 34", accepted(ROOM, b"%d" % (TOP - 1)) + two, number=0)
    runs("a message at 2^64-1: 34", accepted(ROOM, b"%d" % TOP) + packet(b"H") + two, number=TOP)
    v.section("starts that are refused, and clients that are made by hand with these settings")
    for session in (b"READROOM  ", bytes(10), b"READ ROOM1"):
        for data in (accepted(), accepted(ROOM, b"1"), packet(b"+"), accepted()[:32], raw(0, b"A")):
            runs(f"session {show_bytes(session)}", data, session=session)

    v.section("33, 31 and 34 leave a client where it was: the next packet goes to the one handed back")
    client = Client(ROOM, 7, "asked")
    before = (accepted(OTHER), accepted(ROOM, b"8"), packet(b"H"), packet(b"R"))
    for data in (*before, accepted(), packet(b"S", b"x"), accepted(), packet(b"S", b"y"), packet(b"Z"), packet(b"+")):
        client = at(v, (), client.state, data, client.session, client.number)
    assert client == Client(ROOM, 9, "ended")


GROUPS = (starts, grid, logins, messages, connections)
