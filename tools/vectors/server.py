"""Vectors of the SoupBinTCP session at the server, and of the lock: a lookup is a login at a server that waits."""
import itertools

from boundary import SERVER_SIZE, server_bytes, server_in
from lines import room, show_bytes
from logins import (
    BAD_RECORDS,
    BROKEN,
    GUEST,
    LETTERS,
    LOGIN,
    NO_WORD,
    OTHER,
    READER,
    SHORT,
    SMALL,
    SOUND_RECORD,
    SPACES,
    UNSOUND_RECORD,
    USER,
    WORD,
    WORDS,
    ZERO_WORD,
    ZEROS,
    account,
    small_tables,
)
from mold_rules import TOP
from session_rules import Server
from streams import BLANK, MORE_SESSIONS, ROOM, SESSIONS, login, packet, raw, right

STATES = ("waiting", "in", "closed")
ALL = 16384  # a piece that holds a whole stream
TOO_MANY = UNSOUND_RECORD * 1025
MORE = ("need more", 0)
NOT_AUTHORIZED = ("rejected", 49, ord("A"))
NOT_AVAILABLE = ("rejected", 49, ord("S"))


def numbers(*given):
    """Those that are numbers of 64 bits, each once."""
    return sorted({number for number in given if 0 <= number <= TOP})


def step(v, expected, server, data, *records):
    """A step of a server that is made by hand, and the server after it."""
    answer = v.ask("server_step", expected, s=server_bytes(server), a=b"".join(records), b=data)
    return server_in(answer.lent)


def run(ask, state, stream, piece):
    """Each step over a stream that comes in pieces of one size, given the state that the line before left, until it is
    refused, or has come and more is needed."""
    taken, come = 0, piece
    while True:
        answer = ask(state, stream[taken:come])
        state = answer.lent
        if answer.said[0] != "need more":
            if answer.code:
                return state
            taken += answer.said[1]
        elif come >= len(stream):
            return state
        else:
            come += piece


# ---- the lock


def request(entry=READER, asked=BLANK, wanted=0):
    """A login request. One whose session has fewer bytes isn't whole, one whose session has more has a bad number."""
    return raw(47, b"L", entry + asked + b"%20d" % wanted)


def look_up(v, expected, entry, *records):
    step(v, expected, Server(ROOM, 5, "waiting"), request(entry), *records)


def known(v, is_known, entry, *records):
    look_up(v, ("accepted", 49, 5) if is_known else NOT_AUTHORIZED, entry, *records)


def lookups(v):
    v.section("passwords, in a table that has the record, and blank and zero records")
    for name, word, same in WORDS:
        v.heading(name)
        known(v, same, account(USER, word), READER)
        known(v, same, account(USER, word), BAD_RECORDS, READER, GUEST)
    v.section("a blank entry and a zero entry, whatever the table holds")
    for entry in (SPACES, ZEROS, NO_WORD, ZERO_WORD, account(b"", WORD), account(bytes(6), WORD)):
        for table in (b"", entry, SPACES, ZEROS, NO_WORD, ZERO_WORD, READER, BAD_RECORDS + READER):
            known(v, False, entry, table)
    for section, tables in itertools.groupby(small_tables(), lambda row: row[0]):
        v.section(section)
        for _, is_known, entry, *records in tables:
            known(v, is_known, entry, *records)

    v.section("bytes left over are no record")
    for size in (0, 1, 6, 15):
        v.heading(f"{size} bytes of the record")
        known(v, False, READER, READER[:size])
        known(v, False, READER, GUEST, READER[:size])
        known(v, True, READER, READER, GUEST[:size])
        known(v, False, account(USER, b"other"), READER, account(USER, b"other")[:size])
    v.heading("records stand at every sixteenth byte, and nowhere else")
    for size in (1, 6, 8, 10, 15):
        known(v, False, READER, b"x" * size, READER)
    known(v, True, READER, b"x" * 16, READER)


def compared(v):
    """All bytes of both fields are compared, letters without case."""
    full = account(b"abcdef", b"ghijklmnop")
    v.section("one byte differs, and one letter is of the other case, at each place")
    for at in range(16):
        for byte, same in ((ord("7"), False), (full[at] ^ 32, True)):
            known(v, same, full[:at] + bytes([byte]) + full[at + 1 :], full)
    v.section("around the bounds of letters and digits, in the username and in the password")
    for byte in b"09AZMaz":
        for other in sorted({byte, byte ^ 32, byte ^ 128, byte - 1, byte + 1, byte + 32, byte - 32, 0}):
            for make in (lambda field: account(field, WORD), lambda field: account(USER, field)):
                record, entry = (make(b"us" + bytes([b]) + b"r") for b in (byte, other))
                known(v, other in (byte, byte ^ 32) and chr(byte).isalpha() or other == byte, entry, record)


def long_tables(v):
    v.section("at most 1,024 records, else 19")
    for count in (255, 256, 1022, 1023):
        v.heading(f"the last of {count + 1}")
        known(v, True, READER, SOUND_RECORD * count, READER)
        known(v, False, account(USER, b"other"), SOUND_RECORD * count, READER)
    v.heading("1,024, and fifteen bytes left over")
    known(v, True, READER, SOUND_RECORD * 1023, READER, READER[:15])
    known(v, False, READER, SOUND_RECORD * 1024, READER[:15])
    v.heading("1,024 of the same, and of zero bytes")
    known(v, True, SOUND_RECORD, SOUND_RECORD * 1024)
    known(v, False, READER, SOUND_RECORD * 1024)
    known(v, False, READER, UNSOUND_RECORD * 1024)
    for count in (1024, 1025, 1200):
        v.heading(f"{count + 1}: the entry is the last, the first, in none, unsound")
        for entry in (READER, SOUND_RECORD, GUEST, account(b"nobody"), ZEROS):
            look_up(v, (19,), entry, SOUND_RECORD * count, READER)
    v.heading("1,025 of zero bytes, and with bytes left over")
    look_up(v, (19,), READER, TOO_MANY)
    look_up(v, (19,), SPACES, TOO_MANY)
    look_up(v, (19,), READER, SOUND_RECORD * 1025, READER[:1])


def decide(v, expected, asked, wanted, session=ROOM, last=5, table=READER):
    return step(v, expected, Server(session, last, "waiting"), request(READER, asked, wanted), table)


def decisions(v):
    v.section("the number that is wanted, with a blank session and with the server's")
    for last in (0, 1, 2, 5, 2**32, TOP - 2, TOP - 1, TOP):
        v.heading(f"last {last}")
        for wanted in numbers(0, 1, 2, 3, last - 1, last, last + 1, last + 2, 2**63, TOP - 1, TOP):
            granted = ("accepted", 49, wanted or max(last, 1))
            for asked in (BLANK, ROOM):
                decide(v, granted if wanted <= last + 1 else NOT_AVAILABLE, asked, wanted, last=last)
    v.section("the session that is asked for: blank, or exactly the server's")
    for name, asked, expected in (
        ("the server's", ROOM, None),
        ("blank", BLANK, None),
        ("another", OTHER, NOT_AVAILABLE),
        ("small letters", SMALL, NOT_AVAILABLE),
        ("one letter small", b"READROOm01", NOT_AVAILABLE),
        ("the first letter differs", b"SEADROOM01", NOT_AVAILABLE),
        ("its beginning", b" READROOM0", NOT_AVAILABLE),
        ("its beginning, with spaces after", b"READROOM  ", (25,)),
        ("zero bytes", bytes(10), (25,)),
        ("no bytes", b"", MORE),
        ("nine bytes", ROOM[:9], MORE),
        ("eleven bytes", ROOM + b"1", (25,)),
        ("the server's, and a space", ROOM + b" ", (25,)),
        ("the server's, and a zero byte", ROOM + b"\x00", (25,)),
        ("twice", ROOM + ROOM, (25,)),
        ("nine spaces", BLANK[:9], MORE),
        ("eleven spaces", BLANK + b" ", (25,)),
        ("a tab among spaces", b"     \t    ", (25,)),
        ("nine spaces and a zero byte", BLANK[:9] + b"\x00", (25,)),
    ):
        v.heading(name)
        for wanted in (0, 3, 6):
            decide(v, expected or ("accepted", 49, wanted or 5), asked, wanted)
        decide(v, expected or NOT_AVAILABLE, asked, 7)
    v.heading("one byte differs, at each place")
    for at in range(10):
        for other in (ROOM[:at] + bytes([ROOM[at] ^ 1]) + ROOM[at + 1 :], BLANK[:at] + b"0" + BLANK[at + 1 :]):
            assert decide(v, (), other, 1).state != "in"
    v.heading("a server's session with spaces before")
    name = right(b"ROOM", 10)
    decide(v, ("accepted", 49, 1), name, 1, session=name)
    decide(v, MORE, b"ROOM", 1, session=name)
    decide(v, (25,), b"ROOM".ljust(10), 1, session=name)
    decide(v, NOT_AVAILABLE, right(b"room", 10), 1, session=name)
    v.heading("a server's session of zero bytes, which no start gives")
    decide(v, (25,), bytes(10), 1, session=bytes(10))
    decide(v, MORE, bytes(9), 1, session=bytes(10))
    v.section("an unknown account: J with A, before J with S; a table of too many records: 19, whatever is asked for")
    for asked, wanted in itertools.product((BLANK, ROOM, OTHER, b""), (0, 1, 5, 6, 7, TOP)):
        decide(v, NOT_AUTHORIZED if asked else MORE, asked, wanted, table=b"")
        decide(v, (19,), asked, wanted, table=TOO_MANY)


# ---- the session


def starts(v):
    v.section("starts of a server: the session as in A, the last number at most 2^64-2")
    for name, session, good, _ in SESSIONS + MORE_SESSIONS:
        v.heading(name)
        start(v, () if good else (19,), session, 5, 1)
    for last in (0, 1, 2**32, TOP - 2, TOP - 1, TOP):
        v.heading(f"last {last}")
        start(v, () if last < TOP else (19,), ROOM, last, 1)
        start(v, (19,), BLANK, last, 1)


def start(v, expected, session, last, more=0):
    """A start into so many bytes more than a state has."""
    answer = v.ask("server_start", expected, a=session, n=last, s=room(SERVER_SIZE + more))
    assert answer.code or server_in(answer.lent) == Server(session, last, "waiting")


def at(v, expected, state, data, table=READER, after=None):
    """A step in a state, and the state after it, the same where nothing else is said."""
    assert step(v, expected, Server(ROOM, 5, state), data, table) == Server(ROOM, 5, after or state)


# what each state answers to each of the client's letters, and the state after it where that is another
TABLE = {
    "waiting": {"+": (("debug", 7), None), "L": (("accepted", 49, 3), "in")},
    "in": {
        "+": (("debug", 7), None),
        "U": (("unsequenced", 14, 3, 11), None),
        "R": (("heartbeat", 3), None),
        "O": (("logged out", 3), "closed"),
    },
    "closed": {},
}


def rows():
    """Every state and every letter of both senders: the packet, how the answer begins, and the state after it."""
    for state in STATES:
        for letter, sender, data in LETTERS:
            other = (32 if state == "closed" else 31,), None
            expected, after = TABLE[state].get(letter, other) if sender == "client" else ((23,), None)
            yield state, letter, data, expected, after


def grid(v):
    v.section("a server in every state, and every letter of both senders")
    for state, letter, data, expected, after in rows():
        v.heading(f"{state}: {letter}")
        at(v, expected, state, data, after=after)
        at(v, expected, state, data + b"\x00\x01", after=after)
        if letter != "L":
            at(v, expected, state, data, b"", after)
    v.section("a server in every state: need more, and 21 to 25 before 32 and 31")
    for state in STATES:
        for name, data in SHORT:
            v.heading(f"{state}: {name}")
            at(v, MORE, state, data)
        for number, name, data in BROKEN["client"]:
            v.heading(f"{state}: {number}, {name}")
            at(v, (number,), state, data)
    v.section("need more at every cut of a login request")
    for size in range(len(LOGIN)):
        at(v, MORE, "waiting", LOGIN[:size])
    for state in ("in", "closed"):
        v.heading(state)
        for size in (2, 3, 48):
            at(v, MORE, state, LOGIN[:size])
    v.section("19 for the table before all else, in every state")
    parts = (b"", b"\x00", LOGIN[:20])
    plain = tuple(packet(letter) for letter in (b"+", b"R", b"O", b"H"))
    for state in STATES:
        v.heading(state)
        for data in (*parts, LOGIN, packet(b"U", b"x"), *plain, raw(0, b"L"), raw(46, b"L")):
            at(v, (19,), state, data, SOUND_RECORD * 1025)
    v.heading("a table of 1,024 and fifteen bytes")
    at(v, NOT_AUTHORIZED, "waiting", LOGIN, SOUND_RECORD * 1024 + READER[:15], "closed")
    at(v, MORE, "waiting", b"", SOUND_RECORD * 1024)
    at(v, (32,), "closed", LOGIN, SOUND_RECORD * 1024)
    v.section("messages of a client: none of its bytes, the longest, and several packets")
    at(v, ("unsequenced", 3, 3, 0), "in", packet(b"U"))
    at(v, ("unsequenced", 4099, 3, 4096), "in", packet(b"U", b"m" * 4096) + packet(b"O"))
    at(v, ("unsequenced", 4, 3, 1), "in", packet(b"U", b"\x00") + packet(b"U", b"\x01"))
    at(v, ("debug", 4099), "in", packet(b"+", b"m" * 4096))
    at(v, ("debug", 3), "waiting", packet(b"+") + LOGIN)


def logins(v):
    def logs_in(expected, entry, *records, session=ROOM, wanted=b"3", last=5, name=ROOM):
        data = login(session, wanted, entry[:6], entry[6:])
        after = "in" if expected[0] == "accepted" else "closed"
        assert step(v, expected, Server(name, last, "waiting"), data, *records) == Server(name, last, after)

    good = ("accepted", 49, 3)
    v.section("logins by password, also where a record is blank")
    for name, word, same in WORDS:
        v.heading(name)
        for records in ((READER,), (BAD_RECORDS, READER)):
            logs_in(good if same else NOT_AUTHORIZED, account(USER, word), *records)
    v.section("a blank login and a zero login, whatever the table holds")
    for entry in (SPACES, ZEROS, NO_WORD, ZERO_WORD):
        for table in (b"", entry, BAD_RECORDS):
            logs_in(NOT_AUTHORIZED, entry, table)
    v.section("logins by username and by record")
    first, second = account(USER, b"first"), account(b"READER", b"second")
    for entry, records, same in (
        (READER, (), False),
        (READER, (READER[:15],), False),
        (READER, (GUEST, READER[:15]), False),
        (READER, (GUEST, READER, b"x"), True),
        (account(b"READER"), (READER,), True),
        (READER, (account(b"ReadeR"),), True),
        (account(b"reade"), (READER,), False),
        (account(b"guest"), (GUEST, READER), False),
        (first, (first, second), True),
        (second, (first, second), False),
        (second, (NO_WORD, second, first), True),
        (first, (NO_WORD, second, first), False),
        (first, (ZERO_WORD, first, second), True),
        (NO_WORD, (NO_WORD, first), False),
    ):
        logs_in(good if same else NOT_AUTHORIZED, entry, *records)
    v.section("logins by session")
    for session in (ROOM, BLANK, OTHER, SMALL, right(b"READROOM0", 10), right(b"1", 10)):
        logs_in(good if session in (ROOM, BLANK) else NOT_AVAILABLE, READER, READER, session=session)
        logs_in(NOT_AUTHORIZED, GUEST, READER, session=session)
    logs_in(good, READER, READER, session=right(b"ROOM", 10), name=right(b"ROOM", 10))
    logs_in(NOT_AVAILABLE, READER, READER, session=right(b"room", 10), name=right(b"ROOM", 10))
    v.section("logins by number")
    for last in (0, 1, 5, TOP - 2, TOP - 1):
        v.heading(f"last {last}")
        for wanted in numbers(0, 1, last, last + 1, last + 2, TOP - 1, TOP):
            expected = ("accepted", 49, wanted or max(last, 1)) if wanted <= last + 1 else NOT_AVAILABLE
            for session in (ROOM, BLANK):
                logs_in(expected, READER, READER, wanted=b"%d" % wanted, last=last, session=session)
    v.heading("leading zeros")
    logs_in(("accepted", 49, 6), READER, READER, wanted=b"0" * 19 + b"6")
    logs_in(("accepted", 49, 5), READER, READER, wanted=b"000")
    logs_in(NOT_AVAILABLE, READER, READER, wanted=b"0" * 19 + b"7")
    v.section("J with A before J with S")
    logs_in(NOT_AUTHORIZED, GUEST, READER, session=OTHER, wanted=b"7")
    logs_in(NOT_AUTHORIZED, GUEST, READER, wanted=b"7")
    logs_in(NOT_AVAILABLE, READER, READER, session=OTHER, wanted=b"7")


def connections(v):
    def runs(name, data, *pieces, session=ROOM, last=5, table=READER):
        v.heading(name)
        for piece in pieces or (ALL,):
            v.ask("server_start", a=session, n=last, s=room(SERVER_SIZE))
            state = server_bytes(Server(session, last, "waiting"))
            state = run(lambda state, left: v.ask("server_step", s=state, a=table, b=left), state, data, piece)
        return server_in(state).state

    v.section("runs of a server, whole and in pieces")
    messages = packet(b"U", b"first") + packet(b"U") + packet(b"+") + packet(b"U", b"\x00\x01U")
    first = packet(b"+", b"note") + login(BLANK, b"0", b"READER", b"secret12")
    whole = first + packet(b"R") + messages + packet(b"O")
    assert runs("a whole session", whole, ALL, 60, 49, 7, 1) == "closed"
    runs("packets after the logout: 32", whole + packet(b"+"), ALL, 11)
    runs("a login after the logout: 32", whole + LOGIN)
    runs("a second login: 31", LOGIN + LOGIN + packet(b"U", b"x"))
    runs("a message before the login: 31", packet(b"+") + packet(b"U", b"x") + LOGIN)
    runs("a heartbeat before the login: 31", packet(b"R") + LOGIN)
    runs("a logout before the login: 31", packet(b"O") + LOGIN)
    runs("rejected, and tried again: 32", login(ROOM, b"3", USER, b"other") + LOGIN, ALL, 1)
    runs("rejected for the session, and debug: 32", login(OTHER, b"3", USER, WORD) + packet(b"+"))
    runs("rejected for the number", login(ROOM, b"7", USER, WORD))
    runs("a zero password", login(ROOM, b"3", USER, bytes(10)) + LOGIN, table=BAD_RECORDS + READER)
    runs("the last packet cut short", whole[:-1], ALL, 30)
    runs("a letter of the server after the login: 23", LOGIN + packet(b"H"))
    runs("no bytes", b"")
    runs("the longest message", LOGIN + packet(b"U", b"m" * 4096) + packet(b"U", b"n"), ALL, 1000)
    runs("a longer one: 22", LOGIN + raw(4098, b"U", b"m" * 4097))
    runs("a table of 1,025: 19", LOGIN, table=SOUND_RECORD * 1025)
    runs("a table of 1,024", LOGIN + packet(b"O"), table=SOUND_RECORD * 1024)
    v.section("starts that are refused, and servers that are made by hand with these settings")
    for session, last in ((BLANK, 5), (b"READROOM  ", 5), (bytes(10), 5), (ROOM, TOP)):
        runs(f"session {show_bytes(session)}, last {last}", LOGIN, session=session, last=last)
        runs("need more", LOGIN[:48], session=session, last=last)
        runs("19", LOGIN, session=session, last=last, table=SOUND_RECORD * 1025)
    v.section("runs at the largest numbers")
    runs("last 2^64-2, wanted 2^64-1", login(ROOM, b"%d" % TOP, USER, WORD) + packet(b"R"), last=TOP - 1)
    runs("last 2^64-2, wanted 0", login(ROOM, b"0", USER, WORD) + packet(b"R"), last=TOP - 1)
    runs("last 0, wanted 0", login(ROOM, b"0", USER, WORD) + packet(b"R"), last=0)
    runs("last 0, wanted 2", login(ROOM, b"2", USER, WORD) + packet(b"R"), last=0)


GROUPS = (lookups, compared, long_tables, decisions, starts, grid, logins, connections)
