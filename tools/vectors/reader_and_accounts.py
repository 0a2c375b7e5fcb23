"""Vectors of the program `vectors_reader_and_accounts`: a reader over a datagram, and the lookup and the server's step
over account records, none of which an exported function reaches. Answers are in words."""
import itertools
import typing

from datagrams import ACCEPTED, DELIVERIES, FORGED, FULLEST, REFUSED, TWO, packet
from lines import show_bytes
from logins import (
    BROKEN,
    GUEST,
    LOGIN,
    NO_WORD,
    OTHER,
    READER,
    SHORT,
    SPACES,
    USER,
    WORD,
    WORDS,
    ZERO_WORD,
    ZEROS,
    account,
    small_tables,
)
from mold_rules import TOP, Refused, cursor_located, cursor_next, cursor_start, delivery_start, packet_of
from server import STATES, rows
from session_rules import KNOWN, RECORD, UNKNOWN, Server, account_of, lookup_in, records_of, server_step_in
from streams import BLANK, ROOM, login

RECORDS = 4  # of a table by value


class Told(typing.NamedTuple):
    """An answer in words, and what the vectors expect of it."""

    text: str
    said: list

    def __str__(self):
        return self.text


class Plain(typing.NamedTuple):
    """A function of the program: its number, and its rule from a line's fields to what is told."""

    number: int
    rule: typing.Callable
    words: int = 0

    def answer(self, fields, words):
        return self.rule(**fields)


def show(a, n, m):
    found, after = cursor_located((n, m), a), cursor_next((n, m), a)
    offset, length = found or (0, 0)
    place = f"exists={int(found is not None)} offset={offset} length={length} bytes={show_bytes(a[offset:][:length])}"
    return Told(f"{place} left={m} next n={after[0]} m={after[1]}", [found, after])


def used_of(table, used):
    """The records that are used. A table has four, of zero bytes where the line gives fewer."""
    assert len(table) % RECORD == 0 and len(table) <= RECORDS * RECORD, "no table by value"
    return records_of(table.ljust(RECORDS * RECORD, b"\x00"))[:used]


def lookup_among(a, b, n):
    verdict = lookup_in(used_of(a, n), account_of(b))
    return Told(verdict, [verdict])


def step_among(a, b, c, n, m, s):
    before = after = Server(c, m, next(state for state in STATES if state.startswith(s.decode())))
    try:
        answer, after = server_step_in(before, used_of(a, n), b)
        values = ((key, ord(value) if isinstance(value, bytes) else value) for key, value in answer.values.items())
        text, size = answer.name + "".join(f" {key}={value}" for key, value in values), answer.size
    except Refused as refusal:
        text, size = f"refused {refusal}", 0
    return Told(f"{text} size={size} after {show_bytes(after.session)} {after.last} {after.state}", [text, size, after])


FUNCTIONS = {"show": Plain(0, show), "lookup_among": Plain(1, lookup_among), "step_among": Plain(2, step_among)}


# ---- the reader


def walk(v, data, cursor):
    """Every message from a cursor on, and that there is none behind them."""
    found = cursor
    while found:
        found, cursor = v.ask("show", a=data, n=cursor[0], m=cursor[1]).said


def shows(v):
    v.section("every message of accepted datagrams, and that there is none behind them")
    several = packet(9, b"", b"\x00\x00", b"abc", b"", b"", b"\x00\x05S", b"q" * 300, b"")
    for name, data in [*ACCEPTED, ("eight messages, some of no bytes", several)]:
        if len(packet_of(data)[2]) < 20:
            v.heading(name)
            walk(v, data, cursor_start(data))
    v.section("refused datagrams: none is there")
    for name, data in REFUSED:
        v.case(f"refused, {name}", "show", None, a=data, n=cursor_start(data)[0], m=cursor_start(data)[1])
    v.section("cursors, made up or of another datagram")
    for name, cursor, data in (
        *FORGED,
        ("fewer left than there are", (20, 1), TWO),
        ("the second block, too many left", (24, 3), TWO),
        ("a block of a datagram that is refused for its number", (20, 2), packet(0, b"ab", b"c")),
        ("a block of a datagram with a byte after the last", (20, 3), packet(1, b"ab", b"c", after=b"\x00")),
        ("the blocks that are there, where the last is absent", (20, 2), packet(1, b"ab", count=2)),
        ("in the middle of a length field", (21, 2), TWO),
        ("in the middle of a message, blocks to its end", (23, 9), packet(1, b"x\x00\x01y\x00\x00", b"z")),
        ("the last byte of the datagram", (28, 1), TWO),
        ("the last of 32,743 blocks", (65504, 1), FULLEST),
        ("a length that runs far past the end", (20, 2), packet(1, count=1, after=b"\xff\xffabc")),
        ("2^63, where there are bytes", (2**63, 1), TWO),
    ):
        v.heading(name)
        walk(v, data, cursor)
    v.section("where deliver answers start, forged or not")
    for name, data, values in DELIVERIES:
        v.heading(name)
        for count, skipped in values:
            walk(v, data, delivery_start(data, count, skipped))


# ---- accounts

FOUR = [account(b"user%d" % i, b"word%d" % i) for i in range(RECORDS)]
USED = (0, 1, 2, 3, 4, 5, 1024, 1025, 2**32, 2**32 + 1, TOP)


def known(v, is_known, entry, *records, used=None):
    """All records that are given are used if nothing else is said."""
    table = b"".join(records)
    used = len(table) // RECORD if used is None else used
    v.ask("lookup_among", (KNOWN if is_known else UNKNOWN,), a=table, b=entry, n=used)


def lookups(v):
    v.section("how many records are used: more than there are means all, and those beyond don't count")
    for used in USED:
        v.heading(f"{used} used: each entry in turn, and an entry that is in none")
        for place, entry in enumerate(FOUR):
            known(v, place < used, entry, *FOUR, used=used)
        known(v, False, account(b"nobody", WORD), *FOUR, used=used)
    v.section("passwords, at the first and the last record, beside blank and zero records")
    for name, word, same in WORDS:
        v.heading(name)
        known(v, same, account(USER, word), READER)
        known(v, same, account(USER, word), NO_WORD, ZERO_WORD, SPACES, READER)
    v.section("a blank entry and a zero entry, whatever the table holds")
    for entry in (SPACES, ZEROS, NO_WORD, ZERO_WORD, account(b"", WORD), account(bytes(6), WORD)):
        for records in ((), (entry,), (entry, READER), (SPACES, ZEROS, NO_WORD, ZERO_WORD)):
            known(v, False, entry, *records, used=TOP)
    for section, tables in itertools.groupby(small_tables(), lambda row: row[0]):
        v.section(section)
        for _, is_known, entry, *records in tables:
            known(v, is_known, entry, *records)


def step(v, expected, state, data, *records, used=TOP, last=5, after=None):
    """A step, its answer in words, and the state after it, the same where nothing else is said."""
    fields = dict(a=b"".join(records), b=data, c=ROOM, n=used, m=last, s=state[:1].encode())
    answer, _, server = v.ask("step_among", **fields).said
    assert answer.startswith(expected) and server == Server(ROOM, last, after or state), (answer, server)


def steps(v):
    v.section("a server in every state, and every letter of both senders")
    for state, letter, data, expected, after in rows():
        v.heading(f"{state}: {letter}")
        said = expected[0] if isinstance(expected[0], str) else f"refused {expected[0]}"
        step(v, said, state, data, GUEST, READER, after=after)
        if letter != "L":
            step(v, said, state, data, READER, used=0, after=after)
    v.section("a server in every state: need more, and 21 to 25 before 32 and 31")
    for state in STATES:
        for name, data in SHORT:
            v.heading(f"{state}: {name}")
            step(v, "need more", state, data, READER)
        for number, name, data in BROKEN["client"]:
            v.heading(f"{state}: {number}, {name}")
            step(v, f"refused {number}", state, data, READER)


def logins(v):
    def logs_in(expected, entry, *records, used=TOP, session=ROOM, wanted=b"3", last=5):
        data = login(session, wanted, entry[:6], entry[6:])
        after = "in" if expected.startswith("accepted") else "closed"
        step(v, expected, "waiting", data, *records, used=used, last=last, after=after)

    good, refused, unavailable = "accepted number=3", f"rejected reason={ord('A')}", f"rejected reason={ord('S')}"
    v.section("logins by how many records are used")
    for used in USED:
        v.heading(f"{used} used: each entry in turn")
        for place, entry in enumerate(FOUR):
            logs_in(good if place < used else refused, entry, *FOUR, used=used)
    v.section("logins by password, also where a record is blank")
    for name, word, same in WORDS:
        v.heading(name)
        logs_in(good if same else refused, account(USER, word), NO_WORD, ZERO_WORD, SPACES, READER)
    v.section("logins by session and by number, which the table has no part in")
    for session in (ROOM, BLANK, OTHER):
        logs_in(unavailable if session == OTHER else good, READER, GUEST, READER, session=session)
        logs_in(refused, READER, GUEST, session=session)
    granted = ((0, 0, 1), (0, 1, 1), (5, 0, 5), (5, 6, 6), (TOP - 1, TOP, TOP), (TOP - 1, 0, TOP - 1))
    for last, wanted, number in granted:
        logs_in(f"accepted number={number}", READER, READER, wanted=b"%d" % wanted, last=last)
    for last, wanted in ((0, 2), (5, 7), (5, TOP), (TOP - 2, TOP)):
        logs_in(unavailable, READER, READER, wanted=b"%d" % wanted, last=last)
    v.heading("need more at a cut of a login request")
    step(v, "need more", "waiting", LOGIN[:48], READER)


GROUPS = (shows, lookups, steps, logins)
