"""Accounts, tables of them and packets that the vectors of the sessions are made of."""
from session_rules import RECORD
from streams import BLANK, GOOD, ROOM, UNSOUND, accepted, login, packet, raw

USER, WORD = b"reader", b"Secret12"
OTHER = b"READROOM02"
SMALL = b"readroom01"


def account(username=USER, password=WORD):
    return username.ljust(6) + password.ljust(10)


READER = account()
GUEST = account(b"guest", b"welcome")
NO_WORD = account(USER, b"")  # a blank password
ZERO_WORD = account(USER, bytes(10))
SPACES = account(b"", b"")
ZEROS = bytes(RECORD)
BAD_RECORDS = SPACES + ZEROS + NO_WORD + ZERO_WORD

# Many records of one byte keep a line short: sixteen equal letters are a sound record, sixteen zero bytes aren't.
SOUND_RECORD = b"a" * RECORD
UNSOUND_RECORD = ZEROS

# passwords beside the one of the record, each with whether it is that
WORDS = [
    ("itself", b"Secret12  ", True),
    ("small letters", b"secret12  ", True),
    ("capitals", b"SECRET12  ", True),
    ("each letter of the other case", b"sECRET12  ", True),
    ("ten zero bytes", bytes(10), False),
    ("ten spaces", BLANK, False),
    ("a zero byte after all its letters", b"Secret12\x00 ", False),
    ("zero bytes after all its letters", b"Secret12\x00\x00", False),
    ("a zero byte at the end", b"Secret12 \x00", False),
    ("a zero byte after a right beginning", b"Sec\x00      ", False),
    ("a zero byte in a right password", b"Sec\x00et12  ", False),
    ("a zero byte first", b"\x00ecret12  ", False),
    ("a zero byte, then other letters", b"Sec\x00other1", False),
    ("a right beginning, then spaces", b"Sec       ", False),
    ("a right beginning, a space, and the right letters", b"Sec et12  ", False),
    ("a space first", b" ecret12  ", False),
    ("one letter", b"S         ", False),
    ("one digit more", b"Secret123 ", False),
    ("letters up to the end", b"Secret12ab", False),
    ("one digit less", b"Secret1   ", False),
    ("another digit", b"Secret13  ", False),
    ("another letter", b"Sacret12  ", False),
    ("a letter with the highest bit", b"Secre\xf412  ", False),
    ("the byte 32 below its first digit", b"Secret\x112  ", False),
    ("the byte 32 below its last digit", b"Secret1\x12  ", False),
]
assert all(len(word) == 10 for _, word, _ in WORDS)


def small_tables():
    """Lookups in tables of at most four records: a section, whether the entry is known, the entry and the records."""
    section = "unsound entries, the record being the same"
    for _, field in UNSOUND:
        for entry in (account(field[:6], WORD), account(USER, field)):
            yield section, False, entry, entry, READER

    section = "usernames that differ in case"
    for name in (b"READER", b"Reader", b"rEADEr"):
        yield section, True, account(name, b"SECRET12"), READER
        yield section, True, READER, account(name, b"sEcReT12")
    yield section, False, account(b"READE"), READER
    yield section, False, account(b"reade\x00"), READER

    section = "the first sound record with the username decides"
    first, second = account(USER, b"first"), account(b"READER", b"second")
    for records, right_one, wrong_one in (
        ((first, second), first, second),
        ((second, first), second, first),
        ((GUEST, first, GUEST, second), first, second),
        ((first, first, second), first, second),
        ((first, second, second), first, second),
    ):
        yield section, True, right_one, *records
        yield section, False, wrong_one, *records
    section = "an unsound record before is skipped"
    for word in (b"", bytes(10), b"a b", b" ab", b"ab\x00", b"ab-"):
        bad = account(USER, word)
        yield section, True, first, bad, first, second
        yield section, False, second, bad, first, second
        yield section, False, bad, bad, first, second
        yield section, False, bad, bad
        yield section, True, first, first, bad
    section = "a record with an unsound username before"
    for name in (b"", bytes(6), b"reade\x00", b" eader", b"rea er", b"reade-"):
        bad = account(name, WORD)
        yield section, True, READER, bad, READER
        yield section, False, bad, bad, READER
    section = "the password of another user"
    yield section, False, account(b"guest", WORD), READER, GUEST
    yield section, False, account(b"guest", WORD), GUEST, READER
    yield section, True, GUEST, READER, GUEST
    yield section, False, account(b"nobody", WORD), READER, GUEST


# ---- packets that a step meets

# the login request of the account
LOGIN = login(ROOM, b"3", USER, WORD)

# a packet of every letter: its letter, its sender (the client, where it is both) and its bytes
LETTERS = [
    *((letter, "client", LOGIN if letter == "L" else data) for letter, data in GOOD["client"].items()),
    *((letter, "server", data) for letter, data in GOOD["server"].items() if letter != "+"),
]

# what the reader of each one's stream refuses
BROKEN = {
    "client": [
        (21, "length 0", raw(0, b"L")),
        (22, "length 4,098", raw(4098, b"U")),
        (23, "no letter", packet(b"?")),
        (23, "a small letter", packet(b"r")),
        (24, "a login request of 46", raw(46, b"L")),
        (24, "a login request of 48", raw(48, b"L")),
        (24, "a logout of 2", packet(b"O", b"x")),
        (25, "a bad session", login(b"READROOM ", b"3", USER, WORD)),
        (25, "a bad number", login(ROOM, b"", USER, WORD)),
    ],
    "server": [
        (21, "length 0", raw(0, b"S")),
        (22, "length 4,098", raw(4098, b"S")),
        (23, "no letter", packet(b"?")),
        (23, "a small letter", packet(b"h")),
        (24, "a login accepted of 30", raw(30, b"A")),
        (24, "an end of 2", packet(b"Z", b"x")),
        (25, "a blank session", accepted(BLANK)),
        (25, "the number 0", accepted(ROOM, b"0")),
        (25, "a bad reason", packet(b"J", b"B")),
    ],
}

# fronts of a packet
SHORT = [
    ("no bytes", b""),
    ("one byte", b"\x00"),
    ("a length alone", b"\x00\x05"),
    ("half of a message", b"\x00\x05+no"),
]
