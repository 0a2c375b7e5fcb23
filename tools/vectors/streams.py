"""SoupBinTCP packets and text fields, good and bad, that several groups of vectors share."""
from mold_rules import TOP

ROOM = b"READROOM01"
BLANK = b" " * 10
USER = b"reader"
PASSWORD = b"secret123 "


def raw(length, letter, payload=b""):
    """A packet with any length and letter before its payload."""
    return length.to_bytes(2, "big") + letter + payload


def packet(letter, payload=b""):
    return raw(1 + len(payload), letter, payload)


def right(text, size):
    return text.rjust(size)


def accepted(session=ROOM, number=b"7"):
    return packet(b"A", right(session, 10) + right(number, 20))


def login(session=ROOM, number=b"7", username=USER, password=PASSWORD):
    return packet(b"L", username.ljust(6) + password.ljust(10) + right(session, 10) + right(number, 20))


# one good packet of each letter
GOOD = {
    "server": {
        "+": packet(b"+", b"note"),
        "A": accepted(),
        "J": packet(b"J", b"A"),
        "S": packet(b"S", b"one message"),
        "H": packet(b"H"),
        "Z": packet(b"Z"),
    },
    "client": {
        "+": packet(b"+", b"note"),
        "L": login(),
        "U": packet(b"U", b"one message"),
        "R": packet(b"R"),
        "O": packet(b"O"),
    },
}

# number fields: digits and the spaces before them, with the number in A and the one in L, None where bad
NUMBERS = [
    ("one digit", right(b"1", 20), 1, 1),
    ("the largest number", right(b"18446744073709551615", 20), TOP, TOP),
    ("one more", right(b"18446744073709551616", 20), None, None),
    ("nineteen digits", right(b"9999999999999999999", 20), 9999999999999999999, 9999999999999999999),
    ("twenty nines", b"9" * 20, None, None),
    ("10^19", right(b"10000000000000000000", 20), 10**19, 10**19),
    ("one above 2^64, by its ninth digit", right(b"18446744083709551615", 20), None, None),
    ("2^64 + 1: 1 were it cut to 64 bits", right(b"18446744073709551617", 20), None, None),
    ("2^32", right(b"4294967296", 20), 2**32, 2**32),
    ("leading zeros", right(b"0000007", 20), 7, 7),
    ("leading zeros up to the left end", b"7".rjust(20, b"0"), 7, 7),
    ("one leading zero", right(b"07", 20), 7, 7),
    ("a zero", right(b"0", 20), None, 0),
    ("two zeros", right(b"00", 20), None, 0),
    ("all zeros", b"0" * 20, None, 0),
    ("blank", b" " * 20, None, None),
    ("a space inside", right(b"1 2", 20), None, None),
    ("a space after a zero", right(b"0 1", 20), None, None),
    ("a space after", right(b"7 ", 20), None, None),
    ("left-justified", b"7".ljust(20), None, None),
    ("twenty digits and the last a space", b"1" * 19 + b" ", None, None),
    ("a plus sign", right(b"+7", 20), None, None),
    ("a minus sign", right(b"-7", 20), None, None),
    ("a sign after the digits", right(b"7-", 20), None, None),
    ("a sign before spaces", b"-" + right(b"7", 19), None, None),
    ("a sign alone", right(b"-", 20), None, None),
    ("a point", right(b"7.0", 20), None, None),
    ("hex", right(b"0x7", 20), None, None),
    ("a letter", right(b"7a", 20), None, None),
    ("an underscore", right(b"1_000", 20), None, None),
    ("a line feed after", right(b"7\n", 20), None, None),
    ("a tab before", right(b"\t7", 20), None, None),
    ("the byte below 0", right(b"7\x2f", 20), None, None),
    ("the byte above 9", right(b"7\x3a", 20), None, None),
    ("a byte 0 after", b"7".rjust(19) + b"\x00", None, None),
    ("a byte 0 before", b"\x00" + right(b"7", 19), None, None),
    ("bytes 0", bytes(20), None, None),
    ("the byte of value 7", right(b"\x07", 20), None, None),
    ("digits with the highest bit", right(b"\xb7", 20), None, None),
]

# the bytes just outside the letters and the digits
OUTSIDE = b"\x2f\x3a\x40\x5b\x60\x7b"

# session fields: the two truths are whether it is one in A and in L
SESSIONS = [
    ("ten letters and digits", b"READROOM01", True, True),
    ("one letter", right(b"R", 10), True, True),
    ("one digit", right(b"0", 10), True, True),
    ("letters of both cases", b"  ReadRoom", True, True),
    ("the first and last of each range", b"    09AZaz", True, True),
    ("digits alone", b"0123456789", True, True),
    ("blank", BLANK, False, True),
    ("a space inside", b"  READ ROO", False, False),
    ("a space inside, the last a digit", b"READROOM 1", False, False),
    ("a space after", b"  READROO ", False, False),
    ("left-justified", b"READROOM  ", False, False),
    ("a space after nine letters", b"READROOM0 ", False, False),
    ("a byte 0 inside", b"READ\x00OOM01", False, False),
    ("a byte 0 after", b" READROOM\x00", False, False),
    ("a byte 0 before", b"\x00READROOM0", False, False),
    ("a byte 0 after spaces", b"         \x00", False, False),
    ("bytes 0", bytes(10), False, False),
    ("a tab before", b"\tREADROOM0", False, False),
    ("a line feed after", b" READROOM\n", False, False),
    *((f"the byte {byte:02X} inside", b" READ" + bytes([byte]) + b"ROOM", False, False) for byte in OUTSIDE),
]
MORE_SESSIONS = [
    *((f"the byte {byte:02X} last", b" READROOM" + bytes([byte]), False, False) for byte in OUTSIDE),
    *((f"the byte {byte:02X} first", bytes([byte]) + b"READROOM0", False, False) for byte in OUTSIDE),
    *((f"the byte {byte:02X} alone", BLANK[1:] + bytes([byte]), False, False) for byte in OUTSIDE + b"-_\xc1\xff"),
]

# bytes around every bound of letters and digits
EDGES = b"\x00\x1f\x20\x21\x2f\x30\x39\x3a\x40\x41\x5a\x5b\x60\x61\x7a\x7b\x7f\x80\xa0\xb0\xc1\xe1\xff"

REASONS = b"ASas0B \x00\x01@CRT\x80\xc1\xd3\xff"

# usernames and passwords that aren't sound, without the spaces after them
UNSOUND = [
    ("no bytes but spaces", b""),
    ("a space first", b" user"),
    ("a space inside", b"us er"),
    ("a byte 0 first", b"\x00user"),
    ("a byte 0 after the letters", b"user\x00"),
    ("a byte 0 after a space", b"usr \x00"),
    ("bytes 0", bytes(6)),
    ("not a letter or digit, first", b"-user"),
    ("not a letter or digit, inside", b"us_er"),
    ("not a letter or digit, last", b"usere."),
    ("a letter behind a space", b"us  r"),
    *((f"the byte {byte:02X}", b"us" + bytes([byte])) for byte in OUTSIDE),
    ("a letter with the highest bit", b"use\xf2"),
]
