"""Captures and their parts, good and bad settings among them, that the vectors of captures are made of."""
from datagrams import ROOM, data_of, end, heartbeat
from mold_rules import TOP


def lines(session=ROOM, next=1, limit=100):
    return b"session=%b\nnext=%d\nlimit=%d\n" % (session, next, limit)


def record(datagram):
    return len(datagram).to_bytes(2, "big") + datagram


def capture(*datagrams, start=lines(), after=b""):
    return start + b"".join(record(datagram) for datagram in datagrams) + after


# captures/gaps.capture: gaps that stay, gaps that are closed later, two packets swapped, and an end of session with one
# more datagram behind it
GAPS = capture(
    data_of(1, 2),
    data_of(5, 2),
    data_of(10, 3),
    data_of(9, 1),
    data_of(3, 1),
    data_of(5, 2, session=b"READROOM02"),
    heartbeat(16),
    data_of(14, 2),
    end(20),
    data_of(18, 1),
)

GOOD_SETTINGS = [
    ("as in the document", lines()),
    ("the smallest numbers", lines(next=1, limit=1)),
    ("limit 65534", lines(limit=65534)),
    ("a limit of one digit", lines(limit=9)),
    ("two digits", lines(next=10, limit=10)),
    ("zeros after the first digit", lines(next=1000000000000000000, limit=60000)),
    ("next at 2^64-1", lines(next=TOP)),
    ("next at 2^64-2", lines(next=TOP - 1)),
    ("the longest settings", lines(next=TOP, limit=65534)),
    ("0x20 first, 0x7E last", lines(session=b" READROOM~")),
    ("nine spaces and a letter", lines(session=b"         R")),
    ("a letter and nine spaces", lines(session=b"R         ")),
]

BLANK = b" " * 10
FIRST, SECOND, THIRD = lines().splitlines(keepends=True)
BAD_SETTINGS = [
    ("no bytes", b""),
    ("a line feed alone", b"\n"),
    ("three line feeds", b"\n\n\n"),
    ("the first line missing", SECOND + THIRD),
    ("the second line missing", FIRST + THIRD),
    ("the third line missing", FIRST + SECOND),
    ("the first line alone", FIRST),
    ("a line given twice", FIRST + SECOND + SECOND + THIRD),
    ("an empty line between", FIRST + b"\n" + SECOND + THIRD),
    ("an empty line in front", b"\n" + lines()),
    ("the last two swapped", FIRST + THIRD + SECOND),
    ("the first two swapped", SECOND + FIRST + THIRD),
    ("the last in front", THIRD + FIRST + SECOND),
    ("another key: Session", b"S" + lines()[1:]),
    ("another key: sessions", b"sessions=READROOM0\nnext=1\nlimit=100\n"),
    ("another key: name", b"name=READROOM01\n" + SECOND + THIRD),
    ("another key: nex", FIRST + b"nex=1\n" + THIRD),
    ("another key: Next", FIRST + b"Next=1\n" + THIRD),
    ("another key: Limit", FIRST + SECOND + b"Limit=100\n"),
    ("another key: limits", FIRST + SECOND + b"limits=100\n"),
    ("no = in the first line", b"session READROOM01\n" + SECOND + THIRD),
    ("no = in the second line", FIRST + b"next1\n" + THIRD),
    ("no = in the third line", FIRST + SECOND + b"limit100\n"),
    ("a space after =", FIRST + b"next= 1\n" + THIRD),
    ("a space before =", FIRST + b"next =1\n" + THIRD),
    ("a space in front of a line", FIRST + b" next=1\n" + THIRD),
    ("a space after a number", FIRST + b"next=1 \n" + THIRD),
    ("a space after the limit", FIRST + SECOND + b"limit=100 \n"),
    ("a space in a number", FIRST + b"next=1 0\n" + THIRD),
    ("a carriage return after the name", b"session=READROOM01\r\n" + SECOND + THIRD),
    ("a carriage return after next", FIRST + b"next=1\r\n" + THIRD),
    ("a carriage return after the limit", FIRST + SECOND + b"limit=100\r\n"),
    ("a carriage return as the last of the name", b"session=READROOM0\r\n" + SECOND + THIRD),
    ("a tab", FIRST + b"next=\t1\n" + THIRD),
    ("a plus sign", FIRST + b"next=+1\n" + THIRD),
    ("a minus sign", FIRST + b"next=-1\n" + THIRD),
    ("a plus sign at the limit", FIRST + SECOND + b"limit=+100\n"),
    ("an empty next", FIRST + b"next=\n" + THIRD),
    ("an empty limit", FIRST + SECOND + b"limit=\n"),
    ("a leading zero: 01", FIRST + b"next=01\n" + THIRD),
    ("a leading zero: 00", FIRST + b"next=00\n" + THIRD),
    ("a leading zero: 0100", FIRST + SECOND + b"limit=0100\n"),
    ("a leading zero of twenty digits", FIRST + b"next=00000000000000000001\n" + THIRD),
    ("next 0", lines(next=0)),
    ("limit 0", lines(limit=0)),
    ("both 0", lines(next=0, limit=0)),
    ("next 2^64", lines(next=TOP + 1)),
    ("next 2^64+1, which is 1 in 64 bits", lines(next=TOP + 2)),
    ("next of twenty-one digits", lines(next=10**20)),
    ("next of twenty nines", lines(next=10**20 - 1)),
    ("next ten times 2^64-1", lines(next=10 * TOP)),
    ("limit 65535", lines(limit=65535)),
    ("limit 65536", lines(limit=65536)),
    ("limit 65537, which is 1 in 16 bits", lines(limit=65537)),
    ("limit 100000", lines(limit=100000)),
    ("limit 2^64-1", lines(limit=TOP)),
    ("limit 2^64", lines(limit=TOP + 1)),
    ("limit 2^64+100", lines(limit=TOP + 101)),
    ("a letter in a number", FIRST + b"next=1a\n" + THIRD),
    ("hex", FIRST + b"next=0x1\n" + THIRD),
    ("a point", FIRST + b"next=1.0\n" + THIRD),
    ("a comma", FIRST + b"next=1,000\n" + THIRD),
    ("0x2F, one before the digits", FIRST + b"next=1/\n" + THIRD),
    ("0x3A, one after the digits", FIRST + b"next=1:\n" + THIRD),
    ("a zero byte after the number", FIRST + b"next=1\x00\n" + THIRD),
    ("a byte 0xB1, the digit 1 with its high bit set", FIRST + b"next=\xb1\n" + THIRD),
    ("a name of 9 bytes", lines(session=b"READROOM0")),
    ("a name of 11 bytes", lines(session=b"READROOM012")),
    ("a name of no bytes", lines(session=b"")),
    ("a line feed in the name", lines(session=b"READ\nOOM01")),
    ("a name of ten line feeds", lines(session=b"\n" * 10)),
    ("0x1F first in the name", lines(session=b"\x1fEADROOM01")),
    ("0x1F last in the name", lines(session=b"READROOM0\x1f")),
    ("0x7F first in the name", lines(session=b"\x7fEADROOM01")),
    ("0x7F last in the name", lines(session=b"READROOM0\x7f")),
    ("0x80 in the name", lines(session=b"READ\x80OOM01")),
    ("0xFF in the name", lines(session=b"READ\xffOOM01")),
    ("a zero byte in the name", lines(session=b"READ\x00OOM01")),
    ("a tab in the name", lines(session=b"READ\tOOM01")),
    ("a blank session", lines(session=BLANK)),
    ("a blank session, the longest settings", lines(session=BLANK, next=TOP, limit=65534)),
    ("a blank session and next 0", lines(session=BLANK, next=0)),
    ("a blank session and limit 65535", lines(session=BLANK, limit=65535)),
    ("a blank session and no numbers", lines(session=BLANK)[:19]),
    ("nine spaces", lines(session=BLANK[:9])),
    ("eleven spaces", lines(session=BLANK + b" ")),
    ("ten zero bytes in the name", lines(session=bytes(10))),
    ("the first line feed missing", FIRST[:-1] + SECOND + THIRD),
    ("the second line feed missing", FIRST + SECOND[:-1] + THIRD),
    ("the third line feed missing", lines()[:-1]),
    ("the third line feed missing, the longest settings", lines(next=TOP, limit=65534)[:-1]),
    ("a mark of UTF-8 in front", b"\xef\xbb\xbf" + lines()),
    ("a space in front", b" " + lines()),
]
