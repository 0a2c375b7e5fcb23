"""Vectors of SoupBinTCP packets, read and written. An answer to a reading begins with the packet's letter."""
from boundary import SENDERS
from lines import room
from mold_rules import TOP
from soup_rules import SENT
from streams import (
    BLANK,
    EDGES,
    GOOD,
    MORE_SESSIONS,
    NUMBERS,
    PASSWORD,
    REASONS,
    ROOM,
    SESSIONS,
    UNSOUND,
    USER,
    accepted,
    login,
    packet,
    raw,
)

MORE = "need more"
# letters whose packet may have any payload, by who sends them
PAYLOADS = (("server", b"+"), ("client", b"+"), ("server", b"S"), ("client", b"U"))


# ---- reading


def read(v, sender, data, *expected):
    """The front of a stream, and a scan of all of it."""
    n = SENDERS.index(sender)
    answer = v.ask("soup_read", expected, a=data, n=n)
    v.ask("soup_scan", a=data, n=n)
    return answer


def refuse(v, number, name, sender, data):
    v.heading(f"{number}: {name}")
    read(v, sender, data, number)


def letters(v):
    v.section("each packet, sent by each sender: 23 where it is the other's")
    for sender in SENDERS:
        for other in SENDERS:
            for letter, data in GOOD[other].items():
                if other == sender or letter not in GOOD[sender]:
                    v.heading(f"{letter}, from the {sender}")
                    read(v, sender, data, letter if other == sender else 23)
    for sender in SENDERS:
        v.section(f"every byte as the letter of a packet of length 1, from the {sender}")
        for byte in range(256):
            read(v, sender, raw(1, bytes([byte])))
    v.section("payloads of any bytes, and of none")
    for sender, letter in PAYLOADS:
        for payload in (b"", b"\x00", b" ", b"\xff\xfe\x00\xee", b"S" * 257, bytes(range(1, 40))):
            read(v, sender, packet(letter, payload), letter.decode())


def zero_lengths(v):
    v.section("21: length 0")
    for sender in SENDERS:
        refuse(v, 21, "two bytes alone", sender, b"\x00\x00")
        refuse(v, 21, "before any letter", sender, raw(0, b"+", b"abc"))
        refuse(v, 21, "before a heartbeat", sender, b"\x00\x00" + packet(b"H") + packet(b"R"))
        refuse(v, 21, "before 23", sender, raw(0, b"?"))
        v.heading("not 21: one byte, which may be of another length; length 1; length 256, whose low byte is 0")
        read(v, sender, b"\x00", MORE)
        read(v, sender, raw(1, b"+"), "+")
        read(v, sender, raw(256, b"+", b"a" * 255), "+")


def long_payloads(v):
    v.section("22: a payload above 4,096 bytes")
    for sender, letter in PAYLOADS:
        text = letter.decode()
        v.heading(f"{text}: lengths 4,097 and 4,096 are read; one byte short, and a byte more")
        read(v, sender, raw(4097, letter, b"m" * 4096), text, 4099)
        read(v, sender, raw(4096, letter, b"m" * 4095), text, 4098)
        read(v, sender, raw(4097, letter, b"m" * 4095), MORE)
        read(v, sender, raw(4097, letter, b"m" * 4097), text, 4099)
        refuse(v, 22, f"{text}: length 4,098", sender, raw(4098, letter, b"m" * 4097))
        refuse(v, 22, f"{text}: length 4,098, the letter alone", sender, raw(4098, letter))
        refuse(v, 22, f"{text}: length 65,535", sender, raw(65535, letter, b"m" * 8000))
    for sender in SENDERS:
        for length in (4098, 4099, 8192, 32768, 65535):
            refuse(v, 22, f"length {length} on two bytes alone", sender, raw(length, b""))
        v.heading("not 22: 4,097 on two bytes alone; one byte of a length above the bound")
        for data in (raw(4097, b""), b"\x10", b"\xff"):
            read(v, sender, data, MORE)
        for letter in b"AJHZLRO":
            data = raw(4098, bytes([letter]), b"x")
            refuse(v, 22, f"length 4,098 of {chr(letter)}, whose length is fixed", sender, data)
        refuse(v, 22, "before 23", sender, raw(4098, b"?"))
        for letter in b"AJHZ" if sender == "server" else b"LRO":
            refuse(v, 24, f"length 4,097 of {chr(letter)}", sender, raw(4097, bytes([letter]), b"x"))
        refuse(v, 23, "length 4,097 of no letter", sender, raw(4097, b"?"))


def wrong_lengths(v):
    v.section("24: a length wrong for its letter, whole or not")
    for sender, letter, wrong in (
        ("server", b"A", (1, 2, 30, 32, 33, 47)),
        ("server", b"J", (1, 3, 31)),
        ("server", b"H", (2, 3, 257)),
        ("server", b"Z", (2, 3, 257)),
        ("client", b"L", (1, 31, 46, 48, 49)),
        ("client", b"R", (2, 3, 257)),
        ("client", b"O", (2, 3, 257)),
    ):
        text = letter.decode()
        length = SENT[sender][text][1]
        whole = GOOD[sender][text][3:]
        v.heading(f"not 24: {text} of {length}, three bytes alone and whole")
        read(v, sender, raw(length, letter), MORE if whole else text)
        read(v, sender, raw(length, letter, whole), text)
        for size in wrong:
            payload = (whole + b" 7" + b"7" * 300)[: size - 1]
            refuse(v, 24, f"{text} of {size}, three bytes alone", sender, raw(size, letter))
            refuse(v, 24, f"{text} of {size}, whole", sender, raw(size, letter, payload))
        v.heading(f"two bytes alone: {text} isn't there yet, so any length needs more")
        read(v, sender, raw(wrong[0], b""), MORE)
    v.section("23 before 24: a letter of the other sender, or of none, with a wrong length")
    for sender, wrong in (("server", b"LRO?"), ("client", b"AJHZ?")):
        for letter in wrong:
            for size in (2, 31, 46, 48, 4097):
                refuse(v, 23, f"{chr(letter)} of {size}", sender, raw(size, bytes([letter])))
    v.section("23: a letter of the other case, and one with the highest bit")
    for sender, wrong in (("server", b"ajshz\xc1\xab"), ("client", b"luro\xcc\xab")):
        for letter in wrong:
            refuse(v, 23, f"the byte {letter:02X}, length 47", sender, raw(47, bytes([letter]), b"x" * 46))


def splits(v):
    v.section("every split of a packet: what is there needs more, until it is whole, and 25 not before that")
    for sender, name, data, *expected in (
        ("server", "A", accepted(), "A"),
        ("client", "L", login(), "L"),
        ("server", "J", packet(b"J", b"S"), "J"),
        ("server", "S", packet(b"S", b"one message"), "S"),
        ("client", "U", packet(b"U", b"ab"), "U"),
        ("server", "H", packet(b"H"), "H"),
        ("client", "O", packet(b"O"), "O"),
        ("server", "A, the session bad", accepted(session=b"READ ROOM"), 25),
        ("server", "A, the number bad", accepted(number=b"7 "), 25),
        ("client", "L, session and number bad", login(session=b"READROOM ", number=b""), 25),
        ("server", "J, the reason bad", packet(b"J", b"B"), 25),
    ):
        v.heading(name)
        for size in range(len(data)):
            read(v, sender, data[:size], MORE)
        read(v, sender, data, *expected)
    v.section("every split of a refused packet: the refusal as soon as its ground is there")
    for number, sender, name, data, least in (
        (21, "server", "length 0", raw(0, b"S", b"abc"), 2),
        (22, "client", "length 4,098", raw(4098, b"U", b"abc"), 2),
        (23, "server", "the client's heartbeat", raw(1, b"R", b"abc"), 3),
        (23, "client", "the server's login accepted", accepted()[:9], 3),
        (24, "client", "a login request of 46", raw(46, b"L", b"abcdef"), 3),
        (24, "server", "a heartbeat of 2", raw(2, b"H", b"abcdef"), 3),
    ):
        v.heading(f"{name}, from the {sender}")
        for size in range(len(data) + 1):
            read(v, sender, data[:size], MORE if size < least else number)


def followed(v):
    tails = (b"\x00", b"\x00\x00", b"\xff\xff", b"7", b" ", b"\x00\x01?")
    v.section("a whole packet, followed by other bytes: the same answer")
    for sender in SENDERS:
        for letter, data in GOOD[sender].items():
            v.heading(f"{letter}, from the {sender}")
            first = read(v, sender, data, letter)
            for tail in (*tails, data, GOOD[sender]["+"]):
                read(v, sender, data + tail, *first.said)
    v.section("a refused packet, followed by other bytes: the same answer")
    for number, sender, data in (
        (21, "server", b"\x00\x00"),
        (22, "client", b"\x10\x02"),
        (23, "client", packet(b"H")),
        (24, "server", raw(1, b"A")),
        (25, "server", packet(b"J", b"B")),
        (25, "client", login(session=b"READ ROOM")),
        (25, "server", accepted(number=b"0")),
    ):
        v.heading(f"{number}, from the {sender}")
        for tail in (b"", *tails, GOOD[sender]["+"]):
            read(v, sender, data + tail, number)


def fields(v):
    v.section("number fields in A and in L, and in L with a blank session")
    for name, field, in_accepted, in_login in NUMBERS:
        v.heading(name)
        in_both = (25,) if in_login is None else ("L", 49, in_login)
        read(v, "server", accepted(number=field), *((25,) if in_accepted is None else ("A", 33, in_accepted)))
        read(v, "client", login(number=field), *in_both)
        read(v, "client", login(BLANK, field, USER, b"Secret12"), *in_both)
    v.heading("around the largest number")
    for field in (b"18446744073709551614", b"18446744073709551615", b"18446744073709551616"):
        read(v, "server", accepted(number=field), *(("A", 33, int(field)) if int(field) <= TOP else (25,)))
    v.section("session fields in A and in L")
    for name, field, in_accepted, in_login in SESSIONS + MORE_SESSIONS:
        v.heading(name)
        read(v, "server", accepted(session=field), *(("A", 33, 7) if in_accepted else (25,)))
        read(v, "client", login(session=field), *(("L", 49, 7) if in_login else (25,)))
    v.section("a blank session with number 0, good in L alone")
    read(v, "server", accepted(session=BLANK, number=b"0"), 25)
    read(v, "client", login(session=BLANK, number=b"0"), "L", 49, 0)
    v.section("the reason in J: A or S, and nothing else")
    for reason in REASONS:
        v.heading(f"the byte {reason:02X}")
        read(v, "server", packet(b"J", bytes([reason])), *(("J", 4, reason) if reason in b"AS" else (25,)))
    v.section("username and password are never refused, sound or not")
    for name, field in (("both sound", b"user"), *UNSOUND):
        v.heading(name)
        read(v, "client", login(username=field, password=b"pass"), "L", 49, 7)
        read(v, "client", login(username=b"user", password=field), "L", 49, 7)
    read(v, "client", login(username=b"\xff" * 6, password=b"\xee" * 10), "L", 49, 7)


# ---- scans

PASSED = {
    "server": [accepted(), packet(b"S", b"first"), packet(b"H"), packet(b"S"), packet(b"+", b"note"), packet(b"Z")],
    "client": [login(), packet(b"U", b"first"), packet(b"R"), packet(b"U"), packet(b"+", b"note"), packet(b"O")],
}
STOPPED = {
    "server": [
        (21, "length 0", raw(0, b"S")),
        (22, "length 4,098", raw(4098, b"S")),
        (23, "a letter of the client", packet(b"R")),
        (24, "a heartbeat of 2", packet(b"H", b"x")),
        (24, "a login accepted of 30", raw(30, b"A")),
        (25, "a bad session", accepted(session=b"READ ROOM")),
        (25, "a blank session", accepted(session=BLANK)),
        (25, "a bad number", accepted(number=b"7 ")),
        (25, "the number 0", accepted(number=b"0")),
        (25, "a blank number", accepted(number=b"")),
        (25, "a number above the largest", accepted(number=b"18446744073709551616")),
        (25, "a bad reason", packet(b"J", b"B")),
    ],
    "client": [
        (21, "length 0", raw(0, b"U")),
        (22, "length 4,098", raw(4098, b"U")),
        (23, "a letter of the server", packet(b"H")),
        (24, "a logout of 2", packet(b"O", b"x")),
        (24, "a login request of 48", raw(48, b"L")),
        (25, "a bad session", login(session=b"READROOM ")),
        (25, "a bad number", login(number=b"+7")),
        (25, "a blank number", login(number=b"")),
        (25, "a number above the largest", login(number=b"18446744073709551616")),
    ],
}


def scan(v, name, sender, data, *expected):
    """A scan: how many packets, their bytes, and what stops it, 0 where more is needed."""
    v.heading(name)
    n = SENDERS.index(sender)
    v.ask("soup_scan", expected, a=data, n=n)
    v.ask("soup_read", a=data, n=n)


def scans(v):
    for sender in SENDERS:
        for count in (0, 1, 2, 6):
            v.section(f"scans of the {sender}'s packets that stop after {count} good ones")
            before = b"".join(PASSED[sender][:count])
            size = len(before)
            bad_field = {"server": accepted, "client": login}[sender](b"a b")
            scan(v, "nothing after them", sender, before, count, size, 0)
            for name, data in (
                ("one byte of a length", b"\x00"),
                ("a length alone", b"\x00\x01"),
                ("half of a message", packet(b"+", b"note")[:5]),
                ("a message but for its last byte", packet(b"+", b"note")[:-1]),
                ("a field that is bad already, but not whole", bad_field[:-1]),
            ):
                scan(v, f"need more: {name}", sender, before + data, count, size, 0)
            for number, name, data in STOPPED[sender]:
                after = before + data + b"".join(PASSED[sender][1:3])
                scan(v, f"{number}: {name}", sender, before + data, count, size, number)
                scan(v, f"{number}: {name}, and good packets after it", sender, after, count, size, number)
    v.section("scans of many packets")
    scan(v, "a hundred heartbeats", "server", packet(b"H") * 100, 100, 300, 0)
    scan(v, "three logins", "client", login() * 3, 3, 147, 0)
    scan(v, "three logins, the second bad", "client", login() + login(number=b"") + login(), 1, 49, 25)
    scan(v, "a blank login between others", "client", login() + login(BLANK, b"0") + login(), 3, 147, 0)
    reasons = b"".join(packet(b"J", reason) for reason in (b"A", b"S", b"s"))
    scan(v, "both reasons, then another", "server", reasons, 2, 8, 25)
    largest = packet(b"S", b"m" * 4096)
    scan(v, "three of the largest", "server", largest * 3, 3, 12297, 0)
    scan(v, "three of the largest, one byte short", "server", (largest * 3)[:-1], 2, 8198, 0)
    scan(v, "one of the largest, and a longer one", "server", largest + raw(4098, b"S", b"m" * 4097), 1, 4099, 22)


# ---- writing


def rooms(v, name, function, sender, data, *said, **given):
    """A packet, written with room to spare, exactly fitting, one byte short and without room, and read back."""
    size = len(data)
    v.heading(name)
    assert v.ask(function, (size,), **given, s=room(size + 3)).lent[:size] == data
    assert v.ask(function, (size,), **given, s=room(size)).lent == data
    v.ask(function, (41,), **given, s=room(size - 1))
    v.ask(function, (41,), **given, s=b"")
    read(v, sender, data, chr(data[2]), size, *said)


def both(v, number, name, function, size, **given):
    """A refusal where there is room for the packet, and where it comes before 41."""
    v.heading(f"{number}, with room and before 41: {name}")
    for out in (size + 1, size - 1):
        v.ask(function, (number,), **given, s=room(out))


def write(v, name, function, data, spare=0, **given):
    """A packet, written into so many more bytes than it needs."""
    v.heading(name)
    assert v.ask(function, (len(data),), **given, s=room(len(data) + spare)).lent[: len(data)] == data


def plain_written(v):
    v.section("packets whose letter says all")
    for sender, letter, function in (
        ("server", b"H", "soup_write_server_heartbeat"),
        ("server", b"Z", "soup_write_end"),
        ("client", b"R", "soup_write_client_heartbeat"),
        ("client", b"O", "soup_write_logout"),
    ):
        rooms(v, letter.decode(), function, sender, packet(letter))
    for sender, letter, function in (
        ("server", b"+", "soup_write_debug"),
        ("server", b"S", "soup_write_sequenced"),
        ("client", b"U", "soup_write_unsequenced"),
    ):
        v.section(f"packets with a payload: {letter.decode()}")
        for payload in (b"", b"\x00", b"one message", b"q" * 255, b"m" * 4096):
            rooms(v, f"{len(payload)} bytes", function, sender, packet(letter, payload), a=payload)
        for name, size, payload in (
            ("22: 4,097 bytes", 8192, b"m" * 4097),
            ("22: 4,097 bytes, exactly fitting", 4100, b"m" * 4097),
            ("22 before 41: 4,097 bytes, one byte short", 4099, b"m" * 4097),
            ("22 before 41: 4,097 bytes, no output", 0, b"m" * 4097),
            ("22: 8,192 bytes", 8192, b"m" * 8192),
        ):
            v.case(name, function, a=payload, s=room(size))
    v.heading("a debug packet is read from the client too")
    read(v, "client", packet(b"+", b"note"), "+", 7)


def accepted_written(v):
    v.section("login accepted")
    function = "soup_write_accepted"
    rooms(v, "a session of ten bytes", function, "server", accepted(), 7, a=ROOM, n=7)
    for number in (1, 10, 2**32, 10**19, TOP):
        data = accepted(number=b"%d" % number)
        write(v, f"number {number}", function, data, a=ROOM, n=number)
        read(v, "server", data, "A", 33, number)
    both(v, 46, "number 0", function, 33, a=ROOM, n=0)
    for name, field, good, _ in SESSIONS:
        if good:
            write(v, f"a session: {name}", function, accepted(field), 2, a=field, n=7)
            read(v, "server", accepted(session=field), "A", 33, 7)
        else:
            both(v, 46, f"a session: {name}", function, 33, a=field, n=7)
    both(v, 46, "both bad", function, 33, a=BLANK, n=0)


def rejected_written(v):
    v.section("login rejected")
    for reason in REASONS:
        name = f"the reason {reason:02X}"
        if reason in b"AS":
            rooms(v, name, "soup_write_rejected", "server", packet(b"J", bytes([reason])), reason, n=reason)
        else:
            both(v, 46, name, "soup_write_rejected", 4, n=reason)
        v.ask("soup_write_rejected", n=reason, s=room(5))


def login_written(v):
    v.section("login request")
    function = "soup_write_login"
    good = dict(a=USER, b=PASSWORD, c=ROOM, n=7)
    rooms(v, "a session of ten bytes", function, "client", login(), 7, **good)
    rooms(v, "a blank session and number 0", function, "client", login(BLANK, b"0"), 0, **{**good, "c": BLANK, "n": 0})
    for number in (0, 1, 10, 2**32, 10**19, TOP):
        data = login(number=b"%d" % number)
        write(v, f"number {number}", function, data, **{**good, "n": number})
        read(v, "client", data, "L", 49, number)
    for name, field, _, is_good in SESSIONS:
        given = {**good, "c": field}
        if is_good:
            write(v, f"a session: {name}", function, login(field), 3, **given)
            read(v, "client", login(session=field), "L", 49, 7)
        else:
            both(v, 46, f"a session: {name}", function, 49, **given)
    v.heading("usernames and passwords that are sound")
    for username, password in (
        (b"u     ", b"p         "),
        (b"09AZaz", b"09AZaz09AZ"),
        (b"READER", b"SECRET123 "),
        (b"7     ", b"0         "),
    ):
        data = login(username=username, password=password)
        write(v, f"{data[3:19].decode()}", function, data, **{**good, "a": username, "b": password})
        read(v, "client", data, "L", 49, 7)
    for name, field in UNSOUND:
        both(v, 46, f"username, {name}", function, 49, **{**good, "a": field.ljust(6)})
        both(v, 46, f"password, {name}", function, 49, **{**good, "b": field.ljust(10)})
    both(v, 46, "password, a byte 0 in its last place", function, 49, **{**good, "b": b"secret123\x00"})
    both(v, 46, "password, a letter behind a space in its last place", function, 49, **{**good, "b": b"secret12 3"})
    both(v, 46, "all of it bad", function, 49, a=b" " * 6, b=BLANK, c=b"READ ROOM1", n=0)


def text_fields(v):
    """Text fields of every size, by the writers that take them."""
    word = b"Secret12  "

    def written_login(username=USER, password=word, session=BLANK, number=0):
        v.ask("soup_write_login", a=username, b=password, c=session, n=number, s=room(60))

    v.section("session fields, in A and in L, and of other sizes")
    sizes = (b"", b" ", b"a", b"a ", b" a", b"READROOM012345", b"            R", b"R" * 64, b" " * 64)
    for field in (*(field for _, field, _, _ in SESSIONS + MORE_SESSIONS), *sizes):
        v.ask("soup_write_accepted", a=field, n=1, s=room(40))
        written_login(session=field, number=1)
    v.section("usernames and passwords, sound or not")
    sound = (b"u", b"7", b"uSe7", b"09AZaz", b"reader", b"readerread")
    for field in (*sound, *(field for _, field in UNSOUND)):
        written_login(username=field.ljust(6))
        written_login(password=field.ljust(10))
    v.heading("every bound of letters and digits, first, second and last")
    for byte in EDGES:
        for field in (bytes([byte]), b"u" + bytes([byte])):
            written_login(username=field.ljust(6))
            written_login(password=field.ljust(10))
        written_login(username=b"reade" + bytes([byte]))
        written_login(password=b"secret123" + bytes([byte]))
    v.heading("of other sizes")
    sizes = (b"", b" ", b"u", b" u", b"u ", b"u u", b"us\x00", b"u" * 64, b" " * 64, b"u" * 63 + b" ", b"u" + b" " * 63)
    for field in sizes:
        written_login(username=field)
        written_login(password=field)


def written_back(v):
    v.section("what was read is written back: the answer is the packet itself")
    for letter, function in (("+", "soup_write_debug"), ("S", "soup_write_sequenced"), ("U", "soup_write_unsequenced")):
        data = {**GOOD["server"], **GOOD["client"]}[letter]
        write(v, letter, function, data, a=data[3:])
    v.section("but for leading zeros, which are never written")
    for name, field, in_accepted, in_login in NUMBERS:
        digits = field.lstrip(b" ")
        same = len(digits) == 1 or not digits.startswith(b"0")
        v.heading(name)
        if in_accepted is not None:
            answer = v.ask("soup_write_accepted", a=ROOM, n=in_accepted, s=room(33))
            assert (answer.lent == accepted(number=field)) == same
        if in_login is not None:
            answer = v.ask("soup_write_login", a=USER, b=PASSWORD, c=ROOM, n=in_login, s=room(49))
            assert (answer.lent == login(number=field)) == same


GROUPS = (
    letters,
    zero_lengths,
    long_payloads,
    wrong_lengths,
    splits,
    followed,
    fields,
    scans,
    plain_written,
    accepted_written,
    rejected_written,
    login_written,
    text_fields,
    written_back,
)
