#!/usr/bin/env python3
"""Runs the programs that read captures, capture_report and missing_report, as `rt` left them in crates/NAME/out, on
captures of several times their buffer, from a file, through a pipe, and from a socket that hands out one piece of a
chosen size a read, and compares what they print with the documents' rules.

    tools/capture_program.py              runs both
    tools/capture_program.py PROGRAM...   runs these

The library's promise says what a turn over the buffer makes of the bytes that came, and what turns over any pieces come
to. What no contract says, which bytes a read brings, is run here."""
import itertools
import pathlib
import random
import re
import socket
import subprocess
import sys
import tempfile

ROOT = pathlib.Path(__file__).resolve().parent.parent
sys.path.insert(0, str(ROOT / "tools" / "vectors"))

from capture_rules import capture_text
from captures import BLANK, capture, lines
from datagrams import LARGEST, data_of, end, heartbeat, packet
from missing_rules import MOST_RANGES, missing_text
from mold_rules import TOP

RULES = {"capture_report": capture_text, "missing_report": missing_text}
# more turns than any counter of 16 bits has
MANY = 70_000


def buffer_of(program):
    """The bytes of its buffer, as its source says."""
    source = (ROOT / "crates" / program / "src" / "main.rt").read_text()
    # no run uses these up, so none can show that they are fewer
    assert "for _ in 0..u64::MAX {" in source, f"{program}: turns that a run may use up"
    return max(int(size) for size in re.findall(r"\[0u8; (\d+)\]", source))


# ---- captures


def feed(rng, most):
    """Groups of datagrams, so many bytes and more, each group with its number: long and short data, doubled, announced,
    repeated and broken."""
    groups, size, number = [(1, [LARGEST])], 0, 2
    while size < most:
        messages = [rng.randbytes(rng.randrange(60)) for _ in range(rng.randrange(1, 200))]
        data = packet(number, *messages)
        before = rng.choice([[], [data], [heartbeat(number + 9)], [heartbeat(number)], [b"x" * 19], [data_of(1, 3)]])
        groups.append((number, before + [data]))
        number += len(messages)
        size += len(data)
    return groups


def flat(groups):
    return [datagram for _, datagrams in groups for datagram in datagrams]


def long_captures(size):
    """Captures that both programs read."""
    groups = feed(random.Random(1), size)
    half = len(groups) // 2
    number, lost = groups[half]
    first, second = flat(groups[:half]), flat(groups[half:])
    yield "whole, with a cut record behind it", capture(*first, *second, after=b"\x00\x30" + b"x" * 47)
    yield "ended half-way", capture(*first, end(number), *second)
    yield "lost half-way", capture(*first, *second[len(lost) :])
    yield "every other group lost", capture(*flat(groups[::2]), end(number * 3))
    yield "swapped", capture(*second, *first, *second)
    yield "backwards", capture(*reversed(first + second))
    yield "the longest records", capture(*[LARGEST, b"x" * 65535] * 9)
    yield "refused settings", capture(*first, *second, start=lines(next=0))
    yield "a blank session", capture(*first, *second, start=lines(session=BLANK))


def holes(count, first=2):
    """Data that leaves so many ranges of one number missing, before each message, from the number before the first."""
    return [packet(number, b"") for number in range(first, first + 2 * count, 2)]


def of_ranges():
    """Captures for what is missing: as many ranges as are kept, and one more."""
    full, past = holes(MOST_RANGES), 2 * MOST_RANGES + 2
    yield "4,096 ranges", capture(*full)
    yield "4,096 ranges, from the back", capture(*full[::-1])
    yield "4,096 ranges, the last one open", capture(*full[:-1], end(past))
    yield "4,097 ranges", capture(*full, packet(past, b""))
    yield "4,097 ranges, the last one open", capture(*full, heartbeat(past))
    yield "4,097 ranges, and a gap that is closed later", capture(*full, heartbeat(past), packet(1, b""))
    yield "4,096 ranges, a gap closed and another one made", capture(*full, packet(1, b""), heartbeat(past))
    yield "4,096 ranges, closed from the front", capture(*full, *(packet(n, b"") for n in range(1, past, 2)))
    yield "4,096 ranges, closed from the back", capture(*full, *(packet(n, b"") for n in range(past - 3, 0, -2)))
    yield "4,096 ranges, closed at once", capture(*full, packet(1, *[b""] * past))
    top = lines(next=TOP - 2 * MOST_RANGES - 1)
    yield "4,096 ranges up to 2^64-1", capture(*holes(MOST_RANGES, TOP - 2 * MOST_RANGES), start=top)
    yield "numbers near 2^64", capture(data_of(TOP - 1, 1), data_of(TOP, 1), heartbeat(TOP), end(TOP))
    yield "no records", capture()
    yield "bad settings", lines(limit=65535)
    yield "a cut record", capture(data_of(2, 1), after=b"\x00\x17" + data_of(9, 1)[:-1])
    yield "datagrams after an end of session", capture(data_of(1, 1), end(2), data_of(4, 1), end(3), heartbeat(9))


def captures(program):
    yield from long_captures(4 * buffer_of(program))
    if program == "missing_report":
        yield from of_ranges()


def byte_by_byte():
    """A small capture whose last record is never whole, one byte a read."""
    return capture(*[data_of(n, 1) for n in range(1, 2000)], after=b"\xff\xff" + b"x" * MANY)[:MANY]


# ---- runs


def from_file(program, data):
    with tempfile.TemporaryFile() as file:
        file.write(data)
        file.seek(0)
        return subprocess.run([program], stdin=file, capture_output=True, check=True).stdout


def from_pipe(program, data):
    """However the pipe cuts it."""
    return subprocess.run([program], input=data, capture_output=True, check=True).stdout


def odd_sizes(rng):
    """Pieces that cut the settings and the first records byte by byte, and then pieces of any size."""
    yield from (1 + at % 7 for at in range(200))
    while True:
        yield rng.randrange(1, 60000)


def from_pieces(program, data, sizes):
    """One piece of these sizes a read: a socket of packets keeps their borders."""
    ours, theirs = socket.socketpair(socket.AF_UNIX, socket.SOCK_SEQPACKET)
    running = subprocess.Popen([program], stdin=theirs, stdout=subprocess.PIPE)
    theirs.close()
    at = 0
    try:
        while at < len(data):
            at += ours.send(data[at : at + next(sizes)])
    except (BrokenPipeError, ConnectionResetError):
        pass  # it has printed that the settings are refused
    ours.close()
    return running.communicate()[0]


def runs(name, program):
    """What is run, how, what it printed and what the documents print."""
    for title, data in captures(name):
        wanted = RULES[name](data)
        yield title, "from a file", from_file(program, data), wanted
        yield title, "through a pipe", from_pipe(program, data), wanted
        yield title, "in odd pieces", from_pieces(program, data, odd_sizes(random.Random(2))), wanted
    data = byte_by_byte()
    way = f"in {MANY} pieces of a byte"
    yield "a small capture", way, from_pieces(program, data, itertools.repeat(1)), RULES[name](data)


def main():
    for name in sys.argv[1:] or RULES:
        if name not in RULES:
            sys.exit(__doc__)
        count = 0
        for title, way, printed, wanted in runs(name, ROOT / "crates" / name / "out" / name):
            if printed != wanted:
                sys.exit(f"{name}, {title}, {way}: printed {printed!r} and not {wanted!r}")
            count += 1
        print(f"{name}: {count} runs, 0 differences")


if __name__ == "__main__":
    main()
