#!/usr/bin/env python3
"""Times the capture program against `wc -c`, and measures its memory.

    bench/capture.py [--size BYTES] [--runs N] [--program FILE]

Makes two captures of the size in a temporary folder (TMPDIR names another place for it), one of ordinary datagrams and one of
heartbeats alone. Each is run N times as `cat CAPTURE | wc -c` and `cat CAPTURE | FILE`, in turns, so that what else the machine
does meets both. Printed are the seconds, the ratio of the program to `wc -c`, and the program's peak memory on the capture and on
one of a tenth of its size. Only Linux tells the memory. Build the program first: `tools/rt_in.sh capture_report run`.
"""
import argparse
import fcntl
import os
import pathlib
import random
import statistics
import struct
import subprocess
import tempfile
import termios
import time

ROOT = pathlib.Path(__file__).resolve().parent.parent
SESSION = b"READROOM01"
SETTINGS = b"session=%b\nnext=1\nlimit=100\n" % SESSION
# where a record has the number of its datagram: after the record's length and the session
NUMBER_AT = 2 + len(SESSION)


def proved(program):
    """Where `rt` leaves a proved program."""
    return ROOT / "crates" / program / "out" / program


def record(number, messages):
    blocks = b"".join(len(message).to_bytes(2, "big") + message for message in messages)
    datagram = SESSION + struct.pack(">QH", number, len(messages)) + blocks
    return len(datagram).to_bytes(2, "big") + datagram


def ordinary():
    """Parts of a capture without end: datagrams of 1 to 30 messages of 10 to 60 bytes, each at the expected number. One block of
    records is made, and repeated with its numbers moved on."""
    rng = random.Random(1)
    block = bytearray()
    places = []  # of each number in the block, with how many messages of the block stand before it
    messages = 0
    for _ in range(2000):
        places.append((len(block) + NUMBER_AT, messages))
        count = rng.randint(1, 30)
        block += record(0, [rng.randbytes(rng.randint(10, 60)) for _ in range(count)])
        messages += count
    first = 1
    while True:
        for place, before in places:
            struct.pack_into(">Q", block, place, first + before)
        yield block
        first += messages


def heartbeats():
    """Parts of a capture without end: heartbeats at the expected number."""
    block = record(1, []) * 50000
    while True:
        yield block


def make(path, parts, size):
    """Writes a capture of about so many bytes, in whole parts, and answers how many they are."""
    with open(path, "wb") as file:
        file.write(SETTINGS)
        for part in parts():
            if file.tell() >= size:
                return file.tell()
            file.write(part)


def piped(path, command):
    """The seconds of `cat PATH | COMMAND`, and what it printed."""
    start = time.perf_counter()
    with subprocess.Popen(["cat", path], stdout=subprocess.PIPE) as cat:
        with subprocess.Popen(command, stdin=cat.stdout, stdout=subprocess.PIPE) as program:
            # the program alone is to hold the pipe's end
            cat.stdout.close()
            text = program.stdout.read()
            program.wait()
            seconds = time.perf_counter() - start
    return seconds, text.decode()


def from_file(path, command):
    """The seconds of `COMMAND < PATH`, and what it printed."""
    with open(path, "rb") as file:
        start = time.perf_counter()
        ran = subprocess.run(command, stdin=file, stdout=subprocess.PIPE, check=True)
        seconds = time.perf_counter() - start
    return seconds, ran.stdout.decode()


def peak(path, command):
    """The program's peak memory in KiB, read while it waits for more input than there is. What the system reports once it has ended
    can't be used: it counts the memory of the process that started it."""
    out_of, into = os.pipe()
    with subprocess.Popen(command, stdin=out_of, stdout=subprocess.DEVNULL) as program:
        os.close(out_of)
        subprocess.run(["cat", path], stdout=into, check=True)
        while program.poll() is None and any(fcntl.ioctl(into, termios.FIONREAD, bytes(4))):
            time.sleep(0.01)
        # the last bytes are out of the pipe, and soon dealt with
        time.sleep(0.1)
        status = pathlib.Path(f"/proc/{program.pid}/status").read_text()
        os.close(into)
    return next(int(line.split()[1]) for line in status.splitlines() if line.startswith("VmHWM:"))


def show(name, times):
    print(f"  {name:16} minimum {min(times):.3f} s, median {statistics.median(times):.3f} s")


def bench(name, parts, folder, arguments):
    path = folder / "capture"
    program = [arguments.program]
    size = make(path, parts, arguments.size // 10)
    peaks = [(size, peak(path, program))]
    size = make(path, parts, arguments.size)
    peaks.append((size, peak(path, program)))
    print(f"{name}: {size} bytes, {arguments.runs} runs")
    counted, taken = [], []
    for _ in range(arguments.runs):
        counted.append(piped(path, ["wc", "-c"])[0])
        seconds, text = piped(path, program)
        taken.append(seconds)
    path.unlink()
    ratios = [b / a for a, b in zip(counted, taken)]
    show("wc -c", counted)
    show("program", taken)
    print(f"  {'ratio':16} median of the pairs {statistics.median(ratios):.3f}, of the minima {min(taken) / min(counted):.3f}")
    print(f"  {'peak memory':16} " + ", ".join(f"{kib} KiB on {size} bytes" for size, kib in peaks))
    print(f"  {'report':16} {' '.join(text.split())}")


def main():
    parser = argparse.ArgumentParser(description="Times the capture program against wc -c, and measures its memory.")
    parser.add_argument("--size", type=int, default=10**9, help="bytes of each capture (default: 1 GB)")
    parser.add_argument("--runs", type=int, default=9, help="runs of each program (default: 9)")
    parser.add_argument("--program", default=str(proved("capture_report")), help="the built program")
    arguments = parser.parse_args()
    with tempfile.TemporaryDirectory() as folder:
        bench("ordinary datagrams", ordinary, pathlib.Path(folder), arguments)
        bench("heartbeats alone", heartbeats, pathlib.Path(folder), arguments)


if __name__ == "__main__":
    main()
