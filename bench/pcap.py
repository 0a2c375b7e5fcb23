#!/usr/bin/env python3
"""The rows of `eiderwagon report` on a pcap, which bench/pcap.sh prints.

    bench/pcap.py [--runs N] [--size BYTES] [--program FILE] [--report FILE]

Makes a pcap of the size and a capture of the same datagrams in a temporary folder (TMPDIR names another place for it), and runs
the program on the one and capture_report on the other, from the file, in turns. Both have to print the same report. A row has the
least milliseconds of each. Then the program's peak memory, here and on a pcap of a tenth of the size.
"""
import argparse
import pathlib
import struct
import sys
import tempfile

sys.dont_write_bytecode = True
import capture

BAR = 2.0
GROUP, PORT = bytes((233, 54, 12, 101)), 26477
ETHERNET = bytes.fromhex("01005e360c65" "020000000001" "0800")
FILE_HEADER = struct.pack("<IHHiIII", 0xA1B2C3D4, 2, 4, 0, 0, 262144, 1)


def frame(datagram):
    """A datagram to the group as an Ethernet frame, with the header that a pcap puts before it."""
    size = len(datagram)
    ip = struct.pack(">BBHHHBBH4s4s", 0x45, 0, 28 + size, 0, 0, 16, 17, 0, bytes((10, 0, 0, 1)), GROUP)
    udp = struct.pack(">HHHH", 30000, PORT, 8 + size, 0)
    whole = ETHERNET + ip + udp + datagram
    return struct.pack("<IIII", 1, 0, len(whole), len(whole)) + whole


def datagrams(records):
    at = 0
    while at < len(records):
        size = int.from_bytes(records[at : at + 2], "big")
        yield records[at + 2 : at + 2 + size]
        at += 2 + size


def make(pcap, plain, parts, size):
    """A pcap of about so many bytes, and a capture of the same datagrams."""
    made, framed = None, None
    with open(pcap, "wb") as frames, open(plain, "wb") as records:
        frames.write(FILE_HEADER)
        records.write(capture.SETTINGS)
        for part in parts():
            if frames.tell() >= size:
                return
            # heartbeats are the same part each time
            if part != made:
                made, framed = bytes(part), b"".join(map(frame, datagrams(bytes(part))))
            frames.write(framed)
            records.write(part)


def from_pcap(path, program, *options):
    command = [program, "report", "-", "--session", capture.SESSION.decode(), *options]
    return capture.from_file(path, command)


def least(pcap, plain, arguments, *options):
    """The least seconds of either program, whose reports have to be the same."""
    ours, theirs = [], []
    for _ in range(arguments.runs):
        seconds, report = from_pcap(pcap, arguments.program, *options)
        ours.append(seconds)
        seconds, proved = capture.from_file(plain, [arguments.report])
        theirs.append(seconds)
        if report != proved and not (options and report.startswith(proved)):
            sys.exit(f"the reports differ:\n{report}\n{proved}")
    return min(ours), min(theirs)


def main():
    parser = argparse.ArgumentParser(description="Times `eiderwagon report` on a pcap against capture_report.")
    program = capture.ROOT / "hosts" / "program" / "target" / "release" / "eiderwagon"
    parser.add_argument("--runs", type=int, default=9, help="runs of each program (default: 9)")
    parser.add_argument("--size", type=int, default=10**9, help="bytes of the pcap (default: 1 GB)")
    parser.add_argument("--program", default=str(program), help="the program")
    parser.add_argument("--report", default=str(capture.proved("capture_report")), help="the proved capture program")
    arguments = parser.parse_args()
    with tempfile.TemporaryDirectory() as folder:
        pcap, plain = pathlib.Path(folder) / "pcap", pathlib.Path(folder) / "capture"
        command = [arguments.program, "report", "-", "--session", capture.SESSION.decode()]
        make(pcap, plain, capture.ordinary, arguments.size // 10)
        peaks = [(pcap.stat().st_size, capture.peak(pcap, command))]
        print(f"pcaps of {arguments.size // 10**6} MB, the least of {arguments.runs} runs")
        print("| pcap | command | on the pcap | capture_report | ratio | to reach |\n|---|---|---|---|---|---|")
        for kind, parts in (("heartbeats alone", capture.heartbeats), ("ordinary datagrams", capture.ordinary)):
            make(pcap, plain, parts, arguments.size)
            for options in ((), ("--gaps", "--refusals")):
                ours, theirs = least(pcap, plain, arguments, *options)
                bar = BAR if parts is capture.ordinary and not options else ""
                name = " ".join(("report", *options))
                row = f"| {kind} | `{name}` | {ours * 1000:.0f} ms | {theirs * 1000:.0f} ms | {ours / theirs:.2f} | {bar} |"
                print(row, flush=True)
        peaks.append((pcap.stat().st_size, capture.peak(pcap, command)))
        print("peak memory: " + ", ".join(f"{kib} KiB on {size} bytes" for size, kib in peaks))


if __name__ == "__main__":
    main()
