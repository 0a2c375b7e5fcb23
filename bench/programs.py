#!/usr/bin/env python3
"""The rows of the capture program in the whole table, which bench/table.sh prints.

    bench/programs.py --library FILE --rust FILE [--runs N] [--size BYTES]

Makes two captures of the size in a temporary folder (TMPDIR names another place for it), and runs the library's program and the one in
Rust on each, by pipe and from the file, in turns. Both have to print the same report. A row has the least milliseconds of each.
"""
import argparse
import pathlib
import sys
import tempfile

sys.dont_write_bytecode = True
import capture

BAR = 1.0


def least(run, path, library, rust, runs):
    """The least seconds of either program, whose reports have to be the same."""
    ours, theirs = [], []
    for _ in range(runs):
        seconds, report = run(path, [library])
        ours.append(seconds)
        seconds, other = run(path, [rust])
        theirs.append(seconds)
        if report != other:
            sys.exit(f"the reports differ:\n{report}\n{other}")
    return min(ours), min(theirs)


def row(name, ours, theirs):
    ratio = round(ours / theirs, 2)
    reached = "yes" if ratio <= BAR else "**no**"
    print(f"| {name} | {ours * 1000:.1f} ms | {theirs * 1000:.1f} ms | {ratio:.2f} | {BAR:.2f} | {reached} |", flush=True)


def main():
    parser = argparse.ArgumentParser(description="Times the capture program against the same in Rust.")
    parser.add_argument("--library", required=True, help="the library's program")
    parser.add_argument("--rust", required=True, help="the program in Rust")
    parser.add_argument("--runs", type=int, default=31, help="runs of each program (default: 31)")
    parser.add_argument("--size", type=int, default=2 * 10**8, help="bytes of each capture (default: 200 MB)")
    arguments = parser.parse_args()
    with tempfile.TemporaryDirectory() as folder:
        path = pathlib.Path(folder) / "capture"
        for kind, parts in (("ordinary datagrams", capture.ordinary), ("heartbeats alone", capture.heartbeats)):
            capture.make(path, parts, arguments.size)
            for way, run in (("by pipe", capture.piped), ("from a file", capture.from_file)):
                ours, theirs = least(run, path, arguments.library, arguments.rust, arguments.runs)
                row(f"capture program, {arguments.size // 10**6} MB, {kind}, {way}", ours, theirs)


if __name__ == "__main__":
    main()
