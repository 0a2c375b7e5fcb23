#!/usr/bin/env python3
"""The rows of the two programs that read captures, which bench/missing.sh prints.

    bench/missing.py [--runs N] [--size BYTES] [--missing FILE] [--report FILE]

Makes captures of the size in a temporary folder (TMPDIR names another place for it), and runs both programs on each, by
pipe and from the file, in turns. A row has the least milliseconds of each.
"""
import argparse
import pathlib
import sys
import tempfile

sys.dont_write_bytecode = True
import capture


def least(run, path, programs, runs):
    """The least seconds of each program."""
    times = [[] for _ in programs]
    for _ in range(runs):
        for program, taken in zip(programs, times):
            taken.append(run(path, [program])[0])
    return [min(taken) for taken in times]


def main():
    parser = argparse.ArgumentParser(description="Times missing_report against capture_report.")
    parser.add_argument("--runs", type=int, default=31, help="runs of each program (default: 31)")
    parser.add_argument("--size", type=int, default=2 * 10**8, help="bytes of each capture (default: 200 MB)")
    parser.add_argument("--missing", default=str(capture.proved("missing_report")), help="what lists what is missing")
    parser.add_argument("--report", default=str(capture.proved("capture_report")), help="what prints the report")
    arguments = parser.parse_args()
    print(f"a capture of {arguments.size // 10**6} MB, the least of {arguments.runs} runs")
    print("| capture | missing_report | capture_report | ratio |\n|---|---|---|---|")
    with tempfile.TemporaryDirectory() as folder:
        path = pathlib.Path(folder) / "capture"
        for kind, parts in (("ordinary datagrams", capture.ordinary), ("heartbeats alone", capture.heartbeats)):
            capture.make(path, parts, arguments.size)
            for way, run in (("from a file", capture.from_file), ("by pipe", capture.piped)):
                ours, theirs = least(run, path, (arguments.missing, arguments.report), arguments.runs)
                ratio = f"{ours / theirs:.2f}"
                print(f"| {kind}, {way} | {ours * 1000:.1f} ms | {theirs * 1000:.1f} ms | {ratio} |", flush=True)


if __name__ == "__main__":
    main()
