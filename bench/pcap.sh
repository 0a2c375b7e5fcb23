#!/usr/bin/env bash
# The program `eiderwagon` on a pcap of 1 GB, beside the proved capture program on the same datagrams, and its memory on
# a tenth of it. Builds what isn't there or is older than its sources (some minutes).
#
#     bench/pcap.sh [--runs NUMBER] [--size BYTES]
set -euo pipefail
cd "$(dirname "$0")/.."
. bench/built.sh

build_library
build_program capture_report
tools/program.sh
python3 bench/pcap.py "$@"
