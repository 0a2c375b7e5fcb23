#!/usr/bin/env bash
# Order 11: what is missing from a capture, beside its report on the same one, by file and by pipe; and a record's time
# with 4,096 ranges open beside one that comes in order. Builds what isn't there or is older than its sources (some
# minutes).
#
#     bench/missing.sh [--runs NUMBER]      the least of so many runs, 31 without it
set -euo pipefail
cd "$(dirname "$0")/.."
. bench/built.sh

build_library
build_program capture_report
build_program missing_report
python3 bench/missing.py "$@"
cargo run --quiet --release --offline --manifest-path hosts/Cargo.toml -p bench_orders --bin missing -- "$@"
