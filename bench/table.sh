#!/usr/bin/env bash
# The whole table: each path of the library, and the capture program, beside the same in ordinary Rust
# (hosts/yardstick), with the ratio to reach. Builds what is missing or older than its sources (some minutes), compares
# every answer, and times both in turns.
#
#     bench/table.sh [--runs NUMBER]      the least of so many runs, 31 without it
set -euo pipefail
cd "$(dirname "$0")/.."
. bench/built.sh

build_library
build_program capture_report
cargo build --quiet --release --offline --manifest-path hosts/Cargo.toml -p yardstick
programs=${CARGO_TARGET_DIR:-hosts/target}/release
"$programs/yardstick" table "$@"
python3 bench/programs.py --library crates/capture_report/out/capture_report --rust "$programs/report" "$@"
