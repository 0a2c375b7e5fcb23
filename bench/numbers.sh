#!/usr/bin/env bash
# Order 3: the leaf that reads an eight-byte number, as it is and as it was, timed in one build.
set -euo pipefail
cd "$(dirname "$0")/.."
echo "proving and building both leaves"
tools/rt_in.sh bench_numbers lib
mkdir -p target/bench
rustc -O --edition 2021 bench/numbers/main.rs -o target/bench/numbers -L native=crates/bench_numbers/out -l static=bench_numbers
target/bench/numbers
