#!/usr/bin/env bash
# Order 6: a step of the receiver that keeps early messages beside the plain receiver's, in order and with neighbours
# swapped, with the ratio to reach. Builds the library where it is missing or older than its sources (some minutes). What
# follows is handed on: --runs NUMBER.
set -euo pipefail
cd "$(dirname "$0")/.."
. bench/built.sh

build_library
cd hosts
cargo run --quiet --release --offline -p bench_orders --bin early -- "$@"
