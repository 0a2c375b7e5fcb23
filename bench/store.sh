#!/usr/bin/env bash
# Orders 1 and 14: an answer of a store of a million messages beside the same pass in ordinary Rust, and a transmitter's
# run sent by turns and by place. Builds the library where it is missing or older than its sources (some minutes). What
# follows is handed on: --runs NUMBER.
set -euo pipefail
cd "$(dirname "$0")/.."
. bench/built.sh

build_library
cd hosts
cargo run --quiet --release --offline -p bench_orders --bin bench_orders -- "$@"
