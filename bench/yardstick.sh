#!/usr/bin/env bash
# The library's receiver and walk beside the same in ordinary Rust (hosts/yardstick): builds the library where it is missing or
# older than its sources (some minutes), compares every answer, and prints both times. What follows is handed on: --runs NUMBER.
set -euo pipefail
cd "$(dirname "$0")/.."
. bench/built.sh

build_library
cd hosts
cargo run --quiet --release --offline -p yardstick -- "$@"
