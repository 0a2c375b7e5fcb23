#!/usr/bin/env bash
# Proves and builds a program that reads captures, and runs it on one: tools/proved_program.sh PROGRAM CAPTURE. What
# calls it by a shorter name puts that name in its place in what is said: report.sh and missing.sh do.
set -uo pipefail
top=$(cd "$(dirname "$0")/.." && pwd)
name=${CALLED_AS:-tools/proved_program.sh PROGRAM}

if [ $# -ne 2 ]; then
    echo "usage: $name CAPTURE   (a sample: captures/gaps.capture)" >&2
    exit 2
fi
program=$1
capture=$2
if [ ! -r "$capture" ]; then
    echo "${name%% *}: $capture can't be read" >&2
    exit 2
fi
if ! command -v rt >/dev/null; then
    echo "${name%% *}: rt is missing: the Rattle toolchain, of this identity: $(cat "$top/toolchain.txt")." >&2
    echo "It comes from its maker and isn't part of this repository; README.md says what else is needed." >&2
    exit 2
fi

# one line for each crate that is proved, on standard error; the prover's own words only where it fails
"$top/tools/rt_in.sh" "$program" run || exit 1
exec "$top/crates/$program/out/$program" <"$capture"
