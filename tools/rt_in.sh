#!/usr/bin/env bash
# Runs `rt` in a crate's folder: tools/rt_in.sh CRATE VERB. `check` proves the crate, `lib` leaves a static library in
# its folder out/, and `run` a program, which is run once, on no input. A line for each crate that is proved goes to
# standard error, and the prover's own words only where it fails.
set -uo pipefail
cd "$(dirname "$0")/../crates/$1" || exit 2

if ! command -v rt >/dev/null; then
    echo "rt is missing: the Rattle toolchain, of this identity: $(cat ../../toolchain.txt)." >&2
    echo "It comes from its maker and isn't part of this repository; README.md says what else is needed." >&2
    exit 2
fi

# of what is said of a crate, the line with its name, and then the one with how many of its functions are proved
proofs() {
    awk '/^crate [a-z0-9_]+: / { name = substr($2, 1, length($2) - 1) }
        /^logic=proved functions=/ { print "rt: " name " proved, " substr($2, 11) " functions"; fflush() }'
}

log=$(mktemp)
trap 'rm -f "$log"' EXIT
rt "$2" </dev/null 2>&1 | tee "$log" | proofs >&2
status=${PIPESTATUS[0]}
# a program's status is its own, and no input may be none that it takes
if [ "$2" = run ] && grep -q "^rt: running out/$1" "$log"; then
    status=0
fi
if [ "$status" -ne 0 ]; then
    grep -Ev '^(statements|library|axioms) ' "$log" | tail -n 40 >&2
    exit 1
fi
