#!/usr/bin/env bash
# The hosts' tests, over target/staticlib/libeiderwagon.a, which tools/host_library.sh builds: the Rust wrapper with its
# examples, the differential tests, the yardstick's comparison, the header as C and as C++, the examples and the test in
# C, with warnings as errors, and the programs that the pages print.
set -euo pipefail
cd "$(dirname "$0")"

# Rust (1.80 or newer) and compilers of C and C++ are on the machine, or come from Debian's packages
if ! command -v cargo >/dev/null || ! command -v cc >/dev/null || ! command -v c++ >/dev/null; then
    apt-get update -q
    command -v cc >/dev/null || apt-get install -qy gcc libc6-dev
    command -v c++ >/dev/null || apt-get install -qy g++
    # Debian 12's own cargo is older; its cargo-web is the newer one that its browsers are built with
    command -v cargo >/dev/null || apt-get install -qy cargo-web || apt-get install -qy cargo
fi

cargo test --release --offline --workspace -- --nocapture

library=../target/staticlib/libeiderwagon.a
programs=target/c
warnings=(-Wall -Wextra -Wconversion -Wpedantic -Werror -I ../include)
mkdir -p "$programs"

# from C++, where an empty vector's pointer is NULL
c++ -std=c++17 "${warnings[@]}" -x c++ - -x none "$library" -o "$programs/vector" <<'END'
#include "eiderwagon.h"
#include <vector>
int main() {
    std::vector<uint8_t> none;
    uint64_t words[EIDERWAGON_SCAN_WORDS];
    uint32_t code = eiderwagon_soup_scan(none.data(), none.size(), EIDERWAGON_SOUP_FROM_CLIENT, words,
                                         EIDERWAGON_SCAN_WORDS);
    return EIDERWAGON_NUMBER(code) != EIDERWAGON_OK || words[EIDERWAGON_SCAN_SIZE] != 0;
}
END
"$programs/vector"

# the examples print what is stored beside them
for program in feed early missing login branch test; do
    cc -std=c11 "${warnings[@]}" "c/$program.c" "$library" -o "$programs/$program"
done
for example in feed early missing login branch; do
    "$programs/$example" | diff "c/$example.txt" -
done
"$programs/test"

# this folder's README.md: its program, with the commands as they are printed there, outside the repository
outside=$(mktemp -d)
trap 'rm -rf "$outside"' EXIT
ln -s "$(realpath ..)" "$outside/eiderwagon"
block() { sed -n "/^\`\`\`$1\$/,/^\`\`\`\$/p" "$2" | sed '/^```/d'; }
block sh README.md >"$outside/commands"
block text README.md >"$outside/wanted"
(cd "$outside" && bash -euo pipefail commands) >"$outside/printed"
diff "$outside/wanted" "$outside/printed"

# the front page: its two short programs print what it says of them
block c ../README.md >"$outside/front.c"
cc -std=c11 "${warnings[@]}" "$outside/front.c" "$library" -o "$programs/front"
"$programs/front" | diff <(echo 'ask from 1 for 2') -
block rust ../README.md >"$outside/prices/src/main.rs"
(cd "$outside/prices" && EIDERWAGON_LIB_DIR=../eiderwagon/target/staticlib cargo run --quiet --offline) |
    diff <(printf '1: offer\n2: sale\n') -
echo "the pages' programs print what they say"
