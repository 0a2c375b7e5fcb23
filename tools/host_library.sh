#!/usr/bin/env bash
# Builds the library for hosts in other languages, target/staticlib/libeiderwagon.a: the archives of the static libraries
# `exports_.._c` as one. What was proved and hasn't changed isn't proved again, but for these crates themselves. Each is
# compiled by itself, so that what one caller of it calls is compiled into that caller (docs/DECISIONS.md).
set -euo pipefail
cd "$(dirname "$0")/.."
library=$PWD/target/staticlib/libeiderwagon.a
crates=$(sed -n 's/^\(exports_[a-z0-9_]*_c\) staticlib:.*/\1/p' crates.txt)

# the archives are joined with binutils, which come from Debian's packages where they are missing
command -v ar >/dev/null || { apt-get update -q && apt-get install -qy binutils; }

mkdir -p target/staticlib
room=$(mktemp -d)
trap 'rm -rf "$room"' EXIT
for crate in $crates; do
    tools/rt_in.sh "$crate" lib
    mkdir "$room/$crate"
    (cd "$room/$crate" && ar x "$OLDPWD/crates/$crate/out/lib$crate.a")
done
ar rcs "$room/libeiderwagon.a" "$room"/*/*.o

# what hosts/README.md says of it, and docs/ASSUMPTIONS.md
needed=$(nm -u "$room/libeiderwagon.a" | awk '$1 == "U" { print $2 }' | sort -u | xargs)
if [ "$needed" != memcpy ]; then
    echo "tools/host_library.sh: the library needs $needed, and was to need memcpy alone" >&2
    exit 1
fi
mv "$room/libeiderwagon.a" "$library"
echo "built target/staticlib/libeiderwagon.a: $(nm --defined-only -g "$library" | grep -c ' T eiderwagon_') functions"
