#!/usr/bin/env bash
# Makes a shared library of the archive: tools/shared_library.sh ARCHIVE OUT SONAME
set -euo pipefail
cd "$(dirname "$0")/.."
archive=$1
out=$2
soname=$3

mkdir -p "$(dirname "$out")"
trap 'rm -f "$out.part"' EXIT
# whole, as nothing here calls its functions; a name that nothing defines is an error now, and not at a program's start
cc -shared -o "$out.part" -Wl,--whole-archive "$archive" -Wl,--no-whole-archive -Wl,-soname,"$soname" \
    -Wl,--version-script,hosts/program/libeiderwagon.map -Wl,-z,defs,-z,now,-z,relro

# code that is written to at the start can't be shared between programs
if readelf -d "$out.part" | grep TEXTREL; then
    echo "tools/shared_library.sh: $archive has code that isn't position independent" >&2
    exit 1
fi
mv "$out.part" "$out"
echo "built $out: $(nm -D --defined-only "$out" | grep -c ' T eiderwagon_') functions"
