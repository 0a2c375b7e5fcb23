#!/usr/bin/env bash
# Packs a release, target/release/eiderwagon-VERSION-x86_64-linux.tar.gz: an installed tree with the samples, what it
# was built from and with, and a sum of each file. The same built files of the same commit give the same bytes.
set -euo pipefail
cd "$(dirname "$0")/.."
umask 022
export LC_ALL=C

changes=$(git status --porcelain)
if [ -n "$changes" ]; then
    printf 'tools/release.sh: a release is made of a commit, and these changes are in none:\n%s\n' "$changes" >&2
    exit 1
fi
make -s >&2

name=eiderwagon-$(make -s version)-x86_64-linux
mkdir -p target/release
room=$(mktemp -d "$PWD/target/release/room.XXXXXX")
trap 'rm -rf "$room"' EXIT
tree=$room/$name

# it is unpacked anywhere, so pkg-config looks from where its file stands
# shellcheck disable=SC2016
make -s install DESTDIR="$tree" prefix=/ pcprefix='$${pcfiledir}/../..' >/dev/null
# the places in the sources, which name the folder that it was built in
strip --strip-debug "$tree/bin/eiderwagon"
install -m 0644 README.md "$tree"
install -D -m 0644 -t "$tree/captures" captures/*.capture

# the compiler as the program itself tells it, since another one may be installed by now
rustc=$(readelf -p .comment "$tree/bin/eiderwagon" | sed -n 's/.*rustc version //p')
cat >"$tree/VERSION" <<END_OF_VERSION
version=$(make -s version)
commit=$(git rev-parse HEAD)
toolchain=$(cat toolchain.txt)
rustc=${rustc:?the program does not tell its compiler}
libpcap=$(pcap-config --version)
END_OF_VERSION
(cd "$tree" && find . -type f -printf '%P\0' | sort -z | xargs -0 sha256sum) >"$room/sums"
mv "$room/sums" "$tree/SHA256SUMS"

tar --create --directory "$room" --sort=name --format=gnu --owner=0 --group=0 --numeric-owner \
    --mtime="@$(git log -1 --format=%ct)" "$name" | gzip -n -9 >"$room/packed"
mv "$room/packed" "target/release/$name.tar.gz"
cd target/release
echo "packed target/release/$name.tar.gz"
sha256sum "$name.tar.gz" | tee "$name.tar.gz.sha256"
echo "to check it, beside it: sha256sum -c $name.tar.gz.sha256; unpacked, in its folder: sha256sum -c SHA256SUMS"
