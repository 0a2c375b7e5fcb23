#!/usr/bin/env bash
# Builds the program `eiderwagon` (hosts/program): tools/program.sh. It builds the library for hosts first where that is
# missing. With arguments it is cargo for that program, over what is built: tools/program.sh test --release
#
# libpcap and the Rust packages come from Debian's, which stand in for cargo's registry.
set -euo pipefail
cd "$(dirname "$0")/.."
packages=(libpcap-dev librust-clap-dev librust-clap-complete-dev librust-indicatif-dev)

there() { [ "$(dpkg-query -W -f '${db:Status-Status}' "$1" 2>/dev/null)" = installed ]; }

wanted=()
for package in "${packages[@]}"; do
    there "$package" || wanted+=("$package")
done
command -v cc >/dev/null || wanted+=(gcc libc6-dev)

# Rust (1.80 or newer): Debian 12's own cargo is older; its cargo-web is the newer one that its browsers are built with
install() {
    apt-get update -q
    if ! command -v cargo >/dev/null; then
        if apt-cache show cargo-web >/dev/null 2>&1; then wanted+=(cargo-web); else wanted+=(cargo); fi
    fi
    apt-get install -qy --no-install-recommends "${wanted[@]}"
}

if [ ${#wanted[@]} -gt 0 ] || ! command -v cargo >/dev/null; then
    if [ "$(id -u)" -ne 0 ]; then
        echo "tools/program.sh: Debian's packages are missing, which root installs: ${wanted[*]} cargo" >&2
        exit 1
    fi
    echo "installing from Debian's packages: ${wanted[*]}" >&2
    # its words are kept, and shown where it fails
    log=$(mktemp)
    trap 'rm -f "$log"' EXIT
    install >"$log" 2>&1 || { cat "$log" >&2; exit 1; }
fi

# the folder of the Rust packages, as the package manager tells it
sources=$(dpkg -L librust-clap-dev | sed -n 's,/clap-[^/]*$,,p' | head -n 1)
if [ -z "$sources" ]; then
    echo "tools/program.sh: the package librust-clap-dev has no folder clap-VERSION" >&2
    exit 1
fi
# and cargo over it; what the program says of a fault names a file from the repository's root on, wherever that is
debian() {
    # the versions are those of the packages, which may have changed since the last build
    rm -f hosts/program/Cargo.lock
    cargo "$1" --manifest-path hosts/program/Cargo.toml --target-dir hosts/program/target --offline \
        --config 'source.crates-io.replace-with="debian"' --config "source.debian.directory=\"$sources\"" \
        --config "build.rustflags=[\"--remap-path-prefix=$PWD=.\"]" "${@:2}"
}

if [ $# -gt 0 ]; then
    debian "$@"
else
    [ -e target/staticlib/libeiderwagon.a ] || tools/host_library.sh >&2
    debian build --release
    echo "built hosts/program/target/release/eiderwagon"
fi
