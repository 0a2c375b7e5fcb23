# shellcheck shell=bash
# What the commands here time, built where it is missing or older than its sources. To be sourced, in the repository's root.

# Whether a built file is missing, or something that it is made of is newer.
stale() { # FILE
    [ ! -f "$1" ] ||
        [ -n "$(find crates crates.txt toolchain.txt -name out -prune -o -type f -newer "$1" -print -quit)" ]
}

# The library for hosts, in some minutes.
build_library() {
    if stale target/staticlib/libeiderwagon.a; then
        tools/host_library.sh
    fi
}

# A program that reads captures. One that was proved already isn't written again, so it is marked as looked at.
build_program() { # NAME
    if stale "crates/$1/out/$1"; then
        tools/rt_in.sh "$1" run
        touch "crates/$1/out/$1"
    fi
}
