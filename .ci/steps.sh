# shellcheck shell=bash
# What .ci/run and .ci/quick share: a step by its name, and the checks that only read text.

# Runs a command; where it fails, ends the script with the step's name as its last line.
step() { # NAME COMMAND..
    echo "== $1"
    "${@:2}" </dev/null || { echo "FAILED: $1"; exit 1; }
}

# What no file of the repository can install.
needs_toolchain() {
    command -v rt >/dev/null && return
    echo "rt is missing: the Rattle toolchain, of this identity: $(cat toolchain.txt)."
    echo "It comes from its maker and isn't part of this repository; README.md says what else is needed."
    return 1
}

# Another toolchain may prove less or more: it is said, and decides nothing.
toolchain() {
    [ "$(rt version)" = "$(cat toolchain.txt)" ] ||
        echo "NOTE: this toolchain is $(rt version); the repository was proved with $(cat toolchain.txt)"
}

text_checks() {
    step "toolchain" toolchain
    step "direct dependencies" python3 tools/direct_dependencies.py --check
    step "refusals" python3 tools/refusals.py --check
    step "signatures" python3 tools/signatures.py
    step "static libraries" python3 tools/library.py --check
    step "header's refusals" python3 tools/header_refusals.py --check
    step "must-fail edits" python3 tools/edits.py
    step "mutations" python3 tools/mutations.py --check
    step "entry points" python3 tools/entry_points.py --check
    step "acceptance names" python3 tools/acceptance_names.py
    step "imports" python3 tools/imports.py
    step "pages" python3 tools/pages.py --check
    step "vectors" python3 tools/vectors --check
}
