#!/usr/bin/env bash
# The tests of the program `eiderwagon`, over target/staticlib/libeiderwagon.a and the proved programs, which
# tools/rt_in.sh builds: its own, its installation, and the commands that its page prints.
set -euo pipefail
cd "$(dirname "$0")/../.."

# the installation is by make, which comes from Debian's packages where it is missing
command -v make >/dev/null || { apt-get update -q && apt-get install -qy make; }
tools/program.sh
tools/program.sh test --release --quiet
hosts/program/tests/install.sh

# README.md beside this file: its commands print what stands there, and its picture is the one that is drawn
folder=$(mktemp -d)
trap 'rm -rf "$folder"' EXIT
block() { sed -n "/^\`\`\`$1\$/,/^\`\`\`\$/p" hosts/program/README.md | sed '/^```/d'; }
PATH=$PWD/hosts/program/target/release:$PATH
block sh >"$folder/commands"
bash -uo pipefail "$folder/commands" >"$folder/printed"
block text | diff - "$folder/printed"
eiderwagon report captures/loss.capture --picture "$folder/loss.svg" >/dev/null
diff hosts/program/loss.svg "$folder/loss.svg"
echo "the program's page prints what it says"
