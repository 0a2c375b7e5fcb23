#!/usr/bin/env bash
# Tests what `make install` installs: hosts/program/tests/install.sh. What is stale is built first. It prints a line for
# each check, and ends at the first that fails.
set -euo pipefail
cd "$(dirname "$0")/../../.."
export LC_ALL=C
room=$(mktemp -d)
trap 'rm -rf "$room"' EXIT
trap 'echo "FAILED: hosts/program/tests/install.sh, line $LINENO"' ERR

tree=$room/tree
into=(DESTDIR="$tree" prefix=/usr)
shared=$tree/usr/lib/libeiderwagon.so
page=hosts/program/man/eiderwagon.1
pages=("$page" hosts/program/man/eiderwagon-capture.5)
passed() { echo "install: $*"; }

make -s >&2
version=$(make -s version)
if make -s install DESTDIR="$room/none" program="$room/none" 2>"$room/said"; then
    false
fi
grep -q "run 'make' first" "$room/said"
[ ! -e "$room/none" ]
passed "what isn't built isn't installed, nor built by the way"

make -s install "${into[@]}" >/dev/null
diff - <(cd "$tree" && find . -not -type d -printf '%m %P %l\n' | sed 's/ $//' | sort -k 2) <<END_OF_TREE
755 usr/bin/eiderwagon
644 usr/include/eiderwagon.h
644 usr/lib/libeiderwagon.a
777 usr/lib/libeiderwagon.so libeiderwagon.so.${version%%.*}
777 usr/lib/libeiderwagon.so.${version%%.*} libeiderwagon.so.$version
644 usr/lib/libeiderwagon.so.$version
644 usr/lib/pkgconfig/eiderwagon.pc
644 usr/share/bash-completion/completions/eiderwagon
644 usr/share/fish/vendor_completions.d/eiderwagon.fish
644 usr/share/man/man1/eiderwagon.1
644 usr/share/man/man5/eiderwagon-capture.5
644 usr/share/zsh/site-functions/_eiderwagon
END_OF_TREE
passed "each file is in its place, with its mode"

PATH=$tree/usr/bin:$PATH
eiderwagon --version | diff <(echo "eiderwagon $version") -
passed "the program's version is the header's, $version"

# the compiler's own folders are told as well, as here they stand in the tree
export PKG_CONFIG_PATH=$tree/usr/lib/pkgconfig PKG_CONFIG_SYSROOT_DIR=$tree
export PKG_CONFIG_ALLOW_SYSTEM_CFLAGS=1 PKG_CONFIG_ALLOW_SYSTEM_LIBS=1
tool=$(command -v pkgconf || command -v pkg-config || true)
described() { # cflags | libs | modversion
    if [ -n "$tool" ]; then
        "$tool" "--$1" eiderwagon
        return
    fi
    # without the tool: the file's variables are in the shell's own words, and its lines name them
    local line=$1
    [ "$1" != modversion ] || line=version
    (
        eval "$(sed -n "s|^prefix=|&$tree|; /^[a-z_]*=/p" "$PKG_CONFIG_PATH/eiderwagon.pc")"
        eval "echo $(sed -n "s/^$line: //Ip" "$PKG_CONFIG_PATH/eiderwagon.pc")"
    )
}
described modversion | diff <(echo "$version") -
passed "pkg-config's version is the header's"

cat >"$room/version.c" <<'END_OF_PROGRAM'
#include <eiderwagon.h>
int main(void) { return eiderwagon_version() != EIDERWAGON_VERSION; }
END_OF_PROGRAM
needs() { readelf -d "$1" | sed -n 's/.*(NEEDED).*\[\(libeiderwagon.*\)\]/\1/p'; }
read -ra cflags < <(described cflags)
read -ra libs < <(described libs)
cc "${cflags[@]}" "$room/version.c" "${libs[@]}" -o "$room/version"
needs "$room/version" | diff <(echo "libeiderwagon.so.${version%%.*}") -
LD_LIBRARY_PATH=$tree/usr/lib "$room/version"
passed "a program in C runs with the shared library"

cc "${cflags[@]}" "$room/version.c" -Wl,-Bstatic "${libs[@]}" -Wl,-Bdynamic -o "$room/version"
needs "$room/version" | diff /dev/null -
"$room/version"
passed "a program in C runs with the archive"

for example in hosts/c/*.txt; do
    cc "${cflags[@]}" "${example%.txt}.c" "${libs[@]}" -o "$room/example"
    LD_LIBRARY_PATH=$tree/usr/lib "$room/example" | diff "$example" -
done
passed "the examples in C print the same with the shared library"

diff <(sed -n 's/^uint32_t \(eiderwagon_[a-z0-9_]*\)(.*/\1/p' include/eiderwagon.h | sort) \
    <(nm -D --defined-only "$shared" | sed 's/.* //' | sort)
passed "the shared library shows the header's functions, and nothing else"

if command -v mandoc >/dev/null; then
    mandoc -T lint -W warning "${pages[@]}"
    passed "the man pages are clean"
else
    passed "mandoc isn't here, and the man pages' layout wasn't looked at"
fi

# the commands, and the long options of each as the program has them: `report --json`, or ` --version` of none
commands=$(eiderwagon --help | sed -n '/^Commands:/,/^$/s/^  \([a-z]*\) .*/\1/p')
for command in '' $commands; do
    # shellcheck disable=SC2086
    eiderwagon $command --help | sed -nE "s/^ {2,6}(-[A-Za-z], )?(--[a-z-]+).*/$command \2/p"
done | grep -v '[a-z] --help' | sort >"$room/options"
awk '
    /^\.Sh/ { inside = /SYNOPSIS/ }
    /^\.Nm/ { command = "" }
    /^\.Cm/ { command = $2 }
    inside { for (at = 1; at < NF; at++) if ($at == "Fl" && $(at + 1) ~ /^-/) print command, "-" $(at + 1) }
' "$page" | sort | diff "$room/options" -
passed "the synopsis has each command's long options, and no other"

diff <(sort <<<"$commands") <(sed -n '/^.Sh SYNOPSIS/,/^.Sh DESC/s/^.Cm //p' "$page" | sort)
diff <(sort <<<"$commands") <(sed -n 's/^.Ss \([a-z]*\)$/\1/p' "$page" | sort)
passed "the synopsis and the description have each command, and no other"

# options of the description and the examples, the latter with their dashes escaped
sed -e '1,/^.Sh DESC/d' -e 's/\\-/-/g' -e 's/Fl -/--/g' "$page" | grep -oE -- '--[a-z]+' | sort -u |
    diff <(sed 's/.* //' "$room/options" | sort -u) -
passed "each long option is described, and each that is described is there"

# commands of the pages with what they print: the block, or the line, before `prints`, and the block behind it
mkdir "$room/samples"
ln -s "$PWD/captures" "$room/samples"
awk -v to="$room/samples/" '
    function plain(text) { gsub(/\\\(aq/, "\047", text); gsub(/\\-/, "-", text); gsub(/\\e/, "\\", text); return text }
    /^\.Dl/ { last = plain(substr($0, 5)) "\n" }
    /^\.Bd/ { block = ""; inside = 1; next }
    /^\.Ed/ { inside = 0; last = block; if (wanted) printf "%s", block >(to count ".txt"); wanted = 0 }
    inside { block = block plain($0) "\n" }
    /^(It )?prints$/ { count++; wanted = 1; printf "%s", last >(to count ".sh") }
' "${pages[@]}"
for sample in "$room"/samples/*.sh; do
    # what is missing gives the status 1
    (cd "$room/samples" && { bash "$sample" || [ $? -eq 1 ]; }) | diff "${sample%.sh}.txt" -
done
[ "$(printf '%s\n' "$room"/samples/*.sh | wc -l)" -eq 3 ]
passed "the three samples of the man pages print what stands there"

bash -euc 'source "$1"; complete -p eiderwagon' - "$tree/usr/share/bash-completion/completions/eiderwagon" >/dev/null
passed "bash takes its completions"

make -s uninstall "${into[@]}" >/dev/null
find "$tree" -not -type d | diff /dev/null -
passed "'make uninstall' leaves no file"
