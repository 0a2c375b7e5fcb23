# Builds, installs and packs the program `eiderwagon` and the library. `make help` lists the targets; tools/ has the
# scripts that do the work.
SHELL := bash
.DELETE_ON_ERROR:
# the scripts use every core themselves
.NOTPARALLEL:

prefix ?= /usr/local
exec_prefix ?= $(prefix)
bindir ?= $(exec_prefix)/bin
libdir ?= $(exec_prefix)/lib
includedir ?= $(prefix)/include
datarootdir ?= $(prefix)/share
datadir ?= $(datarootdir)
mandir ?= $(datarootdir)/man
# what pkg-config is told; a release tells it to look from where its file stands
pcprefix ?= $(prefix)

# the header is the one place that has the version: a byte each for the three numbers
header := include/eiderwagon.h
version := $(shell printf '%d.%d.%d' \
    $$(sed -n 's/^.define EIDERWAGON_VERSION 0x\(..\)\(..\)\(..\)u$$/0x\1 0x\2 0x\3/p' $(header)))
ifeq ($(version),0.0.0)
$(error $(header) has no line '\#define EIDERWAGON_VERSION 0x......u')
endif
soname := libeiderwagon.so.$(firstword $(subst ., ,$(version)))

archive := target/staticlib/libeiderwagon.a
shared := target/shared/libeiderwagon.so.$(version)
program := hosts/program/target/release/eiderwagon
completions := $(addprefix target/completions/,bash zsh fish)
man := hosts/program/man

proved := $(shell find crates \( -name must-fail -o -name out \) -prune -o -type f -print) crates.txt toolchain.txt
rust := $(shell find hosts/program/src hosts/eiderwagon/src -type f) \
    $(wildcard $(foreach crate,program eiderwagon,hosts/$(crate)/Cargo.toml hosts/$(crate)/build.rs))

.PHONY: all install uninstall check release help version

all: $(archive) $(program) $(shared) $(completions)

$(archive): $(proved) tools/host_library.sh
	@. .ci/steps.sh && needs_toolchain
	tools/host_library.sh

# cargo leaves a program alone whose bytes wouldn't change; it is marked as looked at
$(program): $(archive) $(rust) tools/program.sh
	tools/program.sh
	@touch $@

# behind the program, whose script brings a C compiler where none is there
$(shared): $(archive) hosts/program/libeiderwagon.map tools/shared_library.sh $(header) | $(program)
	tools/shared_library.sh $(archive) $@ $(soname)

$(completions): target/completions/%: $(program)
	@mkdir -p $(@D)
	$(program) completions $* >$@

# what is installed: the mode, the file and its place; of a link the name that it leads to
define installed
0755 $(program) $(bindir)/eiderwagon
0644 $(archive) $(libdir)/libeiderwagon.a
0644 $(shared) $(libdir)/$(notdir $(shared))
link $(notdir $(shared)) $(libdir)/$(soname)
link $(soname) $(libdir)/libeiderwagon.so
0644 $(header) $(includedir)/eiderwagon.h
fill hosts/program/eiderwagon.pc.in $(libdir)/pkgconfig/eiderwagon.pc
0644 $(man)/eiderwagon.1 $(mandir)/man1/eiderwagon.1
0644 $(man)/eiderwagon-capture.5 $(mandir)/man5/eiderwagon-capture.5
0644 target/completions/bash $(datadir)/bash-completion/completions/eiderwagon
0644 target/completions/zsh $(datadir)/zsh/site-functions/_eiderwagon
0644 target/completions/fish $(datadir)/fish/vendor_completions.d/eiderwagon.fish
endef
export installed

# the folders as pkg-config has them: from the prefix on, where they stand under it
fill = sed -e 's|@prefix@|$(pcprefix)|' -e 's|@version@|$(version)|' \
    -e 's|@exec_prefix@|$(patsubst $(prefix),$${prefix},$(exec_prefix))|' \
    -e 's|@libdir@|$(patsubst $(exec_prefix)/%,$${exec_prefix}/%,$(libdir))|' \
    -e 's|@includedir@|$(patsubst $(prefix)/%,$${prefix}/%,$(includedir))|'

# Nothing is built here, as this may run as root.
install:
	@$(MAKE) -q --no-print-directory all 2>/dev/null || \
	    { echo "install: the files aren't built, or are older than their sources: run 'make' first" >&2; exit 1; }
	@set -eo pipefail; while read -r how file place; do \
	    place="$(DESTDIR)$$place"; \
	    case $$how in \
	    link) ln -sfn "$$file" "$$place" ;; \
	    fill) $(fill) "$$file" | install -D -m 0644 /dev/stdin "$$place" ;; \
	    *) install -D -m "$$how" "$$file" "$$place" ;; \
	    esac; \
	    echo "$$place"; \
	done <<<"$$installed"
	@[ -n "$(DESTDIR)" ] || echo "run 'ldconfig' as root, so that programs find $(soname)"

uninstall:
	@while read -r how file place; do rm -fv "$(DESTDIR)$$place"; done <<<"$$installed"

check:
	.ci/run

release:
	tools/release.sh

version:
	@echo $(version)

help:
	@echo "make            build what is stale: the library (proved first), the program, the shared library"
	@echo "make install    install what is built under prefix ($(prefix)), below DESTDIR where that is given;"
	@echo "                exec_prefix, bindir, libdir, includedir, datadir and mandir can be given, too"
	@echo "make uninstall  remove what 'make install' with the same folders put there"
	@echo "make check      run the gate, .ci/run"
	@echo "make release    pack target/release/eiderwagon-$(version)-x86_64-linux.tar.gz"
	@echo "make version    print the version"
