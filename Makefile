# Yendlowa's libraries, programs and tests. 'make help' prints the lines that open with '##'.

## make all             lib and programs; 'make' alone does the same
## make lib             the libraries for C: archives in build/lib, shared libraries in build/shared, headers in build/include
## make programs        yendlowa, yendlowa-desk and yendlowa-encode in build/bin, their manual pages in build/man
## make install         all of these under prefix=/usr/local; see 'Directories' in the Makefile for the other variables
## make install-issuer  the issuer's part of them alone
## make install-desk    the desk's part of them alone
## make uninstall       removes what 'make install' put there, and no folder
## make check           the tests that take seconds
## make test            everything that the gate asks: proofs, must-fail edits, programs, comparisons, and how long each part took
## make compare         the second implementation alone, with SEED=n and COUNT=n random cases
## make fuzz            random cases with fresh seeds, for SECONDS=n
## make bench           every operation beside plain Rust, C and OpenSSL; GROWTH=1: how cost grows with labels and pairs
## make clean           removes all that was built and proved
## make help            this list

SHELL := /bin/bash
CFLAGS ?= -O2 -Wall -Wextra
RUSTC ?= rustc
SEED ?= 1
COUNT ?= 100000
SECONDS ?= 60

# Directories: GNU's variables. DESTDIR is put in front of each. A path may have spaces in it.
prefix = /usr/local
exec_prefix = $(prefix)
bindir = $(exec_prefix)/bin
libdir = $(exec_prefix)/lib
includedir = $(prefix)/include
datarootdir = $(prefix)/share
mandir = $(datarootdir)/man
pkgconfigdir = $(libdir)/pkgconfig
INSTALL = install
INSTALL_PROGRAM = $(INSTALL)
INSTALL_DATA = $(INSTALL) -m 644

# The version, from the one place where it stands.
VERSION_FILE := crates/version/src/lib.rt
VERSION := $(shell sed -nE 's/^pub const VERSION: .*b"([0-9]+\.[0-9]+\.[0-9]+)";$$/\1/p' $(VERSION_FILE))
NUMBERS := $(subst ., ,$(VERSION))
MAJOR := $(word 1,$(NUMBERS))

# What belongs to the issuer and what to the desk. A part is a static library of rt, and one object of the library for C; the last is in both.
SIDES := issuer desk
PARTS_issuer := hash_c policy_exports plan_c growth_c issuer_c seal_c roster_c roster_plans_c roster_issuer_c refusals_c
PARTS_desk := desk_c open_c refusals_c
PROGRAMS_issuer := build/bin/yendlowa build/bin/yendlowa-encode
PROGRAMS_desk := build/bin/yendlowa-desk
MANUALS_issuer := build/man/yendlowa.1 build/man/yendlowa-encode.1
MANUALS_desk := build/man/yendlowa-desk.1
headers = $(addprefix build/include/,yendlowa_$1.h yendlowa_refusals.h yendlowa_version.h)
archive = build/lib/libyendlowa-$1.a
shared = build/shared/libyendlowa-$1.so.$(VERSION)
links = build/shared/libyendlowa-$1.so.$(MAJOR) build/shared/libyendlowa-$1.so
built = $(PROGRAMS_$1) $(MANUALS_$1) $(call headers,$1) $(call archive,$1) $(call shared,$1)

PARTS := $(sort $(PARTS_issuer) $(PARTS_desk))
PROGRAMS := $(PROGRAMS_issuer) $(PROGRAMS_desk)
MANUALS := $(MANUALS_issuer) $(MANUALS_desk)
HEADERS := $(sort $(foreach side,$(SIDES),$(call headers,$(side))))
ARCHIVES := $(foreach side,$(SIDES),$(call archive,$(side)))
SHARED := $(foreach side,$(SIDES),$(call shared,$(side)))
FOLDERS := $(addprefix build/,bin include lib log man obj shared test)

COMPARE := build/compare
BENCH := build/bench
YARDSTICKS := build/sha256.o build/chacha20_poly1305.o
OPENSSL = $(shell echo '\#include <openssl/evp.h>' | $(CC) -E - >/dev/null 2>&1 && echo '--cfg openssl -l crypto')
LINKED := -L build/lib -l static=yendlowa-issuer -l static=yendlowa-desk
HARDENED := -Wl,-z,defs -Wl,-z,relro -Wl,-z,now

ifeq ($(VERSION),)
$(error $(VERSION_FILE) has no version)
endif
ifeq ($(origin PREFIX),command line)
$(error PREFIX is not used: say prefix=$(PREFIX))
endif

# What only builds is built by as many jobs as there are cores, at most 4 and one for each 2 GB of memory, unless make, or a make above it, has been told a number (-j).
# If one of the goals does more than build, they come one after the other, on one core. rt proves as many crates at a time as there are jobs.
GOALS := $(or $(MAKECMDGOALS),all)
TOLD := $(shell printf %s "$$MAKEFLAGS")
FITTING = $(shell awk -v cores="$$(nproc)" '/^MemAvailable:/ { n = int($$2 / 2097152) } END { if (n > cores) n = cores; if (n > 4) n = 4; if (n < 1) n = 1; print n }' /proc/meminfo)
JOBS = $(or $(firstword $(patsubst -j%,%,$(filter -j%,$(TOLD)))),$(FITTING))
ifneq ($(filter-out all lib programs install install-issuer install-desk build/%,$(GOALS)),)
.NOTPARALLEL:
else ifeq ($(findstring -j,$(TOLD)),)
MAKEFLAGS += -j$(FITTING)
endif

.PHONY: all lib programs install install-issuer install-desk uninstall check test compare fuzz bench clean help
.DELETE_ON_ERROR:

all: lib programs

lib: $(ARCHIVES) $(SHARED) $(HEADERS)

programs: $(PROGRAMS) $(MANUALS)
	@echo "the programs are in build/bin"

help:
	@sed -n 's/^## //p' Makefile

# ---- proofs and objects. One call of 'rt all check' proves every crate, each as soon as what it uses is proved. What it proved stays in crates/*/out, and 'rt lib' and
# 'rt run' start from that: they check a part's own crate again and compile it. Calls of rt in one checkout wait for one another, so only the first has several jobs. rt itself
# says whether a crate is proved; make only decides when to ask it. What a call makes gets the date of the call's start, so that a file changed meanwhile is newer.

# The files of each crate and their folders, so that a file that was removed counts.
FILES := $(shell find crates -mindepth 2 \( -name must-fail -o -name out -o -name '*[\# ]*' \) -prune -o -print)

# A word MADE:CRATE for each crate that a part or a program is made of, itself among them.
MADE_OF := $(shell awk -v made="$(PARTS) issuer_program desk_program plan" ' \
    /^[a-z]/ { crate = $$1; sub(/:$$/, "", crate); for (i = 2; i <= NF; i++) if ($$i != "staticlib:") uses[crate] = uses[crate] " " $$i } \
    function walk(top, crate, list, n, i) { if (seen[top, crate]++) return; print top ":" crate; n = split(uses[crate], list, " "); for (i = 1; i <= n; i++) walk(top, list[i]) } \
    END { n = split(made, tops, " "); for (k = 1; k <= n; k++) walk(tops[k], tops[k]) }' crates.txt)
rests = crates.txt $(filter $(patsubst $1:%,crates/%/%,$(filter $1:%,$(MADE_OF))),$(FILES))

# $(call rt,NAME,FOLDER,WORDS): calls rt in a folder. What it says goes to build/log/NAME, and is shown if it fails.
rt = touch build/log/$1.began && { ( cd $2 && "$(CURDIR)/scripts/rt" $3 ) >build/log/$1 2>&1 || { cat build/log/$1; exit 1; }; }

build/log/proved: crates.txt $(FILES) | build/log
	@$(call rt,all,.,all check --jobs $(JOBS)) && echo "  every crate is proved"
	@touch $@ && touch -r build/log/all.began $@

$(foreach part,$(PARTS),$(eval build/obj/$(part).o: $(call rests,$(part))))
$(PARTS:%=build/obj/%.o): build/obj/%.o: | build/log/proved build/obj
	@$(call rt,$*,crates/$*,lib) && echo "  $* built"
	@cd build/obj && ar x ../../crates/$*/out/lib$*.a $*.o && touch -r ../log/$*.began $*.o

# ---- libraries

$(foreach side,$(SIDES),$(eval $(call archive,$(side)) $(call shared,$(side)): $(PARTS_$(side):%=build/obj/%.o)))
$(ARCHIVES): | build/lib
	@rm -f $@
	@ar rcs $@ $^

# What a shared library exports: the functions that its headers declare.
build/shared/%.map: include/yendlowa_%.h include/yendlowa_refusals.h | build/shared
	@{ echo '{ global:'; sed -nE 's/^[a-z].*[ *](yendlowa_[a-z0-9_]+)\(.*/    \1;/p' $^; echo 'local: *; };'; } >$@

$(SHARED): build/shared/libyendlowa-%.so.$(VERSION): build/shared/%.map
	@$(CC) -shared $(CFLAGS) $(LDFLAGS) $(HARDENED) -Wl,-soname,libyendlowa-$*.so.$(MAJOR) -Wl,--version-script=$< $(filter %.o,$^) -o $@
	@cp $@ build/shared/libyendlowa-$*.so.$(MAJOR)
	@cp $@ build/shared/libyendlowa-$*.so

build/include/%.h: include/%.h | build/include
	@cp $< $@

build/include/yendlowa_version.h: include/yendlowa_version.h.in $(VERSION_FILE) | build/include
	@sed -e 's/@VERSION@/$(VERSION)/' -e 's/@MAJOR@/$(MAJOR)/' -e 's/@MINOR@/$(word 2,$(NUMBERS))/' -e 's/@PATCH@/$(word 3,$(NUMBERS))/' $< >$@

# ---- programs: what 'rt run' leaves in its crate's out/. It runs each once, with words that need no file.

build/bin/yendlowa: crate := issuer_program
build/bin/yendlowa: words := -- --version
build/bin/yendlowa: $(call rests,issuer_program)
build/bin/yendlowa-desk: crate := desk_program
build/bin/yendlowa-desk: words := -- --version
build/bin/yendlowa-desk: $(call rests,desk_program)
# 01's program, which only the tests run; it reads standard input, which is empty here.
build/test/plan: crate := plan
build/test/plan: words :=
build/test/plan: $(call rests,plan)
build/bin/yendlowa build/bin/yendlowa-desk build/test/plan: | build/log/proved build/bin build/test
	@$(call rt,$(crate),crates/$(crate),run $(words)) && echo "  $(@F) built"
	@cp crates/$(crate)/out/$(crate) $@ && touch -r build/log/$(crate).began $@

build/bin/yendlowa-encode: scripts/yendlowa-encode $(VERSION_FILE) | build/bin
	@sed 's/^version=@VERSION@$$/version=$(VERSION)/' $< >$@
	@chmod +x $@

$(MANUALS): build/man/%: man/% $(VERSION_FILE) | build/man
	@sed 's/@VERSION@/$(VERSION)/g' $< >$@

$(FOLDERS):
	@mkdir -p $@

# ---- installation

install: install-issuer install-desk

# One after the other, since some files belong to both.
ifneq ($(filter install install-issuer,$(MAKECMDGOALS)),)
install-desk: | install-issuer
endif

$(foreach side,$(SIDES),$(eval install-$(side): $(call built,$(side))))
install-issuer install-desk: install-%:
	$(INSTALL) -d "$(DESTDIR)$(bindir)" "$(DESTDIR)$(libdir)" "$(DESTDIR)$(includedir)" "$(DESTDIR)$(pkgconfigdir)" "$(DESTDIR)$(mandir)/man1"
	$(INSTALL_PROGRAM) $(PROGRAMS_$*) "$(DESTDIR)$(bindir)"
	$(INSTALL_DATA) $(call archive,$*) "$(DESTDIR)$(libdir)"
	$(INSTALL_PROGRAM) $(call shared,$*) "$(DESTDIR)$(libdir)"
	ln -sf libyendlowa-$*.so.$(VERSION) "$(DESTDIR)$(libdir)/libyendlowa-$*.so.$(MAJOR)"
	ln -sf libyendlowa-$*.so.$(MAJOR) "$(DESTDIR)$(libdir)/libyendlowa-$*.so"
	$(INSTALL_DATA) $(call headers,$*) "$(DESTDIR)$(includedir)"
	$(INSTALL_DATA) $(MANUALS_$*) "$(DESTDIR)$(mandir)/man1"
	sed $(filled) pkgconfig/yendlowa-$*.pc.in >"$(DESTDIR)$(pkgconfigdir)/yendlowa-$*.pc"
	chmod 644 "$(DESTDIR)$(pkgconfigdir)/yendlowa-$*.pc"

# What stands for the placeholders of a .pc.in; in a path \, & and | mean themselves.
literal = $(subst |,\|,$(subst &,\&,$(subst \,\\,$1)))
filled = -e 's|@VERSION@|$(VERSION)|' $(foreach name,prefix exec_prefix libdir includedir,-e 's|@$(name)@|$(call literal,$($(name)))|')

# at FOLDER,FILES: where the files are installed
at = $(foreach file,$(notdir $2),"$(DESTDIR)$1/$(file)")
uninstall:
	rm -f $(call at,$(bindir),$(PROGRAMS)) $(call at,$(includedir),$(HEADERS)) $(call at,$(mandir)/man1,$(MANUALS))
	rm -f $(call at,$(libdir),$(ARCHIVES) $(SHARED) $(foreach side,$(SIDES),$(call links,$(side))))
	rm -f $(call at,$(pkgconfigdir),$(SIDES:%=yendlowa-%.pc))

# ---- tests

check:
	@tests/run quick

test:
	@tests/run

compare:
	@$(MAKE) -s --no-print-directory $(COMPARE)
	@$(COMPARE) $(SEED) $(COUNT) groups

fuzz:
	@$(MAKE) -s --no-print-directory $(COMPARE)
	@$(COMPARE) fuzz $(SECONDS)

bench:
	@$(MAKE) -s --no-print-directory $(BENCH)
	@$(BENCH) $(if $(GROWTH),growth)

$(COMPARE): $(ARCHIVES) $(wildcard tests/compare/*.rs)
	@env -u MAKEFLAGS $(RUSTC) --edition 2021 -C opt-level=1 -C codegen-units=1 $(LINKED) tests/compare/main.rs -o $@

$(BENCH): $(ARCHIVES) $(YARDSTICKS) $(wildcard tests/bench/*.rs tests/compare/*.rs)
	@env -u MAKEFLAGS -u MFLAGS $(RUSTC) --edition 2021 -C opt-level=3 $(LINKED) $(YARDSTICKS:%=-C link-arg=%) $(OPENSSL) tests/bench/bench.rs -o $@

$(YARDSTICKS): build/%.o: tests/bench/%.c | build/lib
	@$(CC) -O3 -Wall -Wextra -c $< -o $@

clean:
	rm -rf build crates/*/out
