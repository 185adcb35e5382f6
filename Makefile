# make                          proves and builds everything, then runs the main job on examples
# make test                     the gate
# make bench                    times and stack of a digest, against plain, tables and the AES instruction
# make bench BEFORE=PATH/libbahmorist.a   the same, and beside an earlier build, which that commit's tools/library made; takes objcopy
# make trials SEED=1 CASES=1000 a longer run against the second implementation, with its own seed and number of cases
# make wrong                    runs each wrong program, and tells the first case that shows it; after `make`, for some twenty minutes
# make install PREFIX=/usr/local DESTDIR=   header, archive, pkg-config file and programs, as `make` built them, manuals and pages
# make uninstall PREFIX=/usr/local DESTDIR= removes what `make install` put there, and nothing else
# make clean                    removes what was built
# make help                     prints this
.PHONY: all test bench trials wrong install uninstall clean help

# The examples: a steering table's records, its fingerprint, and the digest of "abc".
all:
	@mkdir -p target
	@echo "proving and building every crate takes some minutes; what is said goes to target/check.log"
	@rt all check --jobs "$$(nproc)" >target/check.log 2>&1 || { grep -E 'error|it is not proved|not proved|no proof|: failed|: not run' target/check.log | head -n 20 | cut -c 1-200; tail -n 1 target/check.log; exit 1; }
	@tail -n 1 target/check.log
	@tools/library
	@tools/programs
	@tools/run list_table <crates/list_table/stdin
	@tools/run fingerprint_table <crates/fingerprint_table/stdin
	@printf abc | tools/run echosum

test:
	.ci/run

BEFORE =
bench:
	@[ -z "$(BEFORE)" ] || [ -f "$(BEFORE)" ] || { echo "no $(BEFORE)" >&2; exit 1; }
	tools/library
	BEFORE="$(abspath $(BEFORE))" cargo run --quiet --profile measured --offline --manifest-path rust/Cargo.toml -p bench

SEED = 1
CASES = 1000
trials:
	tools/library
	cargo run --quiet --release --offline --manifest-path rust/Cargo.toml -p trials -- --seed $(SEED) --cases $(CASES)

wrong:
	tools/wrong

# The programs are behind tools/run, which gives them an exit status: links under their names lead to it.
PREFIX = /usr/local
DESTDIR =
PROGRAMS = echosum fingerprint_table list_table write_table
MANUALS = $(wildcard man/*.1)
PAGES = README.md $(wildcard docs/*.md)
place = $(DESTDIR)$(PREFIX)
own = $(place)/libexec/bahmorist
pages = $(place)/share/doc/bahmorist
install:
	@for file in native/libbahmorist.a $(PROGRAMS:%=bin/%); do [ -f "target/$$file" ] || { echo "no target/$$file: run 'make' first" >&2; exit 1; }; done
	mkdir -p "$(place)/include" "$(place)/lib/pkgconfig" "$(own)/programs" "$(place)/bin" "$(place)/share/man/man1" "$(pages)/docs"
	cp include/bahmorist.h "$(place)/include"
	cp target/native/libbahmorist.a "$(place)/lib"
	sed "s|@PREFIX@|$(PREFIX)|; s|@VERSION@|$$(sed -n 's/^#define BAHMORIST_VERSION "\(.*\)"/\1/p' include/bahmorist.h)|" tools/bahmorist.pc >"$(place)/lib/pkgconfig/bahmorist.pc"
	cp $(PROGRAMS:%=target/bin/%) "$(own)/programs"
	cp tools/run "$(own)"
	for name in $(PROGRAMS); do ln -sf ../libexec/bahmorist/run "$(place)/bin/$$name"; done
	cp $(MANUALS) "$(place)/share/man/man1"
	for page in $(PAGES); do cp "$$page" "$(pages)/$$page"; done

# Folders of others stay, even where they are empty now; its own go, unless someone has put something there.
uninstall:
	rm -f "$(place)/include/bahmorist.h" "$(place)/lib/libbahmorist.a" "$(place)/lib/pkgconfig/bahmorist.pc"
	for name in $(PROGRAMS); do rm -f "$(place)/bin/$$name" "$(own)/programs/$$name"; done
	rm -f "$(own)/run"
	for name in $(notdir $(MANUALS)); do rm -f "$(place)/share/man/man1/$$name"; done
	for page in $(PAGES); do rm -f "$(pages)/$$page"; done
	for folder in "$(own)/programs" "$(own)" "$(pages)/docs" "$(pages)"; do [ ! -d "$$folder" ] || rmdir "$$folder" || :; done

clean:
	rm -rf target rust/target crates/*/out

help:
	@sed -n 's/^# make/make/p' Makefile
