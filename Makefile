# make test               the gate: documents, every proof and program (rt ci), then the C programs over what was proved
# make demo               a host reads a card through the C interface (c/examples/example.c): a transcript
# make check CRATE=NAME   proves one crate and what it uses
# make edits CRATE=NAME   tries the must-fail edits of one crate
# make install            libpivsm.a, pivsm.h and pivsm.pc, under PREFIX, put below DESTDIR
# make differential       the library beside a second implementation over OpenSSL: CASES cases of SEED
# make mutants            whether that comparison notices 222 mistakes
# make bench              speed beside plain C and other libraries
# make documents          whether links and names in the documents resolve, and README's example compiles
# make pictures           makes the pictures of docs/ARCHITECTURE.md anew
# make help               this list
#
# Needs Rattle's rt on the PATH. gcc, python3 and the libraries' headers are installed where they are missing.
PREFIX = /usr/local
CASES = 200000
SEED = 80073
VERSION := $(shell awk '/PIVSM_VERSION_M/ { printf "%s%s", dot, $$3; dot = "." }' c/include/pivsm.h)
INCLUDE = -Ic/include -Ic/examples -Ic/tests -Ic/bench
CFLAGS = -O3 -Wall -Wextra $(INCLUDE)
C99 = gcc -std=c99 -O2 -Wall -Wextra -Wpedantic $(INCLUDE)
SANITIZE = -g -fsanitize=address,undefined -fno-sanitize-recover=all

# Programs whose output stands in c/*/NAME.stdout; that of exchange_calls is exchange's.
PRINTED = example exchange exchange_calls boundary_cases refusals_write_nothing
DIFFERENTIAL = $(filter-out %/vectors.c,$(wildcard c/tests/differential/*.c)) c/tests/reference.c
HEADERS = $(wildcard c/*/*.h c/tests/differential/*.h)
CODE = crates.txt $(shell find crates -path "*/out" -prune -o -name "*.rt" -print)

test: programs
	@tools/summary.py build/gate
	@tail -n 1 build/gate | grep '^[0-9]* passed, 0 failed$$'

# rt's last line, with what passed and failed, is kept for the end of `test`. An edit that could not be tried is bad, and fails the gate.
gate: documents
	@tools/progress.py --plain build/gate rt ci
	@grep -q '^rt: ok' build/gate
	@! grep '^rt: ok.*, [0-9]* bad' build/gate

documents: build/read_object.o | python
	@tools/check_documents.py

pictures: | python
	@docs/pictures/draw.py

help:
	@sed -n 's/^# \(make .*\)/\1/p' Makefile

demo:
	@$(MAKE) -s -j2 build/example
	@build/example

install: build/libpivsm.a
	@install -d $(DESTDIR)$(PREFIX)/include $(DESTDIR)$(PREFIX)/lib/pkgconfig
	@install -m 644 c/include/pivsm.h $(DESTDIR)$(PREFIX)/include
	@install -m 644 build/libpivsm.a $(DESTDIR)$(PREFIX)/lib
	@sed 's|@PREFIX@|$(PREFIX)|; s|@VERSION@|$(VERSION)|' c/include/pivsm.pc.in >$(DESTDIR)$(PREFIX)/lib/pkgconfig/pivsm.pc

programs: gate
	@$(MAKE) -s -j2 -Otarget header vectors differential sanitized printed compare

header: build/libpivsm.a
	@c/tests/header_test.sh build/libpivsm.a

vectors: build/vectors
	@build/vectors

differential: build/differential
	@build/differential $(CASES) $(SEED)

sanitized: build/differential_sanitized
	@build/differential_sanitized 3000 $(SEED)

mutants: build/libpivsm.a
	@c/tests/differential/mutants.sh build/libpivsm.a 20000

printed: $(PRINTED:%=build/%)
	@for name in $(PRINTED); do \
	    build/$$name >build/$$name.stdout && diff c/*/$${name%_calls}.stdout build/$$name.stdout || exit 1; done
	@echo 'as stored: $(PRINTED)'

compare: build/compare
	@build/compare

bench: build/bench build/bench_messages
	@build/bench
	@echo
	@build/bench_messages

# README's example. Two of its functions are the reader's, so it is an object and no program.
build/read_object.o: c/examples/read_object.c c/include/pivsm.h | packages build
	@gcc -std=c99 -Wall -Wextra -Wconversion -Wpedantic -Werror -Ic/include -c -o $@ $<

build/exchange: c/tests/exchange.c
	@$(C99) -o $@ $(filter-out %.h,$^) -lcrypto

build/example: c/examples/example.c c/examples/card.c build/libpivsm.a
	@$(C99) -o $@ $(filter-out %.h,$^)

build/exchange_calls: c/tests/exchange_calls.c build/libpivsm.a
	@$(C99) -o $@ $(filter-out %.h,$^)

build/boundary_cases: c/tests/boundary_cases.c c/tests/reference.c build/libpivsm.a
	@$(C99) -o $@ $(filter-out %.h,$^) -lcrypto

build/refusals_write_nothing: c/tests/refusals_write_nothing.c build/libpivsm.a
	@$(C99) -o $@ $(filter-out %.h,$^)

build/vectors: c/tests/differential/vectors.c c/tests/reference.c
	@$(C99) -o $@ $(filter-out %.h,$^) -lcrypto

build/differential: $(DIFFERENTIAL) build/libpivsm.a
	@$(C99) -o $@ $(filter-out %.h,$^) -lcrypto

build/differential_sanitized: $(DIFFERENTIAL) build/libpivsm.a
	@$(C99) $(SANITIZE) -o $@ $(filter-out %.h,$^) -lcrypto

build/compare: c/tests/compare.c c/bench/plain_aes.c build/libprimitives.a
	@gcc $(CFLAGS) -o $@ $(filter-out %.h,$^) -lcrypto

build/bench: c/bench/bench.c c/bench/turns.c c/bench/plain_aes.c build/libprimitives.a
	@gcc $(CFLAGS) -o $@ $(filter-out %.h,$^) -lcrypto

build/bench_messages: c/bench/bench_messages.c c/bench/turns.c c/bench/plain_aes.c c/bench/ciphers.c c/bench/plain_message.c build/libpivsm.a | bench-packages
	@gcc $(CFLAGS) -o $@ $(filter-out %.h,$^) -lcrypto -lnettle -lgcrypt

$(PRINTED:%=build/%) $(addprefix build/,vectors differential differential_sanitized compare bench bench_messages): $(HEADERS) | packages build

build/libpivsm.a: $(CODE) | packages python build
	@tools/archive.sh $@ pivsm

# After the other archive, since one rt in a tree waits for another.
build/libprimitives.a: $(CODE) | build/libpivsm.a
	@tools/archive.sh $@ primitives_c

check:
	@test -d 'crates/$(CRATE)/src' || { echo 'make check CRATE=NAME: proves crates/NAME and what it uses'; exit 2; }
	@cd crates/$(CRATE) && rt check

edits:
	@test -d crates/$(CRATE)/must-fail || { echo 'make edits CRATE=NAME: the must-fail edits of crates/NAME'; exit 2; }
	@cd crates/$(CRATE) && rt check
	@rt must-fail $(CRATE)

# Each installs what is missing.
packages:
	@$(call installed,stdio.h openssl/evp.h,g++ libc6-dev libssl-dev)

bench-packages: packages
	@$(call installed,nettle/aes.h gcrypt.h,nettle-dev libgcrypt20-dev)

# Headers, and the packages that have them. g++ comes with gcc.
installed = printf '\#include <%s>\n' $(1) | g++ -x c++ -E - >/dev/null 2>&1 || \
    { apt-get update && apt-get install -y --no-upgrade $(2); } || \
    { echo 'make: $(2): missing, and could not be installed: that takes root and a network' >&2; exit 1; }

python:
	@python3 -c '' 2>/dev/null || { apt-get update && apt-get install -y --no-upgrade python3; } || \
	    { echo 'make: python3: missing, and could not be installed: that takes root and a network' >&2; exit 1; }

build:
	@mkdir -p build

.PHONY: test gate documents pictures help check edits programs demo install header vectors differential sanitized mutants \
    printed compare bench packages bench-packages python
