# make test   the gate: formatting, every proof, every must-fail edit, every program, the comparison tests. Last line: 'N passed, 0 failed'
# make run    the job program on the whole case of document 01; 'make run JOB=file' on another job file
# make library  the C library, target/staticlib/libruhitapo.a
# make install PREFIX=dir  the header, the library and a pkg-config file below dir, or below /usr/local; DESTDIR is put before it
# make bench  each route, an opening and reversion beside the straightforward code of the second implementation and beside FLINT, as ratios
#             and as the picture target/bench.svg, and route 2 at several block lengths; no part of the gate. It takes about three minutes
# make bench-products  cut products and route 2 beside the straightforward program, its modulus known at run time or to the compiler, and beside
#             FLINT, as ratios; no part of the gate. It takes about ten minutes, and four with LARGEST=1024, the largest order of route 2
# make stack  how much stack each call takes, up to the order LARGEST; no part of the gate
# make flint  installs FLINT for the benchmark, which does without it where it is missing
# make clean  removes target/, where everything that is built stands, and what the tests generate in Rattle's language, which stands outside the
#             checkout; what rt keeps, in crates/NAME/out/, stays
#
# The steps of the gate are targets of their own; those that draw at random take SEED, as 'make linked SEED=7', and c-interface CALLS too.

SECOND := target/tests/second
DEFINITIONS := target/tests/definitions
LINKED := target/tests/linked
BENCH := target/tests/bench
BENCH_PRODUCTS := target/tests/bench_products
STACK := target/tests/stack
EQUATIONS := rows steps files promises limits
WRITTEN_TABLE := definition algebra field reason primes
C_INTERFACE := target/tests/c_interface
ROUNDING := target/tests/rounding
EXAMPLES := target/examples
CRATES := crates.txt $(shell find crates -name out -prune -o -type f -print)
PLAIN := $(wildcard tests/second/*.rs tests/second/*/*.rs)
RUSTC := rustc --edition 2021 -O -D warnings
PROGRAM := target/bin/job_program
JOB := crates/job_program/stdin
STRICT := -Wall -Wextra -Werror -pedantic
CC99 := gcc -std=c99 -O2 $(STRICT) -Iinclude
ARCHIVE := target/staticlib/libruhitapo.a
# of the C interface
VERSION := 2.0.0
PREFIX := /usr/local
LINK := -L target/staticlib -l static=ruhitapo
FLINT = $(shell gcc -E -include flint/nmod_poly.h -x c /dev/null >/dev/null 2>&1 && echo -lflint)
# what the tests need beside rt: commands, each in the package of its name, and the oldest rustc that builds them
TOOLS := rustc gcc g++ python3 pkg-config
RUST := 1.63
MISSING = $(shell for tool in $(TOOLS); do command -v $$tool >/dev/null || echo $$tool; done)
ADD_PACKAGES := apt-get update && DEBIAN_FRONTEND=noninteractive apt-get install -y --no-install-recommends
SEED := 1
CALLS := 24000
LARGEST := 4096
# where the tests write crates of their own: outside the checkout, in which rt ci reads every folder and takes only the crates of crates.txt
ROOM := $(or $(TMPDIR),/tmp)/ruhitapo-$(shell id -u)-$(shell pwd | cksum | cut -d ' ' -f 1)
LAWS := $(ROOM)/equations

.PHONY: test run program install bench bench-products stack flint clean toolchain tools
.PHONY: trace proofs second definitions wrong-definitions wrong-weights library linked c-interface installed joiner job-tool

test: tools
	python3 tests/gate.py

# the program's status is 0 always; where it answers nothing it has said why
run: program
	@answer=$$($(PROGRAM) < "$(JOB)") && test -n "$$answer" && printf '%s\n' "$$answer"

# the job program, which is proved before it is built
program: toolchain $(PROGRAM)

$(PROGRAM): $(CRATES)
	@mkdir -p $(@D)
	@echo 'proving and building the job program; what is proved already is not proved again' >&2
	@(cd crates/job_program && rt run < stdin) > target/program.out 2> target/program.log || { cat target/program.log; false; }
	@cp crates/job_program/out/job_program $@

# every name that the tables of docs/TRACE.md and docs/GUARANTEES.md give stands where they say, and the tests reach what they say;
# no public function's contract omits its result; crates.txt lists only what is used
trace: tools $(DEFINITIONS)
	rm -rf $(ROOM)/trace
	mkdir -p $(ROOM)/trace
	$(DEFINITIONS) crates/definition/specs $(ROOM)/trace $(SEED)
	python3 -B tests/trace/names.py $(ROOM)/trace
	python3 -B tests/trace/contracts.py
	python3 -B tests/trace/dependencies.py

# every crate is laid out and proved, every must-fail edit refused, every program run on its stored input
proofs: toolchain
	rt ci

# the tool that writes and shows job files, and what it says of a file against the job program
job-tool: tools program
	python3 -B tests/tools/job_tool.py $(PROGRAM)

# the plain second implementation checks itself
second: tools $(SECOND)
	$(SECOND) $(SEED)

# the calls of the proved library, linked, and the job program, held against the second implementation
linked: tools library program $(PLAIN)
	mkdir -p $(dir $(LINKED))
	$(RUSTC) $(LINK) -o $(LINKED) tests/linked/main.rs
	$(LINKED) $(SEED)

# the C interface: its header alone as C and as C++, the header's numbers and seeded calls held against a plain implementation in C, wrong
# headers, which must be refused, and the examples of its page
c-interface: tools library
	mkdir -p $(dir $(C_INTERFACE)) $(EXAMPLES)
	$(CC99) -c -o /dev/null -x c include/ruhitapo.h
	g++ $(STRICT) -c -o /dev/null -x c++ include/ruhitapo.h
	$(CC99) -o $(C_INTERFACE) tests/c/*.c $(ARCHIVE)
	$(C_INTERFACE) $(SEED) $(CALLS)
	python3 -B tests/c/wrong_headers.py $(ARCHIVE)
	$(CC99) -o $(EXAMPLES)/compose examples/compose.c $(ARCHIVE)
	$(CC99) -o $(EXAMPLES)/chain examples/chain.c $(ARCHIVE)
	python3 -B tests/c/shown.py docs/C-INTERFACE.md examples/compose.c examples/chain.c
	python3 -B tests/c/printed.py $(EXAMPLES) compose chain

# what is installed, and every example built from that alone
installed: tools library
	python3 -B tests/c/installed.py

# the example that joins the halves of a protocol, and the one that joins residues into whole numbers, held against exact integers: of this one
# its tables, its bounds, its writing, its rounding, and then the line of its page that compiles it
joiner: tools library
	mkdir -p $(EXAMPLES) $(dir $(ROUNDING))
	$(CC99) -o $(EXAMPLES)/halves examples/halves.c $(ARCHIVE)
	python3 -B tests/joiner/halves.py $(EXAMPLES)/halves
	python3 -B tests/c/printed.py $(EXAMPLES) halves
	$(CC99) -o $(EXAMPLES)/joiner examples/joiner.c $(ARCHIVE)
	python3 -B tests/joiner/whole_numbers.py $(EXAMPLES)/joiner
	python3 -B tests/joiner/bounds.py $(EXAMPLES)/joiner $(SEED)
	python3 -B tests/joiner/writing.py $(EXAMPLES)/joiner
	$(CC99) -o $(ROUNDING) tests/joiner/numbers.c
	python3 -B tests/joiner/rounding.py $(ROUNDING) $(SEED)
	rm -f target/joiner
	sed -n '/gcc .*examples\/joiner\.c/p' examples/README.md | sh -ex
	python3 -B tests/c/printed.py target joiner

bench: tools library $(PLAIN)
	mkdir -p $(dir $(BENCH))
	gcc -O2 -c -o $(BENCH)-flint.o tests/bench/flint.c
	$(RUSTC) $(LINK) -C link-args='$(BENCH)-flint.o $(FLINT)' -o $(BENCH) tests/bench/main.rs
	$(BENCH) target/bench.svg

bench-products: tools library $(PLAIN)
	mkdir -p $(dir $(BENCH_PRODUCTS))
	gcc -O2 -c -o $(BENCH)-flint.o tests/bench/flint.c
	$(RUSTC) $(LINK) -C link-args='$(BENCH)-flint.o $(FLINT)' -o $(BENCH_PRODUCTS) tests/bench/products.rs
	$(BENCH_PRODUCTS) $(LARGEST)

stack: tools library
	mkdir -p $(dir $(STACK))
	$(CC99) -pthread -Wl,-z,now -o $(STACK) tests/bench/stack.c $(ARCHIVE)
	$(STACK) $(LARGEST)

# FLINT, another library, stands beside the rest in the benchmark where it is installed
flint:
	$(ADD_PACKAGES) libflint-dev

# the static library, which is proved before it is written
library: toolchain $(ARCHIVE)

$(ARCHIVE): $(CRATES)
	@mkdir -p $(@D)
	@echo 'proving and building the C library; what is proved already is not proved again' >&2
	@(cd crates/ruhitapo && rt lib) > target/library.log 2>&1 || { cat target/library.log; false; }
	@cp crates/ruhitapo/out/libruhitapo.a $@

# the header, the library and a pkg-config file; the prefix is made absolute, since the latter names it
install: library
	prefix=$$(realpath -ms "$(PREFIX)") && folder="$(DESTDIR)$$prefix" && \
	install -d "$$folder/include" "$$folder/lib/pkgconfig" && \
	install -m 644 include/ruhitapo.h "$$folder/include" && \
	install -m 644 $(ARCHIVE) "$$folder/lib" && \
	sed -e "s|@PREFIX@|$$prefix|" -e 's|@VERSION@|$(VERSION)|' include/ruhitapo.pc.in > target/ruhitapo.pc && \
	install -m 644 target/ruhitapo.pc "$$folder/lib/pkgconfig"

# the definitions, held against the second implementation: the prover computes seeded equations in a repository of their own, so that other
# crates can be proved beside them. The crates that prove the table written out stand there too. What rt kept there stays for the next time
definitions: tools $(DEFINITIONS)
	mkdir -p $(LAWS)/crates
	find $(LAWS) -name out -prune -o -type f -exec rm {} +
	tar -c -C crates --exclude=out $(WRITTEN_TABLE) | tar -x -C $(LAWS)/crates
	sed -n $(WRITTEN_TABLE:%=-e '/^%:/p') crates.txt > $(LAWS)/crates.txt
	printf '%s: definition\n' $(EQUATIONS) >> $(LAWS)/crates.txt
	echo 'entries: definition primes' >> $(LAWS)/crates.txt
	$(DEFINITIONS) crates/definition/specs $(LAWS)/crates $(SEED)
	@for crate in $(EQUATIONS) entries; do \
		(cd $(LAWS)/crates/$$crate && rt check) > $(ROOM)/definitions.log 2>&1 || { cat $(ROOM)/definitions.log; exit 1; }; \
		echo "$$crate: proved"; done

# wrong definitions, which those equations must refuse
wrong-definitions: definitions
	python3 -B tests/definitions/refused.py $(LAWS) $(ROOM)/refused

# programs that make a weight without a product, which the compiler must refuse
wrong-weights: tools
	@mkdir -p target
	@(cd crates/compose && rt check) > target/compose.log 2>&1 || { cat target/compose.log; false; }
	python3 -B tests/weights/refused.py . $(ROOM)/weights

$(SECOND): $(PLAIN)
	mkdir -p $(@D)
	$(RUSTC) -o $@ tests/second/main.rs

$(DEFINITIONS): $(PLAIN) $(wildcard tests/definitions/*.rs)
	mkdir -p $(@D)
	$(RUSTC) -o $@ tests/definitions/main.rs

# all that proving and running need
toolchain:
	@command -v rt >/dev/null || { echo 'rt is missing: install the Rattle toolchain first' >&2; exit 1; }

# what the tests need besides, installed from the distribution's packages where it is missing
tools: toolchain
	@$(if $(MISSING),$(ADD_PACKAGES) $(MISSING))
	@printf '%s\n%s\n' $(RUST) "$$(rustc --version | cut -d ' ' -f 2)" | sort -VC || { echo 'rustc is older than $(RUST)' >&2; exit 1; }

clean:
	rm -rf target $(ROOM)
