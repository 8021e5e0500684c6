# The commands of the README. `rt` is the kit's command.
PREFIX ?= /usr/local
PROGRAM = crates/conduit/out/conduit

.PHONY: help build example install test cases edits gate-times random refusals bench clean

help:
	@echo 'make example            compiles the program, unproved, and runs the first example'
	@echo 'make build              proves and builds the program, $(PROGRAM)'
	@echo 'make install PREFIX=..  builds the program and puts it into PREFIX/bin'
	@echo 'make test               proves and tests everything'
	@echo 'make cases              writes the data of crates/cases again'
	@echo 'make edits CRATES=..    tries the wrong changes of the code, and right twins, of these crates or of all'
	@echo 'make random COUNT=..    runs random scripts under several cuts, 200,000 if not given'
	@echo 'make refusals           lets one allocation of each test fail, the first forty in turn'
	@echo 'make gate-times         runs the gate from nothing and prints what it costs'
	@echo 'make bench              measures words, trees of them, how long scripts are judged, and whole scripts beside Unix tools'
	@echo 'make clean              removes what was built'

# `rt try` compiles the program, without its proofs, and runs it in a folder of its own that holds these files.
example:
	@cd crates/conduit && rt try --data first.cdt=../../examples/first.cdt --data a=../../examples/a -- run first.cdt

# `rt run` proves the program, links it and runs it: here on a script that reads nothing and writes nothing.
build:
	cd crates/conduit && rt run -- run ../../examples/nothing.cdt

install: build
	install -D $(PROGRAM) '$(DESTDIR)$(PREFIX)/bin/conduit'

test:
	tools/test.sh

cases:
	tools/cases_data.py
	tools/cases.py crates/cd_meaning/specs/Cases
	tools/type_cases.py crates/cd_types/specs/Cases

gate-times:
	tools/gate_times.py

# The wrong changes that the gate tries and all others, which the checks must refuse, and right ones, which they must not.
edits:
	tools/edits.sh $(CRATES)

# Not in the gate, for it takes minutes.
random:
	cd crates/cases && rt run > /dev/null
	tools/random_scripts.py $(COUNT)

# Not in the gate, for each allocation costs a run of all tests.
refusals:
	tools/refusals.sh

# Without words the program that measures does nothing, so `rt run` here only proves and links it.
bench:
	cd crates/bench && rt run
	bench/elements.sh
	bench/trees.sh
	$(MAKE) --no-print-directory build
	bench/scripts.sh
	bench/pipelines.sh

clean:
	rm -rf crates/*/out
