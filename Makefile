# The recipes of CONTRIBUTING.md. CRATE names a crate and FUNCTION a function of it by its modules, as in
# 'make only CRATE=event_calendar FUNCTION=queue::Queue::add'. PROGRAM is the program that is tried, the stored one if none is named.
PROGRAM = bin/foldcairn-x86_64-linux
PLAN = bin/foldcairn-plan-x86_64-linux
IN_CRATE = cd crates/$(or $(CRATE),$(error name a crate: make $@ CRATE=link_trace)) &&

.PHONY: help check only try tests test format edits crate gate store program python lint pages words pictures crates lemmas calls reading costs bench
.PHONY: limits wheel deb rust wasm module export release install-tests notebook instructions

help: # lists the targets
	@grep -E '^[a-z-]+:' Makefile

check: # proves one crate over what is kept, and those below it that changed
	$(IN_CRATE) rt check

only: # proves one function and what it calls
	$(IN_CRATE) rt check --only $(or $(FUNCTION),$(error name a function: make only CRATE=.. FUNCTION=module::name))

try: # runs a program before any proof, with the words WORDS, as in 'make try CRATE=foldcairn WORDS=run < FILE'
	$(IN_CRATE) rt try $(if $(WORDS),-- $(WORDS))

tests: # runs the tests of a crate of tests before any proof
	$(IN_CRATE) rt try --test

format: # lays out the files of one crate
	$(IN_CRATE) rt fmt

test: program python pages # runs the stored programs, the Python package and the commands of the pages: some 6 minutes, without the toolchain

edits: # tries the edits that must fail of one crate, or those of all crates that the gate leaves out
	tests/edits.sh $(CRATE)

crate: # the gate of one crate: it, those below it and its tests from nothing, then its edits
	$(IN_CRATE) rt verdict
	tests/edits.sh $(CRATE)

gate: # all that must hold of a change, from nothing
	.ci/run

store: # proves and builds the program, and stores it in bin/: the last step of a change of crates/
	tools/store.sh

program: # runs both programs on the examples, on invalid inputs and on streams that fail
	tests/program.sh $(PROGRAM)
	tests/plan.sh $(PLAN) $(PROGRAM)

python: # runs the tests of the Python package
	tests/python.sh $(PROGRAM)

lint: # checks types, names and forms of Python, the shell scripts, columns of sources, and edges of crates.txt
	tools/lint.sh

pages: # runs the commands of all pages, follows their links, and compares what scripts write in docs/
	tests/documents.sh $(PROGRAM)

words: # counts the words of the pages that an engineer would not expect
	tools/words.py

wheel: # builds the wheel in dist/
	tools/package.sh wheel

deb: # builds the Debian package in dist/, and the wheel
	tools/package.sh deb

rust: # writes the proved sources as a Cargo workspace of ordinary Rust into dist/
	tools/package.sh rust

wasm: # builds both programs as one WebAssembly module, with its JavaScript, in dist/wasm
	tools/setup-rust.sh && python3 tools/export dist/workspace && tools/wasm.sh dist/workspace dist/wasm

module: wasm # builds the WebAssembly module, and stores it in bin/ for the planner's page: after 'make store'
	install -m 644 dist/wasm/foldcairn.wasm bin/foldcairn.wasm

export: # exports the proved sources as Rust, builds them, and compares what they write with the stored programs'
	tests/export.sh quick

release: # builds the wheel, the Debian package, the workspace, the planner's page and the tarball of the sources in dist/, with their checksums
	tools/package.sh release

install-tests: # tries what is built to be installed, README.md's commands in a Debian made from nothing, and the export on more texts: as root, some 30 minutes
	tests/install.sh all
	tests/export.sh all

notebook: # writes examples/planning.ipynb from the code of PLANNING.md again
	tools/notebook.py docs/PLANNING.md > examples/notebook && mv examples/notebook examples/planning.ipynb

pictures: # draws the pictures of docs/ again, and writes what the Python of PLANNING.md and FROM-A-TESTBED.md prints
	$$(tools/setup-python.sh --print) tools/pictures.py $(PROGRAM) docs/pictures
	FOLDCAIRN=$(abspath $(PROGRAM)) PYTHONPATH=python/src $$(tools/setup-python.sh --print) python/tests/pages.py docs/PLANNING.md docs/FROM-A-TESTBED.md

crates: # writes again what pages say of each crate: its README.md, ARCHITECTURE.md, FILES.md and GUARANTEES.md
	tools/crates.py

limits: # writes the limits of the Python package again, from the sources of the programs
	tools/limits.py

lemmas: # lists the lemmas that crates keep for those above them in docs/internals/PROOFS.md again
	tools/lemmas.py > docs/internals/page && mv docs/internals/page docs/internals/PROOFS.md

calls: # lists all public calls with their contracts again
	tools/calls.py > docs/internals/CALLS.md

reading: # writes again which definitions a reader has to agree with, in docs/READING.md
	python3 tools/reading > docs/page && mv docs/page docs/READING.md

costs: # runs the proofs, tests and edits of all crates from nothing, and writes what they cost in docs/internals/PROOFS.md
	tools/gate_costs.py --table docs/internals/PROOFS.md rt ci --anew

instructions: # stores how many instructions both stored programs take, for tests/instructions.sh
	tests/instructions.sh $(PROGRAM) $(PLAN) --write

bench: # times runs, the bus, floods and draws
	bench/run.sh $(PROGRAM)
	bench/bus.sh $(PROGRAM)
	bench/flood.sh $(PROGRAM)
	bench/plan.sh $(PLAN)
