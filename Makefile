.PHONY: try rows check run build install install-aws test stress attacks fmt dist

PREFIX ?= /usr/local

# A first look: the main job, unproved. It runs with checks that stop it at a bad index or a sum that wraps.
try:
	@echo 'make try: nothing was proved; make run proves and builds the program' >&2
	@cd crates/iamsim && rt try -- decide 0 0 0 < ../../examples/smallest.json

# The rows of FILE=name of crates/iam_rows/data/, or of all its files, unproved.
rows:
	@cd crates/iam_rows && rt try --seconds 900 $(foreach it,$(notdir $(wildcard crates/iam_rows/data/*.json)),--data $(it)=data/$(it)) -- $(FILE:%=%.json)

# The proof of the crate CRATE=name, and of what it needs.
check:
	@cd crates/$(or $(CRATE),$(error name the crate: make check CRATE=iam_match)) && rt check

# The main job, proved: one decision on the smallest example world.
run: build
	@./iamsim decide 0 0 0 examples/smallest.json

# The program, proved and built, as ./iamsim.
build:
	@tools/build

# The program, iamsim-aws, man pages, completions and documents, copied below PREFIX.
install: build
	@IAMSIM=$(CURDIR)/iamsim tools/dist --tree dist/tree
	DESTDIR="$(DESTDIR)" dist/tree/tools/install "$(PREFIX)"

# iamsim-aws and its package alone.
install-aws:
	DESTDIR="$(DESTDIR)" tools/install --aws "$(PREFIX)"

# The release: an archive and a Debian package in dist/. It wants a gate that passed on this commit, or UNPROVED=1.
dist:
	@tools/dist

# The gate: each proof, the must-fail edits, the tests, the rows and the stored run of the program (rt ci);
# then the tests of the tools.
test:
	tools/gate

# The program beside an ordinary one for the same job (bench/README.md); not part of the gate.
.PHONY: bench
bench:
	@python3 bench/programs.py
	@$(MAKE) -s build
	bench/run

# Many workers on many tiles, again and again, random worlds that the ordinary program answers too, and random names in them and in worlds
# that were changed; not part of the gate.
stress: build
	tools/stress
	IAMSIM=$(CURDIR)/iamsim MUTATIONS=2000 python3 tools/tests/run.py test_hostile test_replay_hostile
	bench/differential
	bench/names
	bench/changed-names
	bench/any-key
	bench/changed-any-key

# The further edits that the prover has to refuse, of all crates or of CRATE=name; not part of the gate.
attacks:
	tools/attacks $(CRATE)

fmt:
	for crate in crates/*/; do (cd $$crate && rt fmt) || exit 1; done
