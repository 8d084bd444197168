# The three commands of the README are `make run`, `make` and `make test`.
SHELL := bash
PREFIX ?= /usr/local
# How many processors prove.
JOBS = $(shell nproc)
# The toolchain's processes keep memory that they have freed, since they end soon: a fifth to a half of the page faults go.
export MIMALLOC_PURGE_DELAY ?= -1
SOURCES := crates.txt $(shell find crates -path '*/out' -prune -o -name '*.rt' -print -o -name '*.antt' -print)
# The program that `rt ci` builds, and what of it has a test of its own.
BUILT := crates/prepaid/out/prepaid
HELD := serve devices growths dist docs explain words report pipe into divide program

.PHONY: all quick run report picture test edits install dist bench recipes
.PHONY: test-edits test-tries test-prove test-random $(HELD:%=test-%)

# Proves what is below the program, several crates at once, and builds bin/prepaid; out/proved/prepaid says by which
# toolchain. While freed memory was returned, a process took 0.7 to 3.5 GB, and four processors 7 GB in all; now they take
# up to 10 GB, with huge pages.
all: bin/prepaid

bin/prepaid: $(SOURCES)
	JOBS=$(JOBS) tests/prove.py prepaid
	mkdir -p bin out/proved
	rt version > out/proved/prepaid
	cp crates/prepaid/out/prepaid $@

# Builds bin/prepaid-unproved, a native program without its proofs, which says so in --version.
quick: bin/prepaid-unproved

bin/prepaid-unproved: $(SOURCES) tests/quick.py
	@echo 'Building bin/prepaid-unproved, without proofs: some two minutes.' >&2
	@tests/quick.py $@

# Plays an evening of calls: by bin/prepaid, or, before that is built, by the program without its proofs.
play = $(or $(wildcard bin/prepaid),bin/prepaid-unproved) run < examples/evening.txt
run: $(if $(wildcard bin/prepaid),,quick)
	@$(play)

# Writes a report of this evening, out/report.html, from the tables of one run in out/evening.
report: $(if $(wildcard bin/prepaid),,quick)
	@mkdir -p out/evening
	@$(play) --workers 1 --into out/evening
	@examples/report.py --output out/report.html out/evening

# Writes the picture of the README anew.
picture: report
	@examples/report.py --picture 101 --output docs/balance.svg out/evening

# The commit, and whether the tree is that commit's.
TREE = $(shell git rev-parse HEAD) $(if $(shell git status --porcelain),changed,clean)

# Looks whether each edit fits its file, compares the page of definitions with their comments and the names on the page
# of proofs with the code, looks whether each lemma is used, proves everything from nothing, and runs the tests and the
# programs. Then, several at once:
# tries the edits of the gate, what tries edits, and what make proves; holds the words of the man page and the
# completions against the formats, runs the program over worked rows and the commands of the pages as they are, makes
# packages and uses them, compares reports with their tables, runs in parts with whole ones and the files of a run with
# what runs print, drives the service over a pipe, compares what is said of faults with a table, on a terminal too, cuts
# and kills a service with a log, lets inputs, outputs and logs fail, refuses memory to each command and to calls that
# none makes, and compares the program with its model. Libraries that an earlier gate left, which have no stamp, are
# removed: where rt ci has kept all proofs it would put them back as they were, and the edits would be tried over them.
# Once all has passed, out/passed.txt says so of the commit; make expands TREE before the first line.
test:
	mkdir -p out
	rm -f out/passed.txt
	tests/edits_test.py --stale
	tests/definitions.py
	tests/proofs_test.py
	@for it in crates/*/out/rlib; do test -e $$it/stamp || rm -rf $$it; done
	set -o pipefail; rt ci | tee out/gate.txt
	$(MAKE) --jobs=$(JOBS) --output-sync=target test-edits test-tries test-prove test-random $(HELD:%=test-%)
	@printf '%s\n' '$(TREE)' "$$(tail -n 1 out/gate.txt)" > out/passed.txt
	@tail -n 1 out/gate.txt

$(HELD:%=test-%): test-%:
	tests/$*_test.py --program $(BUILT)

test-tries:
	tests/edits_test.py

test-prove:
	tests/prove_test.py

test-random:
	tests/random.sh --program $(BUILT)

# Nicer than the others, as it proves on all processors.
test-edits:
	nice tests/gate_edits.py

# Tries all edits in groups; of one crate by make edits CRATE=account_core.
edits:
	tests/edits.py $(CRATE)

docs = $(DESTDIR)$(PREFIX)/share/doc/prepaid
ZSH_FUNCTIONS ?= $(PREFIX)/share/zsh/site-functions

# Installs the program, the man page, the completions, the examples, and the pages that say how the program is used
# with the one that they link to. There the commands say `prepaid`.
install: bin/prepaid
	install -D -m 755 bin/prepaid $(DESTDIR)$(PREFIX)/bin/prepaid
	install -D -m 644 man/prepaid.1 $(DESTDIR)$(PREFIX)/share/man/man1/prepaid.1
	install -D -m 644 completions/prepaid.bash $(DESTDIR)$(PREFIX)/share/bash-completion/completions/prepaid
	install -D -m 644 completions/_prepaid $(DESTDIR)$(ZSH_FUNCTIONS)/_prepaid
	install -D -m 755 -t $(docs)/examples $(wildcard examples/*.py)
	install -D -m 644 -t $(docs)/examples $(filter-out %.py,$(wildcard examples/*.*))
	install -D -m 644 -t $(docs) docs/FORMATS.md docs/RECIPES.md docs/SCALING.md docs/SPEED.md docs/balance.svg
	sed -i 's,bin/prepaid,prepaid,g' $(docs)/RECIPES.md $(docs)/SCALING.md

# Packs the proved program with all that `make install` installs: a tarball and a Debian package, in out/dist.
dist:
	@TREE='$(TREE)' dist/pack.sh

# Runs each recipe, those too that want sqlite3: it says what is missing and how it is installed.
recipes: bin/prepaid
	tests/docs_test.py --all docs/RECIPES.md

# Times price, audit, replay, run, rate and serve beside plain programs, and shared accounts beside plain ones.
bench: bin/prepaid
	bench/price.sh
	bench/audit.sh
	bench/replay.sh
	bench/run.sh
	bench/shared.sh
	bench/rate.sh
	bench/serve.sh
