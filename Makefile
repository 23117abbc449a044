# humpipe: build, show, test and measure.
#
#   make            proves each crate and builds ./humpipe and ./humpipe-many
#   make demo       shows the main job on a score of examples/
#   make test       the merge gate: make lint, the rows of tests/ and the examples of the docs by a program that isn't proved, every proof
#                   from nothing, the edits that must be refused, tests, runs, and by the proved program the rows, make faults, growth, the Python
#                   package, a release, the recipes and the examples of the docs; what needs a program that isn't there is left out, and told
#   make edits      tries the edits alone, over what rt ci has proved, or proves here
#   make bench      times and peak memory beside other programs on the same score
#   make install    the program, its man page, the manual (docs/) and completions, into PREFIX=/usr/local
#   make dist       a release in dist/: a tarball, a Debian package, a Python wheel and its source, an extension for Visual Studio Code, and checksums
#   make dist-test  installs them in fresh folders, and runs them there
#   make rows       runs the rows of tests/ with the program
#   make faults     runs small pipelines with it, while one call for memory, read, write or opened file after the other fails
#   make many       runs the rows of tests/ and broken streams with ./humpipe-many
#   make growth     counts the instructions of each command and measures its memory, over scores that grow; make test does so over fewer of them
#   make docs       runs what the README and docs/ print, with it
#   make python     runs the tests of the Python package, with it
#   make recipes    tries the recipes of the pages on made-up scores, with it
#   make plots      draws docs/plots/ anew, by gnuplot and abcm2ps
#   make lint       the man page, the scripts and the grammar, as far as there are programs that read them
#
# The first build proves every crate that the program is made of, and tells each one that is proved. Later ones prove what
# has changed and what stands on it. What the prover says of each function is in crates/humpipe/out/log. The laws and the
# crates of tests, which the program doesn't need, are proved by make test.
#
# Both make as many checks at once as there are processors and memory for: LANES, by what each crate's check was seen to take
# (tests/measured.txt). Where there are 4 GB for each processor, rt plans by itself, and gives one check several processors too.
#
# dist, dist-test and plots take the program that is there, and prove nothing anew. PROGRAM names another.

PREFIX ?= /usr/local
memory = $(shell awk '$$1 == "MemAvailable:" { print int(0.9 * $$2 / 1024) }' /proc/meminfo)
processors = $(shell nproc)
# as many of the largest crates as fit into the memory together, and one a processor at most
LANES ?= $(shell sort -k2,2nr tests/measured.txt | awk -v memory=$(memory) -v most=$(processors) \
	'/^[^\#]/ { used += $$2; if (used > memory) exit; n++ } END { print n < 1 ? 1 : n < most ? n : most }')
jobs = $(shell test $(memory) -ge $$((4000 * $(processors))) || echo RT_JOBS=$(LANES))

log = crates/humpipe/out/log
# the crates that the programs are made of: each line of crates.txt names those that a crate uses
crates = $(shell awk -F'[: ]+' '{ line[$$1] = $$0 } \
	function reach(crate, names, n, i) { \
		if (!(crate in line) || crate in reached) return; \
		reached[crate]; n = split(line[crate], names); \
		for (i = 2; i <= n; i++) reach(names[i]); print crate } \
	END { reach("humpipe"); reach("humpipe_many") }' crates.txt)
files = $(shell find crates -name out -prune -o -name must-fail -prune -o -name edits -prune -o -type f -print)

# the program for many cases that is there
many = $${MANY:-$$(ls humpipe-many crates/humpipe_many/out/humpipe_many 2>/dev/null | head -n 1)}

# the program that is there, for a recipe, and what makes one where none is
there = $${PROGRAM:-$$(ls humpipe crates/humpipe/out/humpipe 2>/dev/null | head -n 1)}
export PROGRAM
needed = $(if $(PROGRAM)$(wildcard humpipe crates/humpipe/out/humpipe),,humpipe)

.PHONY: all demo test early edits bench rows faults many growth docs recipes python plots lint install dist dist-test clean

all: humpipe

# Reads the log as it grows: tells, once a crate is proved, how much of the work is done, by the seconds that each crate was seen to take,
# and ends with the status that the last line bears.
define progress
awk -v crates="$(crates)" 'BEGIN { many = split(crates, names); for (i in names) wanted[names[i]] = 1 } \
	FILENAME == "tests/measured.txt" { if ($$1 in wanted) { seconds[$$1] = $$3; all += $$3 } next } \
	!begun++ { printf "proving %d crates: some %d minutes of one processor, where nothing is kept\n", many, all / 60; fflush() } \
	$$1 == "rt:" && ($$NF == "proved" || $$0 ~ / is kept: /) && $$2 in wanted { done += seconds[$$2]; \
		printf "%3d %% of the work done: %s is proved\n", all ? 100 * done / all : 0, $$2; fflush() } \
	$$1 == "==" && $$2 == "ended" { status = $$3; exit } \
	END { exit status }' tests/measured.txt -
endef

# What the log says of a build that failed.
define failure
grep -v '^== \|^statements \|^library \|^logic\|^crate \|^checked \|^axioms \|^so far\|^by-macro\|note: \|: proved$$\|: ok$$' \
	$(log) | tail -n 40; \
echo "not built: the whole log is $(log)"
endef

# Proves the crates that the program is made of, and no edit, test or law, in a copy of them, by as many checks at once as
# there are processors and memory for, those first which most others wait for. What passed is kept on this machine: where files
# have changed, the crates that stand on none of them aren't proved again.
define prove
room=$$(mktemp -d) && trap 'rm -rf "$$room"' EXIT INT TERM; \
mkdir "$$room/.git" && cp HANDLES "$$room" && \
for crate in $(crates); do grep "^$$crate:" crates.txt; done >"$$room/crates.txt" && \
tar -c --exclude=out --exclude=must-fail --exclude=edits $(crates:%=crates/%) | tar -x -C "$$room" && \
(cd "$$room" && $(jobs) rt ci) && mkdir -p $(dir $(log)) && cp "$$room/crates/humpipe_many/out/humpipe_many" humpipe-many && \
cp "$$room/crates/humpipe/out/humpipe" humpipe
endef

humpipe: crates.txt HANDLES $(files)
	@mkdir -p $(dir $(log))
	@{ echo begun; { $(prove); }; echo "== ended $$?"; } 2>&1 | tee $(log) | { $(progress); } || { $(failure); exit 1; }

demo: humpipe
	@echo '$$ cat examples/no_comments.hpl'
	@cat examples/no_comments.hpl
	@echo '$$ ./humpipe examples/no_comments.hpl'
	@./humpipe examples/no_comments.hpl

# Rows and examples run first, so that a wrong page fails in minutes: by the program that is there, or one that isn't proved.
early:
	@test "$(DOCS)" = no && exit 0; program=$(there); \
	if test -z "$$program"; then \
		command -v rt >/dev/null || { echo 'no program at humpipe, and no rt to make it: say DOCS=no'; echo '0 passed, 1 failed'; exit 1; }; \
		mkdir -p bench/data && program=bench/data/unproved && python3 bench/unproved.py --fast "$$program" >/dev/null || exit 1; \
	fi; \
	python3 tests/proved.py && python3 tests/check.py "$$program" && python3 docs/check.py "$$program"

edits:
	@python3 tests/edits.py --lanes $(LANES)

# Then all is proved, and the edits tried; and rows, faults, Python, release and examples run with the proved program, the rows as Rattle's own
# compiler makes it too; DOCS=no leaves them out.
test: lint early
	@command -v rt >/dev/null || { echo 'left out: the proofs, the edits and the tests of the crates (no rt)'; exit 0; }; \
	echo '$(jobs) rt ci'; $(jobs) rt ci && python3 tests/edits_test.py && python3 tests/edits.py --lanes $(LANES)
	@program=$(there); \
	if test "$(DOCS)" = no; then :; \
	elif test -n "$$program"; then \
		for made in "$$program" "$$program.by-rattle"; do test ! -x "$$made" || python3 tests/check.py "$$made" || exit 1; done; \
		python3 tests/faults.py "$$program" && \
		python3 tests/many.py $(many) && \
		python3 tests/growth.py "$$program" && \
		HUMPIPE=$$(realpath "$$program") && export HUMPIPE && beside=$$(mktemp -d) && \
		ln -s "$$HUMPIPE" "$$beside/humpipe" && ln -s "$$(realpath $(many))" "$$beside/humpipe-many" && \
		(cd python && HUMPIPE=$$beside/humpipe python3 -m tests) && rm -r "$$beside" && \
		python3 packaging/check.py "$$program" && \
		python3 tests/recipes.py "$$program" && \
		python3 docs/check.py "$$program"; \
	else echo 'no program at humpipe or crates/humpipe/out/humpipe: make it, or say DOCS=no'; echo '0 passed, 1 failed'; exit 1; fi

bench: $(needed)
	PROGRAM=$(there) python3 bench/run.py

rows: humpipe
	@python3 tests/check.py humpipe

faults: humpipe
	@python3 tests/faults.py humpipe

many: humpipe
	@python3 tests/many.py humpipe-many

growth: humpipe
	@python3 tests/growth.py humpipe --whole

docs: humpipe
	@python3 docs/check.py humpipe

recipes: humpipe
	@python3 tests/recipes.py humpipe

python: humpipe
	@cd python && HUMPIPE=../humpipe python3 -m tests

plots: $(needed)
	@python3 docs/dev/plots.py $(there)

# What needs a program that isn't there is left out, and told.
has = command -v $(1) >/dev/null || { echo 'left out: what $(1) would read (no $(1))'; exit 0; };
lint:
	@$(call has,groff) test -z "$$(LC_ALL=C.UTF-8 groff -ww -man -Tutf8 -z man/humpipe.1 man/humpipe-many.1 2>&1 | tee /dev/stderr)"
	@$(call has,man) test -z "$$(for page in man/*.1; do LC_ALL=C.UTF-8 man --warnings -l -Tutf8 -Z $$page 2>&1 >/dev/null; done | tee /dev/stderr)"
	@$(call has,mandoc) mandoc -Tlint man/humpipe.1 man/humpipe-many.1
	@sh -n examples/corpus.sbatch && sh -n install.sh && sh -n packaging/dist.sh && sh -n bench/corpus.sh && bash -n completions/humpipe.bash
	@$(call has,shellcheck) shellcheck examples/corpus.sbatch install.sh packaging/dist.sh bench/corpus.sh completions/humpipe.bash
	@$(call has,mypy) cd python && mypy --strict --no-error-summary --cache-dir=/dev/null humpipe
	@$(call has,ruff) ruff check --no-cache -q python packaging
	@$(call has,zsh) zsh -n completions/_humpipe
	@$(call has,fish) fish -n completions/humpipe.fish
	@for file in editors/vscode/*.json; do python3 -m json.tool "$$file" /dev/null || exit 1; done

install: humpipe
	PROGRAM=humpipe ./install.sh '$(PREFIX)'

dist: $(needed)
	@packaging/dist.sh $(there)

dist-test: dist
	@python3 packaging/check.py --whole $(there)

clean:
	rm -rf humpipe humpipe-many dist crates/*/out bench/data
