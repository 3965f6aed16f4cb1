PROGRAM = build/schemasql
UNPROVED = build/schemasql-unproved
PARTS = build/part_bench
PREFIX = /usr/local
SOURCES = $(wildcard crates.txt HANDLES crates/*/src/*.rt crates/*/src/*/*.rt crates/*/specs/*.antt crates/*/proofs/*.antt crates/*/proofs/*/*.antt)

# Proves the program and builds it: no tests, and no edits that must fail.
all: $(PROGRAM)

$(PROGRAM): $(SOURCES)
	tools/prove schemasql_cli $@

$(PARTS): $(SOURCES)
	tools/prove part_bench $@

# Builds the program as it is written, with no proof.
$(UNPROVED): $(SOURCES)
	tools/try $@

# Shows the three offices in one another's form by the unproved program, in a folder to try it in.
try: $(UNPROVED)
	@examples/show $(UNPROVED) build
	@echo
	@echo "Nothing is proved yet. This was made by $(UNPROVED), the program as it is written."
	@echo "It checks each access to memory, and is many times slower than the proved one."
	@echo "The files are in build/offices, and the other examples beside it. To try the commands of README.md there:"
	@echo
	@echo "    cd build/offices"
	@echo "    alias schemasql=\"\$$PWD/../$(notdir $(UNPROVED))\""
	@echo
	@echo "\`make\` proves the program."
	@echo "\`make try\` makes the examples anew, and \`make clean\` deletes all of build: keep your own data elsewhere."

# The same by the proved program, over changes too; the sales of some months in one table; two shops whose lines are lost,
# repeated and out of order; a view over a view; and orders that are kept where the program is killed.
demo: $(PROGRAM)
	examples/offices/run $(PROGRAM)
	examples/months/run $(PROGRAM)
	examples/feed/run $(PROGRAM)
	examples/stack/run $(PROGRAM)
	examples/journal/run $(PROGRAM)

# The one test command: the gate.
test:
	.ci/run

# A quick check while working: proves what has changed, and builds no program.
check:
	rt all check

# The program on the examples, on the command lines of the documents, killed in the middle of syncs, and on each
# end-to-end case.
cases: $(PROGRAM)
	examples/check $(PROGRAM)
	cases/tour $(PROGRAM)
	cases/killed $(PROGRAM)
	cases/together $(PROGRAM)
	cases/capitals $(PROGRAM)
	cases/run $(PROGRAM)

# How long the program takes.
bench: $(PROGRAM)
	bench/run $(PROGRAM)

# How long parts of the engine take, each by itself.
bench-engine: $(PARTS)
	bench/engine.py $(PARTS)

# How long a journal takes that is read to its end.
bench-journal: $(PARTS)
	bench/journal.py $(PARTS)

install: $(PROGRAM)
	install -D $(PROGRAM) $(DESTDIR)$(PREFIX)/bin/schemasql
	install -D -m 644 man/schemasql.1 $(DESTDIR)$(PREFIX)/share/man/man1/schemasql.1
	install -D -m 644 -t $(DESTDIR)$(PREFIX)/share/doc/schemasql README.md docs/LANGUAGE.md docs/FORMATS.md docs/PROMISES.md

clean:
	rm -rf crates/*/out build

.PHONY: all try demo test check cases bench bench-engine bench-journal install clean
