# Builds, tries and tests tracebook. It needs the toolchain's command `rt` on the path.

PREFIX ?= /usr/local
DESTDIR ?=
# What is installed and packed.
PROGRAM ?= tracebook
# What runs the commands that are scripts: for tracebook_dask it must have Dask.
PYTHON ?= /usr/bin/python3

# The scripts of the examples that are commands where they are installed, and all commands.
SCRIPTS = convert_trace.py split_by_process.py
COMMANDS = tracebook tracebook_dask tracebook_convert tracebook_split
BIN = $(DESTDIR)$(PREFIX)/bin
SHARED = $(DESTDIR)$(PREFIX)/share/tracebook
MANUALS = $(DESTDIR)$(PREFIX)/share/man/man1
COMPLETIONS = $(DESTDIR)$(PREFIX)/share/bash-completion/completions

SOURCES := crates.txt HANDLES $(shell find crates -name out -prune -o -type f -print)

.PHONY: all demo test check bench install uninstall dist clean

all: tracebook

# Proves every crate, which takes half an hour or more the first time.
tracebook: $(SOURCES)
	scripts/build

demo:
	scripts/demo

# Every check: the merge gate, which proves and builds everything from nothing, and then what it built. What the checks need is
# installed first, or said to be missing.
test:
	scripts/tools
	rt ci
	tests/run --gate crates/tracebook/out/tracebook

# What a program does that is built already, without the gate. What the checks need is installed first, as above.
check:
	-scripts/tools
	tests/run

# Times the reading of traces beside that of other readers, the division of a thread's time, a report beside its reading, names
# that were chosen to collide beside ordinary ones, traces in which each event is new, folded stacks and tables beside reports, tables
# that are added, repeated runs beside their sums, whole runs over many threads and over several files, and large files.
bench: tracebook
	cd crates/bench_reading && rt run < stdin
	cd crates/bench_tracking && rt run < stdin
	bench/reading
	bench/self_time
	bench/colliding_keys
	bench/hostile
	bench/folding
	bench/tables
	bench/build
	bench/added
	bench/repeats
	bench/many_threads
	bench/several_files
	bench/large

install: $(PROGRAM)
	install -d $(BIN) $(SHARED) $(MANUALS) $(COMPLETIONS)
	install -m 755 $(PROGRAM) $(BIN)/tracebook
	install -m 755 cluster/tracebook_dask.py $(BIN)/tracebook_dask
	install -m 755 $(addprefix examples/,$(SCRIPTS)) $(SHARED)
	install -m 644 examples/trace_reader.py $(SHARED)
	sed -i '1s|.*|#!$(PYTHON)|' $(BIN)/tracebook_dask $(addprefix $(SHARED)/,$(SCRIPTS))
	ln -sf ../share/tracebook/convert_trace.py $(BIN)/tracebook_convert
	ln -sf ../share/tracebook/split_by_process.py $(BIN)/tracebook_split
	install -m 644 docs/tracebook.1 $(MANUALS)/tracebook.1
	install -m 644 docs/tracebook.bash $(COMPLETIONS)/tracebook

# Takes away what was installed with the same PREFIX and DESTDIR.
uninstall:
	rm -f $(addprefix $(BIN)/,$(COMMANDS)) $(MANUALS)/tracebook.1 $(COMPLETIONS)/tracebook
	rm -f $(addprefix $(SHARED)/,$(SCRIPTS) trace_reader.py)
	[ ! -d $(SHARED) ] || rmdir --ignore-fail-on-non-empty $(SHARED)

# A package for Debian and a tar file, with the same files.
dist: $(PROGRAM)
	scripts/dist $(PROGRAM)

clean:
	rm -f tracebook build.log demo.html
	rm -rf out crates/*/out
