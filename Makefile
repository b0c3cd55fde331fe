# For a person's habits. `rt` is the toolchain's command, expected on the PATH.
PREFIX ?= /usr/local
PROGRAM = crates/stretch/out/stretch

.PHONY: build try check install dist clean

# Proves and builds the program, a crate a line, and runs it on the first example.
build:
	tools/build

# A first look in a minute: runs the first example with no proof, and leaves no program.
try:
	cd crates/stretch && rt try -- check < ../../examples/adversary-2-3-4.txt

# The gate: every proof, must-fail edit, test and program, and the examples; and then what only the built program shows: the
# examples, what the tools say of it, the searches of all small games, and each request for memory, read and write refused in turn.
check:
	.ci/run
	$(MAKE) build
	examples/check $(PROGRAM)
	tools/check $(PROGRAM)
	bench/searches $(PROGRAM)
	bench/searches --values $(PROGRAM)
	bench/refusals $(PROGRAM)

install: build
	install -D $(PROGRAM) $(DESTDIR)$(PREFIX)/bin/stretch
	install -D -m 644 man/stretch.1 $(DESTDIR)$(PREFIX)/share/man/man1/stretch.1

# An archive for machines without the toolchain, in dist/.
dist: build
	tools/dist $(PROGRAM)

# Removes what checks and builds have left.
clean:
	rm -rf crates/*/out dist
