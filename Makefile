.PHONY: run library shift test wrong bench stack soak tools install uninstall
# Two goals at once would build the same files, and run two checks of the kit.
.NOTPARALLEL:

# What is needed is looked for first.
ifeq ($(shell uname -m),x86_64)
BUILDS = rt gcc
TESTS = $(BUILDS) g++ cargo pkg-config
else
BUILDS = rt clang gcc
TESTS = $(BUILDS) cargo pkg-config
endif

# The bench cases B1 to B12, played on the C entries of the proved library.
run:
	@host/needs.sh $(BUILDS)
	@$(MAKE) -s -C host run

# The proved library for C, target/staticlib/libtmavolice.a, for x86-64; where the machine is another, target/native has one for it.
library:
	@host/needs.sh $(BUILDS)
	@$(MAKE) -s -C host library

# The program that runs a recorded shift, target/bin/shift, for x86-64; host/start.sh runs it on another machine.
shift:
	@host/needs.sh $(BUILDS)
	@$(MAKE) -s -C host shift

# The gate of the kit: layout, every proof, program and edit of must-fail/; every wrong program; then the host's tests.
test:
	@host/needs.sh $(TESTS)
	@host/test.sh

# The wrong programs, but for those that rt alone tries, many in one check; or of some crates, as in `make wrong CRATES="codec machine"`.
wrong:
	@host/needs.sh $(TESTS)
	@$(MAKE) -s -C host wrong

# The proved code against C, in one run: a line a case, ending in the ratio.
bench:
	@host/needs.sh $(BUILDS)
	@$(MAKE) -s -C host bench

# The stack of every call, a line each: of the library for x86-64 and, where the machine is another, of the one for it.
stack:
	@host/needs.sh $(BUILDS)
	@$(MAKE) -s -C host stack

# The unit against the model on fresh seeds, up to the first difference: for SECONDS, or until it is stopped; from SEED on.
soak:
	@host/needs.sh $(TESTS)
	@$(MAKE) -s -C host soak

# tmavolice-plan and tmavolice-image, in target/tools, for this machine.
tools:
	@host/needs.sh $(BUILDS)
	@$(MAKE) -s -C host tools

# Headers, the archive for this machine, pkg-config file, man pages and the tools, below PREFIX; DESTDIR, if given, stands before it.
PREFIX = /usr/local

# What is built already needs no kit: `sudo make install` often has no rt on its path.
install:
	@test -e target/tools/tmavolice-image || host/needs.sh $(BUILDS)
	@$(MAKE) -s -C host $@ PREFIX='$(PREFIX)' DESTDIR='$(DESTDIR)'

uninstall:
	@$(MAKE) -s -C host $@ PREFIX='$(PREFIX)' DESTDIR='$(DESTDIR)'
