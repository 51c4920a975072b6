# The programs on a machine that is not x86-64. The library is for x86-64 there too: so clang compiles for it, with the kit's
# linker, start files and C library, and start.sh runs the programs on the kit's emulator. The C headers are the machine's own;
# what the programs use of them is the same on x86-64.
MACHINE := $(shell uname -m)
TOOLS := $(shell dirname $$(rt doc))/on/$(MACHINE)/toolchain

ifeq ($(wildcard $(TOOLS)),)
$(error the kit has nothing for this machine ($(MACHINE)): it is for x86-64)
endif

ifeq ($(CLANG),)
$(error clang is needed to compile for x86-64 on this machine ($(MACHINE)), and there is none)
endif

CC = clang
CXX = clang++
COMPILERS = clang
START = ./start.sh
CROSS = --target=x86_64-linux-gnu -isystem /usr/include/$(MACHINE)-linux-gnu -fPIE -pie --ld-path=$(TOOLS)/bin/ld.lld \
	-B$(TOOLS)/lib -nodefaultlibs $(TOOLS)/lib/libc.so.6 $(TOOLS)/lib/libc_nonshared.a -Qunused-arguments

# The tests in Rust are for the machine itself, and so is what they link.
ARCHIVES += $(NATIVE)/libtmavolice.a $(NATIVE)/libstate_probe.a

# A time on an emulator says nothing, nor does what a program uses of memory there. So what is timed is the product compiled for this
# machine, against C by its own compilers. Of that product the stack is measured too.
TIMES = native_times
NATIVE_STACK = native_stack
SHIFT_CHECK =
ON_ITSELF = LIBRARY_FOR=$(MACHINE) OUT=$(NATIVE) LIB=$(NATIVE)/libtmavolice.a OWN_SHIFT=$(NATIVE)/shift
.PHONY: native_stack native_times

native_stack: $(NATIVE)/libtmavolice.a
	@$(MAKE) -s $(ON_ITSELF) painted

native_times:
	@echo "The library compiled for $(MACHINE) by the kit's clang, to be timed:"
	@$(MAKE) $(ON_ITSELF) times

# By this program a test in Rust makes calls of the library for x86-64.
programs: $(OUT)/served

$(OUT)/served: wrapper/served/served.c ../include/tmavolice.h $(LIB) $(PROBE)
	mkdir -p $(OUT)
	$(CC) $(CFLAGS) $(LDFLAGS) -o $@ $(filter %.c %.a,$^)
