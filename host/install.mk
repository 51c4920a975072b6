# The product where other programs find it: headers, the archive for this machine, a pkg-config file, man pages and two tools.
.PHONY: tools install uninstall

PREFIX = /usr/local
DESTDIR =
VERSION := $(shell sed -n 's/^\#define TMAVOLICE_VERSION "\(.*\)"/\1/p' ../include/tmavolice.h)
# The archive for this machine, and the tools, compiled for it.
OWN_LIB = $(if $(filter x86_64,$(shell uname -m)),$(PRODUCT),$(NATIVE)/libtmavolice.a)
OWN_CC = gcc
BIN = ../target/tools
API = $(wildcard ../include/*.h)
TOOLS_BUILT = $(BIN)/tmavolice-plan $(BIN)/tmavolice-image

tools: $(TOOLS_BUILT)

$(BIN)/tmavolice-plan: $(wildcard plan/* tool/*)

$(BIN)/tmavolice-image: $(wildcard image/* tool/*)

$(TOOLS_BUILT): $(API) $(OWN_LIB)
	@mkdir -p $(BIN)
	$(OWN_CC) -std=c99 -O2 -Wall -Wextra -Werror -pedantic -I../include -o $@ $(filter %.c,$^) $(OWN_LIB)

PLACE = DESTDIR='$(DESTDIR)' PREFIX='$(PREFIX)' VERSION='$(VERSION)' LIB='$(OWN_LIB)' BIN='$(BIN)' ./install.sh

install: tools
	@$(PLACE) put

uninstall:
	@$(PLACE) take
