# What the Makefiles of the C programs share. Each of them names its PROGRAM and the LIBS it needs
# and includes this file; it is run in its own folder, as by `make -C tests`.
#
#   make            build the program to target/c and run it
#   make build      build it alone
#   make clean      remove it
#
# To link another archive, name it by its full path; EXTRA_LIBS are what it needs besides:
#
#   make ARCHIVE=/path/of/libsealing_c.a EXTRA_LIBS='-lm'

ROOT := $(patsubst %/,%,$(dir $(abspath $(lastword $(MAKEFILE_LIST)))))
OUT := $(ROOT)/target/c
PROVED := $(ROOT)/crates/sealing_c/out/libsealing_c.a
ARCHIVE ?= $(PROVED)
EXTRA_LIBS ?=
CFLAGS ?= -O2
FLAGS := -std=c11 -Wall -Wextra -Wpedantic -Werror -I$(ROOT)/include

.DEFAULT_GOAL := run
.PHONY: run build clean

run: build
	$(OUT)/$(PROGRAM)

# Linked anew each time: it takes a moment, and ARCHIVE may be another file than the last time.
build: $(ARCHIVE)
	@mkdir -p $(OUT)
	$(CC) $(FLAGS) $(CFLAGS) -o $(OUT)/$(PROGRAM) $(PROGRAM).c $(ARCHIVE) $(LIBS) $(EXTRA_LIBS)

# Proves the library first, which takes its time; so only where the archive is absent. After a
# change of the crates run the command by hand.
$(PROVED):
	cd $(ROOT)/crates/sealing_c && rt lib

clean:
	rm -f $(OUT)/$(PROGRAM)
