# make                      prove and build the library, the lister and the tool: target/tool/vin
# make NATIVE=yes           the library and the tool for this processor where it is not x86-64: target/native/vin
# make install PREFIX=DIR   header, archive, pkg-config file, tool, manual and completion under DIR (default /usr/local)
# make test                 the gate, .ci/run
#
# All programs are for x86-64, for which alone the kit links. On another processor they are made by the cross compiler and run under the
# emulator RUNNER; with NATIVE=yes the kit builds the library for that processor, and there is no lister.
VERSION := $(shell sed -n 's/^\#define VIN_VERSION "\(.*\)"/\1/p' include/vinculampe.h)
PREFIX ?= /usr/local
CFLAGS ?= -O2
MACHINE := $(shell uname -m)

ifneq ($(MACHINE),x86_64)
ifneq ($(NATIVE),)
OUT := target/native
ARCHIVE ?= target/native/libvinculampe.a
PROCESSOR := $(MACHINE)
else
CROSS := x86_64-linux-gnu-
RUNNER := qemu-x86_64 -L /usr/x86_64-linux-gnu
endif
endif
OUT ?= target/tool
ARCHIVE ?= target/staticlib/libvinculampe.a
LISTER ?= target/bin/lister
PROCESSOR ?= x86-64
ifeq ($(origin CC),default)
CC := $(CROSS)gcc
endif

# Where programs need the runner, they stand in a folder of their own, and a script in their place runs each.
programs := vin $(if $(filter $(PROCESSOR),x86-64),vin-lister)
folder := $(if $(RUNNER),/x86-64)
built := $(programs:%=$(OUT)$(folder)/%)
runner_words := $(foreach word,$(RUNNER),"$(word)",)
flags := -std=c11 -Wall -Wextra -Wpedantic -Werror $(CFLAGS) -DRUNNER='$(runner_words)'
objects := $(patsubst tools/%.c,$(OUT)/objects/%.o,$(wildcard tools/*.c tools/commands/*.c))
proved := $(shell find crates crates.txt -type f -not -path '*/must-fail/*' -not -path '*/out/*')

all: $(built) $(if $(RUNNER),$(programs:%=$(OUT)/%))

# The proofs: minutes the first time.
need = @command -v $(firstword $(1)) >/dev/null || { echo "$(firstword $(1)) is missing$(2); see README.md" >&2; exit 1; }
need_rt = $(call need,rt,: install the Rattle kit)
target/bin/lister: $(proved)
	$(need_rt)
	tools/proved lister $@

target/staticlib/libvinculampe.a: $(proved) | target/bin/lister
	$(need_rt)
	tools/proved library $@

target/native/libvinculampe.a: $(proved) tools/native/module | target/staticlib/libvinculampe.a
	tools/native/module $@

$(OUT)/objects/%.o: tools/%.c $(wildcard tools/*.h) include/vinculampe.h Makefile
	$(call need,$(CC))
	@mkdir -p $(@D)
	$(CC) $(flags) -c $< -o $@

$(OUT)$(folder)/vin: $(objects) $(ARCHIVE) | $(OUT)$(folder)
	$(CC) $(CFLAGS) $(if $(RUNNER),-static) $(LDFLAGS) $^ -o $@

$(OUT)$(folder)/vin-lister: $(LISTER) | $(OUT)$(folder)
	cp $< $@

$(OUT)$(folder):
	mkdir -p $@

script = sed -e 's|@RUNNER@|$(RUNNER)|' -e 's|@FOLDER@|$(1)|' tools/run-x86-64.in >"$(2)" && chmod 755 "$(2)"
ifneq ($(RUNNER),)
$(programs:%=$(OUT)/%): tools/run-x86-64.in Makefile | $(OUT)$(folder)
	$(call need,$(RUNNER),: the programs are for x86-64 and run under it)
	$(call script,x86-64,$@)
endif

# A prefix may have blanks in it, but for those that make takes off its ends; a relative one is of this folder.
to := $(DESTDIR)$(PREFIX)
blank := $(subst ,, )
place := $(subst $(blank),\\$(blank),$(if $(filter /%,$(firstword $(PREFIX))),$(PREFIX),$(CURDIR)/$(PREFIX)))
install: all
	install -d "$(to)/bin" "$(to)/include" "$(to)/lib/pkgconfig" "$(to)/share/man/man1" "$(to)/share/bash-completion/completions"
	install -m 644 include/vinculampe.h "$(to)/include"
	install -m 644 $(ARCHIVE) "$(to)/lib/libvinculampe.a"
	sed -e 's|@PREFIX@|$(place)|' -e 's|@VERSION@|$(VERSION)|' -e 's|@PROCESSOR@|$(PROCESSOR)|' tools/vinculampe.pc.in >"$(to)/lib/pkgconfig/vinculampe.pc"
	install -m 644 tools/vin.1 "$(to)/share/man/man1"
	install -m 644 tools/vin.bash "$(to)/share/bash-completion/completions/vin"
ifeq ($(RUNNER),)
	install $(built) "$(to)/bin"
else
	install -d "$(to)/libexec/vinculampe"
	install $(built) "$(to)/libexec/vinculampe"
	$(call script,../libexec/vinculampe,$(to)/bin/vin)
	$(call script,../libexec/vinculampe,$(to)/bin/vin-lister)
endif

uninstall:
	rm -f "$(to)/include/vinculampe.h" "$(to)/lib/libvinculampe.a" "$(to)/lib/pkgconfig/vinculampe.pc"
	rm -f "$(to)/share/man/man1/vin.1" "$(to)/share/bash-completion/completions/vin"
	for program in $(programs); do rm -f "$(to)/bin/$$program" "$(to)/libexec/vinculampe/$$program"; done

test:
	.ci/run

clean:
	rm -rf $(OUT)

.PHONY: all install uninstall test clean
