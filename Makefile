# make            builds bin/jls-salvage and bin/jls-splice from dist/ with a C compiler, and puts the commands of commands/ beside them
# make install, make uninstall     PREFIX=.. (default /usr/local), DESTDIR=.., and BINDIR=, LIBDIR=, INCLUDEDIR=, DATADIR=, MANDIR=
# make clean      removes what was built in bin/
# make wheel      a Python package with the library and jls-splice in it, for pip, in WHEELS=.. (default out)
#
# In the repository, checks/repository.mk has more: check, test, proved, renew, dist, deb and release.
#
# CC=.. another compiler, also one for another processor; STATIC=1 programs that need no library of the system; BUILD=.. another folder
# than bin. docs/GUIDE.md, Installing, says more.

PREFIX ?= /usr/local
DESTDIR ?=
BUILD = bin
CFLAGS ?= -O2
LDFLAGS ?=
STATIC =

# DESTDIR stands before each of these places, and is in none. The library lies in LIBDIR, and files of its own in LIBDIR/jls-salvage.
BINDIR = $(PREFIX)/bin
LIBDIR = $(PREFIX)/lib
INCLUDEDIR = $(PREFIX)/include
DATADIR = $(PREFIX)/share
MANDIR = $(DATADIR)/man

# The folder stands in names of targets, where make takes none of these
ODD := $(strip $(foreach sign,: % \# ' " $$ ; & | * ? ~ \,$(findstring $(sign),$(BUILD))))
ifneq ($(words $(BUILD)) $(ODD),1 )
$(error BUILD is "$(BUILD)": name a folder without spaces and without any of : % \# ' " $$ ; & | * ? ~ \)
endif
override BUILD := $(patsubst %/,%,$(BUILD))

NAMES = jls-salvage jls-splice
PROGRAMS = $(addprefix $(BUILD)/,$(NAMES))
# the commands are scripts, and call the programs beside them; with the modules that they read
COMMANDS := $(sort $(patsubst commands/%,%,$(shell find commands -maxdepth 1 -type f -perm -100 2> /dev/null)))
MODULES := $(sort $(patsubst commands/%,%,$(shell find commands -name '*.py' ! -perm -100 2> /dev/null)))

.PHONY: all ready install uninstall clean FORCE
.DELETE_ON_ERROR:
all: $(PROGRAMS) $(addprefix $(BUILD)/,$(COMMANDS) $(MODULES))

# The programs ----------------------------------------------------------------

# In what `make dist` packs the programs are there, and need no compiler: they are linked again for another folder, and after `make clean`
PACKED := $(filter packed,$(shell cat $(BUILD)/.how 2> /dev/null))
ifeq ($(PACKED),)
MACHINE := $(shell $(CC) -dumpmachine 2> /dev/null)
PROCESSOR = $(patsubst amd64,x86_64,$(patsubst arm64,aarch64,$(firstword $(subst -, ,$(MACHINE)))))
LINK = $(CC) $(CFLAGS) -fno-lto $(LDFLAGS) $(if $(STATIC),-static) -Wl,--wrap=main

$(PROGRAMS): $(BUILD)/%: dist/runtime.c dist/SHA256SUMS $(BUILD)/.how | ready
	gzip -dc dist/$(PROCESSOR)/$*.o.gz > $(BUILD)/.$*.o
	$(LINK) -o $(BUILD)/.$* dist/runtime.c $(BUILD)/.$*.o || { echo 'make: $(CC) cannot link this: use gcc or clang' >&2; exit 1; }
	@rm -f $(BUILD)/.$*.o
	mv -f $(BUILD)/.$* $@

# What has to be there, and whether dist/ is as it was made
ready:
	@command -v $(firstword $(CC)) > /dev/null \
	    || { echo 'make: there is no C compiler $(firstword $(CC)): install one, or name one by CC=' >&2; exit 1; }
	@case '$(MACHINE)' in *linux*) ;; '') echo 'make: $(CC) does not tell its machine by -dumpmachine: use gcc or clang' >&2; exit 1 ;; *) echo 'make: $(CC) makes programs for $(MACHINE), and dist/ has objects for Linux alone' >&2; exit 1 ;; esac
	@test -d 'dist/$(PROCESSOR)' \
	    || { echo 'make: dist/ has no objects for $(PROCESSOR); it has them for $(notdir $(patsubst %/,%,$(wildcard dist/*/)))' >&2; exit 1; }
	@cd dist && sums=$$(LC_ALL=C sha256sum -c SHA256SUMS 2>&1) \
	    || { printf '%s\n' "$$sums" | grep -v ': OK$$' >&2; echo 'make: dist/ is damaged: its files are not those of dist/SHA256SUMS' >&2; exit 1; }

# How the programs were built last: another compiler, or other flags, build them anew
$(BUILD)/.how: FORCE
	@mkdir -p $(BUILD) && test -w $(BUILD) \
	    || { echo 'make: $(BUILD) cannot be written; name another folder by BUILD=, as in make BUILD=/tmp/jls' >&2; exit 1; }
	@echo '$(LINK) $(PROCESSOR)' | cmp -s - $@ || echo '$(LINK) $(PROCESSOR)' > $@
endif

# The library, where dist/ has its object
ifneq ($(PACKED)$(wildcard dist/$(PROCESSOR)/libjls_salvage.o.gz),)
all: library
include library/library.mk
endif

$(addprefix $(BUILD)/,$(COMMANDS) $(MODULES)): $(BUILD)/%: commands/%
	@mkdir -p $(@D)
	cp -p $< $@

# Their places ----------------------------------------------------------------

# It builds what isn't there, or is older than dist/: so root needs no compiler
ifneq ($(filter install,$(MAKECMDGOALS)),)
OLDER := $(shell for file in $(PROGRAMS) $(LIBRARIES); do \
    test -e $$file && test -z "$$(find dist/SHA256SUMS dist/runtime.c library -newer $$file)" || echo $$file; done)
endif
# That of the sources, or of what `make dist` packed
VERSION := $(shell cat VERSION 2> /dev/null || sed -n 's/.*const VERSION: &str = "\([0-9.]*\).*/\1/p' crates/*/src/*.rt)
export BUILD VERSION DESTDIR PREFIX BINDIR LIBDIR INCLUDEDIR DATADIR MANDIR SONAME

install: $(if $(OLDER),all)
	@packaging/place install

uninstall:
	@packaging/place remove

clean:
	rm -rf bin out

# What the repository has beyond what `make dist` packs
-include checks/repository.mk
