# The library, for the Makefile: libjls_salvage.a and libjls_salvage.so.2, from its object in dist/ with a C compiler. Where dist/ has
# no such object, it is left out. make library BUILD=/tmp/checked CFLAGS='-O1 -DJLS_CHECKS' builds one that stops a program which breaks the
# rules of jls_salvage.h for pointers, with a line that names the function and the argument.

AR ?= ar
SONAME = libjls_salvage.so.2
LIBRARIES = $(addprefix $(BUILD)/,libjls_salvage.a $(SONAME))

.PHONY: library
# 1.1.0 left a link in this folder, and the toolchain takes no link below the tree
library: $(LIBRARIES)
	@rm -f $(BUILD)/libjls_salvage.so

ifeq ($(PACKED),)
# The proved functions get other names, and those of library/calls.c and mend.c are called in their place
FUNCTIONS = jls_check jls_check_under jls_join jls_lines jls_mend jls_partial jls_partial_under jls_read jls_read_under jls_write
OBJCOPY ?= $(or $(shell $(CC) -print-prog-name=objcopy 2> /dev/null),objcopy)
PARTS = memory calls layouts mend texts
$(BUILD)/libjls_salvage.o: $(PARTS:%=library/%.c) library/processor.h library/misuse.h library/stop.h include/jls_salvage.h dist/SHA256SUMS $(BUILD)/.how | ready
	@command -v $(OBJCOPY) > /dev/null || { echo 'make: there is no $(OBJCOPY), which Debian has in binutils' >&2; exit 1; }
	gzip -dc dist/$(PROCESSOR)/libjls_salvage.o.gz > $(BUILD)/.libjls_salvage.o
	$(OBJCOPY) $(foreach name,$(FUNCTIONS),--redefine-sym $(name)=proved_$(name)) $(BUILD)/.libjls_salvage.o
	for part in $(PARTS); do $(CC) $(CFLAGS) -fPIC -fno-lto -c -o $(BUILD)/.$$part.o library/$$part.c || exit 1; done
	$(CC) -r -nostdlib -o $@ $(PARTS:%=$(BUILD)/.%.o) $(BUILD)/.libjls_salvage.o
	@rm -f $(PARTS:%=$(BUILD)/.%.o) $(BUILD)/.libjls_salvage.o

$(BUILD)/libjls_salvage.a: $(BUILD)/libjls_salvage.o
	rm -f $@
	$(AR) rcs $@ $<

# Its functions are all that the shared object shows, and no text of it is changed when it is loaded
$(BUILD)/$(SONAME): $(BUILD)/libjls_salvage.o library/symbols.map
	$(CC) $(CFLAGS) $(LDFLAGS) -shared -Wl,-soname,$(SONAME) -Wl,--version-script=library/symbols.map -Wl,-z,text -Wl,-z,defs -o $@ $<
endif

# A wheel of the Python package with the library and jls-splice in it, which pip takes where glibc is as new. With STATIC=1 the program
# needs none
WHEELS ?= out
.PHONY: wheel
wheel: library $(BUILD)/jls-splice
	python3 python/jls_build.py "$(WHEELS)" $(BUILD)/$(SONAME) $(BUILD)/jls-splice
