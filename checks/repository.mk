# For the Makefile: what only the repository can do
#
# - make check: the tests and checks that need no toolchain, on what `make` built
# - make test: the gate
# - make proved: proves and builds the programs from the sources, and compares them with dist/; it needs the toolchain (rt)
# - make renew: makes dist/ anew from the sources
# - make dist, make deb, make release: archives for each processor, Debian packages for each, and both

.PHONY: check test proved renew dist deb release current
check: all
	@JLS_SALVAGE="$(abspath $(BUILD))/jls-salvage" JLS_SPLICE="$(abspath $(BUILD))/jls-splice" checks/check

test:
	./test

proved:
	checks/prove $(NAMES)
	checks/dist

renew:
	checks/renew

PROCESSORS = x86_64 aarch64

# Whether dist/ is made of the sources that are here
current:
	checks/dist --current

dist: current
	packaging/pack archive $(VERSION) $(PROCESSORS)

deb: current
	packaging/pack deb $(VERSION) $(PROCESSORS)

release:
	packaging/release $(VERSION)
	$(MAKE) dist deb
