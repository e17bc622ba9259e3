# Command            Takes            Needs               Does
# make look          2 minutes once   rt                  leaves the program unproved at build/x25-unproved, and has it decode a trace of examples/
# make x25           20 to 30 minutes rt                  proves the program, and leaves it at build/x25
# make lib           30 minutes       rt, cc              proves the library for C, and leaves libx25.a, libx25.so and x25.pc in build/
# make check-c       a minute         build/libx25.a, cc  runs tests/c over it, under ASan, UBSan and valgrind where these are
# make demo          a second         build/x25           decodes the traces of examples/ and runs its scripts
# make test          an hour          rt, cc              the gate: all proofs, the must-fail edits, all tests
# make golden        a second         build/x25           runs the stored cases of tests/golden
# make check-tools   a minute                             runs the tests of tools/; those for which something isn't there are left out
# make judge-runs    8 minutes        build/x25           judges random runs, from new seeds on: of two stations, as captures have them too, of one end beside an odd one, with one frame changed, and short tapes
# make with-runs     20 seconds       build/x25           gives facilities, user data and D by 100,000 random lines, and reads them again
# make refused       30 minutes       rt, cc, build/x25   refuses each allocation of stored cases and of scripts in turn
# make wrong-bodies  minutes a crate  rt                  tries wrong bodies that the gate leaves out; CRATE="NAME .." of these crates
# make interop       20 minutes       build/x25, a guest  plays a station against Linux's X.25; interop/README.md says more
# make install       a second         build/x25           installs the program, the scripts, the manual page, the documents and what make lib left
# make install-lib   a second         build/libx25.so     installs what make lib left alone, and the bindings for Python and Rust
# make uninstall     a second                             removes what these installed
# make dist          a second         git                 leaves the sources of HEAD at build/x25-VERSION.tar.gz
# make dist-binary   a second         build/x25           leaves the program, the scripts and what make lib left at build/x25-VERSION-linux-MACHINE.tar.gz
# make deb           a minute         debhelper, git      leaves Debian packages of build/x25 and of what make lib left in build/deb
# make clean         a second                             removes what the others made here
#
# PREFIX is /usr/local where it isn't given, DESTDIR stands before it, and PROGRAM is what is installed in place of build/x25. LIBDIR is
# where the library goes, PREFIX/lib, and PYTHONDIR where Python finds its package, the folder under PREFIX/lib in which python3 looks.
# The times are those of four processors with nothing beside. rt, the command of the Rattle kit, wants up to 4 GB of memory for each
# processor; cc is a C compiler. All need Python 3.9 or later. What needs build/x25 has it proved first, where it isn't there.

.PHONY: help look x25 lib check-c demo test golden judge-runs with-runs check-tools refused wrong-bodies interop install install-lib uninstall dist dist-binary deb clean kit

SOURCES := crates.txt $(shell find crates -path '*/out' -prune -o -type f ! -name '*.md' -print)

x25: build/x25

# The shared library, by the number of what programs that link it rely on: it goes up where one of them has to be compiled again.
SHARED = libx25.so.1

help:
	@sed -n '/^$$/q; s/^# \{0,1\}//p' Makefile

look: build/x25-unproved
	@.ci/look

build/x25-unproved: $(SOURCES) .ci/look | kit
	@.ci/look --build

build/x25: $(SOURCES) | kit
	.ci/prove x25 x25_world
	@{ git describe --always --dirty --abbrev=8 --exclude '*' && rt version; } > build/commit 2> /dev/null || rm -f build/commit

# The player of scripts whose calls are refused memory.
build/x25_refusals: $(SOURCES) | kit
	.ci/prove x25_refusals x25_world

# The archive of the crate, and that of what it takes memory by.
build/libx25_c.a: $(SOURCES) | kit
	.ci/prove x25_c x25_station

build/libx25.a: build/libx25_c.a
	rm -rf build/objects
	mkdir -p build/objects
	cd build/objects && ar x ../libx25_c.a && ar x "$$(dirname "$$(rt doc)")/c/liblibc_c.a"
	rm -f $@
	ar rcs $@ build/objects/*.o
	rm -r build/objects

build/$(SHARED): build/libx25.a share/x25.map
	$(CC) -shared -o $@ -Wl,-soname,$(SHARED),--version-script=share/x25.map -Wl,--whole-archive build/libx25.a -Wl,--no-whole-archive

build/libx25.so: build/$(SHARED)
	ln -sf $(SHARED) $@

lib: build/libx25.a build/libx25.so
	cp include/x25.h build
	sed '$(SET_PC)' share/x25.pc.in > build/x25.pc

check-c: $(if $(wildcard build/libx25.a),,build/libx25.a)
	python3 tests/check_c.py

demo: build/x25
	@for trace in examples/*.trace; do \
	    echo "$$ x25 decode < $$trace"; \
	    build/x25 decode < $$trace || exit $$?; \
	    echo; \
	done
	@for script in examples/*.script; do \
	    echo "$$ x25 sim < $$script"; \
	    build/x25 sim < $$script || exit $$?; \
	    echo; \
	done

test: kit
	python3 tests/gate.py

golden: build/x25
	python3 tests/golden.py --program build/x25

judge-runs: build/x25
	python3 tests/judge_runs.py --program build/x25
	python3 tests/tap_runs.py --program build/x25
	python3 tests/odd_runs.py --program build/x25
	python3 tests/link_runs.py --program build/x25
	python3 tests/midst_runs.py --program build/x25
	python3 tests/again_runs.py --program build/x25
	python3 tests/order_runs.py --program build/x25
	python3 tests/rules_runs.py --program build/x25

with-runs: build/x25
	python3 tests/with_runs.py --program build/x25

check-tools:
	python3 tests/check_tools.py

refused: build/x25 build/x25_refusals
	python3 tests/refused.py --program build/x25 --player build/x25_refusals

wrong-bodies: kit
	.ci/wrong_bodies $(CRATE)

# A program that stands there is taken as it is, without the kit.
# The guest comes first: it asks for packages before anything is proved.
interop:
	interop/build.sh build/interop
	$(if $(wildcard build/x25),,$(MAKE) build/x25)
	python3 interop/play.py build/interop

PREFIX = /usr/local
PROGRAM = build/x25
VERSION := $(shell sed -n 's/.*\.version("\(.*\)").*/\1/p' crates/x25/src/help.rt)
INSTALLED = $(DESTDIR)$(PREFIX)
DOCUMENTS = $(INSTALLED)/share/doc/x25
# Where the library for C is installed from, if it is there.
LIBRARY = build
LIBDIR = $(PREFIX)/lib
PYTHONDIR = $(shell python3 -c 'import site, sys; places = [place for place in site.getsitepackages() if place.startswith("$(PREFIX)/lib/")]; \
    print(*places[:1] or ["$(PREFIX)/lib/python%d.%d/site-packages" % sys.version_info[:2]])')
PACKAGE = $(INSTALLED)/lib/x25/x25
CRATE_OF_RUST = $(INSTALLED)/share/x25/rust
SET_PC = s|@PREFIX@|$(PREFIX)|; s|@LIBDIR@|$(LIBDIR)|; s|@VERSION@|$(VERSION)|
# The scripts by their names in bin, of which each is a link to its script in lib/x25.
SCRIPTS = x25dump:x25dump x25report:x25report pcap2x25:pcap2x25 x25pcap:x25pcap x25bridge:bridge x25chart:chart x25pad:x25pad x25tools:x25tools

# No dependency has the program proved: `sudo make install` is to install what is there.
install:
	@test -x $(PROGRAM) || { echo "There is no $(PROGRAM): make x25 leaves it there." >&2; exit 1; }
	install -d $(INSTALLED)/bin $(INSTALLED)/libexec $(INSTALLED)/lib/x25/x25tools $(INSTALLED)/share/man/man1 $(INSTALLED)/share/bash-completion/completions
	install -d $(DOCUMENTS)/examples/embed $(DOCUMENTS)/examples/c $(DOCUMENTS)/examples/python $(DOCUMENTS)/examples/rust/src
	install -m 755 $(PROGRAM) $(INSTALLED)/libexec/x25
	install -m 755 share/x25.sh $(INSTALLED)/bin/x25
	install -m 644 $(filter-out tools/manpage.py,$(wildcard tools/*.py)) $(INSTALLED)/lib/x25
	install -m 644 $(wildcard tools/x25tools/*.py) $(INSTALLED)/lib/x25/x25tools
	for pair in $(SCRIPTS); do \
	    chmod 755 $(INSTALLED)/lib/x25/$${pair#*:}.py && \
	    ln -sf ../lib/x25/$${pair#*:}.py $(INSTALLED)/bin/$${pair%:*} && \
	    python3 tools/manpage.py --script $${pair%:*} > $(INSTALLED)/share/man/man1/$${pair%:*}.1 && \
	    chmod 644 $(INSTALLED)/share/man/man1/$${pair%:*}.1 && \
	    ln -sf x25 $(INSTALLED)/share/bash-completion/completions/$${pair%:*} || exit $$?; \
	done
	python3 tools/manpage.py --prefix $(PREFIX) > $(INSTALLED)/share/man/man1/x25.1
	chmod 644 $(INSTALLED)/share/man/man1/x25.1
	install -m 644 share/x25.bash $(INSTALLED)/share/bash-completion/completions/x25
	install -m 644 CHANGELOG.md docs/*.md docs/*.svg $(DOCUMENTS)
	for document in README.md docs/MANUAL.md docs/BRIDGE.md docs/CAPTURES.md docs/FORMATS.md; do \
	    python3 tools/manpage.py --text --prefix $(PREFIX) $$document > $(DOCUMENTS)/$${document#docs/} && chmod 644 $(DOCUMENTS)/$${document#docs/} || exit $$?; \
	done
	install -m 644 $(wildcard examples/*.*) $(DOCUMENTS)/examples
	for folder in embed c python rust rust/src; do install -m 644 examples/$$folder/*.* $(DOCUMENTS)/examples/$$folder || exit $$?; done
	if [ -e $(dir $(PROGRAM))commit ]; then install -m 644 $(dir $(PROGRAM))commit $(DOCUMENTS)/COMMIT; fi
	if [ -e $(LIBRARY)/libx25.so ]; then $(MAKE) --no-print-directory install-lib; fi

# The package of Python has a link to the library beside it, by which it finds that, and stands with the scripts, which use it.
install-lib:
	@test -e $(LIBRARY)/libx25.so || { echo "There is no $(LIBRARY)/libx25.so: make lib leaves it there." >&2; exit 1; }
	install -d $(INSTALLED)/include $(DESTDIR)$(LIBDIR)/pkgconfig $(PACKAGE) $(DESTDIR)$(PYTHONDIR) $(CRATE_OF_RUST)/src
	install -m 644 include/x25.h $(INSTALLED)/include
	install -m 644 $(LIBRARY)/libx25.a $(DESTDIR)$(LIBDIR)
	install -m 755 $(LIBRARY)/$(SHARED) $(DESTDIR)$(LIBDIR)
	ln -sf $(SHARED) $(DESTDIR)$(LIBDIR)/libx25.so
	sed '$(SET_PC)' share/x25.pc.in > $(DESTDIR)$(LIBDIR)/pkgconfig/x25.pc
	chmod 644 $(DESTDIR)$(LIBDIR)/pkgconfig/x25.pc
	install -m 644 $(wildcard bindings/python/x25/*.py) bindings/python/x25/py.typed $(PACKAGE)
	ln -srf $(DESTDIR)$(LIBDIR)/$(SHARED) $(PACKAGE)/libx25.so
	ln -srfn $(PACKAGE) $(DESTDIR)$(PYTHONDIR)/x25
	install -m 644 bindings/rust/Cargo.toml bindings/rust/build.rs $(CRATE_OF_RUST)
	install -m 644 $(wildcard bindings/rust/src/*.rs) $(CRATE_OF_RUST)/src
	@test -n "$(DESTDIR)" || echo "Now run ldconfig, as root: it lets programs find $(LIBDIR)/$(SHARED)."

uninstall:
	for pair in x25:x25 $(SCRIPTS); do \
	    rm -f $(INSTALLED)/bin/$${pair%:*} $(INSTALLED)/share/man/man1/$${pair%:*}.1 $(INSTALLED)/share/bash-completion/completions/$${pair%:*}; \
	done
	rm -f $(INSTALLED)/include/x25.h $(DESTDIR)$(LIBDIR)/libx25.* $(DESTDIR)$(LIBDIR)/pkgconfig/x25.pc $(DESTDIR)$(PYTHONDIR)/x25
	rm -rf $(INSTALLED)/libexec/x25 $(INSTALLED)/lib/x25 $(INSTALLED)/share/x25 $(DOCUMENTS)

dist:
	mkdir -p build
	git archive --prefix=x25-$(VERSION)/ -o build/x25-$(VERSION).tar.gz HEAD

# For people without the kit. share/CHECK.txt says how to see what is in it.
BINARY = x25-$(VERSION)-linux-$(shell uname -m)
ARCHIVES = build
PROGRAM_IS = $(shell $(PROGRAM) --version 2> /dev/null | grep -q unproved && echo 'a program of make look: nothing of it is proved' || \
    echo 'the program that `make x25` left: each of its functions is proved')

dist-binary:
	rm -rf $(ARCHIVES)/stage
	@$(MAKE) -s install DESTDIR=$(ARCHIVES)/stage PREFIX=/usr/local
	mv $(ARCHIVES)/stage/usr/local $(ARCHIVES)/stage/$(BINARY)
	sed 's|@VERSION@|$(VERSION)|; s|@PROGRAM@|$(PROGRAM_IS)|' share/CHECK.txt > $(ARCHIVES)/stage/$(BINARY)/CHECK.txt
	cd $(ARCHIVES)/stage/$(BINARY) && find . -type f ! -name SHA256SUMS -print0 | sort -z | xargs -0 sha256sum > SHA256SUMS
	tar -C $(ARCHIVES)/stage --owner=0 --group=0 --sort=name -czf $(ARCHIVES)/$(BINARY).tar.gz $(BINARY)
	rm -rf $(ARCHIVES)/stage

DEBS = build/deb

# In a copy, since dpkg-buildpackage leaves them beside the folder that it is run in.
deb:
	@command -v dh > /dev/null || { echo "There is no debhelper, by which Debian packages are built." >&2; exit 1; }
	@for file in $(PROGRAM) $(LIBRARY)/libx25.so; do test -e $$file || { echo "There is no $$file: make x25 lib leaves it there." >&2; exit 1; }; done
	rm -rf $(DEBS)
	mkdir -p $(DEBS)/x25/build
	git ls-files -z | tar -c --null --ignore-failed-read -T - | tar -x -C $(DEBS)/x25
	cp $(PROGRAM) $(DEBS)/x25/build/x25
	cp -P $(LIBRARY)/libx25.* $(DEBS)/x25/build
	cd $(DEBS)/x25 && dpkg-buildpackage -us -uc -b
	rm -r $(DEBS)/x25

clean:
	rm -rf build crates/*/out

kit:
	@command -v rt > /dev/null || { echo "The Rattle kit is missing: its command rt isn't on the PATH." >&2; exit 1; }
