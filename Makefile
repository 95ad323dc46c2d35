# Needs `rt` of the Rattle kit on the PATH; README.md says what else.

.PHONY: try gptimg gptguid gptedit lib static dist package install completions demo check test plants bench crash-states trials

# Where `make install` puts the programs and their manual pages.
PREFIX = /usr/local

# A first look in a few minutes: builds gptedit before its proof, and shows the table of an image.
try:
	@scripts/try

# Proves and builds the program, and leaves it at ./gptimg.
gptimg:
	@scripts/build

# The same for the program that turns GUIDs, at ./gptguid.
gptguid:
	@scripts/build gptguid

# The same for the program for daily work, at ./gptedit.
gptedit:
	@scripts/build gptedit

# Proves the library for C, and leaves it at ./lib: libgptman.a, libgptman.so.1 and gptman.pc. Needs cc and ar.
lib:
	@PREFIX="$(PREFIX)" scripts/build_library

# Links the three programs whole, at ./static, so that each runs where nothing else is.
static:
	@scripts/static

# A tarball of these, the library for C, manual pages and documents.
dist:
	@scripts/dist

# The same as a Debian package.
package:
	@scripts/package

# Installs the programs, the library for C and the package for Python, and builds first what was not built yet.
install:
	@test -f lib/libgptman.a || PREFIX="$(PREFIX)" scripts/build_library
	@test -x gptimg || scripts/build
	@test -x gptguid || scripts/build gptguid
	@test -x gptedit || scripts/build gptedit
	install -D -m 755 gptimg "$(DESTDIR)$(PREFIX)/bin/gptimg"
	install -D -m 755 gptguid "$(DESTDIR)$(PREFIX)/bin/gptguid"
	install -D -m 755 gptedit "$(DESTDIR)$(PREFIX)/bin/gptedit"
	install -D -m 644 docs/gptimg.1 "$(DESTDIR)$(PREFIX)/share/man/man1/gptimg.1"
	install -D -m 644 docs/gptguid.1 "$(DESTDIR)$(PREFIX)/share/man/man1/gptguid.1"
	install -D -m 644 docs/gptedit.1 "$(DESTDIR)$(PREFIX)/share/man/man1/gptedit.1"
	install -D -m 644 completions/gptedit.bash "$(DESTDIR)$(PREFIX)/share/bash-completion/completions/gptedit"
	install -D -m 644 completions/_gptedit "$(DESTDIR)$(PREFIX)/share/zsh/site-functions/_gptedit"
	install -D -m 644 completions/gptedit.fish "$(DESTDIR)$(PREFIX)/share/fish/vendor_completions.d/gptedit.fish"
	install -D -m 644 docs/gptman.3 "$(DESTDIR)$(PREFIX)/share/man/man3/gptman.3"
	install -D -m 644 docs/gptman_fd.3 "$(DESTDIR)$(PREFIX)/share/man/man3/gptman_fd.3"
	install -D -m 644 docs/gptedit.schema.json "$(DESTDIR)$(PREFIX)/share/doc/gptman/docs/gptedit.schema.json"
	install -D -m 755 examples/growpart "$(DESTDIR)$(PREFIX)/share/doc/gptman/examples/growpart"
	install -D -m 644 lib/libgptman.a "$(DESTDIR)$(PREFIX)/lib/libgptman.a"
	install -D -m 755 lib/libgptman.so.1 "$(DESTDIR)$(PREFIX)/lib/libgptman.so.1"
	ln -sf libgptman.so.1 "$(DESTDIR)$(PREFIX)/lib/libgptman.so"
	install -D -m 644 lib/gptman.pc "$(DESTDIR)$(PREFIX)/lib/pkgconfig/gptman.pc"
	install -D -m 644 include/gptman.h "$(DESTDIR)$(PREFIX)/include/gptman.h"
	install -D -m 644 include/gptman_fd.h "$(DESTDIR)$(PREFIX)/include/gptman_fd.h"
	install -d "$(DESTDIR)$(PREFIX)/lib/python3/dist-packages/gptman"
	install -m 644 python/gptman/*.py python/gptman/py.typed "$(DESTDIR)$(PREFIX)/lib/python3/dist-packages/gptman"

# Writes what bash, zsh and fish complete, from the words of gptedit.
completions:
	@scripts/completions --write

# Makes an empty disk image, writes a table to it and shows it.
demo: gptimg
	@scripts/demo

# Proves every crate, runs all tests, and tries the program that this built: for every day.
check:
	@scripts/check

# The gate: the same from nothing, has the prover refuse the wrong bodies, and each growth refused in turn. It
# tells how long each part took. The last line is 'N passed, M failed'.
test:
	@scripts/gate

# Has the prover take a right body in the place of each wrong one of the gate (trials/controls), the rows see wrong
# bodies that no clause refuses (trials/caught), and the clauses refuse those that the gate leaves out (trials/wrong).
# Then it makes wrong bodies for each function, and tells which of them still prove and are not in
# trials/plants/PROVES.txt.
plants:
	@scripts/controls
	@scripts/caught
	@scripts/wrong
	@scripts/plants

# Tells how long calls of the library take, and what the program costs beside others. Looks at those of
# valgrind, strace, sgdisk, sfdisk, parted and cgpt that are installed.
bench:
	@scripts/bench

# Tells how many of the states that a stop may leave lose the table, of the program and of those of sgdisk,
# sfdisk, parted, cgpt and systemd-repart that are installed. Needs python3 and strace. Draws
# docs/crash-states.svg, and leaves the figures in crash-states.json.
crash-states: gptimg gptedit
	@python3 -B -m unittest discover -q trials/crash_states
	@python3 -B trials/crash_states --json crash-states.json --chart docs/crash-states.svg

# Reads what a crash in each command of gptedit may leave, has a firmware boot images that a crash left, and a kernel
# from an image that `apply --create` made, cuts the power of a Linux kernel in the middle of commands and of
# examples/growpart on its root, has other programs, kernels and boot loaders read such images, runs mkosi and vmdb2
# with gptedit, compares the library for C with others, and has tests/gptedit try wrong programs, each of which must
# fail; each where what it needs is installed.
# They stand beside the gate. The model of gptedit plays COMMANDS random commands of a SEED, and IMAGES are damaged.
SEED = 2
COMMANDS = 5000
IMAGES = 500
trials: gptimg gptedit
	@python3 -B trials/crash_states/changes.py ./gptedit
	@trials/with_firmware.sh
	@trials/with_power_cuts.sh
	@trials/with_growpart.sh
	@python3 -B trials/boot_guest.py
	@trials/with_readers.sh
	@trials/with_libraries.sh
	@python3 -B trials/image_builders.py
	@python3 -B tests/gptedit ./gptedit uses sources locks holders
	@python3 -B tests/gptedit/model.py ./gptedit $(SEED) $(COMMANDS)
	@python3 -B tests/gptedit/damaged.py ./gptedit $(SEED) $(IMAGES)
	@python3 -B trials/planted
	@trials/packages.sh
