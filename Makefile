# Burmelox, for GNU make.
#
#   make            proves and builds the program, the static and the shared library, and the command
#   make test       runs the gate
#   make install    puts them under PREFIX, with header, man pages, burmelox.pc and Python module
#   make uninstall  takes them away again
#   make clean      removes what was built
#
# The first build proves every crate, which takes some minutes; one after which nothing changed takes
# no time. With DESTDIR all is installed below that folder, and still written for PREFIX.

PREFIX = /usr/local
DESTDIR =
CC = cc
INSTALL = install

# One file for every Python 3: dist-packages is a folder of Debian's Python alone, and below
# /usr/local it has the version in its name.
PYTHONDIR = $(PREFIX)/share/burmelox/python

PROGRAM = target/bin/burmelox_check
ARCHIVE = target/staticlib/libburmelox.a
SHARED = target/staticlib/libburmelox.so
COMMAND = command/target/release/burmelox
BUILT = $(PROGRAM) $(ARCHIVE) $(SHARED) $(COMMAND)

VERSION := $(shell sed -n 's/^\#define BURMELOX_VERSION "\(.*\)"$$/\1/p' include/burmelox.h)
CRATES := crates.txt $(shell find crates \( -name must-fail -o -name out \) -prune -o -type f -print)
RUST := $(shell find command library -name target -prune -o -type f -print)

# The command is linked with the archive that is built here.
unexport BURMELOX_LIB_DIR

# cargo leaves a file as it is where nothing in it would change, so its time is set here.
TOUCH = @touch $@

.PHONY: all test install uninstall clean
.DELETE_ON_ERROR:

all: $(BUILT)

# What rt makes stands in the crates' folders out, which later calls of rt may change; so what is used stands in target.
# `rt run` builds the program.
$(PROGRAM): $(CRATES)
	cd crates/burmelox_check && rt run < stdin | cmp - stdout
	$(INSTALL) -D -m 755 crates/burmelox_check/out/burmelox_check $@

# After the program, since both prove the same crates.
$(ARCHIVE): $(PROGRAM)
	cd crates/burmelox && rt lib
	$(INSTALL) -D -m 644 crates/burmelox/out/libburmelox.a $@

$(SHARED): $(ARCHIVE)
	$(CC) -shared -o $@ -Wl,-soname,$(@F) -Wl,--whole-archive $< -Wl,--no-whole-archive

$(COMMAND): $(ARCHIVE) $(RUST)
	cargo build --release --offline --locked --manifest-path command/Cargo.toml
	$(TOUCH)

test:
	bash .ci/run

install: $(BUILT)
	$(INSTALL) -D -m 755 -t "$(DESTDIR)$(PREFIX)/bin" $(PROGRAM) $(COMMAND)
	$(INSTALL) -D -m 644 -t "$(DESTDIR)$(PREFIX)/lib" $(ARCHIVE)
	$(INSTALL) -D -m 755 -t "$(DESTDIR)$(PREFIX)/lib" $(SHARED)
	$(INSTALL) -D -m 644 -t "$(DESTDIR)$(PREFIX)/include" include/burmelox.h
	$(INSTALL) -d "$(DESTDIR)$(PREFIX)/lib/pkgconfig"
	sed 's|@PREFIX@|$(PREFIX)|; s|@VERSION@|$(VERSION)|' burmelox.pc.in | \
		$(INSTALL) -m 644 /dev/stdin "$(DESTDIR)$(PREFIX)/lib/pkgconfig/burmelox.pc"
	$(INSTALL) -D -m 644 -t "$(DESTDIR)$(PREFIX)/share/man/man1" man/burmelox.1 man/burmelox_check.1
	$(INSTALL) -D -m 644 -t "$(DESTDIR)$(PREFIX)/share/man/man3" man/burmelox.3
	$(INSTALL) -D -m 644 -t "$(DESTDIR)$(PYTHONDIR)" python/burmelox.py

# What stands under PREFIX, but for the Python module.
INSTALLED = bin/burmelox_check bin/burmelox lib/libburmelox.a lib/libburmelox.so \
	include/burmelox.h lib/pkgconfig/burmelox.pc \
	share/man/man1/burmelox.1 share/man/man1/burmelox_check.1 share/man/man3/burmelox.3

uninstall:
	rm -f $(addprefix "$(DESTDIR)$(PREFIX)"/,$(INSTALLED))
	rm -f "$(DESTDIR)$(PYTHONDIR)"/burmelox.py "$(DESTDIR)$(PYTHONDIR)"/__pycache__/burmelox.*.pyc
	rmdir "$(DESTDIR)$(PYTHONDIR)/__pycache__" "$(DESTDIR)$(PYTHONDIR)" \
		"$(DESTDIR)$(PREFIX)/share/burmelox" 2>/dev/null || true

clean:
	rm -rf target tests/target library/target command/target crates/*/out
