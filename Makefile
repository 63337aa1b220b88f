# make            the library (archive and shared), the command merikohin, and the pictures
# make demo       proves and runs the demonstration
# make check      the gate: all proofs, all comparisons, all tests
# make bench      the speed tables
# make doc        the Rust layer's pages, in target/rust/doc
# make install    into PREFIX (default /usr/local), below DESTDIR where that is given
# It needs rt, gcc and cargo, and no network. All that it makes is under target/, but for what rt keeps in crates/*/out.

PREFIX ?= /usr/local
VERSION := $(shell sed -n 's/^.define MERIKOHIN_VERSION "\(.*\)"/\1/p' include/merikohin.h)
MAJOR := $(firstword $(subst ., ,$(VERSION)))
MACHINE := $(shell uname -m)
# The library is x86-64 code; elsewhere programs link the bridge, which runs it under an emulator.
NATIVE := $(if $(filter x86_64,$(MACHINE)),target/staticlib,target/bridge)
SHARED := target/shared/libmerikohin.so.$(VERSION)
CARGO := cd rust && MERIKOHIN_LIB_DIR=$$PWD/../$(NATIVE) CARGO_HOME=$$PWD/../target/cargo cargo
SOURCES := $(shell find crates -name out -prune -o -name '*.rt' -print -o -name '*.antt' -print) $(wildcard include/*.h bridge/*)

PICTURES := target/picture.png target/edge.png target/half-pixel.png target/panel-0.png target/panel-48.png

all: $(PICTURES) $(if $(filter x86_64,$(MACHINE)),$(SHARED))

$(NATIVE)/libmerikohin.a: $(SOURCES)
	tools/library
	$(if $(filter x86_64,$(MACHINE)),,bridge/build)
	touch $@

# The archive whole; nothing may be missing but what the C library has.
$(SHARED): $(NATIVE)/libmerikohin.a
	mkdir -p $(@D)
	gcc -shared -Wl,-soname,libmerikohin.so.$(MAJOR) -Wl,-z,defs -Wl,--fatal-warnings \
	    -Wl,--whole-archive $< -Wl,--no-whole-archive -o $@

command: $(NATIVE)/libmerikohin.a
	$(CARGO) build --release --offline --locked -p merikohin-tool -p picture

target/picture.png: command
	target/rust/release/picture >$@

target/edge.png: command
	target/rust/release/picture --edge >$@

target/half-pixel.png: command
	target/rust/release/picture --half-pixel >$@

target/panel-%.png: command
	target/rust/release/merikohin panel examples/sounds/snick.wav --per-column 4 --offset $* -o $@

demo:
	tools/demonstration

# rt ci refuses the links of an earlier run's install.
check:
	rm -rf target/install
	bash .ci/run

bench: $(NATIVE)/libmerikohin.a
	bench/run

doc: $(NATIVE)/libmerikohin.a
	$(CARGO) doc --offline --locked --no-deps -p merikohin

install: all
	$(if $(filter x86_64,$(MACHINE)),,$(error the library to install is for x86-64))
	install -d $(DESTDIR)$(PREFIX)/bin $(DESTDIR)$(PREFIX)/include $(DESTDIR)$(PREFIX)/lib/pkgconfig
	install -m 755 target/rust/release/merikohin $(DESTDIR)$(PREFIX)/bin
	install -m 644 include/merikohin.h $(DESTDIR)$(PREFIX)/include
	install -m 644 $(NATIVE)/libmerikohin.a $(DESTDIR)$(PREFIX)/lib
	install -m 755 $(SHARED) $(DESTDIR)$(PREFIX)/lib
	ln -sf $(notdir $(SHARED)) $(DESTDIR)$(PREFIX)/lib/libmerikohin.so.$(MAJOR)
	ln -sf libmerikohin.so.$(MAJOR) $(DESTDIR)$(PREFIX)/lib/libmerikohin.so
	sed -e 's|@PREFIX@|$(PREFIX)|' -e 's|@VERSION@|$(VERSION)|' merikohin.pc.in >$(DESTDIR)$(PREFIX)/lib/pkgconfig/merikohin.pc

.PHONY: all command demo check bench doc install
