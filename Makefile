# make                     every program and the archive, with the proofs of all below them
# make check               the gate: all tests, all proofs, all wrong programs refused
# make bench               the speed of the archive, beside that of a plain receiver in Rust
# make install PREFIX=..   programs, archive, header and pkg-config file (DESTDIR is honoured)
# make wrong-answers       the wrong answers of docs/PROMISES.md that the gate leaves out

PREFIX ?= /usr/local
PROGRAMS := $(filter-out test_%,$(patsubst crates/%/src/main.rt,%,$(wildcard crates/*/src/main.rt)))
ARCHIVE := target/staticlib/libnebosvar.a
VERSION := $(shell sed -n 's/^version = "\(.*\)"/\1/p' rust/nebosvar/Cargo.toml)
override PREFIX := $(abspath $(PREFIX))
AT := $(DESTDIR)$(PREFIX)

.PHONY: all programs check bench install uninstall wrong-answers clean

all: programs $(ARCHIVE)
	@echo "built: $(PROGRAMS:%=target/bin/%) $(ARCHIVE)"

# rt itself knows what has changed since it was proved. The archive is built with the programs.
programs $(ARCHIVE) &:
	@bash tools/build.sh $(PROGRAMS) nebosvar

check:
	bash .ci/run

bench: all
	bash tools/rust.sh run --release --package bench

install: all
	install -d $(AT)/bin $(AT)/lib/pkgconfig $(AT)/include
	install -m 755 $(PROGRAMS:%=target/bin/%) $(AT)/bin
	install -m 644 $(ARCHIVE) $(AT)/lib
	install -m 644 include/nebosvar.h $(AT)/include
	sed 's|@PREFIX@|$(PREFIX)|; s|@VERSION@|$(VERSION)|' nebosvar.pc.in > $(AT)/lib/pkgconfig/nebosvar.pc

uninstall:
	rm -f $(PROGRAMS:%=$(AT)/bin/%) $(AT)/lib/libnebosvar.a $(AT)/include/nebosvar.h $(AT)/lib/pkgconfig/nebosvar.pc

wrong-answers:
	python3 tools/wrong_answers.py

clean:
	rm -rf target rust/target crates/*/out
