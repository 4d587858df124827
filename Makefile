# Puts the command, its man page, documents and completions, and the library for C in place.
#
#     make                                  sets up, proves, builds
#     make library                          proves, and builds the library alone
#     make install PREFIX=/usr/local        DESTDIR goes in front of every place
#     make uninstall

PREFIX ?= /usr/local
DESTDIR ?=

version := $(shell sed -n 's/^version = "\(.*\)"/\1/p' host/Cargo.toml)
library = target/staticlib/libcapi.a
command = target/cargo/release/lohenarr
to = $(DESTDIR)$(PREFIX)

# what an operator reads, the rules that a certificate names, and what they rest on
documents = CERTIFY.md COMMAND.md RULES.md TRUST.md

places = $(to)/bin/lohenarr \
    $(to)/share/man/man1/lohenarr.1 \
    $(to)/share/bash-completion/completions/lohenarr \
    $(to)/share/zsh/site-functions/_lohenarr \
    $(to)/share/fish/vendor_completions.d/lohenarr.fish \
    $(to)/include/lohenarr.h \
    $(to)/lib/liblohenarr.a \
    $(to)/lib/pkgconfig/lohenarr.pc \
    $(documents:%=$(to)/share/doc/lohenarr/%)

.PHONY: all library install uninstall

all: $(command)

library: $(library)

# rt names an archive after its crate; this one has the name by which C callers know it
$(library): crates.txt $(shell find crates -type f -not -path '*/out/*')
	cd crates/capi_c && rt lib
	install -D -m 644 crates/capi_c/out/libcapi_c.a $@

$(command): $(library) host/Cargo.toml host/Cargo.lock host/build.rs $(shell find host/src -type f)
	host/setup
	cd host && cargo build --locked --release --bin lohenarr
	touch $@

install: $(command)
	install -d $(dir $(places))
	install -m 755 $(command) $(to)/bin/lohenarr
	install -m 644 host/lohenarr.1 $(to)/share/man/man1/lohenarr.1
	$(command) completions bash >$(to)/share/bash-completion/completions/lohenarr
	$(command) completions zsh >$(to)/share/zsh/site-functions/_lohenarr
	$(command) completions fish >$(to)/share/fish/vendor_completions.d/lohenarr.fish
	install -m 644 $(documents:%=docs/%) $(to)/share/doc/lohenarr
	install -m 644 include/lohenarr.h $(to)/include/lohenarr.h
	install -m 644 $(library) $(to)/lib/liblohenarr.a
	sed -e 's|@PREFIX@|$(PREFIX)|' -e 's|@VERSION@|$(version)|' host/lohenarr.pc.in >$(to)/lib/pkgconfig/lohenarr.pc

uninstall:
	rm -f $(places)
