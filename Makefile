# make          builds the proved library, the command skarnuth and the listing program (minutes the first time)
# make install  puts them below PREFIX, an absolute folder; DESTDIR, if given, stands before it
# make test     passes the tests

PREFIX = /usr/local
DESTDIR =
VERSION := $(shell cat VERSION)
MADE = command/target
TO = $(DESTDIR)$(PREFIX)

all:
	bin/build all

install: all
	@case "$(PREFIX)" in /*) ;; *) echo "make install: PREFIX is an absolute folder, not $(PREFIX)" >&2; exit 2 ;; esac
	mkdir -p "$(TO)/bin" "$(TO)/include" "$(TO)/lib/pkgconfig"
	cp "$(MADE)/release/skarnuth" "$(MADE)/listing" "$(TO)/bin/"
	cp examples/skarnuth.h "$(TO)/include/"
	cp "$(MADE)/libskarnuth.a" "$(TO)/lib/"
	sed 's|@PREFIX@|$(PREFIX)|; s|@VERSION@|$(VERSION)|' command/skarnuth.pc.in > "$(TO)/lib/pkgconfig/skarnuth.pc"
	chmod 755 "$(TO)/bin/skarnuth" "$(TO)/bin/listing"
	chmod 644 "$(TO)/include/skarnuth.h" "$(TO)/lib/libskarnuth.a" "$(TO)/lib/pkgconfig/skarnuth.pc"

test:
	bin/test

.PHONY: all install test
