# Installs the library for C: header, archive, shared library, pkg-config file. Builds the programs, which stay as crates/NAME/out/NAME.
#
#     make && sudo make install      # to /usr/local, or PREFIX=FOLDER; below DESTDIR=FOLDER for a package
#     sudo make uninstall
#     make programs
#
# The archive is made by `rt lib` in crates/holdamek, or is the one in HOLDAMEK_LIB=FOLDER.
PREFIX = /usr/local
INCLUDEDIR = $(PREFIX)/include
LIBDIR = $(PREFIX)/lib
DOCDIR = $(PREFIX)/share/doc/holdamek
HOLDAMEK_LIB ?= crates/holdamek/out
RT ?= rt
PROGRAMS = decode resume compare payloads g711_leg conference depths delays

VERSION := $(shell sed -n 's/.*HOLDAMEK_VERSION "\(.*\)"/\1/p' include/holdamek.h)
# before 1.0 a version that raises the second number may change arguments
SONAME := libholdamek.so.$(basename $(VERSION))
SHARED := libholdamek.so.$(VERSION)
archive := $(HOLDAMEK_LIB)/libholdamek.a
headers := $(DESTDIR)$(INCLUDEDIR)
libraries := $(DESTDIR)$(LIBDIR)
documents := $(DESTDIR)$(DOCDIR)

all: $(archive)

crates/holdamek/out/libholdamek.a: crates.txt $(shell find crates -name out -prune -o \( -name '*.rt' -o -name '*.antt' \) -print)
	cd crates/holdamek && $(RT) lib

# rt proves a program, builds it and runs it.
programs:
	for program in $(PROGRAMS); do (cd crates/$$program && $(RT) run -- --version) || exit 1; done

# The archive's code is position independent, and its only global symbols are the functions of the header.
install: $(archive)
	install -d "$(headers)" "$(libraries)/pkgconfig" "$(documents)"
	install -m 644 include/holdamek.h "$(headers)"
	install -m 644 "$(archive)" "$(libraries)"
	$(CC) -shared $(LDFLAGS) -Wl,-soname,$(SONAME),-z,defs,--whole-archive "$(archive)" -Wl,--no-whole-archive -o "$(libraries)/$(SHARED)"
	ln -sf $(SHARED) "$(libraries)/$(SONAME)"
	ln -sf $(SONAME) "$(libraries)/libholdamek.so"
	sed 's|@PREFIX@|$(PREFIX)|; s|@INCLUDEDIR@|$(INCLUDEDIR)|; s|@LIBDIR@|$(LIBDIR)|; s|@VERSION@|$(VERSION)|' \
		include/holdamek.pc.in >"$(libraries)/pkgconfig/holdamek.pc"
	install -m 644 NOTICE "$(documents)"
	chmod 755 "$(libraries)/$(SHARED)"
	chmod 644 "$(libraries)/pkgconfig/holdamek.pc"

uninstall:
	rm -f "$(headers)/holdamek.h" "$(libraries)/libholdamek.a" "$(libraries)/libholdamek.so" "$(libraries)/$(SONAME)" "$(libraries)/$(SHARED)" \
		"$(libraries)/pkgconfig/holdamek.pc" "$(documents)/NOTICE"
	-rmdir "$(documents)"

.PHONY: all programs install uninstall
