# The library for C, on x86-64: `make` proves the crate `interface_c` and builds the archive and the shared object, `make install` puts them with
# the header below PREFIX, `make test` runs the link tests. On another processor a cross compiler links.
PREFIX ?= /usr/local
VERSION := 1
ifeq ($(origin CC),default)
CC := $(if $(filter x86_64,$(shell uname -m)),cc,x86_64-linux-gnu-gcc)
endif
LIB := $(DESTDIR)$(PREFIX)/lib

all: build/libneelukudam.so.$(VERSION)

build/libneelukudam.a: crates.txt $(shell find crates -name out -prune -o \( -name '*.rt' -o -name '*.antt' \) -print)
	cd crates/interface_c && rt lib
	@mkdir -p build
	cp crates/interface_c/out/libinterface_c.a $@

# only the five calls are seen from outside
build/libneelukudam.so.$(VERSION): build/libneelukudam.a
	printf '{ global: neelukudam_check; neelukudam_timing; neelukudam_path; neelukudam_report; neelukudam_image_from_text; local: *; };\n' >build/exports
	$(CC) -shared -o $@ -Wl,-soname,libneelukudam.so.$(VERSION) -Wl,--version-script=build/exports -Wl,-z,defs \
	    -Wl,--whole-archive build/libneelukudam.a -Wl,--no-whole-archive
	ln -sf libneelukudam.so.$(VERSION) build/libneelukudam.so

install: all
	install -d $(DESTDIR)$(PREFIX)/include $(LIB)/pkgconfig
	install -m 644 include/neelukudam.h $(DESTDIR)$(PREFIX)/include/
	install -m 644 build/libneelukudam.a $(LIB)/
	install -m 755 build/libneelukudam.so.$(VERSION) $(LIB)/
	ln -sf libneelukudam.so.$(VERSION) $(LIB)/libneelukudam.so
	printf 'prefix=%s\nName: neelukudam\nDescription: times latch circuits\nVersion: %s\nCflags: -I$${prefix}/include\nLibs: -L$${prefix}/lib -lneelukudam\n' \
	    '$(PREFIX)' '$(VERSION)' >$(LIB)/pkgconfig/neelukudam.pc

test:
	tests/link/run

clean:
	rm -rf build

.PHONY: all install test clean
