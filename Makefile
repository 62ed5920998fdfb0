# make                  the archive, the shared object and the Fortran module, in target/kalinosz
# make install          .. header, module, archive, shared object and pkg-config file under PREFIX (/usr/local; DESTDIR is put before it)
# make example          runs the worked example of docs/EXAMPLE.md through the program `survey`
# make languages        runs the example of each language
# make clean            takes away what the above made
# The proved part is the archive of the crate `hosts`; only the reading of Fortran descriptors (fortran/) is added to it.
PREFIX ?= /usr/local
VERSION := 1.0
CC := gcc
FC := gfortran
CFLAGS ?= -O2 -Wall -Wextra
FFLAGS ?= -O2 -Wall -Wextra

# The archive of `hosts`, as `rt lib` writes it; proved again where a source is younger.
PROVED ?= target/staticlib/libhosts.a
OUT := target/kalinosz
MADE := $(OUT)/libkalinosz.a $(OUT)/libkalinosz.so $(OUT)/kalinosz.mod

all: $(MADE)

target/staticlib/libhosts.a: crates.txt $(shell find crates -name out -prune -o -name '*.rt' -print -o -name '*.antt' -print)
	cd crates/hosts && rt lib
	@mkdir -p $(@D)
	cp crates/hosts/out/libhosts.a $@

$(OUT)/descriptor.o: fortran/descriptor.c include/kalinosz.h
	@mkdir -p $(OUT)
	$(CC) -std=c11 $(CFLAGS) -fPIC -Iinclude -c $< -o $@

$(OUT)/kalinosz.o $(OUT)/kalinosz.mod &: fortran/kalinosz.f90
	@mkdir -p $(OUT)
	$(FC) -std=f2018 $(FFLAGS) -fPIC -J$(OUT) -c $< -o $(OUT)/kalinosz.o

$(OUT)/libkalinosz.a: $(PROVED) $(OUT)/descriptor.o $(OUT)/kalinosz.o
	cp $(PROVED) $@
	chmod u+w $@
	$(AR) rs $@ $(OUT)/descriptor.o $(OUT)/kalinosz.o

$(OUT)/libkalinosz.so: $(OUT)/libkalinosz.a
	$(CC) -shared -o $@ -Wl,-soname,libkalinosz.so -Wl,--whole-archive $< -Wl,--no-whole-archive

install: all
	mkdir -p $(DESTDIR)$(PREFIX)/include $(DESTDIR)$(PREFIX)/lib/pkgconfig
	cp include/kalinosz.h fortran/kalinosz.f90 $(OUT)/kalinosz.mod $(DESTDIR)$(PREFIX)/include
	cp $(OUT)/libkalinosz.a $(OUT)/libkalinosz.so $(DESTDIR)$(PREFIX)/lib
	sed -e 's|@PREFIX@|$(PREFIX)|' -e 's|@VERSION@|$(VERSION)|' include/kalinosz.pc.in >$(DESTDIR)$(PREFIX)/lib/pkgconfig/kalinosz.pc

example:
	cd crates/survey && rt run <stdin

languages:
	languages/run

clean:
	rm -rf $(OUT) target/languages target/bench

.PHONY: all install example languages clean
