# Bare `make` prints the targets that have a text behind ##. LIB names a library in another place. Other processors, the shared
# object and Python: package/cross.mk.

LIB ?= target/staticlib/libdcps_c.a
ARCH ?= x86_64
PREFIX ?= /usr/local
DESTDIR ?=
ifneq ($(LIB),target/staticlib/libdcps_c.a)
export DCPS_LIB_DIR := $(abspath $(dir $(LIB)))
endif

MAJOR := $(shell sed -n 's/^.define DCPS_VERSION_MAJOR //p' include/dcps.h)
MINOR := $(shell sed -n 's/^.define DCPS_VERSION_MINOR //p' include/dcps.h)
PATCH := $(shell sed -n 's/^.define DCPS_VERSION_PATCH //p' include/dcps.h)
VERSION := $(MAJOR).$(MINOR).$(PATCH)
NAME := dcps-$(VERSION)-$(ARCH)-linux
STAGE := target/dist/$(NAME)
FILL := sed -e 's/@VERSION@/$(VERSION)/' -e 's/@MAJOR@/$(MAJOR)/' -e 's/@MINOR@/$(MINOR)/'

.DEFAULT_GOAL := help
.PHONY: help prove lib test judge compare bench demo dist install check stage

help:
	@sed -n 's/^\([a-z-]*\):.*## /\1\t/p' $(MAKEFILE_LIST) | expand -t 20

prove: ## proves every crate, tries the must-fail edits, runs the programs (rt ci)
	.ci/proofs

lib: ## the proved static library, target/staticlib/libdcps_c.a
	package/staticlib

$(LIB):
	@echo "$(LIB) is not there: run make lib, or name it by LIB=" >&2; exit 1

# rt ci takes no links in the checkout, so that dist and install leave no stage
stage: library
	rm -rf $(STAGE)
	mkdir -p $(STAGE)/lib/pkgconfig $(STAGE)/lib/cmake/dcps $(STAGE)/include $(STAGE)/share/doc/dcps/pictures $(STAGE)/share/dcps/examples
	cp $(BUILT)/libdcps_c.a $(BUILT)/$(SHARED) $(STAGE)/lib
	ln -s $(SHARED) $(STAGE)/lib/$(SONAME)
	ln -s $(SONAME) $(STAGE)/lib/libdcps.so
	cp include/dcps.h include/dcps_inline.h $(STAGE)/include
	$(FILL) package/dcps.pc.in > $(STAGE)/lib/pkgconfig/dcps.pc
	$(FILL) package/dcps-shared.pc.in > $(STAGE)/lib/pkgconfig/dcps-shared.pc
	cp package/dcps-config.cmake $(STAGE)/lib/cmake/dcps
	$(FILL) package/dcps-config-version.cmake.in > $(STAGE)/lib/cmake/dcps/dcps-config-version.cmake
	cp NOTICE LICENSE dcps.spdx $(STAGE)/share/doc/dcps
	cp docs/pictures/instance.svg docs/pictures/writer.svg docs/pictures/record.svg $(STAGE)/share/doc/dcps/pictures
	cp examples/c/console.c examples/c/day.txt examples/c/dcps_keep.h $(STAGE)/share/dcps/examples
	cp examples/cyclonedds/feed.h examples/cyclonedds/recipes.c $(STAGE)/share/dcps/examples
	cp bindings/python/dcps.py $(STAGE)/share/dcps
	package/documents $(STAGE)

dist: stage ## the package for C, target/dist/dcps-VERSION-x86_64-linux.tar.gz
	cd $(STAGE) && find . -type f ! -name SHA256SUMS | LC_ALL=C sort | xargs sha256sum > SHA256SUMS
	tar --sort=name --mtime=@0 --mode=u+rwX,go+rX,go-w --owner=0 --group=0 --numeric-owner -C target/dist -cf - $(NAME) | gzip -9n > $(STAGE).tar.gz
	cd target/dist && sha256sum $(NAME).tar.gz > $(NAME).tar.gz.sha256
	rm -rf $(STAGE)
	@echo $(STAGE).tar.gz

install: stage ## the package's files to PREFIX (/usr/local)
	mkdir -p "$(DESTDIR)$(PREFIX)"
	cp -R $(STAGE)/lib $(STAGE)/include $(STAGE)/share "$(DESTDIR)$(PREFIX)"
	rm -rf $(STAGE)

check: $(LIB) ## the C examples, the package, the Rust crates
	examples/check
	bindings/check

test: check judge ## check, and the second reading beside the original Rust

judge: $(LIB)
	cd oracle && cargo test --offline --quiet

COMPARE := cd oracle && cargo run --release --offline --quiet -p compare --
compare: $(LIB) ## the library beside the original Rust: calls, keys, times, lookups, numbers of places
	$(COMPARE) 1 100000
	$(COMPARE) keys 1 100000
	$(COMPARE) times 1 2000000
	$(COMPARE) lookups 1 100000
	$(COMPARE) figures

bench: $(LIB) ## times the library and the original Rust on the same lists
	cd bench && cargo run --release --offline --quiet

demo: $(LIB) ## plays a day of plotters and shows which instances have no writer (demo/README.md)
	cd demo && cargo run --offline --quiet -- day.txt

include package/cross.mk
