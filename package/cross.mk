# The library for a processor, and what is tried of it.
#
#   make dist ARCH=aarch64    the package for aarch64; riscv64 too, x86_64 is the default. Each is compiled from the LLVM module of
#                             the proved library (package/staticlib, package/compile), so `rt` has to be there
#   make check-shared         the shared object has the functions of the header and no other, unwind tables lead out of a call,
#                             and the header refuses a 32-bit or big-endian machine
#   make check-cross          the packages for aarch64 and riscv64, run by qemu-user beside x86-64's
#   make check-python         the Python module over the shared object
#   make check-reproducible   a second clone compiles the library again: the same archives and packages, byte for byte

BUILT := target/library/$(ARCH)
SONAME := libdcps.so.$(MAJOR).$(MINOR)
SHARED := libdcps.so.$(VERSION)

.PHONY: library check-shared check-cross check-python check-reproducible

# the module is kept beside the sum of its library, so that one copied or made again elsewhere is known by its content
library: $(LIB)
	@test "$$(sha256sum < $(LIB) | cut -d' ' -f1)" = "$$(cat target/module/of 2> /dev/null)" || package/staticlib >&2
	@LIB=$(LIB) package/compile $(ARCH) $(VERSION) $(BUILT) >&2

check-shared: ## the shared object, its symbols, unwind tables, and machines that the header refuses
	package/check-shared

check-cross: ## the packages for aarch64 and riscv64, run by qemu beside x86-64's
	package/check-cross

check-python: ## the Python module over the shared object
	bindings/python/check

check-reproducible: ## a second clone compiles the library again: the same archives and packages
	package/check-reproducible
