.PHONY: help test check lib shared install demo soak fuzz bench fmt survey

N ?= 1000000
SECONDS ?= 60
PREFIX ?= /usr/local
DESTDIR ?=
INSTALL ?= install

# The static library is what rt proves and compiles (packaging/build); the shared one is made from it and has nothing more.
static_library = target/staticlib/libnostwier.a
shared_library = target/lib/libnostwier.so.1
headers = include/nostwier.h include/nostwier_refusals.h
program = target/bin/nostwier_cli
manuals = packaging/nostwier.1 packaging/nostwier_cli.1
module = $(wildcard python/nostwier/*.py python/nostwier/py.typed)
version = $(shell sed -n 's/^.define NOSTWIER_VERSION "\(.*\)"$$/\1/p' include/nostwier.h)

help:
	@echo 'make demo    prove and build the program, run it on the shipped example and explain what it prints (log: target/demo.log)'
	@echo 'make test    run every test: the proofs of all crates, then tests/*/run'
	@echo 'make check   prove the crates that have changed, and run the program'
	@echo 'make lib     prove the library and write target/staticlib/libnostwier.a and target/lib/libnostwier.so'
	@echo 'make install put both programs, headers, libraries, nostwier.pc and manual pages below DESTDIR and PREFIX=/usr/local'
	@echo 'make soak    a C host against the reference on N=1000000 calls of each operation, from a seed that it prints'
	@echo 'make fuzz    mutated inputs against the reference for SECONDS=60, from a seed that it prints; what differs is shrunk'
	@echo 'make bench   times of the library beside a baseline in C, the same ideas in C, the reference and solvers (docs/BENCHMARKS.md)'
	@echo 'make survey  try plausible wrong definitions, which the theorems must refuse (15 minutes on two cores)'
	@echo 'make fmt     lay out the .rt and .antt files under crates/'

test:
	bash .ci/run

check:
	rt all check
	packaging/build program

fmt:
	for crate in crates/*/; do (cd "$$crate" && rt fmt) || exit 1; done

lib:
	packaging/build library
	@$(MAKE) -s shared

# Both libraries, from what is proved already if it is there.
shared: $(shared_library)

$(static_library):
	packaging/build library

# The library's second name is a copy, and no link, which rt ci would refuse.
$(shared_library): $(static_library) packaging/nostwier.map
	mkdir -p target/lib
	$(CC) -shared -nostartfiles -o $@ -Wl,-soname,libnostwier.so.1 -Wl,--version-script=packaging/nostwier.map \
	    -Wl,--whole-archive $(static_library) -Wl,--no-whole-archive \
	    -Wl,--as-needed -Wl,-z,defs -Wl,-z,relro -Wl,-z,now -Wl,-z,noexecstack
	cp $@ target/lib/libnostwier.so

$(program):
	packaging/build program

install: shared $(program)
	$(INSTALL) -d '$(DESTDIR)$(PREFIX)/bin' '$(DESTDIR)$(PREFIX)/include' '$(DESTDIR)$(PREFIX)/lib/pkgconfig' \
	    '$(DESTDIR)$(PREFIX)/share/man/man1' '$(DESTDIR)$(PREFIX)/share/nostwier/nostwier'
	$(INSTALL) -m 755 $(program) packaging/nostwier '$(DESTDIR)$(PREFIX)/bin'
	$(INSTALL) -m 644 $(module) '$(DESTDIR)$(PREFIX)/share/nostwier/nostwier'
	$(INSTALL) -m 644 $(manuals) '$(DESTDIR)$(PREFIX)/share/man/man1'
	$(INSTALL) -m 644 $(headers) '$(DESTDIR)$(PREFIX)/include'
	$(INSTALL) -m 644 $(static_library) '$(DESTDIR)$(PREFIX)/lib'
	$(INSTALL) -m 755 $(shared_library) '$(DESTDIR)$(PREFIX)/lib'
	ln -sf libnostwier.so.1 '$(DESTDIR)$(PREFIX)/lib/libnostwier.so'
	sed -e 's|@PREFIX@|$(PREFIX)|' -e 's|@VERSION@|$(version)|' packaging/nostwier.pc.in \
	    >'$(DESTDIR)$(PREFIX)/lib/pkgconfig/nostwier.pc'
	@echo 'Installed. Run ldconfig where the system keeps a list of libraries. The command nostwier has the Python module with it;'
	@echo "for 'import nostwier' in programs of your own: pip install ./python, or put $(PREFIX)/share/nostwier on PYTHONPATH."

demo:
	@packaging/progress target/demo.log 'rt all check' 'packaging/build program' 'make -s lib'
	@echo
	@examples/demo

soak: lib
	tests/host/run "$$(date +%s)" $(N)

fuzz: lib
	tests/fuzz/run $(SECONDS) "$$(date +%s)"

bench: lib
	bench/run

survey:
	cd tests/survey && python3 survey.py
