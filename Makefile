# What can be made here. Each target is a command of `rt` or a script of tools/.
#
#     make check      the versions, the page, the gate (an hour or two where nothing is kept), and the tests of the bindings
#     make dist       the archive, the Debian packages, the wheel and the crate, in dist/
#     make install    what the archive holds, under PREFIX=/usr/local, with DESTDIR= before it
#     make edits      the wrong bodies of each crate that changed since they were tried
#     make clean      away with dist/ and what the bindings built; what is proved is kept
PREFIX ?= /usr/local
DESTDIR ?=

dist:
	tools/dist/all.sh

check:
	tools/gate/version.sh
	tools/gate/page.py --check
	rt ci
	tools/bindings/bindings.sh

edits:
	tools/gate/edits.py

install:
	tools/dist/install.sh '$(DESTDIR)$(PREFIX)'

clean:
	rm -rf dist
	$(MAKE) --no-print-directory -C bindings/c clean
	rm -rf bindings/rust/target

.PHONY: dist check edits install clean
