# Thin over the scripts: what each does stands there. `make` prints this list.
PREFIX ?= /usr/local
DESTDIR ?=

.PHONY: help lib tool test install uninstall package clean

help:
	@echo 'make lib        libvb in target/vb: vb.h, libvb.a, libvb.so, vb.pc (guard/build)'
	@echo 'make tool       the tool vbmodel (./vbmodel)'
	@echo 'make test       the gate: proofs, wrong programs, tests (.ci/run)'
	@echo 'make install    both under DESTDIR and PREFIX, by default /usr/local (packaging/install)'
	@echo 'make uninstall  removes what make install put there'
	@echo 'make package    a .deb and a .tar.gz in target/package (packaging/package)'
	@echo 'make clean      removes everything that was built'

lib:
	guard/build

tool:
	./vbmodel --version

test:
	.ci/run

install: lib tool
	packaging/install '$(PREFIX)' '$(DESTDIR)'

uninstall:
	packaging/install --remove '$(PREFIX)' '$(DESTDIR)'

package:
	packaging/package

clean:
	rm -rf target rust/target tool/target crates/*/out
