# SPDX-License-Identifier: Apache-2.0 OR BSD-3-Clause
#
# The C library. Plain `make` installs nothing: it says what there is, and what comes next.
#
#     make check-library
#     make install PREFIX=/usr DESTDIR=tree LIBDIR=lib64 DOCDIR=share/doc/name
#     make uninstall, with the same variables
#
# TARGET=aarch64-linux takes the libraries of another processor, and LIBRARIES=FOLDER those of a folder.
PREFIX = /usr/local
LIBDIR = lib
DOCDIR = share/doc/superio
TARGET = $(shell uname -m)-linux
# The folder of a static and a shared library, for TARGET. If prebuilt has none for this machine and TARGET is not
# given, it is the one in which Cargo builds them.
BUILT = bindings/c/from-source/target/release
LIBRARIES = $(if $(filter-out file,$(origin TARGET))$(wildcard prebuilt/$(TARGET)/.),prebuilt/$(TARGET),$(BUILT))
CARGO = cargo

to = $(DESTDIR)$(PREFIX)
lib = $(to)/$(LIBDIR)
licenses = $(to)/share/licenses/superio
docs = $(to)/$(DOCDIR)
# The pages and the program that the header names, the other pages of docs, and the programs to which docs/C.md links.
named = $(sort README.md $(wildcard docs/*.md) $(shell grep -ohE 'examples/[a-z/]+\.c\b' bindings/c/superio.h docs/C.md))
version = $(shell cat VERSION)
soname = libsuperio.so.$(shell sed -n 's/^.define SUPERIO_ABI //p' bindings/c/superio.h)
# From the folder of the files for pkg-config to PREFIX, so that the tree may be moved.
up = $(shell realpath --canonicalize-missing --no-symlinks --relative-to=/$(LIBDIR)/pkgconfig /)
pc = sed -e 's|@up@|$(up)|' -e 's|@version@|$(version)|'

# A recipe is one script, which ends at the first command that fails.
.ONESHELL:
.SHELLFLAGS = -ec
.PHONY: all from-source check check-library install uninstall clean installcheck installcheck-rust dist

# Refuses a folder without the libraries, before anything is written. Otherwise $1 is the static one, and $2 the shared.
define find
set -- "$(LIBRARIES)/libsuperio_c.a" "$(LIBRARIES)"/libsuperio*.so*
if [ $$# != 2 ] || [ ! -f "$$1" ] || [ ! -f "$$2" ]; then
    echo "$(LIBRARIES) does not have one static and one shared library" >&2
    echo "prebuilt has them for: $(notdir $(wildcard prebuilt/*-linux))" >&2
    echo "Build them for this machine: make LIBRARIES=$(BUILT)" >&2
    exit 1
fi
endef

all: $(if $(filter $(BUILT),$(LIBRARIES)),from-source)
	@$(find)
	echo "Built: $$1 and $$2"
	echo "Next, with the same variables: make check-library, and make install,"
	echo "which writes below $(PREFIX) if you give no PREFIX and no DESTDIR"

# Compiles the erased sources.
from-source:
	$(CARGO) build --release --offline --manifest-path bindings/c/from-source/Cargo.toml

# Tests the static library with a C compiler.
check-library:
	@$(find)
	$(MAKE) -C tests/c LIBRARY="$$(realpath --relative-to=tests/c "$$1")"
	echo "$$1: all tests passed"

install:
	$(find)
	install -d "$(lib)/pkgconfig" "$(to)/include" "$(licenses)"
	install -m 644 bindings/c/superio.h "$(to)/include"
	install -m 644 "$$1" "$(lib)/libsuperio.a"
	install -m 755 "$$2" "$(lib)/$(soname)"
	ln -sf $(soname) "$(lib)/libsuperio.so"
	$(pc) -e 's|@name@|superio|' -e 's|@flag@|-lsuperio|' bindings/c/superio.pc.in > "$(lib)/pkgconfig/superio.pc"
	$(pc) -e 's|@name@|superio-static|' -e 's|@flag@|-l:libsuperio.a|' bindings/c/superio.pc.in \
	    > "$(lib)/pkgconfig/superio-static.pc"
	chmod 644 "$(lib)/pkgconfig/superio.pc" "$(lib)/pkgconfig/superio-static.pc"
	install -m 644 LICENSE LICENSES/* "$(licenses)"
	for name in $(named); do install -D -m 644 $$name "$(docs)/$$name"; done

# Removes what install wrote, and its folders of licenses, pages and files for pkg-config if nothing else is in them.
uninstall:
	rm -f "$(to)/include/superio.h" "$(lib)/libsuperio.a" "$(lib)/$(soname)" "$(lib)/libsuperio.so" \
	    "$(lib)/pkgconfig/superio.pc" "$(lib)/pkgconfig/superio-static.pc"
	for name in $(notdir $(wildcard LICENSE LICENSES/*)); do rm -f "$(licenses)/$$name"; done
	for name in $(named); do rm -f "$(docs)/$$name"; done
	for folder in "$(licenses)" "$(to)/share/licenses" "$(lib)/pkgconfig" "$(docs)/docs" "$(docs)/examples/c" \
	    "$(docs)/examples" "$(docs)" "$$(dirname "$(docs)")"; do
	    [ ! -d "$$folder" ] || rmdir --ignore-fail-on-non-empty "$$folder"
	done

# Tests all of the repository. OPTIONS are those of tools/check, such as "--without kit,node".
check:
	tools/check $(OPTIONS)

# Removes what all and check-library write.
clean:
	rm -rf bindings/c/from-source/target bindings/c/from-source/Cargo.lock
	cd out 2> /dev/null && rm -f $(notdir $(basename $(wildcard tests/c/*.c examples/c/*.c))) || true

# Tests that a machine, with either library that pkg-config finds, prints what it should.
installcheck:
	@place=$$(mktemp -d)
	trap 'rm -rf "$$place"' EXIT
	for package in superio superio-static; do
	    $(CC) -pthread examples/c/machine.c $$(pkg-config --cflags --libs $$package) -o "$$place/machine"
	    echo hello | "$$place/machine" > "$$place/printed"
	    cmp "$$place/printed" examples/c/expected
	done

# Tests that a program which depends on vm-superio 0.8 takes an installed crate by one line.
CRATE = /usr/share/superio/vm-superio
installcheck-rust:
	@place=$$(mktemp -d)
	trap 'rm -rf "$$place"' EXIT
	cd "$$place"
	mkdir src registry
	echo 'fn main() { println!("{:?}", vm_superio::Rtc::new().state()); }' > src/main.rs
	cat > Cargo.toml <<- END
		[package]
		name = "smoke"
		version = "0.1.0"
		[dependencies]
		vm-superio = "0.8"
		[patch.crates-io]
		vm-superio = { path = "$(CRATE)" }
	END
	cargo run --quiet --offline --config 'source.crates-io.replace-with = "none"' \
	    --config 'source.none.directory = "registry"' > printed
	echo 'RtcState { lr: 0, offset: 0, mr: 0, imsc: 0, ris: 0 }' | cmp - printed

# Makes a release of the commit HEAD, from what git has, in the folder DIST: docs/RELEASE.md says what it has. The same
# commit and the same versions of the tools give the same bytes, in any folder, at any time, for any user.
DIST = dist
PYTHON = python3
crates = superio-$(version)-rust
targets = $(notdir $(wildcard prebuilt/*-linux))
dist:
	@if [ -e "$(DIST)" ]; then echo "$(DIST) is there already"; exit 1; fi
	if [ "$$(git status --porcelain)" ]; then echo "the checkout is not clean"; git status --porcelain; exit 1; fi
	if [ ! "$$(git tag --points-at HEAD --list 'v$(version)')" ]; then echo "HEAD has no tag v$(version)"; exit 1; fi
	if ! grep -qxE '## $(version) - [0-9]{4}-[0-9]{2}-[0-9]{2}' CHANGELOG.md; then
	    echo "CHANGELOG.md has no date for $(version)"
	    exit 1
	fi
	umask 022
	export SOURCE_DATE_EPOCH=$$(git log -1 --format=%ct)
	place=$$(mktemp -d) out="$$place/release" tree="$$place/fimolavand-$(version)"
	trap 'rm -rf "$$place"' EXIT
	mkdir "$$out" "$$place/$(crates)"
	pack() {
	    tar --create --sort=name --format=ustar --owner=root:0 --group=root:0 --mtime=@$$SOURCE_DATE_EPOCH \
	        --directory="$$place" --file="$$out/$$1.tar" "$$1"
	    gzip -9n "$$out/$$1.tar"
	}
	git -c tar.umask=0022 archive --prefix=fimolavand-$(version)/ HEAD | tar --extract --directory="$$place"
	pack fimolavand-$(version)
	for target in $(targets); do
	    $(MAKE) -s -C "$$tree" install DESTDIR="$$place" PREFIX=/superio-$(version)-$$target TARGET=$$target
	    pack superio-$(version)-$$target
	done
	cd "$$tree/bindings/python"
	unset PYTHONDONTWRITEBYTECODE # setuptools warns of it
	# One Python builds all, because its start takes longer than a wheel does. Make leaves no line of it indented.
	$(PYTHON) - "$$out" $(targets:-linux=) > /dev/null <<- END
		import os, sys
		from setuptools import build_meta
		_, out, *machines = sys.argv
		build_meta.build_sdist(out)
		for machine in machines: os.environ["_PYTHON_HOST_PLATFORM"] = f"linux-{machine}"; build_meta.build_wheel(out)
	END
	cp -rL ../../rust/vm-superio ../../rust/superio "$$place/$(crates)"
	pack $(crates)
	cd ../js
	cp -r ../../LICENSE ../../LICENSES .
	npm pack --offline --ignore-scripts --silent --cache "$$place/npm" --pack-destination "$$out" > /dev/null
	cd "$$out"
	cp "$$tree/docs/try.html" superio-$(version).html
	sha256sum *.* > SHA256SUMS
	cp -r "$$out" "$(abspath $(DIST))"
