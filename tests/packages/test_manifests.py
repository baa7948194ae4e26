# SPDX-License-Identifier: Apache-2.0 OR BSD-3-Clause
"""The manifests by which others' tools take a package, each field of them: those of Cargo, of npm, of Python and of
Debian.

One table has what each field is. Versions, licenses and the oldest Rust stand once, above it.
"""
import configparser
import json
import os
import re
import tomllib

import pytest
from documents import BUILT, Document
from generators.interface import ABI, VERSION
from harness import ROOT, at_least, run
from test_files import LICENSE

LICENSES = LICENSE.partition(": ")[2]
AUTHORS = "the Fimolavand authors"
RUST = "1.63"       # the oldest, which Debian 12 has
REPLACED = "0.8.2"  # the version of vm-superio in whose place the crate of that name is
# Where users read which Rust they need.
PAGES = ["README.md", "docs/C.md", "docs/RUST.md",
         *(f"{crate}/README.md" for crate in ("rust/superio", "rust/vm-superio", "bindings/c/from-source"))]

OF_ALL = {"edition": "2021", "rust-version": RUST}
PUBLISHED = {**OF_ALL, "license": LICENSES, "readme": "README.md"}
DEVICES = {"version": VERSION}
ABORTS = {"panic": "abort"}
CRATES = {
    "rust/superio": {
        "package": {
            **PUBLISHED, "name": "superio", "version": VERSION,
            "description": "Proved devices without I/O for virtual machine monitors, such as a 16550 serial port",
            "keywords": ["16550", "pl031", "serial", "emulation", "vmm"], "categories": ["emulators", "no-std"],
            "include": ["/src", "/tests", "/examples", "/README.md", "/LICENSE-*"]},
        "features": {"std": []}},
    "rust/vm-superio": {
        "package": {
            **PUBLISHED, "name": "vm-superio", "version": REPLACED, "publish": False,
            "description": f"Proved devices with the interface of vm-superio {REPLACED}, such as a 16550 serial port",
            "keywords": ["virtualization", "vmm", "serial", "16550", "emulation"],
            "categories": ["emulators", "virtualization"], "include": ["/src", "/tests", "/README.md", "/LICENSE-*"]},
        "lib": {"name": "vm_superio"},
        "features": {"serde": ["dep:serde"]},
        "dependencies": {"serde": {"version": "1", "features": ["derive"], "optional": True},
                         "superio": {**DEVICES, "path": "../superio", "features": ["std"]}}},
    "bindings/c/from-source": {
        "package": {
            **PUBLISHED, "name": "superio-c", "version": VERSION,
            "description": "The C library of the proved devices: the functions of superio.h, over the crate superio",
            "keywords": ["16550", "pl031", "serial", "emulation", "vmm"], "categories": ["emulators", "no-std"],
            "include": ["/src", "/build.rs", "/superio.h", "/README.md", "/LICENSE-*"]},
        "lib": {"name": "superio_c", "crate-type": ["staticlib", "cdylib"], "test": False},
        "dependencies": {"superio": {**DEVICES, "path": "../../../rust/superio"}},
        "profile": {"dev": ABORTS, "release": {**ABORTS, "lto": True, "codegen-units": 1, "opt-level": 2}},
        "workspace": {}},
    "examples/rust": {
        "package": {**OF_ALL, "name": "echo", "version": "0.1.0", "publish": False},
        "bin": [{"name": "echo", "path": "../../rust/superio/examples/echo.rs"}],
        "dependencies": {"superio": {"path": "../../rust/superio"}},
        "workspace": {}},
    "tests/kvm/serial": {
        "package": {**OF_ALL, "name": "kvm-serial", "version": "0.1.0", "publish": False},
        "lib": {"name": "kvm_serial", "crate-type": ["staticlib"]},
        "dependencies": {"vm-superio": {"path": "../../../rust/vm-superio"}},
        "profile": {"release": ABORTS},
        "workspace": {}},
}

# Of npm. tests/js compares its lists of files with what is there, and takes the package by each of its names.
NPM = {
    "name": "superio", "version": VERSION,
    "description": "Proved legacy devices for virtual machine monitors, such as a 16550 serial port and a PL031 clock",
    "keywords": ["16550", "uart", "pl031", "rtc", "i8042", "emulator", "vmm", "webassembly"],
    "author": AUTHORS, "license": f"({LICENSES})", "engines": {"node": ">=18"},
    "main": "./superio.cjs", "types": "./superio.d.ts",
    "exports": {".": {"require": {"types": "./superio.d.ts", "default": "./superio.cjs"},
                      "default": {"types": "./superio.d.mts", "default": "./superio.mjs"}},
                "./package.json": "./package.json"},
    "files": ["superio.mjs", "superio.d.mts", "superio.cjs", "superio.d.ts", "module.mjs", "registers.mjs", "README.md",
              "LICENSE", "LICENSES"],
    "scripts": {"prepack": "cp -R ../../LICENSE ../../LICENSES .", "postpack": "rm -R LICENSE LICENSES"}}
# Of Python: the sections of setup.cfg, what builds a package, and the tests that its sources have.
SETUP = {
    "metadata": {
        "name": "superio", "version": "attr: superio.__version__",
        "description": "Legacy devices for virtual machine monitors, such as a 16550 serial port and a PL031 clock",
        "long_description": "file: README.md", "long_description_content_type": "text/markdown",
        "author": AUTHORS, "license": LICENSES, "license_files": "LICENSE-*",
        "keywords": "16550, UART, PL031, RTC, i8042, emulator, VMM",
        "classifiers": "\n".join([
            "", "Development Status :: 4 - Beta", "Intended Audience :: Developers",
            "Operating System :: POSIX :: Linux",
            "Programming Language :: Python :: 3", "Programming Language :: Python :: 3 :: Only",
            "Topic :: System :: Emulators", "Topic :: System :: Hardware", "Typing :: Typed"])},
    "options": {"packages": "superio", "python_requires": ">=3.8"},
    "options.package_data": {"superio": "py.typed, superio.abi"}}
BUILD = {"build-system": {"requires": ["setuptools>=64"], "build-backend": "setuptools.build_meta"}}
INCLUDED = "include tests/support.py tests/test_commandline.py tests/test_devices.py tests/test_words.py"

# Of Debian: of a description the first line, which lists of packages show.
EMULATED = "emulated legacy devices for a virtual machine monitor"
SOURCE = {
    "Source": "superio", "Section": "libs", "Priority": "optional",
    "Maintainer": "Fimolavand authors <authors@fimolavand.invalid>",
    "Build-Depends": f"debhelper-compat (= 13), cargo, rustc (>= {RUST})", "Standards-Version": "4.6.2",
    "Rules-Requires-Root": "no"}
PACKAGES = [
    {"Package": f"libsuperio{ABI}", "Architecture": "linux-any", "Multi-Arch": "same",
     "Depends": "${misc:Depends}, ${shlibs:Depends}", "Description": EMULATED},
    {"Package": "libsuperio-dev", "Section": "libdevel", "Architecture": "linux-any", "Multi-Arch": "same",
     "Depends": f"libsuperio{ABI} (= ${{binary:Version}}), ${{misc:Depends}}", "Suggests": "pkgconf | pkg-config",
     "Description": f"{EMULATED} - headers"},
    {"Package": "libsuperio-rust-dev", "Section": "libdevel", "Architecture": "all", "Multi-Arch": "foreign",
     "Depends": "${misc:Depends}", "Suggests": "cargo", "Description": f"{EMULATED} - Rust"}]
TESTS = [
    {"Test-Command": "make -s installcheck", "Depends": "gcc, libc6-dev, libsuperio-dev, make, pkg-config",
     "Restrictions": "allow-stderr"},
    {"Test-Command": "make -s installcheck-rust", "Depends": "cargo, libsuperio-rust-dev, make, rustc",
     "Restrictions": "allow-stderr"}]
COPYRIGHT = [
    {"Format": "https://www.debian.org/doc/packaging-manuals/copyright-format/1.0/", "Upstream-Name": "superio",
     "Files-Excluded": "prebuilt"},
    {"Files": "*", "Copyright": "2026 the Fimolavand authors", "License": LICENSES.replace("OR", "or")},
    *({"License": name} for name in LICENSES.split(" OR "))]
CHANGE = f"superio ({VERSION}+ds-1) unstable; urgency=medium"


def contents(name):
    return (ROOT / name).read_text(encoding="utf-8")


def paragraphs(name):
    """The paragraphs of a file of Debian's, each with the first line of its fields."""
    return [dict(re.findall(r"^([\w-]+): *(.*)$", text, re.M)) for text in contents(name).strip().split("\n\n")]


def test_each_crate_is_listed():
    paths = (path.parent.relative_to(ROOT) for path in ROOT.rglob("Cargo.toml"))
    assert sorted(CRATES) == sorted(path.as_posix() for path in paths if not BUILT & {*path.parts})


@pytest.mark.parametrize("crate", at_least(5, CRATES))
def test_cargo(crate):
    assert tomllib.loads(contents(f"{crate}/Cargo.toml")) == CRATES[crate]


def test_npm():
    """Of the conditions of an export, tools take the first that matches, so their order counts too."""
    found = json.loads(contents("bindings/js/package.json"))
    assert found == NPM
    assert json.dumps(found["exports"]) == json.dumps(NPM["exports"])


def test_python():
    setup = configparser.ConfigParser(interpolation=None)
    setup.read_string(contents("bindings/python/setup.cfg"))
    assert {name: dict(setup[name]) for name in setup.sections()} == SETUP
    assert tomllib.loads(contents("bindings/python/pyproject.toml")) == BUILD
    assert re.findall(r"^[^#\n].*", contents("bindings/python/MANIFEST.in"), re.M) == [INCLUDED]


@pytest.mark.parametrize("page", PAGES)
def test_oldest_rust(page):
    assert {*re.findall(r"Rust (1\.\d+)\b", contents(page))} == {RUST}


def test_control():
    source, *packages = paragraphs("debian/control")
    assert source == SOURCE and packages == PACKAGES


@pytest.mark.parametrize("name", ["debian/control", "debian/copyright", "LICENSE", "rust/vm-superio/README.md"])
def test_replaced_version(name):
    """A text that names a version of vm-superio means the one in whose place our crate is."""
    found = re.findall(r"\bvm-superio`?,?\s+(?:version\s+)?(\d+\.\d+\.\d+)", contents(name))
    assert found and {*found} == {REPLACED}


def test_tests():
    assert paragraphs("debian/tests/control") == TESTS


def test_copyright():
    shown = [{key: value for key, value in paragraph.items() if key != "Comment"}
             for paragraph in paragraphs("debian/copyright")]
    assert shown == COPYRIGHT


def test_license_of_debian():
    """Its words are those of LICENSES, below the line of its authors. That of Apache is in each Debian."""
    texts = dict(re.findall(r"^License: (\S+)\n((?: .*\n)+)", contents("debian/copyright"), re.M))
    bsd, apache = LICENSES.split(" OR ")[1], LICENSES.split(" OR ")[0]
    words = [word for word in texts[bsd].split() if word != "."]
    assert words == contents(f"LICENSES/{bsd}.txt").partition("\n")[2].split()
    assert texts[apache].split()[-1] == f"/usr/share/common-licenses/{apache}."


def test_changelog():
    first, *_, last = contents("debian/changelog").rstrip("\n").splitlines()
    assert first == CHANGE and last.startswith(f" -- {SOURCE['Maintainer']}  ")
    assert (contents("debian/source/format"), contents("debian/watch")[:10]) == ("3.0 (quilt)\n", "version=4\n")


def test_line_for_the_installed_crate():
    """Of docs/RELEASE.md. Debian's test of the package tries the same."""
    [block] = [found.lines for found in Document("docs/RELEASE.md").blocks if found.language == "toml"]
    makefile = contents("Makefile")
    [crate] = re.findall(r"^CRATE = (.*)$", makefile, re.M)
    tried = [line.strip().replace("$(CRATE)", crate) for line in makefile.splitlines()]
    assert block == tried[(start := tried.index(block[0])):start + len(block)]


def assigned(name, text):
    """The value that a makefile, or a command in it, gives a variable."""
    [value] = re.findall(rf"^\s*{name} ?= ?(\S+)$", text, re.M)
    return value


# Where the packages' files are, as makefiles say it, and the texts in which users read where they are.
SHARE = re.findall(r"^\tmkdir -p debian/tmp(/usr/share/\S+)$", contents("debian/rules"), re.M)[0]
INSTALLED = {f"{SHARE}/{crate}" for crate in re.search(r"^CRATES = (.*)$", contents("debian/rules"), re.M)[1].split()}
DOCUMENTS = [assigned("DOCDIR", contents(name)) for name in ("Makefile", "debian/rules")]


@pytest.mark.parametrize("name", ["debian/control", "docs/RELEASE.md", "Makefile"])
def test_installed_crates(name):
    """A text names no other folders of the crates."""
    found = {path for path in re.findall(r"/usr/share/[\w/-]+", contents(name))}
    assert found and found <= INSTALLED


def test_installed_pages():
    """The header says where `make install` and Debian's package put the pages that it names."""
    assert re.findall(r"\bshare/doc/[\w/-]+", contents("bindings/c/superio.h")) == DOCUMENTS


def test_variables():
    """docs/RELEASE.md names the variables that the Makefile has, and the folders that it has if no other are given."""
    page, makefile = Document("docs/RELEASE.md").text, contents("Makefile")
    [said] = re.findall(r"^- (.*) are the folders below `PREFIX`\.$", page, re.M)
    for name, folder in at_least(2, re.findall(r"`(\w+)=([^`]+)`", said)):
        assert assigned(name, makefile) == folder
    known = {*re.findall(r"^([A-Z]+) = ", makefile, re.M), "DESTDIR"}
    given = re.findall(r"\bmake\b((?: [a-z-]+| [A-Z]+=\S+)+)", page)
    assert {name for words in at_least(5, given) for name in re.findall(r" ([A-Z]+)=", words)} <= known


@pytest.mark.needs("debian")
@pytest.mark.parametrize("options, tests", [("", True), ("parallel=2", True), ("nocheck", False),
                                            ("parallel=2 nocheck noopt", False)])
def test_rules_test_unless_told_not_to(options, tests):
    """The build of the packages tests the library."""
    ran = run(["make", "-n", "-f", "debian/rules", "override_dh_auto_test", f"DEB_BUILD_OPTIONS={options}"], cwd=ROOT)
    assert ran.returncode == 0 and ("debian/build/calls\n" in ran.stdout) == tests, ran.stdout


@pytest.mark.needs("debian")
def test_rules_install_for_the_host():
    """Libraries go where the processor for which they are built looks for them, which may be another than builds."""
    processors = ["DEB_BUILD_MULTIARCH=of-the-build", "DEB_HOST_MULTIARCH=of-the-host"]
    said = run(["make", "-n", "-f", "debian/rules", "override_dh_auto_install", *processors], cwd=ROOT).stdout
    assert "LIBDIR=lib/of-the-host " in said and "of-the-build" not in said


@pytest.mark.needs("debian")
def test_rules_refuse_other_functions():
    """A build fails if the library shows a function that debian/libsuperio*.symbols lacks, or lacks one that is there."""
    assert run(["make", "-n", "-f", "debian/rules", "override_dh_makeshlibs"], cwd=ROOT).stdout.splitlines()[-1] \
        == "dh_makeshlibs -- -c4"


# In place of a compiler: it makes a program that keeps the calls which it reads, and ends so.
COMPILER = """#!/bin/sh -e
while [ "$1" != -o ]; do shift; done
printf '#!/bin/sh\\ncat > read\\nexit %s\\n' "$STATUS" > "$2"
chmod +x "$2"
"""


@pytest.mark.needs("debian")
@pytest.mark.parametrize("status", [0, 1, 3])
def test_a_build_makes_each_call(status, tmp_path):
    """Of each file whose calls tests/c/Makefile makes too, and it fails if one does something else."""
    (tmp_path / "debian/build").mkdir(parents=True)
    (tmp_path / "tests").symlink_to(ROOT / "tests")
    (tmp_path / "cc").write_text(COMPILER, encoding="ascii")
    (tmp_path / "cc").chmod(0o755)
    ran = run(["make", "-C", tmp_path, "-f", ROOT / "debian/rules", "override_dh_auto_test", f"CC={tmp_path / 'cc'}"],
              env={**{name: value for name, value in os.environ.items() if name != "DEB_BUILD_OPTIONS"},
                   "STATUS": str(status)})
    assert (ran.returncode == 0) == (status == 0), ran.stdout
    [named] = re.findall(r"^CALLS = (.*?) \$", contents("tests/c/Makefile"), re.M)
    texts = [contents(f"tests/c/{name}") for name in at_least(3, named.split())]
    texts += [path.read_text("utf-8") for path in at_least(2, sorted((ROOT / "tests/data/calls").glob("*.txt")))]
    read = (tmp_path / "read").read_text("utf-8")
    assert not [text[:80] for text in texts if text not in read]
