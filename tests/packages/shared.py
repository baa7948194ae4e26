# SPDX-License-Identifier: Apache-2.0 OR BSD-3-Clause
"""What tests of packages share: the properties of a shared library, what an installation has, and where programs find
it."""
import os
import re

from generators.header import read_header
from generators.interface import VERSION
from generators.libraries import HEADER, PREBUILT, SHARED, STATIC
from harness import ROOT, at_least, check

# What readelf says of a shared library. Only one from source has unwind tables, and the name of its C library. None has
# a stack that can be run, or marks that it may not carry unless each of its jumps leads to a place that is marked too.
HAS = ["NT_GNU_BUILD_ID", "GNU_RELRO", "BIND_NOW", rf"soname: \[{re.escape(SHARED)}\]", "GNU_STACK.* RW "]
HAS_FROM_SOURCE = ["GNU_EH_FRAME", r"\(NEEDED\).*\[libc\.so\.6\]"]
LACKS = ["GNU_STACK.*RWE", "feature:.*(?:IBT|SHSTK|BTI|PAC)", r"\(NEEDED\).*\[(?!libc\.so\.6)"]


# What the header names of the repository, for its reader, the pages to which those that it names link, and the programs
# in C to which these pages link.
PAGES = [f"docs/{path.name}" for path in (ROOT / "docs").glob("*.md")]
PROGRAMS = at_least(3, {name for page in PAGES for name in re.findall(
    r"\]\(\.\./(examples/[\w/.-]+\.c)\)", (ROOT / page).read_text(encoding="utf-8"))})
NAMED = at_least(20, sorted({*re.findall(r"[\w/.-]+\.(?:md|c)\b", HEADER.read_text(encoding="ascii")), *PAGES, *PROGRAMS}))
# The fields of a file for pkg-config, by the folder of libraries below the prefix.
DESCRIPTION = "Emulated legacy devices with proofs, such as a 16550 serial port and a PL031 clock"
FLAGS = {"superio": "-lsuperio", "superio-static": "-l:libsuperio.a"}


def symbols(library, *options):
    """The symbols that a library shows, or takes from elsewhere, without the version of the C library."""
    return set(re.findall(r" [A-Z] ([^\s@]+)", check(["nm", *options, library])))


def properties_of(library, patterns):
    """Those of some patterns that readelf's words about a shared library have."""
    said = check(["readelf", "--wide", "--notes", "--segments", "--dynamic", "--sections", library])
    return {pattern for pattern in patterns if re.search(pattern, said)}


def assert_properties(library, calls, more=(), less=()):
    """A shared library has what docs/RELEASE.md says, and no more. It shows the functions of the header, and takes only
    these calls from elsewhere: no stack protector, and no checked call of the C library."""
    assert properties_of(library, [*HAS, *more, *LACKS, *less]) == {*HAS, *more}
    assert symbols(library, "--dynamic", "--defined-only") == read_header().functions.keys()
    assert symbols(library, "--dynamic", "--undefined-only") == set(calls)


def finding(libdir, environment=os.environ):
    """An environment in which pkg-config finds the library of a folder, and programs do."""
    return {**environment, "PKG_CONFIG_PATH": f"{libdir / 'pkgconfig'}", "LD_LIBRARY_PATH": f"{libdir}"}


def of_pkg_config(name, libdir):
    """The lines of a file for pkg-config."""
    up = "/".join([".."] * len(f"{libdir}/pkgconfig".split("/")))
    return [f"prefix=${{pcfiledir}}/{up}", "libdir=${pcfiledir}/..", "includedir=${prefix}/include", "",
            f"Name: {name}", f"Description: {DESCRIPTION}", f"Version: {VERSION}", "Cflags: -I${includedir}",
            f"Libs: -L${{libdir}} {FLAGS[name]}"]


def installation(libraries, libdir="lib", docdir="share/doc/superio"):
    """What an installation of the libraries of a folder has below its prefix: the mode of each file and its bytes, or
    where it leads."""
    files = {"include/superio.h": HEADER, f"{libdir}/libsuperio.a": libraries / STATIC,
             f"{libdir}/{SHARED}": libraries / SHARED, **{f"{docdir}/{name}": ROOT / name for name in NAMED},
             **{f"share/licenses/superio/{path.name}": path for path in [ROOT / "LICENSE", *ROOT.glob("LICENSES/*")]}}
    made = {name: (0o755 if SHARED in name else 0o644, path.read_bytes()) for name, path in files.items()}
    for name in FLAGS:
        lines = of_pkg_config(name, libdir)
        made[f"{libdir}/pkgconfig/{name}.pc"] = 0o644, "".join(f"{line}\n" for line in lines).encode()
    return {**made, f"{libdir}/libsuperio.so": SHARED}


def crate_files(folders=("vm-superio", "superio")):
    """What the folders of crates have, beside each other, in the same form."""
    top = ROOT / "rust"
    paths = [path for name in folders for path in (top / name).rglob("*") if path.is_file()]
    places = {path.relative_to(top).as_posix(): path for path in paths if path.name != "Cargo.lock"}
    return {place: (0o644, path.read_bytes()) for place, path in places.items() if "/target/" not in place}


def found_in(folder):
    """What a folder has, in the same form. Folders of it may be entered by everybody."""
    paths = [path for path in sorted(folder.rglob("*")) if path.is_symlink() or not path.is_dir()]
    folders = (path for path in folder.rglob("*") if path.is_dir() and not path.is_symlink())
    assert not [path for path in folders if path.stat().st_mode & 0o7777 != 0o755]
    return {path.relative_to(folder).as_posix():
            os.readlink(path) if path.is_symlink() else (path.stat().st_mode & 0o7777, path.read_bytes())
            for path in paths}


def assert_same(found, wanted):
    """Names what is missing, what is too much and what is different, without all of its bytes."""
    assert found.keys() == wanted.keys()
    assert not [name for name in wanted if found[name] != wanted[name]]
