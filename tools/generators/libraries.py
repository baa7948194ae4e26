# SPDX-License-Identifier: Apache-2.0 OR BSD-3-Clause
"""The files of the C library: where they are, the digests by which others compare them, and how they are built from the
proofs.

For each processor a static and a shared library are written into prebuilt, SHA256SUMS has their sums, and SOURCES the
digest of the sources. The bytes are the same on every machine.
"""
import hashlib
import re
import shutil
import subprocess
from pathlib import Path

from common.commands import ROOT
from common.rattle import CRATES, build

PREBUILT = ROOT / "prebuilt"
HEADER = ROOT / "bindings" / "c" / "superio.h"
# What programs have compiled into them of the header, as a table, which Python reads.
INTERFACE = ROOT / "bindings" / "python" / "superio" / "superio.abi"
STATIC = "libsuperio_c.a"
# Its number is the header's. What needs a header that is missing says so.
SHARED = "libsuperio.so." + "".join(re.findall(r"^#define SUPERIO_ABI (\d+)$", HEADER.read_text(encoding="ascii"), re.M)
                                    if HEADER.is_file() else [])
# Beside each folder of `prebuilt`: what `rt lib` is told to build for, and the linker's name of it. The host's is last,
# so that it is what `out/` keeps.
TARGETS = {
    "aarch64-linux": ("--target aarch64-unknown-linux-gnu", "aarch64linux"),
    "x86_64-linux": ("--cpu=x86-64", "elf_x86_64"),
}
# The crates whose sources are compiled into the library.
SOURCE_FOLDERS = ["crates/superio_c/src", "crates/superio_console/src", "crates/superio_core/src"]


def digest(path):
    return hashlib.sha256(path.read_bytes()).hexdigest()


def sums_of(folder, names):
    """The lines of SHA256SUMS for files of a folder, as `sha256sum --check` reads them."""
    return [f"{digest(folder / name)}  {name}" for name in names]


def library_sums(folder):
    """The lines of SHA256SUMS for the libraries of a folder."""
    return sums_of(folder, [f"{target}/{name}" for target in TARGETS for name in (STATIC, SHARED)])


def source_line(folders=SOURCE_FOLDERS, ending=".rt"):
    """A line of SOURCES: the digest of what `sha256sum` prints of the sources, in the order of their paths."""
    paths = sorted(path for folder in folders for path in (ROOT / folder).rglob(f"*{ending}"))
    names = sorted(path.relative_to(ROOT).as_posix() for path in paths)
    listing = "".join(f"{line}\n" for line in sums_of(ROOT, names))
    return f"{hashlib.sha256(listing.encode()).hexdigest()}  the sources in {' and '.join(folders)}"


def is_there(folder, name):
    """Whether each path in the name of a digest is one of a folder, or of the repository."""
    return all((folder / word).exists() or (ROOT / word).exists() for word in name.split() if "/" in word)


def replace_lines(path, lines):
    """Writes lines of a digest and a name into a file, in the place of those with the same names. Those of what is no
    longer there go."""
    old = path.read_text(encoding="ascii").splitlines() if path.exists() else []
    by_name = {line.partition("  ")[2]: line for line in [*old, *lines]}
    kept = (line for name, line in by_name.items() if is_there(path.parent, name))
    path.write_text("".join(line + "\n" for line in kept), encoding="ascii")


def build_into(folder):
    """Builds the libraries from the proofs, each into the folder of its target."""
    # The kit's linker, so that each machine links the same bytes.
    page = subprocess.run(["rt", "doc"], stdout=subprocess.PIPE, encoding="utf-8", check=True).stdout.strip()
    linker = Path(page).parent / "toolchain" / "bin" / "ld.lld"
    for target, (options, emulation) in TARGETS.items():
        static = folder / target / STATIC
        static.parent.mkdir(parents=True, exist_ok=True)
        build(("superio_c", f"lib {options}"))
        shutil.copyfile(CRATES / "superio_c" / "out" / STATIC, static)
        subprocess.run([linker, "-shared", "--build-id=sha1", "-z", "now", "-m", emulation, "-soname", SHARED,
                        "--whole-archive", static, "-o", static.with_name(SHARED)], check=True)


if __name__ == "__main__":
    build_into(PREBUILT)
    replace_lines(PREBUILT / "SHA256SUMS", library_sums(PREBUILT))
    replace_lines(PREBUILT / "SOURCES", [source_line()])
