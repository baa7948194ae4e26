# SPDX-License-Identifier: Apache-2.0 OR BSD-3-Clause
"""Drivers' own sources, out of Debian's packages of them. The repository has none of their text, only their sums.

Debian mends a package now and then, and machines have different versions. Of each version that was read, a list
NAME-VERSION.sha256 beside this file has the files that are taken, with their sums.
"""
import gzip
import hashlib
import lzma
import re
import subprocess
import tarfile
from bisect import bisect_right
from functools import lru_cache
from pathlib import Path
from typing import NamedTuple

import kept
from debian import download, download_sources, make_whole
from harness import ROOT

HERE = Path(__file__).resolve().parent
HEADER = 512  # bytes before each file in an archive of tar
KEPT = kept.FOLDER / "guests"
PACKAGES = ROOT / "out" / "packages"  # where tools/install-packages unpacks packages for another user than root


class Source(NamedTuple):
    """A package of a release of Debian whose files have an archive of a driver's source."""
    called: str
    package: str
    release: str
    is_source: bool = False  # a source package, and otherwise one that has an archive of Linux

    @property
    def folder(self):
        """Source packages of a release come together."""
        return KEPT / "packages" / f"{'sources' if self.is_source else self.package}-{self.release}"


SOURCES = {"linux": Source("Linux", "linux-source-6.1", "bookworm"),
           "linux-5.10": Source("Linux", "linux-source-5.10", "bullseye"),
           "linux-6.12": Source("Linux", "linux-source-6.12", "trixie"),
           "xen": Source("Xen", "xen", "bookworm", True), "uboot": Source("U-Boot", "u-boot", "bookworm", True),
           "seabios": Source("SeaBIOS", "seabios", "bookworm", True), "grub": Source("GRUB", "grub2", "bookworm", True),
           "edk2": Source("EDK II", "edk2", "bookworm", True)}


def files(name):
    """The archive of a source, and the file that says its version, or none of both. A machine may be told to install no
    file of usr/share/doc."""
    source = SOURCES[name]
    archives, versions = [f"{source.package}_*.orig.tar.?z"] * 2 if source.is_source else [
        f"usr/src/{source.package}.tar.xz", f"usr/share/doc/{source.package}/changelog*.gz"]
    for folder in (Path("/"), PACKAGES, source.folder):
        found = next(folder.glob(archives), None), next(folder.glob(versions), None)
        if all(found):
            return found
    return None, None


def version(name):
    """The version of a source that this machine has, or none."""
    _, file = files(name)
    if not file:
        return None
    if SOURCES[name].is_source:
        return re.search(r"_(.*)\.orig\.tar", file.name)[1]
    with gzip.open(file, "rt", encoding="utf-8") as lines:
        return re.match(r"\S+ \(([\d.]+)", lines.readline())[1]


def told(name):
    """Such as Linux 6.1.176."""
    return f"{SOURCES[name].called} {version(name)}"


def sums(name):
    """The file with the sums of the version that this machine has."""
    return HERE / f"{name.split('-')[0]}-{version(name)}.sha256"


def fetch(name):
    """Gets the package of a source, if this machine has none."""
    source = SOURCES[name]
    if files(name)[0]:
        return
    if source.is_source:
        packages = [other.package for other in SOURCES.values() if other.folder == source.folder]
        make_whole(source.folder, lambda folder: download_sources(folder, source.release, packages))
    else:
        make_whole(source.folder, lambda folder: download(folder, source.release, [source.package]))


def is_recorded(name):
    """Whether a source is of a version that was read. It is fetched if it is not there."""
    fetch(name)
    return bool(files(name)[0]) and sums(name).exists()


def sources(name):
    """The folder with the files of a source. They are unpacked once."""
    text = sums(name).read_text(encoding="ascii")
    wanted = {path: number for number, path in (line.split("  ") for line in text.splitlines())}
    # Another list has another folder.
    folder = KEPT / f"{sums(name).stem}-{hashlib.sha256(text.encode()).hexdigest()[:8]}"
    make_whole(folder, lambda folder: unpack(files(name)[0], sorted(wanted), folder))
    other = [path for path, number in wanted.items()
             if hashlib.sha256((folder / path).read_bytes()).hexdigest() != number]
    if other:
        raise ValueError(f"{sums(name).name} names other sums than those of {', '.join(other)}")
    return folder


def unpack(archive, paths, folder):
    """Unpacks files of an archive into a folder. What is not found in its blocks alone is looked for in all of it, up to the
    last of these files, which takes up to a quarter of a minute."""
    for path, text in found_in_blocks(archive, paths):
        (folder / path).parent.mkdir(parents=True, exist_ok=True)
        (folder / path).write_bytes(text)
    if missing := [f"*/{path}" for path in paths if not (folder / path).exists()]:
        subprocess.run(["tar", "--extract", f"--file={archive}", f"--directory={folder}", "--strip-components=1",
                        "--wildcards", "--no-wildcards-match-slash", "--occurrence", *missing], check=True)


def found_in_blocks(archive, paths):
    """Files of an archive, with their texts, if xz has compressed it in blocks, as Debian's of Linux 6. Its files are in
    the order of their names, so the first names of some blocks say which of them have a file."""
    places = blocks(archive)
    if len(places) < 2:
        return

    @lru_cache(maxsize=None)
    def begin(number):
        """The first name in a block, with its number, or those of the block before if it has none."""
        name = first_name(archive, places[number])
        return (name or "", number) if name or number == 0 else begin(number - 1)

    top = begin(0)[0].split("/")[0]
    read = lru_cache(maxsize=2)(lambda number: Block(archive, places[number]))
    for path in paths:
        name = f"{top}/{path}"
        after = bisect_right(range(len(places)), (name, len(places)), key=begin)
        _, number = begin(max(after - 1, 0))
        start = read(number).find(name.encode() + b"\0")
        if start is not None:
            end = HEADER + tarfile.TarInfo.frombuf(read(number).part(start, HEADER), "utf-8", "strict").size
            text = read(number).part(start, end)
            while end > len(text):   # the file goes on in the next block
                number += 1
                text += read(number).part(0, end - len(text))
            yield path, text[HEADER:]


class Block:
    """What is in a block of an archive of xz. It is unpacked as far as it is asked for: this takes most of the time."""

    def __init__(self, archive, place):
        start, size = place
        with open(archive, "rb") as file:
            header = file.read(12)   # of all blocks
            file.seek(start)
            self.packed = header + file.read(size)
        self.unpacker, self.text = lzma.LZMADecompressor(), bytearray()

    def unpacks_more(self):
        """Whether there was more."""
        more = self.unpacker.decompress(self.packed, 1 << 20)
        self.packed = b""   # the unpacker has it
        self.text += more
        return bool(more)

    def part(self, start, size):
        """So many bytes, or as many as there are."""
        while len(self.text) < start + size and self.unpacks_more():
            pass
        return bytes(self.text[start:start + size])

    def find(self, begin):
        """Where the first header of a file begins with these bytes, or none."""
        at = 0
        while True:
            while (at := self.text.find(begin, at)) >= 0:
                if at % HEADER == 0:
                    return at
                at += 1
            at = max(len(self.text) - len(begin) + 1, 0)
            if not self.unpacks_more():
                return None


def blocks(archive):
    """Where each block of an archive of xz begins, and how long it is."""
    listed = subprocess.run(["xz", "--robot", "--list", "-vv", archive], stdout=subprocess.PIPE, stderr=subprocess.DEVNULL,
                            text=True).stdout   # nothing of an archive of gzip
    rows = (line.split("\t") for line in listed.splitlines())
    return [(int(row[4]), int(row[6])) for row in rows if row[0] == "block"]


def first_name(archive, place):
    """The name of the first file that begins near the begin of a block of an archive, or none."""
    text = Block(archive, place).part(0, 1 << 20)
    for start in range(0, len(text) - HEADER + 1, HEADER):
        if text[start + 257:start + 262] == b"ustar":
            member = tarfile.TarInfo.frombuf(text[start:start + HEADER], "utf-8", "replace")
            if member.isfile():
                return member.name
    return None


def extract(path, names):
    """Functions, structs and macros of a file of C, line by line as they are there."""
    lines, taken = path.read_text(encoding="utf-8").split("\n"), []
    for name in names:
        begins = re.compile(rf"#define\s+{name}\b|struct {name} {{")
        mentions = re.compile(rf"(?![\s*/#]|EXPORT).*\b{name}\(.*(?<!;)$|{name}\(.*(?<!;)$")
        [start] = [place for place, line in enumerate(lines) if begins.match(line) or mentions.match(line.rstrip())]
        end = start
        if lines[start].startswith("#define"):
            while lines[end].endswith("\\"):
                end += 1
        else:
            while not re.match(r"};?$", lines[end]):
                end += 1
            # A return type may have a line of its own.
            start -= bool(re.match(r"(static|void|int|unsigned)[\w\s*]*$", lines[start - 1]))
        taken.append("\n".join([f'#line {start + 1} "{path.name}"', *lines[start:end + 1], ""]))
    return "\n".join(taken)
