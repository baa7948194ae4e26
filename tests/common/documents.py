# SPDX-License-Identifier: Apache-2.0 OR BSD-3-Clause
"""The repository's documents, as one reader of Markdown shows them to all tests."""
import os
import re
import shutil
from functools import cached_property, lru_cache
from pathlib import Path
from typing import NamedTuple

from harness import ROOT

# Folders of what is built.
BUILT = {"out", "target", "build", "__pycache__"}
BLOCK = re.compile(r"^( *)```(\w*)[^\n]*\n(.*?)^\1```$", re.M | re.S)
CODE = re.compile(r"`([^`\n]+)`")
HEADING = re.compile(r"^#+ +(.*?) *$", re.M)
# In a block, what stands after `$ `, with what it prints.
COMMAND = re.compile(r"^\$ (.*\n)((?:(?!\$ ).*\n)*)", re.M)
# Links in brackets, definitions of labels, and links of tags.
LINK = re.compile(r"\]\(([^()\s]+)\)|^\[[^]\n]+\]: (\S+)|\b(?:href|src|srcset)=[\"']([^\"'\s]+)", re.M)


class Block(NamedTuple):
    """A fenced block: the number of its first line, its language, its lines without what it is indented by, and the
    text between it and the block before."""
    number: int
    language: str
    lines: list
    before: str

    @property
    def commands(self):
        return COMMAND.findall("".join(f"{line}\n" for line in self.lines))


class Document:
    """A document by its path from the top of the repository."""

    def __init__(self, path):
        self.path = Path(path)
        self.text = (ROOT / path).read_text(encoding="utf-8")

    def __str__(self):
        return str(self.path)

    @cached_property
    def blocks(self):
        found, end = [], 0
        for block in BLOCK.finditer(self.text):
            lines = [line.removeprefix(block[1]) for line in block[3].splitlines()]
            number = self.text.count("\n", 0, block.start(3)) + 1
            found.append(Block(number, block[2], lines, self.text[end:block.start()]))
            end = block.end()
        return found

    @cached_property
    def prose(self):
        """The text without its fenced blocks, whose lines are left empty."""
        return BLOCK.sub(lambda block: "\n" * block[0].count("\n"), self.text)

    @cached_property
    def anchors(self):
        """The anchors of the headings, as hosting sites make them."""
        shown = [re.sub(r"\]\([^)]*\)", "", heading) for heading in HEADING.findall(self.prose)]
        return [re.sub(r"[^\w\- ]", "", heading.lower()).replace(" ", "-") for heading in shown]

    @cached_property
    def links(self):
        """The targets of the links outside code."""
        return ["".join(targets) for targets in LINK.findall(CODE.sub("", self.prose))]


def table(text, heading):
    """The cells of each row of a table, whose first row begins with these words."""
    found = re.search(rf"^\| {re.escape(heading)}.*\n(?:\|.*\n)+", text, re.M)[0]
    return [[cell.strip() for cell in row.split("|")[1:-1]] for row in found.splitlines()[2:]]


def files():
    """The path of each file from the top of the repository, without what builds and git write. Their folders, which may
    have many files, are not even read."""
    for folder, folders, names in os.walk(ROOT):
        folders[:] = {*folders} - {".git", *BUILT}
        yield from (Path(folder, name).relative_to(ROOT) for name in names)


@lru_cache(maxsize=None)   # several files of tests ask for them while they are collected, in each process of a run
def documents():
    """Each document, README.md first."""
    kept = [path for path in files() if path.suffix == ".md" and not path.parts[0].startswith(".")]
    return tuple(Document(path) for path in sorted(kept, key=lambda path: (len(path.parts), path)))


def copy_repository(folder):
    """Copies the repository as it is, with what is not committed yet, without what builds write."""
    left_out = shutil.ignore_patterns(".git", "Cargo.lock", *BUILT)
    shutil.copytree(ROOT, folder, symlinks=True, ignore=left_out, dirs_exist_ok=True)
