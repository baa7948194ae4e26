# SPDX-License-Identifier: Apache-2.0 OR BSD-3-Clause
"""Scripts with their replies, written as tests/README.md describes, and those that documents show. A board of the
Python package and of the page has further lines, which the program refuses."""
import json
import lzma
import random
import re
from itertools import groupby
from os.path import commonprefix
from typing import NamedTuple

from board import Board
from documents import documents
from harness import ROOT
from made import every_load, random_script
from script import FURTHER_LINES, LINES, replies_of, run_script, script_of, syntax_of
from seeds import seeds
from superio.recording import entries_of

TESTS = ROOT / "tests" / "data"
FURTHER_TESTS = TESTS / "further"  # with further lines

LOADS = 400  # lines of loads in a script
END = re.compile(r"bad line \d+|input or output fault|out of memory|script too long")
STATUS = {"": 0, "bad": 1, "input": 2, "out": 3, "script": 4}  # by the first word of the end


class Script(NamedTuple):
    """A script, the place where it stands, the replies that its run prints, and what it says if it ends badly."""
    place: str
    script: bytes
    replies: bytes
    end: str = ""

    @property
    def expected(self):
        """The status of a run, what it prints, and what it says."""
        return STATUS[self.end.partition(" ")[0]], self.replies, f"{self.end}\n".encode() if self.end else b""

    @property
    def by_program(self):
        """The same script as the program runs it, which refuses the first of the further lines."""
        lines = self.script.decode("latin-1").split("\n")
        place = next((place for place, line in enumerate(lines) if line.partition(" ")[0] in FURTHER_LINES), None)
        if place is None:
            return self
        count = place - lines[0].startswith("refuse")
        printed = b"".join(self.replies.splitlines(keepends=True)[:count])
        return self._replace(replies=printed, end=f"bad line {place + 1}")

    def difference(self, got):
        """What a run did otherwise, or `None`."""
        if got == self.expected:
            return None
        if got is None:
            return f"{self.place}: did not end"
        same = len(commonprefix([self.replies, got[1]]))
        return (f"{self.place}: {self.script[:400]}\n  after {same} bytes {got[1][same:same + 80]} instead of "
                f"{self.replies[same:same + 80]}, and {got[0]}, {got[2]} instead of {self.end!r}")


def text(expression):
    """The bytes that an expression of strings stands for."""
    terms = [re.fullmatch(r'(".*?")(?: \* (\d+))?', term) for term in re.split(r' \+ (?=")', expression)]
    return b"".join(json.loads(term[1]).encode("latin-1") * int(term[2] or 1) for term in terms)


def joined(lines):
    return "".join(f"{line}\n" for line in lines).encode()


def of_block(place, rows):
    """The scripts of rows without an empty line between them."""
    end = rows[-1] if END.fullmatch(rows[-1]) else ""
    rows = rows[:-1] if end else rows
    if not rows[0].startswith("script "):
        lines, replies = zip(*(entry for row in rows for entry in entries_of(row)))
        return [Script(place, joined(lines), joined(reply for reply in replies if reply is not None), end)]
    found = {"script": [], "replies": []}
    for kind, expression in (row.split(" ", 1) for row in rows):
        found[kind].append(text(expression))
    return [Script(place, script, b"".join(found["replies"]), end) for script in found["script"]]


def scripts_of(path):
    """The scripts of a file."""
    data = path.read_bytes()
    lines = enumerate((lzma.decompress(data) if path.suffix == ".xz" else data).decode().splitlines(), 1)
    for is_block, numbered in groupby(lines, key=lambda entry: entry[1] != ""):
        rows = [(number, row) for number, row in numbered if not row.startswith("#")]
        if is_block and rows:
            yield from of_block(f"{path.name}:{rows[0][0]}", [row for _, row in rows])


def refused_scripts():
    """Each further line where the program refuses it: as the first line, after a good one and after a mask, with
    another line behind it or without. Bytes come with none, one and more."""
    starts = (b"", b""), (b"kr 04\n", b"00\n"), (b"refuse 0000000000000000\n", b"")
    for name in FURTHER_LINES:
        for line in dict.fromkeys([name, *(syntax_of(name).replace("HH..", "00" * count) for count in (1, 33))]):
            for start, printed in starts:
                end = f"bad line {1 + len(start.splitlines())}"
                for more in b"", b"\nkr 04\n":
                    yield Script(f"{line[:5]} refused", start + line.encode() + more, printed, end)


def of_documents():
    """The scripts that documents show with their replies, and perhaps with comments."""
    row = re.compile(rf"({'|'.join(LINES)})( [0-9A-Fa-f]+)*(  .*)?")
    blocks = [(f"{document}:{block.number}", [line for line in block.lines if not line.startswith("#")])
              for document in documents() for block in document.blocks]
    return [script for place, rows in blocks if rows and all(map(row.fullmatch, rows))
            for script in of_block(place, rows)]


class BoardScript(NamedTuple):
    """A script for a board that has the further lines, the place where it stands, whether the board is to refuse them
    as the program does, the replies, and what is wrong at the end."""
    place: str
    script: str
    is_for_program: bool
    replies: list
    end: str


def kept_scripts():
    """The scripts of tests/data and of documents in which neither input nor memory fails. Those with further lines come
    for a board that refuses these, too, and so does each of these lines."""
    def of_test(test, is_for_program):
        replies = test.replies.decode("latin-1").split("\n")[:-1]
        return BoardScript(test.place, test.script.decode("latin-1"), is_for_program, replies, test.end)

    shared, further = ([test for path in sorted(folder.glob("*.txt")) for test in scripts_of(path)]
                       for folder in (TESTS, FURTHER_TESTS))
    yield from (of_test(test, True) for test in shared if not test.end.startswith(("input", "out")))
    yield from (of_test(test, False) for test in [*further, *of_documents()])
    yield from (of_test(test, True) for test in [*(script.by_program for script in further), *refused_scripts()])


def load_scripts():
    """Loads of any bytes."""
    every_call = [*every_load()]
    for place in range(0, len(every_call), LOADS):
        calls = every_call[place:place + LOADS]
        yield BoardScript(f"load {place}", script_of(calls), False, replies_of(Board(), calls), "")


def made_scripts(what, number):
    """So many random scripts for a board that has the further lines, and a fifth of that for one that refuses them.
    Each commit has others."""
    for seed in seeds(what, number):
        script = random_script(random.Random(seed))
        yield BoardScript(seed, script, False, *run_script(script))
    yield from refusing_scripts(what, number // 5)


def refusing_scripts(what, number):
    """So many for a board that refuses the further lines, half of them without any such line."""
    for seed in seeds(f"{what} as the program", number):
        source = random.Random(seed)
        script = random_script(source, is_for_program=source.random() < 0.5)
        yield BoardScript(seed, script, True, *run_script(script, is_for_program=True))


def board_scripts(what, number):
    """All scripts for a board."""
    return [*kept_scripts(), *load_scripts(), *made_scripts(what, number)]
