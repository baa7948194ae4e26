# SPDX-License-Identifier: Apache-2.0 OR BSD-3-Clause
"""What accesses of the devices cost, in instructions: the rows of docs/PERFORMANCE.md and their goals, and the programs
`accesses` of tests/compare, which make them under callgrind. What their loop takes is subtracted.

Counts do not depend on what else the machine does, but on the compilers, which the document names, and on the
processor, an x86-64. A second table has what accesses cost through a console, beside the port in it. vm-superio is counted if VM_SUPERIO names the folder of its package, 0.8.2.
"""
import re
import subprocess
from functools import lru_cache
from pathlib import Path
from statistics import median_low
from tempfile import TemporaryDirectory, mkdtemp
from typing import NamedTuple

from common.commands import ROOT, check
from common.comparison import COMPARISON, ORIGINAL, Comparison

DOCUMENT = ROOT / "docs" / "PERFORMANCE.md"
ROUNDS = 10  # of the programs
PLACES = 64  # of the ring of received bytes
# The columns of the document's tables, in order.
THEIRS, RUST, BY_HAND, LIBRARY = DEVICE_COLUMNS = "vm-superio", "Rust crate", "C by hand", "C library"
PORT, CONSOLE = CONSOLE_COLUMNS = "port", "console"
COLUMNS = DEVICE_COLUMNS + CONSOLE_COLUMNS
# As a monitor is compiled, for such processors as Rattle's programs are.
RUST_FLAGS = {"RUSTFLAGS": "-C target-cpu=x86-64-v2", "CARGO_PROFILE_RELEASE_LTO": "true",
              "CARGO_PROFILE_RELEASE_PANIC": "abort", "CARGO_PROFILE_RELEASE_OVERFLOW_CHECKS": "false"}
C_FLAGS = ["-std=c99", "-O2", "-march=x86-64-v2", "-Wall", "-Wextra", "-Werror", "-Wl,-z,now",
           "-I", ROOT / "bindings" / "c"]
C_LIBRARY = ROOT / "prebuilt" / "x86_64-linux" / "libsuperio_c.a"
# What a row may take above another column, for each of its accesses.
PORT_GOAL, C_GOAL, CLOCK_GOAL, ALARM_GOAL, CONSOLE_GOAL = 1, 2, 5, 10, 15
# What 64 bytes in and out through a console may take of what they take by the port alone.
CONSOLE_FACTOR = 1.3
# Accesses of the clock at which vm-superio asks for the host's time, and at which the Rust crate does without an alarm.
THEY_ASK, ASKS = ("R00", "W08"), ("R00", "W04", "W08", "h00")
# What is read after a row: the registers and bytes of a port, or the registers of a clock.
PORT_READS = [f"r0{offset}00" for offset in "51234670"] + PLACES * ["r0000"]
CLOCK_READS = [f"m{offset}00" for offset in ("00", "04", "08", "10", "14", "18")]


class Row(NamedTuple):
    """A row of a table of the document: its columns; its first two cells; the accesses that it makes once, and those
    that it repeats; `median` or `worst`, if it is counted at each of the ring's 64 places; and the number of each
    column, with whether it is bold."""
    columns: tuple
    name: str
    cell: str
    once: list
    repeated: list
    place: str
    numbers: dict
    is_bold: dict

    @property
    def is_of_port(self):
        return set(access[0] for access in self.repeated) <= set("rwes")

    @property
    def is_of_clock(self):
        return set(access[0] for access in self.repeated) <= set("RWmM")

    @property
    def has_alarm(self):
        return "W04ff" in self.once

    @property
    def asks(self):
        """How often the Rust crate should ask for the host's time."""
        return sum(access[0] in "RWh" and (self.has_alarm or access[:3] in ASKS) for access in self.repeated)

    def lists(self):
        """The lists that the program gets: the accesses that it makes once, those that it repeats, and those that it
        reads last. To reach another place of the ring, the port first gets bytes that are read out again: 64 to begin
        with, so that vm-superio's ring has all its places."""
        last = PORT_READS if self.is_of_port else CLOCK_READS if self.is_of_clock else []
        if not self.place:
            return [(self.once, self.repeated, last)]
        full = ["e0040", *PLACES * ["r0000"]]
        return [([*full, f"e00{place:02x}", *place * ["r0000"], *self.once], self.repeated, last)
                for place in range(PLACES)]

    def number_of(self, counts):
        """The number that the row shows: the median or the most of what its lists took."""
        numbers = [counted.instructions for counted in counts]
        return median_low(numbers) if self.place == "median" else max(numbers)


class Program(NamedTuple):
    """A program of tests/compare, the word that chooses what makes the accesses, the function that callgrind counts, and
    the folder that is removed at the end."""
    path: Path
    folder: TemporaryDirectory
    words: tuple = ()
    counted: str = "sum_of"


class Counted(NamedTuple):
    """What a row took; numbers that depend on its replies, on its interrupts and on the device after it; and how often
    the row asked for the host's time."""
    instructions: int
    replies: tuple
    asked: int


def accesses(cell):
    """What a row makes once, and what it repeats."""
    once, repeated = [], []
    for times, access, is_once in re.findall(r"(?:(\d+) times )?`(.+?)`( once)?", cell):
        (once if is_once else repeated).extend(int(times or 1) * [access.replace(" ", "").ljust(5, "0")])
    return once, repeated


def read_rows():
    """The rows of the document's two tables."""
    rows = []
    for line in DOCUMENT.read_text(encoding="utf-8").splitlines():
        cells = [cell.strip() for cell in line.strip("|").split("|")]
        columns = next((names for names in (DEVICE_COLUMNS, CONSOLE_COLUMNS) if len(cells) == 2 + len(names)), None)
        if not columns or "`" not in cells[1]:
            continue
        numbers = {column: cell for column, cell in zip(columns, cells[2:]) if cell}
        place = re.search(r"(median|worst) of all places|$", cells[1])[1] or ""
        rows.append(Row(columns, *cells[:2], *accesses(cells[1]), place,
                        {column: int(cell.strip("*")) for column, cell in numbers.items()},
                        {column: cell.startswith("**") for column, cell in numbers.items()}))
    return rows


def host_time_of(rows):
    """What the host's time takes."""
    return next(row.numbers[THEIRS] for row in rows if row.repeated == ["h0000"])


def goal(row, column, host_time):
    """The most that a row should take in a column, or `None`."""
    theirs, by_hand, number = row.numbers.get(THEIRS), row.numbers.get(BY_HAND), len(row.repeated)
    if column == CONSOLE:
        kinds = [access[0] for access in row.repeated]
        if kinds == ["e", *PLACES * ["r"]]:
            return CONSOLE_FACTOR * row.numbers[PORT]
        return row.numbers[PORT] + CONSOLE_GOAL if kinds == ["r"] else None
    if column == LIBRARY and by_hand is not None:
        return by_hand + C_GOAL * number
    if column != RUST or theirs is None:
        return None
    if row.is_of_port:
        return theirs + PORT_GOAL * number
    if row.is_of_clock and row.has_alarm:
        they_ask = sum(access[:3] in THEY_ASK for access in row.repeated)
        return theirs + ALARM_GOAL * number + host_time * max(0, row.asks - they_ask)
    return theirs + CLOCK_GOAL * number if row.is_of_clock else None


def is_above_goal(row, column, host_time):
    limit = goal(row, column, host_time)
    return limit is not None and row.numbers[column] > limit


def totals_of(program, rows):
    """What each list of rows took, the second once and ten times, without what the loop takes; and what the program
    printed of each row."""
    rows = [([], [], []), ([], ["n0000"], []), *rows]  # first nothing, and an access that does nothing
    text = "".join(" / ".join(map(" ".join, lists)) + "\n" for lists in rows)
    out = Path(mkdtemp(dir=program.folder.name)) / "out"
    printed = check(["valgrind", "--tool=callgrind", f"--callgrind-out-file={out}",
                     f"--toggle-collect={program.counted}", f"--dump-after={program.counted}", program.path,
                     *program.words], input=text, stderr=subprocess.DEVNULL)
    dumps = [out.with_suffix(f".{number}").read_text(encoding="ascii") for number in range(1, 4 * len(rows) + 1)]
    totals = [int(re.search(r"^totals: (\d+)", dump, re.M)[1]) for dump in dumps]
    nothing, loop = totals[0], (totals[6] - totals[2]) / ROUNDS
    for number, (first, repeated, last) in enumerate(rows[2:], 2):
        lengths = len(first), len(repeated), ROUNDS * len(repeated), len(last)
        yield ([round(total - nothing - loop * length)
                for total, length in zip(totals[4 * number:4 * number + 4], lengths)], printed.splitlines()[number])


def count(program, rows):
    """Counts what rows take."""
    for (_, _, total, _), line in totals_of(program, rows):
        *replies, asked = map(int, line.split())
        yield Counted(round(total / ROUNDS), tuple(replies), asked // ROUNDS)


@lru_cache(maxsize=None)
def rust_program(crate):
    """The program over a crate, which is built once for all columns that it counts."""
    folder = TemporaryDirectory(prefix="counts-")
    comparison = Comparison(Path(folder.name, "accesses"), crate, "accesses")
    built = comparison.build(**RUST_FLAGS)
    assert built.returncode == 0, built.stdout
    return Program(comparison.program, folder)


@lru_cache(maxsize=None)
def program_of(column):
    """The program of a column."""
    if column in CONSOLE_COLUMNS:
        return rust_program(None)._replace(words=(column,), counted=f"sum_of_{column}")
    if column not in (BY_HAND, LIBRARY):
        return rust_program(ORIGINAL if column == THEIRS else None)
    folder = TemporaryDirectory(prefix="counts-")
    path = Path(folder.name, "accesses")
    port = ["-DBY_HAND", COMPARISON / "uart.c"] if column == BY_HAND else [C_LIBRARY]
    check(["gcc", *C_FLAGS, COMPARISON / "accesses.c", *port, "-o", path], "")
    return Program(path, folder)


@lru_cache(maxsize=None)
def counts_of(column):
    """What the lists of each row of a column take, by the row's name."""
    rows = [row for row in read_rows() if column in row.numbers]
    found = count(program_of(column), [lists for row in rows for lists in row.lists()])
    return {row.name: [next(found) for _ in row.lists()] for row in rows}


def write_numbers(columns):
    """Counts columns again and writes their numbers into the table. Makes each number bold that is above its goal."""
    text, rows = DOCUMENT.read_text(encoding="utf-8"), read_rows()
    for column in columns:
        rows = [row._replace(numbers={**row.numbers, column: row.number_of(counts_of(column)[row.name])})
                if column in row.numbers else row for row in rows]
    for row in rows:
        cells = {column: f"**{number}**" if is_above_goal(row, column, host_time_of(rows)) else str(number)
                 for column, number in row.numbers.items()}
        start, other = f"| {row.name} | {row.cell} |", r"[^|\n]*\|" * len(row.columns)
        line = start + "|".join(f" {cells[column]} " if column in cells else " " for column in row.columns) + "|"
        text = re.sub(f"^{re.escape(start)}{other}$", line, text, flags=re.M)
    DOCUMENT.write_text(text, encoding="utf-8")


def enqueue_slope(column):
    """How much one more byte of an enqueue takes at most, and how much the bytes beyond the room take. The FIFO's room
    goes past the last place of the ring."""
    first = ["e0020", *32 * ["r0000"]]
    sizes = [*range(1, PLACES + 1), PLACES + 1, 128, 255]
    lists = [(first, [f"e00{size:02x}"], []) for size in sizes]
    costs = [totals[1] for totals, _ in totals_of(program_of(column), lists)]
    slope = max((cost - costs[0]) / (size - 1) for size, cost in zip(sizes[1:PLACES], costs[1:]))
    return slope, max(costs[PLACES:]) - costs[PLACES - 1]


if __name__ == "__main__":
    write_numbers([column for column in COLUMNS if column != THEIRS or ORIGINAL])
