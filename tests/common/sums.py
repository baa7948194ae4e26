# SPDX-License-Identifier: Apache-2.0 OR BSD-3-Clause
"""tests/sums.txt: how many tests each folder and the sources of crates have at least, and how many of a folder are left
out where something is not there that no package has. A run with --sums fails if it tried fewer, or left out more."""
from collections import defaultdict

from common import rattle
from common.cargo import DROP_IN, DEVICES
from harness import ROOT

TABLE = ROOT / "tests" / "sums.txt"
COMMAND = "python3 -m pytest --collect-only --write-sums"
HEAD = f"""\
# How many tests there are at least: in each folder and, beside the name of a place of tests/common/places.py, how
# many of them may be left out where that is not there; and in the sources of crates, which Cargo and rt ci try.
# This command writes the file: {COMMAND}
"""


def rows_of(tests):
    """The names of tests by row: that of their folder, and one for each place that they need or, of a run, that was not
    there. A test is its name with these places. Tests of one name count as one, since a run tells them not apart."""
    rows = defaultdict(dict)
    for name, places in tests:
        folder = name.partition("::")[0].rpartition("/")[0]
        for row in (folder, *(f"{folder}, {place}" for place in places)):
            rows[row][name] = None
    return rows


def number_of_tests(crate):
    """How many tests the sources of a crate have, beside those of its documentation."""
    return sum(path.read_text(encoding="utf-8").count("#[test]") for path in crate.rglob("*.rs")
               if "target" not in path.relative_to(crate).parts)


def of_sources():
    """What the sources have for Cargo and for rt, which have to try all of it."""
    numbers = {"must-fail edits of crates": rattle.number_of_edits(), "tests of crates": rattle.number_of_tests(),
               **{f"tests of {crate.relative_to(ROOT)}": number_of_tests(crate) for crate in (DEVICES, DROP_IN)}}
    return {row: number for row, number in numbers.items() if number}


def write(tests):
    numbers = {**{row: len(names) for row, names in rows_of(tests).items()}, **of_sources()}
    TABLE.write_text(HEAD + "".join(f"{row}: {number}\n" for row, number in sorted(numbers.items())), "utf-8")


def faults(tests):
    """What a run tried less, or left out more, than the table says."""
    lines = [line for line in TABLE.read_text(encoding="utf-8").splitlines() if not line.startswith("#")]
    least, found = {row: int(number) for row, number in (line.rsplit(": ", 1) for line in lines)}, rows_of(tests)
    numbers = {**{row: len(names) for row, names in found.items()}, **of_sources()}
    for row, number in least.items():
        if ", " not in row and numbers.get(row, 0) < number:
            yield f"{row}: {numbers.get(row, 0)}, and tests/sums.txt says {number}"
    for row, names in found.items():
        if ", " in row and len(names) > least.get(row, 0):
            yield (f"{row}: {len(names)} tests were left out, and tests/sums.txt says {least.get(row, 0)}: "
                   f"{', '.join(names)}")
