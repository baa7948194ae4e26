# SPDX-License-Identifier: Apache-2.0 OR BSD-3-Clause
"""docs/PERFORMANCE.md has what an access of each column costs, and which numbers are above their goals."""
import re

import pytest
from documents import table
from generators.counts import (ALARM_GOAL, BY_HAND, C_GOAL, CLOCK_GOAL, COLUMNS, CONSOLE, CONSOLE_FACTOR, CONSOLE_GOAL,
                               DOCUMENT, LIBRARY, PORT, PORT_GOAL, RUST, THEIRS, counts_of, enqueue_slope, goal,
                               host_time_of, is_above_goal, read_rows)
from harness import at_least
from places import PLACES

TEXT = DOCUMENT.read_text(encoding="utf-8")
# Places of places.py: other compilers take other numbers of instructions.
RUSTC, GCC = (re.search(rf"{name} [\d.]+\d", TEXT)[0] for name in ("rustc", "gcc"))
ROWS = at_least(48, read_rows())
NEEDS = {
    THEIRS: [pytest.mark.needs("cargo"), pytest.mark.where(RUSTC, "folder VM_SUPERIO of vm-superio 0.8.2")],
    **{column: [pytest.mark.needs("cargo"), pytest.mark.where(RUSTC)] for column in (RUST, PORT, CONSOLE)},
    BY_HAND: [pytest.mark.needs("cc"), pytest.mark.where(GCC)],
    LIBRARY: [pytest.mark.needs("cc"), pytest.mark.where(GCC)],
}


def cases(columns, rows=ROWS):
    """Each row in each of these columns that has it, with what the column needs."""
    marks = [pytest.mark.needs("valgrind"), pytest.mark.where("Linux on x86-64")]
    return [pytest.param(row, column, marks=marks + NEEDS[column], id=f"{column}: {row.name}")
            for column in columns for row in rows if column in row.numbers]


def test_compilers_are_known():
    assert {RUSTC, GCC} <= set(PLACES)


def test_goals_are_those_of_the_page():
    """By which a number is bold or not."""
    said = [float(goal.split()[0]) for _, _, goal, _ in table(TEXT, "Row | Other column")]
    assert said == [PORT_GOAL, C_GOAL, CLOCK_GOAL, ALARM_GOAL, CONSOLE_GOAL, CONSOLE_FACTOR]


def test_results_of_a_console():
    """The page sums up the most that a read through a console takes beyond the port, and how many times as many."""
    said = {name: result.split()[0] for name, _, _, result in table(TEXT, "Row | Other column")}
    rows = [row for row in ROWS if {PORT, CONSOLE} <= {*row.numbers}]
    reads = [row.numbers[CONSOLE] - row.numbers[PORT] for row in rows if [word[0] for word in row.repeated] == ["r"]]
    factors = [row.numbers[CONSOLE] / row.numbers[PORT] for row in rows if len(row.repeated) == 65]
    assert f"{max(at_least(3, reads))}" == said["A read through a console"]
    assert f"{max(at_least(2, factors)):.1f}" == said["64 bytes in and out through a console"]


@pytest.mark.parametrize("row", ROWS, ids=lambda row: f"{row.columns[-1]}: {row.name}")
def test_what_is_bold_is_above_its_goal(row):
    above = {column: is_above_goal(row, column, host_time_of(ROWS)) for column in row.numbers}
    assert above == row.is_bold, {column: goal(row, column, host_time_of(ROWS)) for column in row.numbers}


@pytest.mark.parametrize("row, column", cases(COLUMNS))
def test_count(row, column):
    """The target of a jump may have one instruction before it that does nothing."""
    assert abs(row.number_of(counts_of(column)[row.name]) - row.numbers[column]) <= 1


@pytest.mark.parametrize("row, column", cases([THEIRS, BY_HAND, LIBRARY]))
@pytest.mark.needs("cargo")
@pytest.mark.where(RUSTC)
def test_replies_are_those_of_the_rust_crate(row, column):
    """So are the interrupts, and the registers and bytes after it."""
    assert [count.replies for count in counts_of(column)[row.name]] == [
        count.replies for count in counts_of(RUST)[row.name]]


@pytest.mark.parametrize("row, column", cases([CONSOLE], [row for row in ROWS if PORT in row.numbers]))
def test_replies_of_a_console_are_those_of_the_port(row, column):
    assert [count.replies for count in counts_of(column)[row.name]] == [
        count.replies for count in counts_of(PORT)[row.name]]


@pytest.mark.parametrize("row, column", cases([RUST]))
def test_asks_for_the_hosts_time_only_where_guest_time_matters(row, column):
    assert counts_of(column)[row.name][0].asked == row.asks


@pytest.mark.parametrize("column", [pytest.param(column, marks=NEEDS[column]) for column in (RUST, LIBRARY)])
@pytest.mark.needs("valgrind")
@pytest.mark.where("Linux on x86-64")
def test_a_byte_more_of_an_enqueue(column):
    said = float(re.search(rf"^\| bytes of an enqueue, {column} \|.*\| ([\d.]+) \| 0 \|$", TEXT, re.M)[1])
    slope, beyond = enqueue_slope(column)
    assert slope == pytest.approx(said, abs=0.1)
    assert beyond == 0, "bytes beyond the room cost something"
