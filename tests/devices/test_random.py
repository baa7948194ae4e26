# SPDX-License-Identifier: Apache-2.0 OR BSD-3-Clause
"""Random calls from seeds, by the program, the Python package over both C libraries, and both models: the search of the
past in oracle.py, and the steps of model.py. Each commit has other seeds. If calls differ, a failure shows the fewest
that do, as rows of a script with both replies.
"""
import random
import re
from concurrent.futures import ThreadPoolExecutor
from functools import cache
from itertools import groupby

import made
import model
import oracle
import pytest
from board import Board
from harness import at_least
from made import SAVED, SHOWN, broken_lines, fewest, random_calls, random_script, shown
from script import FURTHER_LINES, LINES, PROGRAM_LINES, line_of, replies_of, run_script, script_of
from script_tests import Script
from seeds import seeds
from sides import PythonBoard, run

from superio.library import VARIABLE, open_library
from superio.recording import entries_of

FOR_PROGRAM, FOR_BOARD, AS_TEXT = 8_000, 4_000, 800
FOR_SEARCH = FOR_PROGRAM // 4   # of the program's scripts: the search of the past is slow
BROKEN = at_least(1_206, dict.fromkeys(broken_lines()))


def calls_of(seed, is_for_program):
    return [*random_calls(random.Random(seed), is_for_program), *(SHOWN if is_for_program else SAVED)]


def by_search(calls):
    return replies_of(Board(oracle), calls)


def by_steps(calls):
    return replies_of(Board(model), calls)


@cache   # two tests make the calls of most seeds
def of_seed(seed, is_for_program):
    """The calls of a seed, and what the model of steps replies."""
    calls = calls_of(seed, is_for_program)
    return calls, by_steps(calls)


def compare(seed, is_for_program, replies):
    """Fails with the fewest calls that differ, if any do: a function gives the replies to calls."""
    calls, expected = of_seed(seed, is_for_program)
    if replies(calls) != expected:
        ends = SHOWN if is_for_program else SAVED
        few = fewest(calls[:-len(ends)], lambda fewer: replies([*fewer, *ends]) != by_steps([*fewer, *ends]))
        calls = [*few, *ends]
        pytest.fail(f"seed {seed}\n{shown(calls, replies(calls), by_steps(calls))}", pytrace=False)


@pytest.mark.needs("kit")
def test_program(program):
    def by_program(calls):
        return run(program, script_of(calls))[0].split("\n")[:-1]
    for seed in seeds("program", FOR_PROGRAM):
        compare(seed, True, by_program)


@pytest.mark.parametrize("library", ["prebuilt", pytest.param("source", marks=pytest.mark.needs("cargo", "cc"))])
def test_python(library, request, monkeypatch):
    """The Python package's board, over each C library. Each has half of the scripts."""
    monkeypatch.setenv(VARIABLE, request.getfixturevalue(f"{library}_library")._name)
    opened = open_library()
    monkeypatch.setattr("superio.saved.load", lambda: opened)
    monkeypatch.setattr("superio.devices.load", lambda: opened)
    for seed in seeds("board", FOR_BOARD)[["prebuilt", "source"].index(library)::2]:
        compare(seed, False, lambda calls: replies_of(PythonBoard(), calls))


@pytest.mark.parametrize("what, number, is_for_program", [("program", FOR_SEARCH, True), ("board", FOR_BOARD, False)])
def test_models(what, number, is_for_program):
    """The search of the past and the model of steps agree on all calls that the boards make, and on a quarter of those
    that the program makes. A board makes each call of the program too, from more states."""
    for seed in seeds(what, number):
        compare(seed, is_for_program, by_search)


def run_all(program, scripts):
    """Runs scripts as text side by side, and gives what differs from the search of the past."""
    def difference(text):
        replies, end = run_script(text, is_for_program=True)
        printed = "".join(f"{reply}\n" for reply in replies).encode()
        got, status, errors = run(program, text)
        return Script("script", text.encode("latin-1"), printed, end).difference(
            (status, got.encode("latin-1"), errors.encode()))
    with ThreadPoolExecutor() as pool:
        return [found for found in pool.map(difference, scripts) if found]


@pytest.mark.needs("kit")
def test_broken_lines(program):
    """Each broken line alone, and after a good one: the reply before it comes, and which line is bad."""
    assert not run_all(program, [script for line in BROKEN for script in (f"{line}\n", f"sc\n{line}")])


@pytest.mark.needs("kit")
@pytest.mark.parametrize("is_for_program", [True, False], ids=["its own lines", "further lines"])
def test_broken_scripts(program, is_for_program):
    """Scripts as text, of which some are broken. With further lines, the program ends at the first."""
    texts = [random_script(random.Random(seed), is_for_program) for seed in seeds("text", AS_TEXT)]
    assert not run_all(program, texts)


def test_each_line_is_made():
    """Random scripts have every line, and those for the program every one of its own."""
    for is_for_program, lines in (True, PROGRAM_LINES), (False, LINES):
        calls = [call for seed in seeds("program", 400) for call in random_calls(random.Random(seed), is_for_program)]
        assert {name for name, *_ in calls} == {call for call, *_ in lines.values()}
    assert {*PROGRAM_LINES} == {*LINES} - {*FURTHER_LINES}


class WrongPort(model.Port):
    """Loses an interrupt: a read of IIR leaves RDA pending, as in a 16550A."""

    def read(self, offset):
        is_pending = self.registers["IIR"] & model.RDA
        reply = super().read(offset)
        if offset == 2 and is_pending and self.bytes:
            self.registers["IIR"] = model.RDA
        return reply


def test_a_wrong_model_is_found():
    """Random calls find it again and again, and shrink to few, at least once to the fewest that there are."""
    wrong, sizes = type("wrong", (), {"Port": WrongPort, "Clock": model.Clock}), []
    for seed in seeds("wrong", 200):
        calls = calls_of(seed, False)
        if len(sizes) < 5 and replies_of(Board(wrong), calls) != by_steps(calls):
            few = fewest(calls, lambda fewer: replies_of(Board(wrong), fewer) != by_steps(fewer))
            assert "the model:" in made.shown(few, replies_of(Board(wrong), few), by_steps(few))
            sizes.append(len(few))
    assert len(sizes) == 5 and min(sizes) <= 6 and max(sizes) <= 20, sizes


# What a side and the model reply to a line, or nothing if they ended before, and what stands after it.
BESIDE = {(("60",), ("60",)): ["60"], (("61",), ("60",)): ["61", "the model: 60"], ((), ()): ["no reply"],
          ((), ("60",)): ["no reply", "the model: 60"], (("60",), ()): ["60", "the model: no reply"]}


@pytest.mark.parametrize("got, expected", BESIDE)
def test_what_a_failure_shows(got, expected):
    """The side's reply beside each line, and the model's if it is another. A mask has none. Equal rows stand once."""
    for count, times in (1, []), (3, ["3 times"]):
        calls = [("refuse", 3), ("serial_write", 0, 0x41), *count * [("serial_read", 5)]]
        rows = shown(calls, ["ok", *count * got], ["ok", *count * expected]).splitlines()
        assert [re.split(" {2,}", row.rstrip()) for row in rows] == [
            ["refuse 0000000000000003"], ["sw 00 41", "ok"], ["sr 05", *BESIDE[got, expected], *times]]


def test_what_a_failure_shows_is_rows_of_data():
    """Lines of any length, and empty replies. So a test can be made of them."""
    for calls in (calls_of(seed, False) for seed in seeds("rows", 200)):
        expected = replies_of(Board(model), calls)
        rows = [re.sub(r" {3}(\d+) times$", "", row) for row in shown(calls, expected, expected).splitlines()]
        entries = [entry for row in rows for entry in entries_of(row.rstrip())]
        left = iter(expected)
        wanted = [(line_of(*call), None if call[0] == "refuse" else next(left)) for call in calls]
        assert entries == [entry for entry, _ in groupby(wanted)]


@pytest.mark.parametrize("needed", [[0], [8], [9], [4, 5], [0, 9], [2, 3, 7], [*range(10)]], ids=str)
def test_fewest(needed):
    """Those that are needed stay, wherever they stand, with the smallest number and the fewest bytes. So do lines."""
    calls = [(f"call {place}", 250 + place, 5 * bytes([place])) for place in range(10)]

    def differs(fewer):
        found = {name: (number, len(data)) for name, number, data in fewer}
        return all(min(found.get(f"call {place}", (-1, -1))) >= place % 3 for place in needed)
    assert fewest(calls, differs) == [(f"call {place}", place % 3, bytes(place % 3)) for place in needed]
    lines = [name for name, *_ in calls]
    wanted = [lines[place] for place in needed]
    assert fewest(lines, lambda fewer: {*wanted} <= {*fewer}) == wanted
