# SPDX-License-Identifier: Apache-2.0 OR BSD-3-Clause
"""Scripts and runs take instructions and memory in proportion to their length, as much as docs/PERFORMANCE.md says, give
or take a tenth. Callgrind counts the instructions of a process, and memcheck the bytes that it allocates.
"""
import re
from typing import NamedTuple

import pytest
from common.rattle import built_program
from harness import ROOT, check

pytestmark = pytest.mark.needs("kit", "valgrind")

DOCUMENT = ROOT / "docs" / "PERFORMANCE.md"
TOOLS = {"instructions": (["--tool=callgrind", "--callgrind-out-file=/dev/null"], r"Collected : (\d+)"),
         "bytes": (["--tool=memcheck"], r"([\d,]+) bytes allocated")}


class Cost(NamedTuple):
    """What a script or a run of a length took."""
    length: int
    instructions: int
    bytes: int


def cost(length, command, script=""):
    said = {name: check(["valgrind", *words, *command], input=script) for name, (words, _) in TOOLS.items()}
    return Cost(length, *(int(re.search(pattern, said[name])[1].replace(",", "")) for name, (_, pattern) in TOOLS.items()))


@pytest.fixture(scope="module")
def scripts(program):
    """Scripts of more lines, each a write of IER."""
    return [cost(lines, [program], lines * "sw 01 03\n") for lines in (70, 700, 7_000)]


@pytest.fixture(scope="module")
def runs():
    """Runs of more calls, each a read of LSR."""
    program = built_program("long_run")
    return [cost(calls, [program], f"{calls}\n") for calls in (1_000, 10_000, 100_000, 1_000_000)]


@pytest.mark.parametrize("field", TOOLS)
@pytest.mark.parametrize("name, costs", [("lines of a script", "scripts"), ("calls of a run", "runs")])
def test_growth_is_linear(name, costs, field, request):
    """From each length to the next, a line or a call takes what it took before, up to a tenth."""
    costs = request.getfixturevalue(costs)
    slopes = [(getattr(after, field) - getattr(before, field)) / (after.length - before.length)
              for before, after in zip(costs, costs[1:])]
    assert max(slopes) <= 1.1 * slopes[0] + 0.1, slopes
    said = re.search(rf"^\| {name} \|.*\| ([\d.]+) \| ([\d.]+) \|$", DOCUMENT.read_text(encoding="utf-8"), re.M)
    assert slopes[-1] == pytest.approx(float(said[1 if field == "instructions" else 2]), rel=0.1, abs=0.1)
