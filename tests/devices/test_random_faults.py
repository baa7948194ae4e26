# SPDX-License-Identifier: Apache-2.0 OR BSD-3-Clause
"""The program under random scripts: a read or a write that fails at a random place, input in random pieces, and memory
that is refused at each allocation. The states of the port that a script saves and restores are random with it."""
import random

import model
import pytest
from board import Board
from made import random_calls
from script import replies_of, script_of
from script_tests import Script
from seeds import seeds
from test_failing_io import fault, in_pieces, read_fails_after, with_room
from test_refused_memory import refusing, runs  # noqa: F401, the fixture among them

pytestmark = pytest.mark.needs("kit")

RUNS = 150
RESTORE = b"ss"


def scripts(what, number):
    """Random scripts with their replies, each with the source of what else is random."""
    for seed in seeds(what, number):
        source = random.Random(seed)
        calls = [*random_calls(source, is_for_program=True)]
        replies = "".join(f"{reply}\n" for reply in replies_of(Board(model), calls))
        yield source, Script(f"seed {seed}", script_of(calls).encode(), replies.encode())


def test_reads_and_writes(program):
    kinds = set()
    for source, script in scripts("faults", RUNS):
        count, piece = source.randrange(len(script.script) + 1), source.randrange(1, 5_000)
        room = source.choice([*[source.randrange(len(script.replies) + 1)] * 4, len(script.replies)])
        is_full = room < len(script.replies)
        for got, expected in ((read_fails_after(program, script.script, count), fault(script)),
                              (in_pieces(program, script.script, piece), script),
                              (with_room(program, script.script, room), fault(script, room) if is_full else script)):
            difference = expected.difference(got)
            assert difference is None, difference
        kinds.add(is_full)
    assert kinds == {True, False}


@pytest.mark.needs("cc")
def test_refused_memory(refusing, program):  # noqa: F811
    """The first three allocations come before any line, and the others at a restore. What is printed are the replies to
    the lines before it."""
    restores = 0
    for _, script in scripts("memory", RUNS // 3):
        lines = [line for line in script.script.splitlines() if not line.startswith(b"refuse")]
        replies = script.replies.splitlines(keepends=True)
        before = [b"".join(replies[:place]) for place, line in enumerate(lines) if line == RESTORE]
        for number, is_refused, got in runs(refusing, [program], script.script):
            printed = got[1] if number > 3 and got[1] in before else b""
            expected = script._replace(replies=printed, end="out of memory") if is_refused else script
            difference = expected.difference(got)
            assert difference is None, f"allocation {number}: {difference}"
        assert number > 3 + len(before)
        restores += len(before)
    assert restores >= 5
