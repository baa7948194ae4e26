# SPDX-License-Identifier: Apache-2.0 OR BSD-3-Clause
"""Memory that is refused, one allocation after another, to the program and to tests in Rattle.

Each script below, and each test of a module `refused_memory` of the crates, runs without its first allocation, without
its second, and so on, until a run has them all. Each of a script's other runs must end as out of memory, and print the
replies before the line that wanted it. A test must pass each time: it knows what may be left.
"""
import re
import subprocess
from itertools import count

import pytest
from common.rattle import CRATES, TESTS, alone, build
from harness import LIMIT, ROOT, at_least, check, run
from script_tests import of_block

pytestmark = pytest.mark.needs("kit", "cc")

# Loaded before the C library, it refuses the allocation whose number, from 1, the environment has, and says so.
REFUSING = """
#include <stdlib.h>
#include <unistd.h>

void *__libc_realloc(void *block, size_t size);

void *realloc(void *block, size_t size)
{
    static long allocations;
    if (++allocations != atol(getenv("REFUSED")))
        return __libc_realloc(block, size);
    return write(2, "refused\\n", 8) == 8 ? NULL : (abort(), NULL);
}

void *malloc(size_t size)
{
    return realloc(NULL, size);
}
"""
SAID = b"refused\n"
# Scripts, and how many replies they print without each allocation: none without the buffer of the output, that for the
# script and the port, and then those before an `ss`.
SCRIPTS = [
    (["kr 04  00", "sq 61  01", "ss  ok", "sr 00  61", "kr 5", "bad line 5"], [0, 0, 0, 2, 2]),
    (["kr 5", "bad line 1"], [0, 0, 0]),
]
# The tests in Rattle, each by its crate and its name.
NAMES = at_least(14, [
    (path.parts[-3], name) for path in sorted(CRATES.glob("*/src/refused_memory.rt"))
    for name in re.findall(r"^#\[test\]\n(?:#\[.*\n)*(?:pub )?fn (\w+)", path.read_text(encoding="utf-8"), re.M)
])


@pytest.fixture(scope="module")
def refusing(tmp_path_factory):
    """The library that refuses memory."""
    path = tmp_path_factory.mktemp("refusing") / "refusing.so"
    check(["cc", "-shared", "-fPIC", "-fno-builtin", "-Wall", "-Werror", "-x", "c", "-", "-o", path], "",
          input=REFUSING)
    return path


@pytest.fixture(scope="module")
def tests():
    """The proved tests of each crate, which are proved and built if they are missing or older than the sources."""
    sources = max(path.stat().st_mtime for path in CRATES.glob("*/src/**/*.rt"))
    with alone():
        for crate, built in TESTS.items():
            if not built.exists() or built.stat().st_mtime < sources:
                build((crate, "test"))
    return TESTS


def runs(library, command, script=b""):
    """Runs a command without each of its allocations in turn, and then with all. Gives the number of the allocation,
    whether it was refused, and the status, the output and the errors."""
    for number in count(1):
        ran = subprocess.run(command, input=script, capture_output=True, timeout=LIMIT,
                             env={"LD_PRELOAD": str(library), "REFUSED": str(number)})
        is_refused = SAID in ran.stderr
        yield number, is_refused, (ran.returncode, ran.stdout, ran.stderr.replace(SAID, b"", 1))
        if not is_refused:
            return


@pytest.mark.parametrize("rows, printed", SCRIPTS, ids=lambda value: value[0] if isinstance(value[0], str) else "")
def test_script(refusing, program, rows, printed):
    script, = of_block("the script", rows)
    found = list(runs(refusing, [program], script.script))
    for (number, is_refused, got), before in zip(found, [*printed, None]):
        replies = b"".join(script.replies.splitlines(keepends=True)[:before])
        expected = script._replace(place=f"allocation {number}", replies=replies, end="out of memory")
        difference = (expected if is_refused else script).difference(got)
        assert difference is None, difference
    assert len(found) == len(printed) + 1


@pytest.mark.parametrize("crate, name", NAMES)
def test_in_rattle(refusing, tests, crate, name):
    """A test passes without each of its allocations, of which it has some."""
    found = list(runs(refusing, [tests[crate], f"refused_memory::{name}"]))
    for number, _, (status, _, errors) in found:
        assert status == 0, f"without allocation {number}: {errors.decode(errors='replace')}"
    assert len(found) > 1


def test_each_is_named(tests):
    listed = [(crate, name) for crate, built in tests.items()
              for name in re.findall(r"^refused_memory::(\w+): test$", run([built, "--list"]).stdout, re.M)]
    assert sorted(listed) == sorted(NAMES)


def test_number_of_allocations(refusing, tests):
    """66 runs in all, of which each test has one with all its allocations."""
    assert sum(len(list(runs(refusing, [tests[crate], f"refused_memory::{name}"]))) for crate, name in NAMES) >= 66
