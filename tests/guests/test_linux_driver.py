# SPDX-License-Identifier: Apache-2.0 OR BSD-3-Clause
"""Linux's own 8250 driver over the C library: by a console, and by the code of docs/PORT.md over a bare port.

In random exchanges no byte may wait once all is quiet, and with each rule of the page broken some have to.
test_verifier.py proves the same.
"""
import os
import platform
import re

import linux_driver
import pytest
from common.seed import seed
from guest import HERE, WRONG, Monitor
from harness import ROOT, at_least, check, run

pytestmark = [pytest.mark.needs("cc", "linux-source"),
              pytest.mark.where("version of Linux's source with sums in tests/guests")]

LIBRARY = ROOT / "prebuilt" / f"{platform.machine()}-linux" / "libsuperio_c.a"
EXCHANGES = int(os.environ.get("GUESTS_EXCHANGES", "20000"))
EDGES, LEVELS = False, True


@pytest.fixture(scope="module")
def monitors(tmp_path_factory):
    return tmp_path_factory.mktemp("monitors")


@pytest.fixture(scope="module")
def driver(tmp_path_factory, monitors):
    return linux_driver.write(tmp_path_factory.mktemp("linux"))._replace(monitors=monitors)


@pytest.fixture(scope="module", params=[
    pytest.param(name, marks=pytest.mark.where(f"version of Linux {name[6:]} with sums in tests/guests"))
    for name in ("linux-5.10", "linux-6.12")])
def other_driver(request, tmp_path_factory, monitors):
    """Linux of Debian 11 and of Debian 13."""
    return linux_driver.write(tmp_path_factory.mktemp("linux"), request.param)._replace(monitors=monitors)


def stalls(driver, monitor, most=EXCHANGES):
    """In how many exchanges bytes are left, and after how many of these it is enough."""
    said = check([driver.compiled("run.c", LIBRARY, monitor), EXCHANGES, seed(), most])
    return int(re.match(r"(\d+) of ", said)[1])


@pytest.mark.parametrize("line", [EDGES, LEVELS])
@pytest.mark.parametrize("way", ["console", "page", "page without a limit of the poll"])
def test_no_byte_waits(driver, way, line):
    faults = ("NO_LIMIT",) if "limit" in way else ()
    assert stalls(driver, Monitor(line, faults, way == "console")) == 0


@pytest.mark.parametrize("line", [EDGES, LEVELS])
def test_no_byte_waits_in_another_version(other_driver, line):
    assert stalls(other_driver, Monitor(line)) == stalls(other_driver, Monitor(line, (), True)) == 0


# In place of the guest's writes: some that end the program if the monitor's line is what LINE names.
LINE_IS = """#include <stdlib.h>
#include <string.h>
#include "monitor.h"
static void end_if(bool is_so, const char *name) {
    if (is_so && strcmp(getenv("LINE"), name) == 0)
        exit(9);
}
void __real_write_access(uint8_t offset, uint8_t value);
void __wrap_write_access(uint8_t offset, uint8_t value) {
    end_if(mon.line == SINGLE && !mon.can_refuse, "one that takes each edge");
    end_if(mon.line == SINGLE && mon.can_refuse, "one that takes edges one by one, or refuses them");
    end_if(mon.line == SINGLE && mon.edges > 1, "one that has several edges");
    end_if(mon.line == MERGED && !mon.can_refuse, "one that merges edges");
    end_if(mon.line == MERGED && mon.can_refuse, "one that merges edges, or refuses them");
    end_if(mon.line == MERGED && mon.edges > 1, "one that merges edges, and has several");
    __real_write_access(offset, value);
}
"""


@pytest.mark.parametrize("has_console", [True, False])
def test_each_kind_of_line(driver, has_console, tmp_path):
    """Exchanges are made on lines that take edges one by one and on lines that merge them, and both may refuse them."""
    (tmp_path / "line.c").write_text(LINE_IS, "ascii")
    check(["gcc", f"-I{HERE}/monitor", f"-I{ROOT}/bindings/c", "-c", tmp_path / "line.c", "-o", tmp_path / "line.o"])
    (tmp_path / "words").write_text(f"-Wl,--wrap=write_access {tmp_path}/line.o {LIBRARY}\n", "ascii")
    program = driver.compiled("run.c", f"@{tmp_path}/words", Monitor(EDGES, (), has_console))
    for name in ("none", *at_least(6, re.findall(r', "(.*)"\);', LINE_IS))):
        ran = run([program, 1000, seed()], env={**os.environ, "LINE": name})
        assert ran.returncode == (0 if name in ("none", "one that merges edges, and has several") else 9), name


# At levels nothing is refused.
BROKEN = pytest.mark.parametrize("fault, line", [
    ("NO_TIMEOUT", EDGES), ("NO_TIMEOUT", LEVELS), ("ONLY_IN_TURNS", EDGES), ("ONLY_IN_TURNS", LEVELS),
    ("NO_OFFER", EDGES), ("NO_OFFER", LEVELS), ("NO_RETRY", EDGES), ("NO_RETRY_AT_IER", EDGES), ("DROPS_IER", EDGES)])


@BROKEN
def test_broken_rule(driver, fault, line):
    assert stalls(driver, Monitor(line, ("NO_LIMIT", fault)), 1) == 1


@BROKEN
def test_broken_rule_in_another_version(other_driver, fault, line):
    assert stalls(other_driver, Monitor(line, ("NO_LIMIT", fault)), 1) == 1


@pytest.mark.parametrize("fault, what", {**WRONG, "HIDES_DATA": "does not end", "CHANGES_IER": "IER",
                                            "MAKES_UP_INPUT": "registers or counts"}.items())
def test_wrong_monitor(driver, fault, what):
    """An exchange fails if a monitor changes a byte, or a register."""
    ran = run([driver.compiled("run.c", LIBRARY, Monitor(EDGES, (fault,))), EXCHANGES, seed()])
    assert (ran.returncode, ran.stdout) == (1, f"FAIL: {what}\n")


# What limit.c prints if the handler gives up after 514 passes while input comes, and what then is due.
GIVES_UP = """{line}: 8208 bytes sent, {received} received, {held} held, {queue} in the queue; a turn {turn} due
    after the turns that are due {end} received
"""
STALL = {"line": "level", "received": 256, "held": 5, "queue": 39}
ALL = {"received": 300, "held": 0, "queue": 0, "end": 300}


def gives_up(driver, monitor):
    return check([driver.compiled("limit.c", LIBRARY, monitor)])


def test_limit_of_passes(driver):
    """On a line that takes levels input then waits for a turn, for which nothing but the poll's limit calls."""
    assert gives_up(driver, Monitor(LEVELS)) == GIVES_UP.format(**STALL, turn="is", end=300)
    assert gives_up(driver, Monitor(LEVELS, ("NO_LIMIT",))) == GIVES_UP.format(**STALL, turn="is not", end=256)
    assert gives_up(driver, Monitor(EDGES, ("NO_LIMIT",))) == "".join(
        GIVES_UP.format(line=line, **ALL, turn="is not") for line in ("single edges", "merged edges"))
    for line in (EDGES, LEVELS):
        said = gives_up(driver, Monitor(line, (), True))
        assert re.findall(r"(\d+) received\n", said) == ["300"] * (1 if line else 2)
        assert "is not due" not in said


def test_limit_of_passes_in_another_version(other_driver):
    assert gives_up(other_driver, Monitor(LEVELS)) == GIVES_UP.format(**STALL, turn="is", end=300)
    assert gives_up(other_driver, Monitor(LEVELS, ("NO_LIMIT",))) == GIVES_UP.format(**STALL, turn="is not", end=256)
