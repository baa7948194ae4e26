# SPDX-License-Identifier: Apache-2.0 OR BSD-3-Clause
"""Xen's own driver over the C library: by a console, and by the code of docs/PORT.md over a bare port."""
import os
import platform
import re

import pytest
import xen_driver
from common.seed import seed
from guest import WRONG, Monitor
from harness import ROOT, check, run

pytestmark = [pytest.mark.needs("cc"), pytest.mark.where("version of Xen's source with sums in tests/guests")]

LIBRARY = ROOT / "prebuilt" / f"{platform.machine()}-linux" / "libsuperio_c.a"
EXCHANGES = int(os.environ.get("GUESTS_EXCHANGES", "20000")) // 4  # each is longer than one of Linux
EDGES, LEVELS = False, True


@pytest.fixture(scope="module")
def driver(tmp_path_factory):
    return xen_driver.write(tmp_path_factory.mktemp("xen"))


def stalls(driver, monitor, *options, most=EXCHANGES):
    """In how many exchanges bytes are left, and after how many of these it is enough."""
    said = check([driver.compiled("run.c", LIBRARY, monitor, *options), EXCHANGES, seed(), most])
    return int(re.match(r"(\d+) of ", said)[1])


@pytest.mark.parametrize("line", [EDGES, LEVELS])
@pytest.mark.parametrize("way", ["console", "page", "page without a limit of the poll"])
def test_no_byte_waits(driver, way, line):
    faults = ("NO_LIMIT",) if "limit" in way else ()
    assert stalls(driver, Monitor(line, faults, way == "console"), *([] if faults else ["-DDEBUGGER"])) == 0


@pytest.mark.parametrize("fault, line", [
    ("NO_TIMEOUT", EDGES), ("NO_TIMEOUT", LEVELS), ("ONLY_IN_TURNS", EDGES), ("ONLY_IN_TURNS", LEVELS), ("NO_OFFER", EDGES),
    ("NO_OFFER", LEVELS), ("NO_RETRY", EDGES), ("NO_RETRY_AT_IER", EDGES), ("DROPS_IER", EDGES)])
def test_broken_rule(driver, fault, line):
    assert stalls(driver, Monitor(line, ("NO_LIMIT", fault)), most=1) == 1


@pytest.mark.parametrize("fault, what", {**WRONG, "HIDES_DATA": "does not end"}.items())
def test_wrong_monitor(driver, fault, what):
    """An exchange fails if a monitor changes a byte, or a register."""
    ran = run([driver.compiled("run.c", LIBRARY, Monitor(EDGES, (fault,))), EXCHANGES, seed()])
    assert (ran.returncode, ran.stdout) == (1, f"FAIL: {what}\n")


def test_debugger_needs_the_limit(driver):
    """It reads one byte and not IIR, so on a line that takes levels the bytes behind it wait for a turn."""
    assert stalls(driver, Monitor(EDGES, ("NO_LIMIT",)), "-DDEBUGGER") == 0
    assert stalls(driver, Monitor(LEVELS, ("NO_LIMIT",)), "-DDEBUGGER", most=1) == 1
