# SPDX-License-Identifier: Apache-2.0 OR BSD-3-Clause
"""Drivers that poll, by their own text, over the C library: by a console that knows that the guest polls, and by the code
of docs/PORT.md over a bare port with `is_polled`."""
import os
import platform
import re
from functools import lru_cache

import polling_drivers
import pytest
from common.seed import seed
from guest import WRONG, Monitor
from harness import ROOT, check, run

pytestmark = [pytest.mark.needs("cc"), pytest.mark.where("source of each driver that polls with sums in tests/guests")]

LIBRARY = ROOT / "prebuilt" / f"{platform.machine()}-linux" / "libsuperio_c.a"
EXCHANGES = int(os.environ.get("GUESTS_EXCHANGES", "20000")) // 10
EDGES, LEVELS = False, True


@pytest.fixture(scope="module")
def written(tmp_path_factory):
    """Writes a driver once. All of them have the same monitors."""
    monitors = tmp_path_factory.mktemp("monitors")
    return lru_cache(maxsize=None)(
        lambda name: polling_drivers.write(name, tmp_path_factory.mktemp(name))._replace(monitors=monitors))


# SeaBIOS's console loses input by itself.
@pytest.fixture(scope="module", params=[name for name in polling_drivers.DRIVERS if name != "sercon"])
def driver(request, written):
    return written(request.param)


def stalls(driver, monitor, *options, most=EXCHANGES):
    """In how many exchanges bytes are left, and after how many of these it is enough."""
    said = check([driver.compiled("run.c", LIBRARY, monitor, *options), EXCHANGES, seed(), most])
    return int(re.match(r"(\d+) of ", said)[1])


@pytest.mark.parametrize("line", [EDGES, LEVELS])
@pytest.mark.parametrize("has_console", [True, False])
def test_no_byte_waits(driver, has_console, line):
    assert stalls(driver, Monitor(line, (), has_console)) == 0


@pytest.mark.parametrize("line", [EDGES, LEVELS])
def test_input_is_not_offered_again(driver, line):
    """A monitor that breaks this rule: what found no room in the FIFO waits for ever."""
    assert stalls(driver, Monitor(line, ("NO_OFFER",)), most=1) == 1


@pytest.mark.parametrize("fault, what", {**WRONG, "HIDES_DATA": "registers or counts"}.items())
def test_wrong_monitor(driver, fault, what):
    """An exchange fails if a monitor changes a byte, or a register."""
    ran = run([driver.compiled("run.c", LIBRARY, Monitor(EDGES, (fault,))), EXCHANGES, seed()])
    assert (ran.returncode, ran.stdout) == (1, f"FAIL: {what}\n")


@pytest.mark.parametrize("has_console", [True, False])
def test_not_polled(driver, has_console):
    """No input goes in, in no exchange, if the monitor takes the guest for one with interrupts."""
    assert stalls(driver, Monitor(EDGES, (), has_console), "-DNOT_POLLED") > 0


# What early.c prints of each driver. GRUB's set-up reads all that it finds. SeaBIOS's console does so at each tick, and
# keeps 16 bytes of it. A console's event loop brings the rest later; the code of the page does it in the guest's own reads.
EARLY = "{} bytes thrown away, {} then received; {} held at a clear\n"
KEEPS = {"uboot": EARLY.format(0, 100, 64), "seabios": EARLY.format(0, 100, 0), "edk2": EARLY.format(0, 100, 64),
         "ovmf": EARLY.format(0, 100, 64)}
CONSOLE = {**KEEPS, "grub": EARLY.format(64, 36, 64), "sercon": EARLY.format(68, 32, 0)}
PAGE = {**KEEPS, "grub": EARLY.format(100, 0, 64), "sercon": EARLY.format(84, 16, 0)}


@pytest.mark.parametrize("name", polling_drivers.DRIVERS)
@pytest.mark.parametrize("has_console", [True, False])
def test_early_input(name, written, has_console):
    driver = written(name)
    monitor, expected = Monitor(EDGES, (), has_console), CONSOLE if has_console else PAGE
    assert check([driver.compiled("early.c", LIBRARY, monitor)]) == expected[name]
    # After a reset of the machine without its port SeaBIOS does not know it, and the others do.
    kept = {**expected, "seabios": "finds no port\n"}
    assert check([driver.compiled("early.c", LIBRARY, monitor, "-DKEPT")]) == kept[name]
