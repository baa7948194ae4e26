# SPDX-License-Identifier: Apache-2.0 OR BSD-3-Clause
"""Linux's own driver of a PL031 over a clock of the C library, in a monitor by docs/CLOCK.md.

In random exchanges a time that was set goes on, and an alarm interrupts at its time and not before. README.md beside this
file says what is compiled.
"""
import os
import platform
import re

import linux_clock
import proofs
import pytest
from common.facts import CLOCK as FACTS
from common.seed import seed
from harness import ROOT, check, run
from sources import HERE

pytestmark = [pytest.mark.needs("cc", "linux-source"),
              pytest.mark.where("version of Linux's source with sums in tests/guests")]

LIBRARY = ROOT / "prebuilt" / f"{platform.machine()}-linux" / "libsuperio_c.a"
EXCHANGES = int(os.environ.get("GUESTS_EXCHANGES", "20000"))


@pytest.fixture(scope="module")
def driver(tmp_path_factory):
    return linux_clock.write(tmp_path_factory.mktemp("clock"))


@pytest.fixture(scope="module")
def program(driver, tmp_path_factory):
    return driver.compiled(tmp_path_factory.mktemp("exchanges") / "clock", LIBRARY)


def wrong(program, *faults, exchanges=EXCHANGES):
    """What was wrong first in an exchange, and in how many."""
    said = check([program, exchanges, seed(), *faults])
    total, interrupts = map(int, re.match(r"(\d+) of \d+ exchanges were wrong; (\d+) interrupts", said).groups())
    reasons = {what: int(count) for count, what in re.findall(r"^    (\d+): (.*)$", said, re.M)}
    assert sum(reasons.values()) == total
    assert (interrupts > 0) == ("NO_LINE" not in faults)
    return reasons


def test_time_and_alarm(program):
    assert not wrong(program)


def test_a_probe_resets_the_time(program):
    """If writes at RTCCR are passed on, each start of a kernel takes the clock back to the host's time."""
    assert not wrong(program, "PASSES_CONTROL", "EXPECTS_RESET")
    assert "RTCDR shows another time" in wrong(program, "PASSES_CONTROL", exchanges=2000)


@pytest.mark.parametrize("fault, what", [
    ("NO_LINE", "an interrupt never comes"), ("NO_TIMER", "an alarm is late"), ("NO_READ", "an alarm is late"),
    ("NOT_AT_ONCE", "an alarm is late"), ("NOT_RESTORED", "an alarm is late")])
def test_broken_monitor(program, fault, what):
    assert what in wrong(program, fault, exchanges=2000)


@pytest.mark.parametrize("fault", ["LATE", "STOPS"])
def test_an_alarm_that_the_driver_clears(program, fault):
    """If a timer is up to a second late, or the guest is stopped in the middle of a call, the driver's own write of
    RTCICR may find the alarm, and clear it."""
    assert "a program waits for ever" in wrong(program, fault, exchanges=max(EXCHANGES, 40000))


def test_an_alarm_that_the_monitor_clears(program):
    """Also if the driver had lost another alarm before, which it may."""
    assert {"a program waits for ever", "another alarm is lost"} <= wrong(program, "CLEARS", exchanges=20000).keys()


CLOCK = (HERE / "monitor/clock_device.c").read_text(encoding="utf-8")


def compared(folder, text):
    """What a comparison says of a clock whose file has this text, by the registers that it has."""
    (folder / "clock_device.c").write_text(text, encoding="utf-8")
    (folder / "compare_clock.c").write_bytes((HERE / "monitor/compare_clock.c").read_bytes())
    built = folder / "compare_clock"
    check(["gcc", "-std=gnu11", "-O1", f"-I{ROOT}/bindings/c", folder / "compare_clock.c", LIBRARY, "-o", built])
    left_out = [register["offset"] for register in FACTS["registers"] if f"case {register['name']}:" not in text]
    return run([built, 2000000, seed(), *left_out]).stdout


def test_the_clock_of_the_proof(tmp_path):
    """clock_device.c is the library's clock, as far as random calls tell."""
    calls, alarms, nevers = map(int, re.match(r"(\d+) calls are the same, (\d+) alarms come, (\d+) never\n$",
                                              compared(tmp_path, CLOCK)).groups())
    assert calls == 2000000 and alarms > 1000 and nevers > 1000


@pytest.mark.parametrize("old, new", [
    ("case RIS: done.value = c->ris;", "case RIS: done.value = c->ris & c->imsc;"),
    ("(int64_t)value - time;", "value;"), ("shown(c->offset, time) < value", "shown(c->offset, time) <= value"), ("return first - time;", "return first;"),
    ("return c->ris & c->imsc & 1", "return c->ris & 1"), ("done.invalid_write = true", ""),
    ("done.invalid_read = offset < ID", "done.invalid_read = offset <= ID")])
def test_another_clock_is_found(tmp_path, old, new):
    """By a value that is read, a state, an alarm that is due, the line, or an event."""
    assert CLOCK.count(old) == 1
    assert "differs" in compared(tmp_path, CLOCK.replace(old, new))


@pytest.mark.where("CBMC 6")
@pytest.mark.parametrize("case", [case for _, cases in proofs.OF_GATE_OF_CLOCK for case in cases], ids=str)
def test_proof(case, driver):
    case.make(driver)
