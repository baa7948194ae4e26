# SPDX-License-Identifier: Apache-2.0 OR BSD-3-Clause
"""What CBMC proves of drivers and the code of docs/PORT.md, and what it has to refute."""
from functools import lru_cache
from typing import NamedTuple

import cbmc
import kept
import linux_clock
import linux_driver
import sources
import xen_driver
from guest import Monitor
from harness import ROOT, check

EDGES, LEVELS = False, True
NO_LIMIT = ("NO_LIMIT",)


# Of what a check is made, beside a driver's source, whose sums are here, and the programs that make it.
MADE_OF = [sources.HERE, ROOT / "tests/common", ROOT / "tools/common", ROOT / "bindings/c/superio.h", ROOT / "docs/PORT.md"]


@lru_cache(maxsize=None)
def programs():
    """What the programs that make a check say of their versions."""
    return f"{cbmc.version(cbmc.installed())}\n{check(['gcc', '--version'])}"


class Check(NamedTuple):
    """An entry of prove.c for a monitor, and what has to become of it: all its assertions are proved, and all places of
    REACHED are reached, so that what it assumes is possible; or some assertion is refuted."""
    entry: str
    monitor: Monitor
    options: tuple = ()
    outcome: str = "proved"
    driver: str = "linux"

    def __str__(self):
        line = "levels" if self.monitor.has_level else "edges"
        return " ".join([self.driver, self.outcome, self.entry, line, *self.monitor.faults, *self.options])

    @property
    def source(self):
        """The source that has its driver, by its name in sources.py."""
        return "linux" if self.driver == "clock" else self.driver

    def is_met(self, driver, cbmc):
        """Whether CBMC says so. To be reached is to be refuted."""
        found = driver.verify(cbmc, self.entry, self.monitor, *self.options)
        reached = [not holds for text, holds in found if text.startswith("reached: ")]
        said = [holds for text, holds in found if not text.startswith("reached: ")]
        if self.outcome == "proved":
            return all(said) and all(reached) and len(reached) > 0
        is_complete = all(holds for text, holds in found if "unwinding" in text)   # no loop is cut
        return is_complete and not all(said)

    def make(self, driver):
        """Fails unless CBMC says so, now or in an earlier run."""
        def make(_):
            assert self.is_met(driver, cbmc.installed())
        kept.proof(f"CBMC: {self}", [*MADE_OF, repr(self), sources.told(self.source), programs()], make)


def clock(entry, *faults, outcome="proved"):
    return Check(entry, Monitor(LEVELS, faults), (), outcome, "clock")


def options_of(entry):
    return ("-DANY_PASS",) if entry in ("receives", "looks", "pass") else ()


def steps(faults):
    """All steps of a monitor with Linux's driver, for both kinds of lines."""
    return [Check(entry, Monitor(line, faults), options_of(entry)) for entry in linux_driver.ENTRIES
            for line in (EDGES, LEVELS)]


# The code of the page as it stands: any interrupt, also one in which the handler gives up.
AS_IT_STANDS = [*steps(()), *(Check("whole_interrupt", Monitor(line)) for line in (EDGES, LEVELS))]
# Without a limit of the poll, as long as the handler does not give up.
WITHOUT_LIMIT = steps(NO_LIMIT)
# Other kinds of ports, a port that is opened while nothing else runs, the driver's tests for lost interrupts, and the
# loop that receives bytes as it is, for at most 8.
VARIANTS = [Check(entry, Monitor(line, NO_LIMIT), options) for entry, options in [
    ("open", ("-DALONE",)), ("act_start", ("-DBUGS=UART_BUG_TXEN",)), ("act_write", ("-DBUGS=UART_BUG_TXEN",)),
    ("pass", ("-DCOUNTS",)), ("pass", ("-DTYPE=PORT_8250", "-DANY_PASS")),
    ("pass", ("-DTYPE=PORT_U6_16550A", "-DANY_PASS"))] for line in (EDGES, LEVELS)]
# A monitor that breaks a rule; and the handler's limit, without the poll's.
REFUTED = [Check(entry, Monitor(line, (*NO_LIMIT, *faults)), options_of(entry), "refuted") for entry, line, faults in [
    ("begins", EDGES, ("NO_TIMEOUT",)), ("begins", LEVELS, ("NO_TIMEOUT",)), ("begins", EDGES, ("ONLY_IN_TURNS",)),
    ("begins", LEVELS, ("ONLY_IN_TURNS",)), ("host", EDGES, ("NO_RETRY",)), ("act_write", EDGES, ("NO_RETRY_AT_IER",)),
    ("act_write", EDGES, ("DROPS_IER",)), ("receives", EDGES, ("NO_OFFER",)), ("receives", LEVELS, ("NO_OFFER",)),
    ("whole_interrupt", EDGES, ()), ("whole_interrupt", LEVELS, ())]]
# The same rules, if the poll keeps its limit.
REFUTED += [Check(entry, Monitor(line, (fault,)), options_of(entry), "refuted") for entry, line, fault in [
    ("turns", EDGES, "NO_TIMEOUT"), ("turns", LEVELS, "NO_TIMEOUT"), ("act_write", EDGES, "NO_RETRY_AT_IER"),
    ("act_write", EDGES, "DROPS_IER"), ("receives", EDGES, "NO_OFFER"), ("receives", LEVELS, "NO_OFFER")]]

# Xen's driver. Without the poll's limit a poll, and the debugger, may leave bytes at levels.
XEN = [Check(entry, Monitor(line), driver="xen") for entry in xen_driver.ENTRIES for line in (EDGES, LEVELS)]
XEN_WITHOUT_LIMIT = [Check(entry, Monitor(line, NO_LIMIT), driver="xen") for entry in xen_driver.ENTRIES
                     for line in (EDGES, LEVELS) if not (line and entry in ("poll", "debugger"))]
XEN_REFUTED = [Check(entry, Monitor(line, (*NO_LIMIT, *faults)), (), "refuted", "xen") for entry, line, faults in [
    ("debugger", LEVELS, ()), ("interrupt_runs", EDGES, ("NO_TIMEOUT",)), ("interrupt_runs", LEVELS, ("NO_TIMEOUT",)),
    ("interrupt_runs", EDGES, ("ONLY_IN_TURNS",)), ("interrupt_runs", LEVELS, ("ONLY_IN_TURNS",)),
    ("interrupt_runs", EDGES, ("NO_OFFER",)), ("interrupt_runs", LEVELS, ("NO_OFFER",)),
    ("host", EDGES, ("NO_RETRY",)), ("resume", EDGES, ("NO_RETRY_AT_IER",)), ("resume", EDGES, ("DROPS_IER",))]]
XEN_REFUTED += [Check("turns", Monitor(line, ("NO_TIMEOUT",)), (), "refuted", "xen") for line in (EDGES, LEVELS)]

# Linux's driver of the clock. The gate leaves out what is dear.
CLOCK_OUTSIDE = [clock(entry) for entry in ("due", "comes", "read_alarm")]
CLOCK = [clock(entry) for entry in linux_clock.ENTRIES if clock(entry) not in CLOCK_OUTSIDE]
CLOCK_RESET = [clock("starts", "PASSES_CONTROL", "EXPECTS_RESET")]
CLOCK_REFUTED = [clock(entry, fault, outcome="refuted") for entry, fault in [
    ("starts", "PASSES_CONTROL"), ("comes", "NO_LINE"), ("comes", "NO_TIMER"), ("comes", "NO_READ"),
    ("set_time", "NOT_AT_ONCE"), ("restores", "NOT_RESTORED")]]

# What each check is about. The gate makes the first parts, and judge.py all.
OF_GATE = [("the code of the page", AS_IT_STANDS), ("a rule of it broken", REFUTED)]
OF_GATE_OF_CLOCK = [("the clock's driver", CLOCK), ("a rule of the clock broken", CLOCK_REFUTED)]
QUICK = [*OF_GATE, *OF_GATE_OF_CLOCK]
PARTS = [*QUICK,
         ("without the poll's limit", WITHOUT_LIMIT), ("other kinds of ports", VARIANTS), ("the code of the page", XEN),
         ("a rule of it broken", XEN_REFUTED), ("without the poll's limit", XEN_WITHOUT_LIMIT),
         ("the clock's driver", CLOCK_OUTSIDE), ("with writes at RTCCR passed on", CLOCK_RESET)]
