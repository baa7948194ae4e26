# SPDX-License-Identifier: Apache-2.0 OR BSD-3-Clause
"""Linux's driver of a PL031, as it is in Debian's source, around a clock in a monitor: what is compiled of both."""
from pathlib import Path
from typing import NamedTuple

from cbmc import compiler_of
from guest import assertions, compiled_once
from harness import ROOT, check
from sources import HERE, extract, sources

HARNESS = HERE / "linux"
WHOLE = ["drivers/rtc/rtc-pl031.c", "drivers/rtc/lib.c", "drivers/rtc/interface.c"]
FUNCTIONS = {"drivers/rtc/class.c": ["rtc_device_get_offset", "__devm_rtc_register_device"],
             "drivers/amba/bus.c": ["amba_lookup", "amba_read_periphid"],
             "kernel/time/time.c": ["mktime64"]}
# Headers of the kernel, in whose place clock_kernel.h stands.
HEADERS = """linux/amba/bus linux/bcd linux/cdev linux/const linux/delay linux/device linux/export linux/init
linux/interrupt linux/io linux/ioctl linux/log2 linux/module linux/mutex linux/nvmem-provider linux/pm_wakeirq linux/poll
linux/sched linux/seq_file linux/slab linux/timerqueue linux/types linux/workqueue trace/events/rtc""".split()


def write(folder):
    """Writes the driver into a folder, with stand-ins for the kernel's headers. In clock_driver.c the kernel's functions for
    clocks are beside it, and in clock_alone.c, for a proof, they are not."""
    linux = sources("linux")
    for header in HEADERS:
        path = folder / "include" / f"{header}.h"
        path.parent.mkdir(parents=True, exist_ok=True)
        path.write_text("#include <clock_kernel.h>\n", encoding="ascii")
    text = [f'#include "{linux / file}"\n' for file in WHOLE]
    text += [extract(linux / file, names) for file, names in FUNCTIONS.items()]
    (folder / "clock_driver.c").write_text("\n".join(text), encoding="utf-8")
    (folder / "clock_alone.c").write_text(text[0], encoding="utf-8")
    linux /= "include"
    return Clock(folder, [f"-I{path}" for path in (
        folder, folder / "include", HARNESS, ROOT / "bindings/c", linux, linux / "uapi")])


class Clock(NamedTuple):
    """The driver in a folder, by what a compiler of C has to be told to find it."""
    folder: Path
    words: list

    def compiled(self, built, library):
        """The exchanges over the C library. Their text is mostly the driver's, so no warning of it counts."""
        check(["gcc", "-std=gnu11", "-w", "-O1", *self.words, HARNESS / "clock.c", library, "-o", built])
        return built

    def verify(self, cbmc, entry, monitor):
        """What CBMC says of an entry of clock_prove.c for a monitor with these faults, for which it is compiled once."""
        faults = "".join(f"[{fault}]=true," for fault in monitor.faults)
        built = compiled_once(compiler_of(cbmc), HARNESS / "clock_prove.c",
                              self.folder / "-".join(["clock", *monitor.faults]), *self.words, f"-DHAS={faults or 0}")
        # Functions call themselves once at most, and `comes` has a loop: what is told here is proved too.
        return assertions([*cbmc, built, "--function", entry, "--unwind", "1", "--unwindset", "comes.2:3"])


# Beside each entry of clock_prove.c: what it is about.
ENTRIES = {
    "restores": "a new clock, or one that is restored",
    "passes": "a second goes by",
    "interrupt": "the handler ends its interrupt, and tells of it once",
    "relation": "what others may do has a second, and the handler",
    "relation_twice": "and it has two steps in turn if it has both",
    "read_time": "the time is read",
    "set_time": "the time is set",
    "read_alarm": "the alarm is read",
    "set_alarm": "an alarm is set",
    "turn_alarm": "the alarm is turned on or off",
    "starts": "a kernel starts",
    "due": "the time until an alarm",
    "comes": "from a new clock on, an alarm that is set comes",
}
