# SPDX-License-Identifier: Apache-2.0 OR BSD-3-Clause
"""The places of tests: what a test may need that no package of Debian 12 has."""
import subprocess
import sys
from functools import lru_cache

from common.requirements import is_there
from harness import ROOT


def of_tests(line):
    """A line of Python over the modules here, in tests/guests and in tools."""
    folders = [str(ROOT / folder) for folder in ("tests/common", "tests/guests", "tools")]
    return f"import sys; sys.path[:0] = {folders}; {line}"


# What no package of Debian 12 has: tests of it run where that is there. Those of tests/guests fetch it.
PLACES = {"KVM": "import fcntl, os; fcntl.ioctl(fcntl.ioctl(os.open('/dev/kvm', os.O_RDWR), 0xAE01), 0xAE60)",
          "Deno": "deno",
          "Python 3.8": "import os; assert os.popen('python3.8 --version 2>&1').read().startswith('Python 3.8.')",
          **{f"version of {called} with sums in tests/guests":
             of_tests(f"import sources; assert sources.is_recorded('{name}')")
             for called, name in [("Linux's source", "linux"), ("Linux 5.10", "linux-5.10"),
                                  ("Linux 6.12", "linux-6.12"), ("Xen's source", "xen")]},
          "source of each driver that polls with sums in tests/guests":
          of_tests("import polling_drivers; assert polling_drivers.are_recorded()"),
          "CBMC 6": of_tests("import cbmc; assert cbmc.fetched()"),
          "Linux on x86-64": "/lib64/ld-linux-x86-64.so.2",
          **{f"Rust for {target}": of_tests(f"import toolchains; assert toolchains.toolchain_for('{target}')")
             for target in ("thumbv7m-none-eabi", "riscv32imac-unknown-none-elf", "x86_64-unknown-none")},
          "folder VM_SUPERIO of vm-superio 0.8.2": "$VM_SUPERIO",
          "variable RECHECK_PLANTS": "$RECHECK_PLANTS",
          # Those of docs/PERFORMANCE.md.
          **{f"{name} {version}": f"import os; assert '{version}' in os.popen('{name} {option}').read().split()"
             for name, version, option in [("rustc", "1.95.0", "--version"), ("gcc", "12.2.0", "-dumpfullversion")]}}
# Runs the line of a place. What it asserts, and what the system refuses, is not there.
PROBE = "try:\n    exec({!r})\nexcept (AssertionError, OSError):\n    raise SystemExit(3)"


@lru_cache(maxsize=None)
def is_place(name):
    """Whether a place is there. If its line fails in any other way than PROBE says, the line is wrong: no test may be
    left out for that."""
    if not PLACES[name].startswith("import "):
        return is_there(PLACES[name])
    ran = subprocess.run([sys.executable, "-c", PROBE.format(PLACES[name])], capture_output=True, text=True)
    if ran.returncode not in (0, 3):
        raise ValueError(f"PLACES of places.py: {name}: {ran.stderr}")
    return ran.returncode == 0
