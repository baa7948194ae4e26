#!/usr/bin/env python3
# SPDX-License-Identifier: Apache-2.0 OR BSD-3-Clause
"""Judges the rules of docs/PORT.md, and the console, by drivers' own sources.

    tests/guests/judge.py [--exchanges N] [--jobs N] [--quick]

Gets the drivers' sources out of Debian's, makes random exchanges of them over the C library, and proves by CBMC that
with Linux's and Xen's no byte waits for ever, and that a clock keeps its time and alarms. README.md beside this file
says what is proved, and what is trusted. Fetches CBMC 6 from Debian 13 if this machine has none. Prints a line for each
proof, with the seconds of a processor that it took, and at the end what was proved of which version. Exits 1 if a proof
or an exchange fails.
"""
import argparse
import os
import resource
import subprocess
import sys
import tempfile
from concurrent.futures import ProcessPoolExecutor
from itertools import repeat
from pathlib import Path

ROOT = Path(__file__).resolve().parents[2]
sys.path[:0] = [str(ROOT / folder) for folder in ("tools", "tests/common")]
import cbmc  # noqa: E402
import linux_clock  # noqa: E402
import linux_driver  # noqa: E402
import proofs  # noqa: E402
import sources  # noqa: E402
import xen_driver  # noqa: E402

DRIVERS = {"linux": linux_driver, "xen": xen_driver, "clock": linux_clock}


def made(check, command):
    """Makes a check, in a folder of its own, and prints its line. Returns whether it is as it should be, and the
    seconds of a processor that it took."""
    start = resource.getrusage(resource.RUSAGE_CHILDREN)
    with tempfile.TemporaryDirectory() as folder:
        is_good = check.is_met(DRIVERS[check.driver].write(Path(folder)), command)
    end = resource.getrusage(resource.RUSAGE_CHILDREN)
    seconds = end.ru_utime + end.ru_stime - start.ru_utime - start.ru_stime
    print(f"{'ok' if is_good else 'WRONG'}: {check}, {seconds:.1f} s", flush=True)
    return is_good, seconds


def make(checks, command, jobs):
    """Makes checks, `jobs` of them at a time. Each process knows how long its own checks took."""
    with ProcessPoolExecutor(jobs) as pool:
        return list(pool.map(made, checks, repeat(command)))


def tell(parts, results, command):
    """Prints what was proved of which version."""
    seconds = sum(seconds for _, seconds in results)
    print(f"By CBMC {cbmc.version(command)}, in {seconds:.0f} s of a processor:")
    results = iter(results)
    for about, checks in parts:
        good = sum(is_good for _, (is_good, _) in zip(checks, results))  # in this order it takes no result too many
        print(f"{good} of {len(checks)} {checks[0].outcome}, {sources.told(checks[0].source)}: {about}")


def main():
    parser = argparse.ArgumentParser(description=__doc__, formatter_class=argparse.RawDescriptionHelpFormatter)
    parser.add_argument("--exchanges", type=int, default=20000, help="how many random exchanges each test makes")
    parser.add_argument("--jobs", type=int, default=len(os.sched_getaffinity(0)), help="how many proofs run at a time")
    parser.add_argument("--quick", action="store_true", help="make only the proofs that the gate makes")
    options = parser.parse_args()
    for folder in (sources.KEPT, sources.KEPT / "packages"):   # it is asked for now, whatever failed before
        (folder / "unreachable").unlink(missing_ok=True)
    try:
        read = [name for name in sources.SOURCES if sources.is_recorded(name)]
        command = cbmc.fetched()
    except subprocess.CalledProcessError as failed:
        sys.exit(f"Debian's archive did not give what is needed: {failed}")
    if not command:
        sys.exit("there is no CBMC 6, which is fetched for x86-64 alone")
    ran = subprocess.run(["/usr/bin/python3", "-m", "pytest", "-q", "tests/guests", "--deselect",
                          "tests/guests/test_verifier.py"], cwd=ROOT,
                         env={**os.environ, "GUESTS_EXCHANGES": str(options.exchanges)}).returncode
    parts = [(about, checks) for about, checks in (proofs.QUICK if options.quick else proofs.PARTS)
             if checks[0].source in read]
    results = make([check for _, checks in parts for check in checks], command, options.jobs)
    print(f"Random exchanges {'failed' if ran else 'passed'}:", ", ".join(map(sources.told, read)))
    tell(parts, results, command)
    unread = [name for name in sources.SOURCES if name not in read]
    for name in unread:
        print(f"NOT TRIED: {sources.told(name)}, of which tests/guests has no sums")
    return 1 if ran or unread or not all(is_good for is_good, _ in results) else 0


if __name__ == "__main__":
    sys.exit(main())
