# SPDX-License-Identifier: Apache-2.0 OR BSD-3-Clause
"""What is built of the crates in Rattle: the libraries, the programs and the tests, and how many of these there are."""
import fcntl
import os
import re
import shutil
import subprocess
import sys
import tempfile
from contextlib import contextmanager
from pathlib import Path

from common.commands import ROOT

CRATES = ROOT / "crates"
PROGRAMS = "superio", "long_run"
# The tests that tests/devices/test_refused_memory.py runs again.
TESTS = {crate: CRATES / crate / "out" / f"{crate}_tests" for crate in ("script_tests", "superio_tests")}


class NotBuilt(OSError):
    """A program or a library could not be built. The text says why."""


def build(*steps):
    """Runs commands of rt, each in a crate's folder. The lowest crate comes first, because rt goes over the sources of
    a crate once more if it also has to build its libraries. If a command fails, the error names a file with what all of
    them printed. A proof takes RT_JOBS processors, or two if that is not set: each job reads all libraries itself, so
    more of them cost much and save little time."""
    if not shutil.which("rt"):
        raise NotBuilt("nothing was built: rt, of the Rattle kit, is not there")
    with tempfile.NamedTemporaryFile("wb", prefix=f"{steps[-1][0]}-", suffix=".log", delete=False) as log:
        for number, (crate, command) in enumerate(steps, 1):
            print(f"step {number} of {len(steps)}: rt {command} in crates/{crate}", file=sys.stderr)
            words = ["rt", *command.split(), "--jobs", os.environ.get("RT_JOBS", "2")]
            ran = subprocess.run(words, cwd=CRATES / crate, stdin=subprocess.DEVNULL, stdout=log, stderr=log)
            if ran.returncode:
                raise NotBuilt(f"`rt {command}` ended with status {ran.returncode} in crates/{crate}, and {log.name} "
                               "has what it printed")
    os.unlink(log.name)


@contextmanager
def alone():
    """Lets one process at a time go on: pytest may have several workers, and each builds in the folders of crates."""
    folder = os.open(CRATES, os.O_RDONLY)
    try:
        fcntl.flock(folder, fcntl.LOCK_EX)
        yield
    finally:
        os.close(folder)


def crates_below(crate):
    """The crates of the repository that a crate uses, and those that they use, each once and lowest first."""
    lines = dict(re.findall(r"^(\w+)[^:#\n]*:(.*)", (ROOT / "crates.txt").read_text(encoding="utf-8"), re.M))
    found = []
    for used in lines[crate].split():
        if used in lines:
            found += [below for below in [*crates_below(used), used] if below not in found]
    return found


def path_of(crate):
    """Where the program of a crate is, once it was built."""
    return CRATES / crate / "out" / crate


def is_current(crate):
    """Whether the program of a crate is there, and no older than its sources."""
    sources = [path for name in [*crates_below(crate), crate] for path in (CRATES / name / "src").rglob("*.rt")]
    program = path_of(crate)
    return program.exists() and program.stat().st_mtime >= max(path.stat().st_mtime for path in sources)


def built_program(crate="superio"):
    """The proved program of a crate, which is proved and built if it is not there or older than its sources."""
    with alone():
        if not is_current(crate):
            build(*((below, "lib") for below in crates_below(crate)), (crate, "run"))
    return path_of(crate)


def number_of_edits():
    """How many must-fail edits the crates have."""
    return len(list(CRATES.glob("*/must-fail/*.edit")))


def number_of_named_bodies():
    """How many wrong bodies the edits have that change several functions. A comment above each names its function."""
    edits = (path.read_text(encoding="utf-8") for path in CRATES.glob("*/must-fail/*.edit"))
    return sum(len(re.findall("^# ", text, re.M)) for text in edits)


def number_of_tests():
    """How many tests in Rattle the crates have."""
    sources = (path.read_text(encoding="utf-8") for path in CRATES.glob("*/src/**/*.rt"))
    return sum(len(re.findall(r"^ *#\[test\]$", text, re.M)) for text in sources)


def hand_over():
    """Marks what `rt ci` built as built from the present sources, so that nothing proves it again. This is needed
    because `rt ci` leaves libraries without the stamp by which `rt` knows them, and because programs of an earlier run
    are older than the sources of a fresh clone."""
    sys.dont_write_bytecode = True
    sys.path.append(str(Path(shutil.which("rt")).resolve().parent))
    import rtlib
    for crate in rtlib.crates_below(str(ROOT)):
        if (library := Path(crate.folder, "out", "rlib")).is_dir():
            (library / "stamp").write_text(crate.stamp(), encoding="utf-8")
    for program in (*map(path_of, PROGRAMS), *TESTS.values()):
        if program.exists():
            program.touch()
