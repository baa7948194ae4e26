# SPDX-License-Identifier: Apache-2.0 OR BSD-3-Clause
"""Runs commands within a sandbox, one after the other, and ends all that each has started. A line of JSON on standard
input asks for a command, and a line of JSON on standard output says how it ended.

A command that is a text goes to the shell. A list of words goes to pytest, which is imported here once: a run of pytest
is a fork of this process, so it begins in a fraction of the time. It says which tests it has found, or which has
failed.
"""
import json
import os
import resource
import select
import shutil
import signal
import sys
import time
from contextlib import suppress
from ctypes import CDLL
from importlib import import_module
from pathlib import Path

# What the tests import, beside what is imported here. A module that is missing is left out.
IMPORTED = ["pytest", "hypothesis", "hypothesis.strategies", "xdist.plugin", "xdist.looponfail",
            "concurrent.futures.thread", "ctypes.util", "difflib", "lzma", "random", "socket", "subprocess", "tarfile",
            "unittest.mock", "zlib"]
SUBREAPER = 36                # PR_SET_CHILD_SUBREAPER: a process that has lost its parent becomes a child of this one
TEMPORARY = ["/tmp", "/dev/shm"]
PROCESSES = Path("/proc")
MOST_WRITTEN = 200_000 << 10  # how many bytes a file can have
TICKS = os.sysconf("SC_CLK_TCK")   # how many ticks a second has
QUIET, LOOKS = 10, 2          # after how many idle seconds a command is late, and how often per second we look
LEAST = 0.05                  # a command that took fewer seconds of a processor between two looks is idle


class Told:
    """Tells which tests pytest finds, if it is only asked to find them. Otherwise tells the first that fails, and ends
    there."""

    def __init__(self, file):
        self.file = file

    def tell(self, name):
        os.write(self.file, f"{name}\n".encode())

    def pytest_runtest_logreport(self, report):
        if report.failed:
            self.tell(report.nodeid)
            os._exit(1)

    def pytest_collection_finish(self, session):
        for item in session.items if session.config.option.collectonly else ():
            self.tell(item.nodeid)


def begin(command, memory, told):
    """Runs a command in a process that is its own. Returns its status."""
    os.setsid()
    nothing = os.open(os.devnull, os.O_RDWR)
    for file in range(3):
        os.dup2(nothing, file)
    resource.setrlimit(resource.RLIMIT_FSIZE, (MOST_WRITTEN, MOST_WRITTEN))
    if memory:
        resource.setrlimit(resource.RLIMIT_AS, (memory << 10, memory << 10))
    if isinstance(command, str):
        for number in (signal.SIGPIPE, signal.SIGXFSZ):   # which Python ignores
            signal.signal(number, signal.SIG_DFL)
        os.execvp("bash", ["bash", "-c", command])
    sys.argv = ["pytest", *command]
    return import_module("pytest").main(command, plugins=[Told(told)])


def stats(*pattern):
    """The numbers about each process but these two, or about their threads, from their state on."""
    for path in PROCESSES.glob("/".join(["[0-9]*", *pattern, "stat"])):
        if int(path.relative_to(PROCESSES).parts[0]) not in (1, os.getpid()):
            with suppress(OSError):
                yield path.read_text(encoding="utf-8", errors="replace").rpartition(")")[2].split()


def taken():
    """How many seconds of a processor all processes here took, together with their children that have ended."""
    return sum(sum(map(int, numbers[11:15])) for numbers in stats()) / TICKS


def goes_on(processor):
    """Whether a command did something between two looks, for which it took so much of a processor, or waits for a disk.
    It did not if it only polls, whatever state a look finds it in. Only on a machine with ten times as much to do as it
    has processors does one that works get less."""
    return processor >= LEAST or any(numbers[0] == "D" for numbers in stats("task", "[0-9]*"))


def is_late(child, seconds, processor):
    """Waits for a child. Returns whether it was late: it took too many seconds, too many of a processor, or was
    idle."""
    end, before, quiet = time.monotonic() + seconds, 0, 0
    with open(os.pidfd_open(child), "rb", 0) as file:
        while not select.select([file], [], [], 1 / LOOKS)[0]:
            now = taken()
            quiet = 0 if goes_on(now - before) else quiet + 1
            if time.monotonic() >= end or now >= processor or quiet >= QUIET * LOOKS:
                return True
            before = now
    return False


def ended(child, how):
    """How a child has ended, and how many seconds of a processor it took with all that it started. Ends all of
    these."""
    total = 0
    while found := Path(f"/proc/self/task/{os.getpid()}/children").read_text("ascii").split():
        for number in found if how else ():
            with suppress(ProcessLookupError):
                os.kill(int(number), signal.SIGKILL)
        _, status, usage = os.wait4(-1 if how else child, 0)
        how = how or ("failed" if status else "passed")
        total += usage.ru_utime + usage.ru_stime
    return how, total


def clean():
    """Removes what this command left in the temporary folders, but not the copy, which may be there, too."""
    for path in (path for folder in TEMPORARY for path in Path(folder).glob("*")):
        if not path.is_dir() or path.is_symlink():
            path.unlink()
        elif path not in [Path.cwd(), *Path.cwd().parents]:
            shutil.rmtree(path, ignore_errors=True)


def serve(command, memory, seconds, processor):
    """Runs a command, and tells of it."""
    told = os.memfd_create("told")
    child = os.fork()
    if child == 0:
        sys.exit(begin(command, memory, told))
    how, total = ended(child, "late" if is_late(child, seconds, processor) else "")
    os.lseek(told, 0, os.SEEK_SET)
    with open(told, encoding="utf-8") as file:
        names = file.read().splitlines()
    clean()
    print(json.dumps([how, total, names]), flush=True)


if __name__ == "__main__":
    if Path("/proc/1/comm").read_text("ascii") != "bwrap\n":
        sys.exit("this runs in a sandbox alone, whose files it removes")
    sys.path[0] = os.getcwd()   # as `python3 -m pytest` has it
    CDLL(None).prctl(SUBREAPER, 1, 0, 0, 0)
    for name in IMPORTED:
        with suppress(ImportError):
            import_module(name)
    for line in sys.stdin:
        serve(**json.loads(line))
