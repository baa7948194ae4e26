# SPDX-License-Identifier: Apache-2.0 OR BSD-3-Clause
"""Copies of the repository, in which a mutant can do no harm."""
import json
import os
import shutil
import subprocess
from concurrent.futures import ThreadPoolExecutor
from contextlib import contextmanager
from pathlib import Path
from queue import Queue
from shlex import split
from typing import NamedTuple

from common.cargo import Cargo

IGNORED = shutil.ignore_patterns(".git", "out", "target", "Cargo.lock", "node_modules", "__pycache__")
# No command writes outside its copy: /dev and /tmp are its own, and another temporary folder of the caller could not be
# written. It has no network, and what it starts ends with it.
SANDBOX = ["bwrap", "--ro-bind", "/", "/", "--dev", "/dev", "--dev-bind-try", "/dev/kvm", "/dev/kvm", "--proc", "/proc",
           "--tmpfs", "/tmp", "--setenv", "TMPDIR", "/tmp", "--unshare-pid", "--unshare-net", "--die-with-parent",
           "--new-session"]
RUNNER = ["/usr/bin/python3", "-c", Path(__file__).with_name("runner.py").read_text(encoding="utf-8")]
COMPILERS = ["cc", "gcc"]
BROWSER = Path("/usr/lib/chromium/chromium")   # Debian's script around it takes a third of its start
PYTEST = "/usr/bin/python3 -m pytest -q -x"   # the runner has pytest imported already, and takes the words after this
LONGEST = 3600  # seconds


class Ended(NamedTuple):
    """How a command ended: `passed`, `failed` or `late`; how many seconds of a processor it took; and which tests
    failed, or which tests pytest found if it was only asked to find them."""
    how: str
    processor: float = 0
    tests: list = []


class Copy:
    """A copy in a folder. What one command builds there serves the next one."""

    def __init__(self, root, folder):
        self.folder, self.runner = folder, None
        shutil.copytree(root, folder, ignore=IGNORED, dirs_exist_ok=True)
        Cargo(folder, settings=folder)   # which needs no network then
        (folder / "programs").mkdir()
        for name in COMPILERS:
            shutil.copy(Path(__file__).with_name("compiler"), folder / "programs" / name)
        if BROWSER.exists():
            (folder / "programs" / "chromium").symlink_to(BROWSER)

    def begin(self):
        """Starts the runner of commands, in the sandbox."""
        words = [*SANDBOX, "--bind", self.folder, self.folder, "--chdir", self.folder, *RUNNER]
        environment = {**os.environ, "PATH": os.pathsep.join([str(self.folder / "programs"), os.environ["PATH"]])}
        environment.pop("PYTHONDONTWRITEBYTECODE", None)   # each command would compile all tests again
        return subprocess.Popen(words, stdin=subprocess.PIPE, stdout=subprocess.PIPE, stderr=subprocess.DEVNULL,
                                encoding="utf-8", env=environment)

    def run(self, command, memory=None, seconds=LONGEST, processor=LONGEST):
        """Runs a command within limits, because a mutant may run, print or take memory without end. Each process gets
        `memory` KiB. All of them together get `seconds`, and `processor` seconds of a processor, which do not depend on
        how busy the machine is. A command that only waits counts as late much sooner."""
        self.runner = self.runner or self.begin()
        words = split(command.removeprefix(PYTEST)) if command.startswith(PYTEST) else command
        asked = {"command": words, "memory": memory, "seconds": seconds, "processor": processor}
        try:
            print(json.dumps(asked), file=self.runner.stdin, flush=True)
            return Ended(*json.loads(self.runner.stdout.readline()))
        except (BrokenPipeError, json.JSONDecodeError):   # the runner was ended, too
            self.runner = None
            return Ended("failed")

    @contextmanager
    def changed(self, mutant, made=()):
        """Puts a mutant in the place of a line, and afterwards restores this file and the files `made` from it."""
        path = self.folder / mutant.file
        before = {file: file.read_bytes() for file in [path, *(self.folder / name for name in made)]}
        lines = path.read_text(encoding="utf-8").split("\n")
        lines[mutant.number] = mutant.new
        try:
            path.write_text("\n".join(lines), encoding="utf-8")
            yield
        finally:
            for file, content in before.items():
                file.write_bytes(content)


class Copies:
    """Copies that are used side by side, each by one thread at a time."""

    def __init__(self, root, folder, count):
        self.free, self.threads = Queue(), ThreadPoolExecutor(count)
        self.all = [Copy(root, folder / str(number)) for number in range(count)]
        for copy in self.all:
            self.free.put(copy)

    def __enter__(self):
        return self

    def __exit__(self, *_):
        """Also ends the commands that are still running."""
        self.threads.shutdown(wait=False, cancel_futures=True)
        for copy in self.all:
            if copy.runner:
                copy.runner.kill()
        self.threads.shutdown()

    def map(self, use, items):
        """What `use` of an item and a copy returns, item by item, as soon as it and all before it are known."""
        def used(item):
            copy = self.free.get()
            try:
                return use(item, copy)
            finally:
                self.free.put(copy)
        return self.threads.map(used, items)
