# SPDX-License-Identifier: Apache-2.0 OR BSD-3-Clause
"""What the tests share: how the package is run, and what each class of a device has, by superio.abi."""
import copy
import inspect
import os
import pickle
import re
import subprocess
import sys
import tempfile
import unittest
from functools import lru_cache
from pathlib import Path
from typing import Any, NamedTuple, Union

PACKAGE = Path(__file__).resolve().parent.parent
# The sources of the package alone have what their tests read of the repository.
ROOT = PACKAGE if (PACKAGE / "prebuilt").is_dir() else PACKAGE.parent.parent
TIMEOUT = 1800   # seconds: more than any of these takes on a busy machine

sys.path.insert(0, str(PACKAGE))
# Python says of each file that nobody closed that it is open, and what is said is compared.
ENVIRONMENT = {**os.environ, "PYTHONPATH": str(PACKAGE), "SUPERIO_HISTORY": "", "TERM": "xterm",
               "PYTHONWARNINGS": "always::ResourceWarning"}
for name in ("NO_COLOR", "PYTHONDONTWRITEBYTECODE", "PYTHONUNBUFFERED"):
    ENVIRONMENT.pop(name, None)

from superio import devices, library  # noqa: E402

DEVICES = [kind for kind in map(vars(devices).get, devices.__all__) if not issubclass(kind, tuple)]
"""The classes of devices. Those that are tuples are what calls give."""

WAYS = [copy.copy, copy.deepcopy, *(lambda device, protocol=protocol: pickle.loads(pickle.dumps(device, protocol))
                                    for protocol in range(pickle.HIGHEST_PROTOCOL + 1))]
"""The ways to copy an object."""

BITS = {"uint8_t": 8, "uint16_t": 16, "uint32_t": 32, "uint64_t": 64, "size_t": 64}

# The members that have another name in C.
IN_C = {"__init__": "new", "to_bytes": "save", "from_bytes": "load"}


class Parameter(NamedTuple):
    """A parameter of a member. `kind` is how many bits a number has, "bool", or "bytes"."""

    name: str
    kind: Any
    may_be_name: bool  # of a register, in place of its offset


@lru_cache(maxsize=None)
def members(kind):
    """What a device has: calls, and values."""
    names = {name for each in kind.__mro__[:-1] for name in vars(each) if name[0] != "_"}
    return sorted(names - {"from_bytes", "from_state"})


def in_c(kind, member):
    """What the C function of a member takes, in words, or nothing if it has none."""
    name = f"superio_{kind.__name__.lower()}_{IN_C.get(member, member)}"
    return "".join(library._found(rf"function \w+ {name}\((.*)\)"))


def only_looks(kind, member):
    """Whether a member leaves the device as it is: C takes it as a constant, or not at all."""
    return not re.match(r"superio_\w+ \*", in_c(kind, member))


@lru_cache(maxsize=None)
def parameters(kind, member):
    """The parameters of a member. In C the device stands before them, and what is written behind."""
    call, words = getattr(kind, member), in_c(kind, member).replace("const uint8_t *, size_t", "bytes")
    words = re.sub(r"(?:const )?superio_\w+ \*|uint8_t (?:\*, size_t|\[\w+\])|void", "", words)
    kinds = [BITS.get(word, word) for word in words.split(", ") if word]
    named = [one for one in inspect.signature(call).parameters.values() if one.name != "self"] if callable(call) else []
    assert len(kinds) == len(named) and {*kinds} <= {*BITS.values(), "bytes", "bool"}, (kind, member)
    return [Parameter(one.name, each, one.annotation == Union[int, str]) for one, each in zip(named, kinds)]


def contents(device):
    """All that a device holds."""
    return bytes(device._struct) if hasattr(device, "_struct") else pickle.dumps(device)


# Makes the runs of a file, each with a folder, arguments and a standard input, as `python3 -m superio` does. Each has a
# process of its own, which is forked after the slow part of a start. Prints how each ends.
FORKED = f"""import gc, os, pickle, runpy, signal, sys
from contextlib import suppress
import argparse, superio.program, superio.prompt, superio.session, superio.view
with open(sys.argv[1], "rb") as file:
    runs = pickle.load(file)
gc.freeze()  # so that no fork copies all of that when it ends
for place, (folder, arguments, script) in enumerate(runs):
    source, pipe = os.pipe()
    if not (child := os.fork()):
        signal.alarm({TIMEOUT})
        os.close(pipe)
        os.dup2(source, 0)
        for number, name in ((1, "stdout"), (2, "stderr")):
            os.dup2(os.open(f"{{sys.argv[1]}}.{{place}}.{{name}}", os.O_WRONLY | os.O_CREAT), number)
        os.chdir(folder)
        sys.argv[1:] = map(os.fsdecode, arguments)
        runpy.run_module("superio", run_name="__main__", alter_sys=True)
    os.close(source)
    with suppress(BrokenPipeError), open(pipe, "wb") as file:
        file.write(script)
    status = os.waitpid(child, 0)[1]
    print(-os.WTERMSIG(status) if os.WIFSIGNALED(status) else os.WEXITSTATUS(status), flush=True)
"""


class FolderTest(unittest.TestCase):
    """A test with a folder of its own, and the name of a file in it."""

    def setUp(self):
        folder = tempfile.TemporaryDirectory()
        self.addCleanup(folder.cleanup)
        self.folder = Path(folder.name)
        self.path = self.folder / "a file"


def ended(command, script=b"", **options):
    """The status, output and errors of a command."""
    done = subprocess.run(list(map(str, command)), input=script,
                          **{"capture_output": True, "timeout": TIMEOUT, "env": ENVIRONMENT, **options})
    return done.returncode, done.stdout.decode(), (done.stderr or b"").decode()


def run(*arguments, script=b"", **options):
    """Those of `python3 -m superio`."""
    return ended([sys.executable, "-m", "superio", *arguments], script, **options)


def run_each(runs, **options):
    """Those of each run of a list, given by its folder, its arguments and its standard input. It takes less time than by
    `run`, since they share one start."""
    with tempfile.TemporaryDirectory() as folder:
        listed = Path(folder, "runs")
        listed.write_bytes(pickle.dumps([(os.fsencode(place), [os.fsencode(word) for word in arguments], script)
                                         for place, arguments, script in runs]))
        status, statuses, errors = ended([sys.executable, "-c", FORKED, listed], **options)
        assert (status, errors) == (0, ""), errors
        said = [[Path(f"{listed}.{place}.{name}").read_bytes().decode() for name in ("stdout", "stderr")]
                for place in range(len(runs))]
        return [(int(status), *texts) for status, texts in zip(statuses.split(), said)]
