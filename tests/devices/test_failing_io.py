# SPDX-License-Identifier: Apache-2.0 OR BSD-3-Clause
"""How the program ends if a read or a write fails, and that it takes bytes in pieces.

The system makes the faults, after each part of a script of every line and of its replies, and over scripts that are bad
or too long. docs/SCRIPT.md says how each run has to end, and shows what a failure of standard error does. It promises
nothing of what was printed before a failed write; here that is what the file has room for. The tests of
crates/script_tests/src/streams.rt have faults of every kind, and interruptions, over objects of their own.
"""
import contextlib
import os
import resource
import socket
import subprocess
import tempfile

import pytest
from harness import LIMIT, at_least, check
from script_tests import TESTS, Script, scripts_of

pytestmark = pytest.mark.needs("kit")

EACH_LINE = next(scripts_of(TESTS / "scripts.txt"))
LONGEST_BAD = Script("longest", b"kr 04\n" * 10_922 + b"kr 0", b"00\n" * 10_922, "bad line 10923")
BAD_LATER = Script("bad later", b"kr 04\nkr 5\n", b"00\n", "bad line 2")
TOO_LONG = Script("too long", b"kr 04\n" * 12_000, b"", "script too long")
# Loaded before the C library, it fails the first write to standard output.
FAILS_ONCE = """
#include <errno.h>
#include <sys/syscall.h>
#include <unistd.h>

ssize_t write(int file, const void *bytes, size_t count)
{
    static int outputs;
    if (file != STDOUT_FILENO || outputs++ > 0)
        return syscall(SYS_write, file, bytes, count);
    errno = EAGAIN;
    return -1;
}
"""


def ended(command, **options):
    """How a run ended, what it printed and what it said."""
    ran = subprocess.run(command, **{"stdout": subprocess.PIPE, **options}, stderr=subprocess.PIPE, timeout=LIMIT)
    return ran.returncode, ran.stdout, ran.stderr


def in_pieces(program, script, piece):
    """A run whose reads give so many bytes each: the socket keeps packets apart."""
    ours, theirs = socket.socketpair(socket.AF_UNIX, socket.SOCK_SEQPACKET)
    with subprocess.Popen([program], stdin=theirs, stdout=subprocess.PIPE, stderr=subprocess.PIPE) as process:
        theirs.close()
        with ours, contextlib.suppress(BrokenPipeError):   # it may read no further
            for place in range(0, len(script), piece):
                ours.send(script[place:place + piece])
        output, errors = process.communicate(timeout=LIMIT)
        return process.returncode, output, errors


def read_fails_after(program, script, count):
    """A run in which a read fails after so many bytes: the pipe is open, and may not block."""
    source, rest = os.pipe()
    os.set_blocking(source, False)
    with open(source, "rb") as empty, open(rest, "wb", buffering=0) as file:
        file.write(script[:count])
        return ended([program], stdin=empty)


def with_room(program, script, room):
    """A run whose output has room for so many bytes: a write takes what fits. Python ignores the signal of the limit,
    and so does what it starts."""
    with tempfile.TemporaryFile() as output:
        status, _, errors = ended([program], input=script, stdout=output, restore_signals=False,
                                  preexec_fn=lambda: resource.setrlimit(resource.RLIMIT_FSIZE, (room, room)))
        output.seek(0)
        return status, output.read(), errors


def redirected(program, script, redirection):
    """A run with a redirection of a shell."""
    return ended(["bash", "-c", f"\"$0\" {redirection}", program], input=script)


def fault(script, printed=0):
    """A script whose run fails after so many bytes of its replies."""
    return script._replace(replies=script.replies[:printed], end="input or output fault")


PIECES = at_least(34, [*((EACH_LINE, piece) for piece in range(1, 33)), (TOO_LONG, 4_096), (TOO_LONG, 65_536)])
ROOMS = at_least(190, [(script, room) for script, step in ((EACH_LINE, 1), (BAD_LATER, 1), (LONGEST_BAD, 1_365))
                       for room in [*range(0, len(script.replies), step), len(script.replies)]])


@pytest.mark.parametrize("script, piece", PIECES, ids=lambda value: getattr(value, "place", value))
def test_pieces(program, script, piece):
    assert not script.difference(in_pieces(program, script.script, piece))


@pytest.mark.parametrize("count", range(len(EACH_LINE.script) + 1))
def test_read_fails_after(program, count):
    assert not fault(EACH_LINE).difference(read_fails_after(program, EACH_LINE.script, count))


@pytest.mark.parametrize("source", ["< /", "<&-"])
def test_no_input(program, source):
    assert not fault(EACH_LINE).difference(redirected(program, EACH_LINE.script, source))


@pytest.mark.parametrize("script, room", ROOMS, ids=lambda value: getattr(value, "place", value))
def test_output_has_room(program, script, room):
    expected = fault(script, room) if room < len(script.replies) else script
    assert not expected.difference(with_room(program, script.script, room))


@pytest.mark.parametrize("output", ["> /dev/full", ">&-"])
@pytest.mark.parametrize("script", [EACH_LINE, BAD_LATER, LONGEST_BAD],
                         ids=lambda script: getattr(script, "place", script))
def test_no_output(program, script, output):
    assert not fault(script).difference(redirected(program, script.script, output))


@pytest.mark.needs("cc")
@pytest.mark.parametrize("script", [EACH_LINE, BAD_LATER], ids=lambda script: script.place)
def test_a_write_fails_once(program, script, tmp_path):
    """A fault is reported, although what was to be written goes out as the program ends."""
    library = tmp_path / "fails_once.so"
    check(["cc", "-shared", "-fPIC", "-D_GNU_SOURCE", "-x", "c", "-", "-o", library], "", input=FAILS_ONCE)
    got = ended([program], input=script.script, env={"LD_PRELOAD": str(library)})
    assert not fault(script, len(script.replies)).difference(got)


@pytest.mark.parametrize("wrong", ["true", "cat"])
def test_wrong_program(wrong):
    """A program that hides a fault is found wrong."""
    assert fault(EACH_LINE).difference(redirected(f"/bin/{wrong}", EACH_LINE.script, "> /dev/full"))
    assert fault(EACH_LINE).difference(read_fails_after(f"/bin/{wrong}", EACH_LINE.script, 9))
