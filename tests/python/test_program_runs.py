# SPDX-License-Identifier: Apache-2.0 OR BSD-3-Clause
"""Scripts as `./shell` runs them without the shell: in all that a run shows, as the program of the kit. Run the
tests of that program by hand over this one, with `--program superio`: tests/devices/test_scripts.py, test_reading.py
and test_failing_io.py."""
import os
import re
from unittest import mock

import pytest
from documents import Document, table
from harness import ROOT, at_least, check
from script_tests import FURTHER_TESTS, TESTS, Script, of_documents, refused_scripts, scripts_of

from superio import board, program

KEPT = [*(test for path in sorted(TESTS.glob("*.txt")) for test in scripts_of(path)),
        *(test.by_program for path in sorted(FURTHER_TESTS.glob("*.txt")) for test in scripts_of(path)),
        *refused_scripts(), *(test.by_program for test in of_documents())]
LONGEST = 65_536
# A script of each kind of end, and longer than is written at once.
LONG = Script("long", b"st\n" * 2_000, f"{0:016x}\n".encode() * 2_000)
BAD = Script("bad", b"kr 04\nkr 5\nkr 04\n", b"00\n", "bad line 2")
FAULT = "input or output fault"


class Runs:
    """A folder with a script and the replies to it."""

    def __init__(self, folder):
        self.script, self.replies = folder / "script", folder / "replies"
        self.taken = 0

    def ended(self, script):
        """The status of a run, what it prints and what it says."""
        self.script.write_bytes(script)
        with open(self.script, "rb", 0) as source, open(self.replies, "wb", 0) as output:
            end = program.run(source.fileno(), output.fileno())
            self.taken = os.lseek(source.fileno(), 0, os.SEEK_CUR)
        return end.status, self.replies.read_bytes(), f"{end.said}\n".encode() if end.said else b""


@pytest.fixture
def runs(tmp_path):
    return Runs(tmp_path)


def test_kept_scripts(runs):
    for test in at_least(201, [*KEPT, LONG, BAD]):
        assert test.difference(runs.ended(test.script)) is None, test.place


@pytest.mark.parametrize("most", [40_000, 2 * LONGEST])
@pytest.mark.parametrize("size", [0, 6, LONGEST - 1, LONGEST, LONGEST + 1, LONGEST + 2, 2 * LONGEST])
def test_no_byte_is_read_past_the_limit(runs, size, most):
    """Not even if a read gives less than is asked for."""
    read = os.read
    with mock.patch("os.read", lambda file, count: read(file, min(count, most))):
        status, *_ = runs.ended(b"kr 04\n" * (size // 6) + b"\n" * (size % 6))
    assert (runs.taken, status) == (min(size, LONGEST + 1), 4 if size > LONGEST else 1 if size % 6 else 0)


@pytest.mark.parametrize("most", [1, 7, 8_192])
def test_pieces(runs, most):
    """A read gives what is there, and a write takes what fits."""
    read, write, written = os.read, os.write, []
    with mock.patch("os.read", lambda file, count: read(file, min(count, most))), \
            mock.patch("os.write", lambda file, data: written.append(len(data)) or write(file, data[:most])):
        for test in LONG, BAD:
            assert test.difference(runs.ended(test.script)) is None
    assert max(written) == 8_192


@pytest.mark.parametrize("test", [LONG, BAD], ids=lambda test: test.place)
@pytest.mark.parametrize("count", [0, 1, 3, 9_000])
def test_a_fault(runs, test, count):
    """Of a read, after so many bytes, before which nothing is printed; or of a write, even if a line was bad."""
    left, read, write = [count], os.read, os.write

    def with_fault(call):
        def called(file, what):
            if not left[0]:
                raise OSError("a fault")
            done = call(file, min(what, left[0]) if isinstance(what, int) else what[:left[0]])
            left[0] -= len(done) if isinstance(done, bytes) else done
            return done
        return called

    count = min(count, len(test.script) - 1)
    left[0] = count
    with mock.patch("os.read", with_fault(read)):
        assert test._replace(replies=b"", end=FAULT).difference(runs.ended(test.script)) is None
    left[0] = min(count, len(test.replies) - 1)
    expected = test._replace(replies=test.replies[:left[0]], end=FAULT)
    with mock.patch("os.write", with_fault(write)):
        assert expected.difference(runs.ended(test.script)) is None


@pytest.mark.parametrize("name, replies", [("ss", b"00\n"), ("sc", b"")])
def test_refused_memory(runs, name, replies):
    """At an `ss` the replies to the lines before it are printed, and elsewhere none."""
    refused = {name: board.LINES[name]._replace(reply=mock.Mock(side_effect=MemoryError))}
    with mock.patch.dict(board.LINES, refused):
        assert runs.ended(f"kr 04\n{name}\nkr 04\n".encode()) == (3, replies, b"out of memory\n")


# What is told of each status, from 0 on, in docs/SCRIPT.md and by `./shell --help`.
TOLD = ["very line was", "bad", "failed", "emory was refused", "more than 65,536 bytes"]


def test_statuses_that_users_read(runs):
    """Each with what it is for, and in docs/SCRIPT.md with what is said then."""
    scripts = LONG.script, BAD.script, b"kr 04\n" * LONGEST
    done, bad, long = ((status, said.decode().rstrip("\n")) for status, _, said in map(runs.ended, scripts))
    rows = table(Document("docs/SCRIPT.md").text, "Outcome | Exit status")
    assert [(int(status), said.replace("nothing", "").strip("`")) for _, status, said in rows] == [
        done, (bad[0], bad[1].replace("2", "n")), program.FAULT, program.MEMORY, long]
    listed = re.findall(r"^  (\d)  (.*)$", check([ROOT / "shell", "--help"]), re.M)
    assert [int(status) for status, _ in listed] == [*range(len(TOLD))]
    for (told, *_), (_, listed_too), words in zip(rows, listed, TOLD):
        assert words in told and words in listed_too, words


def test_the_launcher_runs_the_package_beside_it(tmp_path):
    """Whatever other one a user has installed, or names in PYTHONPATH."""
    (tmp_path / "superio").mkdir()
    (tmp_path / "superio" / "__init__.py").write_text("raise SystemExit('another package')\n", "utf-8")
    check([ROOT / "shell"], "00\n", input="kr 04\n", env={**os.environ, "PYTHONPATH": str(tmp_path)}, cwd=tmp_path)
