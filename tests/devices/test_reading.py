# SPDX-License-Identifier: Apache-2.0 OR BSD-3-Clause
"""How much of its input the program takes: all of a script, and of a longer one the first byte too many and no more."""
import os
import subprocess

import pytest
from harness import LIMIT

pytestmark = pytest.mark.needs("kit")

LONGEST = 65_536
SIZES = [0, 1, 4_095, 4_096, LONGEST - 1, LONGEST, LONGEST + 1, LONGEST + 2, 70_000, 2 * LONGEST, 1 << 20]


def taken(command, size, folder):
    """How many bytes of a file of this size a command takes, and its status."""
    path = folder / "script"
    path.write_bytes(b"kr 04\n" * (size // 6) + b"\n" * (size % 6))
    with open(path, "rb") as file:
        status = subprocess.run(command, stdin=file, stdout=subprocess.DEVNULL, stderr=subprocess.DEVNULL,
                                timeout=LIMIT).returncode
        return os.lseek(file.fileno(), 0, os.SEEK_CUR), status


@pytest.mark.parametrize("size", SIZES)
def test_no_byte_is_read_past_the_limit(program, tmp_path, size):
    bad = 1 if size % 6 else 0
    assert taken([program], size, tmp_path) == (min(size, LONGEST + 1), 4 if size > LONGEST else bad)


def test_wrong_program(program, tmp_path):
    """A program that reads on after it has said that a script is too long is found wrong."""
    reads_on = ["sh", "-c", '"$0"; status=$?; cat > /dev/null; exit $status', program]
    assert taken(reads_on, SIZES[-1], tmp_path) == (SIZES[-1], 4)
