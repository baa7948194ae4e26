# SPDX-License-Identifier: Apache-2.0 OR BSD-3-Clause
"""What is compared with the models: the Python package's board over a C library, and the program."""
import subprocess

from harness import LIMIT
from script import line_of

import superio


class PythonBoard:
    """The board of the Python package, which takes calls as lines."""

    def __init__(self):
        self.board = superio.Board()

    def __getattr__(self, call):
        return lambda *arguments: self.board.reply(
            superio.parse(line_of(call, *arguments).encode(), is_first=self.board.number == 0))


def run(program, script, **options):
    """What the program prints for a script, a character for each byte, how it ends, and what it says."""
    ran = subprocess.run([program], input=script.encode("latin-1"), capture_output=True, timeout=LIMIT, **options)
    return ran.stdout.decode("latin-1"), ran.returncode, ran.stderr.decode()
