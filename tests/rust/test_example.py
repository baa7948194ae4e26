# SPDX-License-Identifier: Apache-2.0 OR BSD-3-Clause
"""The monitor to copy in Rust as a program: its main, with the interrupt line that it has there."""
import subprocess
import threading

import pytest
from common.cargo import DEVICES, copied_crate
from harness import LIMIT, check

pytestmark = pytest.mark.needs("cargo", "cc")


def test_what_is_typed_comes_back_in_capitals(tmp_path):
    cargo = copied_crate(tmp_path, crate=DEVICES)
    typed = "hi there\n" + "more than a FIFO holds, " * 20 + "\n\nbye\n"
    check([cargo.cargo, "run", "--quiet", "--example", "echo"], typed.upper(), cwd=cargo.folder, env=cargo.environment,
          input=typed)


def test_an_unfinished_line_comes_back_at_once(tmp_path):
    """Before the input ends, as a prompt has to."""
    cargo = copied_crate(tmp_path, crate=DEVICES)
    cargo.check("build", "--quiet", "--example", "echo")
    with subprocess.Popen([tmp_path / DEVICES.name / "target/debug/examples/echo"], stdin=subprocess.PIPE,
                          stdout=subprocess.PIPE) as program:
        limit = threading.Timer(LIMIT, program.kill)
        limit.start()
        try:
            for typed in (b"login: ", b"password: "):
                program.stdin.write(typed)
                program.stdin.flush()
                assert program.stdout.read(len(typed)) == typed.upper()
        finally:
            limit.cancel()
            program.kill()
