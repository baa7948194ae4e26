# SPDX-License-Identifier: Apache-2.0 OR BSD-3-Clause
"""Scripts with their replies, which the program has to print: those of tests/data, whose form tests/README.md has,
those that documents show, and the recorded boot of a Linux kernel that has the program's lines alone. The program ends
at the first of the further lines, which only the Python package and the page have. The commands that documents show for
the program have to print what these say."""
import os
import re
import subprocess

import pytest
from documents import documents
from harness import LIMIT, ROOT, at_least
from script_tests import FURTHER_TESTS, TESTS, of_documents, refused_scripts, scripts_of

CALL = re.compile(r"(?<![\w./])superio\b")   # of the program, in a command
SHOWN = [script for script in of_documents() if script.by_program == script]
KEPT = [script for path in [*sorted(TESTS.glob("*.txt")), ROOT / "examples/linux-boot/boot.recording.xz"]
        for script in scripts_of(path)]
ENDED = [script.by_program for path in sorted(FURTHER_TESTS.glob("*.txt")) for script in scripts_of(path)]
SCRIPTS = at_least(260, [*KEPT, *ENDED, *refused_scripts(), *SHOWN])
COMMANDS = at_least(5, [(f"{document}:{block.number}", command, printed) for document in documents()
                        for block in document.blocks for command, printed in block.commands if CALL.search(command)])


def test_number_of_lines():
    assert sum(len(script.script.splitlines()) for script in SCRIPTS) >= 151_700


@pytest.mark.needs("kit")
@pytest.mark.parametrize("script", SCRIPTS, ids=lambda script: script.place)
def test_program(program, script):
    ran = subprocess.run([program], input=script.script, capture_output=True, timeout=LIMIT)
    difference = script.difference((ran.returncode, ran.stdout, ran.stderr))
    assert difference is None, difference


@pytest.mark.needs("kit")
@pytest.mark.parametrize("place, command, printed", COMMANDS, ids=lambda text: text.split("\n")[0][:60])
def test_command(program, place, command, printed, tmp_path):
    """A document shows a command that runs the program, and what it prints."""
    (tmp_path / "superio").symlink_to(program)
    ran = subprocess.run(["bash", "-c", command], stdin=subprocess.DEVNULL, stdout=subprocess.PIPE, text=True,
                         stderr=subprocess.STDOUT, timeout=LIMIT,
                         env={**os.environ, "PATH": f"{tmp_path}:{os.environ['PATH']}"})
    assert ran.stdout == printed


@pytest.mark.parametrize("path", at_least(1, sorted((ROOT / "examples").glob("*.script"))), ids=lambda path: path.name)
def test_example(path):
    """A document shows each example with its replies."""
    assert path.read_bytes() in [script.script for script in SHOWN]


@pytest.mark.parametrize("words", [["true"], ["cat"]], ids=" ".join)
def test_wrong_program(words):
    """A program that prints nothing, or what it reads, is found wrong."""
    wrong = 0
    for script in KEPT[:60]:
        ran = subprocess.run(words, input=script.script, capture_output=True, timeout=LIMIT)
        wrong += script.difference((ran.returncode, ran.stdout, ran.stderr)) is not None
    assert wrong > 50
