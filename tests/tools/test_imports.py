# SPDX-License-Identifier: Apache-2.0 OR BSD-3-Clause
"""What is no test imports nothing of tests: what both need is in tools/common or tools/generators."""
import ast
import os
from pathlib import Path

import pytest
from documents import BUILT
from harness import ROOT, at_least

OF_TESTS = {"tests", *(path.stem for path in (ROOT / "tests").rglob("*.py"))}


def is_python(path):
    with open(path, "rb") as file:
        return path.suffix == ".py" or (file.read(2) == b"#!" and b"python" in file.readline())


def programs():
    """The programs and modules in Python outside tests, without conftest.py, which pytest alone reads."""
    for folder, folders, names in os.walk(ROOT):
        left_out = BUILT | ({"tests"} if Path(folder) == ROOT else set())
        folders[:] = [name for name in folders if name not in left_out and not name.startswith(".")]
        yield from (path for path in (Path(folder, name) for name in names) if path.is_file() and is_python(path))


def taken_of_tests(text):
    """What a program imports of tests, and the folders of tests in which it looks for what it imports."""
    for node in ast.walk(ast.parse(text)):
        names = ([alias.name for alias in node.names] if isinstance(node, ast.Import) else
                 [node.module] if isinstance(node, ast.ImportFrom) and not node.level else [])
        yield from (name for name in names if name.split(".")[0] in OF_TESTS)
        if isinstance(node, (ast.Expr, ast.Assign, ast.AugAssign)) and "sys.path" in ast.unparse(node):
            texts = (part.value for part in ast.walk(node)
                     if isinstance(part, ast.Constant) and isinstance(part.value, str))
            yield from (text for text in texts if "tests" in text.split("/"))


PROGRAMS = sorted(path.relative_to(ROOT) for path in programs() if path != ROOT / "conftest.py")


@pytest.mark.parametrize("path", at_least(80, map(str, PROGRAMS)))
def test_a_program_imports_nothing_of_tests(path):
    assert not [*taken_of_tests((ROOT / path).read_text("utf-8"))]


@pytest.mark.parametrize("line, taken", [
    ("from harness import ROOT", ["harness"]), ("import os, sums", ["sums"]), ("import tests.common", ["tests.common"]),
    ("def late():\n    from seeds import seeds", ["seeds"]),
    ("sys.path += [str(ROOT / 'tests' / 'common')]", ["tests"]),
    ("sys.path.insert(0, f'{ROOT}/tests/common')", ["/tests/common"]), ("from common.commands import ROOT", []),
    ("from .sums import faults", []), ("LISTED = ROOT / 'tests' / 'sums.txt'", [])])
def test_what_is_taken_of_tests(line, taken):
    assert [*taken_of_tests(line)] == taken
