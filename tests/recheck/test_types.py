# SPDX-License-Identifier: Apache-2.0 OR BSD-3-Clause
"""The types of the recheck's Python are right, each of its files is one job, and no longer than a reader bears."""
import sys

import pytest
from harness import ROOT, at_least, check

FILES = at_least(37, sorted((ROOT / "recheck").glob("*.py")))
MOST_LINES = 325


@pytest.mark.needs("mypy")
def test_types():
    check([sys.executable, "-m", "mypy", "--strict", "--cache-dir=/dev/null", *FILES], cwd=ROOT / "recheck")


@pytest.mark.parametrize("file", FILES, ids=lambda file: file.name)
def test_length(file):
    assert len(file.read_text(encoding="utf-8").splitlines()) <= MOST_LINES
