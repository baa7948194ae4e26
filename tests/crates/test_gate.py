# SPDX-License-Identifier: Apache-2.0 OR BSD-3-Clause
"""What `rt ci` tries: the crates, and the stored output of the programs. tests/sums.txt has how many must-fail edits
and tests these have at least, and tools/check fails if it tried others than the sources have."""
import re

from common.rattle import CRATES, PROGRAMS
from harness import ROOT, at_least


def test_crates():
    """Each folder of a crate is in crates.txt."""
    listed = re.findall(r"^(\w+)[^:#\n]*:", (ROOT / "crates.txt").read_text(encoding="utf-8"), re.M)
    assert sorted(at_least(10, listed)) == sorted(path.parent.parent.name for path in CRATES.glob("*/src/*")
                                                 if path.name in ("lib.rt", "main.rt"))


def test_stored_output():
    for program in PROGRAMS:
        assert (CRATES / program / "stdout").read_text(encoding="utf-8"), program
