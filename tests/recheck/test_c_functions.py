# SPDX-License-Identifier: Apache-2.0 OR BSD-3-Clause
"""The C functions that Cargo builds are translated all, and what is trusted of them is listed in recheck/README.md."""
import re

from harness import ROOT

import rerun
from c_functions import STANDS_FOR, safe_part

LEFT_OUT = rerun.left_out()[0]["c"][rerun.Path("lib.rs")]
SOURCE = (ROOT / "bindings/c/from-source/src/lib.rs").read_text()
PAGE = (ROOT / "recheck/README.md").read_text()
FUNCTION = r"^.*\bfn (\w+)"


def test_unsafe_lines_are_listed():
    listed = re.search(r"```rust\n(.*?)```", PAGE.partition("\n## The lines with `unsafe`\n")[2], re.S)[1].splitlines()
    found = [line.strip() for line in SOURCE.splitlines() if re.search(r"\bunsafe\b", line)]
    assert [line.strip() for line in listed if line] == found  # the page leaves a line between functions


def test_what_is_left_out():
    left_out = set(re.findall(FUNCTION, SOURCE, re.M)) - set(re.findall(FUNCTION, safe_part(SOURCE, LEFT_OUT), re.M))
    assert left_out == {"bytes_at", "store", "stop"}


def test_what_stands_for_a_text_is_needed():
    assert [old for old in STANDS_FOR if old not in SOURCE] == []


def test_lines_keep_their_numbers():
    """So that a comment in Code.v names the line of lib.rs."""
    named = [{found[1]: at for at, line in enumerate(text.splitlines()) if (found := re.match(FUNCTION, line))}
             for text in (SOURCE, safe_part(SOURCE, LEFT_OUT))]
    assert named[1].items() <= named[0].items()
