# SPDX-License-Identifier: Apache-2.0 OR BSD-3-Clause
"""The Rattle crate has the names of vm-superio, as docs/DIFFERENCES.md says, and reads like the Rust crate."""
import re
from collections import defaultdict
from itertools import zip_longest

import pytest
from common.facts import CLOCK
from contracts import code_of, owner_of
from harness import ROOT, at_least

# The parts of each public type of vm-superio.

ORIGINAL = ROOT / "tests" / "compare" / "vm-superio-0.8.2.names"
# The crate, and the place where superio_core has the clock's state.
SOURCES = ("crates/vm_superio/src", "crates/superio_core/src/rtc_pl031")
# What has to read alike, in Rattle and in Rust.
SERIAL = "crates/vm_superio/src/serial.rt", "rust/vm-superio/src/serial.rs"
# The declaration of a type, or an `impl`; and in it functions and types, fields, and cases.
BLOCK = re.compile(r"^(?:pub (?:struct|enum|trait) (\w+)|impl([^{]*))[^{;]*(?:;|\{\}|\{.*?^\})", re.M | re.S)
PART = re.compile(r"\b(?:fn|type) (\w+)|^    (?:pub (\w+):|([A-Z]\w*)[,({])", re.M)
# An `impl` of a type alone, and a function that others may call in it.
INHERENT = re.compile(r"^impl(?:(?! for |\{).)*\{$.*?^\}", re.M | re.S)
METHOD = re.compile(r"^    pub fn (\w+)", re.M)


def read(path):
    return (ROOT / path).read_text(encoding="utf-8")


def parts():
    """The parts of each type of the Rattle crate."""
    found = defaultdict(set)
    for path in (path for source in SOURCES for path in (ROOT / source).rglob("*.rt")):
        for block in BLOCK.finditer(code_of(path.read_text(encoding="utf-8"))):
            found[block[1] or owner_of(block[2])] |= {"".join(part) for part in PART.findall(block[0])}
    return found


HERE = parts()
NAMES = [(owner, part) for owner, words in re.findall(r"^(\w+)([^:\n]*)", ORIGINAL.read_text(encoding="utf-8"), re.M)
         for part in words.split()]
ORDERS = [METHOD.findall("".join(INHERENT.findall(code_of(read(path))))) for path in SERIAL]
COMMON = [[name for name in order if all(name in other for other in ORDERS)] for order in ORDERS]


@pytest.mark.parametrize("owner, part", at_least(50, NAMES))
def test_name_of_vm_superio(owner, part):
    assert part in HERE[owner]


def test_fields_of_the_clock():
    """The page says why a field is new, unless vm-superio has it."""
    known = [field["name"] for field in CLOCK["fields"] if "why" not in field]
    assert sorted(known) == [part for owner, part in NAMES if owner == "RtcState"]


@pytest.mark.parametrize("rattle, rust", at_least(14, zip_longest(*COMMON)))
def test_order_of_methods(rattle, rust):
    """The methods of `Serial` that both crates have stand in one order."""
    assert rattle == rust
