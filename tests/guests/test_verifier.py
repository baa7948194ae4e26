# SPDX-License-Identifier: Apache-2.0 OR BSD-3-Clause
"""A verifier of C proves that with Linux's own 8250 driver and the code of docs/PORT.md no byte waits for ever, and
refutes it for each rule of the page broken. README.md beside this file has the argument, and `judge.py` further
proofs."""
import sys
from pathlib import Path

import cbmc
import guest
import kept
import linux_clock
import linux_driver
import proofs
import pytest
import sources
from documents import Document
from harness import ROOT, at_least, check
from places import of_tests

pytestmark = [pytest.mark.needs("linux-source"),
              pytest.mark.where("CBMC 6", "version of Linux's source with sums in tests/guests")]


@pytest.fixture(scope="module")
def driver(tmp_path_factory):
    return linux_driver.write(tmp_path_factory.mktemp("linux"))


# A loop of so many rounds, of which the verifier makes at most four, and what it is asked about the sum.
LOOP = """unsigned nondet_number(void);
int main(void) {{
    unsigned one = nondet_number(), sum = 0;
    for (unsigned round = 0; round < {}; round++)
        sum += one;
    __CPROVER_assert({}, "the sum");
}}
"""


@pytest.mark.parametrize("rounds, claim, is_proved", [
    (3, "sum == 3 * one", True), (3, "sum == 2 * one", False), (9, "sum == 9 * one", False),
    (9, "sum == 2 * one", False)])
def test_what_is_proved(rounds, claim, is_proved, tmp_path):
    """What holds, in a loop that is not cut: behind one that is cut anything would hold."""
    (tmp_path / "loop.c").write_text(LOOP.format(rounds, claim), "ascii")
    found = guest.assertions([*cbmc.installed(), tmp_path / "loop.c", "--unwind", "4"])
    assert all(holds for _, holds in found) == is_proved and "the sum" in dict(found)


@pytest.mark.parametrize("case", [case for _, cases in proofs.OF_GATE for case in cases], ids=str)
def test_proof(case, driver):
    case.make(driver)


# In place of CBMC, which proves an assertion and reaches a place, and of its compiler, which leaves the names of the
# files that it reads where an object would be.
STAND_INS = {"cbmc": """cat << END
[it] line 1 it holds: SUCCESS
[it] line 2 reached: it: FAILURE
** 1 of 2 failed
VERIFICATION FAILED
END
""", "goto-cc": 'exec gcc -M "$@"\n'}
MODULES = "print(*(it.__file__ for it in [*sys.modules.values()] if getattr(it, '__file__', None)), sep='\\n')"


@pytest.mark.parametrize("case, driver_of", [(proofs.AS_IT_STANDS[0], linux_driver), (proofs.CLOCK[0], linux_clock)],
                         ids=["a port", "a clock"])
def test_of_what_a_proof_is_made(case, driver_of, tmp_path, monkeypatch):
    """Of each file of the repository that is compiled, each module that is imported and each page that is read; of the
    check, and of the versions of its driver and of the programs that make it. So a change of any makes it again."""
    for name, script in STAND_INS.items():
        (tmp_path / name).write_text(f"#!/bin/sh\n{script}", "ascii")
        (tmp_path / name).chmod(0o755)
    found, pages = [], []
    for module, name, value in [
            (cbmc, "installed", lambda: [tmp_path / "cbmc"]), (proofs, "programs", lambda: "the programs"),
            (sources, "told", lambda name: f"the source {name}"),
            (kept, "proof", lambda _, parts, make: found.extend([*parts, make(tmp_path)])),
            (guest, "Document", lambda path: pages.append(ROOT / path) or Document(path))]:
        monkeypatch.setattr(module, name, value)
    (tmp_path / "driver").mkdir()
    case.make(driver_of.write(tmp_path / "driver"))
    rules = " ".join(path.read_text("utf-8") for path in (tmp_path / "driver").rglob("*.goto-cc"))
    modules = check([sys.executable, "-c", of_tests(f"import proofs; {MODULES}")]).splitlines()
    read = {Path(name).resolve() for name in [*rules.split(), *modules, *pages] if Path(name).is_absolute()}
    read = {*at_least(15, (file for file in read if ROOT in file.parents))}
    parts = {file for part in found if isinstance(part, Path) for file in kept.files_of(part)}
    assert read <= parts, read - parts
    assert {repr(case), "the programs", "the source linux"} <= {part for part in found if isinstance(part, str)}
