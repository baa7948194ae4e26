# SPDX-License-Identifier: Apache-2.0 OR BSD-3-Clause
"""What the tests of the proofs share."""
import shutil
import sys

import kept
import pytest
from coq_text import words
from harness import ROOT, check

import coq


# What tools/recheck reads.
READ = [ROOT / name for name in ("bindings/c", "docs/PROOFS.md", "recheck", "rust", "tools/common", "tools/recheck")]


@pytest.fixture(scope="session")
def made_of():
    """What the proofs are made of."""
    return [*READ, *sorted(ROOT.glob("crates/*/specs")), check(["coqc", "--version"])]


@pytest.fixture(scope="session")
def judged_by():
    """Of what a test is made that has Coq judge the translators and what they tell, by cases of its own."""
    return [ROOT / "recheck", ROOT / "tests/recheck", ROOT / "tools/common", check(["coqc", "--version"]), sys.version]


@pytest.fixture(scope="session")
def checked(made_of, tmp_path_factory):
    """A folder with all files, after tools/recheck has passed as a new user runs it, and what it printed."""
    folder = tmp_path_factory.mktemp("recheck")

    def make(new):
        environment = {"HOME": str(folder), "PATH": "/usr/bin:/bin"}
        said = check([ROOT / "tools/recheck", "--keep", new], env=environment)
        (new / "said").write_text(said, "utf-8")
    shutil.copytree(kept.proof("Coq proves the claims", made_of, make), folder, dirs_exist_ok=True)
    return folder, (folder / "said").read_text("utf-8")


@pytest.fixture
def computed(tmp_path):
    """What Coq prints for some lines after the words that translations use, all in one file."""
    def run(lines, names=("Prelude", "Machine")):
        (tmp_path / "Cases.v").write_text(f"{words(*names)}\n{lines}")
        return coq.coqc(tmp_path, "Cases")
    return run
