# SPDX-License-Identifier: Apache-2.0 OR BSD-3-Clause
"""What tools/recheck does around its steps, for which there are stand-ins here: each option reaches the step that it is
for, and the first step that fails ends the run, which then does not say that all is proved."""
import os
import re
import sys
from pathlib import Path

import pytest
from harness import ROOT, run

import antt2coq
import rerun
import rust2coq
from coq import Failed

# The steps in their order, each with what it gives and how it fails. The last one is a program, which has a status.
STEPS = {"translated": (({"Code": "(* made *)"}, ["rs_f"]), rust2coq.Refused),
         "rustc": ([("a crate", 7)], rust2coq.Refused), "check": (None, Failed), "audit": (["a", "b"], Failed),
         "compare": (None, Failed), "coqchk": (None, None)}
PLACES = {"translated": (rerun, "translated"), "rustc": (rerun.expanded, "compare"), "check": (rerun, "check"),
          "audit": (rerun, "audit"), "compare": (rerun.statements, "compare")}
CHECK = "import coq, sys; from pathlib import Path; coq.check(Path(sys.argv[1]), 2)"
ALL = ["--chk", "--rustc", "a-rustc"]   # options without which a step is left out


@pytest.fixture
def recheck(monkeypatch, tmp_path):
    """Runs it with some words, while one step fails in some way. Gives why it ended, or None, and what it called."""
    def recheck(*words, failing=None, fault=None):
        called = {}

        def stand_in(name):
            def call(*arguments):
                called[name] = arguments
                if name == failing:
                    raise (fault or STEPS[name][1])(f"no {name}")
                return STEPS[name][0]
            return call
        for name, (module, function) in PLACES.items():
            monkeypatch.setattr(module, function, stand_in(name))
        for name in ("coqc", "coqchk"):
            text = f'#!/bin/sh\necho "$PWD $*" > {tmp_path}/said\nexit {3 * (name == failing)}\n'
            (tmp_path / name).write_text(text, encoding="ascii")
            (tmp_path / name).chmod(0o755)
        monkeypatch.setenv("PATH", f"{tmp_path}:{os.environ['PATH']}")
        monkeypatch.setattr(sys, "argv", ["recheck", *words])
        try:
            rerun.main(None)
            end = None
        except SystemExit as ended:
            end = str(ended)
        if (said := tmp_path / "said").exists():
            called["coqchk"] = said.read_text("utf-8").split()
        return end, called
    return recheck


@pytest.mark.parametrize("name, fault", [*((name, fault) for name, (_, fault) in STEPS.items()),
                                         ("translated", antt2coq.Refused), ("rustc", FileNotFoundError)])
def test_a_step_that_fails_ends_the_run(name, fault, recheck, capsys):
    """None comes after it, and the run says why."""
    end, called = recheck(*ALL, failing=name, fault=fault)
    assert end.startswith("recheck: ") and (f"no {name}" if fault else "coqchk") in end
    assert [*called] == [*STEPS][:[*STEPS].index(name) + 1] and "proved again" not in capsys.readouterr().out


def test_each_option_reaches_its_step(recheck, tmp_path, capsys):
    kept = tmp_path / "new" / "kept"
    end, called = recheck("--keep", str(kept), "--jobs", "13", "--write-statements", *ALL, str(tmp_path))
    assert end is None and [*called] == [*STEPS]
    assert called["translated"] == (tmp_path,) and called["rustc"][:2] == (tmp_path, "a-rustc")
    assert called["check"] == (kept, 13) and called["compare"] == (kept, True)
    assert called["audit"] == (kept, ["rs_f"])
    assert called["coqchk"][0] == str(kept) and called["coqchk"][-4:] == [".", "Recheck", "Recheck.Audit", "Recheck.Witnesses"]
    sources = {path.name for folder in ("recheck", "recheck/proofs") for path in (ROOT / folder).glob("*.v")}
    assert {path.name for path in kept.iterdir()} == {*sources, "Code.v"}
    assert (kept / "Code.v").read_text("ascii") == "(* made *)"
    assert "a-rustc reads the same 7 tokens of a crate\nproved again: 2 theorems; " in capsys.readouterr().out


def test_no_option(recheck):
    """All processors prove the repository's sources in a folder that then goes, and nothing is written."""
    end, called = recheck()
    assert end is None and [*called] == ["translated", "check", "audit", "compare"]
    assert called["translated"] == (ROOT,)
    folder, jobs = called["check"]
    assert jobs == len(os.sched_getaffinity(0)) and called["compare"] == (folder, False) and not Path(folder).exists()


@pytest.mark.parametrize("folder", ["recheck", "recheck/proofs"])
@pytest.mark.parametrize("name", ["Code", "Audit", "Statements"])
def test_no_proof_takes_the_place_of_what_is_made(name, folder, recheck, monkeypatch, tmp_path):
    """Neither of a translation nor of what asks for the theorems."""
    (tmp_path / "recheck/proofs").mkdir(parents=True)
    (tmp_path / folder / f"{name}.v").write_text("(* by hand *)\n", "ascii")
    monkeypatch.setattr(rerun, "HERE", tmp_path)
    monkeypatch.setattr(rerun, "left_out", lambda: ({}, None))
    end, called = recheck()
    assert end.endswith(f"{name}.v would be in the place of what is made") and [*called] == ["translated"]


def test_there_is_no_coq(recheck, monkeypatch):
    monkeypatch.setattr(rerun.shutil, "which", lambda _: None)
    end, called = recheck()
    assert "there is no coqc" in end and not called


# What files require, and which of them can be checked by none after the ones that it requires.
CYCLES = {"itself": ({"A": "A"}, "A"), "each other": ({"A": "B", "B": "A"}, "A, B"),
          "in a ring, beside others": ({"A": "B C", "B": "D", "C": "", "D": "A"}, "A, B, D"),
          "by a file above a ring": ({"A": "B", "B": "C", "C": "B"}, "A, B, C"), "none": ({"A": "B", "B": ""}, "")}


@pytest.mark.parametrize("name", CYCLES)
def test_files_that_require_each_other(name, tmp_path):
    """They are named, and the run ends. It is another process, since one without an end would hold up this one."""
    files, named = CYCLES[name]
    for file, required in files.items():
        lines = "".join(f"Require Import Recheck.{other}.\n" for other in required.split())
        (tmp_path / f"{file}.v").write_text(lines, "ascii")
    (tmp_path / "coqc").write_text("#!/bin/sh\n", "ascii")
    (tmp_path / "coqc").chmod(0o755)
    ran = run([sys.executable, "-c", CHECK, tmp_path], timeout=60,
              env={"PATH": f"{tmp_path}:/usr/bin:/bin", "PYTHONPATH": str(ROOT / "recheck")})
    found = re.findall("^coq.Failed: these files require each other: (.*)$", ran.stdout, re.M)
    assert (ran.returncode, [", ".join(sorted(names.split(", "))) for names in found]) == (
        (1, [named]) if named else (0, [])), ran.stdout
