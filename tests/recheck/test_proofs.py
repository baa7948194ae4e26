# SPDX-License-Identifier: Apache-2.0 OR BSD-3-Clause
"""The proofs in Coq, and what makes their run fail: a claim without a theorem, an axiom, a proof that is left out."""
import re
import shutil
import sys
from pathlib import Path

import kept
import pytest
from coq_text import together
from harness import ROOT, check
from test_plants import with_requiring

import coq
import rerun
import statements

pytestmark = pytest.mark.needs("coq", "cargo")


def test_every_claim_is_proved(checked):
    theorems, items = map(int, re.fullmatch(r"proved again: (\d+) theorems; (\d+) items of Rust are left out\n",
                                            checked[1]).groups())
    assert theorems >= 209 and items <= 34


def test_code_does_what_coq_computes(checked, made_of):
    """Random calls of every public function, 100,000 of them: the compiled code and the translation give the same."""
    sources, turns, seed = ROOT / "tests/recheck/differential", 80_000, 88172645463325252

    def make(new):
        check(["rustc", "--edition", "2021", "-o", new / "calls", sources / "main.rs"])
        calls, total = map(int, check([new / "calls", turns, seed]).split())
        assert calls >= 100_000
        expected = f"Some ({calls}, {total}%uint63)"
        same = f"Goal found {turns} {seed} = {expected}.\nProof. vm_cast_no_check (eq_refl ({expected})). Qed.\n"
        files = [*(checked[0] / f"{name}.v" for name in ("Prelude", "Machine", "Types", "Code")),
                 sources / "Differential.v"]
        (new / "Differential.v").write_text(f"Require Import Uint63.\n{together(*files)}{same}")
        coq.coqc(new, "Differential")
    parts = [*made_of, sources, ROOT / "tests/recheck/coq_text.py", Path(__file__), check(["rustc", "-vV"])]
    kept.proof("Coq computes what the code does", parts, make)


# What is done to which file, and what the run says then. The name of a function without a theorem still stands there: in
# a comment, in the proof of a theorem, and in a lemma. No file of proofs requires these, so Coq checks few of them again.
GAPS = {
    "a law without a theorem": (
        "ConsoleLawsDriver", r"Theorem (?=console_monitors :)", "Lemma ", r"^no theorem is MonitoredLaw$"),
    "a function without a theorem": (
        "CFunctions", r"Theorem superio_abi : .*\nProof\.",
        "(* `rs_superio_abi` *)\nLemma of_abi : rs_superio_abi = Some rs_ABI.\n"
        "Proof. reflexivity. Qed.\nTheorem superio_abi : Some true = Some true.\nProof. pose (it := rs_superio_abi).",
        r"^no theorem names rs_superio_abi$"),
    "an axiom": ("ConsoleLawsDriver", r"Theorem each_byte_is_through : EachByteIsThroughLaw\.(?s:.*?)Qed\.",
                 "Axiom all : forall T : Type, T.\n"
                 "Theorem each_byte_is_through : EachByteIsThroughLaw. Proof. apply all. Qed.",
                 r"^theorems rest on something:\n(?s:.*)^ConsoleLawsDriver\.all : forall T : Type, T$"),
    "a proof that is left out": (
        "ConsoleLawsDriver", r"(?<=Theorem console_at_reset : ResetLaw\.\n).*", "Admitted.",
        r"^theorems rest on something:\n(?s:.*)^ConsoleLawsDriver\.console_at_reset : Definitions\.ResetLaw$"),
    "a function without a theorem whose name begins another one's": (
        "CFunctions", r"Theorem superio_console_suspend (?s:.*?)Qed\.\n",
        "Definition rs_superio_console_suspend_all := true.\n"
        "Theorem suspend_all : rs_superio_console_suspend_all = true. Proof. reflexivity. Qed.\n",
        r"^no theorem names rs_superio_console_suspend$"),
    "a function of the shell without a theorem": (
        "Controller", r"  /\\ gives \(vm_I8042Device_reset_evt device\)[^\n]*\n", "  (* vm_I8042Device_reset_evt *)\n",
        r"^no theorem names vm_I8042Device_reset_evt$"),
}


opened = set()   # whenever a file is opened


@pytest.fixture(scope="module")
def functions():
    sys.addaudithook(lambda event, words: opened.add(words[0]) if event == "open" else None)
    return rerun.translated(ROOT)[1]


def test_each_file_that_is_read_counts(functions, made_of):
    """What tools/recheck translates is among what the proofs are made of."""
    found = {Path(path).resolve() for path in opened if isinstance(path, (str, Path))}
    read = {path for path in found if ROOT in path.parents and "__pycache__" not in path.parts and path.suffix != ".py"}
    parts = {file for part in made_of if isinstance(part, Path) for file in kept.files_of(part)}
    assert len(read) >= 50 and read <= parts, read - parts


def changed(checked, folder, texts):
    """A copy of what is checked with other texts of some files, which are checked again, as is what requires them."""
    shutil.copytree(checked[0], folder)
    for name, text in texts.items():
        (folder / f"{name}.v").write_text(text)
    coq.check(folder, 1, with_requiring(folder, {*texts}) - {"Witnesses"})
    return folder


def said(folder, functions):
    """What the run says of a changed folder."""
    with pytest.raises(coq.Failed) as failed:
        rerun.audit(folder, functions)
    return str(failed.value)


@pytest.fixture(scope="module")
def said_of_gaps(checked, functions, made_of, judged_by, tmp_path_factory):
    texts = {name: (checked[0] / f"{name}.v").read_text() for name, *_ in GAPS.values()}
    for name, old, new, _ in GAPS.values():
        texts[name], count = re.subn(old, new, texts[name], count=1)
        assert count == 1, old
    return kept.text("gaps of the proofs", [*made_of, *judged_by], lambda: said(
        changed(checked, tmp_path_factory.mktemp("gaps") / "all", texts), functions))


@pytest.mark.parametrize("name", GAPS)
def test_a_gap_fails(name, said_of_gaps):
    assert re.search(GAPS[name][3], said_of_gaps, re.M), said_of_gaps


def test_a_law_of_the_same_name_fails(checked, functions, made_of, judged_by, tmp_path):
    """A theorem about another law that is named the same. The file has this theorem alone."""
    text = """Require Import Recheck.Definitions.
Definition ResetLaw := True.
Theorem console_at_reset : ResetLaw. Proof. exact I. Qed.
"""
    found = kept.text("a law of the same name", [*made_of, *judged_by], lambda: said(
        changed(checked, tmp_path / "changed", {"ConsoleLawsDriver": text}), functions))
    assert found.startswith("Audit.v is not proved")
    assert ('has type "ConsoleLawsDriver.ResetLaw" while it is expected to have type "Definitions.ResetLaw"'
            in " ".join(found.split()))


def test_a_warning_fails(tmp_path):
    (tmp_path / "Warned.v").write_text("Lemma fact : 0 = 0. Proof. reflexivity. Qed.\nHint Resolve fact : core.\n")
    with pytest.raises(coq.Failed, match="Warned.v is not proved"):
        coq.coqc(tmp_path, "Warned")


def test_another_statement_fails(checked, made_of, judged_by, tmp_path):
    """As test_statements.py shows on a smaller folder."""
    text, count = re.subn(r"\(\* [^*]*\*\)\nTheorem superio_serial_read (?s:.*?)Qed\.\n", "",
                          (checked[0] / "CFunctions.v").read_text(), count=1)
    assert count == 1

    def compared():
        with pytest.raises(coq.Failed) as failed:
            statements.compare(changed(checked, tmp_path / "changed", {"CFunctions": text}))
        return str(failed.value)
    found = kept.text("another statement", [*made_of, *judged_by], compared)
    assert re.search(r"^-superio_serial_read$", found, re.M), found
