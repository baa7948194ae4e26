# SPDX-License-Identifier: Apache-2.0 OR BSD-3-Clause
"""claims.txt and statements.txt show each change of what is proved by its name. Shown on a port of a few lines, since Coq
needs a minute for the real ones."""
import json
import re
import shutil

import kept
import pytest

import coq
import statements

pytestmark = pytest.mark.needs("coq")

PAGE = """## The claims

### Claim 1: a title

A new port [fits](THEOREM.md), always.

**Exactly:** `new: fits`

### Claim 2: another title

A write
is `kept`.

It has room:

- for a byte
- for two, if
  it is new

No more.

**Exactly:** `write: kept`, `write: room`

It is no part of the claim that claims have contracts.
"""
FILES = {
    "Prelude": """
(* twice the number *)
Definition double (n : nat) : nat := n + n.
Definition same {kind : nat} (n : nat) : Prop := kind = kind /\\ n = n.
(* one of two *)
Definition width_of_usize : { bits : nat | bits = 4 \\/ bits = 8 }. Proof. exists 8. right. reflexivity. Qed.
Definition usize_bits : nat := proj1_sig width_of_usize.
""",
    "Machine": "Require Import Recheck.Prelude.\nDefinition plain (n : nat) : nat := n.\n",
    "Types": """Require Export Recheck.Prelude.
(* A port, and how many bytes it holds. *)
Record Port : Type := mk_Port { Port_held : nat }.
Inductive Kind : Type := Kind_Read | Kind_Write.
Record Width : Type := mk_Width { Width_bits : nat }.
""",
    "Definitions": """Require Export Recheck.Prelude Recheck.Types.
(* a FIFO holds as many *)
Definition most : nat := 64.
(* no more are held than have room *)
Definition Fits (port : Port) : Prop := Port_held port <= most.
Definition kind_of (n : nat) : Kind := if Nat.eqb n 0 then Kind_Read else Kind_Write.
Definition unused : nat := 7.
(* doubling is adding *)
Definition DoubleLaw : Prop := forall n, double n = n + n.
""",
    "Code": """Require Export Recheck.Types.
Definition rs_Port_new : option Port := Some (mk_Port 0).
Definition rs_Port_write (port : Port) : option Port := Some port.
""",
    "Acts": "Require Import Recheck.Machine.\nDefinition acts (n : nat) : nat := n.\n",
    "ShellCode": "Require Import Recheck.Code.\nRecord VmPort : Type := mk_VmPort { VmPort_port : Port }.\n",
    "Calls": "Require Import Recheck.Code.\nDefinition writes (port : Port) : option Port := rs_Port_write port.\n",
    "Proofs": "Definition hidden (n : nat) : Prop := n = n.\n",
    "PortCode": """(* the port

   This paragraph is no part of the heading. *)
Require Import Recheck.Prelude Recheck.Definitions Recheck.Code Recheck.Calls.

(* a lemma is no theorem *)
Lemma few : 0 <= most. Proof. apply le_0_n. Qed.

(* Claim 1. A new port fits. *)
Theorem port_new : exists port, rs_Port_new = Some port /\\ Fits port.
Proof. exists (mk_Port 0). split; [reflexivity | apply le_0_n]. Qed.

(* Claims 1 and 2. A write is kept, and no call
   panics. *)
Theorem port_write port : writes port = Some port.
Proof. reflexivity. Qed.
""",
    "Clock": """(* SPDX-License-Identifier: Apache-2.0 OR BSD-3-Clause *)
(* numbers *)
Require Import Recheck.Prelude Recheck.Definitions.
Require Recheck.Proofs.

(* Doubling is adding. *)
Theorem doubles : DoubleLaw.
Proof. intro n. reflexivity. Qed.

(* Zero is read. *)
Theorem zero : kind_of 0 = Kind_Read /\\ same (kind := 1) 2.
Proof. repeat split. Qed.
""",
    "Witnesses": """Require Import Recheck.Clock.
Lemma three : 3 = 3. Proof. reflexivity. Qed.
Definition used_doubles := doubles 3.
""",
}
# A change: in which file, what stands there, and what in its place; and the lines in which it shows, by the file.
CHANGES = {
    "a theorem that is gone": ("Clock", r"\(\* Zero is read.(?s:.*)Qed\.\n", "", {"statements.txt": ["-zero"]}),
    "a claim's theorem that says less": (
        "PortCode", r" /\\ Fits port\.(?s:.*?)Qed\.", ". Proof. exists (mk_Port 0). reflexivity. Qed.",
        {"claims.txt": ["-     : exists port : Port, rs_Port_new = Some port /\\ Fits port"]}),
    "another theorem that says less": (
        "Clock", "kind_of 0 = Kind_Read /\\\\ ", "", {"statements.txt": ["-     : kind_of 0 = Kind_Read /\\ same 2"]}),
    "a law of another name": ("Clock", ": DoubleLaw", ": forall n, double n = n + n",
                              {"statements.txt": ["-     : DoubleLaw", "+     : forall n : nat, double n = n + n"]}),
    "a definition of a claim": ("Definitions", "64", "65", {"claims.txt": ["-most = 64", "+most = 65"]}),
    "a definition of another theorem": (
        "Definitions", r"then Kind_Read else Kind_Write", "then Kind_Read else Kind_Read", {"statements.txt": ["-kind_of = "]}),
    "a law": ("Definitions", "double n = n \\+ n", "double n = 0 + n + n", {"statements.txt": ["-DoubleLaw = "]}),
    "a type of Rust": ("Types", r"Kind_Write\.", "Kind_Write | Kind_None.", {"statements.txt": ["-Inductive Kind"]}),
    "a list of calls": ("Calls", "rs_Port_write port", "Some port", {"claims.txt": ["-writes = "]}),
    "a word that no theorem uses": ("Machine", r":= n\.", ":= 0.", {"statements.txt": ["-plain = "]}),
    "a hypothesis": ("Clock", r"(\(\* Zero is read(?s:.*?)Proof\.).*",
                     r"Section Ports.\nContext {never : False}.\n\1 destruct never. Qed.\nEnd Ports.",
                     {"statements.txt": ["+     : False -> kind_of 0"]}),
    "a witness that is gone": ("Witnesses", "Definition used(?s:.*)", "", {"statements.txt": ["-Witnesses.used_doubles"]}),
    "what Coq does not show": ("Clock", r"\(kind := 1\)", "(kind := 2)", {"statements.txt": ["-All of both files"]}),
    "a sentence": ("PortCode", "A new port fits", "A port fits", {"claims.txt": ["-A new port fits."]}),
    "a sentence of a definition": ("Definitions", "a FIFO holds", "a ring holds", {"claims.txt": ["-a FIFO holds as many"]}),
    "another claim": ("PortCode", "Claim 1. A new", "Claim 2. A new",
                      {"claims.txt": ["-==== Claim 1. A new port fits, always."]}),
    "a theorem that is no claim's": ("PortCode", "Claim 1. A new port", "A new port",
                                     {"claims.txt": ["-port_new"], "statements.txt": ["+port_new"]}),
    "what no statement uses": ("Definitions", "unused : nat := 7", "unused : nat := 8", {}),
    "a width of a struct that no statement uses": ("Types", "Width_bits : nat", "Width_bits : bool", {}),
    "a body of the code": ("Code", "Some \\(mk_Port 0\\)", "Some (mk_Port (0 + 0))", {}),
}
# And what no such file is made of.
REFUSED = {
    "a theorem without a sentence": ("Clock", r"\(\* Zero is read\. \*\)\n", "", r"^no sentence above Clock\.zero$"),
    "a sentence above an empty line": ("Clock", r"(?<=read\. \*\)\n)", "\n", r"^no sentence above Clock\.zero$"),
    "a sentence of no theorem": ("Clock", r"(?=\(\* Doubling)", "(* Claim 1. A port is small. *)\n\n",
                                 r"^no theorem below: Claim 1\. A port is small\.$"),
    "a sentence of a lemma": ("Clock", r"(?=\(\* Doubling)", "(* Claim 1. A fact. *)\nLemma fact : True. Proof. exact I. Qed.\n",
                              r"^no theorem below: Claim 1\. A fact\.$"),
    "a claim without a theorem": ("PortCode", "Claims 1 and 2. ", "Claim 1. ", r"^no theorem is for claim 2 of docs/PROOFS\.md$"),
    "a claim that the page does not make": ("PortCode", "Claims 1 and 2. ", "Claims 2 and 3. ", r"^docs/PROOFS\.md has no claim 3$"),
    "a file without a heading": ("Clock", r"\(\* numbers \*\)\n", "", r"^no topic at the head of Clock\.v$"),
    "a file that has no place": ("Proofs", r"\Z", "Theorem fact : True. Proof. exact I. Qed.\n",
                                 r"^Proofs\.v has theorems, and no place among PROOFS of statements\.py$"),
    "two theorems of one name": ("Clock", r"\Z", "(* Again. *)\nTheorem port_new : True. Proof. exact I. Qed.\n",
                                 r"^two theorems are port_new$"),
    "a module": ("Calls", "(?=Definition writes)", "Module Hidden.\nDefinition n := 0.\nEnd Hidden.\n", r"^a module in Calls\.v$"),
    "an axiom": ("Witnesses", "Definition used_doubles := doubles 3", "Axiom all : False.\nDefinition used_doubles := all",
                 r"^witnesses rest on something:\n(?s:.*)\ball : False$"),
    "a warning of Coq's": ("Witnesses", "(?=Definition used_doubles)", "Unset Nothing Of This Name.\n",
                           r"^Witnesses\.v is not proved:\n(?s:.*)\[unknown-option"),
    "a word that is sealed": ("Clock", r"(\(\* Zero is read\. \*\)\nTheorem zero : )",
                              r"(* A word. *)\nTheorem word : Prop. Proof. exact True. Qed.\n\1word -> ",
                              r"^Clock\.zero has Clock\.word, which is not among the definitions of the statements$"),
    "a width that is not sealed": ("Prelude", r"(?<= reflexivity\. )Qed", "Defined",
                                   r"^Prelude\.width_of_usize is not sealed$"),
    "a definition of the proofs": ("Clock", "same \\(kind := 1\\) 2", "Proofs.hidden 2",
                                   r"^Clock\.zero has Proofs\.hidden, which is not among the definitions of the statements$"),
}


def told(folder):
    """What is told of the small port, and of it after each change: the two files, or why there are none."""
    for name, text in FILES.items():
        (folder / "small" / f"{name}.v").write_text(text)
    coq.check(folder / "small", 1)
    found = {"": statements.Statements(folder / "small").files(PAGE)}
    for number, (name, (file, old, new, _)) in enumerate({**CHANGES, **REFUSED}.items()):
        try:
            found[name] = changed(folder / "small", folder / str(number), file, old, new)
        except coq.Failed as failed:
            found[name] = str(failed)
    return found


@pytest.fixture(scope="module")
def all_told(judged_by, tmp_path_factory):
    folder = tmp_path_factory.mktemp("statements")
    (folder / "small").mkdir()
    return json.loads(kept.text("statements of a small port", judged_by, lambda: json.dumps(told(folder))))


@pytest.fixture(scope="module")
def small(all_told):
    """The two files of the small port."""
    return all_told[""]


def changed(small, folder, file, old, new):
    shutil.copytree(small, folder)
    text, count = re.subn(old, new, (folder / f"{file}.v").read_text(), count=1)
    assert count == 1, old
    (folder / f"{file}.v").write_text(text)
    needs, names = coq.requirements(folder), {file}
    while more := {name for name, required in needs.items() if required & names} - names:
        names |= more
    coq.check(folder, 1, names - {"Statements"})
    return statements.Statements(folder).files(PAGE)


@pytest.mark.parametrize("name", CHANGES)
def test_a_change_shows(name, small, all_told):
    lines, found = CHANGES[name][3], all_told[name]
    assert isinstance(found, dict), found
    for changed_file in found:
        said = statements.differences({changed_file: small[changed_file]}, {changed_file: found[changed_file]})
        for line in lines.get(changed_file, []):
            assert any(each.startswith(line) for each in said), said
        shown = [each for each in said[2:] if each[0] in "+-" and not each.startswith(("-All of both", "+All of both"))]
        assert bool(shown) == bool(lines.get(changed_file)) or name == "what Coq does not show", said
    assert bool(lines) == (found != small)


def test_each_difference_shows(small):
    """Also of a file that is empty, or that is not there, and of lines at either end."""
    for file, text in small.items():
        first, *rest = text.splitlines(keepends=True)
        for other in ({}, {file: ""}, {file: first}, {file: "".join(rest)}, {file: "".join([first, *rest[:-1]])},
                     {file: f"more\n{text}"}, {file: f"{text}more\n"}):
            assert statements.differences(other, {file: text}), other
        assert statements.differences(small, {file: text}) == []


@pytest.mark.parametrize("name", REFUSED)
def test_refused(name, all_told):
    found = all_told[name]
    assert isinstance(found, str) and re.search(REFUSED[name][3], found), found


def test_what_a_reviewer_reads(small):
    """The page's claims come first, in its order and by its words, and then the definitions, each after those that it uses."""
    claims = small["claims.txt"]
    parts = ["==== Claim 1. A new port fits, always.", "A new port fits.\nport_new\n     : exists",
             "==== Claims 1 and 2. A write is `kept`. It has room:\n     - for a byte\n     - for two, if it is new\n     No more.\n",
             "A write is kept, and no call panics.\nport_write\n",
             "These are all the theorems of the six claims", "A port, and how many bytes it holds.\nRecord Port",
             "a FIFO holds as many\nmost = 64", "no more are held than have room\nFits =", "writes ="]
    places = [claims.index(part) for part in parts]
    assert places == sorted(places)
    assert not re.search("^(?:doubles|zero|kind_of|double|unused|Width|VmPort)", claims, re.M)


def test_what_the_rest_is(small):
    """Each theorem and definition is in one of the files, once; a law stands under its theorem."""
    rest = small["statements.txt"]
    assert "==== numbers (recheck/proofs/Clock.v)\n\nDoubling is adding.\ndoubles\n     : DoubleLaw\nDoubleLaw = forall n : nat, double n = n + n\n" in rest
    assert "\none of two\nwidth_of_usize\n     : {bits : nat | bits = 4 \\/ bits = 8}\n" in rest
    both = small["claims.txt"] + rest
    for name in ("port_new", "port_write", "doubles", "zero", "most =", "Fits =", "kind_of =", "double =", "plain =", "writes =",
                 "DoubleLaw ="):
        assert len(re.findall(rf"^{name}", both, re.M)) == 1, name
