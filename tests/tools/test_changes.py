# SPDX-License-Identifier: Apache-2.0 OR BSD-3-Clause
"""Whoever follows a list of CONTRIBUTING.md edits no file by hand that the list does not name. Each file of the folder
`changes` has the edits of one change. They are made in a copy of the repository, where `tools/generate` runs.
Then tests that such a change can break pass there: TESTS, and those that the file names. They use the C library
as Cargo compiles it of the edited code. The prover is not asked here, so nothing tells whether the edited definitions
and code fit each other."""
import os
import re
import sys
import tomllib
from pathlib import PurePath

import pytest
from common.cargo import Cargo
from documents import CODE, Document, copy_repository
from harness import ROOT, at_least, check

CHANGES = {path.stem: tomllib.loads(path.read_text("utf-8"))
           for path in at_least(6, sorted((ROOT / "tests/tools/changes").glob("*.toml")))}
# Those in a row are made in one copy, because what follows takes half a minute: none of them edits what another does.
# So `clock` and `number` are apart. Tests that `device` names take no other bit of IER, and no other number of the
# interface, so those are not with it.
TOGETHER = "clock device", "line bit error number"
GUIDE = Document("CONTRIBUTING.md").text
CRATES = re.findall(r"(\w+) is `(crates/\w+)`", GUIDE)
STEPS = "facts", "rust", "lines", "interface"
BUILD = ["cargo", "rustc", "--crate-type", "cdylib", "--release", "--quiet", "--offline", "--target-dir", "out",
         "--manifest-path", "bindings/c/from-source/Cargo.toml"]
# Of the boards only the scripts that are kept, since the random ones take a minute. Of traces only that of a console.
TESTS = ["tests/documents/test_differences.py", "tests/documents/test_registers.py",
         "tests/documents/test_saved_states.py", "tests/documents/test_tables_of_devices.py",
         "tests/tools/test_made_facts.py", "tests/python/test_traces.py::test_table_of_a_recording",
         "tests/python/test_traces.py::test_numbers_that_pages_say",
         *(f"tests/python/test_boards.py::{name}" for name in (
             "test_lines", "test_lines_of_no_device", "test_made", "test_syntax_of_the_document", "test_kept_script")),
         "bindings/python/tests/test_every_call.py::EveryState",
         "bindings/python/tests/test_devices.py::States::test_what_is_shown"]
CHOSEN = "not test_traces or console"
PATHS = "tools:tests/common:tests/devices:bindings/python"
SCRIPTS = ("import json; from script_tests import kept_scripts, made_scripts; "
           "print(json.dumps([*kept_scripts(), *made_scripts('changes', 200)]))")


def is_new(edit):
    return not {"old", "after", "raised"} & edit.keys()


def is_named(edit, text):
    """Whether a step of a list has all parts of a path: in code, as a crate's short name, or as a page. Of a new file
    it has those of the folder, and says that a file there is new."""
    path = PurePath(edit["file"])
    said = rf"\b(?:a new file|one) of `(?:\S+/)?{path.parent.name}`" if is_new(edit) else ""
    path = path.parent if is_new(edit) else path
    for step in re.split(r"^\d+\. ", text, flags=re.M)[1:]:
        parts = {*CODE.findall(step), *re.findall(r"[A-Z-]+\.md", step),
                 *(crate for word, crate in CRATES if re.search(rf"\b{word}\b", step))}
        part = f"(?:{'|'.join(map(re.escape, parts))})"
        form = rf"(?:docs/)?(?:{part}/)*{part}(?:{re.escape(path.suffix)})?"
        if re.search(said, step) and re.fullmatch(form, str(path)):
            return True
    return False


def changed(text, edit):
    """A text with a number that is raised by one, with the new text in place of the old one, or with new lines after a
    line. There is one place."""
    if "raised" in edit:
        form, new = rf"(?<=^{edit['raised']} = )\d+$", lambda number: f"{int(number[0]) + 1}"
    elif "after" in edit:
        form, new = rf"(?<=^{re.escape(edit['after'])}\n)", lambda _: edit["new"].removesuffix("\n") + "\n"
    else:
        form, new = re.escape(edit["old"]), lambda _: edit["new"]
    made, count = re.subn(form, new, text, flags=re.M)
    assert count == 1, edit
    return made


def make(edits, top):
    for edit in edits:
        path = top / edit["file"]
        assert path.exists() != is_new(edit), edit
        path.write_text(edit["new"] if is_new(edit) else changed(path.read_text("utf-8"), edit), "utf-8")


def steps_of(names):
    """The steps of `tools/generate` that changes need beside STEPS."""
    return [step for name in names.split() for step in CHANGES[name].get("steps", [])]


def list_of(change):
    """The list of CONTRIBUTING.md that a change follows."""
    return re.search(rf"^{re.escape(change['list'])}.*?(?=^#|^\*\*|\Z)", GUIDE, re.M | re.S)[0]


def files_of(change):
    return {edit["file"] for edit in change["edits"]}


@pytest.mark.parametrize("change", CHANGES.values(), ids=CHANGES)
def test_list(change):
    """A list names each file that is edited, and says how many there are."""
    text = list_of(change)
    assert [edit["file"] for edit in change["edits"] if not is_named(edit, text)] == []
    assert int(re.search(r"change (?:these )?(\d+) files", text)[1]) == len(files_of(change))


def test_each_is_made():
    assert sorted(CHANGES) == sorted(name for names in TOGETHER for name in names.split())


@pytest.mark.needs("cargo", "cc", "node")
@pytest.mark.parametrize("names", [
    pytest.param(names, marks=pytest.mark.needs(*["wasm"] * ("module" in steps_of(names)))) for names in TOGETHER])
def test_changes(names, tmp_path):
    changes = [CHANGES[name] for name in names.split()]
    files = {file for change in changes for file in files_of(change)}
    copy_repository(tmp_path)
    for change in changes:
        make(change["edits"], tmp_path)
    # Its steps find this Python first, and no stand-in that looks for one each time.
    path = f"{PurePath(sys.executable).parent}{os.pathsep}{os.environ['PATH']}"
    check([sys.executable, tmp_path / "tools/generate", *STEPS, *steps_of(names)], cwd=tmp_path,
          env={**os.environ, "PATH": path})
    check(BUILD, cwd=tmp_path)
    if any(file.startswith("rust/vm-superio/src/") for file in files):
        Cargo(tmp_path / "rust/vm-superio").check("check")
    library = {**os.environ, "SUPERIO_LIBRARY": str(tmp_path / "out/release/libsuperio_c.so")}
    tests = [*TESTS, *(test for change in changes for test in change.get("tests", []))]   # pytest runs each once
    check([sys.executable, "-m", "pytest", "-q", "--without", "kit", "-k", CHOSEN, *tests], cwd=tmp_path, env=library)
    if any("superio_script" in file for file in files):   # over the page's devices, which the step `module` makes
        scripts = check([sys.executable, "-c", SCRIPTS], cwd=tmp_path, env={**os.environ, "PYTHONPATH": PATHS})
        check(["node", "bindings/js/tests/run_scripts.mjs"], cwd=tmp_path, input=scripts)
