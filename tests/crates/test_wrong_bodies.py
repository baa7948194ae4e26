# SPDX-License-Identifier: Apache-2.0 OR BSD-3-Clause
"""Each public function of the proved crates has a must-fail edit in its body, or docs/WRONG-BODIES.md lists it as one
without. Each likely bug that the page lists has an edit of its own, which changes one function, or a test. An edit that
changes several functions names them. Each text that an edit replaces stands in its file once.

Laws, functions of `NoEvents`, and functions that lend an object to read have no edit either.
"""
import re
from itertools import groupby
from operator import itemgetter

import pytest
from contracts import functions_of
from documents import CODE, Document
from harness import ROOT, at_least
from common.rattle import number_of_edits

CRATES = ["superio_core", "superio_console", "vm_superio", "superio_c", "board_objects", "superio_script"]


def places(edit):
    """Where an edit changes its crate: the last comment above, the file, and the place in it."""
    comment = path = ""
    for line in edit.read_text(encoding="utf-8").splitlines():
        if line.startswith("# "):
            comment = line
        elif line.startswith("file: "):
            path = edit.parents[1] / line.removeprefix("file: ")
        elif line.startswith("old: "):
            yield comment, path, path.read_text(encoding="utf-8").find(line.removeprefix("old: "))


def counts(edit):
    """Each text that an edit replaces, and how often it stands in its file, after the replacements above it."""
    path, old, made = None, "", {}
    for line in edit.read_text(encoding="utf-8").splitlines():
        if line.startswith("file: "):
            path = edit.parents[1] / line.removeprefix("file: ")
        elif line.startswith("old: "):
            old = line.removeprefix("old: ")
        elif line.startswith("new: "):
            text = made.get(path) or path.read_text(encoding="utf-8")
            yield old, text.count(old)
            made[path] = text.replace(old, line.removeprefix("new: "))


def edited(crate):
    """Where the edits of a crate change it."""
    return [place for edit in sorted((crate / "must-fail").glob("*.edit")) for _, *place in places(edit)]


def function_at(path, at):
    """The path of the function of a source that has a place."""
    functions = functions_of(path.read_text(encoding="utf-8"))
    return next((function.path for function in functions if function.start <= at < function.end), None)


def lends(function, text):
    """Whether a function lends an object, which is of a type that the user names, to read. A body that returned another
    would need a second one in the device."""
    found = re.match(r"pub fn \w+\(&self\) -> &(\w+)\s", text[function.start:])
    parameters = re.match("<([^<>]*)> |", function.header)[1] or ""
    if not found or found[1] not in [parameter.split(":")[0] for parameter in parameters.split(", ")]:
        return False
    struct = re.search(rf"\bpub struct {function.path[-2]}<.*\{{\n((?:    .*\n)+)\}}", text)[1]
    return len(re.findall(rf"^    (?:pub )?\w+: {found[1]},$", struct, re.M)) == 1


def functions():
    """The public functions that need an edit, each by its type and name, and whether an edit is in its body."""
    for crate in map((ROOT / "crates").joinpath, CRATES):
        edits = edited(crate)
        for path in sorted((crate / "src").rglob("*.rt")):
            for function in functions_of(text := path.read_text(encoding="utf-8")):
                is_wanted = function.is_public and function.has_body and "laws" not in str(path)
                if is_wanted and function.path[0] != "NoEvents" and not lends(function, text):
                    is_edited = any(file == path and function.start <= at < function.end for file, at in edits)
                    yield "::".join(function.path[-2:]), is_edited


def listed():
    """The functions that docs/WRONG-BODIES.md names in the sentence about those without an edit."""
    yield from CODE.findall(Document("docs/WRONG-BODIES.md").text.split(" no edit: ")[1].split(". ")[0])


def shared():
    """The edits that change several functions."""
    edits = sorted((ROOT / "crates").glob("*/must-fail/*.edit"))
    return [edit for edit in edits if len({(path, function_at(path, at)) for _, path, at in places(edit)}) > 1]


def likely():
    """The edits and tests that the table of likely bugs names."""
    table = Document("docs/WRONG-BODIES.md").text.split("| What the port does wrong |")[1].split("\n\n")[0]
    return CODE.findall(table)


FUNCTIONS, LISTED = at_least(140, functions()), set(listed())


DEVICE = """pub struct Port<T: Trigger, EV> {
    line: T,
    more: u8,
}

impl<T: Trigger, EV> Port<T, EV> {
    pub fn line(&self) -> &T
        ensures { result.now ≡ self.now.line }
    {
        &self.line
    }
}
"""


@pytest.mark.parametrize("old, new, is_lent", [
    ("", "", True), ("    more: u8,", "    more: T,", False), ("-> &T", "-> &u8", False), ("-> &T", "-> T", False),
    ("-> &T", "-> &mut T", False), ("(&self)", "(&self, other: &T)", False), ("&self", "&mut self", False),
    ("impl<T: Trigger, EV>", "impl<EV, T: Trigger>", True), ("impl<T: Trigger, EV>", "impl<EV>", False)])
def test_lends(old, new, is_lent):
    """Only where a body has no other object to return."""
    text = DEVICE.replace(old, new) if old else DEVICE
    assert lends(functions_of(text)[0], text) == is_lent


@pytest.mark.parametrize("edit", at_least(40, sorted((ROOT / "crates").glob("*/must-fail/*.edit"))),
                         ids=lambda edit: f"{edit.parts[-3]} {edit.stem}")
def test_places(edit):
    """Each text that an edit replaces stands there once."""
    assert [old for old, count in counts(edit) if count != 1] == []


@pytest.mark.parametrize("function, is_edited", FUNCTIONS)
def test_function(function, is_edited):
    """A public function has an edit, or is listed."""
    assert is_edited or function in LISTED


@pytest.mark.parametrize("name", at_least(39, likely()))
def test_likely_bug(name):
    """Its edits, of which two crates may have one of this name, change one function each. A test is there."""
    module, _, test = name.partition("::")
    if not test:
        edits = list(ROOT.glob(f"crates/*/must-fail/{name}.edit"))
        assert edits
        for edit in edits:
            found = [function_at(*place) for _, *place in places(edit)]
            assert found and found == found[:1] * len(found)
    else:
        sources = [path.read_text(encoding="utf-8") for path in ROOT.glob(f"crates/*/src/{module}.rt")]
        assert any(f"#[test]\nfn {test}(" in source for source in sources)


@pytest.mark.parametrize("edit", at_least(6, shared()))
def test_named(edit):
    """A line `# FUNCTION` or `# FUNCTION: what it does` stands above each wrong body."""
    for comment, changed in groupby(places(edit), key=itemgetter(0)):
        name = comment.removeprefix("# ").partition(": ")[0]
        assert name in ["::".join(function_at(*place)[-2:]) for _, *place in changed], comment


def test_listed():
    """A listed function is there, and has no edit."""
    assert LISTED <= {function for function, is_edited in FUNCTIONS if not is_edited}


def test_counts():
    """The page says how many edits there are, how many of them change several functions, and how many bodies they have."""
    text, edits = Document("docs/WRONG-BODIES.md").text, shared()
    bodies = [line for edit in edits for line in edit.read_text(encoding="utf-8").splitlines() if line.startswith("# ")]
    assert f"There are {number_of_edits()} edits." in text, number_of_edits()
    assert f"{len(edits)} edits change several functions" in text, len(edits)
    assert f"they have {len(bodies)} wrong bodies" in text, len(bodies)
