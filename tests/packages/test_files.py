# SPDX-License-Identifier: Apache-2.0 OR BSD-3-Clause
"""What a packager takes from the repository: licenses, versions, the number of the binary interface, and dates."""
import re

import pytest
from documents import BUILT, files
from generators import facts
from generators.header import read_header
from generators.interface import ABI, SYMBOLS, VERSION, debian_symbols, interface, kept, lost
from harness import ROOT, at_least, check

# What has the version, or the number of the binary interface, beside the places that the step facts writes: the form in
# which it is there, once.
PLACES = [
    ("CHANGELOG.md", r"\A(?s:.*?)^## (\d+\.\d+\.\d+) - .+$", VERSION),
    ("debian/changelog", r"\Asuperio \((.+)\+ds-\d+\) ", VERSION),
    ("bindings/js/module.mjs", r"^export const ABI = (\d+);$", ABI),
]
# Copies that a package has for itself, of what stands elsewhere: a package takes no file from above it.
COPIES = {
    **{f"{package}/LICENSE-{short}": f"LICENSES/{text}.txt"
       for package in ("rust/superio", "rust/vm-superio", "bindings/c/from-source", "bindings/python")
       for short, text in (("APACHE", "Apache-2.0"), ("BSD", "BSD-3-Clause"))},
    "bindings/c/from-source/superio.h": "bindings/c/superio.h",
}
# The line in which a source names its licenses, and which files are sources.
LICENSE = "SPDX-License-" "Identifier: Apache-2.0 OR BSD-3-Clause"
SOURCE = re.compile(r".+\.([ch]|S|py|rs|rt|antt|[cm]?[jt]s|pyi)|Makefile")
UNREAD = {".git", *BUILT}
CHANGES = (ROOT / "CHANGELOG.md").read_text(encoding="utf-8")
HEADINGS = re.findall(r"^## (.*)$", CHANGES, re.M)
# What CHANGELOG.md says of the present binary interface, by its kinds of changes.
INTERFACE = dict(re.findall(r"^- \*\*(\w+(?: \w+)?)\*\*: (.*)$", re.search(
    rf"^### Binary interface {ABI}\n(.*?)^###? ", CHANGES, re.M | re.S)[1], re.M))


def unlicensed():
    """The sources that do not name their licenses in one of the first lines."""
    for path in sorted(ROOT.rglob("*")):
        if not UNREAD & set(path.relative_to(ROOT).parts) and path.is_file():
            with path.open("rb") as file:
                head = [file.readline(200).decode(errors="replace") for _ in range(3)]
            if (SOURCE.fullmatch(path.name) or head[0].startswith("#!")) and LICENSE not in "".join(head):
                yield str(path.relative_to(ROOT))


@pytest.mark.needs("reuse")
def test_reuse():
    check(["reuse", "--root", ROOT, "lint"])


@pytest.mark.parametrize("copy", COPIES)
def test_copy(copy):
    assert (ROOT / copy).read_bytes() == (ROOT / COPIES[copy]).read_bytes()


def test_each_source_names_its_licenses():
    assert not list(unlicensed()), f"no line '{LICENSE}' near the start"


def test_modes():
    """What can be run says by what, or is for the processor, as what a compiler made. All that says it can be run."""
    for path in (path for path in files() if not (ROOT / path).is_symlink()):
        with (ROOT / path).open("rb") as file:
            head = file.read(4)
        can_be_run = (ROOT / path).stat().st_mode & 0o100 > 0
        assert can_be_run == (head[:2] == b"#!") or head == b"\x7fELF", path


def test_interface():
    """superio.abi and Debian's table are those of the header, and nothing is gone while the number is the same."""
    assert not lost()
    assert kept() == interface(), "run tools/generate"
    assert SYMBOLS.read_text(encoding="ascii") == debian_symbols(), "run tools/generate"


def names(text):
    return re.findall(r"`(\w+)`", text)


def test_changes_of_the_interface():
    """What CHANGELOG.md calls new is in the header, and what it calls removed is not. Of what has another name, the new
    one is."""
    header = read_header()
    fields = [field.name for struct in header.structs.values() for field in struct]
    results = [field.name for name, struct in header.structs.items() if name.endswith("_effects") for field in struct]
    here = {*header.functions, *header.structs, *header.constants}
    assert {*at_least(4, names(INTERFACE["New"]))} <= here
    assert not here & {*at_least(1, names(INTERFACE["Removed"].partition(".")[0]))}
    assert {*names(INTERFACE["Another meaning"])} <= here
    for sentence in at_least(3, INTERFACE["Renamed"].split(". ")):
        before, after = map(names, re.split(" are | were ", sentence))
        if " were " in sentence:
            before, after = after, [name for name in before if name not in here]
        found = here if before[0].startswith("superio_") else {*results} if "enqueue" in sentence else {*fields}
        assert {*after} <= found and not {*before} & found, sentence


@pytest.mark.parametrize("heading", at_least(2, HEADINGS))
def test_release_has_a_date(heading):
    """Only the first may be unreleased."""
    dated = heading.replace("unreleased", "2000-01-01") if heading == HEADINGS[0] else heading
    assert re.fullmatch(r"\d+\.\d+\.\d+ - \d{4}-\d\d-\d\d", dated)


@pytest.mark.parametrize("name, form, wanted", at_least(26, [*PLACES, *facts.PLACES]))
def test_number(name, form, wanted):
    """A version, or the number of the binary interface, is the same in each file that repeats it, and so are sizes."""
    assert re.findall(form, (ROOT / name).read_text(encoding="utf-8"), re.M) == [str(wanted)]
