# SPDX-License-Identifier: Apache-2.0 OR BSD-3-Clause
"""Each file that repeats a fact of interface.toml has it as tools/generate writes it, and nothing else of it changes."""
import re
import sys

import pytest
from common.facts import CLOCK, ERRORS, VERSION, word_of
from documents import copy_repository, files
from generators import facts, facts_of_pages, facts_of_tests
from harness import ROOT, at_least, check

FLOOD, NUMBER = {"case": "Flood", "holds": "u8", "text": "A flood"}, len(ERRORS) + 1
RUST = f"        SavedStateError::Flood(_) => {NUMBER},\n"
PRINTED = '            SavedStateError::Flood(_) => f.write_str("A flood"),\n'
ADDED = {
    "crates/superio_core/src/saved/error_text.rt":
        '            SavedStateError::Flood(_) => write!(f, "A flood"),\n',
    "crates/superio_c/src/saved.rt": RUST,
    "crates/superio_c/specs/Saved.antt": f"load_status (Some (Flood _)) = {NUMBER}\n",
    "rust/superio/src/printed.rs": PRINTED,
    "recheck/left-out.rs": PRINTED,
    "bindings/c/from-source/src/lib.rs": RUST,
    "recheck/Calls.v": f"  | SavedStateError_Flood _ => {NUMBER}\n",
    "tests/recheck/differential/main.rs":
        f"            SavedStateError::Flood(value) => {NUMBER} + 100 * u64::from(value),\n",
    "tests/recheck/differential/Differential.v": f"    | SavedStateError_Flood value => {NUMBER} + 100 * value\n",
    "tests/c/replay.c": f'        "flood", /* {NUMBER} */\n',
}


def text_of(name):
    return (ROOT / name).read_text(encoding="utf-8")


MADE = facts.made(text_of)


@pytest.mark.parametrize("name", at_least(20, MADE))
def test_is_made(name):
    assert text_of(name) == MADE[name], "run tools/generate facts"


@pytest.mark.parametrize("name", facts.ROWS)
def test_rows(name):
    """A further error gets a row below the others, and nothing else changes."""
    text, template = text_of(name), facts.ROWS[name]
    form = facts.rows_of(template)
    rows = re.search(form, text, re.M)[0]
    assert rows.count("\n") == len(ERRORS)
    assert facts.replaced(text, form, facts.rows(template, [*ERRORS, FLOOD])) == text.replace(rows, rows + ADDED[name])


@pytest.mark.parametrize("name, form, value", at_least(25, facts.PLACES))
def test_place(name, form, value):
    """Another value takes the place of this one, and nothing else changes."""
    text, digit = text_of(name), "8" if str(value) == "7" else "7"
    other = facts.replaced(text, form, digit)
    assert other != text and facts.replaced(other, form.replace(r"(\d+)", f"({digit})"), str(value)) == text


# The kinds of manifests and sources. One of them is a copy that the step interface makes.
KINDS = {".abi", ".c", ".cfg", ".cjs", ".h", ".js", ".json", ".mjs", ".mts", ".py", ".pyi", ".rs", ".toml", ".ts"}
COPY = "bindings/c/from-source/superio.h"


def stating(version):
    """The manifests and sources that state a version, without those of tests."""
    form = re.compile(rf"(?<![\d.]){re.escape(version)}(?!\.?\d)")
    read = (path for path in files() if path.suffix in KINDS and path.parts[0] != "tests")
    return {str(path) for path in read if form.search((ROOT / path).read_text("utf-8"))}


def test_another_version(tmp_path):
    """In a copy, the step writes another version into each manifest and source that states this one, and changes no
    other file. Pages tell of releases, so they have theirs by hand."""
    copy_repository(tmp_path)
    (tmp_path / "VERSION").write_text("98.76.5\n", "ascii")
    check([sys.executable, "-m", "generators.facts"], cwd=tmp_path / "tools")
    made = {name: (tmp_path / name).read_text("utf-8") for name in MADE}
    named = stating(VERSION) - {COPY}
    assert {name for name in MADE if made[name] != MADE[name]} == {*at_least(6, named)}
    for name in named:
        assert VERSION not in made[name], name
    assert re.findall(r"^#define SUPERIO_VERSION_[A-Z]+ (\d+)$", made[facts.C_HEADER], re.M) == ["98", "76", "5"]


@pytest.mark.parametrize("text", ["none\n", 2 * '  | SavedStateError_TooShort => 1\n\n'])
def test_file_without_its_place(text):
    with pytest.raises(ValueError):
        facts.replaced(text, facts.rows_of(facts.ROWS["recheck/Calls.v"]), "")


def test_expressions():
    """Each word of an expression, and one that is none."""
    for text, made in {
            "<port first=4>": "53494f53", "<port magic=00 kind=7 version=fe length=102 first=5>": "0007fe0201",
            "<clock cut=1>": facts_of_tests.expanded("<clock>")[:-2], "a <port>!": f"a {facts_of_tests.expanded('<port>')}!",
            "<console less=a first=9>": facts_of_tests.expanded("<console less=a>")}.items():
        assert facts_of_tests.expanded(text) == made, text
    assert facts_of_tests.expanded("<port <clock>>").endswith(facts_of_tests.expanded("<clock>"))
    for text in "<clock nothing=1>", "<port mr=1>":
        with pytest.raises(ValueError):
            facts_of_tests.expanded(text)


def test_invalid_states():
    """A row stands for each invalid state of its device. Of each error there is one, and of those of the header one for
    each device."""
    made = [facts_of_tests.made_of("one.in", f"x\nsl <invalid {device}> = <reply>\ny\n").splitlines()
            for device in facts_of_tests.CONTENTS]
    for head, first, *rows, last in made:
        assert (head, first, last) == ("# Made by tools/generate from one.in and interface.toml.", "x", "y")
        assert rows[0] == "sl - = too short" and all(re.fullmatch("sl ([0-9a-f]+|-) = [a-z0-9 ]+", row) for row in rows)
    replies = [{row.partition(" = ")[2] for row in rows} for rows in made]
    assert "unknown version fe" in replies[0] and {word_of(error) for error in ERRORS[:3]} <= set.intersection(*replies)
    assert all(any(found.startswith(word_of(error)) for found in set.union(*replies)) for error in ERRORS)
    in_script = facts_of_tests.made_of("two.in", "cl <invalid clock>  <reply>\n")
    assert "\ncl   too short\ncl 53494f53020119  too short\n" in in_script


def test_differences_of_the_clock(monkeypatch):
    """A register that is only read, one that is only written, and a field have rows beside those that are there."""
    before = facts_of_pages.differences_of_the_clock()
    registers = [{"name": "FR", "offset": 0x20, "read": "1", "why": "One."},
                 {"name": "TR", "offset": 0x24, "write": "sets [the trim](#the-trim)", "vm_superio": "RTCTR is read.",
                  "why": "Two."}]
    fields = [{"name": "tr", "about": "RTCTR, the trim", "why": "Three."}]
    monkeypatch.setitem(CLOCK, "registers", [*CLOCK["registers"], *registers])
    monkeypatch.setitem(CLOCK, "fields", [*CLOCK["fields"], *fields])
    rows = [row for row in facts_of_pages.differences_of_the_clock() if row not in before]
    assert rows == [
        "| An access at 0x020 is invalid. | A read of RTCFR shows 1. A write is invalid. | One. |",
        "| RTCTR is read. | A read of RTCTR is invalid. A write of v sets [the trim](DEVICES.md#the-trim). | Two. |",
        "| There is no `tr`. | `tr`: RTCTR, the trim. | Three. |"]


def test_parts():
    """Each part of the pages stands below one mark. The READMEs have one each, and no page has it beside."""
    marks = [mark[1] for name in facts.PAGES for mark in facts.MARK.finditer(text_of(name))]
    assert sorted([*marks, "devices"]) == sorted(facts_of_pages.PARTS)
    for name in facts.READMES:
        assert [mark[1] for mark in facts.MARK.finditer(text_of(name))] == ["devices"], name


def test_devices(monkeypatch):
    """Another device is listed behind the others, and its section is the one of its name."""
    parts = facts_of_pages.devices, facts_of_pages.names_of_devices
    before = [part() for part in parts]
    monkeypatch.setattr(facts_of_pages, "DEVICES", [*facts_of_pages.DEVICES, {
        "name": "the POST code port", "about": "a code port", "c": "superio_code", "rust": "Code", "python": "Codes"}])
    assert [part() for part in parts] == [[*before[0], "- a code port"], [
        *before[1], "| [The POST code port](#the-post-code-port) | `superio_code` | `Code` | `Codes` |"]]


def test_comments():
    """Comments stand in one column, and end before the 81st."""
    assert "".join(facts.commented([("    a;", "one"), ("    longer;", " ".join(["two"] * 20))])) == (
        "    a;      /* one */\n"
        "    longer; /* two two two two two two two two two two two two two two two two\n"
        "               two two two two */\n")
