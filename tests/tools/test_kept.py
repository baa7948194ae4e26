# SPDX-License-Identifier: Apache-2.0 OR BSD-3-Clause
"""A proof of an earlier run counts only if nothing has changed of what it was made of."""
import os
import shutil
from concurrent.futures import ThreadPoolExecutor

import kept
import pytest

# A folder of two files with one below it, a file beside it, and what has no place of its own.
TREE = {"folder/a": "ab", "folder/b": "c", "folder/below/c": "", "file": "text"}
LEFT_BY_TOOLS = ["folder/__pycache__/a", "folder/out/a", "folder/below/target/release/a", "folder/build/lib/a",
                 "folder/below/Cargo.lock"]


@pytest.fixture
def top(tmp_path, monkeypatch):
    """A repository, on a machine that has kept nothing."""
    monkeypatch.setattr(kept, "FOLDER", tmp_path / "kept")
    monkeypatch.setattr(kept, "ROOT", tmp_path / "top")
    monkeypatch.setattr(kept, "again", False)
    monkeypatch.setattr(kept, "taken", [])
    write(tmp_path / "top", TREE)
    return tmp_path / "top"


def write(top, texts):
    for name, text in texts.items():
        (top / name).parent.mkdir(parents=True, exist_ok=True)
        (top / name).write_text(text, "utf-8")


def parts(top, *texts):
    return [top / "folder", top / "file", *texts]


def makes(name, parts):
    """Whether a proof has to be made, which then leaves a file of its name."""
    calls = []

    def make(folder):
        calls.append(name)
        (folder / "left").write_text(name, "utf-8")
    assert (kept.proof(name, parts, make) / "left").read_text("utf-8") == name
    return calls == [name]


def test_a_proof_is_made_once(top):
    assert [makes(name, parts(top)) for name in ("one", "one", "other", "one")] == [True, False, True, False]
    assert kept.taken == ["one", "one"]


# What may be otherwise of a repository: these files have other texts, or went.
CHANGES = [{"folder/a": "aB"}, {"folder/a": "abc", "folder/b": ""}, {"folder/a": "a", "folder/b": "bc"},
           {"folder/a": "c", "folder/b": "ab"}, {"folder/below/c": "c"}, {"folder/below/c": None},
           {"folder/b": None, "folder/d": "c"}, {"folder/b": None, "folder/below/b": "c"}, {"folder/d": ""},
           {"folder/below/deeper/d": ""}, {"file": "texT"}, {"file": ""},
           {"folder/b": None, "file": "ctext"}, {"folder/a": "ab\0" "1\0c", "folder/b": None}]


@pytest.mark.parametrize("change", CHANGES, ids=str)
def test_each_change_counts(change, top):
    assert makes("one", parts(top))
    for name in (name for name, text in change.items() if text is None):
        (top / name).unlink()
    write(top, {name: text for name, text in change.items() if text is not None})
    assert makes("one", parts(top))


TEXTS = [(), ("",), ("", ""), ("a",), ("b",), ("a", "b"), ("ab",), ("b", "a"), ("a", "", "b"), ("a\0end\0", "b")]


def test_each_text_counts(top):
    """By itself, at its place."""
    assert [makes("one", parts(top, *texts)) for texts in (*TEXTS, *TEXTS)] == [True] * len(TEXTS) + [False] * len(TEXTS)


def test_where_a_file_is_a_part_counts(top):
    assert all(makes("one", found) for found in (parts(top), parts(top)[:1], parts(top)[::-1], [top / "folder/a"],
                                                 [top / "folder/b"], ["ab"], ["one"], []))


def test_what_tools_leave_does_not_count(top):
    assert makes("one", parts(top))
    write(top, dict.fromkeys(LEFT_BY_TOOLS, "new"))
    assert not makes("one", parts(top))


def test_what_fails_is_not_kept(top):
    """However it ends, it leaves nothing."""
    for fault in (AssertionError, KeyboardInterrupt):
        def fail(folder, fault=fault):
            (folder / "left").write_text("half", "utf-8")
            raise fault
        with pytest.raises(fault):
            kept.proof("one", parts(top), fail)
        assert [path.name for path in kept.FOLDER.iterdir() if path.name != "lock"] == ["proofs"]
        assert [*(kept.FOLDER / "proofs").iterdir()] == [] == kept.taken
    assert makes("one", parts(top))


def test_all_are_made_again(top, monkeypatch):
    """Which replaces those that were there."""
    place = kept.proof("one", parts(top), lambda folder: (folder / "left").write_text("spoilt", "utf-8"))
    monkeypatch.setattr(kept, "again", True)
    assert makes("one", parts(top)) and kept.taken == []
    monkeypatch.setattr(kept, "again", False)
    assert not makes("one", parts(top)) and (place / "left").read_text("utf-8") == "one"


def test_the_last_stay(top, monkeypatch):
    """Those that were made or taken last."""
    monkeypatch.setattr(kept, "MOST", 3)
    for number, name in enumerate("abc"):
        os.utime(kept.proof(name, [], lambda folder: None), (number, number))
    assert kept.proof("a", [], pytest.fail).exists()
    kept.proof("d", [], lambda folder: None)
    assert len([*(kept.FOLDER / "proofs").iterdir()]) == 3
    taken = [kept.FOLDER / "proofs" / kept.digest(name, []) for name in "abcd"]
    assert [path.exists() for path in taken] == [True, False, True, True]


def test_what_was_said_is_the_same_again(top):
    """By whichever letters, and at any length."""
    said = ["", "a\r\nb\n\n", "\u221a\U0001f40d" * 1000]
    assert [kept.text(text[:1], parts(top), lambda text=text: text) for text in said] == said
    assert [kept.text(text[:1], parts(top), pytest.fail) for text in said] == said


def test_another_run_is_quicker(top):
    """What it has made meanwhile stays, since it may be in use."""
    def slow(folder):
        (folder / "left").write_text("slow", "utf-8")
        kept.proof("one", parts(top), lambda other: (other / "left").write_text("quick", "utf-8"))
    place = kept.proof("one", parts(top), slow)
    assert (place / "left").read_text("utf-8") == "quick" and [*place.parent.iterdir()] == [place]


def test_another_run_drops_a_proof(top, monkeypatch):
    """Just when it is to be taken. It is made again, and counts as made."""
    place, touch = kept.proof("one", parts(top), lambda folder: None), os.utime

    def dropped(path):
        monkeypatch.setattr(os, "utime", touch)
        shutil.rmtree(place)
        touch(path)
    monkeypatch.setattr(os, "utime", dropped)
    assert makes("one", parts(top)) and kept.taken == []


def test_two_runs_at_once(top):
    """Each ends well, whichever is first."""
    with ThreadPoolExecutor(8) as pool:
        places = [*pool.map(lambda _: kept.proof("one", parts(top), lambda folder: (folder / "left").touch()), range(40))]
    assert len({*places}) == 1 and (places[0] / "left").exists()
