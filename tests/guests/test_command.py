# SPDX-License-Identifier: Apache-2.0 OR BSD-3-Clause
"""What `judge.py` prints at its end, of each part how many checks were as they should be, its status, and what it
keeps."""
import gzip
import hashlib
import io
import os
import random
import subprocess
import sys
import tarfile
import time
from concurrent.futures import ThreadPoolExecutor
from types import SimpleNamespace

import cbmc
import judge
import proofs
import pytest
import sources
from debian import apt_get, make_whole, replace_links
from guest import Monitor, assertions


def test_sums(monkeypatch, capsys):
    """The last check of each part counts, and none of another part does."""
    monkeypatch.setattr(cbmc, "version", lambda command: "6")
    monkeypatch.setattr(sources, "told", lambda name: name)
    first, second = proofs.AS_IT_STANDS[:2], proofs.CLOCK_REFUTED[:3]
    judge.tell([("one", first), ("two", second)], [(True, 1), (False, 1), (True, 2), (True, 2), (True, 3)], ["cbmc"])
    assert capsys.readouterr().out == (
        "By CBMC 6, in 9 s of a processor:\n1 of 2 proved, linux: one\n3 of 3 refuted, linux: two\n")


# What judge.py fetches, and what it says without it.
UNTRIED = {"the archive": "Debian's archive did not give what is needed: ",
           "CBMC": "there is no CBMC 6, which is fetched for x86-64 alone"}


def judged(tmp_path, monkeypatch, words=(), failing="nothing"):
    """The status of judge.py if this fails, how many exchanges each test made, which checks, and how many at a time."""
    made, marks = {}, [tmp_path / "unreachable", tmp_path / "packages" / "unreachable"]
    for mark in marks:   # of a run before, when the archive gave nothing
        mark.parent.mkdir(exist_ok=True)
        mark.touch()

    def given(found):
        """What the archive gives, which is asked even after a run to which it gave nothing."""
        assert not any(mark.exists() for mark in marks)
        if failing == "the archive":
            raise subprocess.CalledProcessError(100, "apt-get")
        return found

    def run(words, env, **_):
        assert failing not in UNTRIED
        made["exchanges"] = env["GUESTS_EXCHANGES"]
        return subprocess.CompletedProcess(words, int(failing == "an exchange"))

    def make(checks, command, jobs):
        made.update(checks=checks, jobs=jobs)
        return [(True, 1)] * (len(checks) - 1) + [(failing != "the last proof", 1)]
    lacking = "xen" if failing == "a version without sums" else ""
    for module, name, value in [
            (sys, "argv", ["judge.py", *words]), (sources, "KEPT", tmp_path), (sources, "told", str),
            (cbmc, "fetched", lambda: given(["cbmc"] * (failing != "CBMC"))), (cbmc, "version", lambda command: "6"),
            (sources, "is_recorded", lambda name: given(name != lacking)), (subprocess, "run", run),
            (judge, "make", make)]:
        monkeypatch.setattr(module, name, value)
    return judge.main(), made["exchanges"], made["checks"], made["jobs"]


@pytest.mark.parametrize("failing", ["nothing", "an exchange", "the last proof", "a version without sums"])
def test_status(failing, tmp_path, monkeypatch, capsys):
    """It ends with 0 only if everything was tried and passed."""
    status, *_ = judged(tmp_path, monkeypatch, failing=failing)
    assert status == (failing != "nothing")
    assert ("NOT TRIED: xen, " in capsys.readouterr().out) == (failing == "a version without sums")


@pytest.mark.parametrize("failing", UNTRIED)
def test_what_cannot_be_tried(failing, tmp_path, monkeypatch):
    """Without what it fetches it ends, and tells why, before it makes an exchange or a proof."""
    with pytest.raises(SystemExit, match=f"^{UNTRIED[failing]}"):
        judged(tmp_path, monkeypatch, failing=failing)


# What CBMC prints of two assertions, one of which fails.
PRINTED = """[prove.assertion.1] line 3 some byte is read: SUCCESS
[prove.assertion.2] line 4 reached: the end: FAILURE
** 1 of 2 failed (2 iterations)
VERIFICATION FAILED
"""


def test_what_is_read_of_a_verifier():
    """Each assertion. What is not whole, or of another form, or does not fit together, is refused."""
    def read(printed):
        return assertions(["sh", "-c", 'printf %s "$0"', printed])
    assert read(PRINTED) == [("some byte is read", True), ("reached: the end", False)]
    lines = PRINTED.splitlines(keepends=True)
    cut = ["".join(lines[:place] + lines[place + 1:]) for place in range(len(lines))]
    turned = [PRINTED.replace(old, new) for old, new in [
        ("SUCCESS\n", "UNKNOWN\n"), ("SUCCESS\n", "FAILURE\n"), ("FAILURE\n", "SUCCESS\n"), ("1 of 2", "0 of 2"),
        ("1 of 2", "1 of 3"), ("FAILED", "SUCCESSFUL"), ("line 4", "file prove.c line 4")]]
    for printed in (*cut, *turned, ""):
        with pytest.raises(AssertionError):
            read(printed)


def checks_of(parts):
    return [check for _, checks in parts for check in checks]


@pytest.mark.parametrize("words, exchanges, checks, jobs", [
    ((), "20000", checks_of(proofs.PARTS), len(os.sched_getaffinity(0))),
    (("--exchanges", "7"), "7", checks_of(proofs.PARTS), len(os.sched_getaffinity(0))),
    (("--jobs", "3"), "20000", checks_of(proofs.PARTS), 3),
    (("--quick",), "20000", checks_of([*proofs.OF_GATE, *proofs.OF_GATE_OF_CLOCK]), len(os.sched_getaffinity(0)))],
    ids=lambda value: " ".join(value) if isinstance(value, tuple) else "")
def test_each_option_reaches_its_step(words, exchanges, checks, jobs, tmp_path, monkeypatch):
    assert judged(tmp_path, monkeypatch, words) == (0, exchanges, checks, jobs)


# What CBMC may say: of an assertion, of a loop's end, and of a place, which is reached if it is refuted.
HOLDS, FAILS = ("some byte is read", True), ("some byte is read", False)
WHOLE, CUT = ("unwinding assertion loop 0", True), ("unwinding assertion loop 0", False)
REACHED, NOT_REACHED = ("reached: the end", False), ("reached: the end", True)
VERDICTS = [("proved", [HOLDS, WHOLE, REACHED], True), ("proved", [HOLDS, FAILS, REACHED], False),
            ("proved", [HOLDS, CUT, REACHED], False), ("proved", [HOLDS, REACHED, NOT_REACHED], False),
            ("proved", [HOLDS, WHOLE], False), ("proved", [], False),
            ("refuted", [HOLDS, FAILS, WHOLE], True), ("refuted", [FAILS, NOT_REACHED], True),
            ("refuted", [HOLDS, WHOLE, REACHED], False), ("refuted", [FAILS, CUT], False),
            ("refuted", [HOLDS, CUT], False), ("refuted", [], False)]


@pytest.mark.parametrize("outcome, said, is_met", VERDICTS, ids=str)
def test_what_meets_a_check(outcome, said, is_met):
    """All is proved and each place reached, of which there is one at least; or, with no loop cut, something is refuted."""
    driver = SimpleNamespace(verify=lambda *_: said)
    assert proofs.Check("any", Monitor(proofs.EDGES), outcome=outcome).is_met(driver, ["cbmc"]) == is_met


# Seconds since Debian's archive did not give what was needed, if it ever did not, and whether it is asked again.
ASKED_AGAIN = {None: True, 0: False, 3500: False, 3700: True, 100_000: True}


@pytest.mark.parametrize("age", ASKED_AGAIN)
@pytest.mark.parametrize("gives", [True, False], ids=["given", "not given"])
def test_what_is_asked_for_again(gives, age, tmp_path):
    """A folder is there whole or not at all, and once. Without it, the archive is asked again after an hour."""
    folder, mark, asked = tmp_path / "kept" / "it", tmp_path / "kept" / "unreachable", []

    def make(new):
        asked.append(new)
        (new / "file").touch()
        if not gives:
            raise subprocess.CalledProcessError(100, "apt-get")
    if age is not None:
        mark.parent.mkdir()
        mark.touch()
        os.utime(mark, (time.time() - age,) * 2)
    for _ in range(2):
        make_whole(folder, make)
    assert len(asked) == ASKED_AGAIN[age] and (folder / "file").exists() == (gives and ASKED_AGAIN[age])
    assert sorted(path.name for path in folder.parent.iterdir()) == sorted(
        ["lock", *["it"] * folder.exists(), *["unreachable"] * mark.exists()])
    assert gives or time.time() - mark.stat().st_mtime < 3600


def test_a_folder_is_made_once(tmp_path):
    """The others wait for the one that makes it."""
    asked, folder = [], tmp_path / "kept" / "it"

    def make(new):
        asked.append(new)
        time.sleep(0.1)
        (new / "file").touch()

    def use(_):
        make_whole(folder, make)
        return (folder / "file").exists()
    with ThreadPoolExecutor(4) as pool:
        assert [*pool.map(use, range(4))] == [True] * 4 and len(asked) == 1


# An apt-get for which this machine's archive is a folder, and what the archive has but a signature.
OTHER_ARCHIVE = """#!/bin/sh
[ "$1" != --print-uris ] || exec echo "'file:{0}/dists/bookworm/InRelease' it 0"
exec /usr/bin/apt-get "$@"
"""
RELEASE = f"Codename: trixie\nSHA256:\n {hashlib.sha256().hexdigest()} 0 main/binary-amd64/Packages\n"


@pytest.mark.parametrize("is_source", [False, True])
@pytest.mark.parametrize("place", ["tools/install-packages", "an earlier run"])
def test_where_a_source_is_found(place, is_source, tmp_path, monkeypatch):
    """Where tools/install-packages unpacks it for another user than root, and where a run before has put it: its
    archive with the file that says its version, or nothing."""
    monkeypatch.setattr(sources, "PACKAGES", tmp_path / "packages")
    monkeypatch.setattr(sources, "KEPT", tmp_path / "kept")
    source = sources.Source("It", "it-of-a-test", "bookworm", is_source)
    monkeypatch.setitem(sources.SOURCES, "it", source)
    folder = tmp_path / "packages" if place == "tools/install-packages" else source.folder
    names = ["it-of-a-test_1.2.orig.tar.xz"] if is_source else [
        "usr/src/it-of-a-test.tar.xz", "usr/share/doc/it-of-a-test/changelog.Debian.gz"]
    for name in names:
        assert sources.files("it") == (None, None) and sources.version("it") is None
        (folder / name).parent.mkdir(parents=True, exist_ok=True)
        (folder / name).write_bytes(gzip.compress(b"it-of-a-test (1.2) bookworm; urgency=medium\n"))
    assert sources.files("it") == (folder / names[0], folder / names[-1]) and sources.version("it") == "1.2"


@pytest.mark.where("CBMC 6")   # where apt-get is
def test_an_archive_that_is_not_signed(tmp_path, monkeypatch, capfd):
    """Nothing is taken of it."""
    files = {"dists/trixie/main/binary-amd64/Packages": "", "dists/trixie/Release": RELEASE, "apt-get": OTHER_ARCHIVE}
    for name, text in files.items():
        (tmp_path / name).parent.mkdir(parents=True, exist_ok=True)
        (tmp_path / name).write_text(text.format(tmp_path), "ascii")
    (tmp_path / "apt-get").chmod(0o755)
    monkeypatch.setenv("PATH", f"{tmp_path}:{os.environ['PATH']}")
    monkeypatch.setenv("LC_ALL", "C")
    with pytest.raises(subprocess.CalledProcessError):
        apt_get(tmp_path / "own", "trixie")
    assert "is not signed" in capfd.readouterr().err


def test_links(tmp_path):
    """A file stands in the place of each link to it. A link that leads nowhere, or out of the folder, is gone."""
    folder = tmp_path / "folder"
    folder.mkdir()
    (folder / "file").write_text("its text", encoding="ascii")
    (tmp_path / "other").write_text("another", encoding="ascii")
    for name, target in [("link", "file"), ("second", "link"), ("lost", "nowhere"), ("outside", "../other")]:
        (folder / name).symlink_to(target)
    replace_links(folder)
    assert {path.name: path.read_text(encoding="ascii") for path in folder.iterdir()} == dict.fromkeys(
        ("file", "link", "second"), "its text")
    assert not [path for path in folder.iterdir() if path.is_symlink()]


@pytest.mark.parametrize("words", [["xz", "--block-size=65536"], ["xz"], ["gzip"]], ids=" ".join)
@pytest.mark.parametrize("is_in_order", [True, False])
def test_unpacked_files(tmp_path, words, is_in_order):
    """Files come out of the blocks that have them, also one that goes on in the next blocks. They come out of the whole
    archive if it has no blocks, or another order."""
    texts = {f"{folder}/{number}": random.Random(number).randbytes(number)
             for folder in ("a", "b.c", "b") for number in (0, 100, 5000, 60000, 200000)}
    texts["a/200000"] += b"top-1.0/a/5000\0"   # which is no header
    names = sorted(texts) if is_in_order else sorted(texts, reverse=True)
    with tarfile.open(tmp_path / "archive", "w") as archive:
        for name in names:
            member = tarfile.TarInfo(f"top-1.0/{name}")
            member.size = len(texts[name])
            archive.addfile(member, io.BytesIO(texts[name]))
    with open(tmp_path / "archive", "rb") as plain, open(tmp_path / "packed", "wb") as packed:
        subprocess.run([*words, "--stdout"], stdin=plain, stdout=packed, check=True)
    found = dict(sources.found_in_blocks(tmp_path / "packed", sorted(texts)))
    assert found.items() <= texts.items()
    if len(words) == 1:
        assert not found
    elif is_in_order:
        assert found == texts
    (tmp_path / "folder").mkdir()
    wanted = ["a/100", "b.c/60000", "b/200000", "b/5000"]
    sources.unpack(tmp_path / "packed", wanted, tmp_path / "folder")
    assert {str(path.relative_to(tmp_path / "folder")): path.read_bytes() for path in (tmp_path / "folder").rglob("*/*")
            } == {path: texts[path] for path in wanted}


@pytest.mark.parametrize("wrong", [(), ("a",), ("b/c",), ("d",), ("a", "d")], ids=" ".join)
def test_files_of_a_source(wrong, tmp_path, monkeypatch):
    """Each of them has the sum that the repository has, or all are refused, also in the next run."""
    texts = {"a": "one", "b/c": "two", "d": "three"}
    listed = tmp_path / "linux-1.sha256"
    listed.write_text("".join(f"{hashlib.sha256(text.encode()).hexdigest()}  {path}\n" for path, text in texts.items()),
                      encoding="ascii")

    def unpack(archive, paths, folder):
        for path in paths:
            (folder / path).parent.mkdir(exist_ok=True)
            (folder / path).write_text(texts[path] + "." * (path in wrong), encoding="ascii")
    for name, value in [("KEPT", tmp_path / "kept"), ("sums", lambda name: listed), ("unpack", unpack),
                        ("files", lambda name: (None, None))]:
        monkeypatch.setattr(sources, name, value)
    for _ in range(2):
        if wrong:
            with pytest.raises(ValueError, match=f"^linux-1.sha256 names other sums than those of {', '.join(wrong)}$"):
                sources.sources("linux")
        else:
            assert {path: (sources.sources("linux") / path).read_text("ascii") for path in texts} == texts


@pytest.mark.where("CBMC 6")
def test_no_link_is_kept():
    """With one, `rt ci` would fail in the next run of the gate."""
    assert not [path for path in sources.KEPT.rglob("*") if path.is_symlink()]
