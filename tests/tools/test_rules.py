# SPDX-License-Identifier: Apache-2.0 OR BSD-3-Clause
"""Nothing passes for not having run: the rules of conftest.py, of sums.txt, of at_least and of tools/check, with tests
that break them."""
import configparser
import json
import os
import re
import shutil
import subprocess
import sys
import time
from concurrent.futures import ThreadPoolExecutor
from contextlib import suppress
from types import SimpleNamespace

import pytest
from common import rattle
from common.requirements import TOOLS
from common.results import OF_CARGO, counted, of_gate
from common.results import run as run_part
from harness import LIMIT, ROOT, at_least, run

HEAD = "import pytest\nfrom harness import at_least\n"
RUN = HEAD + "def test():\n    "
# A test that has a mark at each place where one may stand.
LEVELS = "file", "class", "test"
MARKED = HEAD + """pytestmark = pytest.mark.{}
@pytest.mark.{}
class TestIt:
    @pytest.mark.{}
    def test(self): pass"""


def marked(level, mark, other):
    """The test with one mark at a level and another one at the others."""
    return MARKED.format(*(mark if place == level else other for place in LEVELS))


# Tests, and what pytest counts of them at its end.
BROKEN = {
    "a good one": (RUN + "pass", "1 passed"),
    "one that skips itself": (RUN + "pytest.skip('for no reason')", "1 failed"),
    "one that is skipped with the words of --without": (RUN + "pytest.skip('--without names cargo')", "1 failed"),
    "one marked to be skipped": (HEAD + "@pytest.mark.skip\ndef test(): pass", "1 error"),
    "one that is skipped on a condition": (HEAD + "@pytest.mark.skipif(True, reason='a')\ndef test(): pass", "1 error"),
    "one that is expected to fail": (HEAD + "@pytest.mark.xfail\ndef test(): assert 0", "1 failed"),
    "one that is expected to fail and passes": (HEAD + "@pytest.mark.xfail\ndef test(): pass", "1 failed"),
    "one of unittest that skips": ("import unittest\nclass T(unittest.TestCase):\n    @unittest.skip('a')\n"
                                   "    def test(self): pass", "1 failed"),
    "a file that needs a module": (HEAD + "pytest.importorskip('nothing_like_it')\ndef test(): pass", "1 error"),
    "a file that skips itself": (HEAD + "pytest.skip('a', allow_module_level=True)\ndef test(): pass", "1 error"),
    "an empty table": (HEAD + "@pytest.mark.parametrize('it', [])\ndef test(it): pass", "1 error"),
    "a table that has too few": (HEAD + "@pytest.mark.parametrize('it', at_least(2, [1]))\ndef test(it): pass",
                                 "1 error"),
    "a mark that nobody knows": (HEAD + "@pytest.mark.nedds('cargo')\ndef test(): pass", "1 error"),
    "a tool that nobody knows": (HEAD + "@pytest.mark.needs('cargoo')\ndef test(): pass", "1 error"),
    "a tool that is missing": (HEAD + "@pytest.mark.needs('chromium')\ndef test(): pass", "1 error"),
    "a tool of a file that is missing": (HEAD + "pytestmark = pytest.mark.needs('chromium')\ndef test(): pass",
                                         "1 error"),
    "a tool that is left out": (HEAD + "@pytest.mark.needs('node')\ndef test(): pass", "1 skipped"),
    "a place that is not there": (HEAD + "@pytest.mark.where('Deno')\ndef test(): pass", "1 skipped"),
    "a place of a file that is not there": (HEAD + "pytestmark = pytest.mark.where('Deno')\ndef test(): pass",
                                            "1 skipped"),
    **{f"a tool of a {level} that is left out, beside missing ones":
       (marked(level, "needs('node')", "needs('chromium')"), "1 skipped") for level in LEVELS},
    **{f"a place of a {level} that is not there, beside another one":
       (marked(level, "where('Deno')", "where('Linux on x86-64')"), "1 skipped") for level in LEVELS},
}


def write_test(folder, text, name="test_it.py"):
    (folder / "tests").mkdir(parents=True, exist_ok=True)
    (folder / "tests" / name).write_text(text + "\n", encoding="utf-8")


def write_tests(folder, text):
    """A folder with a test, our rules, and what these import."""
    write_test(folder, text)
    for name in ("conftest.py", "pytest.ini"):
        shutil.copy(ROOT / name, folder)
    for name in ("tests/common", "tools/common"):
        shutil.copytree(ROOT / name, folder / name, ignore=shutil.ignore_patterns("__pycache__"))


# Runs pytest in folders, as `python3 -m pytest` does, and writes there what it prints. Each run has a process of its
# own, which is forked after the slowest modules and pytest's own plugins are there. Tells with what status each ends.
FORKED = f"""import importlib, json, os, signal, sys
import hypothesis, hypothesis.strategies, pytest
from _pytest.config import default_plugins
for name in default_plugins:
    importlib.import_module("_pytest." + name)
for line in sys.stdin:
    folder, words, variables = json.loads(line)
    if not (child := os.fork()):
        signal.alarm({LIMIT})
        os.chdir(folder)
        os.environ.update(variables)
        sys.path[0] = folder
        said = os.open("said", os.O_CREAT | os.O_TRUNC | os.O_WRONLY)
        os.dup2(os.open(os.devnull, os.O_RDONLY), 0), os.dup2(said, 1), os.dup2(said, 2)
        status = pytest.main(["tests", *words])
        sys.stdout.flush(), sys.stderr.flush()
        os._exit(status)
    print(os.waitstatus_to_exitcode(os.waitpid(child, 0)[1]), flush=True)
"""


@pytest.fixture(scope="module")
def run_pytest():
    """Runs the tests of a folder without any tool, with these words and variables of the environment."""
    # Nearly every folder has one run, to which what it compiles is of no further use.
    environment = {"PATH": "/nowhere", "PYTHONDONTWRITEBYTECODE": "1"}
    with subprocess.Popen([sys.executable, "-c", FORKED], env=environment, text=True,
                          stdin=subprocess.PIPE, stdout=subprocess.PIPE) as process:
        def run_pytest(folder, *words, **variables):
            print(json.dumps([str(folder), words, variables]), file=process.stdin, flush=True)
            status = int(process.stdout.readline())
            return SimpleNamespace(returncode=status, stdout=(folder / "said").read_text("utf-8"))
        yield run_pytest


@pytest.fixture(scope="module")
def ran(tmp_path_factory, run_pytest):
    """With what status pytest ends at each of these tests alone, and what it prints."""
    found = {}
    for name, (text, _) in BROKEN.items():
        folder = tmp_path_factory.mktemp("rules")
        write_tests(folder, text)
        done = run_pytest(folder, "--without=node")
        found[name] = done.returncode, done.stdout
    return found


@pytest.mark.parametrize("name", BROKEN)
def test_what_pytest_counts(name, ran):
    (status, said), (_, end) = ran[name], BROKEN[name]
    assert re.findall(r"\d+ (?:passed|failed|skipped|error)", said.splitlines()[-1]) == [end], said
    assert (status == 0) == (end in ("1 passed", "1 skipped"))


def test_what_workers_count(tmp_path, run_pytest):
    """Those of xdist pass, fail and skip the same tests, here all in one run."""
    for number, (text, _) in enumerate(BROKEN.values()):
        write_test(tmp_path, text, f"test_{number}.py")
    write_tests(tmp_path, RUN + "pass")
    said = run_pytest(tmp_path, "--without=node", "-n2", "--dist=loadfile").stdout
    failed = {int(number) for number in re.findall(r"^(?:FAILED|ERROR) tests/test_(\d+)\.py", said, re.M)}
    assert failed == {number for number, (_, end) in enumerate(BROKEN.values()) if "failed" in end or "error" in end}
    skipped = [text for text, end in BROKEN.values() if end == "1 skipped"]
    assert re.search(rf"\d failed, 2 passed, {len(skipped)} skipped, \d+ errors in .*\n$", said), said
    left_out = sum("'node'" in text for text in skipped)
    assert f"NOT TRIED: {left_out} tests, since --without names node\n" in said


# A test that runs, one that waits for a place, and one that --without names.
THREE = RUN + """pass
@pytest.mark.where('Deno')
def test_deno(): pass
@pytest.mark.needs('node')
def test_node(): pass"""
# What tests/sums.txt says, and what a run says to it.
SUMS = {
    "tests: 3\ntests, Deno: 1": None,
    "tests: 2\ntests, Deno: 2\ntests, KVM: 1": None,
    "tests: 4\ntests, Deno: 1": "tests: 3, and tests/sums.txt says 4",
    "tests: 3\ntests, KVM: 1":
    "tests, Deno: 1 tests were left out, and tests/sums.txt says 0: tests/test_it.py::test_deno",
    "tests: 3\ntests, Deno: 1\nother/tests: 1": "other/tests: 0, and tests/sums.txt says 1",
    "tests: 3\ntests, Deno: 1\ntests of crates: 1": "tests of crates: 0, and tests/sums.txt says 1",
}


@pytest.mark.parametrize("table, fault, workers", [(*row, 0) for row in SUMS.items()] + [(*[*SUMS.items()][3], 2)])
def test_sums(table, fault, workers, tmp_path, run_pytest):
    write_tests(tmp_path, THREE)
    (tmp_path / "tests/sums.txt").write_text(f"# A comment: 1\n{table}\n", "utf-8")
    ran = run_pytest(tmp_path, "--without=node", "--sums", f"-n{workers}")
    assert (ran.returncode != 0) == (fault is not None) and " 1 passed, 2 skipped in " in f" {ran.stdout}"
    assert [line for line in ran.stdout.splitlines() if "tests/sums.txt says" in line] == [fault] * (fault is not None)


# Tests that were tried, however they end.
TRIED = {
    "passes": RUN + "pass", "fails": RUN + "assert 0",
    "fails at its begin": HEAD + "@pytest.fixture\ndef one(): assert 0\ndef test(one): pass",
    "fails at its end": HEAD + "@pytest.fixture\ndef one():\n    yield\n    assert 0\ndef test(one): pass",
    "lacks a tool": HEAD + "@pytest.mark.needs('chromium')\ndef test(): pass",
    "skips itself": RUN + "pytest.skip('for no reason')",
    "is left out": HEAD + "@pytest.mark.needs('node')\ndef test(): pass",
}


@pytest.mark.parametrize("end", TRIED)
def test_each_end_counts(end, tmp_path, run_pytest):
    """Nobody is told that a test is missing which only failed."""
    write_tests(tmp_path, TRIED[end])
    (tmp_path / "tests/sums.txt").write_text("tests: 1\n", "utf-8")
    assert "tests/sums.txt says" not in run_pytest(tmp_path, "--without=node", "--sums").stdout


def test_sums_are_written(tmp_path, run_pytest):
    """Unless a file cannot be read: its tests would be missing."""
    write_tests(tmp_path, THREE)
    write_test(tmp_path, "unknown", "test_bad.py")
    assert run_pytest(tmp_path, "--collect-only", "--write-sums").returncode != 0
    assert not (tmp_path / "tests/sums.txt").exists()
    (tmp_path / "tests/test_bad.py").unlink()
    assert run_pytest(tmp_path, "--collect-only", "--write-sums").returncode == 0
    text = (tmp_path / "tests/sums.txt").read_text("utf-8")
    assert re.sub("^#.*\n", "", text, flags=re.M) == "tests: 3\ntests, Deno: 1\n"


def test_what_the_rules_name_is_there():
    """The files that begin first, the folders of tests, and those of modules: pytest passes over a name of nothing."""
    [first] = re.findall(r"^DEAREST = \[(.*?)\]", (ROOT / "conftest.py").read_text("utf-8"), re.M | re.S)
    settings = configparser.ConfigParser()
    settings.read(ROOT / "pytest.ini", "utf-8")
    folders = [settings["pytest"][name].split() for name in ("testpaths", "pythonpath")]
    for words in (re.findall('"(.*?)"', first), *folders):
        assert [name for name in at_least(7, words) if not (ROOT / name).exists()] == []


def test_a_missing_tool_names_its_package(ran):
    said = ran["a tool that is missing"][1]
    assert "chromium is missing: install chromium, or run with --without chromium" in said


def test_what_was_not_tried_is_named(ran):
    assert "NOT TRIED: 1 tests, since --without names node\n" in ran["a tool that is left out"][1]


# Proofs by name and, one to a text, a test that makes some of them: in its begin, more than once, or before it fails.
PROVES = {"abc": "import kept\ndef prove(names):\n    for name in names:\n        kept.proof(name, [], lambda folder: None)\n"
                 "prove('c')\ndef test_one(): prove('ab')\ndef test_other(): prove('bb')",
          "de": HEAD + "import kept\n@pytest.fixture\ndef one(): kept.proof('d', [], lambda folder: None)\n"
                       "def test(one):\n    kept.proof('e', [], lambda folder: None)\n    assert 0"}


@pytest.mark.parametrize("words", [(), ("-n2", "--dist=loadfile")], ids=" ".join)
def test_what_was_not_proved_again_is_named(words, tmp_path, run_pytest):
    """With how many proofs there are, each once, unless all are made again."""
    write_tests(tmp_path, PROVES["abc"])
    write_test(tmp_path, PROVES["de"], "test_other.py")
    said = [run_pytest(tmp_path, *words, *more, XDG_CACHE_HOME=str(tmp_path / "kept")).stdout
            for more in ((), (), ("--again",), ())]
    line = "NOT PROVED AGAIN, without --again: 5 proofs that an earlier run made of the same files\n"
    assert [line in text for text in said] == [False, True, False, True], said
    assert all(" 1 failed, 2 passed in " in f" {text}" for text in said)


def test_a_failure_names_the_seed(tmp_path, run_pytest):
    said = []
    for end in ("pass", "assert 0"):
        write_tests(tmp_path / end, RUN + end)
        said.append(run_pytest(tmp_path / end).stdout)
    assert ["TEST_SEED=0, " in text for text in said] == [False, True], said


# What each kind of search draws in a test.
DRAWS = {"hypothesis": "from hypothesis import given, strategies\n@given(strategies.integers())\n"
                       "def test(number): print(number)",
         "seeds": "from seeds import random_source, seeds\n"
                  "def test(): print(seeds('a', 2), random_source('a').random())"}


@pytest.mark.parametrize("kind", DRAWS)
def test_a_search_is_that_of_its_seed(kind, tmp_path, run_pytest):
    """So a failure comes again, and another commit searches elsewhere."""
    write_tests(tmp_path, DRAWS[kind])
    said = [run_pytest(tmp_path, "-s", "-q", TEST_SEED=number).stdout.rpartition("\n1 passed")[0]
            for number in ("1", "1", "2")]
    assert said[0] == said[1] != said[2] and all(said), said


# What a caller may choose of hypothesis, by a word or by a variable of the environment: two choices, and a test that
# tells of them.
CHOSEN = {"--hypothesis-seed": ("7", "8", DRAWS["hypothesis"]),
          "HYPOTHESIS_PROFILE": ("quick", "thorough", "from hypothesis import settings\n"
                                                      "def test(): print(settings.default.max_examples)")}


@pytest.mark.parametrize("name", CHOSEN)
def test_what_a_caller_chooses_counts(name, tmp_path, run_pytest):
    """With each seed of ours."""
    one, other, text = CHOSEN[name]
    write_tests(tmp_path, text)
    found = []
    for choice, number in [(one, "1"), (one, "2"), (other, "2")]:
        words, variables = ([f"{name}={choice}"], {}) if name.startswith("--") else ([], {name: choice})
        said = run_pytest(tmp_path, "-s", "-q", *words, TEST_SEED=number, **variables).stdout
        found.append(re.findall(r"^-?\d+$", said, re.M))
    assert found[0] == found[1] != found[2] and all(found), found


def test_a_search_has_many_examples(tmp_path, run_pytest):
    write_tests(tmp_path, DRAWS["hypothesis"])
    said = run_pytest(tmp_path, "-s", "-q").stdout
    assert len(re.findall(r"^-?\d+$", said, re.M)) >= 50, said


def test_an_unknown_tool_is_refused(tmp_path, run_pytest):
    write_tests(tmp_path, RUN + "pass")
    ran = run_pytest(tmp_path, "--without=nod")
    assert ran.returncode != 0 and "there is no tool nod" in ran.stdout


def test_a_file_that_fails_leaves_the_others(tmp_path, run_pytest):
    write_tests(tmp_path, RUN + "pass")
    assert run_pytest(tmp_path).returncode == 0
    write_test(tmp_path, "unknown", "test_bad.py")
    last = run_pytest(tmp_path).stdout.splitlines()[-1]
    assert "1 passed" in last and "1 error" in last


# A test that takes the program, in several folders.
GIVEN = HEAD + """pytestmark = pytest.mark.needs("kit")
@pytest.mark.parametrize("folder", [".", "tests", "/"])
def test(program, folder, monkeypatch):
    monkeypatch.chdir(folder)
    assert program.read_text("ascii") == "a program\\n\""""


def test_a_program_that_is_given(tmp_path, run_pytest):
    """It is found from wherever a test runs it, and needs no kit."""
    write_tests(tmp_path, GIVEN)
    (tmp_path / "given").write_text("a program\n", "ascii")
    assert " 3 passed in " in f" {run_pytest(tmp_path, '--program=given').stdout}"
    assert " 3 errors in " in f" {run_pytest(tmp_path).stdout}"


# Each other tool that has a command: there is none where these tests run. Python's modules may be there.
OTHERS = [tool for tool, parts in TOOLS.items() if tool != "kit" and any(part[0] != "/" for part in parts)
          and not any(part.startswith("import ") for part in parts)]


def test_a_program_that_is_given_is_no_other_tool(tmp_path, run_pytest):
    """What a test needs beside it or in its place is missing as ever."""
    needs = [words for tool in at_least(20, OTHERS) for words in (f"'{tool}'", f"'kit', '{tool}'")]
    write_tests(tmp_path, HEAD + "\n".join(f"@pytest.mark.needs({words})\ndef test_{number}(): pass"
                                           for number, words in enumerate(needs)))
    failed = [re.findall(r"^ERROR tests/test_it.py::(\w+)", run_pytest(tmp_path, "-rE", *words).stdout, re.M)
              for words in ([], ["--program=given"])]
    assert failed[0] == failed[1] == [f"test_{number}" for number in range(len(needs))]


def test_a_program_is_that_of_its_sources(tmp_path, monkeypatch):
    """One that is older than a single source of its crate, or of one below it, is no longer it."""
    monkeypatch.setattr(rattle, "ROOT", tmp_path)
    monkeypatch.setattr(rattle, "CRATES", tmp_path / "crates")
    (tmp_path / "crates.txt").write_text("# A comment: high\nlow:\nbetween: low\nhigh: between kit\n", "utf-8")
    assert rattle.crates_below("high") == ["low", "between"]
    sources = [tmp_path / "crates" / name for name in ("low/src/lib.rt", "low/src/a/b.rt", "between/src/lib.rt",
                                                       "high/src/main.rt")]
    for path in (*sources, rattle.path_of("high")):
        path.parent.mkdir(parents=True, exist_ok=True)
        path.touch()
    for newer in (None, *sources):
        for path in (*sources, rattle.path_of("high")):
            os.utime(path, (1000, 1001 if path == newer else 1000))
        assert rattle.is_current("high") == (newer is None), newer
    rattle.path_of("high").unlink()
    assert not rattle.is_current("high")


def test_one_builds_at_a_time(tmp_path, monkeypatch):
    """Also after one that failed."""
    monkeypatch.setattr(rattle, "CRATES", tmp_path)
    building = []

    def build(number):
        with suppress(rattle.NotBuilt), rattle.alone():
            building.append(number)
            time.sleep(0.02)
            found = [*building]
            building.remove(number)
            if number % 2:
                raise rattle.NotBuilt("an odd one")
        return found
    with ThreadPoolExecutor(4) as pool:
        assert [*pool.map(build, range(8))] == [[number] for number in range(8)]


# tools/check

GATE = ["test result: ok. 3 passed; 0 failed", "rt: it ran, and wrote what its file stdout has",
        "rt: ok; must-fail edits: 5 refused; all", "7 passed, 0 failed"]
# The same of a kit that prints a line for each edit.
EDITS = [f"rt: must-fail crate/{name}.edit: refused, as it must be: note: src/lib.rt:1:1: {name}" for name in "abcde"]
EACH = [*GATE[:2], *EDITS, GATE[3]]
CARGO = "test result: ok. 3 passed; 0 failed; {} ignored; 0 measured; 0 filtered out"


@pytest.mark.parametrize("status, lines, counts", [
    (0, GATE, (10, 0, 0)),
    (1, GATE, (10, 1, 0)),
    (1, [*GATE[:3], "6 passed, 1 failed"], (9, 1, 0)),
    (0, [*GATE[:2], "rt: ok; must-fail edits: 4 refused; all", GATE[3]], (10, 1, 0)),
    (0, [*GATE[:2], "rt: ok; must-fail edits: 5 refused, 2 of them only by a limit, 1 bad; all", GATE[3]], (10, 1, 0)),
    (0, [*GATE[:2], "rt: ok; must-fail edits: 5 refused, 2 of them only by a limit, 10 bad; all", GATE[3]], (10, 1, 0)),
    (0, [*GATE[:2], "rt: ok; must-fail edits: 5 refused, 0 bad; all", GATE[3]], (10, 0, 0)),
    (0, EACH, (10, 0, 0)),
    (1, EACH, (10, 1, 0)),
    (0, [line for line in EACH if line != EDITS[4]], (10, 1, 0)),
    (0, [EDITS[0] if line == EDITS[4] else line for line in EACH], (10, 1, 0)),
    (0, [line.replace("e.edit: refused, as it must be", "e.edit: NOT REFUSED") for line in EACH], (10, 1, 0)),
    (0, [line.replace("e.edit: refused, as it must be", "e.edit: BAD EDIT") for line in EACH], (10, 1, 0)),
    (0, [EDITS[0].replace("/a.", "/f."), *EACH], (10, 1, 0)),
    (0, GATE[1:], (7, 1, 0)),
    (0, GATE[:3], (3, 1, 0)),
    (127, [], (0, 1, 0)),
])
def test_gate(status, lines, counts):
    """It also fails if it tried other must-fail edits or tests than there are."""
    assert of_gate(status, "\n".join(lines), 5, 3) == counts


@pytest.mark.parametrize("status, lines, counts", [
    (0, [CARGO.format(0)] * 2, (6, 0, 0)), (0, [CARGO.format(1)], (3, 1, 0)), (101, [CARGO.format(0)], (3, 1, 0)),
    (0, [], (0, 1, 0)), (101, ["test result: FAILED. 2 passed; 1 failed; 0 ignored"], (2, 1, 0)),
])
def test_cargo(status, lines, counts):
    assert counted(status, "\n".join(["3 passed", *lines, "4 failed"]), OF_CARGO) == counts


@pytest.mark.parametrize("status, last, counts", [
    (0, "3 passed in 0.1s", (3, 0, 0)), (1, "2 failed, 3 passed, 4 skipped in 1s", (3, 2, 4)),
    (1, "3 passed, 1 error in 1s", (3, 1, 0)), (1, "3 passed, 2 errors in 1s", (3, 2, 0)),
    (2, "3 passed in 1s", (3, 1, 0)), (5, "no tests ran in 0.1s", (0, 1, 0)), (0, "no tests ran in 0.1s", (0, 1, 0)),
])
def test_pytest(status, last, counts):
    assert counted(status, f"9 passed\n{last}") == counts


def test_a_part_that_is_not_there():
    assert counted(*run_part("/nowhere/rt", "ci")) == (0, 1, 0)


def test_a_part_is_shown_and_counted_with_its_errors(capsys):
    assert run_part("sh", "-c", "echo one; echo two >&2; exit 3") == (3, "one\ntwo")
    assert capsys.readouterr().out.endswith("\none\ntwo\n")


@pytest.mark.parametrize("is_at_its_end", [False, True])
@pytest.mark.parametrize("text", [r"\377", r"a \303", r"a\000b"])
def test_a_part_may_print_any_bytes(text, is_at_its_end, capsys):
    """Also those that are no text, of a program that goes wrong. What comes after them counts as ever."""
    status, printed = run_part("printf", f"{text}\n4 passed, 1 failed\n", at_its_end=is_at_its_end)
    assert counted(status, printed) == (4, 1, 0)
    assert capsys.readouterr().out.endswith("\n4 passed, 1 failed\n")
    assert run(["printf", f"{text}\nend"]).stdout.endswith("\nend")
