# SPDX-License-Identifier: Apache-2.0 OR BSD-3-Clause
"""tools/generate makes the steps that are out of date, in their order, and stops at the first that it cannot make. What
the repository holds is of its sources."""
import importlib.machinery
import importlib.util
import re
import runpy
import shutil
import sys
from contextlib import suppress
from pathlib import Path

import booting
import pytest
import rerun
from common.cargo import DROP_IN, DEVICES
from common.comparison import COMPARISON
from common.requirements import TOOLS
from generators import counts, facts, interface, libraries, lines, module
from generators.facts import MODULE
from generators.page import MODULES, PAGE, REQUIRED
from harness import ROOT, at_least, run

sys.path.append(str(ROOT / "tests" / "page"))
from test_page import PICTURES  # noqa: E402

TOOL = ROOT / "tools" / "generate"


@pytest.fixture
def own():
    """The tool, with its own steps."""
    loader = importlib.machinery.SourceFileLoader("generate", str(TOOL))
    found = importlib.util.module_from_spec(importlib.util.spec_from_loader("generate", loader))
    loader.exec_module(found)
    return found


@pytest.fixture
def generate(own, tmp_path, monkeypatch):
    """The tool, over a folder with three steps: one that always runs, one that copies, and one that counts."""
    monkeypatch.setattr(own, "ROOT", tmp_path)
    monkeypatch.setattr(own, "RECORD", tmp_path / "record.txt")
    monkeypatch.setattr(own, "advice", lambda tool: [f"{tool} is missing"] if tool == "missing" else [])
    monkeypatch.setattr(own, "STEPS", {
        "always": own.Step("touch always"),
        "copy": own.Step("cp source/one made/one", reads="source", writes="made/*"),
        "list": own.Step("cp made/one list", reads="made", writes="list"),
    })
    for folder in ("source", "made"):
        (tmp_path / folder).mkdir()
    (tmp_path / "source" / "one").write_text("1")
    return own


def made(generate, monkeypatch, capfd, *words):
    """The status of a run, and the steps that it made."""
    monkeypatch.setattr(sys, "argv", ["generate", *words])
    status = generate.main()
    return int(status), [line.split()[1].rstrip(":") for line in capfd.readouterr().out.splitlines() if line[:2] == "=="]


def test_order(generate, monkeypatch, capfd, tmp_path):
    assert made(generate, monkeypatch, capfd) == (0, ["always", "copy", "list"])
    assert (tmp_path / "list").read_text() == "1"
    assert made(generate, monkeypatch, capfd) == (0, ["always"])
    assert made(generate, monkeypatch, capfd, "list", "copy") == (0, ["copy", "list"])


CHANGES = {
    "a source is another": (lambda top: (top / "source" / "one").write_text("2"), ["copy", "list"]),
    "a source is new": (lambda top: (top / "source" / "deep").mkdir() or (top / "source" / "deep" / "two").touch(), ["copy"]),
    "a source has another name": (lambda top: (top / "source" / "one").write_text("1") and
                                  (top / "source" / "two").write_text("1"), ["copy"]),
    "what was made is another": (lambda top: (top / "made" / "one").write_text("2"), ["copy"]),
    "what was made is gone": (lambda top: (top / "list").unlink(), ["list"]),
    "the record lacks a step": (lambda top: (top / "record.txt").write_text("".join(
        (top / "record.txt").read_text().splitlines(keepends=True)[:1])), ["list"]),
    "there is no record": (lambda top: (top / "record.txt").unlink(), ["copy", "list"]),
}


@pytest.mark.parametrize("change", CHANGES)
def test_out_of_date(generate, monkeypatch, capfd, tmp_path, change):
    """A step is made if what it reads or wrote is another. What it then writes again as before makes no later step late."""
    made(generate, monkeypatch, capfd)
    act, steps = CHANGES[change]
    act(tmp_path)
    assert made(generate, monkeypatch, capfd, "--check")[0] == 1
    assert made(generate, monkeypatch, capfd) == (0, ["always", *steps])
    assert made(generate, monkeypatch, capfd, "--check")[0] == 0


@pytest.mark.parametrize("late", [["copy"], ["list"], ["copy", "list"]], ids=" ".join)
def test_check_of_steps(generate, monkeypatch, capfd, late):
    """All that are late are named, or those of the named ones, and nothing is made."""
    monkeypatch.setattr(generate, "is_recorded", lambda name: name not in late)
    for words in [], ["copy"], ["list"], ["always"], ["list", "copy"]:
        monkeypatch.setattr(sys, "argv", ["generate", "--check", *words])
        named = [name for name in late if name in words or not words]
        assert generate.main() == bool(named)
        said = "".join(f"{name} is out of date: run tools/generate {name}\n" for name in named)
        assert capfd.readouterr().out == said


def test_faults(generate, monkeypatch, capfd, tmp_path):
    """After a step that fails or lacks its tool none is made, and none counts as made."""
    generate.STEPS["copy"] = generate.STEPS["copy"]._replace(command="cp nothing made/one")
    assert made(generate, monkeypatch, capfd) == (1, ["always", "copy"])
    generate.STEPS["copy"] = generate.STEPS["copy"]._replace(tool="missing")
    monkeypatch.setattr(sys, "argv", ["generate"])
    assert generate.main() == 1
    assert "copy: missing is missing" in capfd.readouterr().err
    assert not (tmp_path / "record.txt").exists()


@pytest.mark.parametrize("above", ["__pycache__", "target", "Cargo.lock"])
def test_what_is_built_counts_nowhere(above, own, monkeypatch, tmp_path):
    """But a repository may be in a folder of such a name."""
    root = tmp_path / above / "repository"
    monkeypatch.setattr(own, "ROOT", root)
    for name in "one", "deep/two", "__pycache__/three", "deep/target/four", "target", "deep/Cargo.lock":
        (root / "source" / name).parent.mkdir(parents=True, exist_ok=True)
        (root / "source" / name).touch()
    found = own.files_of(own.Step("", reads="source", writes="source/deep/*"))
    assert found == {root / "source/one", root / "source/deep/two"}


def test_words():
    for words, status in (["--help"], 0), (["nothing"], 2), (["--check", "page"], 0):
        assert run([TOOL, *words]).returncode == status


def test_is_current():
    """All that is made and takes more than seconds is of the sources that stand here."""
    ran = run([TOOL, "--check"])
    assert (ran.returncode, ran.stdout) == (0, "")


def sources(*folders, ending=".rs"):
    found = [at_least(1, (ROOT / folder).rglob(f"*{ending}")) for folder in folders]
    return [path for paths in found for path in paths if "target" not in path.relative_to(ROOT).parts]


# What the code of each step that has a digest names: what it writes, and what that depends on.
NAMED = {
    "libraries": [*(libraries.PREBUILT / target / name for target in libraries.TARGETS
                    for name in (libraries.STATIC, libraries.SHARED)),
                  *sources(*libraries.SOURCE_FOLDERS, ending=".rt")],
    "module": [libraries.PREBUILT / module.MODULE, module.EMBEDDED, module.DECLARED, libraries.INTERFACE,
               *sources(module.SOURCES, module.DEVICES), ROOT / "tools/generators/module.py",
               ROOT / "interface.toml", ROOT / "tools/common/facts.py", ROOT / MODULE,
               *(ROOT / f"bindings/python/superio/{name}.py" for name in at_least(3, re.findall(
                   r"^from superio\.(\w+)", (ROOT / "tools/generators/module.py").read_text("utf-8"), re.M)))],
    "pictures": [PAGE, *(ROOT / "docs" / picture for picture in PICTURES)],
    "statements": [*(path for ending in (".py", ".v", ".txt", ".rs") for path in sources("recheck", ending=ending)),
                   ROOT / "docs/PROOFS.md", *sources(*rerun.CRATES.values()),
                   *sources(*(ROOT / "crates").glob("*/specs"), ending=".antt")],
    "counts": [*sources(DEVICES / "src", DROP_IN / "src"), *sources(COMPARISON, ending=".*"), counts.C_LIBRARY,
               libraries.HEADER, ROOT / "tools/generators/counts.py"],
}


def test_each_file_of_a_step_counts(own):
    """One that is stale or changed by hand makes its step late."""
    assert [name for name in own.STEPS if own.STEPS[name].reads] == [*NAMED]
    for name, files in NAMED.items():
        assert not {file.relative_to(ROOT).as_posix() for file in {*files} - own.files_of(own.STEPS[name])}, name


# What else has a digest of many files: whose ROOT they stand below, what gives the digest, and the files.
BUILT = {"monitor", "target", "Cargo.lock"}
DIGESTS = {
    "libraries": (libraries, libraries.source_line, sources(*libraries.SOURCE_FOLDERS, ending=".rt")),
    "module": (libraries, lambda: module.listed()["SOURCES"], sources(module.SOURCES, module.DEVICES)),
    "linux": (booting, booting.sum_of_sources, [
        path for name in booting.SOURCES for path in (ROOT / name, *(ROOT / name).rglob("*"))
        if path.is_file() and not BUILT & {*path.relative_to(ROOT).parts}]),
}


@pytest.mark.parametrize("name", DIGESTS)
def test_each_file_of_a_digest_counts(name, monkeypatch, tmp_path):
    """Of files in any folder. One with another text, or of another name, gives another digest."""
    owner, digest, files = DIGESTS[name]
    copies = [tmp_path / file.relative_to(ROOT) for file in at_least(10, files)]
    for copy in copies:
        copy.parent.mkdir(parents=True, exist_ok=True)
        copy.write_text("the text")
    monkeypatch.setattr(owner, "ROOT", tmp_path)
    digests = [digest()]
    for copy in copies:
        other = copy.with_name(f"other_{copy.name}")
        copy.write_text("another")
        digests.append(digest())
        copy.write_text("the text")
        copy.rename(other)
        digests.append(digest())
        other.rename(copy)
    assert len({*digests}) == len(digests) == 1 + 2 * len(copies) and digest() == digests[0]


# What steps write that have no digest, and what they read that others write.
WRITTEN = {"facts": [ROOT / name for name in facts.made(lambda name: (ROOT / name).read_text("utf-8"))],
           "rust": sources("rust/superio/src/devices", "rust/superio/src/console"),
           "lines": [lines.PAGE_LINES, lines.DOCUMENT],
           "interface": [libraries.INTERFACE, interface.SYMBOLS, ROOT / "bindings/c/from-source/superio.h"],
           "page": [PAGE, REQUIRED]}
READ = {"rust": sources(*libraries.SOURCE_FOLDERS, ending=".rt"),
        "lines": sources("bindings/python/superio", ending=".py"), "interface": [libraries.HEADER], "page": MODULES}


def test_a_step_comes_after_what_it_reads(own):
    """Else it would read what is out of date, and be out of date itself after the run."""
    steps, order = own.STEPS, [*own.STEPS]
    written = {name: {*own.files_of(steps[name]._replace(reads="")), *WRITTEN.get(name, ())} for name in order}
    read = {name: {*own.files_of(steps[name]._replace(writes="")), *READ.get(name, ())} for name in order}
    needs = [(name, other) for name in order for other in order if name != other and written[name] & read[other]]
    assert {("facts", "rust"), ("facts", "lines"), ("facts", "interface"), ("rust", "module"), ("lines", "page"),
            ("module", "page"), ("page", "pictures"), ("rust", "statements"), ("libraries", "counts")} <= {*needs}
    assert [(name, other) for name, other in needs if order.index(name) > order.index(other)] == []


def writing_options():
    """The options by which what is otherwise compared is written."""
    texts = [(ROOT / name).read_text("utf-8") for name in ("conftest.py", "recheck/rerun.py")]
    return [option for text in texts for option in re.findall(r'\.add(?:option|_argument)\("(--write-[a-z]+)"', text)]


@pytest.mark.parametrize("option", at_least(4, writing_options()))
def test_what_is_compared_is_written(own, option):
    """By one step. Without the option it would compare, and fail each time that something has changed."""
    assert sum(option in step.command.split() for step in own.STEPS.values()) == 1


@pytest.mark.parametrize("name", WRITTEN)
def test_each_step_writes_all_its_files(own, name, monkeypatch):
    """And each with what stands there, since the repository is up to date. Here nothing is written."""
    written = {}
    monkeypatch.setattr(Path, "write_text", lambda path, text, **_: written.update({path: text.encode()}))
    monkeypatch.setattr(Path, "write_bytes", lambda path, content: written.update({path: content}))
    monkeypatch.setattr(shutil, "copy", lambda source, folder: written.update(
        {folder / source.name: source.read_bytes()}))
    command = own.STEPS[name].command
    program = command if command == "tools/erase" else f"tools/generators/{command.removeprefix(own.MADE_BY)}.py"
    monkeypatch.setattr(sys, "argv", [program])
    with suppress(SystemExit):
        runpy.run_path(str(ROOT / program), run_name="__main__")
    assert written == {path: path.read_bytes() for path in WRITTEN[name]}


# The code of each step that has a tool, which its tests or its commands need.
CODE = {"libraries": "tools/generators/libraries.py", "module": "tools/generators/module.py", "counts": counts.__file__,
        "pictures": "tests/page/test_page.py", "statements": "recheck/coq.py", "linux": "tests/kvm/test_linux.py"}


def test_tools(own):
    """Each step names a tool without which it fails. Without it the step says what to install."""
    assert {name for name, step in own.STEPS.items() if step.tool != "pytest"} == {*CODE}
    for name, path in CODE.items():
        tool, text = own.STEPS[name].tool, (ROOT / path).read_text("utf-8")
        marked = ", ".join(re.findall(r"needs\((.*?)\)", text))
        assert any(f'"{word}"' in text for word in TOOLS[tool]) if "tests/" not in path else f'"{tool}"' in marked, name


def test_patterns(own):
    """Each pattern of the tool's own steps finds a file."""
    for name, step in own.STEPS.items():
        for pattern in (step.reads + " " + step.writes).split():
            assert [*ROOT.glob(pattern)], f"{name}: {pattern}"
        program, module = step.command.split()[0], step.command.removeprefix(own.MADE_BY)
        assert (importlib.util.find_spec(f"generators.{module}") if module != step.command else
                (ROOT / program).exists() or program == "/usr/bin/python3"), name
