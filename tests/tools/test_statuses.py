# SPDX-License-Identifier: Apache-2.0 OR BSD-3-Clause
"""Each program in Python, of tools and of tests, ends with the status that its `main` returns. What `main` returns its
own tests try, and most of them call it in their process, where the last line of the program is not run. And no program
runs a command of which it looks at nothing."""
import ast
import importlib.machinery
import importlib.util
import shutil
import sys
import tempfile

import coq
import expanded
import pytest
from common import installing, rattle, requirements
from common.comparison import Comparison
from common.results import counted, run as run_part
from documents import BUILT, files
from generators import module
from harness import ROOT, at_least, check, run
from rust_tokens import Refused

SHEBANG = "#!/usr/bin/env python3\n"
STAND_IN = "def main(*words):\n    return {!r}\n"
# What `main` returns, and the status that is of it: a text is a fault, and is printed.
STATUSES = [(0, 0), (7, 7), ("a fault", 1)]


def programs():
    paths = [*(ROOT / "tools").iterdir(), ROOT / "tests" / "guests" / "judge.py"]
    return [path.relative_to(ROOT).as_posix() for path in sorted(paths)
            if path.is_file() and path.read_text("utf-8").startswith(SHEBANG)]


@pytest.fixture(scope="module")
def top(tmp_path_factory):
    folder = tmp_path_factory.mktemp("top")
    for name in ("tools", "recheck", "tests/common", "tests/guests", "bindings/python/superio"):
        shutil.copytree(ROOT / name, folder / name, ignore=shutil.ignore_patterns(*BUILT, "build-*"))
    return folder


@pytest.mark.parametrize("returned, status", STATUSES, ids=repr)
@pytest.mark.parametrize("name", at_least(7, programs()))
def test_status(name, returned, status, top):
    """A stand-in for `main` stands before the last statement, which is what runs it. Nothing is installed."""
    text = (ROOT / name).read_text("utf-8")
    lines, last = text.splitlines(keepends=True), ast.parse(text).body[-1].lineno - 1
    (top / name).write_text("".join([*lines[:last], STAND_IN.format(returned), *lines[last:]]), "utf-8")
    ran = run([sys.executable, top / name, "--no-install"])
    assert (ran.returncode, ran.stdout) == (status, f"{returned}\n" if isinstance(returned, str) else "")


# What runs a command, and leaves it to its caller to look at its status.
RUNS = "subprocess.run", "subprocess.call", "subprocess.Popen", "os.system", "harness.run", "common.commands.run"


def ignored(text):
    """The lines in which a program runs a command, and looks neither at its status nor at what it printed."""
    tree = ast.parse(text)
    imported = {alias.asname or alias.name: f"{node.module}.{alias.name}" for node in ast.walk(tree)
                if isinstance(node, ast.ImportFrom) for alias in node.names}
    for call in (node.value for node in ast.walk(tree)
                 if isinstance(node, ast.Expr) and isinstance(node.value, ast.Call)):
        name = ast.unparse(call.func)
        is_checked = any(keyword.arg == "check" and ast.unparse(keyword.value) == "True" for keyword in call.keywords)
        if imported.get(name, name) in RUNS and not is_checked:
            yield call.lineno


@pytest.mark.parametrize("text, lines", [
    ("from harness import run\nrun(['a'])", [2]), ("from common.commands import run as made\nmade(['a'])", [2]),
    ("import os\nos.system('a')", [2]), ("subprocess.run(['a'], check=False)", [1]),
    ("if a:\n    subprocess.run(['a'])", [2]), ("subprocess.run(['a'], check=True)", []),
    ("from harness import run\nran = run(['a'])", []), ("from harness import check\ncheck(['a'])", []),
    ("from harness import run\nprint(run(['a']).stdout)", []), ("board.run('a')", [])])
def test_ignored(text, lines):
    assert [*ignored(text)] == lines


@pytest.mark.parametrize("name", at_least(90, sorted(
    [*programs(), *(path.as_posix() for path in files() if path.suffix == ".py"
                    and path.parts[0] in ("tools", "recheck", "tests"))])))
def test_no_command_is_ignored(name):
    assert not [*ignored((ROOT / name).read_text("utf-8"))]


# How a command may fail: with a status, or by a signal, for which Python has a number below 0.
ENDS = {"a status": "exit 1", "the highest status": "exit 255", "a signal": "kill -9 $$"}


def tool(name):
    """A program of tools, as a module."""
    loader = importlib.machinery.SourceFileLoader(name, str(ROOT / "tools" / name))
    found = importlib.util.module_from_spec(importlib.util.spec_from_loader(name, loader))
    loader.exec_module(found)
    return found


def fails(kind, what, *words):
    """Whether it ends with a fault of this kind."""
    try:
        what(*words)
    except kind:
        return True
    return False


def of_step(top, replace):
    generate = tool("generate")
    replace(generate, "STEPS", {"it": generate.Step(str(top / "it"), reads="nothing")})
    replace(generate, "RECORD", top / "record")
    return generate.make("it") != "" and not (top / "record").exists()


def of_installing(top, replace):
    replace(installing, "ROOT", top)   # so that no package of this machine is touched
    replace(installing, "take_paths", lambda: None)
    replace(installing, "is_debian_12", lambda: True)
    replace(installing, "packages", lambda tools: ["it"])
    return fails(SystemExit, installing.prepare, [], True)


def of_module(top, replace):
    replace(module, "has_compiler", lambda: True)
    replace(module, "DEBIAN_RUSTC", top / "it")
    replace(module, "PREBUILT", top / "prebuilt")
    return fails(SystemExit, module.main)


def of_comparison(top, _):
    it = Comparison.__new__(Comparison)
    it.program = top / "it"
    return it.make([])[-1].startswith("status ")


# Who looks at the status of a command that it runs, and how it tells that the command has failed.
LOOKS = {
    "check": lambda top, _: fails(AssertionError, check, [top / "it"]),
    "a part of tools/check": lambda top, _: counted(*run_part(str(top / "it")))[1] > 0,
    "a step of tools/generate": of_step,
    "tools/install-packages": of_installing,
    "rt": lambda top, _: fails(rattle.NotBuilt, rattle.build, ("superio_core", "lib")),
    "an import": lambda top, _: not requirements.has_modules(str(top / "it"), "import it"),
    "the compiler of the module": of_module,
    "a program that makes calls": of_comparison,
    "coqc": lambda top, _: fails(coq.Failed, coq.coqc, top, "it"),
    "rustc --rustc": lambda top, _: fails(Refused, lambda: [*expanded.compare(
        ROOT, str(top / "it"), {"core": "rust/superio/src"}, {"core": {}}, top)]),
}


@pytest.mark.parametrize("end", ENDS)
@pytest.mark.parametrize("name", LOOKS)
def test_a_command_that_fails(name, end, tmp_path, monkeypatch):
    """Whoever looks at its status tells so, also if a signal ended it, and whatever it had printed."""
    for path in ("it", "coqc", "rt", "tools/install-packages"):
        (tmp_path / path).parent.mkdir(exist_ok=True)
        (tmp_path / path).write_text(f"#!/bin/sh\necho 1 passed\n{ENDS[end]}\n", "utf-8")
        (tmp_path / path).chmod(0o755)
    monkeypatch.setenv("PATH", str(tmp_path), prepend=":")
    monkeypatch.setattr(tempfile, "tempdir", str(tmp_path))
    assert LOOKS[name](tmp_path, monkeypatch.setattr)
