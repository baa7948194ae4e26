# SPDX-License-Identifier: Apache-2.0 OR BSD-3-Clause
"""tools/erase drops no code and keeps no contract: erased.txt has sources of Rattle, each with what it leaves of them,
or with a part of what refuses them."""
import io
import sys
from contextlib import redirect_stderr, redirect_stdout
from pathlib import Path
from unittest import mock

import pytest
from harness import ROOT, at_least

TOOL = ROOT / "tools" / "erase"
PROGRAM = compile(TOOL.read_text(encoding="utf-8"), TOOL, "exec")
CASES = (Path(__file__).parent / "erased.txt").read_text(encoding="utf-8").split("====\n")[1:-1]

# What has no place in the code that stays, each alone; in a comment or in a string it has.
REFUSED = ["ensures", "requires", "ghost", "async", "await", "crate::a", "extern", "macro_rules", "union", "unsafe",
           "Model", "Drop", "a as usize", "a as isize", "a!()", "matches!(a) && b!()", "\u00e9", "/* a */", "#[cfg(a)]",
           "#![no_std]", "a#", '"']
LICENSE = "// SPDX-License-Identifier: Apache-2.0 OR BSD-3-Clause\n"   # with which each source begins


def erase(*words, root=ROOT):
    """How the tool of a repository ends with these words, and all that it says. It runs in this process: most of what it
    takes in another is Python's start."""
    said = io.StringIO()
    with (mock.patch.object(sys, "argv", [str(TOOL), *map(str, words)]), redirect_stdout(said), redirect_stderr(said),
          pytest.raises(SystemExit) as end):
        exec(PROGRAM, {"__name__": "__main__", "__file__": str(root / "tools" / "erase")})
    status = end.value.code
    return (1, f"{said.getvalue()}{status}\n") if isinstance(status, str) else (status or 0, said.getvalue())


@pytest.mark.parametrize("source, expected", at_least(15, [case.split("->\n") for case in CASES]),
                         ids=lambda text: text.splitlines()[0])
def test_erase(source, expected, tmp_path):
    folders = tmp_path / "source", tmp_path / "target"
    for folder in folders:
        folder.mkdir()
    (folders[0] / "lib.rt").write_text(source, encoding="utf-8")
    (status, said), made = erase(*folders), folders[1] / "mod.rs"
    if expected.startswith("lib.rt:"):
        assert (status, made.exists()) == (1, False)
        assert expected.strip() in said
        return
    text = made.read_text(encoding="utf-8")
    assert text.split("\n", 3)[3] == expected
    assert erase("--check", *folders) == (0, "")
    for other in (f"{text}\n", text[:-1], f"{text[:-2]} \n"):
        made.write_text(other, encoding="utf-8")
        assert erase("--check", *folders)[0] == 1
    made.unlink()
    assert erase("--check", *folders)[0] == 1
    made.write_text(text, encoding="utf-8")
    for name in "other.rs", "below/other.rs", "other", "other.txt", ".other.rs.swp":   # whatever it is
        other = folders[1] / name
        other.parent.mkdir(exist_ok=True)
        other.write_text(text, encoding="utf-8")
        assert erase("--check", *folders) == (1, f"{other} is not what tools/erase makes of its source\n")
        other.unlink()
    assert erase("--check", *folders) == (0, "")


@pytest.mark.parametrize("word", REFUSED)
def test_refused(word, tmp_path):
    folders = tmp_path / "source", tmp_path / "target"
    for folder in folders:
        folder.mkdir()
    source = folders[0] / "lib.rt"
    for head in "", LICENSE, f"{LICENSE}//! A crate.\n\n":   # what stands before a fault changes no more than its line
        source.write_text(f"{head}fn f() {{\n    {word};\n}}\n", encoding="utf-8")
        status, said = erase(*folders)
        place = f"lib.rt:{2 + head.count(chr(10))}: "
        assert (status, [*folders[1].iterdir()]) == (1, []) and said.startswith(f"tools/erase: {place}"), said
    source.write_text(f"// {word}\n", encoding="utf-8")
    assert erase(*folders) == (0, "")
    assert (folders[1] / "mod.rs").read_text(encoding="utf-8").endswith(f"// {word}\n")


# The files of a repository that the tool reads when no folder is named.
READ = [f"crates/{crate}/src/{name}" for crate in ("superio_core", "superio_console")
        for name in ("a.rt", "lib.rt", "z/z.rt")]


@pytest.mark.parametrize("fault", READ)
def test_a_fault_in_any_file_leaves_all_files_as_they_were(fault, tmp_path):
    """Also those of the files and of the folder before it."""
    def erased(name):
        for path in (tmp_path / read for read in READ):
            path.parent.mkdir(parents=True, exist_ok=True)
            path.write_text(f"fn {name}() {{}}\n", encoding="utf-8")
        if name == "fault":
            (tmp_path / fault).write_text("fn fault() { unsafe {} }\n", encoding="utf-8")
        ended = erase(root=tmp_path)
        return ended, {path: path.read_text("utf-8") for path in (tmp_path / "rust").rglob("*") if path.is_file()}
    (status, said), made = erased("fault")
    assert (status, made) == (1, {}) and said.startswith(f"tools/erase: {fault}:1: ")
    ended, made = erased("before")
    assert (ended, len(made)) == ((0, ""), len(READ))
    assert erased("fault") == ((1, said), made)
