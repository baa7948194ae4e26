# SPDX-License-Identifier: Apache-2.0 OR BSD-3-Clause
"""The WebAssembly module has its digests, and is the one of bindings/js/module.mjs, and of a build, byte for byte;
superio.cjs is what is made of the modules."""
import os
import re
import subprocess

import pytest
from generators import module
from generators.module import DECLARED, EMBEDDED, MODULE, PREBUILT, build, declared, embedded, listed
from generators.page import REQUIRED, required
from harness import at_least


@pytest.mark.parametrize("name, line", at_least(2, listed().items()))
def test_digest(name, line):
    assert line in (PREBUILT / name).read_text("ascii").splitlines(), "run tools/generate"


def test_required():
    assert REQUIRED.read_text("utf-8") == required(), "run tools/generate"


def test_embedded():
    assert EMBEDDED.read_text("ascii") == embedded(), "run tools/generate"


def test_declared():
    assert DECLARED.read_text("utf-8") == declared(), "run tools/generate"


@pytest.mark.parametrize("mask", [0o022, 0o077, 0])
def test_all_is_written(mask, tmp_path, monkeypatch):
    """The module, which is no program, also if its compiler lets it be run; its digests; and what is made of it."""
    contents, lines = (PREBUILT / MODULE).read_bytes(), listed()
    files = {tmp_path / "module.mjs": EMBEDDED.read_bytes(), tmp_path / "superio.d.ts": DECLARED.read_bytes(),
             tmp_path / MODULE: contents, **{tmp_path / name: f"{line}\n".encode() for name, line in lines.items()}}
    before = re.sub(r"(?m)^    \| \".*\"", '    | "old"', DECLARED.read_text("utf-8"))
    (tmp_path / "superio.d.ts").write_text(before, "utf-8")
    (tmp_path / MODULE).parent.mkdir()

    def build(place):
        place.write_bytes(contents)
        place.chmod(0o777)
        return subprocess.CompletedProcess([], 0, "")
    for name, value in {"PREBUILT": tmp_path, "EMBEDDED": tmp_path / "module.mjs", "build": build,
                        "DECLARED": tmp_path / "superio.d.ts", "has_compiler": lambda: True}.items():
        monkeypatch.setattr(module, name, value)
    old = os.umask(mask)
    try:
        module.main()
    finally:
        os.umask(old)
    assert {path: path.read_bytes() for path in tmp_path.rglob("*") if path.is_file()} == files
    assert (tmp_path / MODULE).stat().st_mode & 0o777 == 0o644


@pytest.mark.needs("wasm")
def test_build(tmp_path):
    place = tmp_path / "superio.wasm"
    built = build(place)
    assert built.returncode == 0, built.stdout
    assert place.read_bytes() == (PREBUILT / MODULE).read_bytes()
