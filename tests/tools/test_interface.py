# SPDX-License-Identifier: Apache-2.0 OR BSD-3-Clause
"""What is made of the header, in a copy: what a header adds is written, and one that lacks a single thing of the
interface is refused."""
import re
import shutil
import sys

import pytest
from generators.libraries import SHARED
from harness import ROOT, run

COPIED = ["VERSION", "tools/common", "tools/generators", "bindings/c", "bindings/python/superio/superio.abi", "debian"]
HEADER, COPY, TABLE = "bindings/c/superio.h", "bindings/c/from-source/superio.h", "bindings/python/superio/superio.abi"
SYMBOLS = f"debian/libsuperio{SHARED.rpartition('.')[2]}.symbols"
# A header with one of each, and how each changes: what is added, and what a program would miss.
ADDED = """
#define SUPERIO_ADDED 7
typedef struct superio_added {
    uint8_t one;
    uint8_t other;
} superio_added;
void superio_add(superio_added *added);
"""
CHANGES = {
    "another value": ("SUPERIO_ADDED 7", "SUPERIO_ADDED 8", "constant SUPERIO_ADDED 7"),
    "no constant": ("#define SUPERIO_ADDED 7", "", "constant SUPERIO_ADDED 7"),
    "no function": ("void superio_add(superio_added *added);", "", "function void superio_add(superio_added *)"),
    "another result": ("void superio_add(", "bool superio_add(", "function void superio_add(superio_added *)"),
    "another parameter": ("(superio_added *added)", "(superio_added *added, bool really)",
                          "function void superio_add(superio_added *)"),
    "another field": ("    uint8_t other;", "    uint8_t others;", "field superio_added.other uint8_t at 1 size 1"),
    "another type of a field": ("    uint8_t other;", "    bool other;", "field superio_added.other uint8_t at 1 size 1"),
}


@pytest.fixture
def top(tmp_path):
    for name in COPIED:
        copy = shutil.copytree if (ROOT / name).is_dir() else shutil.copy
        (tmp_path / name).parent.mkdir(parents=True, exist_ok=True)
        copy(ROOT / name, tmp_path / name)
    change(tmp_path, "#define SUPERIO_I8042_DATA_PORT", f"{ADDED}#define SUPERIO_I8042_DATA_PORT")
    return tmp_path


def change(top, old, new):
    text = (top / HEADER).read_text("ascii")
    assert text.count(old) == 1
    (top / HEADER).write_text(text.replace(old, new), "ascii")


def make(top):
    return run([sys.executable, "-m", "generators.interface"], cwd=top / "tools")


def written(top):
    return [(top / name).read_text("ascii") for name in (COPY, TABLE, SYMBOLS)]


def test_what_is_added_is_written(top):
    before = written(top)[1].splitlines()
    assert make(top).returncode == 0
    copy, table, symbols = written(top)
    assert copy == (top / HEADER).read_text("ascii") and " superio_add@Base " in symbols
    assert sorted({*table.splitlines()} - {*before}) == [
        "constant SUPERIO_ADDED 7", "field superio_added.one uint8_t at 0 size 1",
        "field superio_added.other uint8_t at 1 size 1", "function void superio_add(superio_added *)",
        "struct superio_added size 2"]
    assert table.splitlines()[0] == before[0] and not {*before} - {*table.splitlines()}


def versions(text):
    """From which version on the package has each function, by Debian's table."""
    return dict(re.findall(r"^ (\w+)@Base (\S+)$", text, re.M))


def test_each_function_keeps_its_version(top):
    """A program that calls an old one needs no newer package. Under another number, which may be longer, all begin
    anew."""
    kept = {name: f"0.1.{place}" for place, name in enumerate(versions(written(top)[2]))}
    lines = [f" {name}@Base {version}" for name, version in kept.items()]
    (top / SYMBOLS).write_text("\n".join(["a head", *lines, ""]), "ascii")
    (top / "VERSION").write_text("9.8.7\n", "ascii")
    assert make(top).returncode == 0
    assert versions(written(top)[2]) == {**kept, "superio_add": "9.8.7"}
    change(top, "#define SUPERIO_ABI ", "#define SUPERIO_ABI 1")
    assert make(top).returncode == 0
    number = f"1{SHARED.rpartition('.')[2]}"
    assert [path.name for path in (top / "debian").glob("*.symbols")] == [f"libsuperio{number}.symbols"]
    symbols = (top / f"debian/libsuperio{number}.symbols").read_text("ascii")
    assert symbols.startswith(f"libsuperio.so.{number} libsuperio{number} #MINVER#\n")
    assert versions(symbols) == dict.fromkeys([*kept, "superio_add"], "9.8.7")


@pytest.mark.parametrize("name", CHANGES)
def test_what_is_gone_is_refused(name, top):
    """Nothing is written. Under another number it is."""
    assert make(top).returncode == 0
    old, new, gone = CHANGES[name]
    before = written(top)
    change(top, old, new)
    ran = make(top)
    assert ran.returncode == 1 and gone in ran.stdout.splitlines(), ran.stdout
    assert written(top) == before
    number = int(before[1].split("\n")[0].removeprefix("abi "))
    change(top, f"#define SUPERIO_ABI {number}\n", f"#define SUPERIO_ABI {number + 1}\n")
    assert make(top).returncode == 0
    assert not (top / SYMBOLS).exists() and (top / TABLE).read_text("ascii").startswith(f"abi {number + 1}\n")
