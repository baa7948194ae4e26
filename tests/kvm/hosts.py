# SPDX-License-Identifier: Apache-2.0 OR BSD-3-Clause
"""How the monitor of examples/kvm is built over host.c, a host that is a script in place of KVM. Nothing is optimized,
because a monitor that runs for a moment takes longest to compile."""
import shutil
from pathlib import Path

from harness import ROOT, check
from monitors import COMPILERS, HERE

SOURCES = sorted(path.name for path in (ROOT / "examples" / "kvm").glob("*.c"))


def copy_monitor(folder, edits=()):
    """Copies the folder of the monitor. An edit is a file, what stands there once, and what comes in its place."""
    shutil.copytree(ROOT / "examples" / "kvm", folder, ignore=shutil.ignore_patterns("monitor"), dirs_exist_ok=True)
    for file, old, new in (("Makefile", "-O2", "-O0"), *edits):
        text = (folder / file).read_text(encoding="utf-8")
        assert text.count(old) == 1, old
        (folder / file).write_text(text.replace(old, new), encoding="utf-8")


def make(folder, compiler, *variables):
    """Builds the monitor in a copy of its folder, without a word of the compiler."""
    check(["make", "-s", "-C", folder, f"ROOT={ROOT}", f"CC={' '.join(map(str, compiler))}", *variables], "")


def build_over_host(folder, port="serial.c"):
    copy_monitor(folder)
    make(folder, COMPILERS["host"], f"SERIAL={port}")


def compile_for_edits(folder):
    """Compiles each source by itself, and host.c, without sanitizers. `build_edited` compiles the edited one again."""
    copy_monitor(folder)
    for source in (*SOURCES, HERE / "host.c"):
        make(folder, ["cc", "-I.", "-c"], f"SOURCES={source}", "LIBRARY=")
        (folder / "monitor").rename(folder / f"{Path(source).stem}.o")


def build_edited(folder, compiled, edit):
    """Builds an edited monitor of what `compile_for_edits` has compiled in a folder, and of the edited source."""
    copy_monitor(folder, [edit])
    edited, *_ = edit
    assert edited in SOURCES
    sources = [source if source == edited else compiled / f"{Path(source).stem}.o" for source in SOURCES]
    compiler = [compiled / "host.o" if word == HERE / "host.c" else word for word in COMPILERS["host"]
                if "-fsanitize" not in str(word)]
    make(folder, compiler, f"SOURCES={' '.join(map(str, sources))}")
