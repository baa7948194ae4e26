# SPDX-License-Identifier: Apache-2.0 OR BSD-3-Clause
"""Each program to copy ends at once over a library of another binary interface."""
import os
import platform
import shutil
import signal
from pathlib import Path

import pytest
from generators.libraries import PREBUILT, STATIC
from harness import ROOT, check, run

pytestmark = pytest.mark.needs("cc", "make")

NUMBERS = ["SUPERIO_ABI - 1", "SUPERIO_ABI + 1", "0", "UINT32_MAX"]
# The linker has this answer for the library, of an older or a newer one. A program is built once for all numbers, and
# PLACE says which one is told.
OTHER = f"""#include <stdlib.h>
#include <superio.h>
uint32_t __wrap_superio_abi(void);
uint32_t __wrap_superio_abi(void) {{
    static const uint32_t NUMBERS[] = {{{", ".join(NUMBERS)}}};
    return NUMBERS[atoi(getenv("PLACE"))];
}}
"""


@pytest.fixture(scope="module")
def compiler(tmp_path_factory):
    """A compiler whose programs find another number in the library."""
    folder = tmp_path_factory.mktemp("other")
    (folder / "other.c").write_text(OTHER, encoding="ascii")
    return ["cc", "-I", ROOT / "bindings/c", folder / "other.c", "-Wl,--wrap=superio_abi"]


@pytest.fixture(params=range(len(NUMBERS)), ids=NUMBERS)
def environment(request):
    return {**os.environ, "PLACE": str(request.param)}


SAID = "the library has another interface than the header\n"
# The status and output of each.
PROGRAMS = {
    "examples/console.c": (-signal.SIGABRT, ""),
    "examples/c/machine.c": (1, f"machine: {SAID}"),
    "examples/c/monitor.c": (1, f"monitor: {SAID}"),
}


def test_every_program_to_copy():
    """Each that has threads as a monitor does is here."""
    programs = [path for path in ROOT.glob("examples/**/*.c") if "\nint main(" in path.read_text("utf-8")]
    found = [path.relative_to(ROOT).as_posix() for path in programs if "pthread_create" in path.read_text("utf-8")]
    assert sorted(found) == sorted([*PROGRAMS, "examples/kvm/main.c"])


@pytest.fixture(scope="module")
def program_to_copy(request, compiler, tmp_path_factory):
    """The path of a program, and what it is built to."""
    library = PREBUILT / f"{platform.machine()}-linux" / STATIC
    program = tmp_path_factory.mktemp("program") / Path(request.param).stem
    check([*compiler, ROOT / request.param, library, "-o", program], "")
    return request.param, program


@pytest.mark.parametrize("program_to_copy", PROGRAMS, indirect=True)
def test_program_to_copy(environment, program_to_copy):
    path, program = program_to_copy
    ran = run([program], input="a line, after which a program ends that runs\n", env=environment)
    assert (ran.returncode, ran.stdout) == PROGRAMS[path]


@pytest.fixture(scope="module")
def monitor_for_kvm(compiler, tmp_path_factory):
    folder = tmp_path_factory.mktemp("monitor") / "kvm"
    shutil.copytree(ROOT / "examples" / "kvm", folder, ignore=shutil.ignore_patterns("monitor"))
    check(["make", "-s", "-C", folder, f"ROOT={ROOT}", f"CC={' '.join(map(str, compiler))}"], "")
    return folder / "monitor"


@pytest.mark.where("Linux on x86-64")
def test_monitor_for_kvm(environment, monitor_for_kvm):
    ran = run([monitor_for_kvm, "image"], env=environment)
    assert (ran.returncode, ran.stdout) == (1, f"monitor: {SAID}")
