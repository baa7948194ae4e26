# SPDX-License-Identifier: Apache-2.0 OR BSD-3-Clause
"""The compilers for C and C++ of this machine and of others, and the libraries that programs are linked with. And
rules.c, with a monitor."""
import platform

import pytest
from common.seed import seed
from generators.libraries import PREBUILT, STATIC, TARGETS
from harness import ROOT, check, run

HOST = platform.machine()
COMPILERS = {
    "gcc": pytest.param("gcc -xc -std=c99", id="gcc", marks=pytest.mark.needs("cc")),
    "clang": pytest.param("clang -xc -std=c99", id="clang", marks=pytest.mark.needs("clang")),
    "g++": pytest.param("g++ -xc++ -std=c++11", id="g++", marks=pytest.mark.needs("c++")),
    "clang++": pytest.param("clang++ -xc++ -std=c++11", id="clang++", marks=pytest.mark.needs("clang")),
}
# With line numbers, but without what a debugger needs of variables, which takes long.
SANITIZERS = " -g1 -fsanitize=address,undefined -fno-sanitize-recover=all"
# Beside each processor, as qemu names it, the target of rustc and the prefix of Debian's cross compiler.
PROCESSORS = {
    "x86_64": ("x86_64-unknown-linux-gnu", "x86_64-linux-gnu"),
    "aarch64": ("aarch64-unknown-linux-gnu", "aarch64-linux-gnu"),
    "s390x": ("s390x-unknown-linux-gnu", "s390x-linux-gnu"),           # the highest byte first
    "arm": ("armv7-unknown-linux-gnueabihf", "arm-linux-gnueabihf"),   # 32 bits
}


def prebuilt(processor):
    return PREBUILT / f"{processor}-linux" / STATIC


def compilers_for(*processors):
    """The compilers for processors: all four for this one, and a cross compiler for another."""
    for processor in processors:
        if processor == HOST:
            yield from COMPILERS.values()
        else:
            yield pytest.param(f"{PROCESSORS[processor][1]}-gcc -xc -std=c99 -static", id=processor,
                               marks=pytest.mark.needs(processor))


def make_words(compiler, processor, library, folder, *goals):
    """The words of `make` that build programs with a library, into a folder, and run them."""
    runner = "" if processor == HOST else f"qemu-{processor}"
    sanitizers = SANITIZERS if compiler.startswith("gcc ") else ""
    return ["make", "-s", "-C", ROOT / "tests" / "c", f"CC={compiler}{sanitizers}", f"RUN={runner}", f"OUT={folder}",
            f"LIBRARY={library}", *goals]


def run_rules(monitor, folder, level="-O1"):
    """What rules.c says of a file monitor.c. For one that it refuses at once, `-O0` takes half the time."""
    flags = ["-std=c99", level, "-Wall", "-Wextra", "-Werror", "-pedantic"]
    check(["cc", *flags, "-I", ROOT / "bindings/c", "-I", monitor.parent, ROOT / "tests/c/rules.c", prebuilt(HOST),
           "-o", folder / "rules"], "")
    return run([folder / "rules", seed(), 20])


assert {f"{processor}-linux" for processor in ("x86_64", "aarch64")} == {*TARGETS}
