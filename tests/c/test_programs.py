# SPDX-License-Identifier: Apache-2.0 OR BSD-3-Clause
"""Programs in C and C++ over the prebuilt library and over the one from source, here and on other processors.

The Makefile builds and runs them, for this processor by gcc, with sanitizers, and by clang, and for others by Debian's
cross compilers and qemu's user mode.

- every_function.c calls each function of superio.h, and each call does what it does through Python.
- replay.c makes recorded calls, some with values from the data sheets, every answer, loads and random calls, which do
  what a search of the past says, and those of a console what a model says.
- the programs of examples/c print what they should, and the machine does the duties of demo.txt.
- console.c has guests that receive and send at once over a bare port, and no byte waits for ever, unless a monitor or a
  driver breaks a rule.
- worlds.c has guests and event loops around consoles, and consoles of any bytes.
"""
import os
import re
import shutil
from functools import cache
from pathlib import Path

import pytest
from board import Board
from builds import HOST, PROCESSORS, compilers_for, make_words, prebuilt
from common.seed import seed
from console import random_runs
from every_function import calls_of_functions, functions_in_c
from generators.libraries import STATIC
from harness import ROOT, at_least, check, run
from made import every_load
from recorded import every_answer, random_recorded, recording_of, recordings
from script import line_of, replies_of
from seeds import random_source, seeds
from toolchains import toolchain_for

HERE = Path(__file__).parent
LOADED_CALLS, RUNS, ROUNDS = 20_000, 2_500, 60
LOADED_STATES = 6_800   # of which as many differ as have so many calls
DEMO = at_least(210, re.findall(r"^\w.*", (HERE / "demo.txt").read_text("ascii"), re.M))
OTHERS = ["s390x", "arm"]   # for which there is only the library from source
WORDS_OF_32_BITS = ["arm"]


def loads():
    """Loads into new devices, as lines of scripts. At the end the devices are new again: what comes next may begin with a
    load that is refused."""
    fresh = [("load", bytes.fromhex(Board().save())), ("clock_load", bytes.fromhex(Board().clock_save()))]
    calls = [*fresh, *at_least(LOADED_CALLS, every_load(LOADED_STATES))[:LOADED_CALLS], *fresh]
    return "".join(f"{line_of(*call)} = {reply}\n" for call, reply in zip(calls, replies_of(Board(), calls)))


@pytest.fixture(scope="session")
def calls(tmp_path_factory):
    """A file of what every library does, and how many calls it has: first C's own, which begin with new devices, then
    the recordings, which begin with a new clock, and at the end loads and random calls."""
    random_calls = [call for run in random_recorded(seeds("C", RUNS)) for call in run]
    text = "".join([*{**recordings(HERE / "own.txt", HERE / "console.txt"), **recordings(),
                      **recordings(HERE / "shared.txt")}.values(), recording_of(every_answer()), loads(),
                    recording_of(random_calls), random_runs(seeds("consoles", RUNS // 4))])
    number, path = text.count(" = "), tmp_path_factory.mktemp("calls") / "calls"
    assert number >= 395_000
    path.write_text(text, "ascii")
    return path, number


@pytest.fixture(scope="session")
def each(prebuilt_library, tmp_path_factory):
    """A file of calls of each function, how many it has, and how many of them no size_t of 32 bits allows."""
    text, number, too_large = calls_of_functions(prebuilt_library, random_source("each function in C"), ROUNDS)
    assert number >= 37 * ROUNDS and too_large > 0
    path = tmp_path_factory.mktemp("each") / "each"
    path.write_bytes(text)
    return path, number, too_large


@pytest.fixture(scope="session")
def from_source(tmp_path_factory):
    """Gives the library that Cargo makes of bindings/c/from-source for a processor."""
    folder = tmp_path_factory.mktemp("from-source")

    @cache
    def build(processor):
        target = PROCESSORS[processor][0]
        toolchain = toolchain_for(target)
        check([toolchain.cargo, "rustc", "--target", target, "--crate-type", "staticlib", "--release", "--quiet",
               "--offline", "--manifest-path", ROOT / "bindings" / "c" / "from-source" / "Cargo.toml"],
              env=toolchain.environment(CARGO_TARGET_DIR=str(folder)))
        return folder / target / "release" / STATIC
    return build


def cases(*processors):
    """Compilers, each with the processor that it is for."""
    return [pytest.param(*compiler.values, processor, id=f"{processor} {compiler.id}", marks=compiler.marks)
            for processor in processors for compiler in compilers_for(processor)]


def in_c(parameters):
    """Those compilers that compile C."""
    return [compiler for compiler in parameters if "-xc " in compiler.values[0]]


PREBUILT, SOURCE = at_least(5, cases("x86_64", "aarch64")), at_least(6, cases(HOST, *OTHERS))
needs_make, needs_cargo = pytest.mark.needs("make"), pytest.mark.needs("cargo", "make")


@pytest.fixture(scope="session")
def kept(tmp_path_factory):
    """Gives a folder for what a compiler makes of the programs, which are then linked with one library and the other."""
    return cache(lambda compiler: tmp_path_factory.mktemp("kept"))


@pytest.fixture
def words(compiler, processor, kept, tmp_path):
    """Gives the words of `make` that build programs with a library, and run them."""
    def words(library, *goals):
        return make_words(compiler, processor, library, tmp_path, f"KEPT={kept(compiler)}", *goals)
    return words


def replay(words, library, calls):
    path, number = calls
    check(words(library, "calls", f"CALLS={path}"), f"{number} calls did the same, 0 did not\n")


def call_each(words, processor, library, each, folder):
    path, number, too_large = each
    passed_over = too_large if processor in WORDS_OF_32_BITS else 0
    (folder / "functions.h").write_text(functions_in_c(), "ascii")
    check(words(library, "functions", f"EACH={path}"),
          f"{number - passed_over} calls did the same, 0 did not, {passed_over} have a number that is too large\n")


def make_worlds(words, library):
    check(words(library, "worlds", f"SEED={seed()}"), "2000 worlds came to rest\n")


@needs_make
@pytest.mark.parametrize("compiler, processor", PREBUILT)
def test_calls(words, processor, calls):
    replay(words, prebuilt(processor), calls)


@needs_make
@pytest.mark.parametrize("compiler, processor", PREBUILT)
def test_each_function(words, processor, each, tmp_path):
    call_each(words, processor, prebuilt(processor), each, tmp_path)


@needs_make
@pytest.mark.parametrize("compiler, processor", in_c(PREBUILT))
def test_examples(words, processor):
    check(words(prebuilt(processor), "examples"))


@needs_make
@pytest.mark.parametrize("compiler, processor", in_c(cases(HOST)))
def test_exchanges(words, processor):
    said = check(words(prebuilt(processor), "exchanges", f"SEED={seed()}"))
    assert sum(map(int, re.findall(r"^\d+ of (\d+) exchanges stalled: ", said, re.M))) >= 30_000


@needs_make
@pytest.mark.parametrize("compiler, processor", in_c(cases(HOST)))
def test_worlds(words, processor):
    make_worlds(words, prebuilt(processor))


# Threads that meet often: a loop that waits goes round all the time, and who wakes it does so late. An eventfd orders
# what comes before it, so that otherwise nothing shows that a lock is missing there.
EAGER = """#include <poll.h>
#include <stdint.h>
int __real_poll(struct pollfd *files, nfds_t count, int timeout);
int __wrap_poll(struct pollfd *files, nfds_t count, int timeout);
int __real_eventfd_write(int file, uint64_t count);
int __wrap_eventfd_write(int file, uint64_t count);
int __wrap_poll(struct pollfd *files, nfds_t count, int timeout) {
    return __real_poll(files, count, timeout < 0 ? 1 : timeout); /* milliseconds */
}
int __wrap_eventfd_write(int file, uint64_t count) {
    __real_poll(0, 0, 3);
    return __real_eventfd_write(file, count);
}
"""


@needs_make
@pytest.mark.needs("cc")
def test_threads_of_examples_by_gcc(tmp_path):
    """No thread of an example uses what another one changes without its lock."""
    compiler = "gcc -xc -std=c99 -g -fsanitize=thread -Wl,--wrap=poll,--wrap=eventfd_write"
    said = {"monitor": "3000 bytes came back, 3000 of them in order\n",
            "machine": (ROOT / "examples/c/expected").read_text("ascii")}
    (tmp_path / "eager.c").write_text(EAGER, "ascii")
    for name in said:
        sources = ROOT / f"examples/c/{name}.c", tmp_path / "eager.c"
        words = ["-I", ROOT / "bindings/c", *sources, "-xnone", prebuilt(HOST), "-o", tmp_path / name]
        check([*compiler.split(), *words], "")
        check([tmp_path / name], said[name], input="hello\n")


@needs_cargo
@pytest.mark.parametrize("compiler, processor", SOURCE)
def test_calls_from_source(words, processor, calls, from_source):
    replay(words, from_source(processor), calls)


@needs_cargo
@pytest.mark.parametrize("compiler, processor", SOURCE)
def test_each_function_from_source(words, processor, each, from_source, tmp_path):
    call_each(words, processor, from_source(processor), each, tmp_path)


@needs_cargo
@pytest.mark.parametrize("compiler, processor", in_c(SOURCE))
def test_examples_from_source(words, processor, from_source):
    check(words(from_source(processor), "examples"))


@needs_cargo
@pytest.mark.parametrize("compiler, processor", in_c(SOURCE))
def test_worlds_from_source(words, processor, from_source):
    make_worlds(words, from_source(processor))


# What a program prints in place of one that tests/c/Makefile runs. The one that ENDS names ends badly after it, and the
# one that SAYS names prints a line more. What is piped into one is read, or who writes it may fail.
RAN = """#!/bin/sh
name=$(basename "$1")
case $name in
replay) cat > /dev/null ;;
paste) echo '1000 bytes in 16 pieces, 1000 of them in order' ;;
monitor) echo '3000 bytes came back, 3000 of them in order' ;;
machine) cat {0}/examples/c/expected ;;
demo) cat {0}/tests/c/demo.txt ;;
esac
[ "$name" != "$SAYS" ] || echo more
[ "$name" != "$ENDS" ] || exit 3
"""
RUN_BY_MAKE = re.findall(r"\$\(RUN\) \$\(OUT\)/(\w+)", (ROOT / "tests/c/Makefile").read_text("ascii"))


@needs_make
@pytest.mark.parametrize("name", [None, *at_least(8, RUN_BY_MAKE)])
def test_a_program_that_ends_badly(name, tmp_path):
    """So does `make`, whatever the program has printed before. A text that is compared has no line more, either."""
    (tmp_path / "run").write_text(RAN.format(ROOT), "ascii")
    (tmp_path / "run").chmod(0o755)
    (tmp_path / "each").touch()

    def make(**told):
        words = [f"CC={shutil.which('true')}", f"RUN={tmp_path / 'run'}", f"OUT={tmp_path}", "test", "functions"]
        return run(["make", "-s", "-C", ROOT / "tests/c", *words], env={**os.environ, **told}).returncode
    assert (make(ENDS=name or "") == 0) == (name is None)
    assert (make(SAYS=name or "") == 0) == (name not in ("machine", "demo"))
