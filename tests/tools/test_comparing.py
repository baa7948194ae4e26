# SPDX-License-Identifier: Apache-2.0 OR BSD-3-Clause
"""What compares in tests sees what differs in the last place only: helpers, programs that replay calls, and tests of
files that a command makes."""
import base64
import ctypes
import json
import os
import re
import shutil
import signal
import stat
import subprocess
import sys
import zlib
from types import SimpleNamespace

import abi
import common.seed
import documents
import expanded
import monitors
import pytest
import rerun
import rust2coq
import shared
import sides
import test_consoles
import test_counts
import test_files
import test_header
import test_mistakes
from builds import HOST, make_words, prebuilt
from common import cargo
from common.comparison import Comparison
from common.seed import VARIABLE, seed
from contracts import functions_of
from documents import BUILT
from every_function import calls_of_functions, encoded_call, functions_in_c
from generators import counts, page
from generators.header import read_header
from generators.libraries import replace_lines
from harness import LIMIT, ROOT, at_least, check, run
from mutation.copies import Copy
from random_calls import GUARD, Place, arguments_of, call as called, random_calls
from recorded import difference, recordings
from script_tests import Script
from seeds import random_source, seeds

sys.path += [str(ROOT / "tests" / folder) for folder in ("js", "python", "rust")]
import test_boards  # noqa: E402
import test_crates  # noqa: E402
import test_module  # noqa: E402


def altered(original):
    """Texts, bytes or lists that differ from this one in the last place: another one, one less, one more."""
    if isinstance(original, list):
        return [*([*original[:-1], last] for last in altered(original[-1])), original[:-1], [*original, original[-1]]]
    if isinstance(original, bytes):
        return [text.encode("latin-1") for text in altered(original.decode("latin-1"))]
    return [original[:-1] + chr(ord(original[-1]) ^ 1), original[:-1], original + original[-1]] if original else ["0"]


def refuses(compare, *words):
    """Whether a comparison fails as one of a test does."""
    try:
        compare(*words)
    except AssertionError:
        return True
    return False


def test_altered():
    assert altered("ab") == ["ac", "a", "abb"] and altered(b"") == [b"0"]
    assert altered(["ab", "c"]) == [["ab", "b"], ["ab", ""], ["ab", "cc"], ["ab"], ["ab", "c", "c"]]


# Helpers

@pytest.mark.parametrize("end", ["exit 1", "exit 2", "exit 4", "exit 127", "exit 128", "exit 255", "kill -9 $$"])
def test_check_of_a_status(end):
    assert refuses(check, ["sh", "-c", f"echo a; {end}"])
    assert refuses(check, ["sh", "-c", f"echo a; {end}"], "a\n")


def test_a_command_has_a_limit(monkeypatch):
    """One that does not end fails its test, and holds up no run."""
    with pytest.raises(subprocess.TimeoutExpired):
        check(["sleep", "5"], timeout=0.1)
    limits = []
    monkeypatch.setattr(subprocess, "run", lambda *_, timeout=None, **options: limits.append(timeout) or
                        subprocess.CompletedProcess([], 0, b"", b""))
    for call in (lambda: run(["a"]), lambda: check(["a"]), lambda: sides.run("a", "")):
        call()
    assert limits == [LIMIT] * 3


@pytest.mark.parametrize("end", ["exit 1", "exit 101", "kill -9 $$", "kill -ABRT $$"])
def test_an_end_of_recorded_calls(end, tmp_path):
    """A program that ends badly after its last reply is told, also if it did not end by itself."""
    program = tmp_path / "program"
    for last in ("", end):
        program.write_text(f"#!/bin/sh\necho 'sc = 40'\n{last}\n", "ascii")
        program.chmod(0o755)
        made = Comparison.make(SimpleNamespace(program=program), ["sc"])
        assert made[:1] == ["sc = 40"] and len(made) == 1 + bool(last), made


@pytest.mark.parametrize("text", ["", "a\n", "a\nb"])
def test_check_of_what_is_printed(text):
    assert check(["printf", "%s", text], text) == check(["printf", "%s", text]) == text
    for other in altered(text):
        assert refuses(check, ["printf", "%s", text], other) and refuses(check, ["printf", "%s", other], text), other


@pytest.mark.parametrize("end", ["", "bad line 3"])
def test_difference_of_a_script(end):
    script = Script("a place", b"kr 04\n", b"00\n01\n", end)
    status, replies, said = script.expected
    assert script.difference(script.expected) is None
    wrong = [(status ^ 1, replies, said), (-9, replies, said), None,
             *((status, replies, other) for other in altered(said))]
    for got in [*wrong, *((status, other, said) for other in altered(replies))]:
        assert script.difference(got), got


def test_difference_of_calls():
    rows, replies = [("sr 05", "60"), ("sw 00 41", "ok W41 F o")], ["60", "ok W41 F o"]
    assert not difference(rows, replies)
    for other in altered(replies):
        assert difference(rows, other), other


def test_difference_of_consoles():
    rows = ["lr 05 = 60", "lw 01 01 = ok wake", "la = 40", "li = 00 0"]
    assert not [*test_consoles.differences(rows)]
    for place, row in enumerate(rows):
        for other in altered(row):
            assert [*test_consoles.differences([*rows[:place], other, *rows[place + 1:]])], other


def test_replies_of_a_board():
    [test] = [test for test in test_boards.KEPT if test.replies][:1]
    test_boards.assert_replies(test)
    for other in altered(test.replies):
        assert refuses(test_boards.assert_replies, test._replace(replies=other)), other


@pytest.mark.parametrize("size", [0, 1, 50])
def test_guards_of_a_place(size):
    """A byte that a call writes beside what a pointer leads to is seen: the first and the last on either side."""
    for at in (-GUARD, -1, size, size + GUARD - 1, None):
        place = Place(random_source("a place"), bytes(size))
        if at is not None:
            ctypes.c_uint8.from_address(place.pointer + at).value ^= 1
        assert place.is_guarded() == (at is None) and place.content() == place.content_before(), at


@pytest.mark.parametrize("place", range(3))
def test_content_of_a_place(place):
    """And one within it: the first, another or the last."""
    found = Place(random_source("a place"), bytes(3))
    ctypes.c_uint8.from_address(found.pointer + place).value ^= 1
    assert found.is_guarded() and found.content() != found.content_before()


# Where random searches begin

@pytest.mark.needs("git")
def test_each_commit_has_a_seed(tmp_path, monkeypatch):
    monkeypatch.setattr(common.seed, "ROOT", tmp_path)
    found, commit = [], ["-c", "user.name=a", "-c", "user.email=a@b", "commit", "--quiet", "--allow-empty", "--message"]
    for words in (["init", "--quiet"], [*commit, "one"], [*commit, "two"]):
        check(["git", *words], "", cwd=tmp_path)
        monkeypatch.delenv(VARIABLE, raising=False)
        found.append(seed())
    assert found[0] == 0 and len({*found}) == 3
    assert found[2] == int(check(["git", "rev-parse", "HEAD"], cwd=tmp_path)[:8], 16)


def test_seeds_differ(monkeypatch):
    made = []
    for number in ("7", "8"):
        monkeypatch.setenv(VARIABLE, number)
        assert seed() == int(number)
        made += [*seeds("a", 3), *seeds("b", 3), random_source("a").random()]
        assert seeds("a", 4)[:3] == seeds("a", 3)
    assert len({*made}) == len(made) == 14


# What is made of seeds, in a process of its own.
DRAWN = """import random
import console, made, recorded, seeds
print(seeds.seeds("a", 2), seeds.random_source("a").random(), *made.every_load(20))
for seed in seeds.seeds("b", 5):
    for is_for_program in (False, True):
        print(made.random_script(random.Random(seed), is_for_program))
print(recorded.random_recorded(seeds.seeds("c", 5)), console.random_runs(seeds.seeds("d", 5)))
"""


def test_a_seed_gives_the_same_in_each_process(monkeypatch):
    """In whatever order a set is there. Another seed gives something else."""
    monkeypatch.setenv("PYTHONPATH", os.pathsep.join(sys.path))
    made = []
    for number, order in [("7", "0"), ("7", "1"), ("7", "2"), ("8", "0")]:
        monkeypatch.setenv(VARIABLE, number)
        monkeypatch.setenv("PYTHONHASHSEED", order)
        made.append(check([sys.executable, "-c", DRAWN]))
    assert made[0] == made[1] == made[2] != made[3]


# How a test in each language reads the seed, and the tests that say that they have one.
READS_SEED = re.compile(r"""\b(?:process\.env\.|env::var\("|environ\.get\(")TEST_SEED\b""")
NAMING_SEED = [ROOT / path for path in sorted(documents.files()) if path.suffix in (".mjs", ".py", ".rs")
               and path.as_posix().startswith(("bindings/", "rust/", "tests/rust/"))
               and re.search(r"\b[A-Z]+_SEED\b", (ROOT / path).read_text("utf-8"))]


@pytest.mark.parametrize("path", at_least(6, NAMING_SEED), ids=lambda path: path.name)
def test_a_seed_that_is_named_is_read(path):
    """A comment names it too, and makes no number another."""
    code = re.sub(r"^ *(?://|/\*\*|#|\*).*", "", path.read_text("utf-8"), flags=re.M).replace("'", '"')
    assert READS_SEED.search(code)


# Programs that replay calls

# Calls of each kind that a program knows. C shows and makes more of them than the others.
CALLS = ["sr 05", "sw 00 41 u", "sq 6869", "sr 00", "sc", "si", "sp", "sh", "ss", "sl 0c000306036108b000 6162",
         "cr 3e8 0000", "cw 3e8 0008 00000064", "cs", "cl 1 -2 3 1 0 armed", "kr 04", "kw 04 fe"]
CONSOLE_CALLS = ["ln", "lr 05", "lw 01 01", "la", "lq 6869", "lc 5", "li", "lt", "lf", "lz", "ls", "lp 01", "lb",
                 "ll 00"]
CALLS_OF_C = ["sx", "sf", "sb", "sl 00", "cd 0", "ch", "cb", "cl 00", "lo 5", "lx"]
NAMES_OF_C = re.findall(r'IS\("(\w+)"\)', (ROOT / "tests/c/replay.c").read_text("utf-8"))
# What a console in JavaScript does not show, and its replay passes over.
HIDDEN = {"lo", "lx"}


@pytest.fixture(scope="module")
def replay(tmp_path_factory):
    program = tmp_path_factory.mktemp("replay") / "replay"
    words = ["-std=c99", "-I", ROOT / "bindings/c", ROOT / "tests/c/replay.c", prebuilt(HOST)]
    check(["cc", *words, "-o", program], "")
    return [program]


def parts_of(calls):
    """Calls in parts of ten, since a program shows no more that differ."""
    return (calls[place:place + 10] for place in range(0, len(calls), 10))


@pytest.mark.parametrize("program, calls", [
    *(pytest.param("replay", calls, id=f"C: {calls[0]}", marks=pytest.mark.needs("cc"))
      for calls in parts_of(CALLS + CONSOLE_CALLS + CALLS_OF_C)),
    *(pytest.param("replay_calls", calls, id=f"JavaScript: {calls[0]}", marks=pytest.mark.needs("node"))
      for calls in parts_of(CALLS)),
    *(pytest.param("replay_consoles", calls, id=f"JavaScript's consoles: {calls[0]}", marks=pytest.mark.needs("node"))
      for calls in parts_of(CONSOLE_CALLS))])
def test_replay(program, calls, request):
    words = (request.getfixturevalue("replay") if program == "replay" else
             ["node", ROOT / f"bindings/js/tests/{program}.mjs"])

    def replayed(rows):
        text = "\n".join(rows) if program == "replay_consoles" else "".join(f"{row}\n" for row in rows)
        ran = subprocess.run([*map(str, words)], input=text, capture_output=True, text=True)
        return ran.returncode, ran.stdout
    said = replayed([f"{call} = ?" for call in calls])[1]
    rows = [f"{call} = {got.rpartition(' = ')[2]}" for call, got in zip(calls, re.findall("^got: +(.*)$", said, re.M))]
    assert replayed(at_least(len(calls), rows)) == (0, f"{len(rows)} calls did the same, 0 did not\n")
    for wrong in zip(*map(altered, rows)):
        status, said = replayed(wrong)
        assert status == 1 and said.endswith(f"\n0 calls did the same, {len(rows)} did not\n"), said


def test_calls_of_each_kind_are_replayed():
    recorded = {row[:2] for recording in recordings().values() for row in recording.splitlines() if " = " in row}
    assert recorded == {call[:2] for call in CALLS}
    of_consoles = re.findall(r"^  (l\w)[:(]", (ROOT / "bindings/js/tests/replay_consoles.mjs").read_text("utf-8"), re.M)
    assert {*of_consoles} - HIDDEN == {call[:2] for call in CONSOLE_CALLS}
    assert {*NAMES_OF_C} == {call[:2] for call in CALLS + CONSOLE_CALLS + CALLS_OF_C}


# In place of functions of the library: some that first read a byte before or behind what a pointer leads to, if TOUCH says
# so.
TOUCHING = """#include <superio.h>
#include <stdlib.h>
#include <string.h>
static void touch(const void *start, size_t size, const char *name) {
    const char *told = getenv("TOUCH");
    if (told && strncmp(told, name, strlen(name)) == 0)
        (void)*((volatile const uint8_t *)start + (strstr(told, "before") ? -1 : (ptrdiff_t)size));
}
superio_serial_write_effects __real_superio_serial_write(superio_serial *port, uint8_t offset, uint8_t value);
superio_serial_write_effects __wrap_superio_serial_write(superio_serial *port, uint8_t offset, uint8_t value) {
    touch(port, sizeof *port, "port");
    return __real_superio_serial_write(port, offset, value);
}
superio_serial_enqueue_effects __real_superio_serial_enqueue(superio_serial *port, const uint8_t *bytes, size_t count);
superio_serial_enqueue_effects __wrap_superio_serial_enqueue(superio_serial *port, const uint8_t *bytes, size_t count) {
    touch(bytes, count, "bytes");
    return __real_superio_serial_enqueue(port, bytes, count);
}
superio_rtc_read_effects __real_superio_rtc_read(superio_rtc *clock, uint16_t offset, uint64_t now);
superio_rtc_read_effects __wrap_superio_rtc_read(superio_rtc *clock, uint16_t offset, uint64_t now) {
    touch(clock, sizeof *clock, "clock");
    return __real_superio_rtc_read(clock, offset, now);
}
superio_console_read_effects __real_superio_console_read(superio_console *console, uint8_t offset);
superio_console_read_effects __wrap_superio_console_read(superio_console *console, uint8_t offset) {
    touch(console, sizeof *console, "console");
    return __real_superio_console_read(console, offset);
}
"""
TOUCHED = ["sw 00 41", "sq 6869", "cr 3e8 0000", "lr 05"]


def ends_of_touching(program, calls, folder):
    """How a program ends after calls over the functions of TOUCHING, by what is told to them."""
    (folder / "touching.c").write_text(TOUCHING, "ascii")
    wrapped = sorted({f"-Wl,--wrap={name}" for name in re.findall(r"__wrap_(\w+)", TOUCHING)})
    check(["cc", "-I", ROOT / "bindings/c", "-I", folder, ROOT / "tests/c" / program, folder / "touching.c", *wrapped,
           prebuilt(HOST), "-o", folder / "program"], "")
    told = ["nothing", *(f"{name} {side}" for name in at_least(4, re.findall(r', "(\w+)"\);', TOUCHING))
                         for side in ("before", "behind"))]
    return {words: subprocess.run([folder / "program"], input=calls, stdout=subprocess.DEVNULL,
                                  env={**os.environ, "TOUCH": words}).returncode for words in told}


@pytest.mark.needs("cc")
def test_guards_of_replay(tmp_path):
    """An access to a byte beside each struct, and beside the bytes of an enqueue, ends the program, on either side."""
    ends = ends_of_touching("replay.c", "".join(f"{call} = ?\n{call} = ?\n" for call in TOUCHED).encode(), tmp_path)
    assert ends.pop("nothing") == 1 and {*ends.values()} == {-signal.SIGSEGV}, ends


# In place of functions that replay.c calls by itself, beside that of a line: they spoil a part of what they return, if
# SPOILT names it.
SPOILING = """#include <superio.h>
#include <stdlib.h>
#include <string.h>
static bool spoils(const char *part) { return strcmp(getenv("SPOILT"), part) == 0; }
superio_console_work __real_superio_console_refuse(superio_console *console);
superio_console_work __wrap_superio_console_refuse(superio_console *console) {
    superio_console_work work = __real_superio_console_refuse(console);
    work.interrupts += spoils("one interrupt");
    work.interrupts += 2 * spoils("two interrupts");
    work.is_up ^= spoils("the level");
    work.wakes ^= spoils("the wake");
    return work;
}
uint8_t __real_superio_serial_interrupts_due(const superio_serial *port);
uint8_t __wrap_superio_serial_interrupts_due(const superio_serial *port) {
    return spoils("what is due") ? 0 : __real_superio_serial_interrupts_due(port);
}
uint32_t __real_superio_abi(void);
uint32_t __wrap_superio_abi(void) { return __real_superio_abi() + spoils("the interface"); }
size_t __real_superio_serial_save(const superio_serial *port, uint8_t *bytes);
size_t __wrap_superio_serial_save(const superio_serial *port, uint8_t *bytes) {
    size_t count = __real_superio_serial_save(port, bytes);
    bytes[16] ^= spoils("the last register");
    bytes[count - 1] ^= spoils("the last byte");
    return count - spoils("the size");
}
size_t __real_superio_serial_fifo_capacity(const superio_serial *port);
size_t __wrap_superio_serial_fifo_capacity(const superio_serial *port) {
    return __real_superio_serial_fifo_capacity(port) + spoils("the room");
}
"""
# Beside calls, all that they show of it: a console of which an interrupt is refused, by which the loop is woken or not;
# a port that asks for one; and the state of a port, which is put in its own place.
SHOWN_BY = {("ln", "lw 01 02 1", "lr 02", "lw 00 41 1", "lw 00 42 1"): ["one interrupt", "two interrupts", "the level",
                                                                        "the wake", "the interface"],
            ("sw 01 02",): ["what is due", "the interface"],
            ("sq 6869", "sw 01 01", "ss"): ["what is due", "the last register", "the last byte", "the size",
                                            "the room"]}


@pytest.mark.needs("cc")
def test_what_replay_looks_at(tmp_path):
    """Also at what no reply shows: a refused interrupt leaves nothing else to do, and one that is asked for is due."""
    (tmp_path / "spoiling.c").write_text(SPOILING, "ascii")
    wrapped = sorted({f"-Wl,--wrap={name}" for name in re.findall(r"__wrap_(\w+)", SPOILING)})
    words = ["-I", ROOT / "bindings/c", ROOT / "tests/c/replay.c", tmp_path / "spoiling.c", *wrapped, prebuilt(HOST)]
    check(["cc", *words, "-o", tmp_path / "replay"], "")

    def replayed(rows, spoilt="nothing"):
        text, told = "".join(f"{row}\n" for row in rows), {**os.environ, "SPOILT": spoilt}
        ran = run([tmp_path / "replay"], input=text, env=told)
        return ran.returncode, ran.stdout
    for calls, parts in SHOWN_BY.items():
        said = replayed([f"{call} = ?" for call in calls])[1]
        rows = [f"{call} = {got}" for call, got in zip(calls, re.findall("^got: +(.*)$", said, re.M))]
        assert replayed(rows) == (0, f"{len(calls)} calls did the same, 0 did not\n")
        assert [part for part in parts if replayed(rows, part)[0] == 0] == []
    assert {part for parts in SHOWN_BY.values() for part in parts} == {*re.findall(r'spoils\("(.*?)"\)', SPOILING)}


# In place of a call of the library: one that returns something else, once, at the call of this number.
ONCE_OTHER = """#include <stdatomic.h>
#include <stdlib.h>
#include <superio.h>
superio_rtc_read_effects __real_superio_rtc_read(superio_rtc *clock, uint16_t offset, uint64_t now);
superio_rtc_read_effects __wrap_superio_rtc_read(superio_rtc *clock, uint16_t offset, uint64_t now) {
    static atomic_long calls;
    superio_rtc_read_effects read = __real_superio_rtc_read(clock, offset, now);
    read.value += atomic_fetch_add(&calls, 1) == atol(getenv("OTHER"));
    return read;
}
"""


@pytest.mark.needs("cc")
def test_each_thread_is_compared(tmp_path):
    """A call that returned something else, the first or the last of each thread alone, or one of both at once. What is
    compared is the same for fewer calls."""
    text, rounds = (ROOT / "tests/c/threads.c").read_text("ascii"), 5_000
    text, count = re.subn(r"ROUNDS = \d+", f"ROUNDS = {rounds}", text)
    assert count == 1
    (tmp_path / "threads.c").write_text(text, "ascii")
    (tmp_path / "once.c").write_text(ONCE_OTHER, "ascii")
    check(["cc", "-std=c11", "-I", ROOT / "bindings/c", tmp_path / "threads.c", tmp_path / "once.c",
           "-Wl,--wrap=superio_rtc_read", prebuilt(HOST), "-pthread", "-o", tmp_path / "threads"], "")
    for other in (-1, 0, rounds - 1, rounds, 2 * rounds - 1, 2 * rounds, 4 * rounds - 1):
        ran = run([tmp_path / "threads"], env={**os.environ, "OTHER": str(other)})
        assert (ran.returncode, "something else" in ran.stdout) == ((0, False) if other < 0 else (1, True)), other


# A library with each function, in which none does anything, of another binary interface or of the same.
@pytest.mark.needs("cc")
@pytest.mark.parametrize("more", [-1, 0, 1])
def test_another_binary_interface_is_refused(more, tmp_path):
    """The structs of its table are not those of such a library. One that lacks a function is refused, too."""
    [number] = re.findall(r"\Aabi (\d+)", abi.TABLE)
    text = f"unsigned superio_abi(void) {{ return {int(number) + more}; }}\n"
    text += "".join(f"void {function.name}(void) {{}}\n" for function in abi.FUNCTIONS
                    if function.name != "superio_abi")
    for name, code in (("all", text), ("fewer", text[:text.rstrip().rindex("\n") + 1])):
        (tmp_path / f"{name}.c").write_text(code, "ascii")
        check(["cc", "-shared", "-fPIC", tmp_path / f"{name}.c", "-o", tmp_path / f"{name}.so"], "")
    assert refuses(abi.load, tmp_path / "all.so") == (more != 0)
    with pytest.raises(AttributeError):
        abi.load(tmp_path / "fewer.so")


# Programs that call each function

@pytest.mark.needs("cc")
def test_guards_of_each_function(prebuilt_library, tmp_path):
    """So does one in the program that calls each function."""
    (tmp_path / "functions.h").write_text(functions_in_c(), "ascii")
    calls = calls_of_functions(prebuilt_library, random_source("guards"), 20)[0]
    ends = ends_of_touching("every_function.c", calls, tmp_path)
    assert ends.pop("nothing") == 0 and {*ends.values()} == {-signal.SIGSEGV}, ends


@pytest.mark.needs("cc")
def test_each_function_is_compared(prebuilt_library, tmp_path):
    """A call of each function that did something else, in its first byte, its last, or by a byte less or more."""
    (tmp_path / "functions.h").write_text(functions_in_c(), "ascii")
    check(["cc", "-I", ROOT / "bindings/c", "-I", tmp_path, ROOT / "tests/c/every_function.c", prebuilt(HOST), "-o",
           tmp_path / "functions"], "")
    source = random_source("compared")
    calls = [[*encoded_call(source.getrandbits(8), *call)] for call in random_calls(prebuilt_library, source, 1)]
    changes = [lambda did: did, lambda did: bytes([did[0] ^ 1]) + did[1:],
               *(lambda did, place=place: altered(did)[place] for place in range(3))]
    for change in changes:
        changed = (change(did[4:]) for *_, did in calls)
        rows = [b"".join([*call[:-1], len(did).to_bytes(4, "little"), did]) for call, did in zip(calls, changed)]
        ran = subprocess.run([tmp_path / "functions"], input=b"".join(rows), capture_output=True)
        same = len(calls) * (change is changes[0])
        said = f"{same} calls did the same, {len(calls) - same} did not, 0 have a number that is too large\n"
        assert (ran.returncode == 0, ran.stdout.decode().endswith(said)) == (same > 0, True), ran.stdout


# In place of a function that takes bytes and their count: one that ends the program at bytes that are as SHAPE says.
OF_BYTES = """{returned} __real_{name}({parameters});
{returned} __wrap_{name}({parameters}) {{
    end_if({count} > 0, "{name}: some");
    end_if({count} == 0 && {bytes}, "{name}: none");
    end_if(!{bytes}, "{name}: NULL");
    return __real_{name}({arguments});
}}
"""


def of_bytes():
    """Those functions by their names."""
    for name, function in read_header().functions.items():
        for place, other in zip(function.parameters, function.parameters[1:]):
            if place.kind.endswith("uint8_t *") and other.kind == "size_t":
                yield name, OF_BYTES.format(
                    name=name, returned=function.returned, bytes=place.name, count=other.name,
                    parameters=", ".join(f"{kind} {word}" for kind, word, _ in function.parameters),
                    arguments=", ".join(word for _, word, _ in function.parameters))


@pytest.mark.needs("cc")
def test_bytes_of_each_function(prebuilt_library, tmp_path):
    """A function that takes bytes gets some, none, and NULL in their place, so a library that touches NULL is found."""
    functions, source = dict(of_bytes()), random_source("bytes")
    (tmp_path / "functions.h").write_text(functions_in_c(), "ascii")
    (tmp_path / "bytes.c").write_text("\n".join([SHAPES.partition("uint8_t __real")[0], *functions.values()]), "ascii")
    check(["cc", "-I", ROOT / "bindings/c", "-I", tmp_path, ROOT / "tests/c/every_function.c", tmp_path / "bytes.c",
           *(f"-Wl,--wrap={name}" for name in functions), prebuilt(HOST), "-o", tmp_path / "functions"], "")
    calls = b""
    for function in [function for function in abi.FUNCTIONS if function.name in functions] * 100:
        arguments = arguments_of(source, function, [b""])
        did = called(prebuilt_library, function, arguments)
        calls += b"".join(encoded_call(source.getrandbits(8), function, arguments, *did))
    shapes = [f"{name}: {shape}" for name in at_least(5, functions) for shape in ("some", "none", "NULL")]
    for shape in ("nothing", *shapes):
        ran = subprocess.run([tmp_path / "functions"], input=calls, stdout=subprocess.DEVNULL,
                             env={**os.environ, "SHAPE": shape})
        assert ran.returncode == (0 if shape == "nothing" else 9), shape


# Others end the program if a struct has what SHAPE names: the header allows it, and no library of ours leaves it there.
SHAPES = """#include <superio.h>
#include <stdlib.h>
#include <string.h>
static void end_if(bool is_so, const char *name) {
    if (is_so && strcmp(getenv("SHAPE"), name) == 0)
        exit(9);
}
uint8_t __real_superio_serial_interrupts_due(const superio_serial *port);
uint8_t __wrap_superio_serial_interrupts_due(const superio_serial *port) {
    end_if(port->head > 0 && port->head < SUPERIO_SERIAL_FIFO_SIZE, "another place of the oldest byte");
    end_if(port->head >= SUPERIO_SERIAL_FIFO_SIZE, "a place behind the FIFO");
    end_if(port->len > SUPERIO_SERIAL_FIFO_SIZE, "more bytes than fit");
    return __real_superio_serial_interrupts_due(port);
}
superio_rtc_read_effects __real_superio_rtc_read(superio_rtc *clock, uint16_t offset, uint64_t now);
superio_rtc_read_effects __wrap_superio_rtc_read(superio_rtc *clock, uint16_t offset, uint64_t now) {
    end_if(clock->armed > 1, "another number for an alarm");
    return __real_superio_rtc_read(clock, offset, now);
}
"""


@pytest.mark.needs("cc")
def test_shapes_of_replay(tmp_path):
    """States come in each shape that the header allows, so a library that reads one wrongly is found."""
    (tmp_path / "shapes.c").write_text(SHAPES, "ascii")
    wrapped = [f"-Wl,--wrap={name}" for name in re.findall(r" __wrap_(\w+)", SHAPES)]
    check(["cc", "-I", ROOT / "bindings/c", ROOT / "tests/c/replay.c", tmp_path / "shapes.c", *wrapped, prebuilt(HOST),
           "-o", tmp_path / "replay"], "")
    rows = 50 * f"sl 0c000306036108b000 {64 * '61'} = ?\ncl 1 -2 3 1 0 armed = ?\ncr 3e8 0000 = ?\n"
    for name in ("none", *at_least(4, re.findall(r', "([\w ]+)"\);', SHAPES))):
        ran = subprocess.run([tmp_path / "replay"], input=rows, text=True, stdout=subprocess.DEVNULL,
                             env={**os.environ, "SHAPE": name})
        assert ran.returncode == (1 if name == "none" else 9), name


@pytest.mark.needs("node")
def test_scripts_in_javascript():
    words = ["node", str(ROOT / "bindings/js/tests/run_scripts.mjs")]
    script = ["a place", "kr 04\nsr 05\nkr 5\n", True, ["00", "60"], "bad line 3"]
    wrong = [[*script[:3], other, script[4]] for other in altered(script[3])]
    wrong += [[*script[:4], other] for other in altered(script[4])]
    for number, scripts in enumerate([[script, script], [script, *wrong]]):
        ran = subprocess.run(words, input=json.dumps(scripts), capture_output=True, text=True)
        said = f"{2 - number} scripts did the same, {number * len(wrong)} did not\n"
        assert (ran.returncode, ran.stdout.endswith(said)) == (number, True), ran.stdout


# Tests of what a command makes: each with what gives that, and its other arguments

MADE = [(test_module, "embedded", "test_embedded"), (test_module, "declared", "test_declared"),
        (test_module, "required", "test_required"), (test_files, "interface", "test_interface"),
        (test_files, "debian_symbols", "test_interface"),
        (test_header, "source_line", "test_prebuilt_is_of_the_sources")]


@pytest.mark.parametrize("module, maker, test", MADE, ids=[test for *_, test in MADE])
def test_what_is_made(module, maker, test, monkeypatch):
    for other in altered(getattr(module, maker)()):
        monkeypatch.setattr(module, maker, lambda other=other: other)
        assert refuses(getattr(module, test))


def test_bytes_of_the_module(tmp_path, monkeypatch):
    module = (test_module.PREBUILT / test_module.MODULE).read_bytes()
    for contents in [module, *altered(module)]:
        def build(place, contents=contents):
            place.write_bytes(contents)
            return subprocess.CompletedProcess([], 0, "")
        monkeypatch.setattr(test_module, "build", build)
        assert refuses(test_module.test_build, tmp_path) == (contents != module)
    for name, line in test_module.listed().items():
        assert all(refuses(test_module.test_digest, name, other) for other in altered(line))


def test_sums_of_prebuilt(monkeypatch):
    made = test_header.sums_of
    monkeypatch.setattr(test_header, "sums_of", lambda *words: [*made(*words)[:-1], altered(made(*words)[-1])[0]])
    assert refuses(test_header.test_prebuilt_sums)


def test_lines_of_sums_are_replaced(tmp_path):
    """Those of what is no longer there go, also if it is one folder of several, and the others stay."""
    (tmp_path / "a").mkdir()
    (tmp_path / "a/kept").touch()
    (tmp_path / "SUMS").write_text("1  a/kept\n2  a/gone\n3  tests/gone\n4  the sources in docs and tests/tools\n"
                                   "7  the sources in tests/tools and tests/gone\n"
                                   "8  the sources in tests/gone and tests/tools\n", "ascii")
    replace_lines(tmp_path / "SUMS", ["5  a/kept", "6  tests/data"])
    assert (tmp_path / "SUMS").read_text("ascii").splitlines() == [
        "5  a/kept", "4  the sources in docs and tests/tools", "6  tests/data"]


def test_parts_of_the_page_are_replaced():
    """What differs in the last place is packed anew. Another part stays as it is, also if this machine would pack it in
    another way."""
    parts = {"one": b"the first", "two": b"the second"}
    packed = {name: base64.b64encode(zlib.compress(part, 0)).decode() for name, part in parts.items()}
    before = "".join(f'<script type="text/plain" id="{name}">{text}</script>\n' for name, text in packed.items())
    assert page.with_parts(before, parts) == before
    for other in altered(parts["two"]):
        after = page.with_parts(before, {**parts, "two": other})
        assert page.unpacked(after) == {**parts, "two": other}
        assert after.splitlines()[0] == before.splitlines()[0]


# Changes of an installation: of a file, of a link to it, and of a folder. Each bit of a mode counts; without these two
# nothing could be read.
BITS = [1 << place for place in range(12) if 1 << place not in (stat.S_IRUSR, stat.S_IXUSR)]
INSTALLED = {
    "another byte": lambda top: (top / "lib/one").write_bytes(b"onf"),
    "a byte less": lambda top: (top / "lib/one").write_bytes(b"on"),
    "a byte more": lambda top: (top / "lib/one").write_bytes(b"one1"),
    "no file": lambda top: (top / "lib/one").unlink(),
    "one more": lambda top: (top / "lib/.one").touch(),
    "no link": lambda top: (top / "lib/link").unlink(),
    "a link elsewhere": lambda top: (top / "lib/link").unlink() or (top / "lib/link").symlink_to("./one"),
    "a file for a link": lambda top: (top / "lib/link").unlink() or shutil.copy(top / "lib/one", top / "lib/link"),
    "a folder for a link": lambda top: (top / "lib/link").unlink() or (top / "lib/link").mkdir(),
    **{f"bit {bit:o} of a file": lambda top, bit=bit: (top / "lib/one").chmod(0o644 ^ bit) for bit in BITS},
    **{f"bit {bit:o} of a folder": lambda top, bit=bit: (top / "lib").chmod(0o755 ^ bit) for bit in BITS},
}


@pytest.mark.parametrize("change", INSTALLED)
def test_what_is_installed(change, tmp_path):
    for top in (wanted := tmp_path / "wanted", found := tmp_path / "found"):
        (top / "lib").mkdir(parents=True)
        (top / "lib").chmod(0o755)
        (top / "lib/one").write_bytes(b"one")
        (top / "lib/one").chmod(0o644)
        (top / "lib/link").symlink_to("one")

    def compare():
        shared.assert_same(shared.found_in(found), shared.found_in(wanted))
    compare()
    INSTALLED[change](found)
    assert refuses(compare)


def test_a_copy_has_nothing_that_was_built(tmp_path, monkeypatch):
    """A crate in it is built of its sources, and not by versions of other crates that Cargo once chose."""
    crate = tmp_path / "top" / "crate"
    for name in ("Cargo.toml", "src/lib.rs", "Cargo.lock", "target/debug/one"):
        (crate / name).parent.mkdir(parents=True, exist_ok=True)
        (crate / name).touch()
    monkeypatch.setattr(cargo, "DEVICES", crate)
    monkeypatch.setattr(documents, "ROOT", crate.parent)
    documents.copy_repository(tmp_path / "copy")
    copies = [cargo.copied_crate(tmp_path / "crates", crate=crate).folder, tmp_path / "copy" / "crate",
              Copy(crate.parent, tmp_path / "mutants").folder / "crate"]
    for copy in copies:
        names = {path.relative_to(copy).as_posix() for path in copy.rglob("*") if path.is_file()}
        assert {name for name in names if not name.startswith(".cargo/")} == {"Cargo.toml", "src/lib.rs"}, copy


def test_a_copy_has_the_links_of_the_repository(tmp_path, monkeypatch):
    """A release that is made of it would otherwise have none, and nobody would see what becomes of them."""
    root, copy = tmp_path / "root", tmp_path / "copy"
    (root / "folder").mkdir(parents=True)
    (root / "file").write_text("a", "ascii")
    links = {"folder/link": "../file", "link": "folder", "broken": "nowhere"}
    for name, target in links.items():
        (root / name).symlink_to(target)
    monkeypatch.setattr(documents, "ROOT", root)
    documents.copy_repository(copy)
    assert {name: os.readlink(copy / name) for name in links} == links and (copy / "file").read_text("ascii") == "a"


@pytest.mark.parametrize("above", sorted(BUILT))
def test_files_of_a_repository(above, tmp_path, monkeypatch):
    """What was built is none of them, but a repository may be in a folder of such a name."""
    root = tmp_path / above / "repository"
    for name in ("one", "deep/two", ".git/three", *(f"deep/{folder}/four" for folder in BUILT)):
        (root / name).parent.mkdir(parents=True, exist_ok=True)
        (root / name).touch()
    monkeypatch.setattr(documents, "ROOT", root)
    assert sorted(path.as_posix() for path in documents.files()) == ["deep/two", "one"]


# Functions of each kind, and what is read of them: the path, whether it is public, the clauses, and the main one.
FUNCTIONS = {
    "pub fn a()\n    ensures one { '}' == b }\n{}": ("a", True, ("one",), "one"),
    "pub const unsafe fn a()\n    requires { b }\n    ensures { c }\n    ensures* main { d }\n{}": (
        "a", True, ("", "main"), "main"),
    "pub(crate) fn a() {}": ("a", False, (), ""),
    "pub trait A {\n    fn a()\n        ensures one { b }\n        ensures other { c };\n}": (
        "A::a", True, ("one", "other"), ""),
    "impl<T: B> A<T> {\n    fn a() { // fn b()\n    }\n}": ("A::a", False, (), ""),
    'impl<T: B> C for A<T> {\n    fn a() { "fn b() {" }\n}': ("A::a", True, (), ""),
}


@pytest.mark.parametrize("source", FUNCTIONS)
def test_functions_of_a_source(source):
    [found] = functions_of(f"{source}\n")
    assert (str(found), found.is_public, found.clauses, found.main_clause) == FUNCTIONS[source]


def test_erased(tmp_path, monkeypatch):
    """The files of rust/superio are compared with all of what tools/erase makes, in each of the folders."""
    folders = ["crates/superio_core/src", "crates/superio_console/src", "rust/superio/src"]
    for folder in ("tools", *folders):
        shutil.copytree(ROOT / folder, tmp_path / folder, ignore=shutil.ignore_patterns(*BUILT))
    check([sys.executable, tmp_path / "tools" / "erase"], "")
    monkeypatch.setattr(test_crates, "ROOT", tmp_path)
    test_crates.test_erased()
    for folder in (*folders[:2], "rust/superio/src/devices", "rust/superio/src/console"):
        path = max(path for path in (tmp_path / folder).rglob("*") if path.is_file())
        before = path.read_bytes()
        path.write_bytes(before + b"// more\n")
        assert refuses(test_crates.test_erased), path
        path.write_bytes(before)


@pytest.mark.needs("debian-rust")
def test_what_rustc_reads(tmp_path, monkeypatch):
    """tools/recheck --rustc sees what differs at the end of a crate only, or is more or less there."""
    core, left = {"core": rerun.CRATES["core"]}, rerun.left_out()[0]
    words = expanded.read(ROOT / core["core"], left["core"])
    for found in (words, *altered(words)):
        monkeypatch.setattr(expanded, "read", lambda *_, found=found: found)
        compared = expanded.compare(ROOT, "/usr/bin/rustc", core, left, tmp_path)
        if found == words:
            assert [count > 900 for _, count in compared] == [True]
        else:
            with pytest.raises(rust2coq.Refused, match="^rust/superio: rustc reads .*, and here stands "):
                [*compared]


# Compilers' warnings, and counts

# Of -Wall, of -Wextra, and of -pedantic.
WARNED = ["static inline void f(void) { int a; }", "static inline void f(int a) {}", "struct empty {};"]


@pytest.mark.needs("cc")
@pytest.mark.parametrize("line", WARNED)
def test_warnings_of_the_header(line, tmp_path, monkeypatch):
    """A header at which a compiler warns is refused, and so is a warning in the place of another, or of none."""
    [compiler] = test_header.COMPILERS["gcc"].values
    header = (ROOT / "bindings/c/superio.h").read_text("ascii")
    words = [tmp_path if word == ROOT / "bindings" / "c" else word for word in test_header.WARNINGS]
    assert words.count(tmp_path) == 1
    for module in (test_header, test_mistakes):
        monkeypatch.setattr(module, "WARNINGS", words)
    for more, is_warned in (("", False), (line, True)):
        # Once, as the header may be read twice.
        guarded = f"#ifndef MORE\n#define MORE\n{more}\n#endif\n" if more else ""
        (tmp_path / "superio.h").write_text(header + guarded, "ascii")
        for test in (test_header.test_header, test_mistakes.test_mistakes):
            assert refuses(test, compiler, tmp_path) == is_warned


@pytest.mark.needs("cc")
@pytest.mark.parametrize("mistakes", [["LOST"], ["NO_PLACE"], ["LOST", "NO_PLACE"]], ids=" ".join)
def test_mistakes_of_a_call(mistakes, tmp_path, monkeypatch):
    """A call has all its mistakes and no other: that this one loses its result, or that its device is NULL."""
    [compiler] = test_header.COMPILERS["gcc"].values
    name = "superio_serial_interrupts_due"
    function = dict(test_mistakes.FUNCTIONS)[name]
    for wanted in ([], ["LOST"], ["NO_PLACE"], ["LOST", "NO_PLACE"]):
        case = test_mistakes.Case(name, function, [getattr(test_mistakes, mistake) for mistake in wanted],
                                  {"port": "NULL"} if "NO_PLACE" in mistakes else {}, loses="LOST" in mistakes)
        monkeypatch.setattr(test_mistakes, "CASES", [case])
        assert refuses(test_mistakes.test_mistakes, compiler, tmp_path) == (wanted != mistakes)


# What each sanitizer finds: a read behind memory, and a sum that is too large.
FAULTS = ["char *bytes = malloc((size_t)count); return bytes[count] == 1;",
          "int most = INT_MAX; return most + count == 1;"]
FAULT = "#include <limits.h>\n#include <stdlib.h>\nint main(int count, char **words) {{\n    (void)words;\n    {}\n}}\n"
MADE_BY_C = make_words("gcc -xc -std=c99", HOST, "", "")
SANITIZED = {"tests/c": [word for words in MADE_BY_C if str(words).startswith("CC=") for word in words[3:].split()],
             "tests/kvm": ["cc", "-xc", *(word for word in monitors.COMPILERS["host"] if "sanitize" in str(word))]}


@pytest.mark.needs("cc")
@pytest.mark.parametrize("fault", FAULTS)
@pytest.mark.parametrize("folder", SANITIZED)
def test_sanitizers(folder, fault, tmp_path):
    """They are on where tests say so: a program with a fault prints more than it should."""
    (tmp_path / "fault.c").write_text(FAULT.format(fault), "ascii")
    check([*SANITIZED[folder], "-O1", tmp_path / "fault.c", "-o", tmp_path / "fault"], "")
    ran = run([tmp_path / "fault"])
    assert "Sanitizer" in ran.stdout or "runtime error" in ran.stdout
    assert ran.returncode or folder == "tests/kvm", "tests/c looks at the status"


COUNTED = at_least(2, [row for row in test_counts.ROWS if {counts.THEIRS, counts.RUST} <= {*row.numbers}])[0]


def test_counts_of_costs(monkeypatch):
    """One instruction more is allowed, and two are not; nor are other replies, or another number of times."""
    row, column = COUNTED, counts.RUST
    lists, number = len(row.lists()), row.numbers[column]

    def count(instructions, replies=(1, 2), asked=row.asks):
        return {row.name: [counts.Counted(instructions, replies, asked)] * lists}
    for more in range(-3, 4):
        monkeypatch.setattr(test_counts, "counts_of", lambda _, more=more: count(number + more))
        assert refuses(test_counts.test_count, row, column) == (abs(more) > 1)
    for replies in ((1, 2), *map(tuple, [(1, 3), (1,), (1, 2, 2)])):
        def counted(column_name, replies=replies):
            return count(number, (1, 2) if column_name == counts.RUST else replies)
        monkeypatch.setattr(test_counts, "counts_of", counted)
        assert refuses(test_counts.test_replies_are_those_of_the_rust_crate, row, counts.THEIRS) == (replies != (1, 2))
    for more in (-1, 0, 1):
        monkeypatch.setattr(test_counts, "counts_of", lambda _, more=more: count(number, asked=row.asks + more))
        asks = test_counts.test_asks_for_the_hosts_time_only_where_guest_time_matters
        assert refuses(asks, row, column) == (more != 0)


@pytest.mark.parametrize("row", at_least(2, [row for row in test_counts.ROWS if row.numbers.keys() & {
    counts.RUST, counts.CONSOLE}][::9]), ids=lambda row: row.name)
def test_what_is_bold(row):
    """A number is bold from one instruction above its goal on, and not at it."""
    host_time = counts.host_time_of(test_counts.ROWS)
    for column in row.numbers:
        if (goal := counts.goal(row, column, host_time)) is not None:
            for more in (0, 1):
                changed = row._replace(numbers={**row.numbers, column: int(goal) + more})
                assert counts.is_above_goal(changed, column, host_time) == bool(more)
