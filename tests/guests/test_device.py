# SPDX-License-Identifier: Apache-2.0 OR BSD-3-Clause
"""The serial port in C that the proofs are about is the library's: both reply alike to random calls, in any state."""
import platform
import re

import pytest
from common.seed import seed
from generators.header import BYTES, read_header
from guest import HERE
from harness import ROOT, at_least, check, run

pytestmark = pytest.mark.needs("cc")

LIBRARY = ROOT / "prebuilt" / f"{platform.machine()}-linux" / "libsuperio_c.a"
CALLS = 5000000


def comparison(folder, text, *words):
    """The program that compares a port whose file has this text, if a compiler is told these words."""
    (folder / "device.c").write_text(text, encoding="utf-8")
    (folder / "compare.c").write_bytes((HERE / "monitor" / "compare.c").read_bytes())
    built = folder / "compare"
    check(["gcc", *words, "-std=gnu11", "-O1", f"-I{ROOT}/bindings/c", folder / "compare.c", LIBRARY, "-o", built])
    return built


def compared(folder, text, *words):
    """What it says."""
    return run([comparison(folder, text, *words), CALLS, seed()]).stdout


DEVICE = (HERE / "monitor" / "device.c").read_text(encoding="utf-8")


# The second is what a verifier gets.
WORDS = pytest.mark.parametrize("words", [[], ["-DABSTRACT_BYTES"]], ids="".join)


@WORDS
def test_same_as_the_library(tmp_path, words):
    said = compared(tmp_path, DEVICE, *words)
    assert re.fullmatch(rf"{CALLS} calls are the same, [1-9]\d* found the FIFO full\n", said)


def assert_found(folder, old, new, *words):
    assert DEVICE.count(old) == 1
    assert "differs" in compared(folder, DEVICE.replace(old, new), *words)


@WORDS
@pytest.mark.parametrize("old, new", [
    ("lower(p, RDA);", ""), ("return p->len > 0 && raise_condition", "return raise_condition"),
    ("iir == (RDA | THRE)", "iir == 0")])
def test_another_port_is_found(tmp_path, old, new, words):
    assert_found(tmp_path, old, new, *words)


@pytest.mark.parametrize("old, new, words", [
    ("% SIZE] = byte", "% 63] = byte", []), ("uint8_t byte = nondet_byte();", "uint8_t byte = 0;", ["-DABSTRACT_BYTES"]),
    ("p->head++;", "p->bytes[p->head++ % SIZE] = 0;", [])])   # no reply depends on the last
def test_other_bytes_are_found(tmp_path, old, new, words):
    assert_found(tmp_path, old, new, *words)


HEADER = read_header()
# The functions of the file, and what each replies: a number, or the numbers of a struct.
FUNCTIONS = {name: function for name, function in HEADER.functions.items() if f" {name}(" in DEVICE}
REPLIES = {(name, field): found for name, function in FUNCTIONS.items() for field, found in (
    [("", "found")] if function.returned in BYTES else
    [(field.name, f"found.{field.name}") for field in HEADER.structs[function.returned]])
    if function.returned != "superio_serial"}   # a new port has a state, and no reply
# In place of a function: one that gives another number in one place, if the program is told so.
ALTERED = """{returned} {name}({parameters}) {{
    {returned} found = own_{name}({arguments});
{changes}
    return found;
}}
"""


def altered(name):
    """The text of such a function."""
    function = FUNCTIONS[name]
    changes = "\n".join(f'    if (is_told("{name} {field}")) {found} ^= 1;' for (of, field), found in REPLIES.items()
                        if of == name)
    return ALTERED.format(name=name, returned=function.returned, changes=changes,
                          parameters=", ".join(f"{kind} {word}" for kind, word, _ in function.parameters),
                          arguments=", ".join(word for _, word, _ in function.parameters))


@WORDS
def test_each_number_of_a_reply_is_compared(tmp_path, words):
    """One that differs is found, also where all others, and the state, are the same."""
    text, names = DEVICE, at_least(8, dict.fromkeys(name for name, _ in REPLIES))
    for name in names:
        # Not where another function of the file calls it, whose reply would differ too.
        text = re.sub(rf"\b{name}(?=\()", f"own_{name}", text)
    told = "#include <stdlib.h>\n#include <string.h>\nstatic bool is_told(const char *reply) {\n" \
           "    return getenv(\"REPLY\") && strcmp(getenv(\"REPLY\"), reply) == 0;\n}\n"
    built = comparison(tmp_path, "\n".join([text, told, *map(altered, names)]), *words)
    for reply in ("nothing", *at_least(13, map(" ".join, REPLIES))):
        ran = run(["env", f"REPLY={reply}", built, 20000, seed()])
        assert (ran.returncode, "differs" in ran.stdout) == ((0, False) if reply == "nothing" else (1, True)), reply
