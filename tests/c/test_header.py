# SPDX-License-Identifier: Apache-2.0 OR BSD-3-Clause
"""The header and the compilers that use it, and the prebuilt libraries, which are those of the sources."""
import re

import pytest
from builds import COMPILERS, compilers_for
from common.rattle import alone
from generators.header import read_header
from generators.libraries import INTERFACE, PREBUILT, build_into, library_sums, source_line, sums_of
from harness import ROOT, check, run

WARNINGS = ["-O1", "-Wall", "-Wextra", "-pedantic", "-I", ROOT / "bindings" / "c"]
# What a line of superio.abi says of a program.
CONDITIONS = [
    (r"abi (\d+)", r"SUPERIO_ABI == \1"),
    (r"constant (\w+) (\d+)", r"\1 == \2ull"),
    (r"field (\w+)\.(\w+) \w+ at (\d+) size (\d+)", r"offsetof(\1, \2) == \3 && sizeof(((\1 *)0)->\2) == \4"),
    (r"struct (\w+) size (\d+)", r"sizeof(\1) == \2"),
]
# What the header itself includes.
STANDARD = "#include <stdbool.h>\n#include <stddef.h>\n#include <stdint.h>\n"
# The names that the header uses for itself.
HIDDEN = ["HAS_ATTRIBUTE", "MUST_USE", "NONNULL", "ACCESS", "COUNTED", "AT_LEAST"]


def test_prebuilt_sums():
    files = [path.relative_to(PREBUILT).as_posix() for path in PREBUILT.glob("*/*")]
    assert sorted((PREBUILT / "SHA256SUMS").read_text("ascii").splitlines()) == sorted(sums_of(PREBUILT, files))


def test_prebuilt_is_of_the_sources():
    assert source_line() in (PREBUILT / "SOURCES").read_text("ascii").splitlines(), "run tools/generate"


@pytest.mark.needs("kit")
def test_prebuilt_is_what_a_build_gives(tmp_path):
    """From the proofs, byte for byte."""
    with alone():
        build_into(tmp_path)
    assert library_sums(tmp_path) == library_sums(PREBUILT)


# The calls that may change a port, and so its line, each after its comment. A console's calls return the level.
OF_LINES = r"(?s)(?:/\*((?:(?!\*/).)*)\*/\n)\w+ (superio_serial_(?:new|read|write|enqueue|character_timeout|load))\("


def test_levels():
    """The comment of each call that may change a port's line says what to do at a level-triggered controller."""
    found = re.findall(OF_LINES, (ROOT / "bindings/c/superio.h").read_text("ascii"))
    assert len(found) == 6 and [name for comment, name in found if "level-triggered" not in comment] == []


# The call that saves a device, and the size that its array has at least.
OF_SAVES = r"(?ms)^\w+ superio_(\w+)_save\([^)]*?SUPERIO_AT_LEAST\((\w+)\)\]\)"


def test_arrays_of_saves():
    """Each has the size of its own device."""
    found = re.findall(OF_SAVES, (ROOT / "bindings/c/superio.h").read_text("ascii"))
    sizes = {name for name in read_header().constants if re.fullmatch(r"SUPERIO_\w+_SAVED_(?:MAX|SIZE)", name)}
    assert len(found) == 3 and {size for _, size in found} == sizes
    assert [name for name, size in found if not size.startswith(f"SUPERIO_{name.upper()}_SAVED_")] == []


def test_version():
    constants = read_header().constants
    version = (ROOT / "VERSION").read_text("ascii").strip()
    assert version == constants["SUPERIO_VERSION"] == ".".join(
        str(constants[f"SUPERIO_VERSION_{part}"]) for part in ("MAJOR", "MINOR", "PATCH"))


@pytest.mark.parametrize("compiler", compilers_for("x86_64", "aarch64"))
def test_header(compiler, tmp_path):
    """The header may be read twice, leaves none of its own names, and is what superio.abi says."""
    said = [[found.expand(condition) for form, condition in CONDITIONS if (found := re.fullmatch(form, line))][0]
            for line in INTERFACE.read_text("ascii").splitlines() if not line.startswith("function ")]
    source = tmp_path / "header.c"
    source.write_text("#include <superio.h>\n" * 2 + "".join(
        f"#ifdef SUPERIO_{name}\n#error SUPERIO_{name}\n#endif\n" for name in HIDDEN) + "".join(
        f"typedef char said_{number}[{condition} ? 1 : -1];\n" for number, condition in enumerate(said)), "ascii")
    for words in {compiler, compiler.replace("c99", "c11")}:
        check([*words.split(), *WARNINGS, "-Werror", "-fsyntax-only", source], "")


@pytest.mark.needs("clang")
@pytest.mark.parametrize("language", ["c", "c++"])
@pytest.mark.parametrize("target", ["i386-linux-gnu", "arm-linux-gnueabi", "mips-linux-gnu", "powerpc-linux-gnu",
                                    "riscv32-linux-gnu"])
def test_header_of_32_bits(target, language, tmp_path):
    """Also where a uint64_t may stand at each fourth byte, as on i386, which makes a console smaller."""
    (tmp_path / "header.h").write_text("#include <superio.h>\n", "ascii")
    check(["clang", f"--target={target}", "-ffreestanding", f"-x{language}", *WARNINGS, "-Werror",
           "-fsyntax-only", tmp_path / "header.h"], "")


@pytest.mark.parametrize("known", ["", "#define __has_attribute(name) 0\n"], ids=["not asked", "none"])
@pytest.mark.parametrize("compiler", COMPILERS.values())
def test_a_compiler_without_attributes(compiler, known, tmp_path):
    """It takes the header, whether it can be asked for attributes or not."""
    source = tmp_path / "header.c"
    source.write_text(f"{STANDARD}#undef __has_attribute\n{known}#define __attribute__ here is none\n"
                      "#include <superio.h>\n", "ascii")
    check([*compiler.split(), "-I", ROOT / "bindings" / "c", "-w", "-fsyntax-only", source], "")


@pytest.mark.parametrize("compiler", COMPILERS.values())
def test_header_changes_nothing_else(compiler, tmp_path):
    """Beside its own constants and two names it leaves no macro, and none of the standard headers' is gone or another.
    What it turns on for itself in the compiler is off again: warnings, packing, and the linkage of C."""
    def macros(name, text):
        (tmp_path / name).write_text(text, "ascii")
        said = check([*compiler.split(), "-I", ROOT / "bindings/c", "-dM", "-E", tmp_path / name])
        return dict(re.findall(r"^#define (\w+(?:\([^)]*\))?) ?(.*)$", said, re.M))

    alone = macros("alone.c", STANDARD)
    after = macros("after.c", f"{STANDARD}#include <superio.h>\n")
    assert alone.items() <= after.items()
    assert after.keys() - alone.keys() - read_header().constants.keys() == {"SUPERIO_H", "SUPERIO_ABI_MATCHES()"}
    said = check([*compiler.split(), "-I", ROOT / "bindings/c", "-E", tmp_path / "after.c"])
    opened = []
    for kind, word in re.findall(r"^#pragma +(\w+(?: +\w+)?)\b.*?\b(push|pop|ignored|warning|error)\b", said, re.M):
        assert word != "pop" or opened.pop() == kind
        opened += [kind] if word == "push" else []
        assert opened or word == "pop", f"{kind} {word} for the rest of the file"
    assert not opened


@pytest.mark.parametrize("compiler", [COMPILERS["g++"], COMPILERS["clang++"]])
def test_functions_after_the_header_are_of_cplusplus(compiler, tmp_path):
    (tmp_path / "own.c").write_text("#include <superio.h>\nint own(int number);\nint own(double number);\n", "ascii")
    check([*compiler.split(), *WARNINGS, "-Werror", "-fsyntax-only", tmp_path / "own.c"], "")


@pytest.mark.needs("clang")
def test_warnings_after_the_header(tmp_path):
    """What the header does not want to hear of itself is said of what comes after it."""
    own = 'void own(int count) __attribute__((diagnose_if(count > 0, "many", "warning")));'
    (tmp_path / "own.c").write_text(f"#include <superio.h>\n{own}\n", "ascii")
    said = run(["clang", *WARNINGS, "-Wgcc-compat", "-fsyntax-only", tmp_path / "own.c"]).stdout
    assert "own.c:2" in said and "[-Wgcc-compat]" in said and "superio.h" not in said, said
