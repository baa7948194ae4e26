# SPDX-License-Identifier: Apache-2.0 OR BSD-3-Clause
"""Each place of places.py is found where it is there, and not elsewhere: a wrong one would leave out all tests that
need it, and nobody would see that."""
import fcntl
import os
import platform
import re
import shutil
import sys
from functools import lru_cache
from glob import glob

import pytest
import toolchains
from common.requirements import TOOLS, is_there
from documents import documents
from harness import ROOT, at_least, check, run
from places import PLACES, is_place

sys.path.append(str(ROOT / "tests" / "guests"))
import cbmc  # noqa: E402
import polling_drivers  # noqa: E402
import sources  # noqa: E402

LINES = {name: what for name, what in PLACES.items() if what.startswith("import ")}
# What the numbers of KVM's calls are, as its header has them.
NUMBERS = """#include <linux/kvm.h>
#include <stdio.h>
int main(void) { printf("%u %u\\n", (unsigned)KVM_CREATE_VM, (unsigned)KVM_CREATE_IRQCHIP); }
"""
# What these print of their version, with the only option at which they do.
COMPILERS = {"rustc": ("--version", "rustc {} (0123abcd 2026-01-01)"), "gcc": ("-dumpfullversion", "{}")}
RECORDED = {path.name.removesuffix(".sha256").partition("-")[::2] for path in (ROOT / "tests/guests").glob("*.sha256")}


@pytest.fixture(autouse=True)
def fresh():
    is_there.cache_clear()
    yield
    is_there.cache_clear()


def holds(name):
    """Whether the line of a place says, here in this process, that it is there."""
    try:
        exec(LINES[name], {})
    except (AssertionError, OSError):
        return False
    return True


def stand_in(folder, name, script):
    (folder / name).write_text(f"#!/bin/sh\n{script}\n", "utf-8")
    (folder / name).chmod(0o755)


@pytest.mark.needs("cc")
def test_kvm(tmp_path, monkeypatch):
    """Its calls are those of the header, on the file that the monitor opens. Where one fails, it is not there."""
    check(["cc", "-x", "c", "-", "-o", tmp_path / "numbers"], "", input=NUMBERS)
    make_machine, make_controller = map(int, check([tmp_path / "numbers"]).split())
    [opened] = re.findall(r'open\("([^"]+)", O_RDWR', (ROOT / "examples/kvm/machine.c").read_text("utf-8"))
    calls = []
    monkeypatch.setattr(os, "open", lambda *words: calls.append(words) or 10)
    monkeypatch.setattr(fcntl, "ioctl", lambda *words: calls.append(words) or 10 + len(calls))
    assert holds("KVM")
    assert calls == [(opened, os.O_RDWR), (10, make_machine), (12, make_controller)]
    for name in ("open", "ioctl"):
        def refuse(*_):
            raise OSError
        monkeypatch.setattr(os if name == "open" else fcntl, name, refuse)
        assert not holds("KVM")


@pytest.mark.needs("cc")
def test_system(tmp_path):
    """A program that is compiled here names its loader: it is that file on x86-64 alone."""
    check(["cc", "-x", "c", "-", "-o", tmp_path / "program"], "", input="int main(void) { return 0; }\n")
    [loader] = re.findall(r"interpreter: (.+)\]", check(["readelf", "-lW", tmp_path / "program"]))
    assert (loader == PLACES["Linux on x86-64"]) == (platform.machine() == "x86_64")
    assert is_there(PLACES["Linux on x86-64"]) == (loader == PLACES["Linux on x86-64"])


@pytest.mark.parametrize("name", [name for name in PLACES if name.split()[0] in COMPILERS])
def test_version(name, tmp_path, monkeypatch):
    monkeypatch.setenv("PATH", f"{tmp_path}:/usr/bin:/bin")
    program, version = name.split()
    option, said = COMPILERS[program]
    for found in (version, f"{version}0", version[:-2], f"1{version}"):
        stand_in(tmp_path, program, f'[ "$*" = "{option}" ] && echo "{said.format(found)}"')
        assert holds(name) == (found == version)
    stand_in(tmp_path, program, "exit 127")
    assert not holds(name)


@pytest.mark.parametrize("name", at_least(1, [name for name in PLACES if re.fullmatch(r"[a-z]+", PLACES[name])]))
def test_command(name, tmp_path, monkeypatch):
    monkeypatch.setenv("PATH", str(tmp_path))
    assert not is_there(PLACES[name])
    is_there.cache_clear()
    stand_in(tmp_path, name.lower(), "")
    assert is_there(PLACES[name])


@pytest.mark.parametrize("name", at_least(2, [name for name in PLACES if PLACES[name].startswith("$")]))
def test_variable(name, monkeypatch):
    """Documents say how it is set."""
    variable = PLACES[name][1:]
    assert variable in name.split() and any(f"{variable}=" in document.text for document in documents())
    for is_set in (True, False):
        monkeypatch.setenv(variable, "1") if is_set else monkeypatch.delenv(variable)
        is_there.cache_clear()
        assert is_there(PLACES[name]) == is_set


@pytest.mark.parametrize("name", at_least(5, [name for name in LINES if "sums in tests/guests" in name]))
def test_source(name, monkeypatch):
    """A version of it is there whose sums the repository has, or another one, or none."""
    def version(source):
        asked.append(source)
        series = source.partition("-")[2] or ("6.1" if source == "linux" else "")
        return min(of for package, of in RECORDED if package == source.partition("-")[0] and of.startswith(series))
    asked = []
    monkeypatch.setattr(sources, "version", version)
    assert holds(name) and asked
    if number := re.search(r"Linux (\S+)", name):
        assert asked == [f"linux-{number[1]}"]
    for other in ("0", None):
        monkeypatch.setattr(sources, "version", lambda _, other=other: other)
        assert not holds(name)
    needed = {driver.source for driver in polling_drivers.DRIVERS.values()} if "each driver" in name else {*asked}
    for other in needed:   # of several, each has to be there
        monkeypatch.setattr(sources, "version", lambda name, other=other: None if name == other else version(name))
        assert not holds(name), other


def test_cbmc(tmp_path, monkeypatch):
    monkeypatch.setattr(cbmc, "FOLDER", tmp_path / "none")
    monkeypatch.setenv("PATH", str(tmp_path))
    for version in ("6.4.0 (cbmc-6.4.0)", "5.95.1 (cbmc-5.95.1)"):
        stand_in(tmp_path, "cbmc", f"echo '{version}'")
        assert holds("CBMC 6") == version.startswith("6.")
    (tmp_path / "cbmc").unlink()
    assert not holds("CBMC 6")


@pytest.mark.parametrize("name", at_least(3, [name for name in LINES if name.startswith("Rust for ")]))
def test_target(name, monkeypatch):
    own = name.removeprefix("Rust for ")
    monkeypatch.setattr(toolchains, "toolchain_for", lambda target: "a toolchain" if target == own else None)
    assert holds(name)
    monkeypatch.setattr(toolchains, "toolchain_for", lambda _: None)
    assert not holds(name)


@pytest.mark.parametrize("of_path, debians, chosen", [
    (True, True, "path"), (True, False, "path"), (False, True, "debian"), (False, False, None)])
def test_toolchain_for(of_path, debians, chosen, tmp_path, monkeypatch):
    """That of PATH if it can build for the target, or else Debian's, each with the Cargo beside its compiler."""
    for name, has_target in (("path", of_path), ("debian", debians)):
        folder = tmp_path / name
        (folder / "one" if has_target else folder).mkdir(parents=True)
        stand_in(folder, "cargo", "")
        stand_in(folder, "rustc", f"""case "$*" in
--version) echo "rustc {name} (0123abcd 2026-01-01)" ;;
"--print target-libdir --target one") echo {folder}/one ;;
*) exit 1 ;;
esac""")
    monkeypatch.setenv("PATH", str(tmp_path / "path"), prepend=os.pathsep)
    monkeypatch.setattr(toolchains, "DEBIAN_RUSTC", tmp_path / "debian" / "rustc")
    words = chosen and (f"{tmp_path}/{chosen}/rustc", f"{tmp_path}/{chosen}/cargo", chosen)
    assert toolchains.toolchain_for("one") == words
    assert toolchains.toolchain_for("other") is None


def interpreter(command):
    """What runs a command of this machine that is a script, if it is one."""
    with open(shutil.which(command), "rb") as file:
        line = file.readline().decode("latin-1")
    if not line.startswith("#!"):
        return None
    words = line.removeprefix("#!").split()
    return words[1] if words[0].endswith("/env") else os.path.basename(words[0])


@pytest.mark.parametrize("tool", TOOLS)
def test_what_runs_a_tool_is_needed_with_it(tool):
    """So npm without Node names Node's package. Debian always has the other interpreters."""
    there = [what for what in TOOLS[tool] if what[0] != "/" and " " not in what and shutil.which(what)]
    assert {interpreter(command) for command in there} <= {None, "sh", "bash", "perl", "python3", *TOOLS[tool]}


def path_of(what):
    """Where what a tool needs is, or `None`."""
    if what.startswith("import "):
        return path_of_module(what.removeprefix("import ").split(", ")[0])
    return next(iter(glob(what)), None) if what.startswith("/") else shutil.which(what)


@lru_cache(maxsize=None)
def path_of_module(name):
    ran = run(["/usr/bin/python3", "-c", f"import {name}; print({name}.__file__)"])
    return ran.stdout.strip() or None


@pytest.fixture(scope="module")
def packaged():
    """Of what tools need, the paths that are files of packages of Debian's, each with its package. These are asked once
    for all."""
    paths = {path for needed in TOOLS.values() for path in map(path_of, needed) if path}
    said = run(["dpkg-query", "--search", *sorted(paths)]).stdout
    return {path: package for package, path in re.findall(r"^([^\s:]+)(?::\w+)?: (/.*)$", said, re.M)}


@pytest.fixture(scope="module")
def installed():
    """The names of the packages that are there, and of those in whose place they are."""
    said = run(["dpkg-query", "--showformat=${Package}, ${Provides}\n", "--show"]).stdout
    return {name.split(" ")[0] for name in re.split(", |\n", said)}


def comes_with(package, names):
    """Whether a package is one of these or stands in the place of one, or one of these needs it."""
    said = check(["dpkg-query", "--showformat=${Package}, ${Provides}", "--show", package])
    return bool({*names} & {name.split(" ")[0] for name in said.split(", ")}) or package in check(
        ["apt-cache", "depends", "--recurse", "--installed", "--important", *names]).split()


@pytest.mark.parametrize("tool", TOOLS)
def test_a_tool_comes_with_its_package(tool, packaged, installed):
    """Where a package has put what a tool needs, the packages that are named for it are there, or another in their
    place, and it is one of them or comes with one. One of another architecture is only unpacked."""
    for what, packages in TOOLS[tool].items():
        if path_of(what) in packaged:
            assert not {package for package in packages.split() if ":" not in package} - installed, what
            assert comes_with(packaged[path_of(what)], packages.split()), what


@pytest.mark.parametrize("line, is_found", [("import os", True), ("import os; assert False", False),
                                            ("import os; os.open('/nothing', 0)", False)])
def test_what_a_line_says(line, is_found, monkeypatch):
    monkeypatch.setitem(PLACES, "it", line)
    assert is_place.__wrapped__("it") == is_found


@pytest.mark.parametrize("line", ["import os; os.nothing", "import nothing_like_it", "import os; unknown",
                                  "import os; ("])
def test_a_line_that_is_wrong(line, monkeypatch):
    """It fails, so that no test is left out for it."""
    monkeypatch.setitem(PLACES, "it", line)
    with pytest.raises(ValueError, match="PLACES of places.py: it"):
        is_place.__wrapped__("it")
