# SPDX-License-Identifier: Apache-2.0 OR BSD-3-Clause
"""The Makefile at the top, and the libraries that it installs.

Plain `make` installs nothing, `make install` writes the same files for every user, `make uninstall` removes them, and
libraries that are not there are refused before anything is written. `make installcheck`, and the projects of docs/C.md
for CMake and Meson, find what `make install` installs. Each goal that checks fails if what it checks is wrong, at the
last place too.
"""
import os
import platform
import re
import shutil

import pytest
from documents import Document
from generators.header import read_header
from generators.libraries import PREBUILT, SHARED, STATIC, TARGETS
from harness import ROOT, at_least, check, run
from shared import (FLAGS, HAS, HAS_FROM_SOURCE, LACKS, assert_properties, assert_same, finding, found_in, installation,
                    properties_of, symbols)

pytestmark = pytest.mark.needs("make")

# The commands that build the project of a build system, by the file that docs/C.md shows.
PROJECTS = {"cmake": ("CMakeLists.txt", ["cmake -B build", "cmake --build build"]),
            "meson": ("meson.build", ["meson setup build", "meson compile -C build"])}
LIBRARIES = PREBUILT / f"{platform.machine()}-linux"
EXPECTED = (ROOT / "examples/c/expected").read_text(encoding="utf-8")


def listing(folder):
    """All that is in a folder."""
    return sorted(path.relative_to(folder) for path in folder.rglob("*"))


# A library with each property, and beside each one an option of the compiler by which it is there no longer, or is there.
LINKED = ["-shared", "-fPIC", "-fasynchronous-unwind-tables", "-Wl,--no-as-needed,--build-id,-z,now,-z,relro,--eh-frame-hdr",
          f"-Wl,-soname,{SHARED}"]
MARKED = {"x86_64": "-Wl,-z,ibt", "aarch64": "-Wl,-z,force-bti"}[platform.machine()]
TURNED = dict(zip([*HAS, *HAS_FROM_SOURCE, *LACKS], [
    "-Wl,--build-id=none", "-Wl,-z,norelro", "-Wl,-z,lazy", "-Wl,-soname,other", "-Wl,-z,execstack",
    "-Wl,--no-eh-frame-hdr", "-nostdlib", "-Wl,-z,execstack", MARKED, "-lm"], strict=True))


@pytest.mark.needs("cc")
@pytest.mark.parametrize("pattern", TURNED)
def test_each_property_is_seen(pattern, tmp_path):
    """One that a pattern does not find, or finds everywhere, would be seen in no library."""
    found = []
    for place, options in enumerate([[], [TURNED[pattern]]]):
        check(["gcc", *LINKED, "-x", "c", "-", "-o", tmp_path / str(place), *options],
              input="int half(int number) { return number / 2; }\n")
        found.append(properties_of(tmp_path / str(place), TURNED))
    assert found[0] == {*HAS, *HAS_FROM_SOURCE} and pattern in found[0] ^ found[1]


@pytest.mark.needs("cc")
@pytest.mark.parametrize("target", sorted(TARGETS))
def test_properties(target):
    """Of the libraries of the repository."""
    assert_properties(PREBUILT / target / SHARED, ["memcpy", "memmove", "memset"], less=HAS_FROM_SOURCE)
    assert symbols(PREBUILT / target / STATIC, "--defined-only", "--extern-only") == read_header().functions.keys()


def test_size():
    """docs/RELEASE.md says how large the shared library of `prebuilt` is for x86-64, in whole kB."""
    [said] = re.findall(r"^\| Shared library \| (\d+) kB \|", Document("docs/RELEASE.md").text, re.M)
    assert abs(int(said) * 1000 - (PREBUILT / "x86_64-linux" / SHARED).stat().st_size) < 1000


@pytest.mark.parametrize("words", [[], ["-n"]], ids=["make", "make -n"])
def test_plain_make_installs_nothing(words, tmp_path):
    tree = tmp_path / "a tree"
    said = check(["make", "-s", f"DESTDIR={tree}", *words], cwd=ROOT)
    assert "Next, with the same variables: make check-library, and make install" in said
    assert "install -" not in said and not tree.exists()


# What a folder has that is no folder of libraries: nothing, one of the two, a second shared one, or a folder in the
# place of one.
REFUSED = {"nothing": [], "no shared one": [STATIC], "no static one": [SHARED],
           "an older one": [STATIC, "libsuperio.so.1", SHARED], "a newer one": [STATIC, SHARED, "libsuperio.so.999"],
           "another version's": [STATIC, SHARED, f"{SHARED}.0"], "a folder for the static one": [f"{STATIC}/", SHARED],
           "a folder for the shared one": [STATIC, f"{SHARED}/"]}


@pytest.mark.parametrize("names", [pytest.param(None, id="no folder"), *(
    pytest.param(names, id=which) for which, names in REFUSED.items())])
@pytest.mark.parametrize("goal", ["all", "check-library", "install"])
def test_other_libraries_are_refused(goal, names, tmp_path):
    for name in names or []:
        path = tmp_path / "libraries" / name
        path.parent.mkdir(exist_ok=True)
        if name.endswith("/"):
            path.mkdir()
        else:
            path.write_bytes((LIBRARIES / (STATIC if name == STATIC else SHARED)).read_bytes())
    where = "TARGET=nowhere-linux" if names is None else f"LIBRARIES={tmp_path / 'libraries'}"
    ran = run(["make", "-s", goal, f"DESTDIR={tmp_path / 'a tree'}", where], cwd=ROOT)
    assert ran.returncode and "does not have one static and one shared library" in ran.stdout
    assert not (tmp_path / "a tree").exists()


# In place of the make that tests a library: it says which, and ends so.
TESTED = """#!/bin/sh
for word; do case $word in LIBRARY=*) cd tests/c && realpath "${word#LIBRARY=}" ;; esac; done
exit $STATUS
"""


@pytest.mark.parametrize("status", [0, 1])
@pytest.mark.parametrize("named", [*sorted(TARGETS), None])
def test_the_library_that_is_named_is_tested(named, status, tmp_path):
    """The one of a processor, or of a folder, although `prebuilt` has one too. The goal fails if a test of it does."""
    folder = PREBUILT / named if named else tmp_path / "other libraries"
    if not named:
        folder.mkdir()
        for name in (STATIC, SHARED):
            (folder / name).write_bytes((LIBRARIES / name).read_bytes())
    (tmp_path / "make").write_text(TESTED, encoding="ascii")
    (tmp_path / "make").chmod(0o755)
    where = f"TARGET={named}" if named else f"LIBRARIES={folder}"
    ran = run(["make", "-s", "check-library", where, f"MAKE={tmp_path / 'make'}"], cwd=ROOT,
              env={**os.environ, "STATUS": str(status)})
    assert ran.stdout.startswith(f"{folder / STATIC}\n") and (ran.returncode == 0) == (status == 0), ran.stdout
    assert ("all tests passed" in ran.stdout) == (status == 0)


def test_what_to_do_without_libraries():
    """The command that is named then builds them, and what plain `make` names next is there."""
    said = run(["make", "-s", "TARGET=nowhere-linux"], cwd=ROOT).stdout
    [command] = re.findall(r": (make \S+)$", said, re.M)
    planned = check([*command.split(), "-n"], cwd=ROOT)
    assert re.search(r"^cargo build .*bindings/c/from-source", planned, re.M), planned
    assert {*re.findall(r"for: (.*)$", said, re.M)} == {" ".join(sorted(TARGETS))}
    for goal in at_least(2, re.findall(r"\bmake ([a-z-]+)", check(["make", "-s"], cwd=ROOT))):
        check(["make", "-n", goal, "DESTDIR=/nowhere"], cwd=ROOT)


@pytest.mark.parametrize("words", [[], ["PREFIX=/opt/x"]])
def test_what_is_said_of_the_folder_in_which_install_writes(words):
    """It is the one, if no other is given."""
    [said] = re.findall(r"which writes below (\S+) if you give no ", check(["make", "-s", *words], cwd=ROOT))
    assert f'superio.h "{said}/include"\n' in check(["make", "-n", "install", *words], cwd=ROOT)


@pytest.mark.parametrize("target", sorted(TARGETS))
@pytest.mark.parametrize("mask, words, where", [
    ("022", "PREFIX=/usr", ["lib"]), ("077", "PREFIX=/opt/x LIBDIR=lib64", ["lib64"]),
    ("000", "PREFIX=/usr LIBDIR=lib/fancy DOCDIR=share/doc/other", ["lib/fancy", "share/doc/other"])])
def test_install(mask, words, where, target, tmp_path):
    """The same files, with the same modes, whatever a user's files have."""
    install = f"umask {mask} && make -s install DESTDIR='{tmp_path}/a tree' TARGET={target} {words}"
    check(["sh", "-c", install], "", cwd=ROOT)
    prefix = re.search("PREFIX=/(\\S+)", words)[1]
    assert_same(found_in(tmp_path / "a tree" / prefix), installation(PREBUILT / target, *where))


def test_install_again(tmp_path):
    """Over an installation of which nothing fits."""
    for name in installation(LIBRARIES):
        (tmp_path / name).parent.mkdir(parents=True, exist_ok=True)
        (tmp_path / name).write_bytes(b"old")
        (tmp_path / name).chmod(0o600)
    check(["make", "-s", "install", f"DESTDIR={tmp_path}", "PREFIX="], "", cwd=ROOT)
    assert_same(found_in(tmp_path), installation(LIBRARIES))


@pytest.mark.parametrize("others", [["include/other.h", "lib/libother.a", "lib/pkgconfig/other.pc",
                                     "share/licenses/other/LICENSE", "share/doc/superio/docs/other"], []],
                         ids=["beside others", "alone"])
def test_uninstall(others, tmp_path):
    """It removes what install wrote, and leaves what others have there."""
    for name in others:
        (tmp_path / "usr" / name).parent.mkdir(parents=True, exist_ok=True)
        (tmp_path / "usr" / name).touch()
    before = listing(tmp_path)
    for goal in "install", "uninstall":
        check(["make", "-s", goal, f"DESTDIR={tmp_path}", "PREFIX=/usr"], "", cwd=ROOT)
        assert (tmp_path / "usr/lib" / SHARED).exists() == (goal == "install")
    alone = ["usr", "usr/include", "usr/lib", "usr/share"]
    assert listing(tmp_path) == before if others else [*map(str, listing(tmp_path))] == alone


@pytest.mark.parametrize("words", at_least(5, [
    "PREFIX=", "PREFIX=/opt/x LIBDIR=lib64", "LIBDIR=lib/fancy", "PREFIX=/usr DOCDIR=share/doc/own",
    *(f"PREFIX=/usr LIBDIR=lib/fancy DOCDIR=doc/own TARGET={target}" for target in sorted(TARGETS))]))
def test_uninstall_elsewhere(words, tmp_path):
    """With the same variables it leaves no file, and no folder of pages, licenses or files for pkg-config."""
    for goal in "install", "uninstall":
        check(["make", "-s", goal, f"DESTDIR={tmp_path / 'a tree'}", *words.split()], "", cwd=ROOT)
        left = listing(tmp_path)
        assert any((tmp_path / path).is_file() for path in left) == (goal == "install"), left
    assert not {path.name for path in left} & {"superio", "own", "docs", "examples", "licenses", "pkgconfig"}


@pytest.fixture(scope="module")
def installed(tmp_path_factory):
    """An installation in a folder of its own kind, and the environment that finds it."""
    folder = tmp_path_factory.mktemp("installed")
    check(["make", "-s", "install", f"DESTDIR={folder}", "PREFIX=/usr", "LIBDIR=lib/fancy"], "", cwd=ROOT)
    return finding(folder / "usr/lib/fancy")


@pytest.mark.needs("cc", "pkg-config")
def test_pkg_config(installed, tmp_path):
    """And nothing is left where temporary files go."""
    check(["make", "-s", "installcheck"], "", cwd=ROOT, env={**installed, "TMPDIR": f"{tmp_path}"})
    assert not [*tmp_path.iterdir()]


@pytest.mark.needs("pkg-config")
@pytest.mark.parametrize("name", FLAGS)
def test_version(installed, name):
    check(["pkg-config", "--modversion", name], f"{(ROOT / 'VERSION').read_text('ascii')}", env=installed)


@pytest.mark.needs("cc", "pkg-config")
@pytest.mark.parametrize("build", [pytest.param(name, marks=pytest.mark.needs(name)) for name in PROJECTS])
def test_project(installed, build, tmp_path):
    """The lines of docs/C.md build a copy of its program."""
    name, commands = PROJECTS[build]
    page = Document("docs/C.md")
    [lines] = [block.lines for block in page.blocks if block.language == build]
    assert f"`{' && '.join(commands)}`" in page.prose and f"the file {name}" in page.prose
    (tmp_path / name).write_text("\n".join([*lines, ""]), encoding="utf-8")
    shutil.copy(ROOT / "examples/console.c", tmp_path)
    for command in commands:
        check(command.split(), cwd=tmp_path, env=installed)
    check([tmp_path / "build" / "console"], "HELLO\n", env=installed, input="hello\n")


# What a program may print in place of the text that it should, each with its status.
WRONG = at_least(5, [(EXPECTED[:-1], 0), (EXPECTED[:-2] + "2\n", 0), (EXPECTED + "\n", 0), ("", 0), (EXPECTED, 3)])


@pytest.mark.needs("pkg-config")
@pytest.mark.parametrize("flag", FLAGS.values())
@pytest.mark.parametrize("printed, status", [*WRONG, (EXPECTED, 0)], ids=lambda value: str(value)[-8:])
def test_installcheck_fails(installed, flag, printed, status, tmp_path):
    """If the machine over one of the libraries does something else. This compiler makes a machine that does, and a good
    one over the other library."""
    (tmp_path / "printed").write_text(printed, encoding="utf-8")
    good = ROOT / "examples/c/expected"
    (tmp_path / "cc").write_text(f"""#!/bin/sh -e
while [ "$1" != -o ]; do [ "$1" != {flag} ] || wrong=1; shift; done
echo '#!/bin/sh' > "$2"
if [ "$wrong" ]; then echo 'cat {tmp_path}/printed; exit {status}' >> "$2"; else echo 'cat {good}' >> "$2"; fi
chmod +x "$2"
""", encoding="ascii")
    (tmp_path / "cc").chmod(0o755)
    ran = run(["make", "-s", "installcheck", f"CC={tmp_path / 'cc'}"], cwd=ROOT, env=installed)
    assert (ran.returncode == 0) == ((printed, status) == (EXPECTED, 0)), ran.stdout


@pytest.mark.parametrize("goal, program", [("check", "tools/check"), ("from-source", "cargo")])
def test_words_of_a_command(goal, program, tmp_path):
    """The goals that only run a program pass on what they are given, and its failure."""
    (tmp_path / "tools").mkdir()
    called = tmp_path / program
    called.write_text("#!/bin/sh\necho $# \"$@\"; exit 3\n", encoding="ascii")
    called.chmod(0o755)
    ran = run(["make", "-s", "-C", tmp_path, "-f", ROOT / "Makefile", goal, f"CARGO={called}",
               "OPTIONS=--without kit,node"])
    wanted = {"check": "2 --without kit,node\n", "from-source": "5 build --release --offline --manifest-path "
                                                             "bindings/c/from-source/Cargo.toml\n"}[goal]
    assert ran.stdout.startswith(wanted) and ran.returncode == 2, ran.stdout


# What `make all` and `make check-library` write, and what others have beside it.
BUILT = "bindings/c/from-source"
WRITTEN = ["out/one", "out/two", f"{BUILT}/target/release/libsuperio_c.a", f"{BUILT}/Cargo.lock"]
KEPT = ["out/other", "out/packages/environment", "out/one.txt", "tests/c/one.c", "examples/c/two.c", "target/other",
        f"{BUILT}/Cargo.toml", f"{BUILT}/src/lib.rs", "bindings/c/superio.h"]


@pytest.mark.parametrize("before", [[*WRITTEN, *KEPT], KEPT, [name for name in KEPT if not name.startswith("out/")]],
                         ids=["after a build", "again", "in a fresh checkout"])
def test_clean(before, tmp_path):
    """It removes what the goals wrote that build and check, and nothing else."""
    for name in before:
        (tmp_path / name).parent.mkdir(parents=True, exist_ok=True)
        (tmp_path / name).touch()
    check(["make", "-s", "-C", tmp_path, "-f", ROOT / "Makefile", "clean"], "")
    found = {path.relative_to(tmp_path).as_posix() for path in tmp_path.rglob("*") if path.is_file()}
    assert found == {*before} - {*WRITTEN} and not (tmp_path / BUILT / "target").exists()


def test_goals():
    """docs/RELEASE.md has each goal, and no other."""
    [phony] = re.findall(r"^\.PHONY: (.*)$", (ROOT / "Makefile").read_text(encoding="utf-8"), re.M)
    table = re.findall(r"^\| `([a-z-]+)`(?:, the default)? \|", Document("docs/RELEASE.md").text, re.M)
    assert sorted(table) == sorted(phony.split())
