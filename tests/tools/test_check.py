# SPDX-License-Identifier: Apache-2.0 OR BSD-3-Clause
"""tools/check, .ci/run, tools/recheck and tools/install-packages in a copy, with stand-ins for all that they start.
They fail if a part fails, is missing or cannot be installed, and say so."""
import os
import platform
import re
import shutil
import sys
import time

import pytest
from common.rattle import CRATES, PROGRAMS, TESTS, path_of
from harness import ROOT, at_least, run

COPIED = ["tools/check", "tools/recheck", "tools/install-packages", ".ci/run", "tools/common"]
BASICS = ["bash", "cat", "cp", "dirname", "env", "mkdir", "rm", "sed", "sh", "touch", "uname"]
# Each stand-in writes its name and its words into the file `log`. Those of the parts pass 3, 3 for each of two crates,
# and 4 tests.
STAND_INS = {
    "rt": "echo 'test result: ok. 1 passed; 0 failed'; echo 'rt: ok; must-fail edits: 1 refused; all'; echo '2 passed'",
    "cargo": "echo 'test result: ok. 3 passed; 0 failed; 0 ignored'",
    "rustc": "", "cc": "", "gcc": "", "coqc": "", "id": "echo 0", "dpkg": "echo amd64",
    # For root it installs what is named, by making the command that is missing. Without a time to wait for another
    # apt-get it fails, since there is one, and if it would not try again, since a mirror is busy. So it does if it or a
    # package would ask its user something, if it would install what is only recommended, or if it would write where its
    # user may not, or read as a user who may not.
    "apt-get": """
case "$*" in
*DPkg::Lock::Timeout=[1-9][0-9][0-9]*) ;;
*) echo "E: Could not get lock" >&2; exit 100 ;;
esac
case "$*" in
*Acquire::Retries=[1-9]*) ;;
*) echo "E: Failed to fetch" >&2; exit 100 ;;
esac
words=" $* "
for option in --yes --no-install-recommends; do
    case "$words" in
    *" $option "*) ;;
    *) echo "Do you want to continue?" >&2; exit 100 ;;
    esac
done
for kept in State::Lists="$TOP/out/apt/lists" Cache="$TOP/out/apt/cache"; do
    case "$words" in
    *" Dir::$kept "*) ;;
    *) echo "E: Unable to lock directory" >&2; exit 100 ;;
    esac
done
for folder in lists cache/archives; do
    [ -d "$TOP/out/apt/$folder/partial" ] || { echo "E: Directory partial is missing" >&2; exit 100; }
done
case "$words" in
*" APT::Sandbox::User=0 "* | *" APT::Sandbox::User=somebody "*) ;;
*) echo "E: Could not open file" >&2; exit 100 ;;
esac
case "$words$DEBIAN_FRONTEND" in
*" --simulate "* | *" install "*" noninteractive") ;;
*" install "*) echo "Please select the geographic area in which you live" >&2; exit 100 ;;
esac
case "$words" in
*" install --simulate "*) for package in ${words##* --simulate }; do echo "Inst $package (1)"; done ;;
*" download --print-uris "*) ;;
*" download "*) for package in ${words##* download }; do touch "$package.deb"; done ;;
*" install "*) cp "$AWAY"/* "$HERE" ;;
esac""",
    # Into the copy alone: a faulty tool must not reach the programs of the machine that tests it.
    "dpkg-deb": 'case "$3" in "$TOP"/*) mkdir -p "$3/usr/bin"; cp "$AWAY"/* "$3/usr/bin" ;; esac',
}
PYTEST = """import sys
if __name__ == "__main__":
    open("{log}", "a").write(" ".join(["pytest", *sys.argv[1:]]) + "\\n")
    print("{said}", flush=True)
    sys.exit({status})
"""
RERUN = """import shutil, sys
def main(said):
    print(*sys.argv[1:], shutil.which("coqc"))
    sys.exit({status})
"""
# By which tools/check hands over what `rt ci` built.
RTLIB = """import os
class Crate:
    def __init__(self, folder):
        self.folder = folder
    def stamp(self):
        return "stamp of " + os.path.basename(self.folder)
def crates_below(root):
    open("{made}", "w").close()
    return [Crate(entry.path) for entry in os.scandir(os.path.join(root, "crates"))]
"""
PASSED = "13 passed, 0 failed, 0 skipped"
TABLE = '\nTOOLS = {tool: TOOLS[tool] for tool in ("kit", "pytest", "cargo", "coq")}\n'


class Machine:
    """A copy of the tools in which they need few others, on a machine that has these stand-ins alone."""

    def __init__(self, folder):
        self.top, self.bin, self.away = folder / "top", folder / "bin", folder / "away"
        self.stubs, self.log, self.system = folder / "stubs", folder / "log", folder / "os-release"
        for name in COPIED:
            copy = shutil.copytree if (ROOT / name).is_dir() else shutil.copy
            (self.top / name).parent.mkdir(parents=True, exist_ok=True)
            copy(ROOT / name, self.top / name)
        for name in ("rust/vm-superio", "rust/superio", "crates/a/must-fail", "crates/a/src", "recheck"):
            (self.top / name).mkdir(parents=True)
        (self.top / "crates/a/must-fail/a.edit").touch()
        (self.top / "crates/a/src/lib.rt").write_text("mod a {\n    #[test]\n}\n", "utf-8")
        self.edit("tools/common/requirements.py", "\n\n\n@lru_cache", f"\n{TABLE}\n\n@lru_cache")
        self.edit("tools/common/installing.py", '"/etc/os-release"', f'"{self.system}"')
        for path in (self.bin, self.away, self.stubs):
            path.mkdir()
        for command in BASICS:
            (self.bin / command).symlink_to(shutil.which(command))
        self.handed_over = folder / "handed over"
        (self.bin / "rtlib.py").write_text(RTLIB.format(made=self.handed_over), "utf-8")
        self.stand_in("python3", f'exec {sys.executable} "$@"')
        for name, script in STAND_INS.items():
            self.stand_in(name, script)
        for name in ("xdist", "hypothesis"):
            (self.stubs / f"{name}.py").touch()
        self.pytest("4 passed in 1s", 0)
        self.recheck(0)
        self.runs("Debian", "12")

    def edit(self, name, old, new):
        text = (self.top / name).read_text("utf-8")
        assert text.count(old) == 1
        (self.top / name).write_text(text.replace(old, new), "utf-8")

    def stand_in(self, name, script):
        path = self.bin / name
        path.write_text(f'#!/bin/sh\necho "{name} $*" >> {self.log}\n{script}\n', "utf-8")
        path.chmod(0o755)

    def pytest(self, said, status):
        (self.stubs / "pytest.py").write_text(PYTEST.format(log=self.log, said=said, status=status), "utf-8")

    def recheck(self, status):
        (self.top / "recheck/rerun.py").write_text(RERUN.format(status=status), "utf-8")

    def runs(self, system, version):
        self.system.write_text(f'ID={system.lower()}\nVERSION_ID="{version}"\n', "utf-8")

    def lacks(self, *names):
        """These are where apt-get gets them."""
        for name in names:
            shutil.move(self.bin / name, self.away / name)

    def run(self, tool, *words, **options):
        """Its status, what it printed, and what it called, apart from Python."""
        self.log.write_text("", "utf-8")
        ran = run([self.top / tool, *words], **options, env={
            "PATH": str(self.bin), "PYTHONPATH": str(self.stubs), "TEST_SEED": "1", "TOP": str(self.top),
            "HERE": str(self.bin), "AWAY": str(self.away), "PYTHONDONTWRITEBYTECODE": "1", "HOME": os.devnull})
        called = [line for line in self.log.read_text("utf-8").splitlines() if not line.startswith("python3 ")]
        return ran.returncode, ran.stdout, called


@pytest.fixture
def machine(tmp_path):
    return Machine(tmp_path)


def installs(called):
    return [line for line in called if line.startswith(("apt-get", "dpkg-deb"))]


@pytest.mark.parametrize("tool", ["tools/check", ".ci/run"])
def test_all_pass(tool, machine):
    status, said, called = machine.run(tool)
    assert (status, said.splitlines()[-1]) == (0, PASSED), said
    assert called[0].startswith("rt ")
    assert sorted(line.split()[0] for line in called) == ["cargo", "cargo", "pytest", "rt"]
    assert said.count("\n== cargo test\ntest result: ok. 3 passed; 0 failed; 0 ignored\n") == 2
    assert machine.handed_over.exists()


def test_what_is_handed_over(machine):
    """Each library has the stamp of its sources, and each program is no older than now. What was not built stays so."""
    crates = machine.top / "crates"
    libraries, programs = [crates / name / "out" / "rlib" for name in ("a", "b", "c")], [
        crates / path.relative_to(CRATES) for path in at_least(4, [*map(path_of, PROGRAMS), *TESTS.values()])]
    for path in [*libraries[:2], *(path.parent for path in programs)]:
        path.mkdir(parents=True)
    for path in (libraries[0] / "stamp", *programs[1:]):
        path.touch()
        os.utime(path, (1000, 1000))
    libraries[2].parent.parent.mkdir()
    start = time.time() - 1
    assert machine.run("tools/check")[0] == 0
    stamps = [path.read_text("utf-8") for path in sorted(crates.glob("*/out/rlib/stamp"))]
    assert stamps == ["stamp of a", "stamp of b"]
    assert not programs[0].exists() and all(path.stat().st_mtime > start for path in programs[1:])


def test_what_is_compiled_is_kept(machine):
    """For the other workers of pytest, also on a machine that otherwise keeps nothing."""
    machine.pytest("4 passed in 1s", "sys.dont_write_bytecode")
    status, said, _ = machine.run("tools/check")
    assert (status, said.splitlines()[-1]) == (0, PASSED), said


FAILING = {
    **{f"{part} ends by `{end}`, and says that all passed": lambda machine, part=part, end=end: machine.stand_in(
        part, f"{STAND_INS[part]}; {end}") for part in ("rt", "cargo") for end in ("exit 1", "exit 255", "kill -9 $$")},
    "rt ci says so": lambda machine: machine.stand_in("rt", STAND_INS["rt"] + ", 1 failed"),
    "rt ci tries no edit": lambda machine: machine.stand_in("rt", "echo 'test result: ok. 1 passed'; echo 2 passed"),
    **{f"the tests of bindings/{crate} fail": lambda machine, crate=crate: machine.stand_in(
        "cargo", f"{STAND_INS['cargo']}; case $PWD in */{crate}) exit 101; esac")
       for crate in ("superio", "vm-superio")},
    "cargo tests nothing": lambda machine: machine.stand_in("cargo", ""),
    "pytest ends badly": lambda machine: machine.pytest("4 passed in 1s", 1),
    "pytest says so": lambda machine: machine.pytest("1 failed, 4 passed in 1s", 0),
    "pytest is killed": lambda machine: machine.pytest(
        "4 passed in 1s", "__import__('os').kill(__import__('os').getpid(), 9)"),
    "pytest runs nothing": lambda machine: machine.pytest("no tests ran in 1s", 0),
    "nothing passes": lambda machine: (machine.stand_in("rt", "exit 1"), machine.stand_in("cargo", "exit 101"),
                                       machine.pytest("", 2)),
}


@pytest.mark.parametrize("tool, failing", [*(("tools/check", failing) for failing in FAILING),
                                           (".ci/run", "pytest ends badly")])
def test_a_part_fails(tool, failing, machine):
    FAILING[failing](machine)
    status, said, called = machine.run(tool)
    assert status == 1 and re.fullmatch(r"\d+ passed, [1-9] failed, 0 skipped", said.splitlines()[-1]), said
    assert len(called) == 4, "the others are run"
    assert machine.handed_over.exists() != failing.startswith(("rt ", "nothing")), "what failed is not handed over"


LACKING = {
    "kit": ("rt", "rt is missing: install the Rattle kit, which is no package, or run with --without kit"),
    "cargo": ("cargo", "cargo is missing: install cargo, or run with --without cargo"),
}


@pytest.mark.parametrize("tool", LACKING)
def test_a_part_is_missing(tool, machine):
    command, advice = LACKING[tool]
    machine.lacks(command)
    status, said, called = machine.run("tools/check", "--no-install")
    assert status == 1 and advice in said.splitlines() and " 1 failed" in said.splitlines()[-1], said
    assert not installs(called) and any(line.startswith("pytest ") for line in called)
    status, said, called = machine.run("tools/check", f"--without={tool}")
    assert status == 0 and not installs(called), said
    assert re.fullmatch(rf"NOT TRIED: .*, since --without names {tool}", said.splitlines()[-2])


@pytest.mark.parametrize("tool", ["tools/check", ".ci/run"])
def test_words(tool, machine):
    """Each does what it says, also in pytest, and another one is refused before anything is tried."""
    machine.lacks("coqc")
    status, said, called = machine.run(tool, "--no-install", "--without", "cargo,coq")
    assert (status, said.splitlines()[-1]) == (0, "7 passed, 0 failed, 1 skipped"), said
    workers = 2 * len(os.sched_getaffinity(0))
    words_of_pytest = f"pytest -q -n {workers} --dist loadfile --sums --without=cargo,coq"
    assert called == ["rt ci", words_of_pytest]
    assert machine.run(tool, "--again", "--no-install", "--without", "cargo,coq")[2] == ["rt ci", f"{words_of_pytest} --again"]
    for words in (["--without", "cargos"], ["--without=cargo,Coq"], ["--without"], ["--install"], ["cargo"]):
        status, said, called = machine.run(tool, *words)
        assert (status, called) == (2, []) and said.splitlines()[-1].startswith("check: error: "), said
    assert machine.run(tool, "--without", "a b")[1].endswith("there is no tool a b\n"), "it is one word"
    status, said, called = machine.run(tool, "--help")
    assert (status, called) == (0, []) and "--no-install" in said


def test_workers(machine):
    """Two for each processor that it may use: a container may have fewer than the machine."""
    usable = os.sched_getaffinity(0)
    try:
        for number in {1, len(usable)}:
            os.sched_setaffinity(0, [*usable][:number])
            assert f" -n {2 * number} " in " ".join(machine.run("tools/check")[2])
    finally:
        os.sched_setaffinity(0, usable)


@pytest.mark.parametrize("tool", ["tools/check", ".ci/run"])
def test_each_part_runs_in_the_folder_of_its_sources(tool, machine):
    """Wherever the tool is started, and it reads nothing of what its user types: `rt ci` and pytest in the repository,
    and Cargo in a copy of each crate."""
    noted = machine.top.parent / "noted"
    notes = f"{{ pwd; cat; }} >> {noted}"
    (machine.bin / "pwd").symlink_to(shutil.which("pwd"))
    for name in ("rt", "cargo"):
        machine.stand_in(name, f"{notes}\n{STAND_INS[name]}")
    machine.pytest("4 passed in 1s", f"__import__('os').system('{notes}')")
    status, said, called = machine.run(tool, cwd=machine.bin, input="typed\n")
    assert (status, said.splitlines()[-1]) == (0, PASSED), said
    first, *others = noted.read_text("utf-8").splitlines()
    assert first == str(machine.top) and others.count(first) == 1, others
    assert [os.path.basename(folder) for folder in others if folder != first] == ["superio", "vm-superio"]


def test_pytest_is_missing(machine):
    (machine.stubs / "xdist.py").write_text("raise ImportError\n", "utf-8")
    status, said, called = machine.run("tools/check", "--no-install")
    assert status == 1 and "install python3-pytest python3-pytest-xdist python3-hypothesis, or" in said
    assert len(called) == 3
    machine.stand_in("apt-get", f"{STAND_INS['apt-get']}\n: > {machine.stubs}/xdist.py")
    status, said, called = machine.run("tools/check")
    assert (status, said.splitlines()[-1]) == (0, PASSED), "it is looked for again once it is installed"
    assert installs(called)[-1].endswith(" install python3-hypothesis python3-pytest python3-pytest-xdist")


@pytest.mark.parametrize("tool, command, package", [("tools/check", "cargo", "cargo"), (".ci/run", "coqc", "coq"),
                                                    ("tools/recheck", "coqc", "coq")])
def test_what_is_missing_is_installed(tool, command, package, machine):
    machine.lacks(command)
    status, said, called = machine.run(tool)
    assert status == 0 and f"Installs what this machine lacks of Debian 12: {package}\n" in said, said
    assert installs(called)[-1].endswith(f" install {package}")
    assert installs(machine.run(tool)[2]) == [], "it is there"


def test_recheck_needs_nothing_else(machine):
    machine.lacks("rt", "cargo", "cc")
    (machine.stubs / "pytest.py").unlink()
    status, said, called = machine.run("tools/recheck", "--keep", "a")
    assert (status, said, called) == (0, f"--keep a {machine.bin}/coqc\n", [])
    machine.lacks("coqc")
    assert machine.run("tools/recheck", "--no-install") == (0, "None\n", [])
    for word in ("-h", "--help"):
        assert machine.run("tools/recheck", word) == (0, f"{word} None\n", []), "help installs nothing"
    machine.recheck(1)
    assert machine.run("tools/recheck", "--no-install")[0] == 1


def test_recheck_by_an_old_python(machine):
    """It says so in a sentence, before anything is installed."""
    machine.lacks("coqc")
    (machine.stubs / "sitecustomize.py").write_text("import sys\nsys.version_info = (3, 10, 13)\n", "utf-8")
    status, said, called = machine.run("tools/recheck")
    assert status == 1 and said.startswith("tools/recheck needs Python 3.11 or later, and this is 3."), said
    assert said.count("\n") == 1 and not called


@pytest.mark.parametrize("tool, names", [("tools/check", ["cc is missing: install gcc"]), ("tools/recheck", [])])
def test_another_system(tool, names, machine):
    """It names what is missing, each once, and goes no further."""
    machine.edit("tools/common/requirements.py", TABLE, TABLE.replace('"kit"', '"kit", "cc"'))   # a second one that needs cc
    machine.lacks("coqc", "cc")
    for system in [("Debian", "13"), ("Ubuntu", "12")]:
        machine.runs(*system)
        status, said, called = machine.run(tool)
        assert status == 1 and not called, said
        assert said.splitlines()[:-1] == [*names, "coqc is missing: install coq"]


def test_another_user(machine):
    """Packages are unpacked, and found there by themselves, also the next time."""
    machine.lacks("cargo")
    machine.stand_in("id", "[ $1 != -u ] && echo somebody || echo 1000")
    for number in (1, 0):
        status, said, called = machine.run("tools/check")
        assert (status, said.splitlines()[-1]) == (0, PASSED), said
        assert len([line for line in called if line.startswith("dpkg-deb")]) == number
    assert not (machine.bin / "cargo").exists()


def test_what_is_unpacked_is_not_asked_for_again(machine):
    """Even if nobody finds it there, and whatever is unpacked after it."""
    machine.stand_in("id", "[ $1 != -u ] && echo somebody || echo 1000")
    machine.stand_in("dpkg-deb", "")
    for lacking, packages in [("coqc", ["coq"]), ("", []), ("rustc cc", ["gcc rustc"]), ("cargo", ["cargo"]), ("", [])]:
        machine.lacks(*lacking.split())
        said = machine.run("tools/check")[1]
        assert re.findall("^Installs what this machine lacks of Debian 12: (.*)$", said, re.M) == packages, said


def test_another_user_finds_each_kind_of_file(machine):
    """Programs, modules of Python and libraries are found where Debian's packages have them."""
    machine.stand_in("id", "[ $1 != -u ] && echo somebody || echo 1000")
    machine.lacks("coqc")
    status, said, called = machine.run("tools/install-packages", "coq")
    assert status == 0, said
    into = machine.top / "out/packages"
    words = ["env", "-i", "PATH=/before", "/bin/bash", "-c", ". $0 && /usr/bin/env", into / "environment"]
    found = dict(line.partition("=")[::2] for line in run(words).stdout.splitlines())
    for variable, folders in {"PATH": ("usr/bin", "usr/sbin"), "PYTHONPATH": ("usr/lib/python3/dist-packages",),
                              "LD_LIBRARY_PATH": (f"usr/lib/{platform.machine()}-linux-gnu",)}.items():
        assert found[variable].split(":")[:-1] == [str(into / folder) for folder in folders], variable
    assert found["PATH"].endswith(":/before")


def test_each_archive_is_unpacked_once(machine):
    """Those of an earlier time are not unpacked again."""
    machine.lacks("cargo", "coqc")
    machine.stand_in("id", "[ $1 != -u ] && echo somebody || echo 1000")
    for package in ("cargo", "coq"):
        status, said, called = machine.run("tools/install-packages", package)
        [unpacked] = [line for line in called if line.startswith("dpkg-deb")]
        assert status == 0 and f"/{package}.deb " in unpacked, said


# Packages of this processor and of others, alone and beside each other in each order.
NAMED = ["cargo", "cargo coq", "rust:s390x", "rust:s390x rust:armhf", "cargo rust:s390x", "rust:s390x cargo",
         "rust:s390x cargo rust:armhf coq"]


@pytest.mark.parametrize("user", [0, 1000])
@pytest.mark.parametrize("named", NAMED)
def test_each_package_comes_where_it_belongs(named, user, machine):
    """Root gets those of this processor installed, and only the files of the others. Another user gets the files of all
    of them, and of what those of this processor depend on. Each apt-get knows of each processor."""
    packages = named.split()
    own, others = ([package for package in packages if (":" in package) == is_other] for is_other in (False, True))
    apt = STAND_INS["apt-get"].replace('echo "Inst $package (1)"',
                                       'echo "Inst lib$package (1)"; echo "Inst $package (1)"')
    assert apt != STAND_INS["apt-get"]
    machine.stand_in("apt-get", apt)
    machine.stand_in("dpkg-deb", "")
    machine.stand_in("id", f"[ $1 != -u ] && echo somebody || echo {user}")
    machine.lacks("cargo")
    status, said, called = machine.run("tools/install-packages", *packages)
    assert status == 0, said
    asked = [line for line in called if line.startswith("apt-get ")]
    installed = [line.partition(" install ")[2].split() for line in asked
                 if " install " in line and "--simulate" not in line]
    assert installed == ([own] if own and not user else [])
    unpacked = sorted(line.split()[-2:] for line in called if line.startswith("dpkg-deb "))
    wanted = [*others, *own, *(f"lib{package}" for package in own)] if user else others
    into = machine.top / "out/packages" if user else "/"
    assert unpacked == sorted([f"{machine.top}/out/apt/downloads/{package}.deb", str(into)] for package in wanted)
    processors = ["amd64", *(package.partition(":")[2] for package in others)]
    assert asked and {tuple(re.findall("Architectures::=(\\S+)", line)) for line in asked} == {tuple(processors)}
    if user:
        assert (into / "unpacked").read_text("utf-8").split() == packages


# What of the installation fails, by whose words, for which user.
STEPS = {"the lists of packages cannot be read, and lack a package": ("apt-get", "update|--print-uris", 0),
         "a package cannot be installed": ("apt-get", "install", 0),
         "another user's packages are unknown": ("apt-get", "--simulate", 1000),
         "another user's packages cannot be got": ("apt-get", "download", 1000),
         "another user's packages cannot be unpacked": ("dpkg-deb", "--extract", 1000),
         "the table of tools cannot be read": ("python3", "tools/common/requirements.py", 0)}


@pytest.mark.parametrize("name", STEPS)
def test_an_installation_fails(name, machine):
    """It ends there, and nothing is tried after it."""
    command, words, user = STEPS[name]
    machine.stand_in("id", f"[ $1 != -u ] && echo somebody || echo {user}")
    machine.lacks("cargo")
    before = (machine.bin / command).read_text("utf-8").split("\n", 2)[2]
    fails = "".join(f'case " $* " in *" {word} "*) echo "E: no {word}" >&2; exit 100; esac\n'
                    for word in words.split("|"))
    machine.stand_in(command, fails + before)
    status, said, called = machine.run("tools/install-packages")
    last = words.split("|")[-1]
    assert status != 0 and f"E: no {last}" in said
    assert not called or f" {last}" in called[-1], "it went on"
    assert ("the lists of packages cannot be read" in said) == ("update" in words)
    if command != "python3":
        for tool in ("tools/check", ".ci/run"):
            status, said, called = machine.run(tool)
            assert status == 1 and "tools/install-packages ended with status" in said.splitlines()[-1], said
            assert not [line for line in called if line.startswith(("rt ", "pytest "))]


def test_a_list_of_packages_cannot_be_read(machine):
    """The others have all that is needed."""
    machine.lacks("cargo")
    machine.stand_in("apt-get", 'case " $* " in *" update "*) exit 100; esac\n' + STAND_INS["apt-get"])
    status, said, called = machine.run("tools/check")
    assert (status, said.splitlines()[-1]) == (0, PASSED), said
    assert [line for line in called if "--print-uris" in line and line.endswith(" cargo")]


@pytest.mark.parametrize("user", [0, 1000])
@pytest.mark.parametrize("named", NAMED)
def test_lists_that_lack_a_package(named, user, machine):
    """If they cannot be read anew, each package that is named has to be in the old ones, whatever its architecture.
    Otherwise nothing is installed, nor unpacked."""
    machine.stand_in("id", f"[ $1 != -u ] && echo somebody || echo {user}")
    machine.lacks("cargo")
    for lacking in named.split():
        machine.stand_in("apt-get", f'case " $* " in *" update "* | *" download "*" {lacking} "*) exit 100; esac\n'
                         + STAND_INS["apt-get"])
        status, said, called = machine.run("tools/install-packages", *named.split())
        assert status == 1 and said.endswith("so nothing was installed\n"), said
        assert not [line for line in called if " install " in line or line.startswith("dpkg-deb ")]
