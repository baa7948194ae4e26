# SPDX-License-Identifier: Apache-2.0 OR BSD-3-Clause
"""The commands of docs/MONITOR.md beside the monitor itself: `fetch`, over programs in place of apt's and dpkg's, ends
at the first that fails and leaves nothing half-made; `make` builds the monitor again if anything of it has changed."""
import os
import re
import shutil
from pathlib import Path

import pytest
from documents import Document
from harness import ROOT, at_least, check, run

HERE = ROOT / "examples" / "kvm"
# What takes the place of each program, as long as FAILS does not name it. Of a package, dpkg unpacks the files. A guest
# has no library, so that only the busybox of busybox-static runs there.
PROGRAMS = {
    "apt-cache": 'echo "  Depends: linux-image-$VERSION"',
    "apt-get": 'shift; for package; do echo "$package" > "$package.deb"; done',
    "dpkg": """mkdir -p boot bin
case $2 in
linux-image-*.deb) echo "kernel $VERSION" > "boot/vmlinuz-$VERSION" ;;
busybox-static.deb) cp "$(command -v busybox)" bin ;;
esac""",
    "busybox": 'cat; echo "$*"',
}
# What the guest does when it starts. Without one of these it has no programs, no `ps`, no console or no job control.
INIT = ["#!/bin/busybox sh", "/bin/busybox --install -s /bin", "mount -t proc proc /proc", "mount -t devtmpfs dev /dev",
        "exec setsid cttyhack sh"]
FAILING = 'name=${0##*/}; case " $FAILS " in *" $name "*) exit 7 ;; esac\n'


@pytest.fixture
def fetch(tmp_path):
    """Fetches into a folder, while some programs fail. Gives the status, what is said, and the folder."""
    programs, folder = tmp_path / "programs", tmp_path / "a folder"
    programs.mkdir()
    for name, commands in PROGRAMS.items():
        (programs / name).write_text(f"#!/bin/sh -e\n{FAILING}{commands}\n", encoding="ascii")
        (programs / name).chmod(0o755)

    def call(fails="", **more):
        environment = {**os.environ, "PATH": f"{programs}:/usr/bin:/bin", "FAILS": fails, "VERSION": "6", **more}
        ran = run([HERE / "fetch", folder], env=environment)
        return ran.returncode, ran.stdout, folder
    return call


def test_fetch(fetch):
    """Three times: then the folder is there already, and then there is another version, too."""
    for version in ("6", "6", "7"):
        status, said, folder = fetch(VERSION=version)
        assert (status, said) == (0, ""), said
        assert (folder / "kernel").read_text("ascii") == f"kernel {version}\n"
        *names, words = (folder / "initramfs").read_text("ascii").splitlines()
        assert {"./init", "./bin/busybox", "./dev", "./proc"} <= {*names} and words == "cpio -o -H newc"
        assert os.access(folder / "root" / "init", os.X_OK)
        assert (folder / "root" / "init").read_text("ascii").splitlines() == INIT


def test_commands_of_the_page(fetch):
    """They make the monitor, and start it with what was fetched."""
    [block] = [block for block in Document("docs/MONITOR.md").blocks if block.language == "sh"]
    made, fetched, started = [line.partition("#")[0].split() for line in block.lines]
    kvm = HERE.relative_to(ROOT).as_posix()
    assert (made, fetched[:-1], started[0]) == (["make", "-C", kvm], [f"{kvm}/fetch"], f"{kvm}/monitor")
    status, said, folder = fetch()
    assert [(folder / Path(path).relative_to(fetched[-1])).is_file() for path in started[1:]] == [True, True]


@pytest.mark.parametrize("program", PROGRAMS)
def test_fetch_fails(fetch, program):
    """No program after the one that fails is run. What tests/kvm takes for a sign that all is there is not."""
    status, said, folder = fetch(program)
    assert status != 0 and not (folder / "initramfs").exists()
    assert ("run apt-get update" in said) == (program == "apt-cache")
    programs = [*PROGRAMS]
    made = {"apt-get": "*.deb", "dpkg": "kernel"}
    for number, (name, pattern) in enumerate(made.items(), 1):
        assert bool([*folder.glob(pattern)]) == (programs.index(program) > number), name


def test_fetch_without_a_folder(fetch, tmp_path):
    ran = run([HERE / "fetch"], cwd=tmp_path)
    assert ran.returncode != 0 and {path.name for path in tmp_path.iterdir()} == {"programs"}


def parts():
    """What the monitor is made of: its sources, what they include of the repository, the library and the rules."""
    sources = [*HERE.glob("*.[ch]"), HERE / "Makefile"]
    text = "".join(path.read_text(encoding="utf-8") for path in sources)
    included = sorted({*re.findall(r'^#include [<"](.+?)[>"]', text, re.M)})
    own = [path for name in included for path in (HERE / name, ROOT / "bindings/c" / name) if path.exists()]
    return at_least(9, dict.fromkeys([*sources, *own, ROOT / "prebuilt/x86_64-linux/libsuperio_c.a"]))


@pytest.mark.needs("make")
@pytest.mark.parametrize("part", parts(), ids=lambda part: part.name)
def test_a_change_is_built(part, tmp_path):
    """After a change of any part, and only then, `make` has something to do."""
    folder = tmp_path / "kvm"
    shutil.copytree(HERE, folder, ignore=shutil.ignore_patterns("monitor"))
    (folder / "monitor").touch()
    given = part.name if part.parent == HERE else part
    words = ["make", "-s", "-q", "-C", folder, f"ROOT={ROOT}"]
    check(words, "")
    assert run([*words, "-W", given]).returncode == 1


@pytest.mark.needs("make", "cc")
@pytest.mark.where("Linux on x86-64")
@pytest.mark.parametrize("line", ["int unfinished(\n", "static int unused;\n", "int half(int all) { return 1; }\n"])
def test_a_build_that_fails_leaves_no_monitor(line, tmp_path):
    """A warning fails it, too."""
    folder = tmp_path / "kvm"
    shutil.copytree(HERE, folder, ignore=shutil.ignore_patterns("monitor"))
    with open(folder / "main.c", "a", encoding="ascii") as file:
        file.write(line)
    ran = run(["make", "-s", "-C", folder, f"ROOT={ROOT}"])
    assert ran.returncode == 2 and not (folder / "monitor").exists()
