# SPDX-License-Identifier: Apache-2.0 OR BSD-3-Clause
"""tools/run, with a stand-in for the kit: what it prints beside a script, and with which status it ends."""
import os
import shutil
import sys

import pytest
from common.rattle import crates_below
from harness import ROOT, at_least, check, run

# A script, what the program replies to it, and what stands beside its lines.
BESIDE = {
    "a reply for each line": ("sr 05\nsw 00 48\n", "60\nok\n", ["sr 05 60", "sw 00 48 ok"]),
    "a mask has no reply": ("refuse 2\nsr 05\n", "60\n", ["refuse 2", "sr 05 60"]),
    "a mask that is no first line": ("sr 05\nrefuse 2\n", "60\n", ["sr 05 60", "refuse 2"]),
    "an empty reply": ("so\nsr 05\n", "\n60\n", ["so", "sr 05 60"]),
    "an end at a bad line": ("sr 05\nno\nsr 05\n", "60\n", ["sr 05 60", "no", "sr 05"]),
    "an end without a line feed": ("sr 05\nsr 05", "60\n60\n", ["sr 05 60", "sr 05 60"]),
    "no line": ("", "", []),
    "empty lines at the end": ("sr 05\n\n\n", "60\n", ["sr 05 60", "", ""]),
    "empty lines around a line": ("\n\nsr 05\n\n\n", "", ["", "", "sr 05", "", ""]),
    "an empty line alone": ("\n", "", [""]),
}

KIT = """#!/bin/sh
echo "$* in $PWD" >&2
cat > {0}/read
cat {0}/replies
exit {1}
"""


@pytest.fixture
def call(tmp_path):
    """Runs a script through a program that writes what it reads into a file, replies this, and ends so."""
    def call(script, replies, *words, status=0, is_file=True):
        (tmp_path / "script").write_text(script, "latin-1")
        (tmp_path / "replies").write_text(replies, "ascii")
        (tmp_path / "rt").write_text(KIT.format(tmp_path, status), "ascii")
        (tmp_path / "rt").chmod(0o755)
        path = f"{tmp_path}:{os.environ['PATH']}"
        given = {} if is_file else {"input": script}
        environment = {**os.environ, "PATH": path, "PYTHONIOENCODING": "ascii"}   # of a terminal that has no more
        ran = run([ROOT / "tools/run", "--unproved", *words], env=environment, **given)
        return ran.returncode, ran.stdout, (tmp_path / "read").read_text("latin-1")
    return call


@pytest.mark.parametrize("name", BESIDE)
def test_beside(name, call, tmp_path):
    script, replies, lines = BESIDE[name]
    status, said, read = call(script, replies, "--beside", tmp_path / "script", status=3)
    first, *shown = said.splitlines()
    assert (status, first, read) == (3, f"try in {ROOT}/crates/superio", script)
    assert [" ".join(line.split()) for line in shown] == lines
    assert {line.index("60") for line in shown if line.endswith(" 60")} <= {37}, "one below the other"


def test_a_script_has_any_bytes(call, tmp_path):
    """A line ends at LF alone, as the program takes it. Only CR is left out, since `run` makes LF of it."""
    bad = "".join(chr(byte) for byte in range(256) if byte not in b"\n\r")
    script = f"sr 05\n{bad}\nsr 05\n"
    status, said, read = call(script, "60\n", "--beside", tmp_path / "script", status=1)
    _, first, shown, last, end = said.split("\n")
    assert (status, first, last, end, read) == (1, f"{'sr 05':35}  60", "sr 05", "", script)
    assert shown == bad.encode("latin-1").decode("ascii", "backslashreplace")


def test_without_lines_beside_it(call, tmp_path):
    found = call("sr 05\n", "60\n", tmp_path / "script", status=4)
    assert found == (4, f"try in {ROOT}/crates/superio\n60\n", "sr 05\n")


@pytest.mark.parametrize("words, shown", [([], "60"), (["--beside"], f"{'sr 05':35}  60")], ids=["", "--beside"])
def test_a_script_from_standard_input(words, shown, call):
    assert call("sr 05\n", "60\n", *words, status=4, is_file=False) == (
        4, f"try in {ROOT}/crates/superio\n{shown}\n", "sr 05\n")


def told():
    """What the tool says of itself."""
    return " ".join(check([ROOT / "tools/run", "--help"]).split())


def test_no_script_and_no_kit(tmp_path):
    ran = run([ROOT / "tools/run", "--unproved", tmp_path / "script"])
    assert ran.returncode == 2 and f"{tmp_path}/script" in ran.stdout
    (tmp_path / "python3").symlink_to(sys.executable)
    ran = run([ROOT / "tools/run", "--unproved"], env={"PATH": str(tmp_path)})
    assert ran.returncode == 125 and "of the Rattle kit, is not there" in ran.stdout
    assert "also 2 if SCRIPT cannot be read, and 125 if there is no program" in told()


# A kit that proves: it notes its words and its folder, and makes the program. The crate that FAILS names is not proved.
PROVING = """#!/bin/sh
crate=$(basename "$PWD")
echo "$* in $crate" >> {0}/log
[ "$crate" != "$FAILS" ] || {{ echo "no proof of $crate"; echo "a goal of $crate" >&2; exit 1; }}
[ "$1" != run ] || {{ mkdir out; printf '#!/bin/sh\\ncat\\n' > out/superio; chmod +x out/superio; }}
"""
BELOW = at_least(2, crates_below("superio"))


@pytest.fixture
def prove(tmp_path):
    """Runs a copy of the tool, which has no program yet. Returns its status, what it printed, and what the kit did."""
    shutil.copytree(ROOT / "tools/common", tmp_path / "tools/common")
    for name in ("tools/run", "crates.txt"):
        shutil.copy(ROOT / name, tmp_path / name)
    for crate in (*BELOW, "superio"):
        (tmp_path / "crates" / crate).mkdir(parents=True)
    (tmp_path / "rt").write_text(PROVING.format(tmp_path), "ascii")
    (tmp_path / "rt").chmod(0o755)

    def prove(**told):
        environment = {name: value for name, value in os.environ.items() if name != "RT_JOBS"}
        environment |= {"PATH": f"{tmp_path}:{os.environ['PATH']}", "TMPDIR": str(tmp_path), **told}
        ran = run([tmp_path / "tools/run"], env=environment, input="sr 05\n")
        return ran.returncode, ran.stdout, (tmp_path / "log").read_text("ascii").splitlines()
    return prove


@pytest.mark.parametrize("variables, jobs", [({}, 2), ({"RT_JOBS": "1"}, 1), ({"RT_JOBS": "7"}, 7)], ids=str)
def test_a_proof_takes_as_many_processors_as_told(variables, jobs, prove, tmp_path):
    """In each crate, the lowest first. Then the program runs, and nothing is left where temporary files go."""
    status, said, steps = prove(**variables)
    assert variables or "RT_JOBS is how many processors the proof takes, two if it is not set" in told()
    assert status == 0 and said.endswith("\nsr 05\n"), said
    assert steps == [*(f"lib --jobs {jobs} in {crate}" for crate in BELOW), f"run --jobs {jobs} in superio"]
    assert {path.name for path in tmp_path.iterdir()} == {"tools", "crates", "crates.txt", "rt", "log"}


@pytest.mark.parametrize("crate", [BELOW[0], BELOW[-1], "superio"])
def test_a_proof_that_fails(crate, prove):
    """None comes after it, no program runs, and the file that is named has what the kit printed, its errors too."""
    status, said, steps = prove(FAILS=crate)
    assert status == 125 and steps[-1].endswith(f" in {crate}") and "sr 05" not in said, said
    [log] = [word for word in said.split() if word.endswith(".log")]
    with open(log, encoding="ascii") as file:
        assert file.read().endswith(f"no proof of {crate}\na goal of {crate}\n")
