# SPDX-License-Identifier: Apache-2.0 OR BSD-3-Clause
"""tools/mutants, and survivors.txt: a mutant that may survive is one that the tool makes, with a reason, and at most
three in a hundred of those of its part may. On a small sample the tool does what it says."""
import json
import os
import re
import signal
import socket
import subprocess
import sys
import time
from concurrent.futures import ThreadPoolExecutor
from contextlib import nullcontext, suppress
from importlib.machinery import SourceFileLoader
from importlib.util import module_from_spec, spec_from_loader
from itertools import product
from pathlib import Path
from types import SimpleNamespace

import pytest
from generators import facts, lines
from harness import LIMIT, ROOT, at_least, check, run
from mutation import reach, rules, runner
from mutation.copies import Ended


def tool():
    loader = SourceFileLoader("mutants", str(ROOT / "tools" / "mutants"))
    module = module_from_spec(spec_from_loader("mutants", loader))
    loader.exec_module(module)
    return module


TOOL = tool()
ENTRIES = at_least(10, TOOL.LISTED.read_text(encoding="utf-8").strip("\n").split("\n\n")[1:])
MOST = 3   # in a hundred, or of a part that has fewer


@pytest.mark.parametrize("entry", ENTRIES, ids=lambda entry: entry.splitlines()[1].strip("- ")[:40])
def test_a_survivor_is_a_mutant_and_has_a_reason(entry):
    file, old, new, reason = entry.split("\n")
    assert f"{file}\n{old}\n{new}" in map(str, TOOL.mutants(ROOT, file))
    assert reason.startswith("  ") and len(reason.split()) > 3


@pytest.mark.parametrize("part", TOOL.PARTS)
def test_few_survive(part):
    files = TOOL.files_of(TOOL.PARTS[part])
    made = at_least(30, [mutant for file in files for mutant in TOOL.mutants(ROOT, file)])
    assert sum(entry.split("\n")[0] in files for entry in ENTRIES) <= MOST * max(1, len(made) / 100)


# A line of C, and how the tool turns it.
TURNED = {
    "    if (a < 5)": ["    if (a <= 5)", "    if (a < (5 + 1))"],
    "    return a & ~b;": ["    return a | ~b;"],
    "    call(a + 1); /* 5 + 1 */": ["    call(a - 1); /* 5 + 1 */", "    call(a + (1 + 1)); /* 5 + 1 */",
                                     "    ; /* 5 + 1 */"],
    '    puts("5 < 6");': ["    ;"],
}


@pytest.mark.parametrize("line", TURNED)
def test_a_line_is_turned(line, tmp_path):
    (tmp_path / "file.c").write_text(line, encoding="utf-8")
    found = [mutant.new for mutant in TOOL.mutants(tmp_path, "file.c")]
    assert set(TURNED[line]) <= set(found), found


# Each operator with the one that it becomes, and lines of the other rules with what they become, as C or as Python.
OPERATORS = {"==": "!=", "!=": "==", "===": "!==", "!==": "===", "<": "<=", "<=": "<", ">": ">=", ">=": ">",
             "&&": "||", "||": "&&", "&": "|", "|": "&", "+": "-", "-": "+", "*": "/", "/": "*", "<<": ">>",
             ">>": "<<", "+=": "-=", "-=": "+=", "|=": "&=", "&=": "|=", "and": "or", "or": "and",
             "is not": "is", "is": "is not"}
OTHERS = {
    "    a = 0x1F;": "    a = (0x1F + 1);", "    a = 5u8;": "    a = (5u8 + 1);", "    a = true;": "    a = false;",
    "    a = false;": "    a = true;", "    return True": "    return False", "    return False": "    return True",
    "    a = !b;": "    a = b;", "    return not a": "    return a", "    a++;": "    a--;", "    a--;": "    a++;",
    "    a = b ? c : d;": "    a = b ? d : c;", "    while (a) {": "    while (!(a)) {",
    "    if (a) return;": "    if (!(a)) return;", "    if a {": "    if !(a) {", "    if a:": "    if not (a):",
    "    elif a:": "    elif not (a):", "    while a:": "    while not (a):",
    "    return a if b else c": "    return a if not (b) else c", "        0 => a,": "        0 => {},",
    "    a(b);": "    ;", "    a(b)": "    pass",
}
EACH_RULE = {**{f"    a = b {one} c;": f"    a = b {other} c;" for one, other in OPERATORS.items()}, **OTHERS}


@pytest.mark.parametrize("line", EACH_RULE)
def test_each_rule_turns_a_line(line, tmp_path):
    made = []
    for name in ("file.c", "file.py"):
        (tmp_path / name).write_text(line, encoding="utf-8")
        made += [mutant.new for mutant in TOOL.mutants(tmp_path, name)]
    assert EACH_RULE[line] in made


@pytest.mark.parametrize("rule", [*rules.RULES, *rules.STATEMENTS, *rules.PYTHON_STATEMENTS], ids=lambda rule: rule[0])
def test_each_rule_has_a_line(rule):
    assert any(re.search(rule[0], line) for line in EACH_RULE)


# Words that the tool refuses, and how it ends.
REFUSED = {"nothing": "no part nothing", "js no none": "no part no, none", "--every 0": "from 1 on",
           "--every -2": "from 1 on", "--jobs 0": "from 1 on", "--every few": "'few'", "--none": "--none"}


@pytest.mark.parametrize("words", REFUSED)
def test_wrong_words_are_refused(words):
    """In a sentence, before anything is tried: here nothing could be."""
    ran = run([sys.executable, ROOT / "tools" / "mutants", *words.split()], env={**os.environ, "PATH": "nowhere"})
    last = ran.stdout.splitlines()[-1]
    assert ran.returncode == 2 and last.startswith("mutants: error: ") and last.endswith(REFUSED[words]), ran.stdout


# Code of which one mutant is the same, and its tests: one reads the code, and does not run it.
SAMPLE = {
    "sample.py": """def larger(a, b):
    return a if a > b else b


def next_one(a):
    return a + 1
""",
    "test_sample.py": """import pathlib


def test_larger():
    import sample
    assert (sample.larger(1, 2), sample.larger(2, 1)) == (2, 2)


def test_text():
    assert "a - 1" not in pathlib.Path("sample.py").read_text()
""",
}
SAME = "sample.py\n- return a if a > b else b\n+ return a if a >= b else b\n"
UNREACHED = "sample.py\n- return a + 1\n+ return a + (1 + 1)\n"


@pytest.fixture
def sample(monkeypatch, tmp_path):
    """Tries the mutants of the sample. A call gives what the tool ends with."""
    for name, text in SAMPLE.items():
        (tmp_path / name).write_text(text, encoding="utf-8")
    part = TOOL.Part("sample.py", ["/usr/bin/python3 -m py_compile {file}"], TOOL.pytest("test_sample.py"), "python")
    monkeypatch.setattr(TOOL, "ROOT", tmp_path)
    monkeypatch.setattr(TOOL, "PARTS", {"sample": part})
    monkeypatch.setattr(TOOL, "LISTED", tmp_path / "survivors.txt")
    monkeypatch.setenv("PYTEST_DISABLE_PLUGIN_AUTOLOAD", "1")   # which the sample needs not, and which begin slowly

    def call(*listed, words=""):
        monkeypatch.setattr(sys, "argv", ["mutants", "--jobs", "1", *words.split()])
        (tmp_path / "survivors.txt").write_text("\n".join(f"{entry}  a reason\n" for entry in listed), encoding="utf-8")
        return TOOL.main()
    return call


@pytest.mark.needs("mutants", "pytest")
def test_an_unlisted_survivor_is_an_error(sample, capsys):
    """Of four mutants one is refused by the test that reaches it, one by the test that does not run it."""
    assert sample(SAME) == "1 survivors are not in survivors.txt"
    said = capsys.readouterr().out
    assert said.startswith(f"{UNREACHED}survive, and no test reaches it: NOT LISTED\n\nsample: "), said
    assert "\nsample: 2 killed, 1 survive, 0 do not compile, 1 left out; 0 did not end in time; " in said


@pytest.mark.parametrize("counts", [(0, 0), (1, 0), (0, 2), (2, 1)])
def test_each_part_counts(counts, monkeypatch):
    """Also one before the last that survives, whether the parts are named or all are tried."""
    parts = {f"part {place}": count for place, count in enumerate(counts)}
    monkeypatch.setattr(TOOL, "PARTS", parts)
    monkeypatch.setattr(TOOL, "Copies", lambda *given: nullcontext())
    monkeypatch.setattr(TOOL, "tried", lambda name, *given: iter([None, parts[name]]))
    for names, total in ([], sum(counts)), ([*parts], sum(counts)), (["part 0"], counts[0]):
        monkeypatch.setattr(sys, "argv", ["mutants", *names])
        assert TOOL.main() == (f"{total} survivors are not in tests/tools/survivors.txt" if total else 0)


def test_jobs(monkeypatch):
    """As many as are asked for, or three for each processor that the tool may use."""
    usable, asked = os.sched_getaffinity(0), []
    monkeypatch.setattr(TOOL, "PARTS", {"one": None})
    monkeypatch.setattr(TOOL, "Copies", lambda root, folder, count: asked.append(count) or nullcontext())
    monkeypatch.setattr(TOOL, "tried", lambda *given: iter([0]))
    try:
        for number, *words in ([len(usable)], [1], [1, "--jobs", "7"]):
            os.sched_setaffinity(0, [*usable][:number])
            monkeypatch.setattr(sys, "argv", ["mutants", *words])
            assert TOOL.main() == 0
    finally:
        os.sched_setaffinity(0, usable)
    assert asked == [3 * len(usable), 3, 7]


def test_all_parts_are_in_one_queue(monkeypatch, capsys):
    """Each step of all is asked for before the next one of any, so that none waits for the end of another."""
    asked = []

    def asked_for(_, items):
        asked.append(items)
        return iter([[TOOL.Test(items[0].files, "")]] if isinstance(items[0], TOOL.Part) else
                    items if isinstance(items[0], TOOL.Test) else [("killed", 1.0)])
    parts = {name: TOOL.Part(name, [], []) for name in ("one", "two")}
    monkeypatch.setattr(TOOL, "PARTS", parts)
    monkeypatch.setattr(TOOL, "files_of", lambda part: [part.files])
    monkeypatch.setattr(TOOL, "mutants", lambda root, file: [file])
    monkeypatch.setattr(TOOL, "Copies", lambda *given: nullcontext(SimpleNamespace(map=asked_for)))
    monkeypatch.setattr(sys, "argv", ["mutants"])
    assert TOOL.main() == 0 and capsys.readouterr().out.count("1 killed, 0 survive") == 2
    assert asked == [*([part] for part in parts.values()), *([TOOL.Test(name, "")] for name in parts),
                     *([name] for name in parts)]


@pytest.mark.needs("mutants", "pytest")
def test_listed_survivors_are_none(sample, capsys):
    """They are tried only if asked for, and no others then. Each tells how it ended, also one that a test refuses."""
    refused = "sample.py\n- return a + 1\n+ return a - 1\n"
    assert sample(SAME, refused, words="--every 4") == 0
    assert "sample: 0 killed, 0 survive, 0 do not compile, 1 left out; " in capsys.readouterr().out
    assert sample(SAME, refused, words="--listed") == 0
    said = capsys.readouterr().out
    assert said.startswith(f"{SAME}survive\n\n{refused}killed\n\nsample: 1 killed, 1 survive, 0 do not compile, 2 left "
                           "out; 0 did not end in time; "), said


@pytest.mark.needs("mutants", "pytest")
def test_an_entry_lists_one_mutant(sample):
    """Not those of another file, or of another line, that become the same, and none that the same line becomes besides.
    An entry of which the mutant is only a part is another, too."""
    name, old, new = SAME.splitlines()
    others = ["other.py", f"a/{name}", name[1:]], ["- return a if a < b else b", old[:-1], f"{old} "], [
        "+ return b if a > b else a", new[:-1], f"{new} + 1", f"{new}  a"]
    rows = [name, old, new]
    entries = [[*rows[:place], other, *rows[place + 1:]] for place in range(3) for other in others[place]]
    assert sample(*("\n".join([*entry, ""]) for entry in entries), words="--every 4") == (
        "1 survivors are not in survivors.txt")


@pytest.mark.needs("mutants", "pytest")
def test_tests_that_fail_are_no_tests(sample, tmp_path):
    with open(tmp_path / "test_sample.py", "a", encoding="utf-8") as file:
        file.write("\n\ndef test_wrong():\n    assert False\n")
    with pytest.raises(SystemExit, match="(?s)^sample: these tests refuse the code as it is\n[^\n]*::test_wrong\n"
                                         "  failed\n.*    >       assert False\n"):
        sample()


# What the lines of a program in each language are told as, from 1.
REACHED = {
    "gcov": ("sample.c", "int main(void)\n{\n    int a = 1;\n    if (a > 1)\n        a = 2;\n    return a - 1;\n}\n",
             "cc sample.c -o sample && ./sample", {3: True, 4: True, 5: False, 6: True}),
    "node": ("sample.mjs", "const a = 1;\nif (a > 1) {\n  a.b();\n}\nfunction none() {\n  return 1;\n}\n",
             "node sample.mjs", {1: True, 2: True, 3: False, 6: False}),
    # A part of it has no file, and another Python no coverage.
    "python": ("sample.py", "a = 1\nif a > 1:\n    a = 2\nexec(compile('a + 1', 'none.py', 'exec'))\n",
               "mkdir -p other; echo raise ImportError > other/coverage.py; "
               "! PYTHONPATH=other /usr/bin/python3 -c 0 2>&1 | grep . && "
               "/usr/bin/python3 -c 'import subprocess, sys; subprocess.run([sys.executable, \"sample.py\"])'",
               {1: True, 2: True, 3: False, 4: True}),
}


@pytest.mark.needs("mutants", "cc", "node")
@pytest.mark.parametrize("language", REACHED)
def test_lines_that_are_reached(language, tmp_path):
    name, text, command, lines = REACHED[language]
    (tmp_path / "code").mkdir()
    (tmp_path / "code" / name).write_text(text, encoding="utf-8")
    copy = TOOL.Copy(tmp_path / "code", tmp_path / "copy")
    [test] = TOOL.split(command, copy, False)
    found = TOOL.measured(test, copy, language, [name], None).lines[name]
    assert {line: found[line] for line in lines} == lines


# A source whose third line runs in some runs.
IN_JAVASCRIPT = "a();\nif (b) {\n  c();\n}\n"


def tell(folder, counts):
    """Writes what gcov and what Node tell of runs in which the third line ran so often."""
    lines = [[{"line_number": 2, "count": 1}, {"line_number": 3, "count": count}] for count in counts]
    (folder / "reach").mkdir()
    (folder / "reach/gcov").write_text("".join(
        json.dumps({"files": [{"file": "/tmp/copy/sample.c", "lines": line}]}) + "\n" for line in lines), "ascii")
    text, url = IN_JAVASCRIPT, (folder / "sample.mjs").as_uri()
    (folder / "sample.mjs").write_text(text, "ascii")
    for number, count in enumerate(counts):
        ranges = [(0, len(text), 1), (text.index("{") + 1, text.index("}"), count)]
        told = [{"startOffset": start, "endOffset": end, "count": ran} for start, end, ran in ranges]
        (folder / f"reach/coverage-{number}.json").write_text(json.dumps(
            {"result": [{"url": url, "functions": [{"ranges": told}]}]}), "ascii")


@pytest.mark.parametrize("counts", [counts for size in (1, 2, 3) for counts in product((0, 7), repeat=size)], ids=str)
@pytest.mark.parametrize("language, name", [("gcov", "sample.c"), ("node", "sample.mjs")])
def test_lines_of_several_runs(language, name, counts, tmp_path):
    """A line is reached if it ran in any of them, whichever is told first: a test may run a source twice."""
    tell(tmp_path, counts)
    found = reach.LINES[language](tmp_path / "reach", [name])[name]
    assert (found[2], found[3]) == (True, any(counts))


def test_lines_of_a_script_that_a_page_made(tmp_path):
    """It has the lines of a module, but for comments, and `export`."""
    (tmp_path / "code.mjs").write_text("// A comment.\nexport const a = 1;\nif (a > 1) {\n  a.b();\n}\n", "utf-8")
    text = "const other = 0;\nconst a = 1;\nif (a > 1) {\n  a.b();\n}\n"
    ranges = [(0, len(text), 1), (text.index("{"), text.index("}") + 1, 0)]
    functions = [{"ranges": [{"startOffset": start, "endOffset": end, "count": count} for start, end, count in ranges]}]
    (tmp_path / "reach").mkdir()
    (tmp_path / "reach" / "coverage-1.json").write_text(json.dumps(
        {"result": [{"url": "", "text": text, "functions": functions}]}), "ascii")
    found = TOOL.LINES["node"](tmp_path / "reach", ["code.mjs"])
    assert found["code.mjs"] == {2: True, 3: True, 4: False, 5: False, 6: False}


def processes_in(folder):
    """The processes that work in a folder."""
    found = []
    for place in Path("/proc").glob("[0-9]*/cwd"):
        with suppress(OSError):
            found += [int(place.parent.name)] * (os.readlink(place) == str(folder))
    return found


@pytest.fixture
def copy(tmp_path):
    (tmp_path / "code").mkdir()
    return TOOL.Copy(tmp_path / "code", tmp_path / "copy")


def test_a_mutant_leaves_nothing(copy):
    """Neither in its file nor in what is made of that."""
    for name in "file", "made", "other":
        (copy.folder / name).write_text("one\ntwo\n", "ascii")
    with copy.changed(TOOL.Mutant("file", 1, "two", "three"), ["made"]):
        assert (copy.folder / "file").read_text("ascii") == "one\nthree\n"
        for name in "made", "other":
            (copy.folder / name).write_text("another", "ascii")
    assert [(copy.folder / name).read_text("ascii") for name in ("file", "made", "other")] == [
        "one\ntwo\n", "one\ntwo\n", "another"]


@pytest.mark.needs("mutants")
def test_a_command_can_do_no_harm(copy, tmp_path):
    """It writes into its copy alone, even a super-user's, has an end, and leaves nothing to the next one."""
    outside = tmp_path / "outside"
    assert copy.run(f"echo > here; echo > {outside}; cp here file && mv -f file /dev/full").how != "late"
    assert (copy.folder / "here").exists() and not outside.exists() and TOOL.LISTED.stat().st_size > 1
    assert Path("/dev/full").is_char_device() and copy.run(f"! echo > {TOOL.LISTED}").how == "passed"
    with socket.create_server(("127.0.0.1", 0)) as server:
        no_network = copy.run(f"! echo > /dev/tcp/127.0.0.1/{server.getsockname()[1]}")
    assert no_network.how == "passed"
    assert copy.run(f"! kill -0 {os.getpid()}").how == "passed", "it sees no process of others"
    assert [copy.run(f"truncate -s {size}M file").how for size in (150, 250)] == ["passed", "failed"]
    assert [copy.run("/usr/bin/python3 -c 'bytes(600_000_000)'", *limit).how
            for limit in ([], [1_000_000], [500_000])] == ["passed", "passed", "failed"]
    assert copy.run("setsid sleep 1000 & mkdir /tmp/left; echo > /tmp/left/file; echo > /dev/shm/left").how == "passed"
    assert copy.run("! pgrep sleep && test ! -e /tmp/left -a ! -e /dev/shm/left -a -e here").how == "passed"
    assert [copy.run(command).how for command in ("kill -9 $PPID", "true")] == ["failed", "passed"]


@pytest.mark.needs("mutants")
def test_a_command_ends_with_the_tool(copy):
    """Whatever it has started, also if the tool is killed and can end nothing itself."""
    with ThreadPoolExecutor(1) as pool:
        ended = pool.submit(copy.run, f"touch begun; setsid sleep {LIMIT} & sleep {LIMIT}")
        while not (copy.folder / "begun").exists():
            time.sleep(0.01)
        below = processes_in(copy.folder)
        copy.runner.kill()
        assert ended.result().how == "failed"
    deadline = time.monotonic() + 60
    while (left := processes_in(copy.folder)) and time.monotonic() < deadline:
        time.sleep(0.01)
    for number in left:
        os.kill(number, signal.SIGKILL)
    assert (len(below) >= 3, left) == (True, [])


@pytest.mark.needs("mutants")
@pytest.mark.parametrize("language", TOOL.LINES)
def test_a_refusal_has_what_was_said_last(language, copy):
    test = TOOL.Test("bash -c 'seq 100 >&2; false'", "")
    assert TOOL.measured(test, copy, language, [], None).refusal.split() == ["failed", *map(str, range(81, 101))]


@pytest.mark.needs("mutants")
def test_a_command_has_a_temporary_folder(copy, monkeypatch):
    """Also if the caller has one that no command may write into."""
    monkeypatch.setenv("TMPDIR", str(ROOT))
    assert copy.run("mktemp").how == "passed"


def test_a_browser_that_ends_is_not_waited_for(tmp_path):
    (tmp_path / "chromium").write_text("#!/bin/sh\nhead -c 1 <&3\n", "ascii")
    (tmp_path / "chromium").chmod(0o700)
    ran = run([ROOT / "tools" / "mutation" / "chromium", "about:blank"],
              env={**os.environ, "PATH": f"{tmp_path}{os.pathsep}{os.environ['PATH']}"})
    assert ran.returncode and ran.stdout.endswith("the browser ended\n"), ran.stdout


# Commands that have no end, and the seconds that they get, of time and of a processor: each is late for another reason.
ENDLESS = {"sleep 1000 & while :; do sleep 0.1; done": (1, 1000), "while :; do :; done": (1000, 1),
           "for place in 1 2 3; do while :; do :; done & done; wait": (1000, 1), "read < <(sleep 1000)": (1000, 1000),
           "while :; do timeout 0.1 bash -c 'while :; do :; done'; done": (60, 1)}


@pytest.mark.needs("mutants")
@pytest.mark.parametrize("command", ENDLESS)
def test_a_command_has_an_end(copy, command):
    seconds, processor = ENDLESS[command]
    ended = copy.run(command, None, seconds, processor)
    assert ended.how == "late" and ended.processor < processor + 9


# What a command does between two looks: the seconds of a processor that it takes, of which two count as work, and the
# state of a thread of it.
BETWEEN_LOOKS = {"idles": (0, "S"), "polls": (1, "R"), "works": (2, "S"), "works more": (3, "R"),
                 "wants a disk": (0, "D")}
IDLE, PATIENCE = {"idles", "polls"}, 3   # in a row


def test_a_command_that_waits_is_late(monkeypatch):
    """As soon as it was idle between so many looks in a row, whatever it did before. Here a look comes at once."""
    for name, number in {"LEAST": 2, "LOOKS": 2 ** 13, "QUIET": PATIENCE / 2 ** 13}.items():
        monkeypatch.setattr(runner, name, number)
    with subprocess.Popen(["cat"], stdin=subprocess.PIPE) as process:   # which ends with this block
        for did in product(BETWEEN_LOOKS, repeat=4):
            looked = []

            def taken():
                assert len(looked) < len(did) + PATIENCE, f"it has been idle since, and is not late: {did}"
                looked.append((*did, *PATIENCE * ["idles"])[len(looked)])
                return sum(BETWEEN_LOOKS[one][0] for one in looked)
            monkeypatch.setattr(runner, "taken", taken)
            monkeypatch.setattr(runner, "stats", lambda *pattern: [BETWEEN_LOOKS[looked[-1]][1]])
            assert runner.is_late(process.pid, 1000, 1000)
            was_idle = [IDLE.issuperset(looked[end - PATIENCE:end]) for end in range(PATIENCE, len(looked) + 1)]
            assert was_idle == [*(len(was_idle) - 1) * [False], True], looked


@pytest.mark.needs("mutants", "pytest")
def test_words_of_pytest(copy, monkeypatch):
    """Each run finds the code as it is then, also where Python keeps what it has compiled, and tells what has failed, or
    what it has found, and what it took."""
    monkeypatch.setenv("PYTEST_DISABLE_PLUGIN_AUTOLOAD", "1")
    monkeypatch.setenv("PYTHONDONTWRITEBYTECODE", "1")   # which no command is given
    [compiles] = TOOL.PARTS["python"].compiles
    test = "import code_of\n\ndef test_it():\n    assert code_of.sum_of(range({})) {}\n"
    for value, how in ((1, "failed"), (2, "passed"), (3, "failed")):
        (copy.folder / "code_of.py").write_text(f"def sum_of(numbers):\n    return {value}\n", "ascii")
        (copy.folder / "test_one.py").write_text(test.format("5", "== 2"), "ascii")
        assert copy.run(compiles.format(file="code_of.py")).how == "passed"
        assert copy.run(f"{TOOL.PYTEST} -p no:cacheprovider test_one.py")[::2] == (
            how, ["test_one.py::test_it"] if how == "failed" else [])
    found = copy.run(f"{TOOL.PYTEST} test_one.py --collect-only")
    assert found.tests == ["test_one.py::test_it"] and 0.01 < found.processor < 60
    assert [*copy.folder.glob("__pycache__/test_one.*.pyc")]


@pytest.mark.parametrize("part", [part for part in TOOL.PARTS.values() if part.language == "python"],
                         ids=lambda part: part.files)
def test_a_mutant_of_the_same_second(part, tmp_path):
    """What is imported is the text as it is, also if it has the length and the time of the one before."""
    for number in (1, 2, 1):
        (tmp_path / "code_of.py").write_text(f"NUMBER = {number}\n", "ascii")
        os.utime(tmp_path / "code_of.py", (1000, 1000))
        for command in part.compiles:
            check(["bash", "-c", command.format(file="code_of.py")], "", cwd=tmp_path)
        check(["/usr/bin/python3", "-c", "import code_of; print(code_of.NUMBER)"], f"{number}\n", cwd=tmp_path)


@pytest.mark.needs("mutants", "cc")
def test_an_object_is_made_once(copy):
    """Of a program only the source that has changed is compiled, by itself or by a header; each program is as by the
    compiler, and so is what that says."""
    def write(name, text):
        (copy.folder / name).write_text(text, "ascii")

    def is_built(words="main.c other.c", number=1):
        return copy.run(f"cc -Wall -Werror {words} -o program && test $(./program) = {number}").how == "passed"

    def made():
        return {path.name for path in (copy.folder / "programs" / "objects").glob("*.o")}
    write("main.c", "#include <stdio.h>\nint other(void);\nint main(void) { printf(\"%d\", other()); }\n")
    write("other.c", "#include \"other.h\"\nint other(void) { return VALUE; }\n")
    write("other.h", "#define VALUE 1\n")
    assert is_built() and len(made()) == 2
    assert is_built() and len(made()) == 2
    write("other.h", "#define VALUE 2\n")
    assert is_built(number=2) and len(made()) == 3
    write("other.c", "int other(void) { return 3; }\n")
    assert is_built(number=3) and is_built("-O2 -xc main.c other.c -xnone -lm", 3) and len(made()) == 6
    write("other.c", "int other(void) { int unused; return 3; }\n")
    assert not is_built() and is_built("-Wno-error main.c other.c", 3) and len(made()) == 7
    assert copy.run("test \"$(cc -Wall main.c other.c -o program 2>&1 | grep -c unused)\" -gt 0").how == "passed"


@pytest.mark.needs("mutants", "chromium")
def test_a_browser_begins_without_its_script(copy):
    """Which takes a third of its start, and nothing of what it sets matters to a test."""
    assert copy.run("cmp $(readlink -f $(command -v chromium)) /usr/lib/chromium/chromium").how == "passed"


def a_test(name, seconds, reaches=True, command="run"):
    return TOOL.Test(command, name, seconds, seconds / 2, {"a.c": {3: reaches, 5: False}})


def named(commands):
    return [[test.name for test in tests] for tests, *_ in commands]


class Recording:
    """A copy in which each command passes, and is noted with its limits."""

    def __init__(self, folder):
        self.folder, self.ran = folder, []

    def changed(self, mutant, made):
        return nullcontext()

    def run(self, command, memory=None, *limits):
        self.ran.append((command, memory, limits))
        return Ended("passed", 1)


def test_each_command_of_a_mutant_has_its_limits(tmp_path):
    """Those of its part in memory, and those of its tests in time. Tests that do not reach its line come too."""
    part = TOOL.Part("a.c", ["compile {file}"], ["one", "other"], memory=1234)
    tests = [TOOL.Test(name, "", 1, 1, {"a.c": {1: name == "one"}}) for name in part.tests]
    reach, copy = TOOL.Reach(tests), Recording(tmp_path)
    mutant = TOOL.Mutant("a.c", 0, "", "")
    assert TOOL.end_of(mutant, part, reach, copy) == ("survive", 3)
    assert [(command, memory) for command, memory, _ in copy.ran] == [
        ("compile a.c", 1234), ("one", 1234), ("other", 1234)]
    assert [limits for *_, limits in copy.ran] == [
        (300,), *(tuple(limits) for test in tests for _, *limits in reach.commands(mutant, [test]))]


def test_the_fastest_tests_that_reach_a_line_come_first():
    reach = TOOL.Reach([a_test("slow", 41), a_test("other", 2, False), a_test("quick", 1), a_test("good", 2)])
    mutant = TOOL.Mutant("a.c", 3, "", "")   # in the statement that begins in line 3
    reaching, others = reach.of(mutant)
    assert [[test.name for test in some] for some in (reaching, others)] == [["quick", "good", "slow"], ["other"]]
    commands = [*reach.commands(mutant, reaching)]
    assert named(commands) == [["quick", "good"], ["slow"]]
    assert [limits for _, *limits in commands] == [[60, 4], [645, 43]]
    assert reach.of(TOOL.Mutant("a.c", 4, "", ""))[0] == []
    assert len(reach.of(TOOL.Mutant("b.c", 4, "", ""))[1]) == 4


def test_what_refused_the_nearest_mutants_comes_first():
    """Two tests, if they reach the line: each in a case, or a whole command. Then comes what refused most for what it
    takes."""
    tests = {test.name: test for test in [a_test("slow", 41), a_test("off", 3, False), a_test("quick", 1),
                                          a_test("good", 2), a_test("", 9, command="go")]}
    reach = TOOL.Reach(tests.values())
    for number, name, told in ((9, "quick", ["quick[a case]"]), (5, "slow", ["slow"]), (2, "off", ["off"]), (1, "", []),
                               (6, "good", [])):
        reach.note(TOOL.Mutant("a.c", number, "", ""), [tests[name]], told)
    reaching = reach.of(TOOL.Mutant("a.c", 3, "", ""))[0]

    def first(file, number):
        return named(reach.commands(TOOL.Mutant(file, number, "", ""), reaching))[:2]
    assert [first("a.c", 3), first("a.c", 8)] == [[["slow"], [""]], [["quick", "slow"], ["good"]]]
    assert first("b.c", 8) == [["quick", "good"], [""]]
    for _ in range(20):
        reach.note(TOOL.Mutant("a.c", 9, "", ""), [tests["slow"]], ["slow"])
    assert first("b.c", 8) == [["quick"], ["slow"]]


def test_tests_of_a_file_stand_together():
    assert TOOL.joined([a_test(name, 1) for name in ("a::one", "b::two", "a::a case [1]")]) == (
        "run a::one 'a::a case [1]' b::two")


def test_made_files_have_no_mutants():
    """No file of a part is left out, but those that are as they are made."""
    left_out = {path.relative_to(ROOT).as_posix() for part in TOOL.PARTS.values() for path in ROOT.glob(part.files)} - {
        file for part in TOOL.PARTS.values() for file in TOOL.files_of(part)}
    made = {facts.MODULE: facts.made(lambda name: (ROOT / name).read_text("utf-8"))[facts.MODULE],
            lines.PAGE_LINES.relative_to(ROOT).as_posix(): lines.for_page()}
    assert {file: (ROOT / file).read_text("utf-8") for file in left_out} == made


@pytest.mark.parametrize("how", ["failed", "late"])
@pytest.mark.parametrize("place, end", [(0, "do not compile"), (1, "killed"), (2, "killed")])
def test_each_command_may_end_a_mutant(place, end, how, monkeypatch, tmp_path):
    """Also one that reaches its end only in a limit. None comes after it, and the seconds until then count."""
    part = TOOL.Part("a.c", ["compile {file}"], ["one", "other"])
    tests = [TOOL.Test(name, "", 1, 1, {"a.c": {1: name == "one"}}) for name in part.tests]
    reach, copy = TOOL.Reach(tests), Recording(tmp_path)
    monkeypatch.setattr(copy, "run", lambda command, *limits: Recording.run(copy, command, *limits)._replace(
        how=how if len(copy.ran) == place + 1 else "passed"))
    wanted = "late" if (end, how) == ("killed", "late") else end
    assert TOOL.end_of(TOOL.Mutant("a.c", 0, "", ""), part, reach, copy) == (wanted, place + 1)
    assert len(copy.ran) == place + 1
    assert [f"{test}" for _, test in reach.refusals] == [f"{test}" for test in tests if test.command == copy.ran[-1][0]]
