# SPDX-License-Identifier: Apache-2.0 OR BSD-3-Clause
"""Which tests reach a line, how long each test takes, and which tests come first. Debian's coverage tells which lines
of Python are reached, Node and Chromium which lines of JavaScript, and gcov which lines of C. Nothing tells this for
Rust, because its compiler and LLVM's tools may have different versions, nor for the monitor for KVM, because its tests
would take gcov's system calls for the monitor's own."""
import json
import shutil
import time
from bisect import bisect_right
from collections import Counter
from difflib import SequenceMatcher
from pathlib import Path
from shlex import quote
from typing import NamedTuple

from mutation.copies import PYTEST

MOST_NEAREST = 2   # tests that come first, since they refused another mutant
MOST_SAID = 20     # lines that are told of a test that refuses the code as it is
# What a command does while it tells what it reaches, in the folder $REACH of a copy.
BEGINS = {
    "python": """export HOME=$REACH COVERAGE_PROCESS_START=$REACH/rc
site=$(/usr/bin/python3 -m site --user-site); mkdir -p $site
printf 'try:\\n import coverage\\n coverage.process_startup()\\nexcept ImportError: pass\\n' > $site/usercustomize.py
printf '[run]\\nparallel = True\\ndata_file = %s\\nsource = %s\\n' $REACH/data "$PWD" > $REACH/rc""",
    "node": """export NODE_V8_COVERAGE=$REACH PATH=$REACH/bin:$PATH
mkdir $REACH/bin; ln -s $PWD/tools/mutation/chromium $REACH/bin/chromium""",
    "gcov": """find $REACH/.. -name '*.gcda' -delete; mkdir $REACH/bin; export PATH=$REACH/bin:$PATH
printf '#!/bin/sh\\nexec /usr/bin/${0##*/} --coverage -fprofile-update=atomic "$@"\\n' > $REACH/bin/cc
chmod +x $REACH/bin/cc; cp $REACH/bin/cc $REACH/bin/gcc""",
    "": "",
}
ENDS = {
    "python": """unset COVERAGE_PROCESS_START; /usr/bin/python3 -m coverage combine -q --rcfile $REACH/rc
/usr/bin/python3 -m coverage json -q -i --rcfile $REACH/rc -o $REACH/python.json""",
    "node": "",
    "gcov": "find /tmp $REACH/.. -name '*.gcda' -exec gcov --json-format --stdout {} + | grep '^{' > $REACH/gcov",
    "": "",
}


class Test(NamedTuple):
    """A test: a command or, with a name, one of the names that a command takes. `lines` has the lines of files about
    which something is known, each with whether the test reaches it. A test that refuses the code as it is has a
    `refusal`: how it ended, and what it said last."""
    command: str
    name: str
    seconds: float = 0     # how long the test takes
    processor: float = 0   # how many seconds of a processor it takes: as many on a busy machine
    lines: dict = {}
    refusal: str = ""

    def __str__(self):
        return joined([self])


def file_of(test):
    return test.name.partition("::")[0]


def joined(tests):
    """One command for tests of one command. Those of a file stand together, since it makes once what they share."""
    files = [*dict.fromkeys(map(file_of, tests))]
    ordered = sorted(tests, key=lambda test: files.index(file_of(test)))
    return " ".join([tests[0].command, *(quote(test.name) for test in ordered if test.name)])


def split(command, copy, keeps_cases):
    """The tests of a command. A command of pytest has many. If `keeps_cases`, each case of a test is one of its own."""
    if not command.startswith(PYTEST):
        return [Test(command, "")]
    begin, _, chosen = command.partition(" -k ")
    base = PYTEST + (f" -k {chosen}" if chosen else "")
    names = dict.fromkeys(name if keeps_cases else name.partition("[")[0]
                          for name in copy.run(f"{command} --collect-only").tests)
    return [Test(base, name) for name in names]


def lines_of_python(folder):
    """The first line of each statement, by file, and whether it ran."""
    files = json.loads((folder / "python.json").read_text(encoding="utf-8"))["files"]
    return {name: {**dict.fromkeys(file["missing_lines"], False), **dict.fromkeys(file["executed_lines"], True)}
            for name, file in files.items()}


def lines_that_ran(script, text):
    """Whether each line of a script ran: a later range of its functions is within an earlier one, or beside it."""
    runs, begin, lines = bytearray(len(text)), 0, []
    for span in (span for function in script["functions"] for span in function["ranges"]):
        first, end = span["startOffset"], min(span["endOffset"], len(text))
        runs[first:end] = bytes([span["count"] > 0]) * (end - first)
    for line in text.split("\n"):
        lines.append(any(runs[begin + len(line) - len(line.lstrip()):begin + len(line)]))
        begin += len(line) + 1
    return lines


def lines_of_node(folder, sources):
    """The lines of modules, which a page may have packed into one script, without some lines and without `export`."""
    found, root = {}, folder.parent
    texts = {file: (root / file).read_text(encoding="utf-8") for file in sources}
    urls = {(root / file).as_uri(): file for file in sources}
    told = [json.loads(path.read_text(encoding="utf-8")) for path in folder.glob("coverage-*.json")]
    for script in (script for report in told for script in report["result"]):
        file = urls.get(script["url"])
        text = texts.get(file) or script.get("text", "")
        ran = lines_that_ran(script, text)
        for name in [file] if file else sources if text else []:
            own = [line.removeprefix("export ") for line in texts[name].split("\n")]
            theirs, lines = own if file else text.split("\n"), found.setdefault(name, {})
            for first, second, size in SequenceMatcher(None, theirs, own).get_matching_blocks():
                for place in range(size):
                    lines[second + place + 1] = lines.get(second + place + 1, False) or ran[first + place]
    return found


def lines_of_gcov(folder, sources):
    """The lines of C. Tests may compile a copy of a source, which has its name."""
    found, names = {}, {Path(source).name: source for source in sources}
    for told in (folder / "gcov").read_text(encoding="utf-8").splitlines():
        for file in json.loads(told)["files"]:
            lines = found.setdefault(names.get(Path(file["file"]).name, ""), {})
            for line in file["lines"]:
                lines[line["line_number"]] = lines.get(line["line_number"], False) or line["count"] > 0
    return found


LINES = {"python": lambda folder, _: lines_of_python(folder), "node": lines_of_node, "gcov": lines_of_gcov,
         "": lambda *_: {}}


def measured(test, copy, language, sources, memory):
    """A test with its time and what it reaches, or with its refusal of the code as it is."""
    folder = copy.folder / "reach"
    shutil.rmtree(folder, ignore_errors=True)
    folder.mkdir()
    said = folder / "said"
    said.touch()
    told = f"{test} > {said} 2>&1"
    command = f"export REACH={folder}\n{BEGINS[language]}\n{told}\nstatus=$?\n{ENDS[language]}\nexit $status"
    began = time.monotonic()
    ended = copy.run(command if language else f"{test}", memory)
    seconds = time.monotonic() - began
    if ended.how != "passed":
        if not language:   # the runner's own pytest says nothing
            copy.run(told, memory)
        last = said.read_text(encoding="utf-8", errors="replace").splitlines()[-MOST_SAID:]
        return test._replace(refusal="\n    ".join([ended.how, *last]))
    lines = LINES[language](folder, sources)
    return test._replace(seconds=seconds, processor=ended.processor,
                         lines={source: lines[source] for source in sources if source in lines})


class Reach:
    """The tests of a part. If nothing is known of any line, each test may reach all of them."""

    def __init__(self, tests):
        self.tests = sorted(tests, key=lambda test: test.processor)
        self.start = {test.command: test for test in self.tests[::-1]}
        self.first = self.total("processor", self.tests) / 20
        files = {file for test in tests for file in test.lines}
        self.known = {file: sorted({line for test in tests for line in test.lines.get(file, ())}) for file in files}
        self.refusals = []   # mutants, each with the test that refused it

    def total(self, what, tests):
        """How many seconds, of time or of a processor, the tests take, without what their commands take to start."""
        return sum(max(0, getattr(test, what) - getattr(self.start[test.command], what)) for test in tests)

    def of(self, mutant):
        """The tests that reach the line of a mutant, or the statement that this line is in; and all other tests."""
        known, line = self.known.get(mutant.file, []), mutant.number + 1
        line = known[max(0, bisect_right(known, line) - 1)] if known else None
        reaching = [test for test in self.tests if not self.known or test.lines.get(mutant.file, {}).get(line)]
        return reaching, [test for test in self.tests if test not in reaching]

    def note(self, mutant, tests, refused):
        """Notes that one of these tests refused a mutant. `refused` has its name and case, if pytest told them."""
        for test in tests:
            if test.name in ("", *refused[:1], *(name.partition("[")[0] for name in refused[:1])):
                self.refusals.append((mutant, test))

    def nearest(self, mutant, tests):
        """Those of the tests that refused the mutants nearest to this one."""
        near = sorted((abs(other.number - mutant.number), place) for place, (other, test) in enumerate(self.refusals)
                      if other.file == mutant.file and test in tests)
        return [*{f"{self.refusals[place][1]}": self.refusals[place][1] for _, place in near}.values()][:MOST_NEAREST]

    def groups(self, tests):
        """The tests in groups. First come the tests that are quick, or that refused many mutants for the time they
        took. The first group takes a twentieth of what all take, and each later group up to four times the one
        before."""
        counts = Counter(f"{test}" for _, test in self.refusals)
        most, groups = self.first, [[]]
        for test in sorted(tests, key=lambda test: test.processor / (1 + counts[f"{test}"])):
            if groups[-1] and self.total("processor", [*groups[-1], test]) > most:
                most *= 4
                groups.append([])
            groups[-1].append(test)
        return groups

    def commands(self, mutant, tests):
        """The tests of each command to run, with its limits: seconds, and seconds of a processor. First come the tests
        that refused mutants near this one. A limit is several times what was measured, since a busy machine is
        slower."""
        nearest = self.nearest(mutant, tests)
        for group in [nearest, *self.groups([test for test in tests if test not in nearest])]:
            for command in dict.fromkeys(test.command for test in group):
                found, start = [test for test in group if test.command == command], self.start[command]
                seconds = start.seconds + self.total("seconds", found)
                yield found, 30 + 15 * seconds, 2 + 2 * (start.processor + self.total("processor", found))
