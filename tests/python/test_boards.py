# SPDX-License-Identifier: Apache-2.0 OR BSD-3-Clause
"""Scripts over the Python package: on a board, in the shell, and as a script for the program. Random ones without
damage are in tests/devices/test_random.py."""
import io
import random
import re

import pytest
from generators.lines import DOCUMENT, OF_DEVICES, PAGE_LINES, TABLES, for_page, for_readers
from harness import at_least
from made import random_script
from script import BYTES, FURTHER_LINES, LINES, PATTERNS, PROGRAM_LINES
from script_tests import FURTHER_TESTS, TESTS, kept_scripts, load_scripts, made_scripts, scripts_of
from seeds import seeds

from superio import Board, Rtc, ScriptError, board, parse
from superio.script import BadLine, line_of
from superio.session import Session

RANDOM_SCRIPTS, RANDOM_SESSIONS = 2_000, 400
# Further lines that mostly change nothing.
MOSTLY_IDLE = "sb", "cb", "si", "si", "si", "sl", "sl 00", "cl 00", f"cl {Rtc().to_bytes().hex()}"
KEPT = at_least(237, kept_scripts())
# In the shell, those that end well.
IN_SHELL = at_least(88, [test for path in sorted([*TESTS.glob("*.txt"), *FURTHER_TESTS.glob("*.txt")])
                          for test in scripts_of(path) if not test.end])


def lines_of(script):
    """The lines of a script. The last one may lack its LF."""
    return script[:-1 if script.endswith(b"\n") else None].split(b"\n") if script else []


def assert_replies(test):
    """A board that takes the program's lines alone, or all, replies as it should. What is too long is left to the
    program."""
    on_board, replies, end = Board(), [], ""
    for number, line in enumerate(lines_of(test.script.encode("latin-1")), 1):
        try:
            reply = on_board.reply(parse(line, is_first=number == 1, is_for_program=test.is_for_program))
        except ScriptError:
            end = f"bad line {number}"
            break
        replies += [] if reply is None else [reply]
    assert test.end == "script too long" or (replies, end) == (test.replies, test.end), test.place


def run_session(lines):
    """A shell that has carried out lines, and what it replied."""
    out = io.StringIO()
    session = Session(out)
    session.run_lines("script", lines)
    return session, out.getvalue().splitlines()


def said_by(session, line):
    """What a shell says to one more line."""
    start = session.stdout.tell()
    session.carry_out(line)
    return session.stdout.getvalue()[start:].splitlines()


def test_lines():
    """The program's are told from the further ones."""
    assert ({*PROGRAM_LINES}, {*FURTHER_LINES}) == ({*board.PROGRAM_LINES}, {*board.FURTHER_LINES})
    for name in FURTHER_LINES:
        line = f"{name} 00" if name in ("sl", "cl") else name
        assert parse(line.encode()).name == name
        with pytest.raises(ScriptError, match="^the program superio has no such line$"):
            parse(line.encode(), is_for_program=True)


def test_made():
    """The page and the document have the lines as they are here. The document has no table beside."""
    made = for_readers(DOCUMENT.read_text("utf-8"))
    assert (PAGE_LINES.read_text("ascii"), DOCUMENT.read_text("utf-8")) == (for_page(), made), "run tools/generate"
    for other in "", made + made[made.index("| Line | Effect |"):]:
        with pytest.raises(ValueError, match="^SCRIPT.md has [0-9]+ tables of lines$"):
            for_readers(other)


def test_heading_of_a_device(monkeypatch):
    """A device that has lines and no heading gets one, with a table, behind the others. The rest stays."""
    page = DOCUMENT.read_text("utf-8")
    lines = {"pw": board.PROGRAM_LINES["kw"]}
    monkeypatch.setitem(OF_DEVICES, "\n### A device of a test\n", lines)
    monkeypatch.setitem(TABLES, "\n### A device of a test\n", lines)
    row = next(line for line in page.splitlines() if line.startswith("| `kw ")).replace("`kw OO VV`", "`pw OO VV`")
    made = for_readers(page)
    added = f"\n### A device of a test\n\n| Line | Effect | Reply |\n|---|---|---|\n{row}\n"
    assert made == page.replace("\n## How a run ends\n", f"{added}\n## How a run ends\n")
    assert for_readers(made) == made
    assert for_readers(made.replace(row, "| an older row | |")) == made


def test_lines_of_no_device(monkeypatch):
    monkeypatch.delitem(OF_DEVICES, next(heading for heading in OF_DEVICES if "clock" in heading))
    with pytest.raises(ValueError, match="^interface.toml has no device for the lines cr, cw$"):
        for_readers(DOCUMENT.read_text("utf-8"))


def test_syntax_of_the_document():
    """Each line that a table shows is one, with a digit for each letter. Only the first of a script is in no table."""
    tables = re.findall(r"^\| Line \| Effect \| Reply \|\n((?:\|.*\n)+)", DOCUMENT.read_text("utf-8"), re.M)
    shown = [text for row in "".join(tables).splitlines() for text in re.findall("`([^`]+)`", row.split(" | ")[0])]
    for text in shown:
        name, *fields = text.split(" ")
        assert is_parsed(" ".join([name, *(re.sub("[A-Z.]", "0", field) for field in fields)]).encode()), text
    assert {text.partition(" ")[0] for text in shown} == {*PROGRAM_LINES, *FURTHER_LINES} - {board.MASK}


def is_parsed(line):
    try:
        return bool(parse(line, is_first=True))
    except ScriptError:
        return False


@pytest.mark.parametrize("name", [*PROGRAM_LINES, *FURTHER_LINES])
def test_near_lines(name):
    """With a byte more, less or other, a text is a line if the model takes it for one. A LF behind it is a byte more."""
    fields = ("6869" if digits == BYTES else "0123456789abcdef"[-digits:] for digits in LINES[name][1:])
    line = " ".join([name, *fields]).encode()
    places = range(len(line) + 1)
    near = [line, *(line[:place] + line[place + 1:] for place in places)]
    near += [line[:place] + bytes([byte]) + line[place + less:] for place in places for less in (0, 1)
             for byte in (range(256) if place in (0, len(line)) else b"\0\t\n\r +-/09:@AFGafgx\xff")]
    assert is_parsed(line)
    for text in near:
        assert is_parsed(text) == bool(PATTERNS[False].fullmatch(text.decode("latin-1"))), text


@pytest.mark.parametrize("test", KEPT, ids=lambda test: test.place)
def test_kept_script(test):
    assert_replies(test)


def test_loads():
    for test in at_least(150, load_scripts()):
        assert_replies(test)


def test_random_scripts():
    """One of eight is broken."""
    for test in made_scripts("python", RANDOM_SCRIPTS):
        assert_replies(test)


@pytest.mark.parametrize("test", IN_SHELL, ids=lambda test: test.place)
def test_in_the_shell(test):
    """The trace then has the script's lines. So has the script for the program, if the program knows them."""
    session, replies = run_session(lines_of(test.script))
    assert replies == test.replies.decode().splitlines()
    made = [line_of(command) for command in session.commands]
    assert " ".join(made).split() == test.script.decode().lower().split()
    if test.by_program == test:
        assert said_by(session, b"script") == made


def outcome_of(seed):
    """What becomes of the script for the program that a random session with idle lines writes."""
    source = random.Random(seed)
    first, *lines = random_script(source, is_for_program=source.random() < 0.3).splitlines() or [""]
    for _ in range(source.randrange(3)):
        lines.insert(source.randrange(len(lines) + 1), source.choice(MOSTLY_IDLE))
    try:
        session, _ = run_session(line.encode("latin-1") for line in [first, *lines])
    except BadLine:
        return "broken"
    try:
        script = said_by(session, b"script")
    except ScriptError as error:
        call = int(re.search("of this session: call ([0-9]+), ", str(error))[1])
        return session.commands[call - 1].name
    made = Board()
    for number, line in enumerate(script):
        made.run(parse(line.encode(), is_first=number == 0, is_for_program=True))
    assert made.snapshot() == session.board.snapshot(), seed
    return "left out" if len(session.commands) > made.number else "nothing left out"


def test_a_script_for_the_program():
    """It has only lines of the program, and makes of a board what the session made. There is none if a further line
    changed something."""
    outcomes = {outcome_of(seed) for seed in seeds("session", RANDOM_SESSIONS)}
    assert {"left out", "nothing left out", "cl", "broken"} <= outcomes
