# SPDX-License-Identifier: Apache-2.0 OR BSD-3-Clause
"""What makes the cases of several tests loses none of them, at either end."""
import lzma
import random
import re
from functools import cache
from itertools import product

import console
import model
import pytest
import script_tests
from board import OFTEN, Board
from common.facts import DLAB, ERRORS, FIFO_SIZE, LOOPBACK, OUTPUT_SIZE, word_of
from documents import CODE, Document, table
from facts import BITS, ENABLED_BY, FRESH
from harness import at_least
from made import (CLOCK, CLOCK_CONTENTS, CLOCK_FIELDS, SHOWN, any_call, broken_lines, clock_state, every_load,
                  random_calls, saved)
from recorded import Recorder, every_answer, random_recorded, read, recordings, rows_of
from script import BYTES, FURTHER_LINES, LINES, call_of, replies_of
from script_tests import (FURTHER_TESTS, TESTS, Script, board_scripts, kept_scripts, load_scripts, made_scripts,
                          refused_scripts, refusing_scripts, scripts_of)
from seeds import random_source, seeds

FILES = at_least(7, sorted([*TESTS.glob("*.txt"), *TESTS.glob("*.xz"), *FURTHER_TESTS.glob("*.txt")]))


@cache
def loads():
    return [*every_load()]


def test_loads():
    """Each state is loaded as a port and as a clock, and saved after it. Each call is in a script, in order."""
    calls = loads()
    kinds = "load", "save", "clock_load", "clock_save"
    assert [call[0] for call in calls] == [*kinds] * (len(calls) // 4) and len(calls) > 60_000
    assert all(load[1] == clock[1] for load, clock in zip(calls[::4], calls[2::4]))
    assert [call_of(line) for test in load_scripts() for line in test.script.splitlines()] == calls


@pytest.mark.parametrize("count", [0, 1, 5, 11])
def test_made_scripts(count):
    """A fifth more are for a board that refuses the further lines."""
    made = [*made_scripts("cases", count)]
    assert [test.is_for_program for test in made] == [False] * count + [True] * (count // 5)
    assert [test.place for test in made] == [*seeds("cases", count), *seeds("cases as the program", count // 5)]
    assert made[count:] == [*refusing_scripts("cases", count // 5)]
    assert len({test.script for test in made}) == len(made)
    assert len(random_recorded(seeds("cases", count))) == len(seeds("cases", count)) == count


def test_kinds_of_made_scripts():
    """Half of those for a board that refuses the further lines have one."""
    made = [test.script for test in refusing_scripts("cases", 200)]
    further = sum(any(line[:2] in FURTHER_LINES for line in script.splitlines()) for script in made)
    assert 50 < further < 150


def test_board_scripts(monkeypatch):
    kinds = "kept", "load", "made"
    for kind in kinds:
        monkeypatch.setattr(script_tests, f"{kind}_scripts",
                            lambda *given, kind=kind: [(kind, *given, number) for number in range(2)])
    assert board_scripts("cases", 10) == [(kind, *(("cases", 10) if kind == "made" else ()), number)
                                          for kind in kinds for number in range(2)]


@pytest.mark.parametrize("path", FILES, ids=lambda path: path.name)
def test_scripts_of_a_file(path):
    """Rows without an empty line between them are one script, or as many as have `script` before them."""
    text = (lzma.open(path, "rt", encoding="utf-8") if path.suffix == ".xz" else path.open(encoding="utf-8")).read()
    blocks = [re.sub(r"^#.*$", "", block, flags=re.M) for block in re.split(r"\n\n+", f"{text.strip()}\n")]
    counts = [len(re.findall('^script "', block, re.M)) or 1 for block in blocks if block.strip()]
    assert len([*scripts_of(path)]) == sum(counts) > 0


def test_kept_scripts(monkeypatch):
    """All of the files, and those of documents. Where neither input nor memory fails, each is tried; with further lines
    on both kinds of board."""
    shown = Script("shown", b"sr 05\n", b"60\n")
    monkeypatch.setattr(script_tests, "of_documents", lambda: [shown])
    shared, further = ([test for path in sorted(folder.glob("*.txt")) for test in scripts_of(path)]
                       for folder in (TESTS, FURTHER_TESTS))
    tried = [test.place for test in shared if test.end.partition(" ")[0] not in ("input", "out")]
    places = [test.place for test in further]
    assert [(test.place, test.is_for_program) for test in kept_scripts()] == [
        *((place, True) for place in tried), *((place, False) for place in [*places, "shown"]),
        *((place, True) for place in places), *((test.place, True) for test in refused_scripts())]


def test_refused_scripts():
    """Each further line at six places, of which half are the last. Bytes come in three ways."""
    scripts = [test.script.decode() for test in refused_scripts()]
    assert len({*scripts}) == sum(18 if BYTES in digits else 6 for _, *digits in FURTHER_LINES.values()) == len(scripts)
    for name in FURTHER_LINES:
        places = [script.splitlines().index(line) for script in scripts for line in script.splitlines() if line == name]
        assert places == [0, 0, 1, 1, 1, 1]


def test_broken_lines():
    """Of each line: what comes before each of its characters, and its end, with each of nine others there."""
    sizes = [len(name) + sum(1 + (4 if digits == BYTES else digits) for digits in LINES[name][1:]) for name in LINES]
    assert len([*broken_lines()]) == sum((size + 1) * 10 for size in sizes)


def faults_of(device):
    """What loads as a device may reply: all of the errors that such bytes can have, and that they were taken."""
    other = "invalid armed" if device == "serial" else "too many bytes"
    return {"ok", *(words for words in map(word_of, ERRORS) if words not in (other, "invalid flags"))}


def test_loads_have_each_reply():
    """Of a port and of a clock: no fault, and each that there may be."""
    calls = [call for call in loads() if call[0] in ("load", "clock_load")]   # of fewer, a reply might be missing
    replies = replies_of(Board(model), calls)
    for name, device in ("load", "serial"), ("clock_load", "clock"):
        found = {re.sub("(version) ..", r"\1", reply) for call, reply in zip(calls, replies) if call[0] == name}
        assert found == faults_of(device), name


# Calls that are drawn as board.py says, each with what its fields often have.
DRAWN = [(call, kinds, OFTEN[call]) for call, *kinds in LINES.values() if any(OFTEN[call])]


@pytest.mark.parametrize("call, kinds, often", at_least(2, DRAWN), ids=str)
def test_numbers_that_come_often(call, kinds, often):
    """Each comes as often as the others and, if it stands twice, twice as often. So does any other number."""
    source, draws = random_source(call), 20_000
    fields = [*zip(*(any_call(call, kinds, source)[1:] for _ in range(draws)))]
    for digits, numbers, found in zip(kinds, often, fields, strict=True):
        for number in {*numbers} if digits != BYTES else ():
            assert found.count(number) > draws * numbers.count(number) / (len(numbers) + 1) * 0.9, number
        if digits != BYTES:
            assert sum(number not in numbers for number in found) > draws / (len(numbers) + 1) * 0.9


@cache
def runs():
    """Random recorded calls, the same in each run of the tests: a rare kind comes in one of 150."""
    return random_recorded(map(str, range(1000)))


def kind_of(call, reply):
    """The name of a recorded call, and whether it succeeded or why not, if its reply begins with that."""
    return call[:2], *({reply.split(" ")[0]} & {"ok", "trigger", "io", "full"})


def test_random_calls_have_each_kind():
    """Each call of a recording, with each way in which it ends there, each behaviour of the objects, and each call of
    them."""
    calls = [call for run in runs() for call in run]
    assert {call[:2] for call in calls} == {row[:2] for text in recordings().values() for row in text.splitlines()
                                            if " = " in row}
    words = {word for call in calls if call[0] != "c" for word in call.split() if len(word) == 1}
    assert words - {"-"} == {*"12nfui"} == {call[-1] for call in calls if re.fullmatch(r"sw 00 \w\w \w", call)}
    recorder, did, said = Recorder(model), set(), set()
    for call in calls:
        reply = recorder.make(call)
        said.add(kind_of(call, reply))
        did |= {reply[-1]} & {*"ij"} if call[0] == "c" else {word[0] for word in recorder.did}
    assert did == {*"TRWFboleij"}
    assert said == {kind_of(*row) for text in recordings().values() for row in rows_of(text)}


def behaviours():
    """The words of each behaviour, by the table of tests/README.md: those of the trigger, alone and together, with each
    one of the writer, and none."""
    rows = [(CODE.findall(words), of) for words, of in table(Document("tests/README.md").text, "Word | The objects")]
    [first, second] = [word for words, of in rows for word in words if "trigger" in of]
    others = [word for words, of in rows for word in words if "trigger" not in of]
    return {" ".join(filter(None, words)) for words in product(["", first, second, f"{first} {second}"], ["", *others])}


def test_random_calls_have_each_behaviour():
    """After each call in which objects can be called."""
    found = {}
    for name, *_, words in (read(call) for run in runs() for call in run):
        found.setdefault(name, set()).add(words.strip())
    wanted = {*at_least(20, behaviours())}
    assert found == {name: {""} if name[0] == "c" else wanted for name in found}


ENDS = {"serial_write": ["ok", "io", "trigger"], "enqueue": ["full", "trigger"], "timeout": ["ok", "trigger"],
        "restore": ["ok", "trigger"], "load": ["ok", "trigger"], "clock_write": ["ok", "invalid"]}


def test_random_scripts_have_each_end():
    """Each end of a call, and of its numbers: both of 32 bits and, for moments, also with higher bits."""
    calls, ended, ends = [], set(), {*range(4), *range(2**32 - 4, 2**32)}
    for some in (random_calls(random.Random(str(seed))) for seed in range(400)):   # the same in each run of the tests
        calls += some
        ended |= {*zip((name for name, *_ in some if name != "refuse"), replies_of(Board(model), some))}
    assert {(name, end) for name in ENDS for end in ENDS[name]} <= ended
    rows = [call for call in calls if call[0] == "clock_write"]
    assert all(ends <= {number % 2**32 for number in column} for column in list(zip(*rows))[1::2])
    assert {0, 1} < {moment >> 32 for _, moment, *_ in rows}


def test_random_clocks_have_each_end():
    """Numbers at both ends, offsets in each quarter of their range, near 0 and near the highest, and both bits."""
    states = [clock_state(random.Random(str(seed))) for seed in range(400)]
    ends = {"I": {0, 2**32 - 1}, "q": {-1, 0, 2**63 - 1 >> 40}, "b": {0, 1}}
    for name, kind in CLOCK_FIELDS.items():
        assert ends[kind] <= {state[name] >> 40 * (kind == "q") for state in states}, name
    assert {state["offset"] >> 62 for state in states} == {*range(-2, 2)}


def kinds(number, *ends):
    """Beside a number its place: at an end, before, between or behind them."""
    return number if number in ends else sum(end < number for end in ends) + 0.5


def test_random_consoles_have_each_shape():
    """Structs have each flag off, on and as another number, and rings with some bytes and too many. Saved states are
    good, or fail a check, and calls have each refusal."""
    calls = [call.split(" ") for seed in range(2000) for call in console.random_run(random.Random(str(seed)))]
    structs = [words for name, *words in calls if name == "lx"]
    flags = zip(*(bytes.fromhex(words[-1]) for words in structs))
    assert [{kinds(byte, 0, 1) for byte in column} for column in flags] == [{0, 1, 2.5}] * len(console.FLAGS)
    ports, heads, counts, _, dropped, _ = zip(*structs)
    held = {kinds(bytes.fromhex(port)[console.REGISTERS + 1], 0, FIFO_SIZE) for port in ports}
    assert {0, 1.5, FIFO_SIZE, 2.5} == held and {kinds(int(head, 16), OUTPUT_SIZE) for head in heads} == {0.5, 1.5}
    assert {kinds(int(count, 16), OUTPUT_SIZE) for count in counts} >= {0.5, 1.5}
    assert {kinds(int(number, 16), 0, console.MOST) for number in dropped} == {0, 1.5, console.MOST}
    faults = {console.console_fault(bytes.fromhex(data.strip("-"))) for name, *words in calls if name == "ll"
              for data in words}
    assert faults >= {"ok", "too short", "not a saved state", "other device", "unknown version", "wrong length",
                      "too many bytes", "invalid flags"}
    assert all({("lr", word), ("lw", word), ("lq", word), ("lt", word)} <= {(words[0], words[-1]) for words in calls}
               for word in "12")


@pytest.mark.parametrize("name", CLOCK_FIELDS)
def test_each_field_of_a_clock_is_shown(name):
    """By the calls at the end of a random script, the last of which come after an alarm: if clocks differ in one field,
    their replies do."""
    state = {**{other: {"I": 4, "q": -3, "b": 0}[kind] for other, kind in CLOCK_FIELDS.items()}, "IMSC": 1}

    def shown(clock):
        return replies_of(Board(model), [("clock_load", saved(CLOCK, CLOCK_CONTENTS.pack(*clock.values()))), *SHOWN])
    assert shown(state) != shown({**state, name: state[name] ^ 1})


def told_apart(start):
    """What rules tell apart of a port's state: which conditions are enabled and which are pending, the divisor latch,
    loopback, and how many bytes there are."""
    registers, held = (bytes.fromhex(word.strip("-")) for word in start.split(" ")[1:])
    port = dict(zip(FRESH, registers))
    return (tuple(bool(port["IER"] & bit) for bit in ENABLED_BY.values()),
            tuple(bool(port["IIR"] & BITS["IIR"][condition]) for condition in ENABLED_BY),
            bool(port["LCR"] & DLAB), bool(port["MCR"] & LOOPBACK), len(held))


def test_every_answer():
    """Each state has each call, between a line that makes the state and one that shows it."""
    lines, states = [*every_answer()], 4 * 4 * 2 * 2 * 3
    answers = lines[:-6 * 256]
    starts = list(dict.fromkeys(answers[::3]))
    assert len(starts) == states and {*answers[2::3]} == {"ss"}
    assert sorted(map(told_apart, starts)) == sorted(product(
        product((False, True), repeat=2), product((False, True), repeat=2), (False, True), (False, True),
        (0, 1, FIFO_SIZE)))
    of_first = answers[1:len(answers) // states:3]
    assert answers == [line for start, call in product(starts, of_first) for line in (start, call, "ss")]
    assert [re.sub(" .*", "", line) for line in lines[-6 * 256:]] == ["kr", "kw", "kw"] * 512
    assert len({*lines[-6 * 256:]}) == 6 * 256 - 2   # kw 04 fe comes by offset and by value, with each answer
