# SPDX-License-Identifier: Apache-2.0 OR BSD-3-Clause
"""Recorded traces in the viewer of the Python package: how they are searched, listed and drawn."""
import io
import json
import lzma
import re
from collections import Counter
from contextlib import redirect_stderr
from functools import lru_cache
from itertools import groupby
from xml.etree import ElementTree

import pytest
from harness import ROOT, at_least, check
from support import run

from superio.recording import entries_of, picture, replay
from superio.script import BadLine, line_of
from superio.view import _PLACES, Viewer, table

RECORDING = ROOT / "examples" / "linux-boot" / "boot.recording.xz"
WITH_INPUT = RECORDING.with_name("console.recording.xz")
FIGURE = RECORDING.with_name("linux-boot.svg")

TRACE = b"""\
# both conditions, a refusal, and a reset
refuse 0000000000000002
sw 01 01                             ok
sq 6162                              02
sr 05                                61
sr 00                                61
sw 01 03                             trigger
sr 02                                c4
sw 00 41                             ok
si                                   ok

2 kr 04  00
kw 04 fe  ok
"""

# The calls that commands lead to, one after the other in TRACE, or what is said where none is.
PLACES = [("next", 2), ("next 3", 5), ("back 2", 3), ("next thre", 8), ("back rda", 6), ("back rda", 3),
          ("next input", "no input further on"), ("first", 1), ("next interrupt", 3), ("next refused", 6),
          ("next sent", 8), ("next reset", 12), ("back IIR", 7), ("back lsr", 4), ("first", 1),
          ("next difference", 12), ("goto 4", 4), ("next change", 5), ("back input", 3), ("last", 12),
          ("next", "there is no call further on"), ("goto 0", "there is no call before"),
          ("goto x", "the syntax is: goto N"), ("first", 1), ("back", "there is no call before"), ("", 2),
          ("foo", "no command is called foo: help lists them"), ("next timeout", 9),
          ("goto 13", "there is no call further on"), ("goto 3", 3), ("back sent", "no sent before"),
          ("last", 12), ("back difference", "no difference before"), ("back reset", "no reset before"),
          ("back timeout", 9), ("back sent", 8), ("back thre", "no thre before"), ("back change", 7),
          ("back refused", 6), ("back interrupt", 3), ("next rda", 6), ("goto 20", "there is no call further on"),
          ("back 6", "there is no call before"), ("next 7", "there is no call further on"), ("back 5", 1)]

# Traces, and the bars of their lanes in the picture.
PICTURES = [
    (b"sw 01 01\nsq 61\nsr 02\nsr 05\n",
     ["RDA pending", "M320 80v-34h200v34z", "bytes held", "M320 128v-5h600v5z", "interrupts", "M320 176v-34h200v34z"]),
    # A refused call is no interrupt.
    (b"refuse 0000000000000001\nsw 01 01\nsq 61\nsr 05\n",
     ["RDA pending", "M520 80v-34h400v34z", "bytes held", "M520 128v-5h400v5z", "refused", "M520 176v-34h200v34z"]),
    # A column of many calls has their mean.
    (b"sq 61\nsr 00\n" * 800, ["bytes held", "M120 80v-5h800v5z"]),
    (b"sq " + b"00" * 32 + b"\nsr 05\n", ["bytes held", "M120 80v-17h800v17z"]),
    (b"cr 0000000000000000 0000\nkr 04\nsc\nsr 05\n",
     ["clock", "M120 80v-34h200v34z", "controller", "M320 128v-34h200v34z"]),
    (b"sr 05\n", []),
]


def steps_of(trace):
    return list(replay("trace", trace.splitlines(keepends=True)))


@lru_cache   # of a long one several tests look at the steps
def steps_in(recording):
    return steps_of(lzma.decompress(recording.read_bytes()))


def said(viewer, line):
    """What the viewer says to a command."""
    viewer.stdout = io.StringIO()
    with redirect_stderr(viewer.stdout):
        viewer.onecmd(line)
    return viewer.stdout.getvalue()


def test_each_piece_begins_on_a_fresh_board():
    steps = steps_of(b"sw 07 05\n\nsr 07\n# comment\nsr 07\n\n\nrefuse 0000000000000001\n")
    assert [(step.piece, step.call.reply) for step in steps] == [(1, "ok"), (2, "00"), (2, "00"), (3, None)]


@pytest.mark.parametrize("spaces", [1, 2, 20])
def test_short_forms(spaces):
    """A text, and a reply that was recorded, may stand below others."""
    trace = 'sent "Hi"\npolled "!"\nso "Hi!"\nsq "ab"  02\nreceived "ab"\n2 sr 05  60\n'
    trace = trace.replace("  ", " " * (spaces + 1)).replace(' "', " " * spaces + '"')
    steps = steps_of(trace.encode())
    lines = "sw 00 48,sw 00 69,sr 05,sw 00 21,so,sq 6162,sr 05,sr 00,sr 05,sr 00,sr 05,sr 05"
    assert ",".join(line_of(step.call.command) for step in steps) == lines
    assert not any(step.differs for step in steps)


@pytest.mark.parametrize("trace, reason", [
    (b"sr 05\nsr 5\n", 'trace:2: "sr 5": the syntax is: sr OO'),
    (b'sent "\xc3\xa9"\n', "the text is no JSON string of ASCII"),
    (b"sr 05\nrefuse 0000000000000001\n", "a mask comes before every other line"),
    # Numbers at which a machine, a list of Python and its reader of numbers end. A wrong line, so that no call is made.
    *((b"9" * digits + b" sr 5\n", 'trace:1: "9+.*": no line has this name') for digits in (7, 12, 20, 5000))],
    ids=lambda value: str(value)[:30])
def test_faults(trace, reason):
    with pytest.raises(BadLine, match=reason):
        steps_of(trace)


def test_the_most_often_that_a_row_repeats_its_line():
    assert entries_of("999999 sr 05  60") == [("sr 05", "60")] * 999_999


def test_each_place_is_looked_for_in_both_directions():
    assert {*_PLACES} <= {line.partition(" ")[2] for line, _ in PLACES if line.startswith("next ")}
    assert {*_PLACES} <= {line.partition(" ")[2] for line, _ in PLACES if line.startswith("back ")}


def test_help_lists_each_place():
    """And nothing else, in the words that `next` takes."""
    [about] = [entry.about for entry in Viewer.groups["Commands"] if entry.name == "next"]
    assert sorted(re.search("next WHAT: (.*), or an access", about)[1].split(", ")) == sorted(_PLACES)


def test_places():
    viewer = Viewer(steps_of(TRACE), "trace", None)
    for line, place in PLACES:
        expected = place if isinstance(place, str) else f"call {place} of 12"
        assert said(viewer, line).partition(",")[0].strip() == expected, line
    assert "nothing is called foo" in said(viewer, "next foo")


def test_what_is_shown():
    viewer = Viewer(steps_of(TRACE), "trace", None)
    assert said(viewer, "goto 6") == (
        "call 6 of 12, piece 1: sw 01 03  trigger\n  IER: ok; interrupt for RDA refused\n"
        "  IER 0x01 -> 0x03  RDA THRE\n  IIR 0xc1 -> 0xc4  RDA\n  interrupt refused\n")
    assert "  pending: RDA\n" in said(viewer, "regs")
    rows = said(viewer, "list").splitlines()
    assert [int(row.lstrip("> ").split()[0]) for row in rows] == [*range(1, 12)]
    assert ">       6  sw 01 03" in rows[5]
    said(viewer, "next")
    assert [int(row.lstrip("> ").split()[0]) for row in said(viewer, "list").splitlines()] == [*range(2, 13)]


def test_a_reply_that_differs():
    steps = steps_of(TRACE)
    assert [number for number, step in enumerate(steps, 1) if step.differs] == [12]
    assert table(steps).endswith("     12  kw 04 fe                  reset  recorded: ok\n")
    assert said(Viewer(steps, "trace", None), "last").endswith("\n  recorded: ok\n")


# Lines with what a fresh board replies, of each length, and with other replies that may be recorded: none, less, more,
# another one.
REPLIES = {"so": ("(empty)", ["48", "00", "ok"]), "kr 04": ("00", ["(empty)", "0", "000", "01"]),
           "sw 07 05": ("ok", ["(empty)", "o", "okk", "io"]), "refuse 0000000000000001": ("(empty)", ["ok", "00"])}


@pytest.mark.parametrize("line", REPLIES)
def test_each_reply_that_differs(line):
    """One without a recorded reply does not."""
    same, others = REPLIES[line]
    for row in (line, f"{line}  {same}"):
        assert [step.differs for step in steps_of(row.encode())] == [False]
    for recorded in others:
        steps = steps_of(f"{line}  {recorded}\n".encode())
        assert [step.differs for step in steps] == [True], recorded
        shown = "" if recorded == "(empty)" else recorded
        assert f"recorded: {shown}" in table(steps) and f"recorded: {shown}" in said(Viewer(steps, "trace", None), "last")


@pytest.mark.parametrize("trace, parts", PICTURES, ids=lambda value: str(value)[:30])
def test_bars(trace, parts):
    drawn = picture(steps_of(trace), "a <title> & more")
    ElementTree.fromstring(drawn)
    assert re.findall(r'(?:"end">|d=")([^"<]+)(?:</text>|" fill)', drawn) == parts


@pytest.mark.parametrize("count", [1, 3, 7, 61, 333, 799, 800])
def test_each_bar_is_at_its_calls(count):
    """Within a tenth, also where a call begins or ends between two whole numbers."""
    drawn = picture(steps_of((b"sq 61\nsr 00\nsr 05\n" * count)[:6 * count]), "bars")
    bars = re.findall(r"M([\d.]+) 80v-5h([\d.]+)v5z", drawn)
    wide = 800 / count
    assert [[*map(float, bar)] for bar in bars] == [
        pytest.approx([120 + first * wide, wide], abs=0.1) for first in range(0, count, 3)]


@pytest.mark.parametrize("count", [2, 799, 800, 801, 1000, 1599, 1600, 1601, 2399, 12_345])
def test_each_call_is_in_the_picture(count):
    """The first one at its left end, and the last one at its right end, however many share a column."""
    read, other = steps_of(b"kr 04\nsc\n")
    drawn = picture([read, *[other] * (count - 2), read], "both ends")
    bars = [tuple(map(float, bar)) for bar in re.findall(r"M([\d.]+) 80v-[\d.]+h([\d.]+)v", drawn)]
    assert (bars[0][0], sum(bars[-1])) == pytest.approx((120, 920), abs=0.1)


@pytest.mark.parametrize("form", ["table", "svg"])
def test_written(form, tmp_path):
    steps, path = steps_of(TRACE), tmp_path / "a file"
    assert run("view", "-", f"--{form}", path, script=TRACE) == (0, "", "")
    assert path.read_text() == {"table": table(steps), "svg": picture(steps, "-")}[form]


def test_figure(tmp_path):
    """The figure of the documents shows the recording."""
    assert run("view", RECORDING, "--svg", tmp_path / "figure") == (0, "", "")
    assert (tmp_path / "figure").read_text() == FIGURE.read_text()


@pytest.mark.parametrize("recording, rows, row", [
    (RECORDING, 42839 + 66, "  26491  sw 01 0f                  ok        IER 0x00 -> 0x0f  RDA THRE RLS "
                            "MS, IIR 0xc1 -> 0xc2  THRE, interrupt taken\n"),
    (WITH_INPUT, None, "  sq 756e616d65202d73720a   0a        ")], ids=["boot", "console"])
def test_table_of_a_recording(recording, rows, row):
    status, output, errors = run("view", recording, "--table")
    assert (status, errors) == (0, "")
    assert output.count("\n") == (rows or output.count("\n"))
    assert "recorded:" not in output
    assert row in output


def test_bytes_that_linux_leaves():
    """In its paste it reads that nothing is pending, and leaves bytes. Each time a timeout interrupts it again."""
    steps = steps_in(WITH_INPUT)
    left = [len(then.call.before.serial.in_buffer) for step, then in zip(steps, steps[1:])
            if (step.call.command.values, step.call.reply) == ((2,), "c1") and then.call.answers == (True,)]
    assert left == [17] * 15


# What pages say of each recording, in its form there: how many calls and pieces it has, and how often its kernel reads
# the status of the controller in vain.
SAID = at_least(6, [
    *((recording, "examples/linux-boot/README.md", rf"^\| Size {form} ([\d,]+) calls in (\d+) pieces", "calls pieces")
      for recording, form in ((RECORDING, r"\|"), (WITH_INPUT, r"\|[^|]*\|"))),
    *((RECORDING, page, form, "reads") for page, form in (
        ("docs/GUESTS.md", r"reads the status ([\d,]+) times"), ("docs/MONITOR.md", r"\[([\d,]+) reads\]"))),
    *((recording, "web/boot.mjs", rf"^  {name}: \{{\n    calls: ([\d_]+),", "calls")
      for recording, name in ((RECORDING, "boot"), (WITH_INPUT, "console"))),
])

# The numbers in what the page says of a recording, in their order there: what each is of. A stop has its call as name.
CAPTIONS = {
    "boot": (RECORDING, {
        "introduction": "calls", "beginning": "polled", "sw 01 0f": "kept bits, set bits, chip", "kw 04 20": "reads",
        "sw 01 02": "enabled, shown, status reads, burst", "kw 04 fe": ""}),
    "console": (WITH_INPUT, {
        "introduction": "pasted, calls", "beginning": "apart", "sw 00 1b": "cursor", "sr 00  0a": "typed, interrupts",
        "sq 3031": "pasted, fitted", "cr 000000006b063b79 0018": "status", "kw 04 fe": ""}),
}
# Words for numbers. The one of "without one" is none.
WORDS = {"one": 1, "two": 2, "three": 3, "four": 4, "five": 5, "six": 6, "seven": 7, "eight": 8, "nine": 9, "ten": 10,
         "once": 1, "twice": 2, "both": 2}
NUMBER = re.compile(rf"(?<!without )\b(?:{'|'.join(WORDS)})\b|\d+(?:,\d{{3}})*", re.I)


@lru_cache
def counts_of(recording):
    steps = steps_in(recording)
    lines = [line_of(step.call.command) for step in steps]
    asked = lines.index("kw 04 20") if "kw 04 20" in lines else len(lines)
    resets = lines[asked:].count("kw 04 fe")   # before each of which it reads the status once
    counts = {"calls": len(steps), "pieces": steps[-1].piece, "reads": lines[asked:].count("kr 04") - resets}
    return {**counts, **(counts_of_boot if recording == RECORDING else counts_of_console)(steps, lines)}


def bursts(steps, lines):
    """How many reads of LSR are before bytes that go out without another, and how many bytes."""
    kinds = ["read" if line == "sr 05" else "sent" for step, line in zip(steps, lines)
             if line == "sr 05" or step.has_sent]
    runs = [(kind, len([*run])) for kind, run in groupby(kinds)]
    return [(reads, sent) for (kind, reads), (_, sent) in zip(runs, runs[1:]) if kind == "read"]


def reply_after(steps, lines, place, line):
    return int(steps[lines.index(line, place)].call.reply, 16)


def output_of(steps):
    return b"".join(bytes(step.call.command.values[-1:]) for step in steps if step.has_sent)


def counts_of_boot(steps, lines):
    """Of the search for the port, and of the test of THRE when it is opened, which ends where LCR is written."""
    searched, opened = lines.index("sw 01 0f"), lines.index("sw 01 02")
    tested = [*zip(lines, steps)][opened:lines.index("sw 03 03", opened)]
    [polled] = {sent for _, sent in bursts(steps[:searched], lines)}
    served = bursts(steps[opened:], lines[opened:])
    burst = max(sent for _, sent in served)
    return {"polled": polled, "kept bits": bin(reply_after(steps, lines, searched, "sr 01")).count("1"),
            "set bits": bin(reply_after(steps, lines, searched, "sr 02") & 0xF0).count("1"),
            "chip": int(re.search(rb"is a (\d+)A", output_of(steps))[1]),
            "enabled": sum(line == "sw 01 02" for line, _ in tested),
            "shown": sum(line == "sr 02" and int(step.call.reply, 16) & 0x03 == 0x02 for line, step in tested),
            "status reads": min(reads for reads, sent in served if sent == burst), "burst": burst}


def counts_of_console(steps, lines):
    """Of the first input that is typed, of the paste, whose last piece alone goes in whole, and of the clock."""
    inputs = [(place, len(step.call.command.values[0]), 0 if step.call.reply == "full" else int(step.call.reply, 16))
              for place, step in enumerate(steps) if step.call.command.name == "sq"]
    first, typed, _ = inputs[0]
    read = [place for place, line in enumerate(lines) if line == "sr 00" and place > first][typed - 1]
    begin = next(number for number, (_, size, taken) in enumerate(inputs) if taken < size)
    end = next(number for number, (_, size, taken) in enumerate(inputs) if number > begin and taken == size)
    offsets = [int(line.split()[2], 16) for line in lines[:lines.index("sw 00 1b")] if line.startswith("cr ")]
    steps_up = Counter(after - before for before, after in zip(offsets, offsets[1:]) if after > before)
    due = next(place for place, line in enumerate(lines) if line.startswith("cr 000000006b063b79 0018"))
    return {"typed": typed, "interrupts": sum(step.call.answers.count(True) for step in steps[first:read + 1]),
            "fitted": inputs[begin][2], "pasted": sum(taken for _, _, taken in inputs[begin:end + 1]),
            "apart": steps_up.most_common(1)[0][0], "status": int(steps[due].call.reply, 16),
            "cursor": int(re.search(rb"\x1b\[(\d+)n", output_of(steps))[1])}


@pytest.mark.parametrize("recording, page, form, kinds", SAID, ids=lambda value: str(value)[-30:])
def test_numbers_that_pages_say(recording, page, form, kinds):
    said = re.search(form, (ROOT / page).read_text("utf-8"), re.M).groups()
    counts = counts_of(recording)
    assert [int(re.sub("[,_]", "", number)) for number in said] == [counts[kind] for kind in kinds.split()]


@pytest.mark.needs("node")
@pytest.mark.parametrize("name", CAPTIONS)
def test_numbers_in_captions(name):
    """Each number that the page says while it plays a recording is one of the recording, in digits or as a word."""
    program = 'import { RECORDINGS } from "./web/boot.mjs"; console.log(JSON.stringify(RECORDINGS));'
    all_said = json.loads(check(["node", "--input-type=module", "--eval", program], cwd=ROOT))
    recording, kinds = CAPTIONS[name]
    counts, said = counts_of(recording), all_said[name]
    captions = {"introduction": said["introduction"], "beginning": said["beginning"],
                **{start: text for start, text, _ in said["stops"]}}
    assert (all_said.keys(), captions.keys()) == (CAPTIONS.keys(), kinds.keys())
    for key, text in captions.items():
        numbers = [WORDS.get(number.lower()) or int(number.replace(",", "")) for number in NUMBER.findall(text)]
        assert numbers == [counts[kind] for kind in kinds[key].split(", ") if kind], text


@pytest.mark.parametrize("packed", [RECORDING.read_bytes()[:-100], TRACE], ids=["cut short", "not packed"])
def test_a_damaged_recording(packed, tmp_path):
    path = tmp_path / "trace.xz"
    path.write_bytes(packed)
    status, output, errors = run("view", path, "--table")
    assert (status, output) == (1, "")
    assert errors.startswith(f"{path}: ")
