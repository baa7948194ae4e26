# SPDX-License-Identifier: Apache-2.0 OR BSD-3-Clause
"""The JavaScript package: recorded calls and scripts over it, its own tests, the programs of its documents, and the
package that `npm pack` makes."""
import json
import os
import re
import shutil
import tarfile

import pytest
from console import random_runs
from documents import Document
from harness import ROOT, at_least, check, run
from recorded import EVERY_ANSWER, RECORDINGS, every_answer, recording_of, recordings
from script_tests import board_scripts
from seeds import seeds
from support import parameters
from superio import Console, I8042, Rtc, Serial

PACKAGE = ROOT / "bindings" / "js"
LICENSES = "LICENSE", "LICENSES"
VERSION = (ROOT / "VERSION").read_text("ascii").strip()
REPLAY, SCRIPTS, CONSOLES = (PACKAGE / "tests" / f"{name}.mjs"
                             for name in ("replay_calls", "run_scripts", "replay_consoles"))
RANDOM_SCRIPTS, RANDOM_CONSOLES = 2_000, 300
# The first program of the package's page, as a module that `require` serves has it.
IMPORT = re.compile(r'^import (\{.*\}) from ("superio");', re.M)
# What JavaScript and pages got after Node 18.0 or after June 2023, and what someone may use without a thought: calls,
# calls of an array that an iterator did not have, other names, and what HTML and CSS have. Node 20 has some of it.
NEWER = re.compile(r"""\.(?:toReversed|toSorted|toSpliced|with|isWellFormed|toWellFormed|union|intersection|difference|
                          symmetricDifference|isSubsetOf|isSupersetOf|isDisjointFrom|transfer|resize|bytes|
                          toHex|fromHex|toBase64|fromBase64|getFloat16|setFloat16|canParse|groupBy|fromAsync|
                          withResolvers|startViewTransition|showPopover)\(|
                       \.(?:entries|keys|values)\(\)\.\w|\.matchAll\([^()]*\)\.\w|
                       \bPromise\.try\b|\bRegExp\.escape\b|\bimport\.meta\.\w|\bFloat16Array\b|\bglobalThis\.crypto\b|
                       \bpopover\b|\blight-dark\(|:has\(|<details\ name=""", re.X)
SOURCES = at_least(9, [*PACKAGE.glob("*.[cm]js"), *ROOT.glob("web/*.mjs"), ROOT / "docs" / "try.html"])
# What TypeScript takes for each kind of module, and lines of which it refuses each.
TYPED = """import { Console, I8042, Rtc, SavedStateError, Serial, type ClockOffset, type ReadOffset } from "superio";
import { type ConsoleState, type RtcState, type SerialState, type Wants, type Work, type WriteOffset } from "superio";
const [port, clock, made, controller] = [new Serial(), new Rtc(), new Console(true), new I8042()];
"""
TAKEN = """const due: number | null = clock.alarmDue(5n) ?? clock.alarmDue(5);
export const reason = (error: SavedStateError): string => error.reason;
export const held: Uint8Array = port.state.inBuffer;
export const work: Work[] = [made.read("IER").work, made.write("ier", 1), made.turn(), made.setPolled(false)];
export const wants: Wants = made.wants();
export const state: ConsoleState = made.clone().state;
export const dropped: bigint = made.dropped() + state.dropped + clock.state.offset;
made.consume(made.output().length);
port.read(5); port.read("LSR"); port.read("lsr"); port.read("RBR"); port.read("DLL"); port.write("THR", 0x21);
port.write("FCR", 7); port.write("lcr", 0x83); made.read("IIR"); made.write("dlm", 0); made.write(0, 1);
clock.read("DR", 5); clock.read("rtcdr", 5n); clock.read("ID7", 5); clock.write("RTCIMSC", 1, 5); clock.write(4, 1, 5n);
export const places: [ReadOffset, WriteOffset, ClockOffset] = ["SCR", "scr", "RTCID0"];
export const other: boolean = controller.write(4, 0xfe).resets || clock.read(0, 0).invalidRead;
export const count: number = port.characterTimeout() + port.fifoCapacity() + port.enqueue(held).accepted + (due ?? 0);
export const saved: SerialState = Serial.fromBytes(port.toBytes()).state;
export const kept: RtcState = Rtc.fromState(clock.state).state;
"""
REFUSED = """export const byte: string = port.read("IER").byte;
export const never: number = clock.alarmDue(5);
export const always: null = clock.alarmDue(5);
export const text: bigint | null = clock.alarmDue(5n);
export const sum: number = made.dropped();
export const offset: number = clock.state.offset;
export const lr: bigint = clock.state.lr;
port.read("IRR");
port.read("THR");
port.read("FCR");
port.read("Lsr");
port.read("");
port.write("RBR", 0);
port.write("IIR", 0);
port.write("LSB", 0);
made.read("XYZ");
made.read("FCR");
made.write("MR", 0);
made.write("iir", 0);
clock.read("LSR", 0);
clock.read("XDR", 0);
clock.write("RTC", 0, 0);
clock.read("DR");
clock.write("LR", 5n, 5);
clock.write("LR", 5);
clock.read("DR", "now");
controller.read("DR");
port.read(5n);
port.write(7, "A");
port.enqueue("A");
port.enqueue([65]);
made.receive("A");
made.consume(1n);
made.setPolled(1);
made.wants().input = true;
made.turn().byte;
new Console(1);
new Serial(1);
Serial.fromBytes("53");
Rtc.fromState(port.state);
Serial.fromState({ ...port.state, scratch: 5n });
Console.fromState({ ...made.state, dropped: 5 });
Rtc.fromState({ lr: 5 });
clock.state = clock.state;
export const reason: "too long" = new SavedStateError("too short").reason;
"""
# How a file of each ending takes the package whole, and how it may not, as Node would not find it either.
WHOLE = {"mts": ('import * as whole from "superio";\n', 'import whole from "superio";\n'),
         "cts": ('import whole = require("superio");\n', 'import { whole } from "superio";\n'),
         "ts": ('import whole = require("superio");\n', 'import { whole } from "superio";\n')}


@pytest.fixture(scope="module")
def recorded():
    return {EVERY_ANSWER: recording_of(every_answer()), **recordings()}


def test_number_of_calls(recorded):
    assert sum(recording.count(" = ") for recording in recorded.values()) >= 251_000


@pytest.mark.parametrize("command", [pytest.param(["node"], id="node", marks=pytest.mark.needs("node")),
                                     pytest.param(["deno", "run", "-R"], id="deno", marks=pytest.mark.where("Deno"))])
@pytest.mark.parametrize("name", at_least(4, [EVERY_ANSWER, *RECORDINGS]))
def test_calls(recorded, name, command):
    """The package makes each recorded call as it was."""
    number = recorded[name].count(" = ")
    check([*command, REPLAY], f"{number} calls did the same, 0 did not\n", input=recorded[name])


@pytest.mark.parametrize("path", SOURCES, ids=lambda path: path.name)
def test_old_programs_take(path):
    """A source has nothing that Node 18 or a browser of June 2023 lacks."""
    assert [line[:200] for line in path.read_text("utf-8").splitlines() if NEWER.search(line)] == []


@pytest.mark.needs("node")
def test_scripts():
    """The board of the page replies to scripts, and to loads of any bytes, as it should."""
    scripts = at_least(2_750, board_scripts("js", RANDOM_SCRIPTS))
    check(["node", SCRIPTS], f"{len(scripts)} scripts did the same, 0 did not\n", input=json.dumps(scripts))


@pytest.mark.needs("node")
def test_consoles():
    """The calls of consoles that were worked out by hand, and random ones, do what they should."""
    by_hand = (ROOT / "tests" / "c" / "console.txt").read_text("ascii")
    rows = [row for row in (by_hand + random_runs(seeds("consoles", RANDOM_CONSOLES))).splitlines()
            if " = " in row and row[0] != "#"]
    check(["node", CONSOLES], f"{len(at_least(10_000, rows))} calls did the same, 0 did not\n", input="\n".join(rows))


OWN_TESTS = at_least(6, sorted((PACKAGE / "tests").glob("*.test.mjs")))


@pytest.mark.needs("node")
@pytest.mark.parametrize("path", OWN_TESTS, ids=lambda path: path.name)
def test_own_tests(path):
    """Of the package, which compare it with superio.d.ts and package.json. All that are written pass, and no other
    ends. No text depends on the language of a user: here it writes other digits."""
    said = check(["node", "--test-reporter=tap", path], env={**os.environ, "LC_ALL": "fa_IR.UTF-8"})
    counts = {kind: int(count) for kind, count in re.findall(r"^# (\w+) (\d+)$", said, re.M)}
    assert counts["pass"] >= len(re.findall(r"^ *test\(", path.read_text("utf-8"), re.M)) > 0, said
    assert [counts[kind] for kind in ("fail", "cancelled", "skipped", "todo")] == [0] * 4, said


@pytest.mark.needs("node")
def test_language():
    """The language of a user, as above, changes what depends on it."""
    check(["node", "--print", "(12).toLocaleString()"], "\u06f1\u06f2\n", env={**os.environ, "LC_ALL": "fa_IR.UTF-8"})


def test_each_call_that_depends_on_a_language_names_it():
    """Also those of letters, which the language above does not change."""
    called = re.compile(r"\b(?:toLocale\w+|localeCompare|Intl\.\w+)\(.{0,5}")
    calls = [call for path in SOURCES for call in called.findall(path.read_text("utf-8"))]
    assert [call for call in at_least(8, calls) if not call.endswith(('("en")', '("en",'))] == []


def programs_of(place):
    """The programs of a document, each with what it prints: a block of text after it, or the numbers in its comments."""
    blocks = Document(place).blocks
    for block, after in zip(blocks, [*blocks[1:], None]):
        if block.language == "js":
            program = "\n".join([*block.lines, ""])
            printed = "".join(re.findall(r"console\.log.* // (\d+\n)", program))
            if after and after.language == "text":
                printed = "\n".join([*after.lines, ""])
            assert printed, f"{place}:{block.number} does not say what its program prints"
            yield program, printed


README = "bindings/js/README.md"
PROGRAMS = at_least(2, programs_of(README))


@pytest.mark.needs("node")
@pytest.mark.parametrize("number", range(len(PROGRAMS)))
def test_program(number):
    """A program of the package's page prints what follows it. In the folder of a package its name is the package."""
    program, printed = PROGRAMS[number]
    check(["node", "--input-type=module", "--eval", program], printed, cwd=PACKAGE)


@pytest.mark.needs("node")
def test_files_for_a_browser(tmp_path):
    """The files that the package's page lists are all that its program needs, and none is for nothing."""
    [named] = re.findall(r"you can also copy ((?:`[\w.]+`(?:, | and )?)+) into one folder", Document(README).prose)
    names = re.findall(r"`([\w.]+)`", named)
    for name in names:
        shutil.copy(PACKAGE / name, tmp_path)
    program, printed = PROGRAMS[0]
    (tmp_path / "program.mjs").write_text(IMPORT.sub(rf'import \1 from "./{names[0]}";', program), "utf-8")
    check(["node", "program.mjs"], printed, cwd=tmp_path)
    imported = re.findall(r'^(?:im|ex)port .* from "\./([\w.]+)"', "".join(
        (tmp_path / name).read_text("utf-8") for name in names), re.M)
    assert {*names} == {names[0], *imported}


@pytest.fixture(scope="module")
def packed(tmp_path_factory):
    """What npm packs of the package, as it would from a checkout."""
    folder = tmp_path_factory.mktemp("npm")
    place = folder / "bindings" / "js"
    shutil.copytree(PACKAGE, place)
    shutil.copy(ROOT / LICENSES[0], folder)
    shutil.copytree(ROOT / LICENSES[1], folder / LICENSES[1])
    check(["npm", "pack", "--offline", "--silent", "--cache", folder / "cache", "--pack-destination", folder],
          cwd=place)
    [archive] = folder.glob("superio-*.tgz")
    assert not any((place / one).exists() for one in LICENSES), "npm pack leaves its licenses behind"
    return archive


@pytest.fixture(scope="module")
def user(packed):
    """A clean folder in which the package is installed."""
    folder = packed.parent / "user"
    folder.mkdir()
    (folder / "package.json").write_text("{}", "ascii")
    check(["npm", "install", "--offline", "--silent", "--cache", packed.parent / "cache", packed], cwd=folder)
    return folder


@pytest.mark.needs("npm")
def test_packed_files(packed):
    said = json.loads((PACKAGE / "package.json").read_text("utf-8"))
    licenses = {f"{LICENSES[1]}/{file.name}" for file in (ROOT / LICENSES[1]).iterdir()}
    with tarfile.open(packed) as archive:
        found = {one.name.partition("/")[2] for one in archive}
    assert found == {"package.json", *said["files"], *licenses} - {LICENSES[1]}
    assert "private" not in said


@pytest.mark.needs("npm")
@pytest.mark.parametrize("form", ["module", "commonjs"])
def test_program_over_the_package(user, form):
    program, printed = PROGRAMS[0]
    text = program if form == "module" else IMPORT.sub(r"const \1 = require(\2);", program)
    check(["node", f"--input-type={form}", "--eval", text], printed, cwd=user)


@pytest.mark.needs("npm")
def test_the_manifest_can_be_required(user):
    program = 'console.log(require("superio/package.json").version)'
    check(["node", "--input-type=commonjs", "--eval", program], f"{VERSION}\n", cwd=user)


DECLARED = (PACKAGE / "superio.d.ts").read_text("utf-8")
ABI = (ROOT / "bindings/python/superio/superio.abi").read_text("ascii")
OFFSETS = {"ReadOffset": (Serial, "read"), "WriteOffset": (Serial, "write"), "ClockOffset": (Rtc, "read")}


def ranges():
    """The comments of types of offsets, and of calls with numbers, each with the call in Python."""
    comment = r"/\*\*((?:(?!\*/).)*)\*/\s+"
    for name, call in OFFSETS.items():
        yield pytest.param(name, *re.findall(rf"{comment}export type {name}\b", DECLARED, re.S), *call, id=name)
    for kind in (Console, Serial, Rtc, I8042):
        [body] = re.findall(rf"^export class {kind.__name__} {{(.*?)^}}", DECLARED, re.S | re.M)
        for call in ("read", "write"):
            name = f"{kind.__name__}.{call}"
            yield pytest.param(name, *re.findall(rf"{comment}{call}\(", body, re.S), kind, call, id=name)


@pytest.mark.parametrize("name, comment, kind, call", at_least(11, ranges()))
def test_ranges_of_numbers(name, comment, kind, call):
    """superio.d.ts says them as the functions in C take them."""
    said = {number: int(most, 0) for number, most in re.findall(r"\ban? (\w+), 0 to (\w+)", comment)}
    assert said.items() <= {one.name: (1 << one.kind) - 1 for one in parameters(kind, call)}.items()
    assert said or name not in OFFSETS


def test_widths_of_numbers():
    """superio.d.ts and Python say the most of a moment and of a count as the functions in C have them, in 64 bits."""
    [in_c] = {one.kind for call in ("read", "write", "alarm_due") for one in parameters(Rtc, call) if one.name == "now"}
    [said] = re.findall(r"`now`,\s+\* in seconds since 1970, from 0 to 2 \*\* (\d+) - 1\.", DECLARED)
    assert said == str(in_c)
    [in_c] = re.findall(r"^function uint(\d+)_t superio_console_dropped\(", ABI, re.M)
    [said] = re.findall(r"bytes of output were dropped, up to 2 \*\* (\d+) - 1\. \*/\s+dropped\(", DECLARED)
    [in_python] = re.findall(r"bytes of output were dropped, up to 2\^(\d+) - 1\.", Console.dropped.__doc__)
    assert said == in_python == in_c


@pytest.mark.needs("npm", "tsc")
@pytest.mark.parametrize("module, resolution, endings", [
    ("node16", "node16", ["mts", "cts"]), ("commonjs", "node", ["ts"])])
def test_types(user, module, resolution, endings):
    """A file compiles, and another has an error in each line of its own, for each way to find the types."""
    expected, first = set(), len(TYPED.splitlines()) + 1
    for ending in endings:
        taken, refused = WHOLE[ending]
        (user / f"taken.{ending}").write_text(f"{TYPED}{taken}new whole.I8042();\n{TAKEN}", "ascii")
        (user / f"refused.{ending}").write_text(TYPED + REFUSED + refused, "ascii")
        expected.update((f"refused.{ending}", str(first + place)) for place in range(len(REFUSED.splitlines()) + 1))
    names = [f"{name}.{ending}" for name in ("taken", "refused") for ending in endings]
    # TypeScript's own files are not checked, and those of browsers not read, which takes longer than all else.
    options = f"--strict --skipDefaultLibCheck --noEmit --target es2022 --lib es2022 --module {module}"
    ran = run(["tsc", *options.split(), "--moduleResolution", resolution, *names], cwd=user)
    found = re.findall(r"^(\S+)\((\d+),\d+\): error", ran.stdout, re.M)
    assert {*found} == expected, ran.stdout
