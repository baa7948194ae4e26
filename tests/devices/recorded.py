# SPDX-License-Identifier: Apache-2.0 OR BSD-3-Clause
"""Recorded calls, as tests/README.md describes them: those of tests/data/calls, what they do by a model, random ones,
and every answer of the objects in every state."""
import lzma
import random
import re
from functools import cache
from itertools import product

from board import FIFO_SIZE, Board
from harness import ROOT
from made import CLOCK_CALLS, PORT_CALLS, table_of, clock_state, drawn, port_state
from script import LINES, call_of, line_of

CALLS = ROOT / "tests" / "data" / "calls"
# The names of its recordings, and one of what `every_answer` makes.
RECORDINGS, EVERY_ANSWER = [path.name for path in sorted(CALLS.glob("*.txt*"))], "every answer"
RUN = 40   # calls of a random run
# Words after a random call, which say how the trigger behaves in it, and how the writer does.
OF_TRIGGER, OF_WRITER = [*[""] * 5, "1", "2", "1 2"], [*[""] * 6, *"nfui"]
# The lines of scripts that recorded calls share.
SHARED = ("sr", "sw", "sq", "si", "sc", "cr", "cw", "kr", "kw")
# A call, and the words after it.
WITH_WORDS = re.compile("(.*?)((?: [12nfiu])*)")
CONTROLLER_CALLS = table_of("k", LINES)


def port_text(registers, held):
    return f"{registers.hex()} {held.hex() or '-'}"


def clock_text(state):
    """The five fields of vm-superio's clocks, and the alarm."""
    numbers = (f"{state[name]:08x}" for name in ("MR", "IMSC", "RIS"))
    return " ".join([f"{state['LR']:08x}", str(state["offset"]), *numbers, *["armed"] * state["armed"]])


@cache   # most calls come again and again, and on each model
def read(call):
    """The name of a call, the method of a board that makes it with its arguments, and the words after it."""
    line, words = WITH_WORDS.fullmatch(call).groups()
    name, *fields = line.split(" ")
    if name in SHARED:
        return name, *call_of(line.replace(" -", "")), words
    return name, f"call_{name}", *fields, words


class Recorder(Board):
    """A board whose objects behave in a call as the words after it say, and whose calls are logged."""

    def make(self, call):
        """What stands after ` = ` in a line of a recording, of what stands before."""
        name, method, *arguments, self.words = read(call)
        self.did = []
        reply = getattr(self, method)(*arguments)
        if reply == "reset":
            reply = "ok" if self.line() else "trigger"
        if reply == "invalid":
            return {"cr": "a5a5a5a5 i", "cw": "ok j"}[name]
        return " ".join([reply, *self.did])

    def refuses(self, place):
        return str(place + 1) in self.words

    def write(self, value):
        is_taken = "n" not in self.words and "f" not in self.words
        self.did += [f"W{value:02x}"] * (2 if "i" in self.words else 1) + ["F"] * is_taken
        return is_taken and "u" not in self.words

    def call_sp(self):
        return self.port.retry()

    def call_sh(self):
        return f"{bool(self.port.due()):02x}"

    def call_ss(self):
        return self.replaced()

    def call_sl(self, registers, held):
        held = bytes.fromhex(held.strip("-"))
        return "full" if len(held) > FIFO_SIZE else self.replaced(bytes.fromhex(registers), held)

    def replaced(self, *start):
        reply, port = self.port.restore(*start), self.port
        return f"{port_text(port.state(), port.held())} {port.room():02x}" if reply == "ok" else reply

    def call_cs(self):
        return clock_text(self.clock.state())

    def call_cl(self, lr, offset, mr, imsc, ris, *armed):
        numbers = {name: int(digits, 16) for name, digits in (("LR", lr), ("MR", mr), ("IMSC", imsc), ("RIS", ris))}
        self.clock = self.devices.Clock(**numbers, offset=int(offset), armed=len(armed))
        return self.call_cs()


def recordings(*paths):
    """The recordings of these files, or of those in tests/data/calls, by their names."""
    found = {}
    for path in paths or sorted(CALLS.glob("*.txt*")):
        with (lzma.open if path.suffix == ".xz" else open)(path, "rt", encoding="ascii") as file:
            found[path.name] = file.read()
    return found


def rows_of(recording):
    """The calls of a recording, each with what it did."""
    return [tuple(line.split(" = ")) for line in recording.splitlines() if " = " in line]


def recording_of(calls, devices=None):
    """Calls as a recording of what they do on a model."""
    recorder = devices or Recorder()
    return "".join(f"{call} = {recorder.make(call)}\n" for call in calls)


def difference(rows, made):
    """What is different between recorded rows and what was made of their calls, if anything: ten rows of it at most."""
    pairs = [f"recorded: {call} = {reply}\ngot:      {call} = {got}"
             for (call, reply), got in zip(rows, made) if reply != got]
    missing = [f"{len(rows)} calls, and {len(made)} replies"] * (len(rows) != len(made))
    return "\n".join([*pairs[:10], *missing])


def random_run(source):
    """The calls of a run, from any state on."""
    own = [(2, lambda _: ("timeout",)), (1, lambda _: ("capacity",))]
    further = ["sp", "sh", "ss"]
    kind, = source.choices("sck", [15, 4, 1])
    table = {"s": [*PORT_CALLS, *own], "c": CLOCK_CALLS, "k": CONTROLLER_CALLS}[kind]
    calls = ["sq -" if line == "sq" else line for line in (line_of(*call) for call in drawn(source, table, RUN))]
    if kind == "c":
        return [f"cl {clock_text(clock_state(source))}",
                *(source.choice(["cs", *[call] * 17]) for call in calls)]
    start = [f"sl {port_text(*port_state(source))}"] if kind == "s" else []
    if kind == "s":
        calls = [source.choice([*further, f"sl {port_text(*port_state(source))}", *[call] * 24]) for call in calls]
    return [*start, *(" ".join([call, *filter(None, map(source.choice, (OF_TRIGGER, OF_WRITER)))]) for call in calls)]


def random_recorded(seeds):
    """Runs of calls, one for each seed."""
    return [random_run(random.Random(seed)) for seed in seeds]


def with_words(calls, *words):
    """Calls with each combination of these words after them."""
    return ["".join(combination) for combination in product(calls, *words)]


def every_answer():
    """Each kind of call in each state that a rule tells apart, with every answer of the objects, and the state after
    it; and every write of the controller that might be a reset. A state is what is enabled and pending, the divisor
    latch, loopback, and no byte, one, or as many as fit. The rows of tests/data/calls stand at the bounds of these."""
    refusals = ["", " 1"], ["", " 1", " 2"]
    calls = [call for offset in (*range(9), 255) for call in (f"sr {offset:02x} 1 f", f"sw {offset:02x} 1b 1 f")]
    calls += with_words(["sw 00 41", "sw 00 00"], refusals[0], ["", " n", " f", " u", " i"])
    calls += with_words(["sw 01 00", "sw 01 01", "sw 01 02", "sq -", "sq 61", "sq 616263", "si"], refusals[0])
    calls += with_words(["sw 01 03", "sp", "ss", "sl 0c000306036108b077 4142"], refusals[1])
    for enable, pending, latch, modem, size in product(range(4), (1, 2, 4, 6), ("03", "83"), ("08", "18"), (0, 1, 64)):
        held = bytes(range(0x41, 0x41 + size)).hex()
        start = f"sl 0c000{enable}0{pending}{latch}{'61' if held else '60'}{modem}b05a {held or '-'}"
        yield from (line for call in calls for line in (start, call, "ss"))
    for value, refusal in product(range(256), ("", " 1")):
        yield from (f"kr {value:02x}{refusal}", f"kw {value:02x} fe{refusal}", f"kw 04 {value:02x}{refusal}")
