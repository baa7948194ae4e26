# SPDX-License-Identifier: Apache-2.0 OR BSD-3-Clause
"""The console in plain Python, over a model of the serial port: a serial port with the monitor's end of its line. Each
line of tests/c/console.txt is a method, which returns what the call did."""
import random
import re

import model
from board import REGISTERS, SERIAL, fault, header_checks
from common.facts import CONSOLE_PREFIX as PREFIX   # flags, the dropped bytes, and those that wait
from common.facts import KINDS, LOOPBACK, OUTPUT_SIZE, saved
from facts import ENABLED_BY
from made import port_state

KIND = KINDS["console"]            # of its saved states
FLAGS = ("polled", "ready", "asleep", "refused")
RDA, THRE = ENABLED_BY.values()    # in IER
PORT_SIZE, MOST = 75, 2 ** 64 - 1  # of the port's struct, and of the number of dropped bytes
LEAVES_WORK = ("lr", "lw", "lq", "lt", "lf", "lz", "lp")


def console_fault(data):
    """Why these bytes are no saved console: the first check that they fail, or 'ok'."""
    contents = data[8:]
    count = int.from_bytes(contents[9:PREFIX], "little")
    checks = header_checks(KIND, data) + [
        ("wrong length", len(contents) < PREFIX or count > OUTPUT_SIZE or len(contents) < PREFIX + count),
        ("invalid flags", contents[:1] > b"\x0f"),
    ]
    found = next((words for words, is_so in checks if is_so), None) or fault(SERIAL, contents[PREFIX + count:])
    return re.sub("(version) ..", r"\1", found)


class Console:
    """A console over a port of a model."""

    def __init__(self, devices=model):
        self.devices = devices
        self.call_ln()

    # What the port calls

    def tell(self, event):
        """Events are nobody's."""

    def line(self):
        self.asked += 1
        return True

    def write(self, value):
        if len(self.output) < OUTPUT_SIZE:
            self.output += bytes([value])
        else:
            self.dropped = min(self.dropped + 1, MOST)
        return True

    # What it waits for, and what a call leaves

    def room(self):
        is_open = (self.ready or self.polled) and not self.asleep
        return self.port.room() if is_open and not self.port.registers["MCR"] & LOOPBACK else 0

    def wants(self):
        has_input = self.port.held() and self.port.registers["IER"] & RDA
        return self.room(), bool(self.output), bool(has_input or self.refused and self.port.due())

    def make(self, call):
        """What stands after ` = ` in a line, of what stands before. The words `1` and `2` refuse interrupts."""
        name, *fields = call.split(" ")
        refused = [field for field in fields if field in ("1", "2")]
        self.asked, before = 0, self.wants()
        reply = getattr(self, f"call_{name}")(*(field for field in fields if field not in refused))
        if name not in LEAVES_WORK:
            return reply
        asked, wakes = self.asked, self.names_more(before)
        taken = next((place for place in range(asked) if str(place + 1) in refused), asked)
        if taken < asked:
            before, self.refused = self.wants(), True
            wakes |= self.names_more(before)
        return " ".join([reply, *["T"] * taken, *["R"] * (taken < asked), *["up"] * bool(self.port.due()),
                         *["wake"] * wakes])

    def names_more(self, before):
        return any(now and not then for now, then in zip(self.wants(), before))

    # The calls

    def call_ln(self, *polled):
        self.port, self.output, self.head, self.dropped = self.devices.Port(self), b"", 0, 0
        self.polled, self.ready, self.asleep, self.refused = bool(polled), False, False, False
        return "ok"

    def call_lr(self, offset):
        offset = int(offset, 16)
        shown = self.port.read(offset)
        if offset == 2:
            self.refused = False
            if int(shown, 16) & 0x01:
                self.port.character_timeout()
        return shown

    def call_lw(self, offset, value):
        offset = int(offset, 16)
        self.port.write(offset, int(value, 16))
        if offset == 1:
            if self.port.registers["IER"] & (RDA | THRE) == RDA:
                self.ready, self.asleep = True, False
            self.retry()
        return "ok"

    def retry(self):
        if self.refused and self.port.due():
            self.refused, self.asked = False, len(self.port.due())
        elif self.refused:
            self.asked = 0

    def call_la(self):
        count, output, turn = self.wants()
        return " ".join([f"{count:02x}", *["output"] * output, *["turn"] * turn])

    def call_lq(self, data):
        data = bytes.fromhex(data.strip("-"))[:self.room()]
        self.port.enqueue(data)
        return f"{len(data):02x}"

    def call_lo(self, count):
        return self.output[:min(int(count, 16), OUTPUT_SIZE - self.head)].hex() or "-"

    def call_lc(self, count):
        taken = min(int(count, 16), len(self.output))
        self.output, self.head = self.output[taken:], (self.head + taken) % OUTPUT_SIZE
        return "ok"

    def call_li(self):
        return f"{len(self.output) == OUTPUT_SIZE:02x} {self.dropped:x}"

    def call_lt(self):
        self.port.character_timeout()
        self.retry()
        return "ok"

    def call_lf(self):
        self.refused = True
        return "ok"

    def call_lz(self):
        self.port, self.ready, self.asleep, self.refused = self.devices.Port(self), False, False, False
        return "ok"

    def call_ls(self):
        self.ready, self.asleep = False, True
        return "ok"

    def call_lp(self, polled):
        self.polled = polled != "00"
        return "ok"

    def call_lb(self):
        flags = sum(getattr(self, name) << place for place, name in enumerate(FLAGS))
        port = saved(SERIAL, self.port.state() + self.port.held())
        return saved(KIND, bytes([flags]) + self.dropped.to_bytes(8, "little")
                     + len(self.output).to_bytes(2, "little") + self.output + port).hex()

    def call_ll(self, data):
        data = bytes.fromhex(data.strip("-"))
        words = console_fault(data)
        if words == "ok":
            contents = data[8:]
            end = PREFIX + int.from_bytes(contents[9:PREFIX], "little")
            self.become(contents[end + 8:end + 8 + REGISTERS], contents[end + 8 + REGISTERS:], contents[PREFIX:end], 0,
                        int.from_bytes(contents[1:9], "little"), [contents[0] >> place & 1 for place in range(4)])
        return words

    def call_lx(self, port, head, count, output, dropped, flags):
        """The struct has these bytes, of its port and of its output the first ones."""
        head, count, dropped = int(head, 16), int(count, 16), int(dropped, 16)
        struct, ring = bytes.fromhex(port).ljust(PORT_SIZE, b"\0"), bytes.fromhex(output).ljust(OUTPUT_SIZE, b"\0")
        held = in_ring(struct[REGISTERS + 2:], *struct[REGISTERS:REGISTERS + 2])
        self.become(struct[:REGISTERS], held, in_ring(ring, head, count), head % OUTPUT_SIZE, dropped,
                    bytes.fromhex(flags))
        return f"{struct[:16].hex()} {head:04x} {count:04x} {ring[:4].hex()} {dropped:x} {flags}"

    def become(self, registers, held, output, head, dropped, flags):
        self.port = self.devices.Port(self)
        self.port.registers, self.port.bytes = dict(zip(self.port.registers, registers)), held
        self.output, self.head, self.dropped = output, head, dropped
        self.polled, self.ready, self.asleep, self.refused = map(bool, flags)


def in_ring(ring, head, count):
    """The bytes of a ring, the oldest first."""
    start = head % len(ring)
    return (ring + ring)[start:start + min(count, len(ring))]


# ---- random calls

def random_write(source):
    """A write: mostly of THR, IER and MCR, with what a driver writes there."""
    offset = source.choice([0, 0, 0, 1, 1, 1, 4, source.randrange(10)])
    value = {1: source.choice([0, 1, 1, 2, 3]), 4: source.choice([0x08, 0x0B, 0x1B])}.get(offset)
    return f"lw {offset:02x} {source.randrange(256) if value is None or source.random() < 0.1 else value:02x}"


def random_saved(source, output_size):
    """A saved console, with a bit changed or an end cut off now and then."""
    output = source.randbytes(source.choice([0, source.randrange(4), min(output_size, OUTPUT_SIZE)]))
    data = saved(KIND, bytes([source.randrange(16)]) + source.choice([0, source.randrange(9), MOST - 1]).to_bytes(
        8, "little") + len(output).to_bytes(2, "little") + output + saved(SERIAL, b"".join(port_state(source))))
    if source.random() < 0.2:
        data = data[:source.randrange(len(data))]
    elif source.random() < 0.2:
        place = source.randrange(min(40, len(data)))
        data = data[:place] + bytes([data[place] ^ 1 << source.randrange(8)]) + data[place + 1:]
    return data.hex() or "-"


def random_struct(source):
    """Any bytes of a struct. Often the two rings hold no more than they may."""
    port = bytearray(source.randbytes(PORT_SIZE))
    count = source.getrandbits(16)
    if source.random() < 0.7:
        port[REGISTERS + 1] %= 65
        count %= OUTPUT_SIZE + 1
    dropped = source.choice([0, MOST, source.getrandbits(64)])
    flags = bytes(source.choice([0, 0, 1, source.randrange(256)]) for _ in FLAGS)
    output = f"{source.getrandbits(16):04x} {count:04x} {source.randbytes(OUTPUT_SIZE).hex()}"
    return f"{port.hex()} {output} {dropped:016x} {flags.hex()}"


def random_run(source, calls=40):
    """Calls of a console, from a new one on, from a saved one, or from any struct."""
    refused = ["", "", "", " 1", " 2"]
    table = {
        8: lambda: f"lr {source.choice([0, 0, 0, 2, 2, 5, source.randrange(12)]):02x}{source.choice(refused)}",
        7: lambda: random_write(source) + source.choice(refused),
        5: lambda: f"lq {source.randbytes(source.choice([1, 2, source.randrange(80)])).hex() or '-'}"
                   f"{source.choice(refused)}",
        4: lambda: f"lt{source.choice(refused)}",
        6: lambda: source.choice(["la", "la", "li", "lb"]),
        2: lambda: f"lo {source.choice([0, 1, source.randrange(9), OUTPUT_SIZE, 2 ** 16]):02x}",
        1: lambda: f"lc {source.choice([0, 1, source.randrange(9), source.randrange(OUTPUT_SIZE), 2 ** 32 - 1]):02x}",
        3: lambda: source.choice(["lf", "lp 00", "lp 01", "ls", "lz", f"ll {random_saved(source, 9)}"]),
    }
    start = source.choice(["ln", "ln polled", "ln", "ln polled", f"ll {random_saved(source, OUTPUT_SIZE)}",
                           f"lx {random_struct(source)}"])
    return [start, *(make() for make in source.choices([*table.values()], [*table], k=calls)), "lb"]


def random_runs(seeds):
    """Lines of random calls, with what they do on the model. They begin with a new console."""
    console, calls = Console(), ["ln"]
    for seed in seeds:
        calls += random_run(random.Random(seed))
    return "".join(f"{call} = {console.make(call)}\n" for call in calls)
