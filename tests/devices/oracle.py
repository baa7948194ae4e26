# SPDX-License-Identifier: Apache-2.0 OR BSD-3-Clause
"""What devices show, by a search of all that was done before: slow, and plainly right.

There are no registers, and no rule is shared with the definitions that the proofs use. Of each call that did something
a fact is kept: what it wrote, raised and acknowledged, and which bytes were accepted and read out. What a call shows is
found by a search of the facts before it. A search ends at the latest at the newest start state, a fact of the past too.
docs/DEVICES.md has the rules. The map of registers and bits is that of interface.toml, by facts.py.
"""
from typing import NamedTuple

from common.facts import DLAB, FIFO_BITS, FIFO_SIZE, LOOPBACK
from facts import (BITS, BY_OFFSET, CLOCK_AT, CLOCK_FIELDS, CONSTANTS, ENABLED_BY, FRESH, ID_AT, IER_MASK, KEPT, LOOPED,
                   READ_ONLY)


class Fact(NamedTuple):
    """What a call did."""

    made: dict              # what it made of registers and bits, by their names
    accepted: bytes = b""   # the bytes that came in and found room
    read: bool = False      # whether it read the oldest byte out
    starts: bool = False    # whether it is a start state, before which no byte is from


def start_fact(registers, held):
    """The start state of a port. Bits that mean nothing stay with the registers that show them."""
    made = dict(zip(FRESH, registers))
    own = {name: made[register] & bit != 0 for register, bits in BITS.items() for name, bit in bits.items()}
    return Fact(made | own, held, starts=True)


class Device:
    """A device, as a search of its past."""

    def last(self, name):
        """What the newest call that changed it made of a register or bit."""
        for fact in reversed(self.past):
            if name in fact.made:
                return fact.made[name]
        raise KeyError(name)

    def remember(self, made, **fact):
        """Keeps the fact of a call, if it did anything. Without the others a search has less to look at."""
        if made or fact:
            self.past.append(Fact(made, **fact))


class Port(Device):
    """A serial port over objects. Their `line` and `write` say whether a call of the interrupt line or of the writer
    succeeded, and `tell` takes events, by the letters of tests/data/calls."""

    def __init__(self, objects):
        self.objects = objects
        self.past = [start_fact(FRESH.values(), b"")]

    def register(self, name):
        """A register, with its bits that are facts of their own."""
        value = self.last(name)
        for own, bit in BITS.get(name, {}).items():
            value = value | bit if self.last(own) else value & ~bit
        return value

    def at(self, offset):
        """The name of the register that an offset reaches."""
        names = BY_OFFSET[self.last("LCR") & DLAB != 0]
        return names[offset] if offset < len(names) else None

    def is_looped(self):
        return self.last("MCR") & LOOPBACK != 0

    def held(self):
        held, read = b"", 0
        for fact in reversed(self.past):
            held, read = fact.accepted + held, read + fact.read
            if fact.starts:
                return held[read:]

    def room(self):
        return FIFO_SIZE - len(self.held())

    def state(self):
        """The registers of a saved state."""
        return bytes(map(self.register, FRESH))

    def due(self):
        """The conditions that are pending and enabled."""
        return [condition for condition, bit in ENABLED_BY.items() if self.last("IER") & bit and self.last(condition)]

    def raised(self, conditions, enable):
        """What raising these conditions in order makes of them, up to a refusal, and whether there was none."""
        made = {}
        for condition in conditions:
            if enable & ENABLED_BY[condition] and not self.last(condition):
                made |= {condition: True, "NONE": False}
                if not self.objects.line():
                    return made, False
        return made, True

    def done(self, reply, made, is_taken=True, **fact):
        """Remembers a call, and returns its reply. A refusal takes the place of any other reply."""
        self.remember(made, **fact)
        return reply if is_taken else "trigger"

    def read(self, offset):
        name = self.at(offset)
        if name == "RBR":
            return self.read_out()
        shown = self.register(name) if name else 0
        if name == "IIR":
            self.done("", {"IIR": 0, "RDA": False, "THRE": False, "NONE": True})
            shown |= FIFO_BITS
        if name == "MSR" and self.is_looped():
            outputs = self.last("MCR")
            shown = shown & 0x0F | sum(seen for bit, seen in LOOPED.items() if outputs & bit)
        return f"{shown:02x}"

    def read_out(self):
        """Reads the oldest byte out, and acknowledges RDA. The last byte, or none, clears data ready."""
        held = self.held()
        made = {"RDA": False} | ({} if self.register("IIR") & ~BITS["IIR"]["RDA"] else {"NONE": True})
        for event in "b" if len(held) > 1 else "eb":
            self.objects.tell(event)
        return self.done(held[:1].hex() or "00", made | ({} if len(held) > 1 else {"READY": False}), read=bool(held))

    def write(self, offset, value):
        name = self.at(offset)
        if name == "RBR":
            return self.receive(bytes([value])[:self.room()], "ok") if self.is_looped() else self.send(value)
        if name == "IER":
            raised, is_taken = self.raised(["RDA", "THRE"] if self.held() else ["THRE"], value)
            return self.done("ok", {"IER": value & IER_MASK} | raised, is_taken)
        return self.done("ok", {name: value} if name in KEPT else {})

    def send(self, value):
        """Writes a byte, and reports what became of it. Raises THRE in any case."""
        is_sent = self.objects.write(value)
        self.objects.tell("o" if is_sent else "l")
        return self.done("ok" if is_sent else "io", *self.raised(["THRE"], self.last("IER")))

    def receive(self, accepted, reply):
        """Accepts bytes for which there is room. If there are any, they raise RDA."""
        if not accepted:
            return reply
        made, is_taken = self.raised(["RDA"], self.last("IER"))
        return self.done(reply, made | {"READY": True}, is_taken, accepted=accepted)

    def enqueue(self, data):
        if self.is_looped():
            return "00"
        accepted = data[:self.room()]
        return "full" if data and not accepted else self.receive(accepted, f"{len(accepted):02x}")

    def character_timeout(self):
        """Bytes that are left raise RDA again."""
        return self.done("ok", *self.raised(["RDA"] if self.held() else [], self.last("IER")))

    def retry(self):
        """Calls the line for what is due, up to a refusal. Nothing else changes."""
        return "ok" if all(self.objects.line() for _ in self.due()) else "trigger"

    def drain(self):
        """What a driver gets that reads RBR while LSR shows data ready. With DLAB set it cannot reach RBR."""
        got = ""
        while self.at(0) == "RBR" and self.last("READY"):
            got += self.read_out()
        return got

    def restore(self, *start):
        """Puts a port with these registers and bytes, or with none a copy of this one, in its place, if the line takes
        the calls for what is due then."""
        own = len(self.past)
        self.past += [start_fact(*start)] if start else []
        reply = self.retry()
        if reply == "trigger":
            del self.past[own:]
        return reply


class Clock(Device):
    """A real-time clock, from a state on. Fields that are not given are 0."""

    def __init__(self, **fields):
        self.past = [Fact({**dict.fromkeys(CLOCK_FIELDS, 0), **fields})]

    def raw_status(self):
        """The bits that were raised, by the start or by an access, and that no write has cleared since."""
        bits = 0
        for fact in self.past:
            bits = (bits | fact.made.get("RIS", 0)) & ~fact.made.get("cleared", 0)
        return bits

    def state(self):
        return {name: self.raw_status() if name == "RIS" else self.last(name) for name in CLOCK_FIELDS}

    def shown(self, name, guest_time):
        """What a read of a register shows, or None if it cannot be read."""
        if name == "DR":
            return guest_time
        if name == "MIS":
            return self.raw_status() & self.last("IMSC")
        if name == "RIS":
            return self.raw_status()
        return self.last(name) if name in CLOCK_FIELDS else CONSTANTS.get(name)

    def access(self, moment, offset, value=None):
        """Makes an access. Returns the number that a read shows, 0 for a write, or None for an invalid access."""
        time = moment % 2**32
        counter = time + self.last("offset")
        guest_time = counter if 0 <= counter < 2**32 else time
        is_reached = self.last("armed") and guest_time >= self.last("MR")
        name, found = CLOCK_AT.get(offset), {"RIS": 1, "armed": 0} if is_reached else {}
        if value is None:
            self.remember(found)
            return self.shown(name, guest_time) if name else ID_AT.get(offset)
        writes = {
            "MR": {"MR": value, "armed": int(value > guest_time)} | ({"RIS": 1} if value == guest_time else {}),
            "LR": {"LR": value, "offset": value - time},
            "CR": {"LR": 0, "offset": 0} if value == 1 else {},
            "IMSC": {"IMSC": value & 1},
            "ICR": {"cleared": value}}
        is_taken = name is not None and name not in READ_ONLY
        self.remember(found | writes.get(name, {name: value} if is_taken else {}))
        return 0 if is_taken else None
