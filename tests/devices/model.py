# SPDX-License-Identifier: Apache-2.0 OR BSD-3-Clause
"""The devices in plain Python, step by step, as docs/DEVICES.md has them: fast, and easy to read.

Its port and its clock have the calls of those in oracle.py, which search the past instead. It is written from the page,
and not from the code. The map of registers is that of interface.toml, by facts.py.
"""
import facts
from common.facts import DLAB, FIFO_BITS, FIFO_SIZE, LOOPBACK
from facts import BITS, BY_OFFSET, CLOCK_AT, CLOCK_FIELDS, CONSTANTS, FRESH, ID_AT, IER_MASK, KEPT, LOOPED, READ_ONLY

RDA, THRE, NONE = BITS["IIR"].values()
READY = BITS["LSR"]["READY"]
ENABLED_BY = {BITS["IIR"][name]: bit for name, bit in facts.ENABLED_BY.items()}


class Port:
    """A serial port over objects, as in oracle.py."""

    def __init__(self, objects):
        self.objects, self.registers, self.bytes = objects, dict(FRESH), b""

    def at(self, offset):
        """The name of the register at an offset."""
        names = BY_OFFSET[self.registers["LCR"] & DLAB != 0]
        return names[offset] if offset < len(names) else None

    def raises(self, *conditions):
        """Raises conditions in order, up to a refusal, and returns whether there was none."""
        for condition in conditions:
            if self.registers["IER"] & ENABLED_BY[condition] and not self.registers["IIR"] & condition:
                self.registers["IIR"] = self.registers["IIR"] & ~NONE | condition
                if not self.objects.line():
                    return False
        return True

    def read(self, offset):
        name = self.at(offset)
        if name == "RBR":
            return f"{self.take():02x}"
        value = self.registers.get(name, 0)
        if name == "IIR":
            value, self.registers["IIR"] = value | FIFO_BITS, NONE
        if name == "MSR" and self.registers["MCR"] & LOOPBACK:
            value = value & 0x0F | sum(seen for bit, seen in LOOPED.items() if self.registers["MCR"] & bit)
        return f"{value:02x}"

    def take(self):
        """Takes the oldest byte, or 0 if there is none."""
        byte, self.bytes = (self.bytes or b"\0")[0], self.bytes[1:]
        self.registers["IIR"] = self.registers["IIR"] & ~RDA or NONE
        if not self.bytes:
            self.registers["LSR"] &= ~READY
            self.objects.tell("e")
        self.objects.tell("b")
        return byte

    def write(self, offset, value):
        name = self.at(offset)
        if name == "RBR" and self.registers["MCR"] & LOOPBACK:
            return self.receive(bytes([value]), "ok")
        if name == "RBR":
            is_sent = self.objects.write(value)
            self.objects.tell("o" if is_sent else "l")
            return "trigger" if not self.raises(THRE) else "ok" if is_sent else "io"
        if name in KEPT:
            self.registers[name] = value
        if name == "IER":
            self.registers["IER"] = value & IER_MASK
            return "ok" if self.raises(*[RDA] * bool(self.bytes), THRE) else "trigger"
        return "ok"

    def receive(self, data, reply):
        """Takes what fits of some bytes."""
        data = data[:self.room()]
        if not data:
            return reply
        self.bytes += data
        self.registers["LSR"] |= READY
        return reply if self.raises(RDA) else "trigger"

    def enqueue(self, data):
        if self.registers["MCR"] & LOOPBACK:
            return "00"
        room = self.room()
        return "full" if data and not room else self.receive(data, f"{min(len(data), room):02x}")

    def character_timeout(self):
        return "ok" if self.raises(*[RDA] * bool(self.bytes)) else "trigger"

    def drain(self):
        got = b""
        while self.at(0) == "RBR" and self.registers["LSR"] & READY:
            got += bytes([self.take()])
        return got.hex()

    def due(self):
        """The conditions that are pending and enabled."""
        return [condition for condition, bit in ENABLED_BY.items()
                if self.registers["IER"] & bit and self.registers["IIR"] & condition]

    def retry(self):
        return "ok" if all(self.objects.line() for _ in self.due()) else "trigger"

    def restore(self, *start):
        before = self.registers, self.bytes
        if start:
            self.registers, self.bytes = dict(zip(FRESH, start[0])), start[1]
        if self.retry() == "ok":
            return "ok"
        self.registers, self.bytes = before
        return "trigger"

    def room(self):
        return FIFO_SIZE - len(self.bytes)

    def held(self):
        return self.bytes

    def state(self):
        return bytes(self.registers.values())


class Clock:
    """A clock, as in oracle.py."""

    def __init__(self, **fields):
        self.fields = {**dict.fromkeys(CLOCK_FIELDS, 0), **fields}

    def state(self):
        return dict(self.fields)

    def access(self, moment, offset, value=None):
        """Makes an access. Returns the number that a read shows, 0 for a write, or None for an invalid access."""
        host, fields, name = moment % 2**32, self.fields, CLOCK_AT.get(offset)
        guest = host + fields["offset"]
        time = guest if 0 <= guest < 2**32 else host
        if fields["armed"] and time >= fields["MR"]:
            fields.update(armed=0, RIS=fields["RIS"] | 1)
        if value is None:
            shown = {**fields, **CONSTANTS, "DR": time, "MIS": fields["RIS"] & fields["IMSC"]}
            return shown.get(name, ID_AT.get(offset))
        if name is None or name in READ_ONLY:
            return None
        if name == "MR":
            fields.update(MR=value, armed=int(value > time), RIS=fields["RIS"] | (value == time))
        elif name == "LR":
            fields.update(LR=value, offset=value - host)
        elif name == "CR":
            fields.update({"LR": 0, "offset": 0} if value == 1 else {})
        elif name == "IMSC":
            fields["IMSC"] = value & 1
        elif name == "ICR":
            fields["RIS"] &= ~value
        else:
            fields[name] = value
        return 0
