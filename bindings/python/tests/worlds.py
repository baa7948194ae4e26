# SPDX-License-Identifier: Apache-2.0 OR BSD-3-Clause
"""Small worlds of consoles: guests with drivers of several kinds, event loops that sleep on what `wants` said last,
interrupt controllers that take edges or levels and may refuse, sources and slow readers. Whatever the order, each comes
to rest with every byte delivered."""
from superio import Console, ConsoleState

IER, IIR, MCR, LSR = 1, 2, 4, 5
RDA, THRE = 0x01, 0x02          # of IER
NONE, READY = 0x01, 0x01        # of IIR and of LSR
KINDS = "once", "until none", "never", "polls"   # how often a driver reads IIR at an interrupt, or that it has none
MOST_STEPS = 30_000


class Machine:
    """A machine with a console, and the monitor of it. Its guest makes an access and then waits to be called again."""

    def __init__(self, source, output):
        self.random, self.kind = source, source.choice(KINDS)
        self.is_level, self.most = source.random() < 0.5, source.choice([1, 4, 16, 64])
        self.sent = output             # by the guest, but for what was dropped
        self.console = Console.from_state(ConsoleState(output=output, is_polled=self.kind == "polls"))
        self.line = False              # the level, or that an edge has not been taken
        self.input = bytearray()       # in the source
        self.held = bytearray()        # accepted, and not read
        self.taken = bytearray()       # by the reader
        self.to_send = bytearray()
        self.got = self.lost = self.dropped = 0
        self.is_on, self.may_refuse = True, True
        self.patience = source.choice([0, 50])      # how often the guest waits for room
        self.connected = None                       # the machine whose input is the output of this one
        self.is_blocked = source.random() < 0.5     # the reader, if there is no such machine
        self.is_woken, self.polled = True, None   # the event loop, and what it waits for
        self.boot()

    def boot(self):
        self.guest, self.is_idle = self.driver(), False

    # The monitor

    def has_room(self):
        """Whether the reader takes more. A connection holds about 100 bytes."""
        return len(self.connected.input) < 100 if self.connected else not self.is_blocked

    def carry_out(self, work):
        """What each call's work asks for."""
        if self.is_level:
            self.line = work.is_up
        for _ in range(0 if self.is_level else work.interrupts):
            if self.may_refuse and self.random.random() < 0.2:
                self.refuse()
                break
            self.line = True
        self.is_woken |= work.wakes

    def refuse(self):
        self.carry_out(self.console.refuse())

    def turn(self):
        self.carry_out(self.console.turn())

    def is_ready(self):
        """Whether the poll of the event loop returns."""
        wants = self.polled
        return self.is_woken or wants.turn or wants.output and self.has_room() or wants.input > 0 and bool(self.input)

    def is_at_rest(self):
        """Whether neither the guest nor the event loop has anything to do."""
        is_called = bool(self.held) if self.kind == "polls" else self.line
        return self.is_idle and not (is_called or self.to_send or self.is_ready())

    def make_turn(self):
        """A turn of the event loop, up to its next poll. What its own calls wake it for, that poll is for."""
        data = bytes(self.input[:self.random.randint(0, self.console.wants().input)])
        done = self.console.receive(data)
        assert done.accepted == len(data) and (self.is_on or not data)
        self.held += data
        del self.input[:len(data)]
        self.carry_out(done.work)
        if self.console.wants().output and self.has_room():
            some = self.console.output()[:self.random.randint(1, 999)]
            self.taken += some
            if self.connected:
                self.connected.input += some
            self.console.consume(len(some))
        self.turn()
        self.is_woken, self.polled = False, self.console.wants()

    def reset(self):
        """The bytes that the port holds are lost, and nothing else."""
        self.carry_out(self.console.reset())
        self.lost += len(self.held)
        self.held.clear()
        self.is_on, self.line = True, False
        self.boot()

    def suspend(self):
        self.console.suspend()
        self.is_on = False

    def migrate(self):
        """To another monitor, with the interrupt controller's state or without."""
        self.console, self.is_woken = Console.from_bytes(self.console.to_bytes()), True
        if self.random.random() < 0.5:
            self.line = False
            self.refuse()
        self.turn()

    # The guest

    def read(self, offset):
        done = self.console.read(offset)
        self.carry_out(done.work)
        return done.byte

    def write(self, offset, value):
        self.carry_out(self.console.write(offset, value))

    def receive_byte(self):
        assert self.read(0) == self.held.pop(0)
        self.got += 1

    def send_byte(self):
        """Sends, and is held after it for some time while there is no room."""
        byte = self.to_send.pop(0)
        if self.console.is_full():
            self.dropped += 1
        else:
            self.sent += bytes([byte])
        self.write(0, byte)
        for _ in range(self.patience):
            if not self.console.is_full():
                break
            yield

    def receive_some(self):
        for _ in range(self.most):
            is_there = self.read(LSR) & READY
            yield
            if not is_there:
                break
            self.receive_byte()
            yield

    def driver(self):
        """Tests the port in loopback, enables interrupts, and then serves them for ever."""
        if self.kind != "polls":
            for offset, value in (MCR, 0x1B), (IER, 0x0F), (IER, 0), (MCR, 0x0B):
                self.write(offset, value)
                yield
            yield from self.receive_some()   # which does not come if input waits
            self.write(IER, RDA)
            yield
        while True:
            self.is_idle = False
            if self.kind == "polls" or self.line:
                self.line &= self.is_level
                yield from self.handler()
            elif self.to_send and self.kind == "never":
                yield from self.send_byte()
            elif self.to_send and not self.read(IER) & THRE:
                self.write(IER, RDA | THRE)
            self.is_idle = True
            yield

    def handler(self):
        for _ in range(512 if self.kind == "until none" else 1):
            if self.kind in ("once", "until none"):
                is_none = self.read(IIR) & NONE
                yield
                if is_none:
                    break
            yield from self.receive_some()
            if self.kind == "polls" and self.to_send:
                yield from self.send_byte()
            elif self.read(IER) & THRE:
                for _ in range(min(16, len(self.to_send))):
                    yield from self.send_byte()
                if not self.to_send:
                    self.write(IER, RDA)
                    yield


class World:
    """A machine with a source and a reader, or two that are each other's."""

    def __init__(self, source, kind=Machine):
        self.random = source
        output = source.randbytes(source.choice([0, 0, 4090]))   # which nearly has no room
        self.machines = [kind(source, b""), kind(source, b"")] if source.random() < 0.4 else [kind(source, output)]
        self.given = 0
        if len(self.machines) == 2:
            self.machines[0].connected, self.machines[1].connected = self.machines[::-1]

    def disturb(self, machine):
        """What may happen at any time."""
        chance = self.random.random()
        if chance < 0.02:
            machine.to_send += self.random.randbytes(self.random.randrange(40))
        elif chance < 0.04 and not machine.connected:
            data = self.random.randbytes(self.random.randrange(100))
            machine.input += data
            self.given += len(data)
        elif chance < 0.045:
            machine.is_blocked = not machine.is_blocked
        elif chance < 0.047:
            machine.reset()
        elif chance < 0.048 and machine.is_on:
            machine.suspend()
        elif chance < 0.053:
            machine.migrate()
        elif chance < 0.055 and machine.kind != "polls":
            machine.carry_out(machine.console.set_polled(self.random.random() < 0.5))

    def run(self, steps):
        """So many steps with disturbances, and then as many as it takes to come to rest."""
        for step in range(MOST_STEPS):
            machine = self.random.choice(self.machines)
            if step < steps:
                self.disturb(machine)
            elif step == steps:
                self.calm_down()
            elif all(each_machine.is_at_rest() for each_machine in self.machines):
                return self.check()
            if machine.is_on and self.random.random() < 0.8:
                next(machine.guest)
            elif machine.is_ready():
                machine.make_turn()
        raise AssertionError("it does not come to rest")

    def check(self):
        """All that was given was read or lost at a reset, and all that was sent and not dropped was taken, in order."""
        for machine in self.machines:
            assert not (machine.input or machine.held or machine.to_send or machine.console.output()), machine
            assert (machine.sent, machine.dropped) == (machine.taken, machine.console.dropped())
        given = self.given + sum(len(machine.sent) for machine in self.machines if machine.connected)
        assert given == sum(machine.got + machine.lost for machine in self.machines)

    def calm_down(self):
        for machine in self.machines:
            machine.is_blocked = machine.may_refuse = False
            if not machine.is_on:
                machine.reset()
