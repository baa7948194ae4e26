#!/usr/bin/env python3
# SPDX-License-Identifier: Apache-2.0 OR BSD-3-Clause
"""A console on a pseudo-terminal, and a guest that echoes what you type.

    PYTHONPATH=bindings/python examples/python/pty_console.py

It prints the path of the pseudo-terminal. Open that with `screen PATH`, or with `cat PATH` and `echo hello > PATH`.
When the guest reads Ctrl-D, it switches its machine off.

`Monitor` is what a monitor needs around a console. The guest runs in a thread of its own, as a virtual processor does.
"""
import os
import selectors
import threading
import tty

from superio import Console, Work

HELD_FOR = 1.0       # how many seconds a guest waits for the reader, at most
TURN_AFTER = 0.005   # after how many seconds the event loop comes back, if the console wants a turn


def at_once(call, *arguments):
    """What a call gives, or `None` if it would have to wait."""
    try:
        return call(*arguments)
    except BlockingIOError:
        return None


class Monitor:
    def __init__(self):
        self.console = Console()
        self.lock = threading.Lock()
        self.room = threading.Condition(self.lock)   # for a guest that is held
        self.holds = True                            # whether to hold a guest that sends more than is taken
        self.interrupt = threading.Event()           # the guest's interrupt line, edge-triggered
        self.is_off = False
        self.woken, self.waker = os.pipe()
        # This end of the terminal stays open too, so that people can come and go.
        self.terminal, self.their_end = os.openpty()
        tty.setraw(self.their_end)
        self.path = os.ttyname(self.their_end)
        for file in (self.woken, self.waker, self.terminal):
            os.set_blocking(file, False)

    def carry_out(self, work: Work) -> None:
        for _ in range(work.interrupts):
            self.interrupt.set()   # if this may be refused, call `self.carry_out(self.console.refuse())` then
        if work.wakes:
            self.wake()

    def wake(self) -> None:
        at_once(os.write, self.waker, b"\0")

    # What a virtual processor calls

    def read(self, offset) -> int:
        with self.lock:
            done = self.console.read(offset)
            self.carry_out(done.work)
            return done.byte

    def write(self, offset, value) -> None:
        with self.lock:
            self.carry_out(self.console.write(offset, value))
            if self.holds:   # `wait_for` releases the lock meanwhile
                self.holds = self.room.wait_for(lambda: not self.console.is_full(), HELD_FOR)

    def switch_off(self) -> None:
        self.is_off = True
        self.wake()

    # The event loop

    def run(self) -> None:
        """Goes on until the guest is off and its output has been taken."""
        with selectors.DefaultSelector() as selector:
            selector.register(self.woken, selectors.EVENT_READ)
            while True:
                is_off = self.is_off   # first, because the guest may send its last bytes meanwhile
                with self.lock:
                    self.make_turn()
                    wants = self.console.wants()
                if is_off and not wants.output:
                    return
                events = selectors.EVENT_READ * (wants.input > 0) | selectors.EVENT_WRITE * wants.output
                if events:
                    selector.register(self.terminal, events)
                selector.select(TURN_AFTER if wants.turn else None)
                if events:
                    selector.unregister(self.terminal)
                at_once(os.read, self.woken, 4096)

    def make_turn(self) -> None:
        wanted, waiting = self.console.wants().input, self.console.output()
        data = at_once(os.read, self.terminal, wanted) if wanted else None
        if data:
            self.carry_out(self.console.receive(data).work)
        taken = at_once(os.write, self.terminal, waiting) if waiting else None
        if taken:
            self.console.consume(taken)
            self.holds = True
            self.room.notify_all()
        self.carry_out(self.console.turn())


class EchoGuest(threading.Thread):
    """A driver that echoes, with the registers of a 16550."""

    def __init__(self, machine: Monitor) -> None:
        super().__init__(daemon=True)
        self.machine = machine

    def run(self) -> None:
        self.send(b"Type, and Ctrl-D to switch off.\r\n")
        self.machine.write("IER", 0x01)   # received data interrupts
        while not self.machine.is_off:
            self.machine.interrupt.wait()
            self.machine.interrupt.clear()
            while not self.machine.read("IIR") & 0x01:      # something is pending
                while self.machine.read("LSR") & 0x01:      # a byte is there
                    self.echo(self.machine.read("RBR"))

    def echo(self, byte: int) -> None:
        if byte == 0x04:
            self.machine.switch_off()
        else:
            self.send(b"\r\n" if byte == ord("\r") else bytes([byte]))

    def send(self, text: bytes) -> None:
        for byte in text:
            self.machine.write("THR", byte)


if __name__ == "__main__":
    monitor = Monitor()
    print(monitor.path, flush=True)
    EchoGuest(monitor).start()
    monitor.run()
    print("The guest is off.")
