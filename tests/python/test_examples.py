# SPDX-License-Identifier: Apache-2.0 OR BSD-3-Clause
"""The examples in Python, as programs, and by the rules that superio.h has for a monitor around a console."""
import fcntl
import itertools
import os
import random
import re
import select
import selectors
import struct
import subprocess
import sys
import termios
import threading
import time
from contextlib import nullcontext, suppress

import pytest
from harness import LIMIT, ROOT, at_least
from seeds import random_source
from superio import Console as Port
from superio import Work

EXAMPLE = ROOT / "examples" / "python" / "pty_console.py"
GREETING = b"Type, and Ctrl-D to switch off.\r\n"
# After how many milliseconds an event loop comes back at most, if a turn is wanted.
PAUSE = int(re.search(r"for at most (\d+) ms if wants\.turn", (ROOT / "docs/USING.md").read_text(encoding="utf-8"))[1])


def unread(file):
    """How many bytes wait in a file."""
    return struct.unpack("i", fcntl.ioctl(file, termios.FIONREAD, bytes(4)))[0]


class Console:
    """The example's console, as somebody has it who opened its path."""

    def __init__(self, program):
        self.path = program.stdout.readline().rstrip("\n")
        self.file = os.open(self.path, os.O_RDWR | os.O_NOCTTY)
        os.set_blocking(self.file, False)

    def exchange(self, typed, count, pause=0.0):
        """Types, and gives what the console shows meanwhile, up to so many bytes."""
        shown, end = b"", time.monotonic() + LIMIT
        while len(shown) < count:
            assert time.monotonic() < end, f"{len(shown)} of {count} bytes are shown"
            readable, writable, _ = select.select([self.file], [self.file] if typed else [], [], 1)
            if writable:
                typed = typed[os.write(self.file, typed[:999]):]
            if readable:
                shown += os.read(self.file, min(count - len(shown), 999))
                time.sleep(pause)
        return shown

    def until_unread(self, count):
        """Waits until so many bytes are shown, and reads none of them."""
        end = time.monotonic() + LIMIT
        while unread(self.file) < count:
            assert time.monotonic() < end, f"{unread(self.file)} of {count} bytes are shown"
            time.sleep(0.001)


@pytest.fixture
def program(tmp_path):
    """A copy of it, whose guest waits for its reader without a limit: after a second, which a busy machine may take, it
    drops output."""
    text = EXAMPLE.read_text(encoding="utf-8")
    assert text.count("HELD_FOR = 1.0 ") == 1
    (tmp_path / EXAMPLE.name).write_text(text.replace("HELD_FOR = 1.0 ", "HELD_FOR = None "), encoding="utf-8")
    started = subprocess.Popen([sys.executable, tmp_path / EXAMPLE.name], stdout=subprocess.PIPE, text=True,
                               env={**os.environ, "PYTHONPATH": str(ROOT / "bindings" / "python")})
    with started:
        yield started
        started.kill()


def test_console_on_a_terminal(program):
    """It echoes what is typed, and a text of any length, also to a slow reader and while nobody reads.
    Ctrl-D ends it."""
    console = Console(program)
    assert console.exchange(b"", len(GREETING)) == GREETING
    assert console.exchange(b"hi\r", 4) == b"hi\r\n"
    text = bytes(random.choices(b"abcdefgh", k=20_000))
    assert console.exchange(text, len(text), pause=0.001) == text
    few = text[:2_000]
    os.write(console.file, few)
    console.until_unread(len(few))
    assert console.exchange(b"", len(few)) == few
    os.write(console.file, b"\x04")
    assert program.wait(LIMIT) == 0
    assert program.stdout.read() == "The guest is off.\n"


def test_nobody_has_to_look(program):
    """The guest goes on if nobody opens the path, and what it sends is there later."""
    console = Console(program)
    os.close(console.file)
    time.sleep(0.2)
    console.file = os.open(console.path, os.O_RDWR | os.O_NOCTTY | os.O_NONBLOCK)
    assert console.exchange(b"a", len(GREETING) + 1) == GREETING + b"a"


class Watched:
    """A console that notes each call of it, with what it gave."""

    def __init__(self, monitor):
        self.console, self.monitor, self.called = monitor.console, monitor, []

    def __getattr__(self, name):
        def call(*arguments):
            assert self.monitor.lock.locked(), "a call without the lock"
            result = getattr(self.console, name)(*arguments)
            self.called.append((name, *arguments, result))
            return result
        return call

    def noted(self):
        """The calls since the last time, and the works that they left to do."""
        called, self.called = self.called, []
        works = [call[-1] if isinstance(call[-1], Work) else getattr(call[-1], "work", None) for call in called]
        return called, [work for work in works if work]


class Machine:
    """The example's monitor in one thread: a guest that makes random accesses, somebody who types and reads, or does
    not, and turns of the event loop. The guest is held in vain each second time, and otherwise until the loop has
    made a turn and output was read."""

    def __init__(self, text, polls=selectors):
        module = {"__name__": "example"}
        exec(compile(text, EXAMPLE.name, "exec"), module)
        module["selectors"], at_once = polls, module["at_once"]

        def narrow(call, *words):   # the terminal takes a part of what it gets
            return at_once(call, *(word[:999] if isinstance(word, bytes) else word for word in words))
        module["at_once"] = narrow
        self.held_for, self.monitor = module["HELD_FOR"], module["Monitor"]()
        self.monitor.console = self.console = Watched(self.monitor)
        self.monitor.interrupt = self.monitor.room = self
        self.typed = self.received = self.sent = self.shown = b""
        self.edges = self.holds = self.told = 0
        self.is_stuck, self.bytes = False, itertools.cycle(range(251))
        os.set_blocking(self.monitor.their_end, False)

    # What the monitor calls of its interrupt line, and of those who wait for room

    def set(self):
        self.edges += 1

    def notify_all(self):
        self.told += 1

    def wait_for(self, has_room, seconds):
        assert seconds == self.held_for and not self.is_stuck, "the guest is held for nothing"
        if has_room():
            return True
        self.holds += 1
        self.follow(is_guest=True)
        self.is_stuck = self.holds % 2 > 0
        while not self.is_stuck and not has_room():
            self.read_shown(4096)
            self.monitor.make_turn()
            self.follow()
        return not self.is_stuck

    def is_woken(self):
        try:
            return bool(os.read(self.monitor.woken, 4096))
        except BlockingIOError:
            return False

    def follow(self, is_guest=False):
        """After an access of the guest, or a turn: what it left to do was done, and no more. The loop, which goes round
        again, may also wake itself."""
        called, works = self.console.noted()
        assert self.edges == sum(work.interrupts for work in works), "other edges are raised"
        is_woken, self.edges = self.is_woken(), 0
        assert not is_guest or is_woken == any(work.wakes for work in works), "the loop is not woken, or for nothing"
        if is_guest:
            return
        for name, *arguments, result in called:
            if name == "receive":
                self.received += arguments[0]
                assert result.accepted == len(arguments[0]), "more input is read than is wanted"
            if name == "consume":
                self.sent += self.waiting[:arguments[0]]
                self.is_stuck = False
            if name == "output":
                self.waiting = result
        names = [call[0] for call in called if call[0] not in ("wants", "output", "is_full")]
        assert names.count("turn") == 1 and names[-1] == "turn", "no turn, or not at the end"
        assert self.told == names.count("consume"), "nobody is told of room"
        self.told = 0
        self.read_shown(0)
        assert self.typed.startswith(self.received), "other input goes in"

    def read_shown(self, count):
        with suppress(BlockingIOError):
            self.shown += os.read(self.monitor.their_end, count) if count else b""
        assert self.sent.startswith(self.shown), "other output is consumed"

    # What happens

    def write(self, offset, value):
        holds, was_stuck = self.holds, self.is_stuck
        self.monitor.write(offset, value)
        if self.holds == holds:
            assert was_stuck or not self.console.console.is_full(), "the guest is not held"
            self.follow(is_guest=True)

    def send(self):
        """Until no more fits, and a few bytes more."""
        while not self.console.console.is_full():
            self.write("THR", next(self.bytes))
        for _ in range(3):
            self.write("THR", next(self.bytes))

    def drain(self):
        """The guest's driver reads what is held."""
        while self.monitor.read("LSR") & 0x01:
            self.follow(is_guest=True)
            self.monitor.read("RBR")
            self.follow(is_guest=True)
        self.follow(is_guest=True)

    def turn(self):
        with self.monitor.lock:
            self.monitor.make_turn()
            self.follow()

    def step(self, source):
        kind = source.randrange(4)
        if kind == 0 and len(self.typed) - len(self.received) < 1000:
            data = source.randbytes(source.randrange(1, 200))
            self.typed += data[:os.write(self.monitor.their_end, data)]
        elif kind == 1:
            self.read_shown(source.randrange(1, 4096))
        elif kind == 2:
            self.monitor.read(source.choice(["RBR", "IIR", "LSR"]))
            self.follow(is_guest=True)
        else:
            self.write(*source.choice([("IER", 1), ("IER", 3), ("THR", next(self.bytes))]))

    def go_on(self, source):
        for number in range(100):
            if number % 25 == 24:
                self.send()
            elif source.randrange(5) == 0:
                self.turn()
            else:
                self.step(source)

    def close(self):
        for file in (self.monitor.terminal, self.monitor.their_end, self.monitor.woken, self.monitor.waker):
            os.close(file)


@pytest.mark.parametrize("count", [0, 1, 999, 1000, 4096])
def test_what_was_sent_before_the_guest_is_off_is_shown(count):
    """Its loop ends only then, although the terminal takes a part at a time."""
    machine = Machine(EXAMPLE.read_text(encoding="utf-8"))
    machine.sent = bytes(place % 251 for place in range(count))
    for byte in machine.sent:
        machine.console.console.write("THR", byte)
    machine.monitor.switch_off()
    loop = threading.Thread(target=machine.monitor.run, daemon=True)
    loop.start()
    loop.join(LIMIT)
    for _ in range(2 + count // 999):
        machine.read_shown(4096)
    assert not loop.is_alive() and machine.shown == machine.sent


class LockOfLoop:
    """The lock, as the event loop takes it. When it is released for the nth time, the guest sends a byte and is off."""

    def __init__(self, machine, number):
        self.machine, self.left, self.lock = machine, number, machine.monitor.lock
        self.locked = self.lock.locked

    def __enter__(self):
        self.lock.acquire()

    def __exit__(self, *fault):
        self.lock.release()
        self.left -= 1
        if self.left == 0:
            self.machine.console.console.write("THR", 7)
            self.machine.monitor.switch_off()
        self.machine.monitor.wake()   # so that the loop goes round again


@pytest.mark.parametrize("number", [1, 2, 3])
def test_what_is_sent_while_the_loop_lacks_the_lock_is_shown(number):
    """It has to know of the output at least what the guest had sent when it was off."""
    machine = Machine(EXAMPLE.read_text(encoding="utf-8"))
    machine.sent, machine.monitor.lock = b"\7", LockOfLoop(machine, number)
    loop = threading.Thread(target=machine.monitor.run, daemon=True)
    loop.start()
    loop.join(LIMIT)
    machine.read_shown(4096)
    assert not loop.is_alive() and machine.shown == machine.sent


# A rule that a monitor breaks, by an edit of the example.
FORGETFUL = at_least(9, {
    "other edges": ("range(work.interrupts)", "range(work.interrupts - 1)"),
    "the loop is not woken": ("if work.wakes:", "if work.interrupts:"),
    "or for nothing": ("if work.wakes:", "if work:"),
    "the guest is not held": ("            self.holds = True\n", ""),
    "is held for nothing": ("self.holds = self.room.wait_for(", "self.room.wait_for("),
    "nobody is told": ("self.room.notify_all()", "pass"),
    "output is consumed": ("self.console.consume(taken)", "self.console.consume(len(waiting))"),
    "no turn": ("self.carry_out(self.console.turn())", "self.carry_out(self.console.turn()) if data else None"),
    "without the lock": ("        with self.lock:\n            done", "        if True:\n            done"),
}.items())


def play(text):
    machine = Machine(text)
    try:
        machine.go_on(random_source("a monitor in Python"))
    finally:
        machine.close()
    return machine.holds


def test_rules_of_a_monitor():
    assert play(EXAMPLE.read_text(encoding="utf-8")) > 1


@pytest.mark.parametrize("rule, edit", FORGETFUL, ids=lambda value: value if isinstance(value, str) else "")
def test_a_monitor_that_breaks_a_rule(rule, edit):
    text = EXAMPLE.read_text(encoding="utf-8")
    assert text.count(edit[0]) == 1
    with pytest.raises(AssertionError, match=rule):
        play(text.replace(*edit))


class Polls(dict):
    """In place of the module `selectors`, and of the event loop's selector: the files that it has, with their events. A
    poll ends when the others have made some steps, and have woken the loop more often than it wakes itself in a turn.
    In the last one the guest is off, and somebody reads all."""

    EVENT_READ, EVENT_WRITE, WAKES = selectors.EVENT_READ, selectors.EVENT_WRITE, 9
    register, unregister = dict.__setitem__, dict.__delitem__

    def __init__(self, count, source):
        super().__init__()
        self.left, self.source, self.wanted = count, source, []

    def DefaultSelector(self):
        return nullcontext(self)

    def select(self, seconds=None):
        machine, monitor, woken = self.machine, self.machine.monitor, unread(self.machine.monitor.woken)
        assert not monitor.lock.locked(), "it polls with its lock"
        machine.follow()
        wants = machine.console.console.wants()
        events = self.EVENT_READ * (wants.input > 0) | self.EVENT_WRITE * wants.output
        files = {monitor.woken: self.EVENT_READ, **({monitor.terminal: events} if events else {})}
        assert files == self, "it polls for something else than is wanted"
        assert seconds == (PAUSE / 1000 if wants.turn else None), "its poll ends at another time"
        assert woken < self.WAKES, "what has woken it wakes it again"
        self.wanted.append((wants.input > 0, wants.output, wants.turn))
        self.go_on(machine)
        for _ in range(self.WAKES):
            monitor.wake()

    def go_on(self, machine):
        self.left -= 1
        if self.left <= 0:
            self.switch_off(machine.monitor)
            machine.read_shown(8192)
        elif self.left % 25 == 0:
            machine.send()
        elif self.source.randrange(4):
            machine.drain()
        else:
            for _ in range(self.source.randrange(6)):
                machine.step(self.source)

    @staticmethod
    def switch_off(monitor):
        wake, seen = monitor.wake, []
        monitor.wake = lambda: seen.append(monitor.is_off)
        monitor.switch_off()
        monitor.wake = wake
        assert seen == [True], "the loop does not see that the guest is off"


def play_loop(text):
    """What the console wanted at each poll."""
    polls = Polls(200, random_source("an event loop in Python"))
    polls.machine = machine = Machine(text, polls)
    try:
        machine.monitor.run()
        machine.follow()
        assert not machine.console.console.output()
    finally:
        machine.close()
    return polls.wanted


def test_rules_of_the_event_loop():
    """It polls for all that the console wants, and for nothing else: otherwise it stalls, or never sleeps."""
    for wanted in zip(*play_loop(EXAMPLE.read_text(encoding="utf-8"))):
        assert {*wanted} == {True, False}


OTHER_LOOPS = at_least(11, [
    ("for something else than is wanted", "selectors.EVENT_READ * (wants.input > 0)", "selectors.EVENT_READ"),
    ("for something else than is wanted", "selectors.EVENT_WRITE * wants.output", "selectors.EVENT_WRITE"),
    ("for something else than is wanted", "            selector.register(self.woken, selectors.EVENT_READ)\n", ""),
    ("ends at another time", "TURN_AFTER if wants.turn else None", "None"),
    ("ends at another time", "TURN_AFTER if wants.turn else None", "TURN_AFTER"),
    ("ends at another time", "TURN_AFTER = 0.005 ", "TURN_AFTER = 5 "),
    ("wakes it again", "                at_once(os.read, self.woken, 4096)\n", ""),
    ("with its lock", "                selector.select(", "                with self.lock: selector.select("),
    ("no turn", "                    self.make_turn()\n", ""),
    ("that the guest is off", "        self.is_off = True\n        self.wake()\n", "        self.is_off = True\n"),
    ("that the guest is off", "        self.is_off = True\n        self.wake()\n",
     "        self.wake()\n        self.is_off = True\n"),
])


@pytest.mark.parametrize("rule, old, new", OTHER_LOOPS)
def test_an_event_loop_that_breaks_a_rule(rule, old, new):
    text = EXAMPLE.read_text(encoding="utf-8")
    assert text.count(old) == 1
    with pytest.raises(AssertionError, match=rule):
        play_loop(text.replace(old, new))


class Asleep(Exception):
    """The guest sleeps, and nothing interrupts it any more."""


class Moments:
    """A machine for the guest of the example, and its interrupt line. Before each thing that the guest does, the bytes
    come whose moment this is. While the guest sleeps, time goes on to the next interrupt."""

    def __init__(self, guest, *moments):
        self.console, self.interrupt, self.is_off, self.is_up = Port(True), self, False, False
        self.moments, self.count = moments, 0
        with suppress(Asleep):
            guest(self).run()

    def carry_out(self, work):
        self.is_up |= work.interrupts > 0

    def begin(self):
        typed = bytes(65 + place for place, moment in enumerate(self.moments) if moment == self.count)
        self.carry_out(self.console.receive(typed).work)
        self.count += 1

    def read(self, offset):
        self.begin()
        done = self.console.read(offset)
        self.carry_out(done.work)
        return done.byte

    def write(self, offset, value):
        self.begin()
        self.carry_out(self.console.write(offset, value))

    def wait(self):
        self.begin()
        while not self.is_up and self.count <= max(self.moments):
            self.begin()
        if not self.is_up:
            raise Asleep

    def clear(self):
        self.begin()
        self.is_up = False


def lost(text):
    """The moments of two bytes, from the end of the greeting on, of which the guest does not echo both."""
    module = {"__name__": "example"}
    exec(compile(text, EXAMPLE.name, "exec"), module)
    pairs = itertools.combinations_with_replacement(range(len(GREETING) - 1, len(GREETING) + 15), 2)
    return [pair for pair in pairs if Moments(module["EchoGuest"], *pair).console.output() != GREETING + b"AB"]


def test_the_guest_echoes_each_byte():
    """Whenever it comes, none is left without an interrupt."""
    assert lost(EXAMPLE.read_text(encoding="utf-8")) == []


CLEARS = "            self.machine.interrupt.clear()\n"
FORGETFUL_GUESTS = at_least(2, [
    {CLEARS: "", '                    self.echo(self.machine.read("RBR"))\n':
     f'                    self.echo(self.machine.read("RBR"))\n{CLEARS}'},
    {f"            self.machine.interrupt.wait()\n{CLEARS}": f"{CLEARS}            self.machine.interrupt.wait()\n"},
])


@pytest.mark.parametrize("edits", FORGETFUL_GUESTS)
def test_a_guest_that_loses_bytes(edits):
    text = EXAMPLE.read_text(encoding="utf-8")
    for old, new in edits.items():
        assert text.count(old) == 1
        text = text.replace(old, new)
    assert lost(text)
