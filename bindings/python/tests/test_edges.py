# SPDX-License-Identifier: Apache-2.0 OR BSD-3-Clause
"""Numbers, dates and names at the edges of their types, as the devices, the shell and the viewer show them."""
import calendar
import io
import os
import re
import shlex
import tempfile
import unittest
from pathlib import Path
from unittest import mock
from xml.etree import ElementTree

from support import ENVIRONMENT, FolderTest, run, run_each

from superio import Board, Console, ConsoleState, Rtc, RtcState, Serial, SerialState, parse
from superio.__main__ import _parser, _viewer_parser
from superio.board import Counts
from superio.recording import replay
from superio.session import Session
from superio.tell import date_of
from superio.view import Viewer, table, view

DAY = 24 * 60 * 60
MOST = {bits: (1 << bits) - 1 for bits in (8, 16, 31, 32, 63, 64)}
# Seconds of 32 bits: the edges of a minute, of a day, of 16, 31 and 32 bits.
SECONDS = [0, 1, 59, 60, DAY - 1, DAY, DAY + 1, 10 * DAY, MOST[16], MOST[16] + 1, MOST[31] - 1, MOST[31], MOST[31] + 1,
           MOST[32] - DAY, MOST[32] - 1, MOST[32]]
# Moments of 64 bits, of which the low 32 count.
MOMENTS = [*SECONDS, MOST[32] + 1, MOST[32] + DAY, MOST[63], MOST[63] + 1, MOST[64] - 1, MOST[64]]
MOMENTS_AND_DUE = [(now, due) for now in MOMENTS for due in SECONDS[1:] if (now & MOST[32]) + due <= MOST[32]]
DATES = {0: "1970-01-01 00:00:00", 951_782_400: "2000-02-29 00:00:00", MOST[31]: "2038-01-19 03:14:07",
         MOST[31] + 1: "2038-01-19 03:14:08", 4_107_542_399: "2100-02-28 23:59:59", 4_107_542_400: "2100-03-01 00:00:00",
         MOST[32]: "2106-02-07 06:28:15"}
BYTES = [0, 1, 0x7F, 0x80, 0xFE, 0xFF]
COUNTS = [0, 1, 2, *MOST.values(), *(most + 1 for bits, most in MOST.items() if bits != 64)]
# Names of files that a shell, a format or a pattern would take for something else.
NAMES = ["$HOME", "${HOME}", "a $x b", "$", "~", "~root", "a*b", "a[1]", "?", "a'b", 'a"b', "a\\b", "#a", "%s", "{0}",
         "-a", "--svg", "a;b", "a|b", "a&b", "`a`", " a ", "a\tb", "é", "on ", "a" * 200, "a\x01\x1b\x7f", "\ufffe",
         "\udcff", "é\udce9"]

# Each place of the shell where a file can be named: arguments and lines, in which {} is its name. `a script` is there.
READ = {"file": [(["{}"], ""), (["--shell", "{}"], "")],
        "trace": [(["view", "{}"], "next\n"), (["view", "{}", "--table"], ""), (["view", "{}", "--table", "out"], ""),
                  (["view", "{}", "--svg", "out"], "")],
        **{name: [(["--shell"], f"{name} {{}}\n")] for name in ("load", "source")}}
WRITTEN = {**{name: [(["view", "a script", f"--{name}", "{}"], "")] for name in ("table", "svg")},
           **{name: [(["--shell"], f"kr 04\n{name} {{}}\n")] for name in ("save", "script", "trace")}}
# The characters of `NAMES` that a picture's title has as escapes.
TITLES = {"\x01": r"\x01", "\x1b": r"\x1b", "\ufffe": r"\ufffe", "\udcff": r"\xff", "\udce9": r"\xe9"}
PLAIN, LATIN_1 = "cafe", "caf\udce9"   # which is no UTF-8
SHOWN = re.compile(r"caf(?:\\udc|\\x)e9")
# Locales: one of UTF-8, where Python refuses what is none in standard input, and one of ASCII.
LOCALES = [{"PYTHONUTF8": "1", "PYTHONIOENCODING": "utf-8:strict"},
           {"PYTHONUTF8": "0", "PYTHONCOERCECLOCALE": "0", "LC_ALL": "C"}]


def session_at(now, *lines):
    """A session whose host has this time, after lines."""
    session = Session(io.StringIO(), host_time=lambda: now)
    for line in lines:
        session.carry_out(os.fsencode(line))
    return session


def said(session, line):
    start = session.stdout.tell()
    session.carry_out(line.encode())
    return session.stdout.getvalue()[start:].splitlines()


class Alarms(unittest.TestCase):
    def test_in_how_many_seconds_an_alarm_is_due(self):
        """At any moment after which the host's 32 bits last until then, and at each moment up to the alarm."""
        for now, due in MOMENTS_AND_DUE:
            for guest_time in {0, MOST[32] - due}:
                clock = Rtc()
                clock.write("LR", guest_time, now)
                clock.write("MR", guest_time + due, now)
                for passed in {0, 1, due - 1, due}:
                    self.assertEqual(due - passed, clock.alarm_due(now + passed), (now, due, passed))

    def test_an_alarm_over_the_end_of_the_hosts_32_bits(self):
        """Then guest time is the host's, which begins at 0, unless the offset takes the host's there."""
        for now, match, due in ((MOST[32], 1, 2), (MOST[32], 2, 3), (1, MOST[32], None), (2, MOST[32], None),
                                (MOST[31] + 1, MOST[31], MOST[31]), (MOST[31] + 1, MOST[31] + 1, None)):
            clock = Rtc()
            clock.write("LR", 0, now)
            clock.write("MR", match, now)
            self.assertEqual(due, clock.alarm_due(now), (now, match))

    def test_no_alarm(self):
        for now in MOMENTS:
            self.assertIsNone(Rtc().alarm_due(now))

    def test_what_the_shell_shows_of_it(self):
        for now, due in MOMENTS_AND_DUE:
            session = session_at(now, "clock write LR 0")
            self.assertEqual([f"alarm set for guest time {due:#010x}  {date_of(due)} UTC"],
                             said(session, f"alarm +{due}"))
            rows = said(session, "regs clock")
            self.assertIn(f"  alarm due in {due} s", rows)
            self.assertIn(f"  MR   {due:#010x}", rows)
            session._host_time = lambda: now + due
            self.assertIn("  alarm due now", said(session, "regs clock"))


class Bytes(unittest.TestCase):
    def test_each_place_that_shows_them(self):
        """All of them are shown, up to as many as there can be: 64 in the FIFO, and 256 in the output."""
        letters = "abcdefghijklmnopqrstuvwxyz" * 10
        for count in (0, 1, 2, 63, 64, 65, 128, 255, 256):
            held, sent = letters[:min(count, 64)], letters[:count]
            typed = [f"sq {letters[begin:min(begin + 16, count)].encode().hex()}" for begin in range(0, count, 16)]
            session = session_at(0, *typed)
            with self.subTest(count=count):
                self.assertIn(f"FIFO {len(held)} of 64", " ".join(said(session, "regs serial")))
                self.assertEqual([f'  "{held}"'] * bool(held), [row for row in said(session, "regs serial") if '"' in row])
                self.assertEqual([f'"{held}"'], said(session, "drain"))
                session = session_at(0, *(f"sw 00 {ord(one):02x}" for one in sent))
                self.assertEqual([f'"{sent}"'], said(session, "output"))
                self.assertIn(f"{count} byte{'' if count == 1 else 's'} out", " ".join(said(session, "regs serial")))


class Dates(unittest.TestCase):
    def test_dates(self):
        for seconds, date in DATES.items():
            self.assertEqual(date, date_of(seconds))
        for seconds in SECONDS:
            day, time = date_of(seconds).split(" ")
            parts = [*map(int, day.split("-")), *map(int, time.split(":"))]
            self.assertEqual(seconds, calendar.timegm((*parts, 0, 0, 0)))

    def test_each_place_that_shows_one(self):
        for seconds, date in DATES.items():
            session = session_at(seconds)
            self.assertEqual([f"DR = {seconds:#010x}  {date} UTC"], said(session, "clock read DR"))
            self.assertEqual([f"  DR   {seconds:#010x}  {date}"], said(session, "regs clock")[1:2])
            if seconds:
                early = session_at(0)
                self.assertEqual([f"alarm set for guest time {seconds:#010x}  {date} UTC"],
                                 said(early, f"alarm {seconds}"))
            if seconds < MOST[32]:
                late = session_at(MOST[32])
                self.assertEqual([f"ok, and no alarm: guest time {seconds:#010x}, {date} UTC, is past"],
                                 said(late, f"alarm {seconds}"))

    def test_a_host_time_of_more_than_32_bits(self):
        """The guest sees its low 32 bits."""
        for now in MOMENTS:
            session = session_at(now)
            self.assertEqual([f"{now & MOST[32]:08x}"], said(session, "cr now DR"))
            self.assertEqual(f"cr {now:016x} 0000", said(session, "trace")[-1])

    def test_a_host_before_1970(self):
        """Its time is 0 in each command."""
        for now in (-0.5, -1, -1.5, -MOST[31]):
            session = session_at(now, "clock write MR 9", "alarm +5", "clock read DR now+1", "cr now DR")
            self.assertEqual(["cw 0000000000000000 0004 00000009", "cw 0000000000000000 0004 00000005",
                              "cr 0000000000000001 0000", "cr 0000000000000000 0000"], said(session, "trace"))
            rows = said(session, "regs")
            self.assertIn(f"  DR   0x00000000  {DATES[0]}", rows)
            self.assertIn("  alarm due in 5 s", rows)


class Registers(unittest.TestCase):
    def test_values_of_the_clock(self):
        for value in SECONDS:
            session = session_at(5, f"clock write LR {value}")
            self.assertEqual([f"LR = 0x{value:08x}"], said(session, "clock read LR"))
            self.assertIn(f"  LR   {value:#010x}", said(session, "regs clock"))
            back = session_at(5, f"cw 0000000000000005 0008 {value ^ MOST[32]:08x}")
            said(back, f"clock write LR {value}")
            self.assertIn(f"  LR {value ^ MOST[32]:#010x} -> {value:#010x}", said(back, "diff"))

    def test_offsets_of_the_clock(self):
        for old in (-MOST[63] - 1, -MOST[32], -1, 0, 1, MOST[31] + 1, MOST[32] + 1, MOST[63]):
            for new in (-MOST[63] - 1, 0, MOST[63]):
                session = session_at(0, *(f"cl {Rtc.from_state(RtcState(offset=offset)).to_bytes().hex()}"
                                          for offset in (old, new)))
                changed = [f"  clock offset {old} -> {new} s"] if old != new else ["  nothing changed"]
                self.assertEqual(changed, said(session, "diff")[1:])
            self.assertIn(f" offset={old} ", repr(Rtc.from_state(RtcState(offset=old))))

    def test_the_divisor(self):
        for low in BYTES:
            for high in BYTES:
                session = session_at(0, "write LCR DLAB|8N1", f"write DLL {low}", f"write DLM {high}")
                self.assertIn(f"  divisor {256 * high + low}, FIFO 0 of 64", said(session, "regs serial"))
                port = Serial.from_state(SerialState(baud_divisor_low=low, baud_divisor_high=high))
                self.assertIn(f"<Serial divisor={256 * high + low} ", repr(port))

    def test_bytes_that_are_held_or_sent(self):
        for count in (0, 1, 2, 63, 64):
            session = session_at(0, *([f"sq {'61' * count}"] if count else []))
            self.assertIn(f"  divisor 12, FIFO {count} of 64", said(session, "regs serial"))
            self.assertEqual([f"{64 - count:02x}"], said(session, "sc"))
        for count in (0, 1, 2, 255, 256):
            session = session_at(0, *["sw 00 61"] * count)
            noun = "byte" if count == 1 else "bytes"
            self.assertIn(f"  line called 0 times, {count} {noun} out", said(session, "regs serial"))

    def test_counts(self):
        for count in COUNTS:
            session = session_at(0)
            session.board.calls, session.board.counts = count, Counts(count, count // 3, count // 5, count // 7)
            self.assertEqual([f"{count:016x}"], said(session, "st"))
            self.assertEqual([" ".join(f"{count // part:016x}" for part in (1, 3, 5, 7))], said(session, "se"))
            noun = "time" if count == 1 else "times"
            self.assertIn(f"  line called {count} {noun}, 0 bytes out", said(session, "regs serial"))
            console = Console.from_state(ConsoleState(dropped=count))
            self.assertEqual((count, count), (console.dropped(), console.state.dropped))
            self.assertIn(f" dropped={count} ", repr(console))

    def test_a_mask(self):
        """Each of its bits is of a call, and a call from 64 on is taken."""
        for bit in (0, 1, 31, 32, 62, 63):
            board, calls = Board(), []
            board.reply(parse(f"refuse {1 << bit:016x}".encode(), is_first=True))
            while len(calls) < 130:
                board.reply(parse(b"sr 02"))
                calls.append(board.reply(parse(b"sw 00 61" if calls else b"sw 01 02")))
            self.assertEqual([bit], [number for number, reply in enumerate(calls) if reply == "trigger"])


class Traces(FolderTest):
    def viewer(self, count):
        """A viewer of so many calls, all of which are one."""
        (step,) = replay("trace", [b"sr 05  60\n"])
        self.out = io.StringIO()
        return Viewer([step] * count, "trace", self.out)

    def said(self, viewer, line):
        start = self.out.tell()
        viewer.carry_out(line.encode())
        return self.out.getvalue()[start:].splitlines()

    def test_many_calls(self):
        for count in (9, 10, 99_999, 100_000, 100_001, 1_000_001):
            viewer = self.viewer(count)
            viewer.greet()
            self.assertIn(f"trace: {count} calls in 1 piece", self.out.getvalue())
            for place in {1, 2, count // 2, count - 6, count - 1, count} - {0}:
                self.assertEqual(f"call {place} of {count}, piece 1: sr 05  60", self.said(viewer, f"goto {place}")[0])
                rows = self.said(viewer, "list")
                first = max(1, place - 5)
                expected = [*range(first, min(count, first + 10) + 1)]
                self.assertEqual(expected, [int(row[2:].split()[0]) for row in rows])
                self.assertEqual([place], [int(row[2:].split()[0]) for row in rows if row.startswith("> ")])
            self.said(viewer, "first")
            self.assertIn(f"call {count} of ", self.said(viewer, f"next {count - 1}")[0])
            self.assertIn("call 1 of ", self.said(viewer, f"back {count - 1}")[0])

    def test_numbers_in_a_table(self):
        (step,) = replay("trace", [b"sr 05  60\n"])
        with mock.patch("superio.view.changes", lambda _: []):  # which takes time
            rows = table([step] * 100_001).splitlines()
        self.assertEqual((100_002, "piece 1"), (len(rows), rows[0]))
        wrong = [(number, row) for number, row in enumerate(rows[1:], 1) if int(row.split()[0]) != number]
        self.assertEqual([], wrong[:3])


class Names(FolderTest):
    def setUp(self):
        super().setUp()
        self.addCleanup(os.chdir, os.getcwd())
        os.chdir(self.folder)
        # Whatever a name is taken for, nothing is written elsewhere: the home is no folder.
        home = str(self.folder / "none" / "home")
        for patched in (mock.patch.dict(os.environ, {"HOME": home, "x": "y"}), mock.patch("os.fsync")):
            patched.start()
            self.addCleanup(patched.stop)

    def files(self):
        found = {path.name: path.read_bytes() for path in self.folder.iterdir()}
        for path in self.folder.iterdir():
            path.unlink()
        return found

    def test_each_command_takes_a_name_as_it_is(self):
        """In quotes, if it has blanks. A tilde alone at its start is the home."""
        for name in NAMES:
            given = shlex.quote(f"./{name}" if name[0] == "~" else name)
            for command in ("save", "script", "trace"):
                session = session_at(0, "write SCR 7", f"{command} {given}")
                self.assertIn(name, session.stdout.getvalue().splitlines()[-1])
                files = self.files()
                self.assertEqual([name], [*files], (command, name))
                self.assertTrue(files[name])
                for reader in ("load", "source"):
                    (self.folder / name).write_bytes(files[name])
                    again = session_at(0, f"{reader} {given}")
                    self.assertEqual(7, again.board.serial.state.scratch)
                    self.files()

    def test_the_home(self):
        with mock.patch.dict(os.environ, {"HOME": str(self.folder)}):
            session_at(0, "save ~/new")
        self.assertEqual(["new"], [*self.files()])

    def test_the_viewer_takes_a_name_as_it_is(self):
        for name in NAMES:
            (self.folder / name).write_bytes(b"sr 05\n")
            short = name if len(name) < 200 else "a"
            view(name, f"{short}.table", f"{short}.svg")
            files = self.files()
            self.assertEqual({name, f"{short}.table", f"{short}.svg"}, {*files})
            # XML takes neither control characters nor what is not UTF-8, so the title has escapes for them.
            title = ElementTree.fromstring(files[f"{short}.svg"])[0].text
            self.assertEqual("".join(TITLES.get(one, one) for one in name), title)

    def test_a_name_that_is_not_utf_8(self):
        """It does what any other name does: as that of a file that is there, of one that is not, and of one to write.
        Where it is shown, it has an escape."""
        cases = [(kind, *way) for kind, places in (("there", READ), ("missing", READ), ("new", WRITTEN))
                 for ways in places.values() for way in ways]
        for locale in LOCALES:
            plain, other = (self.ends(name, cases, locale) for name in (PLAIN, LATIN_1))
            self.assertEqual(len(cases), len(plain))
            for case, done, found in zip(cases, plain, other):
                with self.subTest(case=case, locale=locale):
                    self.assertEqual(case[0] != "missing", done[0] == 0, done)
                    self.assertEqual(done, found)

    def ends(self, name, cases, locale):
        """How a run of each case with this name ends, and what it leaves, in which the name is then the plain one."""
        runs = []
        for kind, arguments, lines in cases:
            folder = Path(tempfile.mkdtemp(dir=self.folder))
            for given in ["a script", *[name] * (kind == "there")]:
                (folder / given).write_bytes(b"kr 04\n")
            runs.append((folder, [word.format(name) for word in arguments], os.fsencode(lines.format(name))))
        done = run_each(runs, env={**ENVIRONMENT, **locale})
        return [[status, *(SHOWN.sub(PLAIN, text) for text in said), {
            path.name.replace(name, PLAIN): SHOWN.sub(PLAIN, path.read_text("utf-8")) for path in folder.iterdir()}]
            for (status, *said), (folder, *_) in zip(done, runs)]

    def test_each_place_where_a_file_can_be_named_is_tried(self):
        named = {action.dest for parser in (_parser("it"), _viewer_parser("it")) for action in parser._actions
                 if action.metavar}
        named |= {entry.name for entry in session_at(0).help.values() if "FILE" in entry.usage}
        self.assertEqual(named, {*READ, *WRITTEN})

    def test_a_picture_is_in_utf_8_in_each_locale(self):
        for locale in LOCALES:
            (self.folder / "é").write_bytes(b"kr 04\n")
            self.assertEqual((0, "", ""), run("view", "é", "--svg", "out", env={**ENVIRONMENT, **locale}))
            self.assertIn("<title>é</title>".encode(), self.files()["out"])
