# SPDX-License-Identifier: Apache-2.0 OR BSD-3-Clause
"""`python3 -m superio` in a terminal, with a file, a pipe and wrong arguments: what it shows, and writes to files."""
import os
import pty
import re
import resource
import signal
import subprocess
import sys
import tempfile
import threading
import time
import unittest
from contextlib import suppress
from pathlib import Path
from unittest import mock

from support import ENVIRONMENT, ROOT, TIMEOUT, FolderTest, ended, run, run_each

import superio
from superio import Rtc, RtcState, Serial, SerialState, registers

TOP = ROOT / "shell"
EXAMPLE = ROOT / "examples" / "three_devices.script"
NOWHERE = "/nowhere/at/all: No such file or directory\n"
SHELL, SCRIPT = ["--shell"], ["-"]
NAME = f"{os.path.basename(sys.executable)} -m superio"
CLOSED = f"{NAME}: Bad file descriptor\n"
NO_FILE = "/proc/self/mem"  # which can be opened, and not read from its start

# Arguments and standard input, and the status, the output and the errors. Each of these is started by itself.
STARTS = [
    (SHELL, b"\n   # indented\n  kr 04  \t\r\nread LSR\r\n\r\nkr 04", (0, "00\nLSR = 0x60  THRE TEMT\n00\n", "")),
    ([*SHELL, "/"], b"", (2, "", f"{NAME}: /: Is a directory\n")),
    (SCRIPT, b"refuse 0000000000000001\nsw 01 02\nkr 04", (0, "trigger\n00\n", "")),
    (SCRIPT, b"kr 04\nsr 5\nkr 04\n", (1, "00\n", "bad line 2\n")),
    (["view", "-"], b"sr\n", (1, "", '<stdin>:1: "sr": the syntax is: sr OO\n')),
    (["--version"], b"", (0, f"superio {superio.__version__}\n", "")),
]
# These share one start.
RUNS = [
    (SHELL, b"# comment\nkr 04\nread XYZ\nkr 04\n",
     (1, "00\n", '<stdin>:3: "read XYZ": XYZ is no offset, and no register: '
                 f"those are {' '.join(registers.SERIAL)}\n")),
    (SHELL, b"\xff\x1b\n", (1, "", '<stdin>:1: "\\xff\\x1b": no command is called \\xff\\x1b: help lists them\n')),
    (SHELL, b"# " + b"x" * 200_000 + b"\nkr 04\nkr", (1, "00\n", '<stdin>:3: "kr": the syntax is: kr OO\n')),
    (SHELL, b"kr " + b"1" * 100,
     (1, "", f'<stdin>:1: "kr {"1" * 57}..": {"1" * 24}.. is no offset: it is from 0 to 0xff\n')),
    (SHELL, b"kr 04\nquit\nkr 04\n", (0, "00\n", "")),
    (SHELL, b"write SCR 7\nreset\nread SCR\n", (0, "ok\na fresh board\nSCR = 0x00\n", "")),
    (SHELL, b"kr 04\nload /nowhere/at/all\nkr 04\n", (1, "00\n", '<stdin>:2: "load /nowhere/at/all": ' + NOWHERE)),
    (SHELL, b"load /proc/self/mem\n", (1, "", f'<stdin>:1: "load {NO_FILE}": {NO_FILE}: Input/output error\n')),
    ([*SHELL, NO_FILE], b"", (2, "", f"{NAME}: {NO_FILE}: Input/output error\n")),
    (["/"], b"", (2, "", "input or output fault\n")),
    # A script, of which `tests/python` runs many. What the shell alone takes is bad.
    *((SCRIPT, b"kr 04\n" + line + b"\nkr 04\n", (1, "00\n", "bad line 2\n")) for line in (
        b"si", b"# read LSR", b"kr 04\r")),
    (SCRIPT, b"", (0, "", "")),
    (SCRIPT, b"kr 04\n" * 10_923, (4, "", "script too long\n")),
    (["/nowhere/at/all"], b"", (2, "", f"{NAME}: {NOWHERE}")),
    (["view", "/nowhere/at/all"], b"", (2, "", f"{NAME}: {NOWHERE}")),
    (["view", "-"], b"# nothing\n", (1, "", "- has no call\n")),
]

HELD = "hi".ljust(64, "*")  # as many bytes as a port holds
PORT = SerialState(scratch=7, line_status=0x61, in_buffer=HELD.encode())
SL, CL = (f"{name} {device.to_bytes().hex()}\n" for name, device in (
    ("sl", Serial.from_state(PORT)), ("cl", Rtc.from_state(RtcState(lr=100, offset=-900)))))
FRESH = Serial().to_bytes().hex()
# A port that holds an "a", by itself and with an interrupt pending for it.
ONE, PENDING = (Serial.from_state(SerialState(line_status=0x61, in_buffer=b"a", **state)).to_bytes().hex()
                for state in ({}, {"interrupt_enable": 1, "interrupt_identification": 4}))
LOADED = "read SCR\nsd\ncr 00000000000003ef 0000\n"
# A chain of files, of which each names the one before.
CHAIN = {str(number): f"source {number - 1}\n" if number else "write SCR 7\n" for number in range(12)}

# A script as long as one may be, of few lines, since the shell writes each reply by itself: after 64 bytes the port is
# full.
LONGEST = f"st\ncr {0:016x} 0000\n" + f"sq {'00' * 128}\n" * 251 + f"sq {'00' * 122}\n"
LONGEST_SAID = f"{0:016x}\n{0:08x}\n40\n" + "full\n" * 251

# Files that are there and standard input; the status, the output, a part of the errors, and the files that are new.
FILES = [
    ({"a file": "old"}, f"write SCR 7\ntype {HELD}\nclock write LR 100 1000\nsave 'a file'\n",
     (0, "ok\n64 bytes received; no interrupt: IER does not enable RDA\nok\nport and clock saved to a file\n"), "",
     {"a file": SL + CL}),
    ({"it": SL + CL}, f"load it\n{LOADED}", (0, f"ok\nok\nSCR = 0x07\n{HELD.encode().hex()}\n0000006b\n"), "", {}),
    ({"it": "sl 00\ncl zz\n"}, "load it\n", (1, "too short\n"), 'it:2: "cl zz": the syntax is: cl HH..', {}),
    # Files follow each other, and go ten deep. What a line of one says is said with both places.
    (CHAIN, "source 0\n" * 12, (0, "ok\n" * 12), "", {}),
    (CHAIN, "source 9\n", (0, "ok\n"), "", {}),
    (CHAIN, "source 0\nsource 10\n", (1, "ok\n"), "files that load each other go at most 10 deep", {}),
    ({"it": "kr 04\nkr 4 4\n"}, "source it\n", (1, "00\n"),
     '<stdin>:1: "source it": it:2: "kr 4 4": the syntax is: kr OO\n', {}),
    ({"it": "kr 04\nquit\n"}, "source it\nkr 04\n", (0, "00\n"), "", {}),
    # A script for the program leaves a further line out that changed nothing. One that changed something is named.
    ({}, "refuse 2\nkr 04\nsb\ntimeout\nread SCR\nscript\nscript new\n",
     (0, f"00\n{FRESH}\nno interrupt: no byte is held\nSCR = 0x00\n"
         "refuse 0000000000000002\nkr 04\nsr 07\nthe script is in new\n"), "",
     {"new": "refuse 0000000000000002\nkr 04\nsr 07\n"}),
    ({}, "sw 01 01\nsq 6162\nsr 02\nsi\nsi\nkr 04\nscript new\n", (1, "ok\n02\nc4\nok\nok\n00\n"),
     '"script new": the program superio has no script of this session: call 4, si, is none of its lines. trace', {}),
    # A load of the port's own state asks again for what is pending.
    ({}, f"sw 01 01\nsq 61\nsl {PENDING}\nscript\n", (1, "ok\n01\nok\n"),
     f"of this session: call 3, sl {PENDING[:12]}", {}),
    ({}, f"sq 61\nsl {ONE}\nscript\n", (0, "01\nok\nsq 61\n"), "", {}),
    ({}, "sw 01 01\nsq 6162\nsr 02\nsi\nreset\nkr 04\nscript\n",
     (0, "ok\n02\nc4\nok\na fresh board\n00\nkr 04\n"), "", {}),
    ({"it": SL + CL}, "load it\nscript\n", (1, "ok\nok\n"), f"of this session: call 1, {SL[:12]}", {}),
    # It has at most 65,536 bytes.
    ({}, LONGEST + "script new\n", (0, LONGEST_SAID + "the script is in new\n"), "", {"new": LONGEST}),
    ({}, LONGEST + "sc\nscript new\n", (1, LONGEST_SAID + "00\n"), "at most 65,536 bytes, and these are more", {}),
    ({}, "kr 04\nreset\nsr 07\ntrace on\nread SCR\ntrace off\nread SCR\ntrace\ntrace new\n",
     (0, "00\na fresh board\n00\ntrace is on\nsr 07\nSCR = 0x00\ntrace is off\nSCR = 0x00\nsr 07\nsr 07\nsr 07\n"
         "the calls since the last reset are in new\n"), "", {"new": "sr 07\nsr 07\nsr 07\n"}),
    # A reset changes the board, and not what the session shows of calls.
    ({}, "trace on\nkr 04\nreset\nkr 04\ntrace off\nreset\nkr 04\n",
     (0, "trace is on\nkr 04\n00\na fresh board\nkr 04\n00\ntrace is off\na fresh board\n00\n"), "", {}),
]


SUPERIO = f"{sys.executable} -m superio"

# Commands for bash, and the status, the output and a part of the errors.
COMMANDS = [
    (f"yes 'kr 04' | {SUPERIO} --shell | head -n 1; exit ${{PIPESTATUS[1]}}", (128 + signal.SIGPIPE, "00\n", "")),
    (f"yes st | head -n 20000 | {SUPERIO} | head -n 1; exit ${{PIPESTATUS[2]}}",
     (128 + signal.SIGPIPE, "0000000000000000\n", "")),
    (f"yes 'kr 04' | head -n 5000 | {SUPERIO} view - --table | head -n 1; exit ${{PIPESTATUS[2]}}",
     (128 + signal.SIGPIPE, "piece 1\n", "")),
    (f"echo 'kr 04' | {SUPERIO} --shell > /dev/full", (2, "", "No space left on device")),
    (f"printf 'kr 04\\nkr 4' | {SUPERIO} > /dev/full", (2, "", "input or output fault\n")),
    (f"echo 'kr 4' | {SUPERIO} 2> /dev/full", (1, "", "")),
    # A standard file that is closed fails in each form. What is said of a fault is then not among the replies.
    (f"echo 'kr 04' | {SUPERIO} >&-", (2, "", "input or output fault\n")),
    (f"{SUPERIO} <&-", (2, "", "input or output fault\n")),
    *((f"echo 'kr 04' | {SUPERIO} {form} {closed}", (2, "", CLOSED)) for form, closed in (
        ("--shell", "<&-"), ("--shell", ">&-"), (f"--shell {EXAMPLE}", ">&-"), ("view -", "<&-"), ("view -", ">&-"),
        (f"view {EXAMPLE}", "<&- > /dev/null"), (f"view {EXAMPLE} --table", ">&-"), ("--version", ">&-"))),
    *((f"printf 'kr 04\\nbad' | {SUPERIO} {form} 2>&-", done) for form, done in (
        ("", (1, "00\n", "")), ("--shell", (1, "00\n", "")), ("view -", (1, "", "")), ("/nowhere", (2, "", "")),
        ("--unknown", (2, "", "")))),
    (f"echo 'kr 04' | {SUPERIO} view - --table > /dev/full", (2, "", "No space left on device")),
    (f"echo 'save /dev/stdout' | {SUPERIO} --shell | tail -n 1", (0, "port and clock saved to /dev/stdout\n", "")),
    # A file may be a pipe, into which a program writes when it can. Each form waits for it, and takes all.
    *((f"{SUPERIO} {form} <(sleep 0.3; echo 'kr 04'; sleep 0.1; echo 'sr 05') {after}", (0, said, ""))
      for form, after, said in (("", "", "00\n60\n"), ("--shell", "", "00\n60\n"),
                                ("view", "--table | wc -l", "3\n"))),
    (f"SUPERIO_LIBRARY=/nowhere/lib.so {SUPERIO}", (2, "", f"{NAME}: /nowhere/lib.so cannot be loaded")),
    *((f"{SUPERIO} {wrong}", (2, "", f"usage: {NAME} ")) for wrong in (
        "--unknown", "a b", "view", "view --unknown a")),
]


class Runs(FolderTest):
    def test_runs(self):
        started = [run(*arguments, script=script) for arguments, script, _ in STARTS]
        forked = run_each([(self.folder, arguments, script) for arguments, script, _ in RUNS])
        for (arguments, script, expected), done in zip(STARTS + RUNS, started + forked):
            with self.subTest((arguments, script[:50])):
                self.assertEqual(expected, done)

    def test_files(self):
        folders = [Path(tempfile.mkdtemp(dir=self.folder)) for _ in FILES]
        for folder, (before, *_) in zip(folders, FILES):
            for name, text in before.items():
                (folder / name).write_text(text)
        ends = run_each([(folder, SHELL, script.encode()) for folder, (_, script, *_) in zip(folders, FILES)])
        for folder, (before, script, expected, said, new), (*done, errors) in zip(folders, FILES, ends):
            with self.subTest(script, before=before):
                self.assertEqual((expected, True), (tuple(done), said in errors if said else not errors), errors)
                self.assertEqual({**before, **new}, {path.name: path.read_text() for path in folder.iterdir()})

    def test_file_pipe_and_dash_are_the_same(self):
        expected = run(script=EXAMPLE.read_bytes())
        self.assertEqual((0, 15, ""), (expected[0], expected[1].count("\n"), expected[2]))
        self.assertEqual([expected] * 2, [run(EXAMPLE), run("-", script=EXAMPLE.read_bytes())])

    @unittest.skipUnless(TOP.is_file(), "the package's sources have no program at the top")
    def test_the_program_at_the_top_is_the_same(self):
        self.path.symlink_to(TOP)
        bare = {name: text for name, text in ENVIRONMENT.items() if name == "SUPERIO_LIBRARY"}
        expected = run(EXAMPLE)
        for program in (TOP, self.path):
            def called(*arguments):
                return ended([program, *arguments], cwd=self.folder, env={"PATH": "/usr/bin:/bin", **bare})
            self.assertEqual(expected, called(EXAMPLE))
            # What it says of itself has the name by which it was called.
            self.assertEqual((2, "", f"{program}: {NOWHERE}"), called("/nowhere/at/all"))
            for words in ([], ["view"]):
                self.assertEqual(f"usage: {' '.join([str(program), *words])} [-h]",
                                 called(*words, "--help")[1].partition("] ")[0] + "]")

    def test_a_python_of_another_name(self):
        self.path.symlink_to(sys.executable)
        called = ended([self.path, "-m", "superio", "/nowhere/at/all"], env=ENVIRONMENT)
        self.assertEqual((2, "", f"{self.path.name} -m superio: {NOWHERE}"), called)

    def test_now_is_the_time_of_the_host(self):
        """In seconds since 1970, wherever the shell tells it."""
        begin = int(time.time())
        said = run("--shell", script=b"cr now DR\nclock read DR\ncr now+0 DR\nregs clock\n")[1]
        told = [int(word, 16) for word in re.findall(r"^(?:DR = 0x|  DR   0x|)([0-9a-f]{8})\b", said, re.M)]
        self.assertEqual((4, True), (len(told), {*told} <= {*range(begin, int(time.time()) + 1)}), said)

    def test_a_full_disk_leaves_what_was_there(self):
        """A limit on the size of files stands for it."""
        self.path.write_text("what was there\n")
        for arguments, script, status in ((SHELL, f"save '{self.path}'\n".encode(), 1),
                                          (["view", "-", "--svg", self.path], b"sr 05\n", 2)):
            done = run(*arguments, script=script,
                       preexec_fn=lambda: resource.setrlimit(resource.RLIMIT_FSIZE, (10, 10)))
            self.assertEqual((status, True), (done[0], "File too large" in done[2]), done)
            self.assertEqual("what was there\n", self.path.read_text())
            self.assertEqual([self.path], list(self.folder.iterdir()))

    def test_a_name_that_the_output_cannot_encode(self):
        done = run("--shell", script="save é\n".encode(), cwd=self.folder,
                   env={**ENVIRONMENT, "PYTHONIOENCODING": "ascii"})
        self.assertEqual((0, "port and clock saved to \\xe9\n", ""), done)

    def test_ctrl_c_while_python_ends_has_no_traceback(self):
        program = "import os, signal, superio.__main__ as it; it.main(['-']); os.kill(os.getpid(), signal.SIGINT)"
        self.assertEqual((-signal.SIGINT, "", ""), ended([sys.executable, "-c", program], env=ENVIRONMENT))

    def test_ctrl_c_ends_each_form(self):
        for arguments, call in (("'-'", "os.read"), ("'--shell', '-'", "superio.session.Session.run_lines"),
                                ("'view', '-'", "superio.view._steps")):
            program = ("import os, sys, unittest.mock, superio.__main__ as it, superio.session, superio.view\n"
                       f"{call} = unittest.mock.Mock(side_effect=KeyboardInterrupt)\n"
                       f"sys.exit(it.main([{arguments}]))")
            self.assertEqual((128 + signal.SIGINT, "", ""), ended([sys.executable, "-c", program], env=ENVIRONMENT))

    def test_a_file_keeps_its_mode_and_a_link_its_target(self):
        """Of the file before, nothing else is kept: what goes by the time of its change sees that it has changed."""
        link, recording = self.folder / "link", self.folder / "recording"
        link.symlink_to(self.path)
        recording.write_text("sr 05\n")
        for words, script, begin in ((SHELL, "save {}\n", "sl "), (SHELL, "sr 05\ntrace {}\n", "sr 05"),
                                     (SHELL, "sr 05\nscript {}\n", "sr 05"), (["view", "--table", "{}"], "", "piece 1"),
                                     (["view", "--svg", "{}"], "", "<svg")):
            with self.subTest([*words, script]):
                self.path.write_text("before")
                self.path.chmod(0o640)
                os.utime(self.path, (10 ** 9, 10 ** 9))
                arguments = [word.format(link) for word in words] + ([] if words == SHELL else [str(recording)])
                self.assertEqual(0, run(*arguments, script=script.format(link).encode())[0])
                found = self.path.stat()
                self.assertEqual((0o640, True, True), (found.st_mode & 0o777, link.is_symlink(),
                                                       found.st_mtime >= recording.stat().st_mtime))
                self.assertTrue(self.path.read_text().startswith(begin), self.path.read_text()[:80])
                self.assertEqual({link, recording, self.path}, {*self.folder.iterdir()})

    def test_a_new_file_has_the_mode_that_the_user_leaves(self):
        forms = [(SHELL, "save new\n"), (SHELL, "sr 05\ntrace new\n"), (SHELL, "sr 05\nscript new\n"),
                 (["view", "--table", "new", "-"], "sr 05\n"), (["view", "--svg", "new", "-"], "sr 05\n")]
        folders = [Path(tempfile.mkdtemp(dir=self.folder)) for _ in forms]
        self.addCleanup(os.umask, os.umask(0o027))
        ends = run_each([(folder, words, script.encode()) for folder, (words, script) in zip(folders, forms)])
        self.assertEqual([(0, 0o640)] * len(forms),
                         [(end[0], (folder / "new").stat().st_mode & 0o777) for folder, end in zip(folders, ends)])

    def test_a_path_may_begin_with_the_home(self):
        home = {"env": {**ENVIRONMENT, "HOME": str(self.folder)}, "cwd": "/"}
        for command in ("save", "trace", "script"):
            self.assertEqual(0, run("--shell", script=f"sr 05\n{command} '~/of {command}'\n".encode(), **home)[0])
            self.assertTrue((self.folder / f"of {command}").read_text())
        for command in ("load", "source"):
            self.assertEqual((0, "60\n", ""), run("--shell", script=f"{command} ~/'of trace'\n".encode(), **home))

    def test_commands(self):
        for command, (status, output, said) in COMMANDS:
            with self.subTest(command):
                *done, errors = ended(["bash", "-c", command], env=ENVIRONMENT)
                self.assertEqual(([status, output], True), (done, said in errors if said else not errors), errors)

    def test_each_reply_goes_out_at_once_and_ctrl_c_ends_a_pipe(self):
        pipes = dict.fromkeys(("stdin", "stdout", "stderr"), subprocess.PIPE)
        # What runs in the background ignores Ctrl-C, and so would the program.
        with subprocess.Popen([sys.executable, "-m", "superio", "--shell"], env=ENVIRONMENT, **pipes,
                              preexec_fn=lambda: signal.signal(signal.SIGINT, signal.default_int_handler)) as process:
            timer = threading.Timer(TIMEOUT, process.kill)  # else a reply that does not come is waited for without end
            timer.start()
            self.addCleanup(timer.cancel)
            for line, reply in ((b"kr 04\n", b"00\n"), (b"read LSR\n", b"LSR = 0x60  THRE TEMT\n")):
                process.stdin.write(line)
                process.stdin.flush()
                self.assertEqual(reply, process.stdout.readline())
            process.send_signal(signal.SIGINT)
            self.assertEqual((128 + signal.SIGINT, b""), (process.wait(), process.stderr.read()))


PROMPT = "superio> "
UP, LEFT, HOME, CTRL_C, CTRL_D = "\x1b[A", "\x1b[D", "\x01", "\x03", "\x04"
CONTROL = re.compile(r"\x1b\[\??[0-9;]*[a-zA-Z]|\x07")

# What is typed and said, each in a session of its own, and how that ends.
SESSIONS = [
    ([("write IER RDA", "ok\n"), ('type "hi"', "2 bytes received; interrupt for RDA\n"),
      ("read IIR", "IIR = 0xc4  RDA\n"), ("read RBR", 'RBR = 0x68  "h"\n')], CTRL_D),
    ([("foo", "no command is called foo: help lists them\n"), ("", ""), ("sr 05", "60\n"), ("reset", "a fresh board\n"),
      ("sl 00", "too short\n1 byte came, and a saved serial port has 17 to 81\n")], "quit\r"),
    ([("write SCR 7", "ok\n"), ("read SCR", "SCR = 0x07\n"), (UP + UP + "1", "ok\n"),  # write SCR 71
      ("ead SCR" + HOME + "r", "SCR = 0x47\n"), ("read LR" + LEFT + "S", "LSR = 0x60  THRE TEMT\n")], "exit\r"),
    ([("rea\tLS\t", "LSR = 0x60  THRE TEMT\n"), ("wri\tie\tRD\t|TH\t", "ok; interrupt for THRE\n"),
      ("read ier", "IER = 0x03  RDA THRE\n"), ("source ses\t", "00\n")], CTRL_D),
]


class Terminal(FolderTest):
    """The shell and the viewer in a pseudo-terminal, in the folder. One that goes on for too long is killed."""

    def start(self, *arguments, prompt=PROMPT, **variables):
        """What the package shows up to its prompt."""
        self.process, self.end = pty.fork()
        if self.process == 0:
            signal.signal(signal.SIGINT, signal.SIG_DFL)  # what runs in the background ignores Ctrl-C
            os.chdir(self.folder)
            os.execve(sys.executable, [sys.executable, "-m", "superio", *arguments], {**ENVIRONMENT, **variables})
        self.timer = threading.Timer(TIMEOUT, os.kill, (self.process, signal.SIGKILL))
        self.timer.daemon = True
        self.timer.start()
        self.raw = b""
        return self.shown_until(prompt)

    def type(self, text):
        os.write(self.end, os.fsencode(text))

    def shown_until(self, text):
        """What is shown up to this text, and the text, without colours and cursor movements."""
        while text not in (shown := CONTROL.sub("", self.raw.decode(errors="replace")).replace("\r\n", "\n")):
            with suppress(OSError):  # of a program that has ended
                piece = os.read(self.end, 4096)
                self.raw += piece
                continue
            self.fail(f"{text!r} does not come after {shown[-1000:]!r}")
        head, found, rest = shown.partition(text)
        self.raw = rest.encode()
        return head + found

    def until_it_sleeps(self):
        """Until it awaits a key, or the terminal takes no more: a Ctrl-C that comes while Python goes back to wait for a
        key is seen with the next key only."""
        while Path(f"/proc/{self.process}/stat").read_text().rpartition(")")[2].split()[0] != "S":
            time.sleep(0.001)

    def answer(self, text, prompt=PROMPT):
        """What is shown between a typed line, which the terminal echoes, and the next prompt."""
        self.type(text + "\r")
        return self.shown_until(prompt)[:-len(prompt)].partition("\n")[2]

    def leave(self, text=CTRL_D):
        """Types what ends the program, and waits for its end."""
        self.type(text)
        with suppress(OSError):
            while os.read(self.end, 4096):
                pass
        self.assertEqual(0, os.waitpid(self.process, 0)[1])
        self.timer.cancel()
        os.close(self.end)

    def kept(self, line, **variables):
        """What is left in the folder after a session of one line."""
        self.start(**variables)
        self.answer(line)
        self.leave()
        return {path.name: path.read_text() for path in self.folder.iterdir()}

    def test_sessions(self):
        (self.folder / "session-one").write_text("kr 04\n")
        for typed, end in SESSIONS:
            greeting = self.start()
            self.assertEqual(typed, [(line, self.answer(line)) for line, _ in typed])
            self.leave(end)
        tries = [line[6:].split("  ")[0] for line in greeting.splitlines() if line.startswith(("Try:", "      "))]
        self.assertEqual([line for line, _ in SESSIONS[0][0]], tries)

    def test_ctrl_c_drops_the_line_or_a_long_file_and_keeps_the_board(self):
        (self.folder / "long").write_text("write SCR 7\n" + "st\n" * 2_000_000)
        self.start()
        for typed, shown in (("write SCR 9", "9"), ("source long\r", "0000000000000000\n")):
            self.type(typed)
            self.shown_until(shown)
            self.until_it_sleeps()
            self.type(CTRL_C)
            shown = self.shown_until(PROMPT)  # behind much output the terminal may echo the key late, beside the prompt
            self.assertIn("^C\n", shown)
            self.assertNotIn("Try:", shown)
        self.assertEqual("SCR = 0x07\n", self.answer("read SCR"))
        self.leave()

    def test_what_is_typed_need_not_be_utf_8(self):
        """Also the name of a file that Tab completes. Nothing is lost, even if standard input would refuse it."""
        (self.folder / "caf\udcff").write_text("kr 04\n")
        for arguments, prompt in ([], PROMPT), (["view", "caf\udcff"], "view> "):
            self.start(*arguments, prompt=prompt, PYTHONUTF8="1", PYTHONIOENCODING="utf-8:strict")
            self.assertEqual("no command is called caf\\xff: help lists them\n", self.answer("caf\udcff", prompt))
            if prompt == PROMPT:
                self.assertEqual("00\n", self.answer("load ca\t"))
            self.leave()

    def test_a_python_without_readline(self):
        (self.folder / "readline.py").write_text("raise ImportError\n")
        self.start(PYTHONPATH=f"{self.folder}:{ENVIRONMENT['PYTHONPATH']}")
        self.assertEqual("00\n", self.answer("kr 04"))
        self.leave()

    def test_a_user_without_a_home(self):
        """As in a container, where a user may have neither HOME nor an entry: the shell is there, without a history."""
        (self.folder / "sitecustomize.py").write_text("import pwd\npwd.getpwuid = {}.__getitem__\n")
        with mock.patch.dict(ENVIRONMENT):
            for name in ("HOME", "SUPERIO_HISTORY"):
                ENVIRONMENT.pop(name, None)
            self.start(PYTHONPATH=f"{self.folder}:{ENVIRONMENT['PYTHONPATH']}")
        self.assertEqual("00\n", self.answer("kr 04"))
        self.leave()

    def test_stepping_in_the_viewer(self):
        self.path.write_text("sw 01 02  ok\nsr 02  c2\n2 kr 04  00\n")
        self.assertRegex(self.start("view", self.path, prompt="view> "), "4 calls in 1 piece(?s:.*)\ncall 1 of 4")
        for line, place in (("", 2), (UP + "next", 3), ("back", 2), ("back thre", 1)):
            self.assertIn(f"call {place} of 4", self.answer(line, "view> "))
        self.leave()

    def test_the_table_goes_to_a_pager(self):
        self.path.write_text("sr 05\n")
        self.assertIn("> piece 1\n>       1  sr 05 ",
                      self.start("view", self.path, "--table", prompt="60\n", MANPAGER="sed 's/^/> /'"))
        self.leave("")

    def test_the_history(self):
        """It is in the home, elsewhere, or nowhere, outlasts the session, and has the last thousand lines."""
        path, home = str(self.path), str(self.folder)
        self.assertEqual({}, self.kept("kr 04", HOME=home))
        self.assertEqual({}, self.kept("kr 04", SUPERIO_HISTORY="/nowhere/at/all"))
        self.assertEqual({"a file": "write SCR 7\n"}, self.kept("write SCR 7", SUPERIO_HISTORY=path))
        self.start(SUPERIO_HISTORY=path)
        self.assertEqual("ok\n", self.answer(UP))
        self.leave()
        self.path.write_text("".join(f"read {number}\n" for number in range(1000)))
        lines = self.kept("kr 04", SUPERIO_HISTORY=path)["a file"].splitlines()
        self.assertEqual([*(f"read {number}" for number in range(1, 1000)), "kr 04"], lines)
        self.path.unlink()
        with mock.patch.dict(ENVIRONMENT), tempfile.TemporaryDirectory() as home:   # and not where the shell is begun
            del ENVIRONMENT["SUPERIO_HISTORY"]
            self.assertEqual({}, self.kept("kr 04", HOME=home))
            found = {path.name: path.read_text() for path in Path(home).iterdir()}
            self.assertEqual({".superio_history": "kr 04\n"}, found)
