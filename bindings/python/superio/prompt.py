# SPDX-License-Identifier: Apache-2.0 OR BSD-3-Clause
"""Commands by their names, and lines of them at a prompt, with editing, completion, Ctrl-C and a history. And how a
file that a command names is written."""
import atexit
import cmd
import glob
import os
import re
import shutil
import sys
from contextlib import suppress
from typing import IO, Dict, List, NamedTuple, Tuple

from .registers import CLOCK, SERIAL
from .script import ScriptError, reason_of, shown
from .words import UsageError

HISTORY_VARIABLE = "SUPERIO_HISTORY"
"""The environment variable that can name the history's file. Empty: there is none."""

_HISTORY_LENGTH = 1000


class Help(NamedTuple):
    """What `help` says of a command, and what each of its fields can be, for a shell to complete it."""

    usage: str
    about: str
    more: str = ""
    fields: Tuple[str, ...] = ()
    means: str = ""  # the line of a script that the words mean, or the command's own name if it has several

    @property
    def name(self) -> str:
        return self.usage.partition(" ")[0]


class Leave(Exception):
    """The session ends."""


def _files(text: str) -> List[str]:
    """The files whose names begin so, as a command takes them: with a backslash before each blank and quote."""
    found = glob.glob(glob.escape(os.path.expanduser(text)) + "*")
    names = sorted(path + "/" if os.path.isdir(path) else path for path in found)
    return [re.sub(r"[\s'\"\\]", r"\\\g<0>", name) for name in names]


def write_text(path: str, text: str) -> None:
    """Writes a file whole and onto the disk, or leaves what was there. A terminal or a pipe is written itself."""
    try:
        if os.path.exists(path) and not os.path.isfile(path):
            with open(path, "w", encoding="utf-8") as file:
                file.write(text)
        else:
            _replace(os.path.realpath(path), text)
    except OSError as error:
        error.filename = path  # which an error of a write lacks
        raise


def _replace(target: str, text: str) -> None:
    import tempfile   # here, since only a command that writes a file needs it
    with tempfile.TemporaryDirectory(prefix=".superio-", dir=os.path.dirname(target)) as folder:
        beside = os.path.join(folder, "new")
        with open(beside, "w", encoding="utf-8") as file:
            file.write(text)
            file.flush()
            os.fsync(file.fileno())
        if os.path.exists(target):
            shutil.copymode(target, beside)
        os.replace(beside, target)


class Prompt(cmd.Cmd):
    """Carries out commands, each by its method `do_NAME`, and reads lines of commands at a prompt."""

    groups: Dict[str, Tuple[Help, ...]] = {}

    def __init__(self, out: "IO[str]") -> None:
        super().__init__(stdout=out)
        self.help = {entry.name: entry for group in self.groups.values() for entry in group}
        self.help["exit"] = self.help["quit"]

    def say(self, *lines: str) -> None:
        """Writes lines."""
        for line in lines:
            print(line, file=self.stdout)

    def carry_out(self, line: bytes) -> None:
        """Carries out a line, without its LF. A `ValueError` or `OSError` says why not; `Leave` ends the session."""
        name, _, rest = line.decode("utf-8", "surrogateescape").strip().partition(" ")
        usage = self.entry(name).usage
        try:
            if rest and " " not in usage:
                raise UsageError
            self.perform(name, rest.strip())
        except UsageError:
            raise ScriptError(f"the syntax is: {usage}") from None

    def entry(self, name: str) -> Help:
        """The command of this name. If there is none, the fault suggests one that is written much like it."""
        if name not in self.help:
            import difflib   # here, since only this fault needs it
            like = difflib.get_close_matches(name.lower(), self.help, 1)
            suggested = f"did you mean {like[0]}? " if like else ""
            raise ScriptError(f"no command is called {shown(name)}: {suggested}help lists them")
        return self.help[name]

    def perform(self, name: str, rest: str) -> None:
        """Carries out a command with the rest of its line."""
        getattr(self, f"do_{name}")(rest)

    def do_help(self, rest: str) -> None:
        if rest:
            entry = self.entry(rest)
            self.say(entry.usage, f"{entry.about}.", *filter(None, [entry.more]))
            return
        for title, group in self.groups.items():
            self.say(title, *(f"  {entry.usage:<19} {entry.about}" if len(entry.usage) < 20 else
                              f"  {entry.usage}\n{'':22}{entry.about}" for entry in group))
        self.say("help NAME says more. Ctrl-C drops a line, Ctrl-D ends.")

    def do_quit(self, _: str) -> None:
        raise Leave

    do_exit = do_quit

    def completions(self, before: str, text: str) -> List[str]:
        """What `text` can be completed to, after what precedes it on the line."""
        words = before.split()
        fields = self.help[words[0]].fields if words and words[0] in self.help else ()
        field = fields[len(words) - 1] if 0 < len(words) <= len(fields) else "" if words else "command"
        if field == "file":
            return _files(text)
        if field == "command":
            return sorted(name + " " * (not words) for name in self.help if name.startswith(text))
        if field in ("serial", "clock"):
            names = SERIAL if field == "serial" else CLOCK
            return [name + " " for name in names if name.startswith(text.upper())]
        if field == "bits":
            begun, bar, last = text.rpartition("|")
            register = {**CLOCK, **SERIAL}.get(words[-1].upper())
            return [begun + bar + name for _, name in (register.bits if register else ())
                    if name.startswith(last.upper())]
        return [word for word in field.split() if word.startswith(text)]

    def completenames(self, text: str, *ignored: object) -> List[str]:
        return self.completions("", text)

    def completedefault(self, *ignored: object) -> List[str]:
        text, line, begin, _ = ignored
        return self.completions(str(line)[:int(str(begin))], str(text))

    def onecmd(self, line: str) -> bool:
        """Carries out a line, or says why not. Returns whether the session ends."""
        if line == "EOF":
            self.say(*[""] * bool(self.prompt))
            return True
        try:
            self.carry_out(line.encode("utf-8", "surrogateescape"))
        except Leave:
            return True
        except (ValueError, OSError) as error:
            print(reason_of(error), file=sys.stderr, flush=True)
        return False

    def run_prompt(self) -> None:
        """Reads and carries out lines up to the end. Ctrl-C drops a line."""
        while True:
            try:
                return self.cmdloop()
            except KeyboardInterrupt:
                self.intro = ""
                self.say("^C")


def use_history() -> None:
    """Reads the history's file, and writes it at the end of the program. Without a file there is no earlier history."""
    try:
        import readline
    except ImportError:  # a Python without it reads lines all the same
        return
    readline.set_completer_delims(" \t\n")
    path = os.environ.get(HISTORY_VARIABLE, os.path.expanduser("~/.superio_history"))
    if not path:
        return
    with suppress(OSError):
        readline.read_history_file(path)
    readline.set_history_length(_HISTORY_LENGTH)

    def write_history() -> None:
        with suppress(OSError):
            readline.write_history_file(path)
    atexit.register(write_history)
