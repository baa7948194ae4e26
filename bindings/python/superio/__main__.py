# SPDX-License-Identifier: Apache-2.0 OR BSD-3-Clause
"""The command line of `python3 -m superio` and of `./shell`: a script, the shell, or the viewer of a trace."""
import argparse
import os
import signal
import sys
from contextlib import suppress
from typing import List

from . import __version__, program
from .library import LibraryError
from .script import reason_of

_EPILOG = """\
exit status, without --shell that of the program superio:
  0  every line was carried out
  1  a line was bad: standard error has its number, and with --shell also its file and why
  2  a file, the library or the arguments are wrong, or a read or a write failed
  3  memory was refused
  4  the script has more than 65,536 bytes

%(prog)s view --help describes the viewer of a trace.
"""


def _parser(name: str) -> argparse.ArgumentParser:
    parser = argparse.ArgumentParser(
        name, formatter_class=argparse.RawDescriptionHelpFormatter, epilog=_EPILOG,
        description="A board with emulated devices, such as a serial port. At a terminal it is a shell, and help lists "
                    "its commands.\nA file or a pipe is a script, whose lines get the replies of the program superio: "
                    "docs/SCRIPT.md has them.")
    parser.add_argument("--shell", action="store_true",
                        help="the file or the pipe has lines as the shell takes them: also its commands and comments")
    parser.add_argument("file", nargs="?", metavar="FILE", help="the lines to carry out; - is standard input")
    parser.add_argument("--version", action="version", version=f"superio {__version__}")
    return parser


def _viewer_parser(name: str) -> argparse.ArgumentParser:
    parser = argparse.ArgumentParser(
        f"{name} view", usage="%(prog)s [-h] TRACE [--table [FILE]] [--svg FILE]",
        description="Steps through a recorded trace, call by call.")
    parser.add_argument("trace", metavar="TRACE",
                        help="a script, or a recording as in examples/linux-boot; - is standard input")
    parser.add_argument("--table", nargs="?", const="", metavar="FILE",
                        help="all calls as a table, to a pager or a file")
    parser.add_argument("--svg", metavar="FILE",
                        help="a picture of the whole: what was pending when, how full the FIFO was")
    return parser


def _run_program(path: str) -> int:
    """Runs a script as the program does, says how it ended, and returns the exit status."""
    source = 0 if path == "-" else os.open(path, os.O_RDONLY)
    end = program.run(source, 1)
    with suppress(OSError):  # of standard error, which changes no status
        os.write(2, f"{end.said}\n".encode("ascii") if end.said else b"")
    return end.status


def _run_shell(path: str) -> None:
    from .prompt import Leave, use_history   # here, since a script of the program needs neither
    from .session import Session
    session = Session(sys.stdout)
    with suppress(Leave):
        if not path:
            use_history()
            session.run_prompt()
        elif path == "-":
            session.run_lines("<stdin>", sys.stdin.buffer)
        else:
            session.run_file(path)


def _run(arguments: List[str], name: str) -> int:
    """Carries out the command line, and returns the exit status."""
    if arguments[:1] == ["view"]:
        from .view import view   # here, since nothing else needs its imports
        options = _viewer_parser(name).parse_args(arguments[1:])
        view(options.trace, options.table, options.svg)
        return 0
    options = _parser(name).parse_args(arguments)
    path = options.file or ("" if sys.stdin.isatty() else "-")
    if path and not options.shell:
        return _run_program(path)
    sys.stdout.reconfigure(line_buffering=True)  # type: ignore[union-attr]  # each reply goes out at once
    _run_shell(path)
    return 0


def _fill_closed() -> None:
    """Puts a file that fails in the place of each standard file that is closed. Else what goes to standard error would
    be among the replies, and the next file that is opened would have the number of the closed one."""
    for file, flags, mode in (("stdin", os.O_WRONLY, "r"), ("stdout", os.O_RDONLY, "w"), ("stderr", os.O_WRONLY, "w")):
        if getattr(sys, file) is None:
            setattr(sys, file, open(os.open(os.devnull, flags), mode, encoding="utf-8"))


def main(arguments: List[str], name: str = "python3 -m superio") -> int:
    """Runs the command line of a command that was called by this name. Returns the exit status."""
    _fill_closed()
    sys.stdin.reconfigure(errors="surrogateescape")  # type: ignore[union-attr]  # also takes what is not UTF-8
    sys.stdout.reconfigure(errors="backslashreplace")  # type: ignore[union-attr]
    if not sys.stdout.isatty():
        signal.signal(signal.SIGPIPE, signal.SIG_DFL)  # a closed pipe ends in silence
    try:
        try:
            return _run(arguments, name)
        finally:
            sys.stdout.flush()
    except KeyboardInterrupt:
        return 128 + signal.SIGINT
    except ValueError as error:
        print(error, file=sys.stderr)
        return 1
    except (OSError, LibraryError) as error:
        print(f"{name}: {reason_of(error)}", file=sys.stderr)
        os.dup2(os.open(os.devnull, os.O_WRONLY), 1)  # where Python's own flush at the end goes
        return 2
    finally:
        signal.signal(signal.SIGINT, signal.SIG_DFL)  # Ctrl-C while Python ends has no traceback


if __name__ == "__main__":
    sys.exit(main(sys.argv[1:], f"{os.path.basename(sys.executable) or 'python3'} -m superio"))
