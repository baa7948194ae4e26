# SPDX-License-Identifier: Apache-2.0 OR BSD-3-Clause
"""Recorded traces: the calls of a script with their replies, as examples/linux-boot has them, and a picture of them.

A row is a line of a script, with its reply after two spaces or more if it was recorded. A number before the line, of
at most six digits, repeats it. `sent "TEXT"` stands for a write of each byte to THR, `polled "TEXT"` for the same after
a read of LSR each, `received "TEXT"` for a read of LSR and one of RBR for each byte, `sq "TEXT"` for input, and
`so "TEXT"` for the output. An empty row ends a piece, and the next begins on a fresh board. A row that begins with # is
a comment.
"""
import json
import re
from html import escape
from itertools import groupby
from typing import Callable, Dict, Iterable, Iterator, List, NamedTuple, Optional, Sequence, Tuple

from .board import Board, Call
from .registers import FIFO_SIZE
from .script import BadLine, ScriptError, parse
from .tell import pending

_TEXT = re.compile(r'(polled|sent|received|so|sq) +(".*")(?: {2,}(\S+))?')
# All calls of a row are in memory at once, so a number has at most six digits. A longer one is taken for the name of a
# line, and refused, because no line has such a name.
_ROW = re.compile(r"(?:(\d{1,6}) )?(.+?)(?: {2,}(.*))?", re.DOTALL)

EMPTY = "(empty)"
"""How a recording shows a reply without a character."""

Entry = Tuple[str, Optional[str]]


class Step(NamedTuple):
    """A call of a recording, as the board makes it again."""

    piece: int  # its number, counted from 1
    call: Call
    recorded: Optional[str]  # the recorded reply, `None` if there is none

    @property
    def differs(self) -> bool:
        """Whether the board's reply differs from the recorded one."""
        return self.recorded is not None and self.recorded != (self.call.reply or "")

    @property
    def is_refused(self) -> bool:
        return False in self.call.answers

    @property
    def has_sent(self) -> bool:
        return self.call.after.sent > self.call.before.sent


def entries_of(row: str) -> List[Entry]:
    """The script lines that a row stands for, each with its recorded reply, `None` if it has none."""
    text = _TEXT.fullmatch(row)
    if text:
        kind, data = text[1], _data_of(text[2])
        if kind in ("so", "sq"):
            return [("so", data.hex()) if kind == "so" else (f"sq {data.hex()}", text[3])]
        if kind == "received":
            return [entry for byte in data for entry in [("sr 05", "61"), ("sr 00", f"{byte:02x}")]]
        polls: List[Entry] = [("sr 05", "60")] if kind == "polled" else []
        return [entry for byte in data for entry in [*polls, (f"sw 00 {byte:02x}", "ok")]]
    count, line, reply = _ROW.fullmatch(row).groups()
    return [(line, "" if reply == EMPTY else reply)] * int(count or 1)


def _data_of(text: str) -> bytes:
    try:
        return str(json.loads(text)).encode("ascii")
    except ValueError as error:
        raise ScriptError(f"the text is no JSON string of ASCII: {error}") from None


def replay(name: str, rows: Iterable[bytes]) -> Iterator[Step]:
    """Makes the calls of a recording again, each piece on a fresh board. `BadLine` names a row that stands for none."""
    board, piece, is_new = Board(), 0, True
    for number, row in enumerate(rows, 1):
        text = row.decode("utf-8", "replace").strip()
        if not text:
            is_new = True
        if not text or text.startswith("#"):
            continue
        if is_new:
            board, piece, is_new = Board(), piece + 1, False
        try:
            for line, recorded in entries_of(text):
                command = parse(line.encode("utf-8", "replace"), is_first=board.number == 0)
                yield Step(piece, board.run(command), recorded)
        except ScriptError as error:
            raise BadLine(name, number, row.rstrip(b"\r\n"), error) from error


_LEFT, _TOP, _WIDTH, _HEIGHT, _GAP = 120, 46, 800, 34, 14
_LEAST = 5.0  # how high a bar is at least, so that it is seen

_BLUE, _ORANGE, _GREEN, _RED, _GREY = "#0b6fb8", "#c25e00", "#2e7d32", "#c62828", "#667788"
_LANES: Dict[str, Tuple[str, Callable[[Step], float]]] = {
    "RDA pending": (_BLUE, lambda step: "RDA" in pending(step.call.after.serial)),
    "THRE pending": (_ORANGE, lambda step: "THRE" in pending(step.call.after.serial)),
    "bytes held": (_GREEN, lambda step: len(step.call.after.serial.in_buffer) / FIFO_SIZE),
    "interrupts": (_BLUE, lambda step: any(step.call.answers)),
    "refused": (_RED, lambda step: step.is_refused),
    "output": (_GREY, lambda step: step.has_sent),
    "clock": (_GREY, lambda step: step.call.command.name[0] == "c"),
    "controller": (_GREY, lambda step: step.call.command.name[0] == "k"),
}
"""The rows of the picture: the colour of each, and what it shows of a step, from 0 to 1."""


def _bars(heights: Sequence[float], base: int) -> str:
    """A path around bars of these heights, from 0 to 1, over the whole width."""
    parts, place, width = [], 0, _WIDTH / len(heights)
    for height, group in groupby(heights):
        count = len(list(group))
        if height:
            high = max(_LEAST, height * _HEIGHT)
            parts.append(f"M{_LEFT + place * width:.4g} {base}v{-high:.3g}h{max(1.0, count * width):.4g}v{high:.3g}z")
        place += count
    return "".join(parts)


# A character that XML cannot have.
_NO_XML = re.compile(r"[^\t\n\r -\ud7ff\ue000-\ufffd\U00010000-\U0010ffff]")


def _in_xml(text: str) -> str:
    """A text in XML, which may be the name of a file: what is not UTF-8, or what XML cannot have, is an escape."""
    text = text.encode("utf-8", "surrogateescape").decode("utf-8", "backslashreplace")
    return escape(_NO_XML.sub(lambda match: match[0].encode("unicode_escape").decode("ascii"), text))


def picture(steps: Sequence[Step], title: str) -> str:
    """The picture of steps, at least one, as a text in SVG: a lane for all that they have. From left to right are the
    calls, several in a column if they are many, and a bar is as high as the column's share of such calls."""
    columns = min(len(steps), _WIDTH)
    edges = [len(steps) * place // columns for place in range(columns + 1)]
    parts, base = [], _TOP
    for name, (colour, value) in _LANES.items():
        values = [value(step) for step in steps]
        heights = [sum(values[first:end]) / (end - first) for first, end in zip(edges, edges[1:])]
        if any(heights):
            base += _HEIGHT
            parts += [f'<text x="{_LEFT - 10}" y="{base - 12}" text-anchor="end">{name}</text>',
                      f'<path d="M{_LEFT} {base}.5h{_WIDTH}" stroke="#c8d0d8"/>',
                      f'<path d="{_bars(heights, base)}" fill="{colour}"/>']
            base += _GAP
    total, title = _LEFT + _WIDTH + 20, _in_xml(title)
    head = [f'<svg xmlns="http://www.w3.org/2000/svg" width="{total}" height="{base}" viewBox="0 0 {total} {base}" '
            'font-family="sans-serif" font-size="13" fill="#223" role="img">',
            f"<title>{title}</title>",
            f'<rect width="{total}" height="{base}" fill="#fff"/>',
            f'<text x="{_LEFT}" y="24" font-size="15">{title}: {len(steps):,} calls, from left to right</text>']
    return "\n".join([*head, *parts, "</svg>", ""])
