# SPDX-License-Identifier: Apache-2.0 OR BSD-3-Clause
"""The lines of a script, as bindings/python/superio/board.py has them, for the page and for readers: web/lines.mjs, and
the tables of docs/SCRIPT.md. A device that interface.toml has gets its heading there too."""
import json
import re

from common.commands import ROOT
from common.facts import DEVICES, title_of
from superio.board import BYTES, FURTHER_LINES, MASK, PROGRAM_LINES

PAGE_LINES = ROOT / "web" / "lines.mjs"
DOCUMENT = ROOT / "docs" / "SCRIPT.md"
HEAD = "| Line | Effect | Reply |\n|---|---|---|\n"
# The headings below which a table stands, in their order, each with the lines of its table: those of a device, whose
# names begin with its letter, and the further ones. The line that a script begins with has a paragraph of its own.
FURTHER = "\n## Further lines\n"
AFTER_DEVICES = "\n## How a run ends\n"
OF_DEVICES = {f"\n### {title_of(device)}\n": {name: line for name, line in PROGRAM_LINES.items()
                                              if name != MASK and name[0] == device["lines"]}
              for device in DEVICES if "lines" in device}
TABLES = {**OF_DEVICES, FURTHER: FURTHER_LINES}


def for_page():
    """The text of lines.mjs."""
    tables = {"PROGRAM_LINES": PROGRAM_LINES, "FURTHER_LINES": FURTHER_LINES}
    lines = ["// SPDX-License-" "Identifier: Apache-2.0 OR BSD-3-Clause",
             "// Made by tools/generate from board.py of bindings/python/superio.",
             "// How many digits each field of a line has, or 0 for 0 to 128 bytes of two digits each."]
    for table, rows in tables.items():
        fields = (f"  {name}: {json.dumps([field.digits for field in line.fields])}," for name, line in rows.items())
        lines += [f"export const {table} = {{", *fields, "};"]
    return "\n".join([*lines, ""])


def shown(field):
    """A field in a syntax: a letter for each digit, where N is that of a moment."""
    return field.syntax if len(field.syntax) == field.digits or field == BYTES else "N" * field.digits


def row(name, line):
    """The row of a line."""
    syntax = " ".join([name, *map(shown, line.fields)])
    syntaxes = [name, syntax] if BYTES in line.fields else [syntax]
    effect = f"{line.about[0].upper()}{line.about[1:]}. {line.more}".strip()
    return f"| {', '.join(f'`{text}`' for text in syntaxes)} | {effect} | {line.replies} |\n"


def with_rows(text, heading, rows):
    """A text with these rows in the first table below a heading, and above the next heading."""
    between = r"(?:(?!#|\| Line ).*\n)*"
    return re.sub(rf"({heading}{between}{re.escape(HEAD)})(?:\|.*\n)*", lambda found: found[1] + rows, text)


def for_readers(text):
    """The text of SCRIPT.md with its tables. A device without a heading gets one, behind the devices that have one."""
    if missing := PROGRAM_LINES.keys() - {MASK}.union(*OF_DEVICES.values()):
        raise ValueError(f"interface.toml has no device for the lines {', '.join(sorted(missing))}")
    for heading in OF_DEVICES:
        if heading not in text:
            text = text.replace(AFTER_DEVICES, f"{heading}\n{HEAD}{AFTER_DEVICES}")
    for heading, lines in TABLES.items():
        text = with_rows(text, heading, "".join(row(name, line) for name, line in lines.items()))
    if (count := text.count(HEAD)) != len(TABLES):
        raise ValueError(f"{DOCUMENT.name} has {count} tables of lines")
    return text


if __name__ == "__main__":
    PAGE_LINES.write_text(for_page(), encoding="ascii")
    DOCUMENT.write_text(for_readers(DOCUMENT.read_text(encoding="utf-8")), encoding="utf-8")
