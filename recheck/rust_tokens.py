# SPDX-License-Identifier: Apache-2.0 OR BSD-3-Clause
"""The tokens of a Rust file, and a place among them."""
import re
from dataclasses import dataclass
from pathlib import Path
from typing import Callable, NoReturn, TypeVar

T = TypeVar("T")
KEYWORDS = set("""as async await break const continue crate dyn else enum extern false fn for if impl in let loop match
    mod move mut pub ref return self Self static struct super trait true type unsafe use where while""".split())


class Refused(Exception):
    """The source has something that the translator does not know."""


@dataclass
class Token:
    kind: str
    text: str
    line: int
    suffix: str | None = None

    @property
    def word(self) -> str:
        return self.text + (self.suffix or "")


TOKEN = re.compile(r"""
      (?P<doc>///[^\n]*) | (?P<comment>//[^\n]*) | (?P<space>\s+)
    | (?P<number>0x[0-9A-Fa-f_]+|0b[01_]+|0o[0-7_]+|[0-9][0-9_]*)(?P<suffix>[A-Za-z]\w*)?
    | (?P<bytes>b"[ !#-\[\]-~]*") | (?P<name>[A-Za-z_]\w*) | (?<!\w)(?P<string>"(?:[^"\\]|\\.)*")
    | (?P<lifetime>'[a-z_]\w*)(?!') | (?P<char>'(?:[^'\\\n]|\\.)') | (?P<block>/\*)
    | (?P<sign>\.\.=|\.\.\.|<<=|>>=|::|->|=>|\.\.|&&|\|\||<<|>>|[=!<>+\-*/%&|^]=|[-+*/%&|^!<>=.,;:?@\#(){}\[\]])
    """, re.X | re.A)


def tokens(text: str, file: Path | str) -> list[Token]:
    """All tokens but comments and spaces."""
    found, at, line = [], 0, 1
    while at < len(text):
        match = TOKEN.match(text, at)
        if not match or match.lastgroup == "block":
            raise Refused(f"{file}:{line}: {text[at:at + 20]!r}")
        kind, word = str(match.lastgroup), match.group()
        if kind == "suffix":
            found.append(Token("number", match["number"], line, match["suffix"]))
        elif kind not in ("comment", "space"):
            found.append(Token(kind, word, line))
        line += word.count("\n")
        at = match.end()
    return found


def source(file: Path) -> str:
    """The text of a file. An end of a line that is none for rustc is refused."""
    text = file.read_bytes().decode()
    if "\r" in text:
        raise Refused(f"{file}: a carriage return")
    return text


class Cursor:
    """A place in the tokens of a file."""
    def __init__(self, text: str, file: Path | str) -> None:
        self.file, self.at = Path(file), 0
        self.tokens = [*tokens(text, file), Token("end", "", 0)]
        self.renamed: dict[str, list[str]] = {}   # the paths of constants with another name in this file, by that name

    @property
    def next(self) -> str:
        return self.tokens[self.at].text

    def peek(self, distance: int) -> str:
        return self.tokens[min(self.at + distance, len(self.tokens) - 1)].text

    def line(self) -> int:
        return self.tokens[self.at].line

    def refuse(self, what: str) -> NoReturn:
        ahead = " ".join(token.text for token in self.tokens[self.at:self.at + 6])
        raise Refused(f"{self.file}:{self.line()}: {what}: {ahead}")

    def has(self, text: str) -> bool:
        """Whether this keyword or sign is ahead. If so, it is behind now."""
        token = self.tokens[self.at]
        if token.text == text and token.kind in ("sign", "name"):
            self.at += 1
            return True
        return False

    def eat(self, text: str) -> None:
        if not self.has(text):
            self.refuse(f"{text} expected")

    def name(self) -> str:
        token = self.tokens[self.at]
        if token.kind != "name" or token.text in KEYWORDS or token.text in self.renamed:
            self.refuse("a name expected")
        self.at += 1
        return token.text

    def path(self) -> list[str]:
        """Names with `::` between them."""
        found = ["Self"] if self.has("Self") else [self.name()]
        while self.has("::"):
            found.append(self.name())
        return found

    def until(self, close: str, one: Callable[[], T]) -> list[T]:
        """What `one` reads, separated by commas, up to `close`."""
        found = []
        while not self.closes(close):
            found.append(one())
            if not self.next.startswith(close):
                self.eat(",")
        return found

    def closes(self, close: str) -> bool:
        """As `has`; of `>>` the first half."""
        if close == ">" and self.next == ">>":
            line = self.line()
            self.tokens[self.at:self.at + 1] = [Token("sign", ">", line), Token("sign", ">", line)]
        return self.has(close)
