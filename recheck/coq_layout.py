# SPDX-License-Identifier: Apache-2.0 OR BSD-3-Clause
"""Parentheses and lines of the Coq that is made."""
import re

DEPTH = {"(": 1, "[": 1, "{": 1, ")": -1, "]": -1, "}": -1}
WIDTH = 118


def closing(text: str) -> int:
    """Where the parenthesis closes that the text begins with, or -1."""
    depth = 0
    for at, sign in enumerate(text):
        depth += DEPTH.get(sign, 0)
        if depth == 0:
            return at
    return -1


def parenthesized(text: str) -> str:
    """In parentheses, unless it is one word or has them already."""
    if re.fullmatch(r"[\w.'\[\]]+", text):
        return text
    if text[0] in "([{" and closing(text) == len(text) - 1:
        return text
    return f"({text})"


def words(text: str) -> list[str]:
    """The parts between spaces that are outside parentheses."""
    parts, depth = [""], 0
    for sign in text:
        depth += DEPTH.get(sign, 0)
        if sign == " " and depth == 0:
            parts.append("")
        else:
            parts[-1] += sign
    return parts


def filled(text: str, indent: int) -> str:
    """The text in lines, broken at spaces outside parentheses, and then inside."""
    if len(text) + indent <= WIDTH and "\n" not in text:
        return text
    lines, line = [], ""
    for part in words(text):
        if line and len(line) + 1 + len(part) + indent > WIDTH:
            lines.append(line)
            line = ""
        if len(part) + indent > WIDTH and part[0] in "({" and closing(part) == len(part) - 1:
            part = part[0] + filled(part[1:-1], indent + 3) + part[-1]
        line = f"{line} {part}" if line else part
    lines.append(line)
    return ("\n" + " " * indent).join(lines)
