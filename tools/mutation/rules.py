# SPDX-License-Identifier: Apache-2.0 OR BSD-3-Clause
"""The mutants of a file of C, Rust, JavaScript or Python: each turns one statement, condition, operator or number."""
import re
from typing import NamedTuple

# Comments, texts and imports, in which nothing is turned.
C_TEXT = r'//[^\n]*|/\*.*?\*/|"(?:\\.|[^"\\\n])*"|\'(?:\\.|[^\'\\\n])\'|`[^`]*`|^ *(?:#|use |import |export \{)[^\n]*'
PYTHON_TEXT = r'#[^\n]*|"""(?:\\.|.)*?"""|"(?:\\.|[^"\\\n])*"|\'(?:\\.|[^\'\\\n])*\'|^(?:import|from) [^\n]*'
# An operator becomes the other one. What a pattern finds in a line becomes a text.
PAIRS = [("==", "!="), ("===", "!=="), ("<", "<="), (">", ">="), ("&&", "||"), ("&", "|"), ("+", "-"), ("*", "/"),
         ("<<", ">>"), ("+=", "-="), ("|=", "&="), ("and", "or"), ("is not", "is")]
RULES = [*((rf"(?<=[\w)\]] ){re.escape(one)}(?= [\w(&*!~-])", other) for pair in PAIRS
           for one, other in (pair, pair[::-1])),
         (r"\b(?:0x[0-9A-Fa-f_]+|\d[\d_]*)(?:[iu]\d+|usize)?\b", lambda match: f"({match[0]} + 1)"),
         (r"\btrue\b", "false"), (r"\bfalse\b", "true"), (r"\bTrue\b", "False"), (r"\bFalse\b", "True"),
         (r"(?<![\w!])!(?=[\w(])", ""), (r"\bnot (?!in\b)", ""), (r"\+\+", "--"), (r"(?<=\w)--", "++"),
         (r"\? ([^?:]+) : ([^?:;,)]+)", r"? \2 : \1"),
         (r"\b(if|while) \((.*)\)(?= \{$|$| return| continue| break)", r"\1 (!(\2))"),
         (r"\b(if|while) (?!let |\()(.*)(?= \{$)", r"\1 !(\2)"),
         (r"^( *(?:if|elif|while)) (.*)(?=:$)", r"\1 not (\2)"), (r" if (?!not )(.*?) else ", r" if not (\1) else ")]
STATEMENTS = [(r"(?<==> )[^{]+(?=,$)", "{}"),
              (r"^( *)(?!return\b|break\b|pub |use |type |fn |enum )[\w*(&!].*;$", r"\1;")]
PYTHON_STATEMENTS = [(r"^( +)(?!return\b|pass\b|def |class |@)\w[^:]*[^:,(\[{]$", r"\1pass")]


class Mutant(NamedTuple):
    file: str
    number: int  # of the line, from 0
    old: str
    new: str

    def __str__(self):
        return f"{self.file}\n- {self.old.strip()}\n+ {self.new.strip()}"


def mutants(root, file):
    """Each mutant of a file: a rule turns one place. Tests within a file of Rust are none of its code."""
    text = (root / file).read_text(encoding="utf-8")
    pattern, rules = (PYTHON_TEXT, PYTHON_STATEMENTS) if file.endswith(".py") else (C_TEXT, STATEMENTS)
    code = re.sub(pattern, lambda match: re.sub(r"[^\n]", "\0", match[0]), text.split("#[cfg(test)]")[0],
                  flags=re.S | re.M)
    for number, (line, words) in enumerate(zip(text.split("\n"), code.split("\n"))):
        for pattern, turned in RULES + rules:
            for found in re.finditer(pattern, words.rstrip("\0 ")):
                def kept(group):
                    return line[slice(*found.span(int(group[1])))]
                new = turned(found) if callable(turned) else re.sub(r"\\(\d)", kept, turned)
                yield Mutant(file, number, line, line[:found.start()] + new + line[found.end():])
