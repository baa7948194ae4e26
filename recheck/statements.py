# SPDX-License-Identifier: Apache-2.0 OR BSD-3-Clause
"""What is proved, as Coq says it, in two files that a person reads: claims.txt has the claims of docs/PROOFS.md, and
statements.txt the rest. They show each `Theorem` of recheck/proofs, and no `Lemma`. The sentence of a theorem and the
claims that it is for stand in the comment above it. The first comment of a file is the topic of its theorems, and the
words of a claim are the page's."""
import difflib
import hashlib
import re
import textwrap
from collections import defaultdict
from pathlib import Path

from coq import Failed, coqc, requirements, rests_on

HERE = Path(__file__).resolve().parents[1]
# The files whose definitions are shown, in the order in which they require each other, and what each of them has.
SHOWN = {"Prelude": "the words of the definitions (recheck/Prelude.v)",
         "Machine": "what Rust's numbers, arrays and loops do (recheck/Machine.v)",
         "Types": "the structs of Rust, and what is valid in them",
         "Definitions": "the definitions of crates/*/specs",
         "Acts": "what a function does that calls objects (recheck/Acts.v)",
         "ShellCode": "the structs of the shell, and its calls of objects",
         "Calls": "lists of calls of the code (recheck/Calls.v)",
         "Witnesses": "calls that meet the conditions of laws (recheck/proofs/Witnesses.v)"}
# The files of recheck/proofs that have theorems, in the order in which these are shown.
PROOFS = ("PortCode", "Fifo", "Clock", "Controller", "PortLaws", "PortHistory", "PortAnswers", "ConsoleLaws",
          "ConsoleLawsDriver", "Saved", "ConsoleCode", "ConsoleSaved", "CFunctions", "Shell", "ShellHistory",
          "ShellSegments")
# Of these files only those definitions are shown that a statement uses.
IF_USED = ("Types", "Definitions", "ShellCode")
# What is translated of a function's body is the code: no statement is made by it.
CODE = re.compile(r"Code\.\w+|ShellCode\.vm_\w+")
IMPORTED = ("Prelude", "Machine", "Definitions", "Code", "Acts", "ShellCode", "Calls")
# The one word whose value is sealed. What is shown of it is its type: no proof can use more of it.
SEALED = "Prelude.width_of_usize"
KEYWORD = r"(?:Theorem|Definition|Fixpoint|Inductive|CoInductive|Variant|Record)"
SCHEME = re.compile(r"\w+_(?:ind|sind|rec|rect)")
SEPARATOR = "I\n     : True\n"  # what `Check I.` prints
CLAIMS = """The six claims of docs/PROOFS.md, proved again. Under the words of each claim stand the theorems that we
    chose for it by hand: no tool judges whether together they say what the claim says. Above each theorem stands a
    sentence of ours, and below it the theorem as Coq prints it. Only the theorem is proved: judge whether the sentence
    says the same. After the line that begins with 'These are all the theorems' come the definitions. A name that begins
    with `rs_` is a function of Rust, as our translator reads it. If the result is `Some`, the call returns, and does not panic or hang. `valid_Uart` and the
    other names that begin with `valid_` should hold of every value that Rust can make. Judge whether they do.
    `inhabited` of a record of facts holds if all these facts hold: it says that the record has a value, and a value has
    a proof of each fact."""
JUDGED = """These are all the theorems of the six claims. Below are the definitions that they use, each after the
    definitions that it uses itself. Judge these too. You need read nothing else to judge the claims."""
OTHERS = """What is proved beside claims.txt, as Coq prints it: the other theorems, by topic; laws that have conditions,
    used once each; and the definitions that are not in claims.txt."""


def theorems_of(folder: Path) -> dict[str, str]:
    """The theorems in their order, each with its file."""
    names = {file.stem: re.findall(r"^Theorem (\w+)", file.read_text("utf-8"), re.M) for file in folder.glob("*.v")}
    if unknown := sorted(file for file in names if names[file] and file not in PROOFS):
        raise Failed(f"{unknown[0]}.v has theorems, and no place among PROOFS of statements.py")
    every = [(name, file) for file in PROOFS for name in names.get(file, [])]
    found = dict(every)
    if twice := [name for name, file in every if found[name] != file]:
        raise Failed(f"two theorems are {twice[0]}")
    return found


def witnesses_of(folder: Path) -> list[str]:
    """The uses of laws on calls that meet their conditions."""
    return re.findall(r"^Definition (used_\w+)", (folder / "Witnesses.v").read_text("utf-8"), re.M)


def sentences(folder: Path, file: str) -> dict[str, str]:
    """The comment that stands directly above a name."""
    text = (folder / f"{file}.v").read_text("utf-8")
    found = re.findall(rf"^\(\* ((?:(?!\*\)).)*?) *\*\)\n{KEYWORD} (\w+)", text, re.M | re.S)
    return {name: " ".join(words.split()) for words, name in found}


def topic(folder: Path, file: str) -> str:
    """What the theorems of a file are about: the first paragraph of its first comment below the licenses."""
    text = (folder / f"{file}.v").read_text("utf-8")
    for lone in re.findall(r"^\(\* (Claims? \d(?:(?!\*\)).)*?) *\*\)\n(?!Theorem )", text, re.M | re.S):
        raise Failed(f"no theorem below: {' '.join(lone.split())}")
    head = re.match(rf"(?:\(\* SPDX[^\n]*\n)?\(\* (?!SPDX)((?:(?!\*\)).)*?) *\*\)\n(?!{KEYWORD})", text, re.S)
    if not head:
        raise Failed(f"no topic at the head of {file}.v")
    return " ".join([*head[1].partition("\n\n")[0].split(), f"(recheck/proofs/{file}.v)"])


def claims_of(page: str) -> dict[int, str]:
    """The words of the claims of docs/PROOFS.md, without links: what stands below a claim's heading, above its
    exact statements. Each item of a list has a line."""
    parts = re.findall(r"^### Claim (\d): .*\n\n((?:(?!#).*\n)*?)\*\*Exactly:\*\*", page, re.M)
    return {int(number): in_lines(re.sub(r"\[([^]]*)\]\([^)]*\)", r"\1", words)) for number, words in parts}


def in_lines(words: str) -> str:
    """Paragraphs in one line, apart from lists between them."""
    first, *others = [" ".join(block.split()) for block in re.split(r"\n\n|\n(?=- )", words.strip())]
    lines = [first]
    for block in others:
        if block.startswith("- ") or lines[-1].startswith("- "):
            lines.append(block)
        else:
            lines[-1] += f" {block}"
    return "\n".join(lines)


class Statements:
    """What Coq says of all that is in a folder."""
    def __init__(self, folder: Path) -> None:
        self.folder, self.defined = folder, list[str]()
        self.owners = defaultdict[str, set[str]](set)
        self.modules = "|".join(requirements(folder))
        files = theorems_of(folder)
        self.theorems, self.proved = [f"{file}.{name}" for name, file in files.items()], [*dict.fromkeys(files.values())]
        self.proofs = {*self.theorems}
        self.witnesses = [f"Witnesses.{name}" for name in witnesses_of(folder)]
        self.list_definitions()
        asked = [*self.defined, *self.theorems, *self.witnesses]
        requires = [f"Require Recheck.{file}." for file in dict.fromkeys([*IMPORTED, *SHOWN, *self.proved])]
        in_full = [*requires, "Set Printing All.", "Set Printing Width 1000."]
        to_read = ["Unset Printing All.", *(f"Import Recheck.{file}." for file in IMPORTED), "Set Printing Width 120."]
        rest = rests_on(f"Recheck.{name}" for name in self.witnesses)
        (self.full, text), rests = self.printed(asked, [in_full, to_read], rest)
        if rests != "Closed under the global context":
            raise Failed(f"witnesses rest on something:\n{rests}")
        self.uses = {name: self.used_by(name) for name in asked}
        self.defined = [name for name in self.defined if not self.is_projection(name)]
        always = [name for name in self.defined if not name.startswith(tuple(f"{file}." for file in IF_USED))]
        self.all = self.closure([*always, *self.theorems, *self.witnesses])
        shown = [name for name in asked if name in self.all and not self.is_projection(name)]
        self.text = {name: text[name] for name in shown}
        self.sum = hashlib.sha256("\n".join(self.full[name] for name in shown).encode()).hexdigest()

    def said(self, *lines: str) -> str:
        (self.folder / "Statements.v").write_text("\n".join(lines) + "\n", "utf-8")
        return coqc(self.folder, "Statements")

    def list_definitions(self) -> None:
        """The definitions of each file, and to which types the names in them may belong, such as constructors."""
        listed = self.said("Set Printing Width 30.",  # so that each begins its own line
                           *(f"{asks} Recheck.{file}." for asks in ("Require", "Print Module") for file in SHOWN))
        for file, module in zip(SHOWN, re.split(r"^Module\s+\w+\s+:= Struct$", listed, flags=re.M)[1:], strict=True):
            if re.search(r"^ *Module ", module, re.M):
                raise Failed(f"a module in {file}.v")
            for declared in re.split(rf"^ {{5}}(?=(?:Parameter|{KEYWORD})\s)", module, flags=re.M)[1:]:
                kind, name = declared.split()[:2]
                path = f"{file}.{name}"
                if path == SEALED and kind != "Parameter":
                    raise Failed(f"{SEALED} is not sealed")
                if kind == "Parameter" and path != SEALED:
                    self.proofs.add(path)
                if path in self.proofs or CODE.fullmatch(path) or SCHEME.fullmatch(name) or name.startswith("used_"):
                    continue
                self.defined.append(path)
                if kind != "Definition":
                    for part in re.findall(r"(\w+)\s:(?!=)|:=\s+(\w+)", declared):
                        self.owners[f"{file}.{part[0] or part[1]}"].add(path)

    def printed(self, names: list[str], ways: list[list[str]], more: list[str]) -> tuple[list[dict[str, str]], str]:
        """What Coq prints of each name after the settings of each way, a whole definition or what a theorem states, and
        then of more."""
        printed = {*self.defined} - {SEALED}
        asked = [f"{'Print ' if name in printed else 'Check @'}Recheck.{name}. Check I." for name in names]
        lines = [line for settings in ways for line in [*settings, *asked]]
        said = re.sub(r"^\n?Arguments .*(?:\n .*)*\n", "", self.said(*lines, *more), flags=re.M)
        *found, last = map(trimmed, said.split(SEPARATOR))
        parts = [found[place:place + len(names)] for place in range(0, len(found), len(names))]
        return [dict(zip(names, part, strict=True)) for part in parts], last

    def used_by(self, name: str) -> set[str]:
        """The definitions that it names, each with its file since no file is imported."""
        found = set()
        for path in {".".join(words) for words in re.findall(rf"\b({self.modules})\.(\w+)", self.full[name])} - {name}:
            if path in self.full and path not in self.proofs:
                found.add(path)
            elif path in self.owners:
                found |= self.owners[path]
            elif not CODE.fullmatch(path) and not (path in self.proofs and name.startswith("Witnesses.")):
                raise Failed(f"{name} has {path}, which is not among the definitions of the statements")
        return found - {name}

    def is_projection(self, name: str) -> bool:
        """Whether it is a field of a record, which stands in the record."""
        field = name.partition(".")[2]
        return name in self.owners and bool(re.search(rf"\| [^|]* => {field}\s+end\s+: ", self.full[name]))

    def closure(self, names: list[str]) -> set[str]:
        found: set[str] = set()
        left = [*names]
        while left:
            if (name := left.pop()) not in found:
                found.add(name)
                left += self.uses[name]
        return found

    def claims(self) -> dict[tuple[int, ...], list[str]]:
        """The theorems of each claim, or of several, by the first words of their sentences."""
        found = dict[tuple[int, ...], list[str]]()
        words = {file: sentences(self.folder, file) for file in self.proved}
        for theorem in self.theorems:
            file, _, name = theorem.partition(".")
            sentence = words[file].get(name)
            if sentence is None:
                raise Failed(f"no sentence above {theorem}")
            if named := re.match(r"Claims? (\d(?:(?:, | and )\d)*)\. ", sentence):
                found.setdefault(tuple(map(int, re.findall(r"\d", named[1]))), []).append(theorem)
        return dict(sorted(found.items()))

    def told(self, name: str, comments: dict[str, dict[str, str]]) -> str:
        """A statement or a definition under its sentence. A law stands under the theorem that proves it."""
        file, _, word = name.partition(".")
        sentence = re.sub(r"^Claims? \d[^.]*\. ", "", comments[file].get(word, ""))
        text = re.sub(rf"^(@?){file}\.", r"\1", self.text[name]) if name in self.theorems else self.text[name]
        lines = [*textwrap.wrap(sentence, 120), text]
        if law := self.law_of(name):
            lines.append(self.text[law])
        return "\n".join(lines) + "\n"

    def law_of(self, theorem: str) -> str | None:
        found = re.fullmatch(r"\S+\s+: (Definitions\.\w+)", self.full[theorem])
        return found[1] if found and found[1] in self.text else None

    def files(self, page: str) -> dict[str, str]:
        """What claims.txt and statements.txt have to be."""
        comments = {file: sentences(self.folder, file) for file in (*SHOWN, *self.proved)}
        claims, words = self.claims(), claims_of(page)
        named = {number for numbers in claims for number in numbers}
        if faults := [f"no theorem is for claim {number} of docs/PROOFS.md" for number in sorted(words.keys() - named)]:
            raise Failed("\n".join(faults))
        if others := sorted(named - words.keys()):
            raise Failed(f"docs/PROOFS.md has no claim {others[0]}")
        of_claims = [theorem for theorems in claims.values() for theorem in theorems]
        read = self.closure(of_claims)
        parts = {"claims.txt": [paragraph(CLAIMS)], "statements.txt": [paragraph(OTHERS)]}
        shown: set[str] = set()

        def add(file: str, title: str, names: list[str]) -> None:
            if names:
                parts[file] += [heading(title), *(self.told(name, comments) for name in names)]
                shown.update(names, filter(None, map(self.law_of, names)))
        for numbers, theorems in claims.items():
            said = [f"Claim{'s' * (len(numbers) > 1)} {' and '.join(map(str, numbers))}."]
            said += [words.pop(number) for number in numbers if number in words]
            add("claims.txt", " ".join(said), theorems)
        parts["claims.txt"].append(paragraph(JUDGED))
        for file in self.proved:
            more = [path for path in self.theorems if path.startswith(f"{file}.") and path not in of_claims]
            add("statements.txt", topic(self.folder, file), more)
        add("statements.txt", "laws that have conditions, used once each", self.witnesses)
        for source, title in SHOWN.items():
            left = [name for name in self.defined if name.startswith(f"{source}.") and name in self.text.keys() - shown]
            add("claims.txt", title, [name for name in left if name in read])
            add("statements.txt", title, [name for name in left if name not in read])
        parts["statements.txt"].append(f"All of both files, with what Coq does not show of it: {self.sum}\n")
        return {file: "\n".join(texts) for file, texts in parts.items()}


def trimmed(text: str) -> str:
    """The text without the spaces at the ends of its lines, or lines around it."""
    return "\n".join(line.rstrip(" ") for line in text.split("\n")).strip()


def paragraph(text: str) -> str:
    return textwrap.fill(" ".join(text.split()), 120) + "\n"


def heading(title: str) -> str:
    first, *others = f"==== {title}".split("\n")
    lines = [textwrap.fill(first, 120, subsequent_indent="     ")]
    for line in others:
        within = "       " if line.startswith("- ") else "     "
        lines.append(textwrap.fill(line, 120, initial_indent="     ", subsequent_indent=within))
    return "\n".join(lines) + "\n"


def differences(kept: dict[str, str], found: dict[str, str]) -> list[str]:
    """What changed in each file, in the lines of a diff."""
    return [line for file, text in found.items()
            for line in difflib.unified_diff(kept.get(file, "").splitlines(), text.splitlines(), f"recheck/{file}",
                                             "proved", lineterm="", n=1)]


def compare(folder: Path, writes: bool = False) -> None:
    """Whether the files say what is proved, after they are written if this `writes` them."""
    found = Statements(folder).files((HERE / "docs" / "PROOFS.md").read_text("utf-8"))
    if writes:
        for file, text in found.items():
            (HERE / "recheck" / file).write_text(text, "utf-8")
    if faults := differences({file: (HERE / "recheck" / file).read_text("utf-8") for file in found}, found):
        raise Failed("other statements are proved:\n" + "\n".join(faults[:60]))
