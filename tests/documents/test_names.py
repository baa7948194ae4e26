# SPDX-License-Identifier: Apache-2.0 OR BSD-3-Clause
"""The documents name what the sources have, and the clauses are all named.

In the documents, a contract is cited by one piece of code, such as `Serial::read, write: step, coherent`: each function
has each of the clauses. A function without a type has the type of the function before it. Of other code each file, each
path of a function and each word of four letters or more has to stand in the sources. A command of tools/ or tests/,
also in a block for the shell, has to have the options that it is given.

In the other direction, the documents of CLAIMS have to cite each clause of each public function of CRATES, or
docs/DEVICES.md has to where it says what is proved of a device. Those of C may be cited of another function, such as
`Uart::read`. Of LIBRARIES they also have to name each function whose clause has no name. docs/USING.md has to name each call of a console. README.md has to show the logic that `rt version` prints: proofs depend on it alone.
"""
import re
from collections import defaultdict
from dataclasses import replace
from functools import cached_property

import pytest
from contracts import functions_of, without_generics
from documents import CODE, Document, documents, files
from harness import ROOT, at_least, check

CLAIMS = ["docs/CONTRACTS.md", "docs/SCRIPT.md", "crates/superio_examples/README.md"]
OF_A_DEVICE = re.compile(r"^### What is proved of .*\n((?:(?!#).*\n)*)", re.M)   # in docs/DEVICES.md
LIBRARIES = ["superio_core", "superio_laws", "superio_console", "vm_superio"]
CRATES = [*LIBRARIES, "superio_c", "board_objects", "superio_script", "superio_examples"]
CITATION = re.compile(r"(\w+(?:::\w+)*(?:, \w+(?:::\w+)*)*): ([a-z]\w*(?:, \w+)*)")
COMMAND = re.compile(r"\b((?:tools|tests)/[\w./-]+) ([^#]*)")
FILE = re.compile(r"(?<![\w/.~$:*-])(?:\.{1,2}/)*(?!\.{1,2}/)([\w.-]+(?:/[\w.-]+)+|[\w-]+\."
                  r"(?:antt|c|edits|h|json|md|mjs|py|rs|rt|script|toml|txt))(?![\w*])")
WORD = re.compile(r"(?<!\S)--[\w-]+|\b[^\W\d]\w{3,}\b")
# Code that is not read: commands of the kit, options and settings of other programs, and what is built.
UNREAD = re.compile(r"^rt |^rattle-kit-|^-|\w=\w|\bout/")
# What the documents name besides, and no source has: names of other programs, of KVM and of device trees, and digits to
# fill in.
ELSEWHERE = set("""
    --add-architecture apb_pclk armhf bazel compatible CONFIG_SERIAL_8250_16550A_VARIANTS devscripts eh_frame frequency
    IAPC_BOOT_ARCH immediate_exit KVM_GET_IRQCHIP KVM_IRQFD_FLAG_RESAMPLE libsuperioN linear NNNNNNNNNNNNNNNN
    --no-isolation nodejs ns16550a primecell typescript xzcat""".split())


class Sources:
    """What the sources have: functions, files and words. Files of drivers' sources, of which they have the sums, are among
    them."""

    def __init__(self):
        paths = [*files()]
        drivers = re.findall(r"(?<=  ).+", "".join(path.read_text() for path in (ROOT / "tests/guests").glob("*.sha256")))
        self.files = "".join(f"/{name}\n" for name in [*paths, *drivers])
        self.texts = {path: (ROOT / path).read_text(encoding="utf-8", errors="ignore") for path in paths
                      if path.suffix != ".md"}
        self.functions = []
        for path, text in sorted(self.texts.items()):
            if path.suffix in (".rs", ".rt"):
                modules = [part for part in path.with_suffix("").parts
                           if part not in ("crates", "src", "lib", "main")]
                self.functions += [replace(function, path=(*modules, *function.path))
                                   for function in functions_of(text)]
        self.by_name = defaultdict(list)   # which their path ends with
        for function in self.functions:
            self.by_name[function.name].append(function)

    @cached_property   # which nothing needs as long as tests are collected
    def words(self):
        return ELSEWHERE.union(*(re.findall(r"--[\w-]+|\w+", text) for text in [*self.texts.values(), self.files]))

    def named(self, path):
        """The functions that a path names: those with clauses, or if none has any, all. `laws`, a module of
        `vm_superio`, also has what `superio_laws` has."""
        paths = [path.split("::"), re.sub(r"\blaws\b", "superio_laws", path).split("::")]
        ends = dict.fromkeys(names[-1] for names in paths)
        found = [function for end in ends for function in self.by_name.get(end, ())
                 if any(map(function.is_named, paths))]
        return [function for function in found if function.clauses] or found

    def lacks(self, code):
        """What a piece of code names, and the sources have not."""
        paths = re.findall(r"\w+(?:::\w+)+", without_generics(code).replace("::::", "::"))
        yield from (path for path in paths if path.split("::")[-1].islower() and not self.named(path))
        # A file may be named by the end of its path, and without its ending.
        yield from (file for file in FILE.findall(code)
                    if not re.search(rf"/{re.escape(file)}(\.\w+)?[/\n]", self.files))
        yield from (word for word in WORD.findall(code) if word not in self.words)


def command_faults(code):
    """The options that a command of tools/ or tests/ has not, if a piece of code is one."""
    for tool, words in COMMAND.findall(code)[:1]:
        text = (ROOT / tool).read_text(encoding="utf-8") if (ROOT / tool).is_file() else ""
        wanted = set(re.findall(r"--[\w-]+", words)) - {"--help"}
        yield from (f"{tool} has no {word}" for word in wanted if word not in text)


def cited(sources, citation):
    """Each path of a citation, with the functions that it names and the clauses that they should have."""
    owner, clauses = "", citation[2].split(", ")
    for path in citation[1].split(", "):
        path = path if "::" in path else owner + path
        owner = path.removesuffix(path.split("::")[-1])
        yield path, sources.named(path), clauses


def covered(sources, code):
    """The functions and clauses that a piece of code names."""
    if citation := CITATION.fullmatch(code):
        for _, functions, clauses in cited(sources, citation):
            yield from ((str(function), clause) for function in functions for clause in ["", *clauses])
    elif not UNREAD.search(code) and ("::" in code or code.startswith("superio_")):
        yield from ((str(function), "") for function in sources.named(re.sub(r"\(.*", "", code)))


def code_faults(sources, code):
    """What is wrong with a piece of code."""
    if citation := CITATION.fullmatch(code):
        for path, functions, clauses in cited(sources, citation):
            yield from [] if functions else [f"there is no function {path}"]
            for function in functions:
                yield from (f"{function} has no clause {clause}" for clause in clauses
                            if clause not in function.clauses)
    elif not UNREAD.search(code):
        yield from (f"{name} is nowhere in the sources" for name in sources.lacks(code))
        yield from command_faults(code)


def document_faults(document):
    """What is wrong with each piece of code of a document, by its line."""
    for number, line in enumerate(document.prose.splitlines(), 1):
        yield from ((number, fault) for code in CODE.findall(line) for fault in code_faults(SOURCES, code))
    for block in document.blocks:
        yield from ((block.number, fault) for line in block.lines for fault in command_faults(line))


def clauses():
    """The clauses of public functions that have to be cited. One without a name is so by its function."""
    for function in SOURCES.functions:
        crate = function.path[0]
        for clause in function.clauses if function.is_public and crate in CRATES else ():
            if clause or function.has_body and crate in LIBRARIES:
                yield str(function), clause


SOURCES = Sources()
DOCUMENTS = [document for document in documents() if str(document) != "CHANGELOG.md"]   # it names what was
def cited_in(texts):
    """The functions and the clauses that texts cite."""
    return {pair for text in texts for code in CODE.findall(text) for pair in covered(SOURCES, code)}


SECTIONS = OF_A_DEVICE.findall(Document("docs/DEVICES.md").prose)
CITED = cited_in([*(Document(name).prose for name in CLAIMS), *SECTIONS])
# The functions of devices that have a section of their own, each with a clause. A board is no device.
OF_DEVICES = [(function, clause) for function, clause in sorted(cited_in(SECTIONS))
              if clause and not function.startswith(("board_objects::", "superio_script::"))]
# The calls of a console, which docs/USING.md tells of.
CONSOLE = {function.name for function in SOURCES.functions if function.is_public and function.path[-2] == "Console"
           and function.path[0] == "superio_console" and " for " not in function.header}
PIECES = [code for document in DOCUMENTS for line in document.prose.splitlines() for code in CODE.findall(line)]


def test_number_of_names():
    assert len(PIECES) >= 2_000


@pytest.mark.parametrize("document", at_least(32, DOCUMENTS), ids=str)
def test_document(document):
    """A document names nothing that is not there."""
    faults = [f"{document}:{number}: {fault}" for number, fault in document_faults(document)]
    assert not faults, "\n".join(faults)


@pytest.mark.parametrize("function, clause", at_least(450, clauses()))
def test_clause(function, clause):
    """A document cites each clause."""
    is_of_c = function.startswith("superio_c::")
    is_cited = (function, clause) in CITED or is_of_c and clause in {name for _, name in CITED}
    assert is_cited, "neither docs/CONTRACTS.md nor the device's section of docs/DEVICES.md cites it"


@pytest.mark.parametrize("function, clause", at_least(7, OF_DEVICES))
def test_clause_of_a_device(function, clause):
    """It stands in the device's section alone. So who adds a device, or changes one, edits no other page."""
    others = [document for document in DOCUMENTS if str(document) != "docs/DEVICES.md"]
    assert [str(document) for document in others if (function, clause) in cited_in([document.prose])] == []


@pytest.mark.parametrize("name", at_least(17, sorted(CONSOLE)))
def test_call_of_console(name):
    assert name in CODE.findall(Document("docs/USING.md").prose)


@pytest.mark.needs("kit")
def test_version():
    """README.md shows the logic of the kit."""
    version = check(["rt", "version"]).strip()
    assert version[version.index("logic "):] in Document("README.md").text
