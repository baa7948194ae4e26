# SPDX-License-Identifier: Apache-2.0 OR BSD-3-Clause
"""The commands of the documents work as a new user pastes them into a fresh copy of the repository.

Each fenced `sh` block is run by bash with an empty environment and a new home, with the programs of /usr/bin alone, and
with those beside `rt` if a command is of KIT. It has to succeed, and to print what a `text` block after it shows, if
there is one before a heading; what follows a prompt there, such as `superio> `, is its input. What takes long is
shortened: `tools/check` and `tools/recheck` print their help, `tools/generate` takes its steps of a second, pytest only
collects, and an environment of Python has Debian's pip instead of its own. tests/recheck runs the second as a new user
does. A shortened command of pytest or `tools/check` that several documents have runs once.

The steps of RATTLE.md are carried out beside a link to this repository, with the file that it shows, up to a proved
claim. This proves the libraries first, in minutes, unless `rt` proved them here.
"""
import os
import re
import shutil

import pytest
from common.rattle import alone
from documents import HEADING, Document, copy_repository
from harness import ROOT, at_least, run

DOCUMENTS = ("README.md", "CONTRIBUTING.md", "docs/*.md", "bindings/*/README.md", "examples/*/README.md",
             "tests/README.md")
# Their commands are for a folder of the user's own, and for a host with KVM, where tests/kvm runs them.
ELSEWHERE = ("docs/RATTLE.md", "docs/MONITOR.md")
KIT = re.compile(r"^(?:rt|tools/run)\b", re.M)
# The tools that programs in commands are of, as tests name them.
PROGRAMS = {"cc": "cc", "cargo": "debian-rust", "git": "git", "make": "make", "npm": "npm", "pkg-config": "pkg-config",
            "venv": "pip", "pip": "pip"}
PROMPT = re.compile(r"\w+> ")
# At a terminal `./shell` is the shell. Here what is typed comes from a pipe.
SHORTER = [(r"^\./shell$", "./shell --shell"), (r"^tools/((?:re)?check\b[^#\n]*)", r"tools/\1 --help "),
           (r"^tools/generate$", "tools/generate facts rust interface page"),
           (r"^(python3 -m pytest)\b", r"\1 --collect-only -q --assert=plain"),
           (r"^(python3 -m venv) (--system-site-packages (\S+).*\n)\3/bin/pip ",
            r"\1 --without-pip \2\3/bin/python3 -m pip ")]
# A shortened command that changes nothing, so that it does the same in each copy.
CHANGES_NOTHING = re.compile(r"^(?:tools/check [^#\n]*--help|python3 -m pytest --collect-only [^#\n]*)", re.M)
BUILT = "crates/superio/out/superio"


def commands_of(document):
    """The commands of a document block by block, each with its place, what is typed, and what they have to print."""
    blocks = document.blocks
    for block, after in zip(blocks, [*blocks[1:], None]):
        is_shown = after and after.language == "text" and not HEADING.search(after.before)
        shown = [f"{line}\n" for line in after.lines] if is_shown else []
        typed = "".join(line[PROMPT.match(line).end():] for line in shown if PROMPT.match(line))
        if block.language == "sh":
            printed = "".join(line for line in shown if not PROMPT.match(line))
            yield f"{document}:{block.number - 1}", "\n".join(block.lines), typed, printed


def cases():
    """The documents that have commands, each with its blocks, marked with what they need. Blocks for the kit come
    apart."""
    for path in sorted(path.relative_to(ROOT) for pattern in DOCUMENTS for path in ROOT.glob(pattern)):
        blocks = list(commands_of(Document(path))) if str(path) not in ELSEWHERE else []
        for is_for_kit in (False, True):
            some = [block for block in blocks if bool(KIT.search(block[1])) == is_for_kit]
            commands = "\n".join(commands for _, commands, *_ in some)
            tools = {tool for program, tool in PROGRAMS.items() if re.search(rf"\b{program}\b", commands)}
            if some:
                yield pytest.param(some, id=f"{path}{' with the kit' * is_for_kit}",
                                   marks=pytest.mark.needs(*sorted(tools), *["kit"] * is_for_kit))


@pytest.fixture(scope="module")
def passed():
    """The commands that change nothing, and have succeeded in a copy."""
    return []


def paste(folder, where, commands, typed, printed, passed):
    """Pastes commands into a folder. They do what their document says, and nothing asks a network."""
    assert "apt-get" not in commands, f"{where}: this needs a network, and fails while another apt-get runs"
    kit = [os.path.dirname(shutil.which("rt"))] if KIT.search(commands) else []
    for form, shorter in SHORTER:
        commands = re.sub(form, shorter, commands, flags=re.M)
    commands = CHANGES_NOTHING.sub(lambda found: "" if found[0].split() in passed else found[0], commands)
    environment = {"HOME": str(folder.parent), "PATH": ":".join([*kit, "/usr/bin", "/bin"]), "PIP_NO_INDEX": "1",
                   "CARGO_NET_OFFLINE": "true"}
    ran = run(["/bin/bash", "-e", "-c", commands], cwd=folder, input=typed, env=environment)
    assert ran.returncode == 0 and "Traceback" not in ran.stdout, f"{where}: status {ran.returncode}\n{ran.stdout}"
    assert printed in ran.stdout, f"{where} printed:\n{ran.stdout}"
    passed += [found.split() for found in CHANGES_NOTHING.findall(commands)]


@pytest.mark.parametrize("blocks", at_least(9, cases()))
def test_document(blocks, passed, tmp_path):
    """A block finds what those before it left."""
    top = tmp_path / "fimolavand"
    copy_repository(top)
    if (ROOT / BUILT).is_file():   # else `tools/run` proves it again
        (top / BUILT).parent.mkdir()
        shutil.copy(ROOT / BUILT, top / BUILT)
    for block in blocks:
        paste(top, *block, passed)


@pytest.mark.needs("kit")
def test_first_crate(tmp_path):
    """The steps of RATTLE.md, the last of which checks the page's last file."""
    page = Document("docs/RATTLE.md")
    *_, claim = [block.lines for block in page.blocks if block.language == "rust"]
    *before, (where, last, typed, printed) = commands_of(page)
    steps = [*(commands for _, commands, *_ in before), "cp ../../own.rt src", last]
    own = tmp_path / "own"
    own.mkdir()
    (tmp_path / "fimolavand").symlink_to(ROOT)
    (own / "own.rt").write_text("\n".join([*claim, ""]), encoding="utf-8")
    with alone():
        paste(own, where, "\n".join(steps), typed, printed, [])
