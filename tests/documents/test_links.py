# SPDX-License-Identifier: Apache-2.0 OR BSD-3-Clause
"""Each link of the documents leads somewhere, and the code that they quote is there.

A link leads to a file or a folder of the repository, and an anchor to a heading. Those of the libraries that a user
copies lead to these. A fenced block is an excerpt if the line before it ends with a colon and links to a source: this
has its lines, in their order, and may have others between them.
"""
import re
from functools import cache

import documents as reader
import pytest
from documents import Block, Document, documents
from harness import ROOT, at_least

DOCUMENTS = at_least(33, documents())
# The libraries that a user copies, by docs/RATTLE.md.
COPIED = [ROOT / "crates" / name for name in ("superio_core", "superio_laws", "vm_superio")]
SOURCE = re.compile(r".*\]\(([^)#]+\.(?:antt|c|h|mjs|py|rs|rt|txt))\)[^\n]*:\s*\Z")   # before an excerpt
LINKS = at_least(300, [(document, link) for document in DOCUMENTS for link in document.links
                       if not re.match(r"\w+:", link)])
ANCHORS = {ROOT / document.path: document.anchors for document in DOCUMENTS}
EXCERPTS = at_least(4, [(document, block, SOURCE.search(block.before)[1]) for document in DOCUMENTS
                        for block in document.blocks if SOURCE.search(block.before)])


@cache
def target(document, link):
    """The path and the anchor that a link leads to."""
    name, _, anchor = link.partition("#")
    own = ROOT / document.path
    return (own.parent / name).resolve() if name else own, anchor


# A page with each form that the reader of documents has to know, and some that are none.
PAGE = """# The [first](one.md#a) `line`, in full

See [two](two.md), or ![a picture](three.svg). In code `[no](no.md)` is no link.

[label]: four.md
<a href="five.html"><img src='six.svg'><source srcset="seven.svg"></a>

```sh
# no heading, and [no link](no.md)
```

- An item:

  ```console
  $ first
  its reply

  $ second
  ```

## After it
"""


def test_documents(tmp_path, monkeypatch):
    """Each page is found however deep it is, README.md first, and none of what is built or hidden."""
    monkeypatch.setattr(reader, "ROOT", tmp_path)
    pages = ["README.md", "Z.md", "a/README.md", "a/b/c/d/page.md", "a/outer/b/page.md"]
    for name in [*pages, "out/page.md", "a/target/b/page.md", "a/__pycache__/page.md", ".ci/page.md", "a/page.txt"]:
        (tmp_path / name).parent.mkdir(parents=True, exist_ok=True)
        (tmp_path / name).touch()
    assert [*map(str, documents.__wrapped__())] == [*pages[:3], "a/outer/b/page.md", "a/b/c/d/page.md"]


def test_reader(tmp_path, monkeypatch):
    """No form of link, heading or block is passed over."""
    monkeypatch.setattr(reader, "ROOT", tmp_path)
    (tmp_path / "page.md").write_text(PAGE, encoding="utf-8")
    page = Document("page.md")
    assert page.links == ["one.md#a", "two.md", "three.svg", "four.md", "five.html", "six.svg", "seven.svg"]
    assert page.anchors == ["the-first-line-in-full", "after-it"]
    first, second = page.blocks
    assert first[:3] == (9, "sh", ["# no heading, and [no link](no.md)"])
    assert second == Block(15, "console", ["$ first", "its reply", "", "$ second"], "\n\n- An item:\n\n")
    assert second.commands == [("first\n", "its reply\n\n"), ("second\n", "")]
    assert page.prose.count("\n") == PAGE.count("\n") and "reply" not in page.prose


@pytest.mark.parametrize("document, link", LINKS, ids=str)
def test_link(document, link):
    path, anchor = target(document, link)
    own = (ROOT / document.path).parents
    assert path.exists(), "leads nowhere"
    assert any(map(path.is_relative_to, COPIED if {*COPIED} & {*own} else [ROOT])), "leads out of what is copied"
    assert not anchor or anchor in ANCHORS[path], "there is no such heading"


@pytest.mark.parametrize("document, block, source", EXCERPTS,
                         ids=lambda value: "" if isinstance(value, tuple) else str(value))
def test_excerpt(document, block, source):
    """Looking for a line takes those before it, so that the next has to stand below."""
    rest = map(str.strip, (ROOT / document.path.parent / source).read_text(encoding="utf-8").splitlines())
    for line in filter(str.strip, block.lines):
        assert line.strip() in rest, f"{source} has no line {line!r} there"


@pytest.mark.parametrize("document", [document for document in DOCUMENTS if str(document) != "README.md"], ids=str)
def test_is_linked(document):
    """Another document links to each. A link to a folder leads to its README.md."""
    paths = {target(other, link)[0] for other, link in LINKS if other.path != document.path}
    assert paths & {ROOT / document.path, (ROOT / document.path).parent}
