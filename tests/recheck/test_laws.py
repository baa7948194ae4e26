# SPDX-License-Identifier: Apache-2.0 OR BSD-3-Clause
"""docs/RECHECK.md lists each law of superio_laws that has no theorem in Coq, and no other."""
import re

from documents import CODE, Document
from harness import ROOT, at_least

import rerun

HEADING = "\n### The laws without a theorem\n"


def laws():
    """The laws of the sources: functions with their clauses, each with the path of the definition that it states."""
    text = (ROOT / "crates/superio_laws/src/lib.rt").read_text(encoding="utf-8")
    used = re.findall(r"^ghost use Rattle\.superio_laws\.specs\.([\w.]+)\.\{(.*)\};$", text, re.M)
    paths = {name: f"superio_laws.{module}.{name}" for module, names in used for name in names.split(", ")}
    for function, clauses in re.findall(r"^pub fn (\w+)\(\)\n((?: +ensures .*\n)+)", text, re.M):
        yield function, {clause: paths[law] for clause, law in re.findall(r"ensures (?:(\w+) )?\{ (\w+) \}", clauses)}


def cited(function, clauses):
    """A function, or some of its clauses, as the page cites it: without the clauses that have a theorem."""
    missing = [clause for clause, path in clauses.items() if path not in rerun.LAWS]
    if missing:
        yield function if len(missing) == len(clauses) else f"{function}: {', '.join(missing)}"


def test_list():
    items = Document("docs/RECHECK.md").text.split(HEADING)[1].split("\n#")[0]
    listed = [code for item in re.findall(r"^- .*", items, re.M) for code in CODE.findall(item)]
    wanted = [code for law in at_least(30, laws()) for code in cited(*law)]
    assert sorted(listed) == sorted(wanted)
