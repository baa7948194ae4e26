# SPDX-License-Identifier: Apache-2.0 OR BSD-3-Clause
"""Has Coq check a folder of files, and answer questions about them."""
import os
import re
import subprocess
from collections.abc import Iterable
from concurrent.futures import FIRST_COMPLETED, Future, ThreadPoolExecutor, wait
from pathlib import Path


class Failed(Exception):
    """Something is not proved."""


# coqc fills 256 MB with new values before it collects any. With 64 MB it takes less memory and less time, and less time
# again with large pages, which the kernel clears in fewer steps.
HEAP = {"OCAMLRUNPARAM": "s=8M,o=1000", "GLIBC_TUNABLES": "glibc.malloc.hugetlb=1"}
# A warning is a fault, except one: the translated definitions have names that they do not need.
WARNINGS = "+default,-unused-pattern-matching-variable"


def coqc(folder: Path, name: str) -> str:
    run = subprocess.run(["coqc", "-noglob", "-w", WARNINGS, "-Q", ".", "Recheck", f"{name}.v"], cwd=folder,
                         env=os.environ | HEAP, capture_output=True, encoding="utf-8")
    if run.returncode:
        raise Failed(f"{name}.v is not proved:\n{run.stdout}{run.stderr}")
    return run.stdout


def requirements(folder: Path) -> dict[str, set[str]]:
    """For each file, those that it requires."""
    found = {}
    for file in folder.glob("*.v"):
        text = file.read_text("utf-8")
        required = " ".join(re.findall(r"^Require (?:Import |Export )?([^.]*(?:\.\w+[^.]*)*)\.$", text, re.M))
        found[file.stem] = {name[8:] for name in required.split() if name.startswith("Recheck.")}
    return found


def check(folder: Path, jobs: int, names: Iterable[str] | None = None) -> None:
    """Checks these files, or all files, each after the ones that it requires."""
    needs = requirements(folder)
    chosen = set(needs if names is None else names)
    needs = {name: required & chosen for name, required in needs.items() if name in chosen}
    with ThreadPoolExecutor(jobs) as pool:
        running: dict[Future[str], str] = {}
        while needs or running:
            for name in [name for name, left in needs.items() if not left]:
                del needs[name]
                running[pool.submit(coqc, folder, name)] = name
            if not running:
                raise Failed(f"these files require each other: {', '.join(needs)}")
            for done in wait(running, return_when=FIRST_COMPLETED).done:
                done.result()
                name = running.pop(done)
                for left in needs.values():
                    left.discard(name)


def rests_on(names: Iterable[str]) -> list[str]:
    """Has Coq print on what these rest."""
    return ["Definition all : True :=", *(f"let _ := @{name} in" for name in names), "I.", "Print Assumptions all."]
