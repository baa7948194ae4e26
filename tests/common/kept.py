# SPDX-License-Identifier: Apache-2.0 OR BSD-3-Clause
"""What tests keep on a machine, for all clones of the repository: what they fetch, what they build of Debian's crates, and
proofs, which hold until something changes of what they were made of."""
import fcntl
import hashlib
import os
import shutil
import tempfile
from contextlib import suppress
from pathlib import Path

from documents import BUILT
from harness import ROOT

FOLDER = Path(os.environ.get("XDG_CACHE_HOME") or Path.home() / ".cache") / "fimolavand"
MOST = 300   # proofs are kept: those that were made or taken last
again = False   # whether a proof is made also if an earlier run made it
taken = []      # the names of proofs that earlier runs made


def files_of(part):
    """The files of what a proof is made of, if it is a file or a folder, without what tools leave there."""
    if part.is_file():
        return [part]
    return sorted(path for path in part.rglob("*") if path.is_file() and path.name != "Cargo.lock"
                  and BUILT.isdisjoint(path.relative_to(ROOT).parts))


def digest(name, parts):
    """Of a proof's name, and of the texts, files and folders of which it is made."""
    found = hashlib.sha256()
    for part in (name, *parts):
        texts = ([("", part.encode())] if isinstance(part, str) else
                 [(path.relative_to(ROOT), path.read_bytes()) for path in files_of(part)])
        for place, text in texts:
            found.update(f"{place}\0{len(text)}\0".encode() + text)
        found.update(b"end\0")
    return found.hexdigest()


def proof(name, parts, make):
    """The folder of a proof. `make` fills it, or fails if there is no proof. It isn't called if an earlier run on this
    machine made the proof of the same parts: texts, and files and folders of the repository. Nobody else writes there."""
    place = FOLDER / "proofs" / digest(name, parts)
    if not again:
        with suppress(FileNotFoundError):   # it is not there, or another run has just dropped it
            os.utime(place)
            taken.append(name)
            return place
    place.parent.mkdir(parents=True, exist_ok=True)
    with tempfile.TemporaryDirectory(dir=FOLDER) as new, (FOLDER / "lock").open("w") as lock:
        made = Path(new) / "made"
        made.mkdir()
        make(made)
        os.utime(made)
        fcntl.flock(lock, fcntl.LOCK_EX)   # runs beside this one
        if again or not place.exists():   # what another run has made meanwhile is as good, and may be in use
            shutil.rmtree(place, ignore_errors=True)
            made.rename(place)
        for old in sorted(place.parent.iterdir(), key=lambda path: path.stat().st_mtime)[:-MOST]:
            shutil.rmtree(old)
    return place


def text(name, parts, make):
    """What a prover said, which `make` gives, now or in an earlier run."""
    def write(folder):
        (folder / "text").write_bytes(make().encode())
    return (proof(name, parts, write) / "text").read_bytes().decode()
