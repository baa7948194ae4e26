# SPDX-License-Identifier: Apache-2.0 OR BSD-3-Clause
"""Debian's packages that this machine's own lists do not have: of another release, or of sources. They come from where
this machine gets its own."""
import fcntl
import re
import shutil
import subprocess
import tempfile
import time
from pathlib import Path

KEY = "/usr/share/keyrings/debian-archive-keyring.gpg"


def make_whole(folder, make):
    """Makes a folder by a function of it, unless it is there: whole or not at all, and once, since tests run in several
    processes. If Debian's archive does not give what is needed, nothing is tried for an hour."""
    folder.parent.mkdir(parents=True, exist_ok=True)
    unreachable = folder.parent / "unreachable"
    with open(folder.parent / "lock", "w", encoding="ascii") as lock:
        fcntl.flock(lock, fcntl.LOCK_EX)
        if folder.exists() or unreachable.exists() and time.time() - unreachable.stat().st_mtime < 3600:
            return
        with tempfile.TemporaryDirectory(dir=folder.parent) as new:
            made = Path(new) / folder.name
            made.mkdir()
            try:
                make(made)
            except subprocess.CalledProcessError:
                unreachable.touch()
            else:
                made.rename(folder)


def apt_get(folder, release, kind="deb"):
    """The words of an apt-get with lists of its own in a folder, which are brought up to date. It fails if there is no
    network."""
    # Also of a machine that has read no list yet, such as a new container.
    named = subprocess.run(["apt-get", "--print-uris", "update"], stdout=subprocess.PIPE, text=True, check=True).stdout
    uri = re.search(r"^'(\S+)/dists/(bookworm|(old)*stable)/InRelease'", named, re.M)[1]
    for part in ("parts", "lists/partial", "cache/archives/partial"):
        (folder / part).mkdir(parents=True, exist_ok=True)
    line = f"{kind} [signed-by={KEY}] {uri} {release} main\n"
    (folder / "parts" / f"{release}.list").write_text(line, encoding="ascii")
    settings = [f"Dir::Etc::SourceParts={folder}/parts", "Dir::Etc::SourceList=/dev/null", f"Dir::Cache={folder}/cache",
                f"Dir::State::Lists={folder}/lists", "APT::Sandbox::User=root", "APT::Update::Error-Mode=any",
                "Acquire::http::Timeout=20"]
    words = ["apt-get", "--quiet", *(word for setting in settings for word in ("-o", setting))]
    # What is asked for next reads all packages of the lists anyway: here that would take a second more.
    subprocess.run([*words, "-o", "pkgCacheFile::Generate=false", "update"], check=True, stdout=subprocess.DEVNULL)
    return words


def download(folder, release, packages):
    """Gets packages of a release, and unpacks them into a folder."""
    with tempfile.TemporaryDirectory(dir=folder) as kept:
        words = apt_get(Path(kept) / "apt", release)
        subprocess.run([*words, "download", *packages], check=True, stdout=subprocess.DEVNULL, cwd=kept)
        for package in Path(kept).glob("*.deb"):
            subprocess.run(["dpkg-deb", "--extract", package, folder], check=True)
    replace_links(folder)


def replace_links(folder):
    """Puts the file that a link leads to in the link's place, and drops a link that leads to no file of the folder: `rt ci`
    takes no link below the repository."""
    links = {path: path.resolve() for path in folder.rglob("*") if path.is_symlink()}
    for link, target in links.items():
        link.unlink()
        if target.is_file() and folder.resolve() in target.parents:
            shutil.copy(target, link)


def download_sources(folder, release, packages):
    """Gets the archives of source packages into a folder. They stay as they are: no patch is applied."""
    subprocess.run([*apt_get(folder / "apt", release, "deb-src"), "source", "--download-only", *packages], check=True,
                   stdout=subprocess.DEVNULL, stderr=subprocess.DEVNULL, cwd=folder)
    shutil.rmtree(folder / "apt")
