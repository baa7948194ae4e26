# SPDX-License-Identifier: Apache-2.0 OR BSD-3-Clause
"""CBMC 6, a verifier of C: the one of this machine or, since Debian 12 has an older one, Debian 13's, unpacked into
~/.cache/fimolavand/guests/cbmc."""
import shutil
import subprocess
from pathlib import Path

from debian import download, make_whole
from sources import KEPT

RELEASE, PACKAGES = "trixie", ["cbmc", "libc6", "libstdc++6", "libgcc-s1", "minisat", "zlib1g"]
FOLDER = KEPT / "cbmc"
LOADER = "usr/lib64/ld-linux-x86-64.so.2"


def installed():
    """The words of a command that runs a CBMC of this machine, or none."""
    if (FOLDER / LOADER).exists():
        return [FOLDER / LOADER, "--library-path", f"{FOLDER}/usr/lib/x86_64-linux-gnu:{FOLDER}/usr/lib",
                FOLDER / "usr/bin/cbmc"]
    command = shutil.which("cbmc")
    said = subprocess.run([command, "--version"], stdout=subprocess.PIPE, text=True).stdout if command else ""
    return [command] if said and int(said.split(".")[0]) >= 6 else []


def fetched():
    """The same; it is fetched if it is not there."""
    if not installed():
        make_whole(FOLDER, lambda folder: download(folder, RELEASE, PACKAGES))
    return installed()


def compiler_of(command):
    """The words of a command that runs CBMC's compiler of C, which stands beside it."""
    return [*command[:-1], Path(command[-1]).with_name("goto-cc")]


def version(command):
    return subprocess.run([*command, "--version"], stdout=subprocess.PIPE, text=True, check=True).stdout.split()[0]
