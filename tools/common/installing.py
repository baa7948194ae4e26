# SPDX-License-Identifier: Apache-2.0 OR BSD-3-Clause
"""What tools/check and tools/recheck do first: on Debian 12 they install what they need, and each finds what was."""
import os
import subprocess
import sys
from pathlib import Path

from common.commands import ROOT
from common.requirements import advice, is_there, packages

SYSTEM = Path("/etc/os-release")
# What tools/install-packages writes for another user than root: paths, and the names of what it has unpacked.
ENVIRONMENT, UNPACKED = (ROOT / "out" / "packages" / name for name in ("environment", "unpacked"))


def is_debian_12():
    return SYSTEM.is_file() and {"ID=debian", 'VERSION_ID="12"'} <= {*SYSTEM.read_text(encoding="utf-8").splitlines()}


def take_paths():
    """Has this process, and what it starts, find what was installed for another user than root."""
    if ENVIRONMENT.is_file():
        words = ["bash", "-c", '. "$0" && env -0', ENVIRONMENT]
        said = subprocess.run(words, stdout=subprocess.PIPE, check=True).stdout
        os.environ.update(variable.split("=", 1) for variable in os.fsdecode(said).split("\0") if "=" in variable)
    is_there.cache_clear()


def prepare(tools, may_install):
    """Installs what is missing of some tools, and says so in a line. Ends this program if that fails, or if this is
    another system than Debian 12. Whatever is then still missing, or may not be installed, is named by the part that
    needs it."""
    take_paths()
    unpacked = UNPACKED.read_text(encoding="utf-8").split() if UNPACKED.is_file() else ()
    lacking = [package for package in packages(tools) if package not in unpacked]   # even if nothing finds it there
    if not lacking or not may_install:
        return
    if not is_debian_12():
        named = dict.fromkeys(line for tool in tools if tool != "kit" for line in advice(tool))   # each once
        sys.exit("\n".join([*named, "Nothing is installed on another system than Debian 12: install these, or go on "
                                    "with --no-install"]))
    print(f"Installs what this machine lacks of Debian 12: {' '.join(lacking)}", flush=True)
    ran = subprocess.run([ROOT / "tools" / "install-packages", *lacking])
    if ran.returncode:
        sys.exit(f"tools/install-packages ended with status {ran.returncode}, so nothing was tried")
    take_paths()
