# SPDX-License-Identifier: Apache-2.0 OR BSD-3-Clause
"""Which of the installed toolchains of Rust can build for a target."""
import os
import shutil
import subprocess
from pathlib import Path
from typing import NamedTuple

from common.cargo import DEBIAN_RUSTC


class Toolchain(NamedTuple):
    """The compiler of a toolchain, the Cargo beside it, and its version."""
    rustc: str
    cargo: str
    version: str

    def environment(self, **more):
        return {**os.environ, "RUSTC": self.rustc, "RUSTDOC": str(Path(self.rustc).with_name("rustdoc")), **more}


def toolchains():
    """The toolchains, the one of PATH first."""
    for rustc in dict.fromkeys((shutil.which("rustc"), str(DEBIAN_RUSTC))):
        cargo = Path(rustc or "nowhere").with_name("cargo")
        if cargo.is_file():
            said = subprocess.run([rustc, "--version"], capture_output=True, text=True)
            if said.returncode == 0:   # rustup's without a default toolchain has no version
                yield Toolchain(rustc, str(cargo), said.stdout.split()[1])


def toolchain_for(target):
    """The first toolchain that has the libraries of a target, or `None`."""
    for found in toolchains():
        words = [found.rustc, "--print", "target-libdir", "--target", target]
        if Path(subprocess.run(words, capture_output=True, text=True).stdout.strip() or "none").is_dir():
            return found
    return None
