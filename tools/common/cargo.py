# SPDX-License-Identifier: Apache-2.0 OR BSD-3-Clause
"""Cargo without a network, in copies of the crates of rust/vm-superio and rust/superio and for programs over them."""
import os
import re
import shutil
from pathlib import Path

from common.commands import ROOT, run

# The drop-in for vm-superio, and the devices without I/O, which it uses.
DROP_IN, DEVICES = ROOT / "rust" / "vm-superio", ROOT / "rust" / "superio"
# Debian's compiler. Another one may come first in PATH.
DEBIAN_RUSTC = Path("/usr/bin/rustc")
# Most crates are built once, and none is debugged. Without debug information of Rust's own library, linking takes a
# second less.
SETTINGS = {"CARGO_INCREMENTAL": "0", "CARGO_PROFILE_DEV_DEBUG": "0", "CARGO_PROFILE_DEV_STRIP": "debuginfo",
            "RUSTDOCFLAGS": "-C strip=debuginfo", "CARGO_NET_OFFLINE": "true"}


def add_crate(folder, code, rest="[features]\nderive = []\n"):
    """Makes a crate. Its folder has its name, and may have its version. A crate without code stands in for an optional
    dependency: Cargo has to find the dependency even if it leaves it out."""
    name, _, version = folder.name.partition("-")
    head = f'[package]\nname = "{name}"\nversion = "{version or "0.1.0"}"\nedition = "2021"\n'
    (folder / "src").mkdir(parents=True, exist_ok=True)
    (folder / "src" / "lib.rs").write_text(code or "", encoding="utf-8")
    (folder / "Cargo.toml").write_text(head + rest, encoding="utf-8")


class Cargo:
    """Runs Cargo offline in the folder of a crate. It takes other crates from a registry or, without one, finds only an
    empty serde. The settings that say so are written into the folder, or into `settings`, a folder above it."""

    def __init__(self, folder, toolchain=None, registry=None, settings=None):
        self.folder, self.cargo = folder, toolchain.cargo if toolchain else "cargo"
        self.environment = {**(toolchain.environment() if toolchain else os.environ), **SETTINGS,
                            "CARGO_TARGET_DIR": str(folder / "target")}
        place = (settings or folder) / ".cargo"
        stand_in = place / "serde-1.0.0"
        add_crate(stand_in, None)
        (place / "config.toml").write_text(
            f'source.crates-io.replace-with = "registry"\nsource.registry.directory = "{registry}"\n' if registry else
            f'patch.crates-io.serde.path = "{stand_in}"\n', encoding="utf-8")

    def run(self, *words, **environment):
        """Runs a command, and gives its status and all that it printed."""
        return run([self.cargo, *words], cwd=self.folder, env={**self.environment, **environment})

    def check(self, *words, **environment):
        """Asserts that a command succeeds. Returns what it printed."""
        ran = self.run(*words, **environment)
        assert ran.returncode == 0, f"cargo {' '.join(words)}:\n{ran.stdout}"
        return ran.stdout

    def test(self, *words, **environment):
        """Asserts that tests pass, all of them. Returns their number."""
        said = self.check("test", *words, **environment)
        assert not re.search(r"; [1-9]\d* ignored", said), said
        return sum(map(int, re.findall(r"^test result: ok\. (\d+) passed", said, flags=re.M)))


def copied_crate(folder, toolchain=None, crate=DROP_IN):
    """Cargo in a copy of a crate, with a copy of the crate of the devices without I/O beside it. In the repository
    itself, Cargo would leave a Cargo.lock with the empty serde, which is wrong for whoever has another serde."""
    for path in {crate, DEVICES}:
        shutil.copytree(path, folder / path.name, ignore=shutil.ignore_patterns("target", "Cargo.lock"),
                        dirs_exist_ok=True)
    return Cargo(folder / crate.name, toolchain)
