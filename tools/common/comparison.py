# SPDX-License-Identifier: Apache-2.0 OR BSD-3-Clause
"""The programs of tests/compare, over rust/vm-superio or over vm-superio 0.8.2."""
import os
from pathlib import Path

from common.cargo import DROP_IN, Cargo, add_crate
from common.commands import ROOT, run

COMPARISON = ROOT / "tests" / "compare"
# The folder of vm-superio 0.8.2.
ORIGINAL = Path(os.environ["VM_SUPERIO"]).resolve() if "VM_SUPERIO" in os.environ else None
# A program over rust/vm-superio or, without the feature `further`, over a vm-superio, which it takes by the line of the
# README. It needs no default feature of it.
PROGRAM = """
[lib]
name = "objects"
path = "{1}/objects.rs"
[[bin]]
name = "{0}"
path = "{1}/{0}.rs"
[features]
further = []
[dependencies]
superio = {{ package = "vm-superio", version = "0.8.2", default-features = false }}
[patch.crates-io]
vm-superio = {{ path = "{2}" }}
[profile.release]
codegen-units = 1
overflow-checks = true
"""


class Comparison(Cargo):
    """A program of tests/compare, over rust/vm-superio or over a vm-superio, with some features of its own."""

    def __init__(self, folder, crate=None, name="compare", features=()):
        add_crate(folder, None, PROGRAM.format(name, COMPARISON, crate or DROP_IN))
        super().__init__(folder)
        self.features = ["--features", ",".join([*features, *([] if crate else ["further"])])]
        self.program = folder / "target" / "release" / name

    def build(self, **environment):
        """Returns what Cargo ended with."""
        return self.run("build", "--release", "--quiet", *self.features, **environment)

    def make(self, calls):
        """Makes calls. Returns each with what it did and, if the program failed, its status."""
        ran = run([self.program], input="\n".join(calls), stderr=None)  # to which panics of vm-superio write
        return ran.stdout.splitlines() + [f"status {ran.returncode}"] * (ran.returncode != 0)
