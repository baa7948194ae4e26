# SPDX-License-Identifier: Apache-2.0 OR BSD-3-Clause
"""What stands around the text that is translated: that Cargo compiles it and nothing else."""
import tomllib
from pathlib import Path
from typing import Any

from parse_items import Parser
from rust_tokens import Refused

# What the manifest of each crate may say, by the names on the way to it: a dict is read on, and ANY is any value.
ANY = None
PACKAGE: dict[str, Any] = {"edition": "2021"} | dict.fromkeys(
    ("name", "version", "rust-version", "description", "license", "readme", "keywords", "categories", "include",
     "publish", "repository", "documentation"), ANY)
SUPERIO: dict[str, Any] = {"version": ANY, "path": "../superio"}
MANIFESTS: dict[str, Any] = {
    "rust/superio": {"package": PACKAGE, "features": {"std": []}},
    "rust/vm-superio": {
        "package": PACKAGE, "lib": {"name": "vm_superio"}, "features": {"serde": ["dep:serde"]},
        "dependencies": {"serde": {"version": "1", "features": ["derive"], "optional": True},
                         "superio": SUPERIO | {"features": ["std"]}}},
    "bindings/c/from-source": {
        "package": PACKAGE, "lib": {"name": "superio_c", "crate-type": ["staticlib", "cdylib"], "test": False},
        "dependencies": {"superio": SUPERIO | {"path": "../../../rust/superio"}}, "workspace": {},
        "profile": {"dev": {"panic": "abort"},
                    "release": {"panic": "abort", "lto": True, "codegen-units": 1, "opt-level": 2}}},
}
# What Cargo and rustup read in a folder, for all that is built below it.
SETTINGS = ("Cargo.toml", ".cargo", "rust-toolchain", "rust-toolchain.toml")
# The one build script, which only names the shared library.
BUILD_SCRIPT = "bindings/c/from-source/build.rs"


def check_manifests(root: Path, build_script: Any) -> None:
    """That Cargo compiles src/lib.rs of each crate as it stands, with the crate superio of this repository."""
    for folder, expected in MANIFESTS.items():
        with (root / folder / "Cargo.toml").open("rb") as file:
            compare(f"{folder}/Cargo.toml", tomllib.load(file), expected)
        for extra in ("build.rs", "src/main.rs", "src/bin"):
            if (root / folder / extra).exists() and f"{folder}/{extra}" != BUILD_SCRIPT:
                raise Refused(f"{folder}/{extra}")
        for setting in SETTINGS[1:]:
            if (root / folder / setting).exists():
                raise Refused(f"{folder}/{setting}")
    for above in (root, root / "rust", root / "bindings", root / "bindings/c"):
        if any((above / setting).exists() for setting in SETTINGS):
            raise Refused(f"{above} has settings of Cargo")
    Parser((root / BUILD_SCRIPT).read_text("utf-8"), BUILD_SCRIPT, build_script).file_items()


def compare(where: str, found: Any, expected: Any) -> None:
    if expected is ANY:
        return
    if not isinstance(expected, dict) or not isinstance(found, dict):
        if found != expected:
            raise Refused(f"{where}: {found}")
        return
    for name, value in found.items():
        if name not in expected:
            raise Refused(f"{where}: {name}")
        compare(f"{where}: {name}", value, expected[name])
    for name in expected:
        if name not in found and (name not in PACKAGE or name == "edition"):
            raise Refused(f"{where}: no {name}")
