# SPDX-License-Identifier: Apache-2.0 OR BSD-3-Clause
"""What tests need of a machine, and the packages of Debian 12 that have it. As a program it prints those of what is
missing, except the kit, which is no package; one of another architecture ends with its name."""
import os
import shutil
import subprocess
from functools import lru_cache
from glob import glob

# Beside each name that a test may need: commands, files, or imports of Debian's Python, each with its package.
TOOLS = {
    "kit": {"rt": "the Rattle kit, which is no package"},
    "pytest": {"import pytest, xdist, hypothesis": "python3-pytest python3-pytest-xdist python3-hypothesis"},
    "cc": {"cc": "gcc", "gcc": "gcc", "/usr/include/stdio.h": "libc6-dev"},
    "c++": {"g++": "g++"},
    "clang": {"clang": "clang", "clang++": "clang"},
    "make": {"make": "make"},
    "qemu": {"qemu-system-x86_64": "qemu-system-x86", "apt-get": "apt"},
    "git": {"git": "git"},
    "linux-source": {"/usr/src/linux-source-6.1.tar.xz": "linux-source-6.1"},
    "valgrind": {"valgrind": "valgrind"},
    "mutants": {"bwrap": "bubblewrap", "import coverage": "python3-coverage", "gcov": "gcc"},
    "cargo": {"cargo": "cargo", "rustc": "rustc", "cc": "gcc"},
    "clippy": {"cargo-clippy": "rust-clippy"},
    "rustfmt": {"cargo-fmt": "rustfmt"},
    "libc": {"/usr/share/cargo/registry/libc-0.2.*": "librust-libc-dev"},
    "serde": {"/usr/share/cargo/registry/bincode-1.*": "librust-bincode-dev",
              "/usr/share/cargo/registry/serde_derive-1.*": "librust-serde-derive-dev",
              "/usr/share/cargo/registry/serde_json-1.*": "librust-serde-json-dev"},
    "coq": {"coqc": "coq"},
    "mypy": {"import mypy": "mypy"},
    "node": {"node": "nodejs"},
    "npm": {"npm": "npm", "node": "nodejs"},
    "tsc": {"tsc": "node-typescript", "node": "nodejs"},
    "wasm": {"/usr/bin/rustc": "rustc", "/usr/lib/rustlib/wasm32-unknown-unknown": "libstd-rust-dev-wasm32",
             "wasm-ld": "lld"},
    "chromium": {"chromium": "chromium"},
    "pip": {"import pip": "python3-pip", "import setuptools.build_meta": "python3-setuptools",
            "import wheel": "python3-wheel", "import venv, ensurepip": "python3-venv"},
    "twine": {"twine": "twine"},
    "reuse": {"reuse": "reuse"},
    "pkg-config": {"pkg-config": "pkg-config"},
    "cmake": {"cmake": "cmake"},
    "meson": {"meson": "meson", "ninja": "ninja-build"},
    "debian-rust": {"/usr/bin/cargo": "cargo", "/usr/bin/rustc": "rustc"},
    "debian": {"dpkg-buildpackage": "dpkg-dev", "dh": "debhelper", "lintian": "lintian", "mk-origtargz": "devscripts"},
    # Other processors: a compiler and its C library, an emulator, and the library of Debian's Rust.
    "x86_64": {"x86_64-linux-gnu-gcc": "gcc-x86-64-linux-gnu", "qemu-x86_64": "qemu-user"},
    "aarch64": {"aarch64-linux-gnu-gcc": "gcc-aarch64-linux-gnu", "qemu-aarch64": "qemu-user",
                "/usr/aarch64-linux-gnu/lib/libc.a": "libc6-dev-arm64-cross"},
    "s390x": {"s390x-linux-gnu-gcc": "gcc-s390x-linux-gnu", "qemu-s390x": "qemu-user",
              "/usr/s390x-linux-gnu/lib/libc.a": "libc6-dev-s390x-cross", "/usr/bin/rustc": "rustc",
              "/usr/lib/rustlib/s390x-unknown-linux-gnu/lib/libcore-*": "libstd-rust-dev:s390x"},
    "arm": {"arm-linux-gnueabihf-gcc": "gcc-arm-linux-gnueabihf", "qemu-arm": "qemu-user",
            "/usr/arm-linux-gnueabihf/lib/libc.a": "libc6-dev-armhf-cross", "/usr/bin/rustc": "rustc",
            "/usr/lib/rustlib/armv7-unknown-linux-gnueabihf/lib/libcore-*": "libstd-rust-dev:armhf"},
}


@lru_cache(maxsize=None)
def is_there(what):
    """Whether a command, a file, a variable of the environment, or what a line of Python imports is there."""
    if what.startswith("import "):
        return has_modules("/usr/bin/python3", what)
    if what.startswith("$"):
        return what[1:] in os.environ
    return bool(glob(what)) if what.startswith("/") else shutil.which(what) is not None


def has_modules(python, line):
    """Whether a Python is there, and runs a line of imports."""
    return shutil.which(python) is not None and not subprocess.run([python, "-c", line], capture_output=True).returncode


def missing(tool):
    """What of a tool is missing, with its package."""
    return {what: package for what, package in TOOLS[tool].items() if not is_there(what)}


def advice(tool, more=""):
    """What to do about all that is missing of a tool, a line for each."""
    return [f"{what} is missing: install {package}{more}" for what, package in missing(tool).items()]


def packages(tools):
    """The packages of what is missing of some tools."""
    return sorted({package for tool in tools if tool != "kit"
                   for words in missing(tool).values() for package in words.split()})


if __name__ == "__main__":
    print(*packages(TOOLS))
