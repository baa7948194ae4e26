# SPDX-License-Identifier: Apache-2.0 OR BSD-3-Clause
"""How the monitor of examples/kvm is built: as it is; over host.c, a host that is a script in place of KVM; and, to
boot Linux, without shared libraries and with timeout.c. Its port is the C library's or, by serial, the Rust crate's."""
import re
import shutil
from pathlib import Path

from harness import ROOT, check

HERE = Path(__file__).parent
# The functions of the system that host.c has in place of others, which the linker puts there.
WRAPPED = sorted({*re.findall(r"\b__wrap_(\w+)", (HERE / "host.c").read_text(encoding="utf-8"))})
COMPILERS = {"kvm": ["cc"], "host": ["cc", "-I.", "-fsanitize=address,undefined",
                                     *(f"-Wl,--wrap={name}" for name in WRAPPED), HERE / "host.c"],
             "linux": ["cc", "-static", "-Wl,--wrap=superio_console_read,--wrap=superio_console_turn",
                       HERE / "timeout.c"]}


def build_monitor(kind, folder, port="serial.c"):
    """Builds the monitor in a copy of its folder, without a word of the compiler, except that the linker warns of what
    Rust's library has of glibc's."""
    shutil.copytree(ROOT / "examples" / "kvm", folder, ignore=shutil.ignore_patterns("monitor"), dirs_exist_ok=True)
    compiler = " ".join(map(str, COMPILERS[kind]))
    words = ["make", "-s", "-C", folder, f"ROOT={ROOT}", f"CC={compiler}", f"SERIAL={port}"]
    check(words, None if kind == "linux" else "")


def rust_port(folder):
    """Builds the library of serial, which takes the place of serial.c."""
    check(["cargo", "build", "--release", "--quiet", "--offline", "--manifest-path", HERE / "serial" / "Cargo.toml",
           "--target-dir", folder], "")
    return folder / "release" / "libkvm_serial.a"
