# SPDX-License-Identifier: Apache-2.0 OR BSD-3-Clause
"""What follows from the header: the binary interface in superio.abi, Debian's table of functions, and the header's copy
beside the sources for Cargo.

Nothing is written if something of superio.abi is gone while SUPERIO_ABI is the same: a program that was compiled before
would go wrong. Then give a new number in interface.toml, and tell in CHANGELOG.md what changed. If no release had the
number, remove superio.abi before.
"""
import re
import shutil
import sys

from common.commands import ROOT
from generators.header import layout, read_header
from generators.libraries import HEADER, INTERFACE, SHARED

VERSION, ABI = (ROOT / "VERSION").read_text(encoding="ascii").strip(), SHARED.rpartition(".")[2]
# Debian's table of the functions of the shared library.
SYMBOLS = ROOT / "debian" / f"libsuperio{ABI}.symbols"


def interface():
    """The lines of the binary interface: what a program has compiled into it when it includes the header. The first has
    the number."""
    header = read_header()
    lines = [f"constant {name} {value}" for name, value in header.constants.items()
             if not name.startswith(("SUPERIO_VERSION", "SUPERIO_ABI"))]
    for name, function in header.functions.items():
        types = [f"{parameter.kind} [{parameter.length}]" if parameter.length else parameter.kind
                 for parameter in function.parameters]
        lines.append(f"function {function.returned} {name}({', '.join(types) or 'void'})")
    for struct, fields in header.structs.items():
        places, whole, _ = layout(header, struct)
        lines.append(f"struct {struct} size {whole}")
        lines += [f"field {struct}.{name} {kind} at {start} size {size}"
                  for (kind, name, _), (start, size) in zip(fields, places)]
    return [f"abi {header.constants['SUPERIO_ABI']}", *sorted(lines)]


def debian_symbols():
    """Debian's table of the functions: each with the version from which on the package of this number has it."""
    old = SYMBOLS.read_text(encoding="ascii") if SYMBOLS.exists() else ""
    kept = dict(re.findall(r"^ (\w+)@Base (\S+)$", old, re.M))
    lines = [f" {name}@Base {kept.get(name, VERSION)}" for name in sorted(read_header().functions)]
    return "\n".join([f"{SHARED} {SYMBOLS.stem} #MINVER#", "* Build-Depends-Package: libsuperio-dev", *lines, ""])


def kept():
    """The lines of superio.abi."""
    return INTERFACE.read_text(encoding="ascii").splitlines() if INTERFACE.exists() else [""]


def lost():
    """What of superio.abi is gone, although the number is the same: a program that was compiled before would go
    wrong."""
    old, now = kept(), interface()
    return sorted({*old} - {*now}) if old[0] == now[0] else []


def write():
    """Writes superio.abi, Debian's table and the header's copy."""
    INTERFACE.write_text("\n".join(interface()) + "\n", encoding="ascii")
    SYMBOLS.write_text(debian_symbols(), encoding="ascii")
    for other in {*SYMBOLS.parent.glob("libsuperio*.symbols")} - {SYMBOLS}:
        other.unlink()
    shutil.copy(HEADER, HEADER.parent / "from-source")


def main():
    if gone := lost():
        sys.exit("\n".join([f"the binary interface changed, so SUPERIO_ABI may not stay that of '{kept()[0]}'", *gone]))
    write()


if __name__ == "__main__":
    main()
