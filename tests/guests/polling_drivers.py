# SPDX-License-Identifier: Apache-2.0 OR BSD-3-Clause
"""Drivers that poll, as they are in Debian's sources, around a serial port in a monitor: what is compiled of each."""
from typing import NamedTuple

from guest import Driver
from sources import HERE, extract, is_recorded, sources

HARNESS = HERE / "polling"


class Polling(NamedTuple):
    """A driver: its source, its file, the headers in whose place that of the source's name stands, where its other headers
    are, functions of further files, and options of the compiler."""
    source: str
    file: str
    headers: str
    includes: tuple
    functions: tuple = ()
    options: tuple = ()
    keeps_all: bool = True  # it never throws a byte away


# Of EDK II, whose wide characters have two bytes.
EDK2 = ("MdePkg/Include", "MdePkg/Include/X64", "MdeModulePkg/Include"), (), ("-fshort-wchar",)
DRIVERS = {
    "uboot": Polling("uboot", "drivers/serial/ns16550.c", """asm/global_data asm/io clk clock_legacy common dm errno
                     linux/err linux/types log post reset watchdog""", ("include",),
                     (("drivers/serial/serial-uclass.c", ("_serial_putc", "__serial_getc", "__serial_tstc")),)),
    "seabios": Polling("seabios", "src/serial.c", "biosvar output romfile stacks util x86", ("src",)),
    "sercon": Polling("seabios", "src/sercon.c", "biosvar cp437 output romfile stacks string util x86", ("src",),
                      keeps_all=False),
    "grub": Polling("grub", "grub-core/term/ns8250.c", """grub/cpu/io grub/dl grub/i18n grub/list grub/machine/memory
                    grub/misc grub/mm grub/term grub/time grub/types grub/usb""", ("include",), keeps_all=False),
    "edk2": Polling("edk2", "MdeModulePkg/Library/BaseSerialPortLib16550/BaseSerialPortLib16550.c",
                    "Library/BaseLib Library/IoLib Library/PcdLib Library/PciLib Library/PlatformHookLib", *EDK2),
    "ovmf": Polling("edk2", "MdeModulePkg/Bus/Pci/PciSioSerialDxe/SerialIo.c", "", *EDK2, keeps_all=False),
}
SOURCES = sorted({driver.source for driver in DRIVERS.values()})


def are_recorded():
    return all(map(is_recorded, SOURCES))


def write(name, folder):
    """Writes a driver into a folder, with stand-ins for headers. In driver.c is its own text."""
    driver = DRIVERS[name]
    source = sources(driver.source)
    for header in driver.headers.split():
        path = folder / "include" / f"{header}.h"
        path.parent.mkdir(parents=True, exist_ok=True)
        path.write_text(f"#include <{driver.source}.h>\n", encoding="ascii")
    more = "\n".join(extract(source / file, names) for file, names in driver.functions)
    (folder / "driver.c").write_text(f'#include "{source / driver.file}"\n{more}', encoding="utf-8")
    words = [*(f"-I{source / path}" for path in driver.includes), *driver.options, *["-DKEEPS_ALL"] * driver.keeps_all]
    return Driver(folder, HARNESS, words, [], (HARNESS / f"{name}.c",))
