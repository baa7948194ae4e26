# SPDX-License-Identifier: Apache-2.0 OR BSD-3-Clause
"""Xen's driver of a 16550, as it is in Debian's source, around a serial port in a monitor."""
from guest import Driver
from sources import HERE, sources

HARNESS = HERE / "xen"
# Headers of Xen, in whose place xen.h stands. Its own serial.h and 8250-uart.h stay.
HEADERS = """asm/fixmap asm/io xen/cache xen/console xen/delay xen/init xen/iocap xen/irq xen/mm xen/param xen/sched
xen/spinlock xen/timer xen/vmap""".split()
OPTIONS = ["-DCONFIG_X86", "-DCONFIG_HAS_IOPORTS"]
PROOF = ["--unwind", "5", "--unwindset", "interrupt.0:3,ns16550_interrupt.0:3,__serial_putc.0:1,__serial_putc.1:1,"
         "__serial_putc.2:1,serial_start_sync.0:1,serial_start_sync.1:1,serial_tx_interrupt.0:4,serial_tx_interrupt.1:1"]

# Beside each entry of prove.c: what it is about. Each is proved for edges and for levels.
ENTRIES = {
    "relation": "while the port is opened, what the host may do has a turn",
    "relation_twice": "and two in turn",
    "quiet": "if all is quiet, no byte waits",
    "open": "the port is found and opened",
    "resume": "the machine wakes, and the port has kept what it held",
    "host": "a turn of the event loop",
    "turns": "which interrupts the guest for bytes that are held",
    "begins": "the handler begins",
    "interrupt_runs": "the handler, with any number of passes",
    "poll": "the timer polls, until an interrupt has come",
    "debugger": "the debugger's stub reads a byte",
    "act_puts": "Xen prints a message",
    "act_putc": "Xen prints a byte",
    "act_start_sync": "output is made synchronous",
    "act_end_sync": "and is no more",
    "act_log_all": "no output may be dropped",
    "act_log_some": "and again it may",
}


def write(folder):
    """Writes the driver into a folder, with stand-ins for Xen's headers. In driver.c is Xen's own text."""
    xen = sources("xen") / "xen"
    for header in HEADERS:
        path = folder / "include" / f"{header}.h"
        path.parent.mkdir(parents=True, exist_ok=True)
        path.write_text("#include <xen.h>\n", encoding="ascii")
    (folder / "driver.c").write_text("".join(f'#include "{xen}/drivers/char/{file}.c"\n' for file in ("serial", "ns16550")),
                                     encoding="utf-8")
    return Driver(folder, HARNESS, [f"-I{xen}/include", *OPTIONS], PROOF)
