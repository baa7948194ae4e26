# SPDX-License-Identifier: Apache-2.0 OR BSD-3-Clause
"""Linux's 8250 driver, as it is in Debian's source, around a serial port in a monitor: what is compiled of both."""
from guest import Driver
from sources import HERE, extract, sources

HARNESS = HERE / "linux"
# What the driver needs beside 8250_port.c, by its file.
FUNCTIONS = {
    "serial_core.c": ["uart_port_ref", "uart_port_deref", "uart_port_lock", "uart_port_unlock", "uart_write_wakeup",
                      "uart_stop", "__uart_start", "uart_start", "uart_write", "uart_xchar_out", "uart_send_xchar",
                      "uart_handle_cts_change", "uart_insert_char", "uart_console_write", "uart_update_timeout"],
    "8250/8250_core.c": ["PASS_LIMIT", "irq_info", "serial8250_interrupt", "serial8250_backup_timeout"]}
# Headers of the kernel, in whose place kernel.h stands.
HEADERS = """asm/io asm/irq linux/bitops linux/bits linux/compiler linux/console linux/const linux/delay linux/device
linux/dmaengine linux/err linux/gpio/consumer linux/init linux/interrupt linux/ioport linux/irq linux/ktime linux/module
linux/moduleparam linux/mutex linux/nmi linux/platform_device linux/pm_runtime linux/ratelimit linux/sched linux/slab
linux/spinlock linux/sysrq linux/tty linux/tty_flip linux/types linux/uaccess linux/lockdep linux/printk asm/page""".split()
# What later or earlier versions have in place of these functions, and beside them.
OTHER_NAMES = {"linux-6.12": {"uart_port_lock": "uart_port_ref_lock", "uart_port_unlock": "uart_port_unlock_deref"}}
OPTIONS = ["-DCONFIG_SERIAL_CORE_CONSOLE", "-DCONFIG_SERIAL_8250_CONSOLE", "-DCONFIG_MAGIC_SYSRQ_SERIAL",
           "-DCONFIG_SERIAL_8250_NR_UARTS=32"]
VERSIONS = {"linux": [], "linux-5.10": ["-DLINUX_5_10"], "linux-6.12": ["-DLINUX_6_12"]}
PROOF = ["--unwind", "5", "--unwindset", "interrupt.0:3,serial8250_tx_chars.0:65,serial8250_rx_chars.0:9,"
         "serial8250_interrupt.0:5,wait_for_lsr.0:1,fifo_wait_for_lsr.0:1,serial8250_console_fifo_write.1:2"]


def write(folder, name="linux"):
    """Writes the driver into a folder, with stand-ins for the kernel's headers. In driver.c is Linux's own text. Of
    driver_cut.c, for proofs alone, three places differ: in a pass of the handler at most CUT bytes are received; a proof
    may put RX_CHARS in the place of the loop that receives them; and after which pass an interrupt ends, LAST_PASS says."""
    serial = sources(name) / "drivers/tty/serial"
    for header in HEADERS:
        path = folder / "include" / f"{header}.h"
        path.parent.mkdir(parents=True, exist_ok=True)
        path.write_text("#include <kernel.h>\n", encoding="ascii")
    other = OTHER_NAMES.get(name, {})
    core = "\n".join(extract(serial / file, [other.get(function, function) for function in names])
                     for file, names in FUNCTIONS.items())
    port = serial / "8250/8250_port.c"
    (folder / "driver.c").write_text(f'#include "{port}"\n#undef min\n#undef max\n{core}', encoding="utf-8")
    text = port.read_text(encoding="utf-8")
    for old, new in [("int max_count = 256;", "int max_count = CUT;"), ('"8250.h"', f'"{port.parent}/8250.h"'),
                     ("status = serial8250_rx_chars(up, status);", "status = RX_CHARS(up, status);")]:
        assert text.count(old) == 1, old
        text = text.replace(old, new)
    limit = "pass_counter++ > PASS_LIMIT"
    assert core.count(limit) == 1
    core = core.replace(limit, f"LAST_PASS({limit})")
    (folder / "driver_cut.c").write_text(f"{text}\n#undef min\n#undef max\n{core}", encoding="utf-8")
    include = sources(name) / "include"
    return Driver(folder, HARNESS, [f"-I{include}", f"-I{include}/uapi", *OPTIONS, *VERSIONS[name]], PROOF)


# Beside each entry of prove.c: what it is about. Each is proved for edges and for levels.
ENTRIES = {
    "relation": "what others may do has a turn of the event loop, and each step of the handler before it has the lock",
    "relation_twice": "and it has two steps in turn if it has both",
    "quiet": "if all is quiet, no byte waits",
    "open": "the port is opened",
    "host": "a turn of the event loop",
    "turns": "which interrupts the guest for bytes that are held",
    "begins": "the handler begins, and reads IIR",
    "receives": "in a pass of the handler: it receives a byte",
    "looks": "in a pass of the handler: it looks at LSR",
    "pass": "a pass of the handler, with any number of bytes",
    "act_write": "a program writes",
    "act_stopped": "flow control stops the terminal",
    "act_stop": "and then the port",
    "act_started": "flow control lets the terminal go on",
    "act_start": "and then the port",
    "act_xchar": "XON is sent",
    "act_console": "the kernel prints a message",
    "act_termios": "the terminal's settings change",
    "act_flush": "a program asks to send what waits",
    "act_timer": "the driver's timer for ports that lose interrupts",
}
