/* SPDX-License-Identifier: Apache-2.0 OR BSD-3-Clause */
/* In the place of the calls of a console that make the character timeout: a guest that wants two stop bits gets none,
 * as in serial/src/lib.rs. When such a guest leaves bytes and reads that nothing is pending, this says how many have
 * come since it wanted two stop bits, those that wait among them: it is a stall if no more come. The linker gives the
 * monitor's calls to this file, by its option --wrap. */
#include <stdio.h>
#include <superio.h>
#include <unistd.h>

enum { IIR = 2, NONE_PENDING = 0x01, TWO_STOP_BITS = 0x04 };

static size_t taken; /* so many bytes the guest has read */

superio_console_read_effects __real_superio_console_read(superio_console *console, uint8_t offset);
superio_console_read_effects __wrap_superio_console_read(superio_console *console, uint8_t offset);
superio_console_work __real_superio_console_turn(superio_console *console);
superio_console_work __wrap_superio_console_turn(superio_console *console);

superio_console_read_effects __wrap_superio_console_read(superio_console *console, uint8_t offset) {
    size_t held = console->port.len;
    if (!(console->port.line_control & TWO_STOP_BITS)) {
        taken = 0;
        return __real_superio_console_read(console, offset);
    }
    if (offset != IIR) {
        superio_console_read_effects done = __real_superio_console_read(console, offset);
        taken += held - console->port.len;
        return done;
    }
    uint8_t byte = superio_serial_read(&console->port, IIR).byte;
    if (held > 0 && byte & NONE_PENDING)
        dprintf(STDERR_FILENO, "%zu  -\n", taken + held);
    return (superio_console_read_effects){.byte = byte};
}

superio_console_work __wrap_superio_console_turn(superio_console *console) {
    if (!(console->port.line_control & TWO_STOP_BITS))
        return __real_superio_console_turn(console);
    return (superio_console_work){.interrupts = 0};
}
