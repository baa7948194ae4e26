/* SPDX-License-Identifier: Apache-2.0 OR BSD-3-Clause */
/* The serial port and its console. IRQ 4 of a PC is edge-triggered, so each interrupt that the console asks for is a
 * pulse. */
#include "monitor.h"

static superio_console console;

/* Does what a call of the console left to do. Returns whether to wake the event loop, unless the loop made the call. */
static bool carry_out(superio_console_work work) {
    for (int i = 0; i < work.interrupts; i++)
        if (!machine_interrupt())
            return work.wakes | superio_console_refuse(&console).wakes;
    return work.wakes;
}

uint8_t serial_read(uint8_t offset) {
    superio_console_read_effects done = superio_console_read(&console, offset);
    if (carry_out(done.work))
        monitor_wake();
    return done.byte;
}

/* While the output has no room, the guest is held in its access, as long as the monitor has patience. */
void serial_write(uint8_t offset, uint8_t value) {
    if (carry_out(superio_console_write(&console, offset, value)))
        monitor_wake();
    while (superio_console_is_full(&console) && monitor_hold()) {}
}

/* Takes input, and returns how many bytes. */
size_t serial_receive(const uint8_t *bytes, size_t count) {
    superio_console_receive_effects done = superio_console_receive(&console, bytes, count);
    carry_out(done.work);
    return done.accepted;
}

/* Copies the oldest output, at most `count` bytes, and returns how many it copied. */
size_t serial_output(uint8_t *bytes, size_t count) {
    return superio_console_output(&console, bytes, count);
}

void serial_consume(size_t count) {
    superio_console_consume(&console, count);
}

uint64_t serial_dropped(void) {
    return superio_console_dropped(&console);
}

/* Follows in each turn of the event loop. Returns what the loop has to poll. */
superio_console_wanted serial_turn(void) {
    carry_out(superio_console_turn(&console));
    return superio_console_wants(&console);
}

void serial_open(bool is_polled) {
    superio_console_new(&console, is_polled);
}

void serial_reset(void) {
    if (carry_out(superio_console_reset(&console)))
        monitor_wake();
}
