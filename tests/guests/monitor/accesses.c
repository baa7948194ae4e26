/* SPDX-License-Identifier: Apache-2.0 OR BSD-3-Clause */
/* The guest's accesses to its monitor, for whatever driver. */
#include "../monitor/monitor.h"

void between(void); /* what others do before an access of the guest */

static unsigned long sent, received, rbr_reads, thr_writes;
static bool has_read, has_written;

/* What a harness does after each read. */
#ifndef AFTER_READ
#define AFTER_READ(offset, byte)
#endif

static bool has_divisor(void) { return port_of_monitor()->line_control & 0x80; }

uint8_t inb(unsigned long address) {
    unsigned offset = address - 0x3f8;
    between();
    if (offset == 0 && !has_divisor()) {
        rbr_reads++;
        has_read = true;
    }
    uint8_t byte = read_access(offset);
    AFTER_READ(offset, byte);
    return byte;
}

void outb(uint8_t value, unsigned long address) {
    unsigned offset = address - 0x3f8;
    between();
    if (offset == 0 && !has_divisor() && !(port_of_monitor()->modem_control & 0x10)) {
        thr_writes++;
        has_written = true;
    }
    write_access(offset, value);
}
