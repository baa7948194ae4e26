/* SPDX-License-Identifier: Apache-2.0 OR BSD-3-Clause */
/*
 * What 100 bytes of input meet that come before a driver's set-up. The port holds 64 of them then. Prints how many the
 * driver reads and throws away, and how many of the others the guest gets, in order; and how many bytes were in the FIFO
 * when the driver cleared or disabled it. A 16550A, which holds 16 of them, would lose these. With KEPT a system before
 * took interrupts, and the machine was reset without its port.
 */
#include <stdio.h>
#include <stdlib.h>
#define outb write_of_guest
#include "../monitor/accesses.c"
#undef outb
#include "driver.h"

enum { EARLY = 100 };
static unsigned accesses, held_at_clear;

unsigned choose(unsigned bound) { return bound - 1; }
void input_bytes(unsigned char *bytes, unsigned count) {
    for (unsigned i = 0; i < count; i++)
        bytes[i] = (unsigned char)(offered + i); /* each is greater than those before */
}
void output_byte(unsigned char byte) {}
void between(void) {
    if (accesses++ > 10000)
        abort();
}

void outb(unsigned char value, unsigned long address) {
    if (address == COM1 + 2 && (value & 0x02 || !(value & 0x01)) && held_at_clear < port_of_monitor()->len)
        held_at_clear = port_of_monitor()->len;
    write_of_guest(value, address);
}

int main(void) {
    unsigned char bytes[MOST];
    unsigned count, got = 0, calls = 0;
    int last = -1;
    make_monitor(MERGED);
    set_polled(true);
#ifdef KEPT
    outb(0x05, COM1 + 1);
#endif
    turn(EARLY);
    if (!set_up()) {
        printf("finds no port\n");
        return 0;
    }
    do {
        while ((count = poll_for(bytes)) > 0)
            for (unsigned i = 0; i < count; i++, got++) {
                if (bytes[i] <= last)
                    abort();
                last = bytes[i];
            }
        turn(0);
    } while (calls++ < EARLY);
    if (port_of_monitor()->len > 0 || mon.waiting > 0)
        abort();
    printf("%lu bytes thrown away, %u then received; %u held at a clear\n", offered - got, got, held_at_clear);
    return 0;
}
