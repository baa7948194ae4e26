/* SPDX-License-Identifier: Apache-2.0 OR BSD-3-Clause */
/*
 * 1,000 bytes of input for a guest. The FIFO holds 64, so the rest waits, and is offered again once a read has emptied
 * the FIFO.
 */
#include <stdio.h>
#include <superio.h>

int main(void) {
    superio_serial port = superio_serial_new();
    uint8_t paste[1000];
    size_t accepted, received = 0, in_order = 0, pieces = 1;

    for (size_t i = 0; i < sizeof paste; i++)
        paste[i] = (uint8_t)(i + 1);
    accepted = superio_serial_enqueue(&port, paste, sizeof paste).accepted; /* what is left waits */
    while (superio_serial_read(&port, 5).byte & 0x01) { /* the guest reads LSR: data is ready */
        superio_serial_read_effects done = superio_serial_read(&port, 0);
        in_order += done.byte == (uint8_t)++received;
        if (done.in_buffer_empty && accepted < sizeof paste) { /* there is room again */
            accepted += superio_serial_enqueue(&port, paste + accepted, sizeof paste - accepted).accepted;
            pieces++;
        }
    }
    printf("%zu bytes in %zu pieces, %zu of them in order\n", received, pieces, in_order);
    return 0;
}
