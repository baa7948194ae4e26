/* SPDX-License-Identifier: Apache-2.0 OR BSD-3-Clause */
/*
 * A 16550 as a monitor in C would write its own, to compare costs with. It replies and interrupts as a port of the
 * library does, and calls the monitor for what the library leaves to its caller.
 */
#ifndef UART_H
#define UART_H

#include <stdbool.h>
#include <stddef.h>
#include <stdint.h>

enum {
    UART_FIFO_SIZE = 64,
    UART_REGISTERS = 9,
    UART_HEADER = 8, /* of a saved port */
    UART_SAVED_MAX = UART_HEADER + UART_REGISTERS + UART_FIFO_SIZE,
};

struct uart {
    uint8_t dll, dlm, ier, iir, lcr, lsr, mcr, msr, scr;
    uint8_t head;  /* the place of the oldest received byte */
    uint8_t count; /* how many received bytes are held */
    uint8_t fifo[UART_FIFO_SIZE];
};

void uart_reset(struct uart *uart);
uint8_t uart_read(struct uart *uart, uint8_t offset);
void uart_write(struct uart *uart, uint8_t offset, uint8_t value);

/* Input for the guest. Returns how many of the bytes fit. */
size_t uart_receive(struct uart *uart, const uint8_t *bytes, size_t count);

/* Saves a port, and returns how many bytes that took. */
size_t uart_save(const struct uart *uart, uint8_t saved[UART_SAVED_MAX]);

/* Makes a port of `size` saved bytes, and interrupts as it has to. False, and no change, if they are none of a port. */
bool uart_load(struct uart *uart, const uint8_t *saved, size_t size);

#endif
