/* SPDX-License-Identifier: Apache-2.0 OR BSD-3-Clause */
#include "uart.h"

#include <string.h>

#include "monitor.h"

enum { DATA, IER, IIR, LCR, MCR, LSR, MSR, SCR };
enum { IER_RDA = 0x01, IER_THRE = 0x02, IER_BITS = 0x0f };
enum { IIR_NONE = 0x01, IIR_THRE = 0x02, IIR_RDA = 0x04, IIR_FIFO = 0xc0 };
enum { LCR_DLAB = 0x80 };
enum { MCR_DTR = 0x01, MCR_RTS = 0x02, MCR_OUT1 = 0x04, MCR_OUT2 = 0x08, MCR_LOOP = 0x10 };
enum { LSR_DATA_READY = 0x01, LSR_THR_EMPTY = 0x20, LSR_IDLE = 0x40 };
enum { MSR_DELTAS = 0x0f, MSR_CTS = 0x10, MSR_DSR = 0x20, MSR_RI = 0x40, MSR_DCD = 0x80 };

void uart_reset(struct uart *uart) {
    *uart = (struct uart){
        .dll = 12,
        .iir = IIR_NONE,
        .lcr = 0x03,
        .lsr = LSR_THR_EMPTY | LSR_IDLE,
        .mcr = MCR_OUT2,
        .msr = MSR_CTS | MSR_DSR | MSR_DCD,
    };
}

static void raise(struct uart *uart, uint8_t enabled, uint8_t pending) {
    if ((uart->ier & enabled) && !(uart->iir & pending)) {
        uart->iir = (uart->iir & ~IIR_NONE) | pending;
        interrupt_guest();
    }
}

static void lower(struct uart *uart, uint8_t pending) {
    uart->iir &= ~pending;
    if (!uart->iir)
        uart->iir = IIR_NONE;
}

static uint8_t take_byte(struct uart *uart) {
    uint8_t byte;

    lower(uart, IIR_RDA);
    if (!uart->count)
        return 0;
    byte = uart->fifo[uart->head];
    uart->head = (uart->head + 1) % UART_FIFO_SIZE;
    if (!--uart->count)
        uart->lsr &= ~LSR_DATA_READY;
    return byte;
}

static uint8_t modem_status(const struct uart *uart) {
    uint8_t status = uart->msr & MSR_DELTAS;

    if (!(uart->mcr & MCR_LOOP))
        return uart->msr;
    if (uart->mcr & MCR_DTR)
        status |= MSR_DSR;
    if (uart->mcr & MCR_RTS)
        status |= MSR_CTS;
    if (uart->mcr & MCR_OUT1)
        status |= MSR_RI;
    if (uart->mcr & MCR_OUT2)
        status |= MSR_DCD;
    return status;
}

uint8_t uart_read(struct uart *uart, uint8_t offset) {
    uint8_t value;

    switch (offset) {
    case DATA:
        return uart->lcr & LCR_DLAB ? uart->dll : take_byte(uart);
    case IER:
        return uart->lcr & LCR_DLAB ? uart->dlm : uart->ier;
    case IIR:
        value = uart->iir | IIR_FIFO;
        uart->iir = IIR_NONE;
        return value;
    case LCR:
        return uart->lcr;
    case MCR:
        return uart->mcr;
    case LSR:
        return uart->lsr;
    case MSR:
        return modem_status(uart);
    case SCR:
        return uart->scr;
    default:
        return 0;
    }
}

static void write_data(struct uart *uart, uint8_t value) {
    if (!(uart->mcr & MCR_LOOP)) {
        send_byte(value);
        raise(uart, IER_THRE, IIR_THRE);
    } else if (uart->count < UART_FIFO_SIZE) {
        uart->fifo[(uart->head + uart->count++) % UART_FIFO_SIZE] = value;
        uart->lsr |= LSR_DATA_READY;
        raise(uart, IER_RDA, IIR_RDA);
    }
}

static void write_ier(struct uart *uart, uint8_t value) {
    uart->ier = value & IER_BITS;
    if (uart->count)
        raise(uart, IER_RDA, IIR_RDA);
    raise(uart, IER_THRE, IIR_THRE);
}

void uart_write(struct uart *uart, uint8_t offset, uint8_t value) {
    switch (offset) {
    case DATA:
        if (uart->lcr & LCR_DLAB)
            uart->dll = value;
        else
            write_data(uart, value);
        break;
    case IER:
        if (uart->lcr & LCR_DLAB)
            uart->dlm = value;
        else
            write_ier(uart, value);
        break;
    case LCR:
        uart->lcr = value;
        break;
    case MCR:
        uart->mcr = value;
        break;
    case SCR:
        uart->scr = value;
        break;
    }
}

/* Copies into the ring, in two pieces if it goes past the last place. */
static void add_bytes(struct uart *uart, const uint8_t *bytes, size_t count) {
    size_t place = (uart->head + uart->count) % UART_FIFO_SIZE;
    size_t first = count < UART_FIFO_SIZE - place ? count : UART_FIFO_SIZE - place;

    memcpy(uart->fifo + place, bytes, first);
    memcpy(uart->fifo, bytes + first, count - first);
    uart->count += count;
}

size_t uart_receive(struct uart *uart, const uint8_t *bytes, size_t count) {
    size_t room = UART_FIFO_SIZE - uart->count;

    if (uart->mcr & MCR_LOOP)
        return 0;
    if (count > room)
        count = room;
    if (count) {
        add_bytes(uart, bytes, count);
        uart->lsr |= LSR_DATA_READY;
        raise(uart, IER_RDA, IIR_RDA);
    }
    return count;
}

/* The encoding of docs/SAVED-STATES.md: its magic and version, the kind of device, and the length of the rest. */
static const uint8_t header[] = {'S', 'I', 'O', 'S', 1, 1};

size_t uart_save(const struct uart *uart, uint8_t saved[UART_SAVED_MAX]) {
    size_t to_end = UART_FIFO_SIZE - uart->head, first = uart->count < to_end ? uart->count : to_end;
    uint8_t *bytes = saved + UART_HEADER + UART_REGISTERS;

    memcpy(saved, header, sizeof header);
    saved[sizeof header] = UART_REGISTERS + uart->count;
    saved[sizeof header + 1] = 0;
    memcpy(saved + UART_HEADER, uart, UART_REGISTERS);
    memcpy(bytes, uart->fifo + uart->head, first);
    memcpy(bytes + first, uart->fifo, uart->count - first);
    return UART_HEADER + UART_REGISTERS + uart->count;
}

bool uart_load(struct uart *uart, const uint8_t *saved, size_t size) {
    if (size < UART_HEADER + UART_REGISTERS || size > UART_SAVED_MAX || memcmp(saved, header, sizeof header) ||
        saved[sizeof header] + 256u * saved[sizeof header + 1] != size - UART_HEADER)
        return false;
    memcpy(uart, saved + UART_HEADER, UART_REGISTERS);
    uart->head = 0;
    uart->count = size - UART_HEADER - UART_REGISTERS;
    memcpy(uart->fifo, saved + UART_HEADER + UART_REGISTERS, uart->count);
    if ((uart->ier & IER_THRE) && (uart->iir & IIR_THRE))
        interrupt_guest();
    if ((uart->ier & IER_RDA) && (uart->iir & IIR_RDA))
        interrupt_guest();
    return true;
}
