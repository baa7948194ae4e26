/* SPDX-License-Identifier: Apache-2.0 OR BSD-3-Clause */
/*
 * The serial port of superio.h in C, for a verifier of C. By hand, from the Rust code of
 * rust/superio/src/devices/serial.rs. compare.c compares both by random calls. With ABSTRACT_BYTES the FIFO does
 * not keep what its bytes are: each byte that is read out may be any byte. All else is the same.
 */
#include "superio.h"

enum { SIZE = SUPERIO_SERIAL_FIFO_SIZE };
enum { IER_RDA = 0x01, IER_THRE = 0x02, IER_BITS = 0x0f };
enum { NONE = 0x01, THRE = 0x02, RDA = 0x04, FIFO_BITS = 0xc0 };
enum { DLAB = 0x80, DATA_READY = 0x01, LOOPBACK = 0x10 };

#ifdef ABSTRACT_BYTES
uint8_t nondet_byte(void);
#endif

static size_t held(const superio_serial *p) { return p->len < SIZE ? p->len : SIZE; }

static bool becomes_pending(const superio_serial *p, uint8_t enabled, uint8_t pending) {
    return (p->interrupt_enable & enabled) && !(p->interrupt_identification & pending);
}

static void set_pending(superio_serial *p, uint8_t pending) {
    p->interrupt_identification = (uint8_t)((p->interrupt_identification & ~NONE) | pending);
}

static bool raise_condition(superio_serial *p, uint8_t enabled, uint8_t pending) {
    if (!becomes_pending(p, enabled, pending))
        return false;
    set_pending(p, pending);
    return true;
}

static void lower(superio_serial *p, uint8_t pending) {
    if (p->interrupt_identification == NONE)
        return;
    p->interrupt_identification = (uint8_t)(p->interrupt_identification & ~pending);
    if (!p->interrupt_identification)
        p->interrupt_identification = NONE;
}

static bool rx_ready(superio_serial *p) {
    p->line_status |= DATA_READY;
    return raise_condition(p, IER_RDA, RDA);
}

static void put(superio_serial *p, size_t distance, uint8_t byte) {
#ifndef ABSTRACT_BYTES
    p->bytes[(p->head + distance) % SIZE] = byte;
#endif
}

static uint8_t take(superio_serial *p) {
    size_t count = held(p);
    if (count == 0)
        return 0;
#ifdef ABSTRACT_BYTES
    uint8_t byte = nondet_byte();
#else
    uint8_t byte = p->bytes[p->head % SIZE];
    p->head++;
#endif
    p->len = (uint8_t)(count - 1);
    return byte;
}

static uint8_t read_msr(const superio_serial *p) {
    if (!(p->modem_control & LOOPBACK))
        return p->modem_status;
    return (uint8_t)((p->modem_status & 0x0f) | (p->modem_control & 0x01 ? 0x20 : 0) | (p->modem_control & 0x02 ? 0x10 : 0)
                     | (p->modem_control & 0x04 ? 0x40 : 0) | (p->modem_control & 0x08 ? 0x80 : 0));
}

superio_serial superio_serial_new(void) {
    return (superio_serial){.baud_divisor_low = 12, .interrupt_identification = NONE, .line_control = 0x03,
                            .line_status = 0x60, .modem_control = 0x08, .modem_status = 0xb0};
}

superio_serial_read_effects superio_serial_read(superio_serial *p, uint8_t offset) {
    superio_serial_read_effects done = {0};
    bool has_divisor = p->line_control & DLAB;
    switch (offset) {
    case 0:
        if (has_divisor) {
            done.byte = p->baud_divisor_low;
            break;
        }
        lower(p, RDA);
        done.byte = take(p);
        done.buffer_read = true;
        done.in_buffer_empty = p->len == 0;
        if (done.in_buffer_empty)
            p->line_status &= (uint8_t)~DATA_READY;
        break;
    case 1: done.byte = has_divisor ? p->baud_divisor_high : p->interrupt_enable; break;
    case 2:
        done.byte = p->interrupt_identification | FIFO_BITS;
        p->interrupt_identification = NONE;
        break;
    case 3: done.byte = p->line_control; break;
    case 4: done.byte = p->modem_control; break;
    case 5: done.byte = p->line_status; break;
    case 6: done.byte = read_msr(p); break;
    case 7: done.byte = p->scratch; break;
    }
    return done;
}

superio_serial_write_effects superio_serial_write(superio_serial *p, uint8_t offset, uint8_t value) {
    superio_serial_write_effects done = {0};
    bool has_divisor = p->line_control & DLAB;
    switch (offset) {
    case 0:
        if (has_divisor)
            p->baud_divisor_low = value;
        else if (p->modem_control & LOOPBACK) {
            size_t count = held(p);
            if (count < SIZE) {
                put(p, count, value);
                p->len = (uint8_t)(count + 1);
                done.interrupts = rx_ready(p);
            }
        } else {
            done.sends = true;
            done.interrupts = raise_condition(p, IER_THRE, THRE);
        }
        break;
    case 1:
        if (has_divisor)
            p->baud_divisor_high = value;
        else {
            p->interrupt_enable = value & IER_BITS;
            bool rda = p->len > 0 && becomes_pending(p, IER_RDA, RDA), thre = becomes_pending(p, IER_THRE, THRE);
            if (rda)
                set_pending(p, RDA);
            if (thre)
                set_pending(p, THRE);
            done.interrupts = (uint8_t)(rda + thre);
        }
        break;
    case 3: p->line_control = value; break;
    case 4: p->modem_control = value; break;
    case 7: p->scratch = value; break;
    }
    return done;
}

superio_serial_enqueue_effects superio_serial_enqueue(superio_serial *p, const uint8_t *bytes, size_t count) {
    superio_serial_enqueue_effects done = {0};
    size_t room = SIZE - held(p);
    if (p->modem_control & LOOPBACK || count == 0)
        return done;
    if (room == 0) {
        done.fifo_full = true;
        return done;
    }
    done.accepted = count < room ? count : room;
#ifndef ABSTRACT_BYTES
    for (size_t i = 0; i < done.accepted; i++)
        put(p, held(p) + i, bytes[i]);
#endif
    p->len = (uint8_t)(held(p) + done.accepted);
    done.interrupts = rx_ready(p);
    return done;
}

uint8_t superio_serial_character_timeout(superio_serial *p) { return p->len > 0 && raise_condition(p, IER_RDA, RDA); }

size_t superio_serial_fifo_capacity(const superio_serial *p) { return SIZE - held(p); }

uint8_t superio_serial_interrupts_due(const superio_serial *p) {
    return (uint8_t)(((p->interrupt_identification & THRE) && (p->interrupt_enable & IER_THRE))
                     + ((p->interrupt_identification & RDA) && (p->interrupt_enable & IER_RDA)));
}

bool superio_serial_interrupt_line(const superio_serial *p) { return superio_serial_interrupts_due(p) > 0; }

bool superio_serial_is_coherent(const superio_serial *p) {
    uint8_t iir = p->interrupt_identification;
    return p->len <= SIZE && ((p->line_status & DATA_READY) != 0) == (p->len > 0)
        && (iir == NONE || iir == THRE || ((iir == RDA || iir == (RDA | THRE)) && p->len > 0));
}
