/* SPDX-License-Identifier: Apache-2.0 OR BSD-3-Clause */
/*
 * Compares device.c with the library by random calls, from new ports and from any bytes. compare CALLS SEED
 *
 * With ABSTRACT_BYTES any byte is the one that the library reads. All but the bytes and their first place has to be the
 * same then.
 */
#include <stdio.h>
#include <stdlib.h>
#include <string.h>
#include "superio.h"
#define superio_serial_new model_new
#define superio_serial_read model_read
#define superio_serial_write model_write
#define superio_serial_enqueue model_enqueue
#define superio_serial_character_timeout model_timeout
#define superio_serial_interrupts_due model_due
#define superio_serial_fifo_capacity model_capacity
#define superio_serial_interrupt_line model_line
#define superio_serial_is_coherent model_coherent
#include "device.c"
#undef superio_serial_new
#undef superio_serial_read
#undef superio_serial_write
#undef superio_serial_enqueue
#undef superio_serial_character_timeout
#undef superio_serial_interrupts_due
#undef superio_serial_fifo_capacity
#undef superio_serial_interrupt_line
#undef superio_serial_is_coherent

static superio_serial a, b; /* of the library, and of device.c */
static uint8_t last_read;   /* by the library */
#ifdef ABSTRACT_BYTES
uint8_t nondet_byte(void) { return last_read; }
#endif

static bool is_same_state(void) {
#ifdef ABSTRACT_BYTES
    memcpy(b.bytes, a.bytes, sizeof b.bytes);
    b.head = a.head;
#endif
    return memcmp(&a, &b, sizeof a) == 0;
}

static uint64_t x = 88172645463325252ull;
static unsigned draw(unsigned bound) { x ^= x << 13; x ^= x >> 7; x ^= x << 17; return (unsigned)(x >> 20) % bound; }

int main(int count, char **arguments) {
    long calls = count > 1 ? atol(arguments[1]) : 10000000;
    x ^= (count > 2 ? strtoull(arguments[2], 0, 0) : 0) * 0x9e3779b97f4a7c15ull;
    a = superio_serial_new();
    b = model_new();
    unsigned long fulls = 0;
    for (long i = 0; i < calls; i++) {
        unsigned kind = draw(12);
        uint8_t offset = (uint8_t)draw(9), value = (uint8_t)(draw(2) ? draw(256) : draw(8)), bytes[80];
        bool same = true;
        if (draw(20000) == 0) {
            a = superio_serial_new(); b = model_new();
        } else if (draw(5000) == 0) {
            for (size_t j = 0; j < sizeof a; j++) ((uint8_t *)&a)[j] = (uint8_t)draw(256);
            b = a;
        }
        if (draw(400) == 0) { /* leave loopback and DLAB */
            (void)superio_serial_write(&a, 3, 3); (void)model_write(&b, 3, 3);
            (void)superio_serial_write(&a, 4, 8); (void)model_write(&b, 4, 8);
        }
        if ((offset == 3 || offset == 4) && kind > 4 && kind < 9) value &= 0x6f;
        if (kind < 5) {
            superio_serial_read_effects r = superio_serial_read(&a, offset);
            last_read = r.byte;
            superio_serial_read_effects s = model_read(&b, offset);
            same = r.byte == s.byte && r.buffer_read == s.buffer_read && r.in_buffer_empty == s.in_buffer_empty;
        } else if (kind < 9) {
            superio_serial_write_effects r = superio_serial_write(&a, offset, value), s = model_write(&b, offset, value);
            same = r.sends == s.sends && r.interrupts == s.interrupts;
        } else if (kind < 10) {
            size_t size = draw(2) ? draw(5) : draw(80);
            for (size_t j = 0; j < size; j++) bytes[j] = (uint8_t)draw(256);
            superio_serial_enqueue_effects r = superio_serial_enqueue(&a, bytes, size), s = model_enqueue(&b, bytes, size);
            same = r.accepted == s.accepted && r.fifo_full == s.fifo_full && r.interrupts == s.interrupts;
            fulls += r.fifo_full;
        } else if (kind < 11)
            same = superio_serial_character_timeout(&a) == model_timeout(&b);
        else
            same = superio_serial_interrupts_due(&a) == model_due(&b) && superio_serial_fifo_capacity(&a) == model_capacity(&b)
                && superio_serial_interrupt_line(&a) == model_line(&b)
                && superio_serial_is_coherent(&a) == model_coherent(&b);
        if (!same || !is_same_state()) {
            printf("call %ld of kind %u at offset %u differs\n", i, kind, offset);
            return 1;
        }
    }
    printf("%ld calls are the same, %lu found the FIFO full\n", calls, fulls);
    return 0;
}
