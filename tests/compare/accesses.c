/* SPDX-License-Identifier: Apache-2.0 OR BSD-3-Clause */
/*
 * Makes the rows of accesses that come on standard input, as accesses.rs does: over the C library or, with BY_HAND,
 * over the 16550 of uart.c. The monitor has the moment of an access.
 */
#include <inttypes.h>
#include <stdio.h>
#include <stdlib.h>
#include <string.h>

#include "monitor.h"
#ifdef BY_HAND
#include "uart.h"
#else
#include <superio.h>
#endif

enum { ROUNDS = 10, MOST_ACCESSES = 512, MOST_TEXT = 6 * MOST_ACCESSES, MOST_ENQUEUED = 255 };

struct access {
    char kind;
    uint8_t offset, value;
};

static uint8_t input[MOST_ENQUEUED];
uint64_t interrupts;

#ifdef BY_HAND

static struct uart port;

static inline void reset(void) { uart_reset(&port); }

static inline uint64_t make(struct access access) {
    uint8_t saved[UART_SAVED_MAX];

    switch (access.kind) {
    case 'r':
        return uart_read(&port, access.offset);
    case 'w':
        uart_write(&port, access.offset, access.value);
        return 0;
    case 'e':
        return uart_receive(&port, input, access.value);
    case 's':
        return !uart_load(&port, saved, uart_save(&port, saved));
    default:
        return 0;
    }
}

#else

static superio_serial port;
static superio_rtc rtc;
static uint64_t moment = 1000;

static inline void reset(void) {
    port = superio_serial_new();
    rtc = superio_rtc_new();
}

static inline uint64_t write_port(uint8_t offset, uint8_t value) {
    superio_serial_write_effects written = superio_serial_write(&port, offset, value);

    if (written.sends)
        send_byte(value);
    interrupts += written.interrupts;
    return 0;
}

static inline uint64_t enqueue(size_t count) {
    superio_serial_enqueue_effects enqueued = superio_serial_enqueue(&port, input, count);

    interrupts += enqueued.interrupts;
    return enqueued.accepted;
}

static inline uint64_t save_and_restore_port(void) {
    uint8_t saved[SUPERIO_SERIAL_SAVED_MAX];

    if (superio_serial_load(&port, saved, superio_serial_save(&port, saved)) != SUPERIO_LOAD_OK)
        return 1;
    interrupts += superio_serial_interrupts_due(&port);
    return 0;
}

static inline uint64_t save_and_restore_clock(void) {
    uint8_t saved[SUPERIO_RTC_SAVED_SIZE];

    superio_rtc_save(&rtc, saved);
    return superio_rtc_load(&rtc, saved, sizeof saved);
}

static inline uint64_t make(struct access access) {
    switch (access.kind) {
    case 'r':
        return superio_serial_read(&port, access.offset).byte;
    case 'w':
        return write_port(access.offset, access.value);
    case 'e':
        return enqueue(access.value);
    case 's':
        return save_and_restore_port();
    case 'R':
    case 'm':
        return superio_rtc_read(&rtc, access.offset, moment).value;
    case 'W':
    case 'M':
        superio_rtc_write(&rtc, access.offset, access.value, moment);
        return 0;
    case 'S':
        return save_and_restore_clock();
    case 'i':
        return superio_i8042_read(access.offset);
    case 'o':
        interrupts += superio_i8042_write(access.offset, access.value).resets;
        return 0;
    default:
        return 0;
    }
}

#endif

/* Makes accesses in order. Callgrind counts the instructions of this. */
__attribute__((noinline)) uint64_t sum_of(const struct access *list, size_t count) {
    uint64_t sum = 0;

    for (size_t i = 0; i < count; i++)
        sum = 31 * sum + make(list[i]);
    return sum;
}

/* Makes the accesses of a text such as "w0741 r0500" so often. */
static uint64_t make_all(const char *text, int times) {
    static struct access list[ROUNDS * MOST_ACCESSES];
    size_t count = 0;

    while (times--)
        for (const char *at = text + strspn(text, " \n"); *at; at += strspn(at, " \n")) {
            char *end;
            unsigned long digits = strtoul(at + 1, &end, 16); /* `sscanf` would look for the end of the text each time */

            list[count++] = (struct access){*at, (uint8_t)(digits >> 8), (uint8_t)digits};
            at = end;
        }
    return sum_of(list, count);
}

int main(void) {
    static char row[MOST_TEXT];

    memset(input, 'a', sizeof input);
    while (fgets(row, sizeof row, stdin)) {
        const char *once = strtok(row, "/"), *repeated = strtok(NULL, "/"), *last = strtok(NULL, "/");

        if (!last)
            return 2;
        reset();
        interrupts = 0;
        make_all(once, 1);
        make_all(repeated, 1);
        printf("%" PRIu64, make_all(repeated, ROUNDS));
        printf(" %" PRIu64, make_all(last, 1));
        printf(" %" PRIu64 " 0\n", interrupts); /* nobody asks for the time */
    }
    return 0;
}
