/* SPDX-License-Identifier: Apache-2.0 OR BSD-3-Clause */
/* Compares clock_device.c with the library by random calls, from new clocks and from any registers. No call is at one of
 * the last offsets, of registers that clock_device.c does not have.
 * compare_clock CALLS SEED OFFSET .. */
#include <stdio.h>
#include <stdlib.h>
#include <string.h>
#include "superio.h"
#define superio_rtc_new model_new
#define superio_rtc_read model_read
#define superio_rtc_write model_write
#define superio_rtc_interrupt_line model_line
#define superio_rtc_alarm_due model_due
#include "clock_device.c"
#undef superio_rtc_new
#undef superio_rtc_read
#undef superio_rtc_write
#undef superio_rtc_interrupt_line
#undef superio_rtc_alarm_due

static uint64_t x = 88172645463325252ull;
static uint64_t draw(uint64_t bound) { x ^= x << 13; x ^= x >> 7; x ^= x << 17; return (x >> 20) % bound; }

/* A number that is often near an end of 32 bits, or near another. */
static uint64_t near(uint64_t other) {
    const uint64_t ends[] = {0, 1ull << 31, 1ull << 32, 1ull << 33, other};
    return draw(4) ? ends[draw(5)] + draw(7) - 3 : x;
}

static bool has(char **offsets, uint16_t offset) {
    while (*offsets && strtoul(*offsets, 0, 0) != offset)
        offsets++;
    return *offsets;
}

int main(int count, char **arguments) {
    long calls = count > 1 ? atol(arguments[1]) : 10000000;
    unsigned long alarms = 0, nevers = 0;
    uint64_t now = 0;
    x ^= count > 2 ? strtoull(arguments[2], 0, 0) * 0x9e3779b97f4a7c15ull : 0;
    superio_rtc a = superio_rtc_new(), b = model_new();
    for (long i = 0; i < calls; i++) {
        uint16_t offset = (uint16_t)(draw(8) ? draw(9) * 4 : draw(4) ? draw(0x1010) : draw(0x10000));
        uint32_t value = (uint32_t)(draw(3) ? near((uint32_t)now + a.offset) : draw(3));
        bool is_same = true;
        if (count > 3 && has(arguments + 3, offset))
            continue;
        now = draw(8) ? now + draw(4) : near(a.mr - (uint64_t)a.offset);
        if (draw(1000) == 0) {
            a = superio_rtc_new();
            b = model_new();
        } else if (draw(50) == 0) {
            a = (superio_rtc){.lr = (uint32_t)draw(UINT64_MAX), .mr = (uint32_t)near(now), .imsc = (uint32_t)draw(4),
                              .ris = (uint32_t)draw(4), .offset = (int64_t)(draw(2) ? near(0) : -near(0)),
                              .armed = draw(2)};
            b = a;
        }
        switch (draw(4)) {
        case 0: {
            superio_rtc_read_effects r = superio_rtc_read(&a, offset, now), s = model_read(&b, offset, now);
            is_same = r.value == s.value && r.invalid_read == s.invalid_read;
            break;
        }
        case 1:
            is_same = superio_rtc_write(&a, offset, value, now).invalid_write
                      == model_write(&b, offset, value, now).invalid_write;
            break;
        case 2: {
            uint64_t due = superio_rtc_alarm_due(&a, now);
            is_same = due == model_due(&b, now);
            alarms += due < 1ull << 32;
            nevers += a.armed && due == SUPERIO_RTC_NEVER;
            break;
        }
        default: is_same = superio_rtc_interrupt_line(&a) == model_line(&b);
        }
        if (!is_same || memcmp(&a, &b, sizeof a)) {
            printf("call %ld at offset 0x%x differs\n", i, offset);
            return 1;
        }
    }
    printf("%ld calls are the same, %lu alarms come, %lu never\n", calls, alarms, nevers);
    return 0;
}
