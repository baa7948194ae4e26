/* SPDX-License-Identifier: Apache-2.0 OR BSD-3-Clause */
/*
 * The clock of superio.h in C, for a verifier of C. By hand, from the Rust code of
 * rust/superio/src/devices/rtc_pl031.rs. compare_clock.c compares both by random calls. A register that the data sheet
 * does not have, so that no driver knows it, may be left out here.
 */
#include "superio.h"

enum { DR = 0x000, MR = 0x004, LR = 0x008, CR = 0x00c, IMSC = 0x010, RIS = 0x014, MIS = 0x018, ICR = 0x01c };
enum { ID = 0xfe0 };
static const uint8_t IDS[] = {0x31, 0x10, 0x04, 0x00, 0x0d, 0xf0, 0x05, 0xb1};

static uint32_t shown(int64_t offset, uint32_t time) {
    if (offset < -(int64_t)UINT32_MAX || offset > UINT32_MAX)
        return time;
    int64_t counter = time + offset;
    return 0 <= counter && counter <= UINT32_MAX ? (uint32_t)counter : time;
}

static uint32_t begin_access(superio_rtc *c, uint64_t now) {
    uint32_t time = (uint32_t)now;
    if (c->armed && shown(c->offset, time) >= c->mr) {
        c->ris |= 1;
        c->armed = 0;
    }
    return time;
}

superio_rtc superio_rtc_new(void) { return (superio_rtc){0}; }

superio_rtc_read_effects superio_rtc_read(superio_rtc *c, uint16_t offset, uint64_t now) {
    superio_rtc_read_effects done = {0};
    uint32_t time = begin_access(c, now);
    switch (offset) {
    case DR: done.value = shown(c->offset, time); break;
    case MR: done.value = c->mr; break;
    case LR: done.value = c->lr; break;
    case CR: done.value = 1; break;
    case IMSC: done.value = c->imsc; break;
    case RIS: done.value = c->ris; break;
    case MIS: done.value = c->ris & c->imsc; break;
    default:
        done.invalid_read = offset < ID || offset >= SUPERIO_RTC_WINDOW;
        if (!done.invalid_read)
            done.value = IDS[(offset - ID) / 4];
    }
    return done;
}

superio_rtc_write_effects superio_rtc_write(superio_rtc *c, uint16_t offset, uint32_t value, uint64_t now) {
    superio_rtc_write_effects done = {0};
    uint32_t time = begin_access(c, now);
    switch (offset) {
    case MR:
        c->mr = value;
        c->armed = shown(c->offset, time) < value;
        c->ris |= shown(c->offset, time) == value;
        break;
    case LR:
        c->lr = value;
        c->offset = (int64_t)value - time;
        break;
    case CR:
        if (value == 1) {
            c->lr = 0;
            c->offset = 0;
        }
        break;
    case IMSC: c->imsc = value & 1; break;
    case ICR: c->ris &= ~value; break;
    default: done.invalid_write = true;
    }
    return done;
}

bool superio_rtc_interrupt_line(const superio_rtc *c) { return c->ris & c->imsc & 1; }

/* The first host's time from `from` on at which the clock shows `value` or more; NEVER if 32 bits have none. */
static uint64_t first_at_or_after(int64_t offset, uint32_t value, uint32_t from) {
    if (shown(offset, from) >= value)
        return from;
    uint64_t distance = offset < 0 ? -(uint64_t)offset : (uint64_t)offset;
    if (offset >= 0) {
        uint64_t by_counter = value > distance ? value - distance : 0;
        return from < by_counter ? by_counter : value;
    }
    if (from < value && value < distance)
        return value;
    uint64_t by_counter = value + distance;
    return by_counter <= UINT32_MAX ? by_counter : SUPERIO_RTC_NEVER;
}

uint64_t superio_rtc_alarm_due(const superio_rtc *c, uint64_t now) {
    uint32_t time = (uint32_t)now;
    if (!c->armed)
        return SUPERIO_RTC_NEVER;
    uint64_t first = first_at_or_after(c->offset, c->mr, time);
    if (first != SUPERIO_RTC_NEVER)
        return first - time;
    first = first_at_or_after(c->offset, c->mr, 0);
    return first != SUPERIO_RTC_NEVER ? (1ull << 32) - time + first : SUPERIO_RTC_NEVER;
}
