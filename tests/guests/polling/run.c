/* SPDX-License-Identifier: Apache-2.0 OR BSD-3-Clause */
/*
 * Random exchanges of a driver that polls. ../monitor/exchanges.c says what they print: here a byte is left if the guest
 * has polled until nothing came, and no turn is owed. With NOT_POLLED the monitor takes the guest for one with interrupts.
 * Unless KEEPS_ALL is defined, the driver may throw input away as it gets ready.
 */
#include "../monitor/accesses.c"
#include "../monitor/exchanges.c"
#include "driver.h"

#ifdef KEEPS_ALL
enum { THROWS_AWAY = false };
#else
enum { THROWS_AWAY = true };
#endif
static bool may_throw_away; /* the driver gets ready */

void output_byte(unsigned char byte) { check_sent(byte); }
void between(void) { turn_between(); }

/* So many bytes of input the guest has read: nothing else takes one out of the FIFO. */
static unsigned long taken(void) { return offered - port_of_monitor()->len; }

/* The driver was called. Of the bytes that it has read it gives some, and still holds others. Those before them it has
 * thrown away. */
static void account(const unsigned char *bytes, unsigned count) {
    unsigned long read = taken() - received - held();
    if (read < count || (read > count && !may_throw_away))
        fail("a byte is lost");
    received += read - count;
    for (unsigned i = 0; i < count; i++)
        check_received(bytes[i]);
}

static bool get(void) {
    unsigned char bytes[MOST];
    unsigned count = poll_for(bytes);
    account(bytes, count);
    may_throw_away = false;
    return count > 0;
}

static void put(void) {
    unsigned char bytes[40];
    unsigned count = choose(1 + sizeof bytes);
    if (count > output - queued)
        count = output - queued;
    for (unsigned i = 0; i < count; i++)
        bytes[i] = byte_at(1, queued + i);
    queued += count;
    send(bytes, count);
    account(bytes, 0);
    may_throw_away = may_throw_away && count == 0;
}

static bool exchange(void) {
#ifndef NOT_POLLED
    set_polled(true);
#endif
    if (choose(2))
        turn_with_input(choose(1 + choose(200)));
    may_throw_away = THROWS_AWAY;
    if (!set_up())
        fail("the driver finds no port");
    account(NULL, 0);
    while (arrived < input || queued < output) {
        unsigned kind = choose(100);
        if (kind < 40)
            put();
        else if (kind < 80)
            get();
        else if (kind < 99)
            turn_with_input(choose(1 + choose(200)));
        else {
            may_throw_away = THROWS_AWAY;
            set_up_again();
            account(NULL, 0);
        }
    }
    for (bool is_due = true; get() || is_due;)
        if ((is_due = is_turn_due()))
            turn(0);
#ifdef NOT_POLLED
    if (offered > 0)
        fail("input goes in");
#endif
    return received < arrived || sent < queued;
}
