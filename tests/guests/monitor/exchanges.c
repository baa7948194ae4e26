/* SPDX-License-Identifier: Apache-2.0 OR BSD-3-Clause */
/*
 * Random exchanges over the library, whatever the driver and the monitor are. After accesses.c.
 *
 *     run EXCHANGES SEED [STALLS]
 *
 * Prints how many exchanges stalled: nothing is in flight, no turn is owed, and a byte is held, in the monitor's queue,
 * or to send. Ends after so many stalls. Exits 1 if a byte comes out of order, or twice, or is lost.
 */
#include <stdio.h>
#include <stdlib.h>

/* Of the driver's file: it makes an exchange, after begin_exchange, and returns whether it stalled. */
static bool exchange(void);

/* Marsaglia's xorshift. */
static uint64_t x = 88172645463325252ull;
unsigned choose(unsigned bound) {
    x ^= x << 13;
    x ^= x >> 7;
    x ^= x << 17;
    return (x >> 32) * bound >> 32; /* not a remainder, which took a sixth of the time */
}

static void fail(const char *what) {
    printf("FAIL: %s\n", what);
    exit(1);
}

static unsigned char byte_at(unsigned direction, unsigned long place) {
    return (unsigned char)((((uint32_t)(2 * place + direction)) * 2654435761u) >> 24);
}
/* So many bytes in all, and in the driver or at the source of input. */
static unsigned long input, output, queued, arrived;
static unsigned long accesses, interrupts_taken, unhandled;
static unsigned pauses; /* accesses between two steps of others, on average */
static bool has_turns;
static bool is_in_step; /* of others: nobody else makes one meanwhile */

void input_bytes(unsigned char *bytes, unsigned count) {
    for (unsigned i = 0; i < count; i++)
        bytes[i] = byte_at(0, offered + i);
}
static void check_sent(unsigned char byte) {
    if (byte != byte_at(1, sent++))
        fail("a byte is sent out of order");
}
static void check_received(unsigned char byte) {
    if (byte != byte_at(0, received++))
        fail("a byte is received out of order");
}

static bool asked(void) { return mon.line == LEVEL ? mon.was_up : mon.edges > 0; }
static void take(void) {
    if (mon.line != LEVEL)
        mon.edges--;
    interrupts_taken++;
}

/* A turn of the event loop, with at most so much input. */
static void turn_with_input(unsigned piece) {
    if (piece > input - arrived)
        piece = input - arrived;
    arrived += piece;
    turn(piece);
}

/* Before an access: perhaps a turn. */
static void turn_between(void) {
    if (accesses++ > 100000 + 40 * (input + output))
        fail("does not end");
    if (is_in_step)
        return;
    is_in_step = true;
    if (choose(pauses) == 0 && (has_turns || arrived < input || is_turn_due()))
        turn_with_input(1 + choose(1 + choose(200)));
    is_in_step = false;
}

static void begin_exchange(void) {
    static const unsigned PAUSES[] = {2, 8, 64, 512};
    input = output = queued = arrived = offered = sent = received = accesses = 0;
    if (has_level)
        make_monitor(LEVEL);
    else {
        make_monitor(choose(2));
        mon.can_refuse = choose(2);
    }
    pauses = PAUSES[choose(4)];
    has_turns = choose(2);
    input = choose(2) ? choose(30) : choose(1000);
    output = choose(2) ? choose(30) : choose(1000);
}

int main(int count, char **arguments) {
    unsigned long exchanges = count > 1 ? strtoul(arguments[1], 0, 0) : 10000, stalled = 0, in = 0, out = 0, i = 0;
    unsigned long most = count > 3 ? strtoul(arguments[3], 0, 0) : exchanges;
    x ^= (count > 2 ? strtoull(arguments[2], 0, 0) : 0) * 0x9e3779b97f4a7c15ull;
    for (; i < exchanges && stalled < most; i++) {
        begin_exchange();
        stalled += exchange();
        if (!superio_serial_is_coherent(port_of_monitor()) || received > arrived)
            fail("registers or counts");
        in += received;
        out += sent;
    }
    printf("%lu of %lu exchanges stalled; %lu bytes in, %lu out, %lu interrupts, %lu unhandled\n", stalled, i, in,
           out, interrupts_taken, unhandled);
    return 0;
}
