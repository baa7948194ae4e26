/* SPDX-License-Identifier: Apache-2.0 OR BSD-3-Clause */
/*
 * serial8250_interrupt gives up after 514 passes, without a read of IIR that shows nothing pending. A program has written
 * 8,208 bytes, 16 for each of 513 passes; in the last one 300 bytes of input come, in two turns. Prints what is left when
 * nothing is in flight any more, for each kind of line.
 */
#include "world.c"
#include <stdio.h>
#include <stdlib.h>

enum { PASSES = 514, OUTPUT = 16 * (PASSES - 1) };
static unsigned passes, accesses, written;
static bool in_handler;
static unsigned char bytes[OUTPUT];

unsigned choose(unsigned bound) { return 0; } /* the trigger never refuses */
void KASSERT(bool is_good) { if (!is_good) abort(); }
void input_bytes(unsigned char *b, unsigned count) { memset(b, 'x', count); }
void output_byte(unsigned char byte) { sent++; }
int tty_insert_flip_char(struct tty_port *p, unsigned char ch, char flag) { received++; return 1; }
void *kmalloc(unsigned long size, int flags) { return NULL; }

void lock_of(spinlock_t *lock) {
    lock->is_taken++;
    passes += in_handler && lock == &up.port.lock;
}
void unlock_of(spinlock_t *lock) {
    lock->is_taken--;
    if (in_handler && lock == &up.port.lock && written < OUTPUT) { /* the program's write goes on on another processor */
        in_handler = false;
        written += uart_write(&tty, bytes, OUTPUT - written);
        in_handler = true;
    }
}
void between(void) {
    if (passes != PASSES)
        return;
    accesses++;
    if (accesses == 1)
        turn(10);
    if (accesses == 12)
        turn(290);
}

/* The guest takes each interrupt. */
static void run_handler(enum line line) {
    while (line == LEVEL ? mon.was_up : mon.edges > 0) {
        if (line != LEVEL)
            mon.edges--;
        in_handler = true;
        serial8250_interrupt(4, &info);
        in_handler = false;
    }
}

static void exchange(enum line line) {
    memset(&up, 0, sizeof up);
    memset(&state, 0, sizeof state);
    passes = accesses = written = 0;
    sent = received = 0;
    make_monitor(line);
    make_queue(0);
    tty.termios.c_cflag = CS8 | CREAD | CLOCAL;
    set_up_guest();
    up.port.type = PORT_16550A;
    open_port();
    mon.edges = 0;
    written = uart_write(&tty, bytes, OUTPUT);
    run_handler(line);
}

int main(void) {
    static const char *const NAMES[] = {"single edges", "merged edges", "level"};
    for (enum line line = has_level ? LEVEL : SINGLE; line <= (has_level ? LEVEL : MERGED); line++) {
        exchange(line);
        printf("%s: %lu bytes sent, %lu received, %u held, %u in the queue; a turn %s due\n", NAMES[line], sent, received,
               port_of_monitor()->len, mon.waiting, is_turn_due() ? "is" : "is not");
        while (is_turn_due()) {
            turn(0);
            run_handler(line);
        }
        printf("    after the turns that are due %lu received\n", received);
    }
    return 0;
}
