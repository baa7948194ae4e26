/* SPDX-License-Identifier: Apache-2.0 OR BSD-3-Clause */
/*
 * A guest, an event loop and an interrupt controller around the functions of docs/PORT.md. The guest sends back what it
 * receives. All of it comes back in order, whatever the controller refuses, for drivers that read IIR once or until
 * nothing is pending, and take few bytes or many, in machines that slept and were reset before. Input goes in at once
 * while the guest polls, and otherwise once its driver is ready, also after a sleep and after a reset. The loop comes
 * back soon, and sleeps while IER enables nothing. After a restore it comes back for bytes that the guest has left. A
 * controller that takes levels always has the port's.
 */
#include <stdio.h>
#include <stdlib.h>
#include <string.h>
#include <superio.h>

void write_access(uint8_t offset, uint8_t value);
uint8_t read_access(uint8_t offset);
void turn(void);
void reset(void);
void suspend(void);
void set_polled(bool polls); /* the monitor's own: sets what a machine begins with */
void restore(const superio_serial *saved); /* and takes the steps of a restore */
bool level(void); /* and tells the level of the port's line */

enum { INPUT = 2000, ROOM = 100 };
static uint8_t input[ROOM];    /* what waits for the guest */
static size_t waiting, typed;  /* how much, and how much has come from the source so far */
static size_t sent, in_order;  /* output, and how much of it is what was typed */
static unsigned edges;         /* that the guest has not taken */
static bool takes_levels, is_up, is_timed, is_restless, is_level_wrong;

bool raise_interrupt(void) {
    if (takes_levels || rand() % 4 == 0)
        return false;
    edges++;
    return true;
}
void set_line(bool level) {
    takes_levels = true;
    is_up = level;
}
void make_turn_in(int milliseconds) { is_timed = is_timed || (milliseconds > 0 && milliseconds < 20); }
void queue_output(uint8_t byte) { in_order += byte == (uint8_t)sent++; }
void write_output(void) {}
void read_input(void) {
    for (; waiting < ROOM && typed < INPUT && rand() % 50 > 0; typed++)
        input[waiting++] = (uint8_t)typed;
}
size_t first_input(const uint8_t **bytes) {
    *bytes = input;
    return waiting;
}
void remove_input(size_t count) {
    waiting -= count;
    memmove(input, input + count, waiting);
}

static void compare_levels(void) { is_level_wrong = is_level_wrong || (takes_levels && is_up != level()); }

/* The guest reads a register, and the event loop may make a turn before. */
static uint8_t look(uint8_t offset) {
    if (rand() % 20 == 0)
        turn();
    return read_access(offset);
}

static void handle(unsigned most, bool is_until_none) {
    do {
        if (look(2) & 0x01 && is_until_none) /* IIR: nothing is pending */
            return;
        for (unsigned i = 0; i < most && look(5) & 0x01; i++) /* LSR: a byte is held */
            write_access(0, look(0));
    } while (is_until_none);
}

static void start(void) {
    write_access(1, 0x03); /* the driver tests the port, */
    write_access(1, 0x00);
    while (look(5) & 0x01) /* and throws away what it finds, */
        look(0);
    write_access(1, 0x01); /* and is ready */
}

/* The guest prints a message as Linux does, with IER clear meanwhile. The event loop finds nothing enabled then, so it
 * has nothing to come back for. */
static void message(void) {
    bool was_timed = is_timed;
    is_timed = false;
    write_access(1, 0x00);
    turn();
    is_restless = is_restless || is_timed;
    is_timed = is_timed || was_timed;
    write_access(1, 0x01);
}

/* Runs until nothing happens any more. Returns whether all input came back. */
static bool exchange(unsigned most, bool is_until_none) {
    typed = waiting = sent = in_order = 0;
    suspend(); /* what is typed meanwhile waits until the machine is reset */
    turn();
    if (waiting != typed)
        return false;
    edges = 0;
    is_timed = false;
    reset();
    for (unsigned calls = 0; calls < 1000000; calls++) {
        compare_levels();
        if (calls == 20)
            start();
        else if (calls > 20 && rand() % 8 == 0)
            message();
        if (takes_levels ? is_up : edges > 0) {
            edges -= !takes_levels;
            handle(most, is_until_none);
        } else if (calls < 20 || is_timed || (typed < INPUT && waiting < ROOM)) {
            is_timed = false;
            turn();
        } else {
            return sent == INPUT && in_order == INPUT;
        }
    }
    return false;
}

/* Whether a byte that is typed now goes in, by a turn. Nothing is left of it. */
static bool goes_in(void) {
    waiting = 1;
    turn();
    bool went_in = waiting == 0;
    waiting = 0;
    while (read_access(5) & 0x01)
        read_access(0);
    return went_in;
}

static bool goes_in_when_it_may(bool polls) {
    set_polled(polls);
    for (int start = 0; start < 3; start++) {
        if (goes_in() != polls)
            return false;
        write_access(1, 0x01); /* the driver is ready */
        if (!goes_in())
            return false;
        if (start == 1)
            suspend();
        if (start == 1 && goes_in())
            return false;
        waiting = 1;
        reset();
        if ((waiting == 0) != polls)
            return false;
    }
    return true;
}

/* The same, whatever the guest writes to IER, in any order with sleeps and resets: once ready it stays so. */
static bool goes_in_by_rule(bool polls) {
    bool is_ready = polls;
    set_polled(polls);
    for (unsigned step = 0; step < 2000; step++) {
        uint8_t value = rand() % 16;
        if (step % 11 == 7) {
            reset();
            is_ready = polls;
        } else if (step % 13 == 9) {
            suspend();
            is_ready = false;
        } else {
            write_access(1, value);
            is_ready = is_ready || (value & 0x03) == 0x01;
        }
        compare_levels();
        if (goes_in() != is_ready)
            return false;
    }
    return true;
}

/* Ports are restored that hold a byte or none, whose interrupt the guest has ended or not. The event loop, which polls
 * first, comes back until the guest is interrupted for a byte that IER enables, and otherwise leaves it alone. */
static bool comes_back_after_a_restore(void) {
    for (unsigned kind = 0; kind < 64; kind++) {
        superio_serial saved = superio_serial_new();
        bool is_due = (kind & 0x05) == 0x05; /* IER enables RDA, and a byte is held */
        saved.interrupt_enable = kind & 0x03;
        bool is_held = superio_serial_enqueue(&saved, (const uint8_t *)"x", kind >> 2 & 1).accepted == 1;
        if (kind & 0x08)
            superio_serial_read(&saved, 2); /* IIR: the guest ends the interrupt, and leaves the byte */
        if (is_held != (kind >> 2 & 1))
            return false;
        edges = waiting = 0;
        is_timed = false;
        restore(&saved);
        compare_levels();
        for (unsigned turns = 0; turns < 100 && is_timed && !(takes_levels ? is_up : edges > 0); turns++) {
            is_timed = false;
            turn();
        }
        if ((takes_levels ? is_up : edges > 0) != is_due)
            return false;
    }
    return true;
}

int main(void) {
    typed = INPUT; /* no more comes from the source */
    if (!goes_in_when_it_may(false) || !goes_in_when_it_may(true) || !goes_in_by_rule(false) || !goes_in_by_rule(true)) {
        puts("input goes in too early, or too late");
        return 1;
    }
    set_polled(false);
    if (!comes_back_after_a_restore()) {
        puts("the event loop does not come back after a restore, or interrupts for nothing");
        return 1;
    }
    static const unsigned most[] = {1, 7, 64, 256};
    for (unsigned seed = 0; seed < 400; seed++) {
        srand(seed);
        if (!exchange(most[seed / 2 % 4], seed % 2)) {
            printf("seed %u: of %u bytes %zu came back, %zu of them in order\n", seed, INPUT, sent, in_order);
            return 1;
        }
    }
    puts(is_level_wrong ? "the line is not at the port's level"
         : is_restless  ? "the event loop comes back for nothing"
                        : "all came back");
    return is_level_wrong || is_restless;
}
