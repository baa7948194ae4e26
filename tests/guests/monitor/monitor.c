/* SPDX-License-Identifier: Apache-2.0 OR BSD-3-Clause */
/*
 * A monitor with a serial port, for whatever driver: the code of docs/PORT.md over a bare port or, if CONSOLE is defined, a
 * console. It is a file of its own, so that no driver has to be compiled again for another monitor.
 */
#include "monitor.h"

#ifdef LEVELS
const bool has_level = true;
#else
const bool has_level = false;
#endif
struct monitor mon;
unsigned long offered;

/* An edge, unless it is refused. */
bool raise_interrupt(void) {
    if (mon.can_refuse && choose(2))
        return false;
    mon.edges = mon.line == MERGED ? 1 : mon.edges < MANY ? mon.edges + 1 : MANY;
    return true;
}

void set_line(bool is_up) { mon.was_up = is_up; }

#ifndef CONSOLE
void make_turn_in(int milliseconds) { mon.has_timer = true; }
void queue_output(uint8_t byte) { output_byte(byte); }
void write_output(void) {}
void read_input(void) {}

size_t first_input(const uint8_t **bytes) {
    static uint8_t first[SUPERIO_SERIAL_FIFO_SIZE];
    size_t count = mon.waiting < sizeof first ? mon.waiting : sizeof first;
    input_bytes(first, count);
    *bytes = first;
    return count;
}

void remove_input(size_t count) {
    mon.waiting -= count;
    offered += count;
}

/* The code of docs/PORT.md, whose variables are those of `mon`. */
#define port mon.port
#define is_polled mon.is_polled
#define is_ready mon.is_ready
#define is_refused mon.is_refused
#define was_up mon.was_up
#define turn turn_of_page
#define reset reset_of_page
#include "port.c"
#undef port
#undef is_polled
#undef is_ready
#undef is_refused
#undef was_up
#undef turn
#undef reset

/* A turn of the event loop, and so much input has come. Its timer may go off, or not yet. */
void turn(unsigned input) {
    if (mon.has_timer)
        mon.has_timer = choose(2);
    mon.waiting += input < MANY - mon.waiting ? input : MANY - mon.waiting; /* the queue is bounded */
    turn_of_page();
}

void make_monitor(enum line line) { mon = (struct monitor){.port = superio_serial_new(), .line = line}; }
void set_polled(bool is_polled) { mon.is_polled = mon.is_ready = is_polled; }
bool is_turn_due(void) { return mon.has_timer; }
const superio_serial *port_of_monitor(void) { return &mon.port; }
#else
static superio_console console_of_monitor;
static bool is_awake;             /* a call has woken the event loop */
static superio_console_wanted wanted; /* what it waits for, if not */

static void carry_out(superio_console_work work) {
    if (mon.line == LEVEL)
        mon.was_up = work.is_up;
    else
        for (int i = 0; i < work.interrupts; i++)
            if (!raise_interrupt()) {
                is_awake |= superio_console_refuse(&console_of_monitor).wakes;
                break;
            }
    is_awake |= work.wakes;
}

uint8_t read_access(uint8_t offset) {
    superio_console_read_effects done = superio_console_read(&console_of_monitor, offset);
    carry_out(done.work);
    return done.byte;
}

void write_access(uint8_t offset, uint8_t value) {
    uint8_t bytes[1];
    carry_out(superio_console_write(&console_of_monitor, offset, value));
    if (superio_console_output(&console_of_monitor, bytes, 1)) { /* a reader that takes each byte at once */
        output_byte(*bytes);
        superio_console_consume(&console_of_monitor, 1);
    }
}

/* A turn of the event loop, and so much input has come at its source. */
void turn(unsigned input) {
    uint8_t bytes[SUPERIO_SERIAL_FIFO_SIZE];
    size_t most = superio_console_wants(&console_of_monitor).input;
    mon.waiting += input;
    size_t count = mon.waiting < most ? mon.waiting : most;
    input_bytes(bytes, count);
    mon.waiting -= count;
    offered += count;
    carry_out(superio_console_receive(&console_of_monitor, bytes, count).work);
    carry_out(superio_console_turn(&console_of_monitor));
    wanted = superio_console_wants(&console_of_monitor);
    is_awake = false;
}

void make_monitor(enum line line) {
    mon = (struct monitor){.line = line};
    superio_console_new(&console_of_monitor, false);
    wanted = superio_console_wants(&console_of_monitor);
    is_awake = false;
}

void set_polled(bool is_polled) { carry_out(superio_console_set_polled(&console_of_monitor, is_polled)); }
bool is_turn_due(void) { return is_awake || wanted.turn || (wanted.input > 0 && mon.waiting > 0); }
const superio_serial *port_of_monitor(void) { return &console_of_monitor.port; }
#endif
