/* SPDX-License-Identifier: Apache-2.0 OR BSD-3-Clause */
/* What monitor.c is to a harness of any driver, and the harness to it. */
#ifndef MONITOR_H
#define MONITOR_H
#include <stdbool.h>
#include <stddef.h>
#include <stdint.h>
#include "superio.h"

/* ---- of the harness: exchanges.c chooses at random, and proof.c leaves open, what `choose` says */

unsigned choose(unsigned bound); /* any number below */
void input_bytes(unsigned char *bytes, unsigned count); /* the next bytes of input */
void output_byte(unsigned char byte);                   /* a byte goes out */

/* ---- of the monitor */

enum { MANY = 1000000 };
enum line { SINGLE, MERGED, LEVEL }; /* edges that the guest takes one by one, edges that merge until then, a level */

struct monitor {
    superio_serial port;
    bool is_polled, is_ready, is_refused;
    enum line line;
    unsigned edges;   /* that the guest has not taken */
    bool was_up;      /* the level */
    bool has_timer;   /* a turn of the event loop comes */
    bool can_refuse;
    unsigned waiting; /* bytes of input in the monitor's queue */
};
extern struct monitor mon;
extern const bool has_level;  /* its line takes levels, and otherwise edges */
extern unsigned long offered; /* bytes of input that the port has taken */

void make_monitor(enum line line);
void set_polled(bool is_polled);
uint8_t read_access(uint8_t offset);
void write_access(uint8_t offset, uint8_t value);
void turn(unsigned input); /* of the event loop, and so much input has come */
bool is_turn_due(void);
const superio_serial *port_of_monitor(void);
#endif
