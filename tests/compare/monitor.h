/* SPDX-License-Identifier: Apache-2.0 OR BSD-3-Clause */
/*
 * What a port needs of a monitor, for uart.c and accesses.c: interrupts are counted, and output is dropped.
 */
#ifndef MONITOR_H
#define MONITOR_H

#include <stdint.h>

extern uint64_t interrupts;

static inline void interrupt_guest(void) { interrupts++; }

static inline void send_byte(uint8_t byte) { (void)byte; }

#endif
