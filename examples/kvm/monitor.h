/* SPDX-License-Identifier: Apache-2.0 OR BSD-3-Clause */
/*
 * A monitor that runs a PC with the devices of superio.h under KVM. docs/MONITOR.md shows how its files fit together.
 *
 * Two threads run: the vCPU's makes the guest's accesses, and the main one serves the user and the alarm. Each holds
 * `lock`, except while it waits: in KVM_RUN, in poll, in a read or a write of the terminal, or until the output has
 * room. The lock guards all that may change, here and in each file, except what only the main thread uses.
 */
#ifndef MONITOR_H
#define MONITOR_H

#include <err.h>
#include <errno.h>
#include <linux/kvm.h>
#include <pthread.h>
#include <stdbool.h>
#include <stdio.h>
#include <stdlib.h>
#include <string.h>
#include <superio.h>
#include <sys/eventfd.h>
#include <sys/ioctl.h>
#include <sys/timerfd.h>
#include <unistd.h>

/* Where the devices are. The clock is among a PC's adapters, where a guest in real mode reaches it too. */
enum { COM1 = 0x3F8, SERIAL_IRQ = 4, CLOCK_BASE = 0xD0000, CLOCK_IRQ = 8, MEMORY_SIZE = 256 << 20 };
/* main.c */
#define KVM(fd, request, argument) must(ioctl(fd, request, argument), #request)
extern pthread_mutex_t lock;
int must(int result, const char *what);
void monitor_end(int status, const char *why);
bool monitor_is_ending(void);
void monitor_reset(void);
bool monitor_hold(void);
void monitor_wake(void);
/* machine.c */
extern int vm, vcpu;
extern uint8_t memory[MEMORY_SIZE];
void machine_create(void);
void machine_discard(void);
void *machine_run(void *nothing);
bool machine_interrupt(void);
/* boot.c */
void boot(const char *image, const char *initramfs, const char *words);
/* serial.c */
void serial_open(bool is_polled);
void serial_reset(void);
uint8_t serial_read(uint8_t offset);
void serial_write(uint8_t offset, uint8_t value);
size_t serial_receive(const uint8_t *bytes, size_t count);
size_t serial_output(uint8_t *bytes, size_t count);
void serial_consume(size_t count);
uint64_t serial_dropped(void);
superio_console_wanted serial_turn(void);
/* clock.c */
int clock_open(void);
void clock_reset(void);
void clock_access(uint64_t address, bool is_write, uint8_t *bytes, unsigned count);
void clock_turn(void);

#endif
