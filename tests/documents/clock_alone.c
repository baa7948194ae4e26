/* SPDX-License-Identifier: Apache-2.0 OR BSD-3-Clause */
/* The code of docs/CLOCK.md by itself, which stands at PAGE, with its lines for a new machine at OPENED. The first step
 * that goes wrong is named, and ends the program with status 1. */
#define _GNU_SOURCE
#include <poll.h>
#include <stdio.h>
#include <stdlib.h>

PAGE

enum { RTCMR = 0x004, RTCIMSC = 0x010, DAY = 86400 };

static bool line;

static void set_clock_line(struct machine *machine, bool is_up) {
    (void)machine;
    line = is_up;
}

static void open_clock(struct machine *machine) {
    pthread_mutex_init(&machine->lock, NULL);
OPENED
}

static void expect(bool holds, const char *step) {
    if (!holds) {
        puts(step);
        exit(1);
    }
}

static void write_word(struct machine *machine, uint16_t offset, uint32_t value) {
    memory_write(machine, CLOCK + offset, (const uint8_t *)&value, sizeof value);
}

static bool has_gone_off(const struct machine *machine) {
    return poll(&(struct pollfd){.fd = machine->timer, .events = POLLIN}, 1, 0) == 1;
}

int main(void) {
    static struct machine machine;
    uint8_t byte;
    open_clock(&machine);
    take_moment(&machine);
    int64_t left = seconds(CLOCK_REALTIME) - (int64_t)machine.now;
    expect(left >= -1 && left <= 1, "a moment is the time of day");
    write_word(&machine, RTCIMSC, 1);
    write_word(&machine, RTCMR, (uint32_t)machine.now + DAY);
    expect(!has_gone_off(&machine) && !line, "an alarm is set");
    machine.ahead += DAY; /* as if the day had gone by */
    take_moment(&machine);
    follow_clock(&machine);
    expect(has_gone_off(&machine) && !line, "the alarm is due");
    alarm_is_due(&machine);
    expect(!has_gone_off(&machine) && line, "the alarm is found");
    memory_read(&machine, CLOCK + RTCMIS, &byte, 1);
    expect(byte == 1, "the guest sees the alarm");
    line = false; /* as the controller has it after a reset */
    follow_clock_again(&machine);
    expect(line, "the line is set again");
    puts("each step is right");
}
