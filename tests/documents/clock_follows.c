/* SPDX-License-Identifier: Apache-2.0 OR BSD-3-Clause */
/* The machine of machine.c whose guest time follows the host's clock, which stands at MACHINE. Here the host's clock is a
 * number that anybody can set. The first step that goes wrong is named, and ends the program with status 1. */
#define _GNU_SOURCE
#include <stdint.h>
#include <stdio.h>
#include <stdlib.h>
#include <sys/timerfd.h>
#include <time.h>

enum { START = 1700000000, DAY = 86400, SINCE_BOOT = 5000 };

static int64_t host = START;
static int clock_of_timer; /* by which the last timer goes off, and when it does */
static int64_t goes_off;

static int clock_of_host(clockid_t which, struct timespec *now) {
    *now = (struct timespec){.tv_sec = which == CLOCK_REALTIME ? host : SINCE_BOOT};
    return 0;
}

static void set_timer(int flags, const struct itimerspec *new) {
    goes_off = flags & TFD_TIMER_ABSTIME ? new->it_value.tv_sec : -1;
}
#define clock_gettime clock_of_host
#define timerfd_create(clock, flags) timerfd_create(clock_of_timer = (clock), flags)
#define timerfd_settime(file, flags, new, old) set_timer(flags, new)

MACHINE

static void expect(bool holds, const char *step) {
    if (!holds) {
        puts(step);
        exit(1);
    }
}

/* What the guest reads from its clock when the host's is set so. */
static int64_t time_at(struct machine *machine, int64_t time) {
    uint32_t word;
    host = time;
    memory_read(machine, CLOCK, (uint8_t *)&word, sizeof word);
    return word;
}

static void write_word(struct machine *machine, uint16_t offset, uint32_t value) {
    memory_write(machine, CLOCK + offset, (const uint8_t *)&value, sizeof value);
}

/* A machine that goes on on another host, whose clock is this one. */
static void restore_at(struct machine *machine, struct snapshot *saved, int64_t time) {
    host = time;
    open_machine(machine, STDIN_FILENO, STDOUT_FILENO);
    expect(restore(machine, saved), "a snapshot is taken");
}

int main(void) {
    static struct machine machine, other;
    static struct snapshot saved;
    int64_t last = START + DAY, alarm = last + 60;
    open_machine(&machine, STDIN_FILENO, STDOUT_FILENO);
    expect(clock_of_timer == CLOCK_REALTIME, "the timer is of the host's clock");
    expect(time_at(&machine, START) == START, "a moment is the host's time");
    expect(time_at(&machine, last) == last, "the host's clock is set forward");
    write_word(&machine, RTCMR, (uint32_t)alarm);
    expect(goes_off == alarm, "an alarm is set");
    expect(time_at(&machine, START) == last && goes_off == alarm, "the host's clock is set back");
    expect(time_at(&machine, last) == last && time_at(&machine, last + 1) == last + 1, "the host's time has caught up");
    save(&machine, &saved);
    restore_at(&other, &saved, START);
    expect(time_at(&other, START + 1) == last + 1 && goes_off == alarm, "a machine is restored whose time is ahead");
    restore_at(&other, &saved, last + 2);
    expect(time_at(&other, last + 2) == last + 2 && goes_off == alarm, "a machine is restored whose time is behind");
    puts("each step is right");
}
