/* SPDX-License-Identifier: Apache-2.0 OR BSD-3-Clause */
/* The clock and the bus of machine.c, which stands at MACHINE. After each step the line has to have the level that the
 * clock gives, and the timer has to go off when the alarm is due. The first step after which one of them does not is
 * named, and ends the program with status 1. So does a call of a device, or a moment, without the lock: CALLS has each
 * call of a machine's devices look for it. */
#define _GNU_SOURCE
#include <poll.h>
#include <pthread.h>
#include <stdio.h>
#include <stdlib.h>
#include <sys/timerfd.h>
#include <time.h>

#include <superio.h>

/* Clocks of the host that all differ, as after a sleep: the time of day, and by how much CLOCK_MONOTONIC is behind
 * CLOCK_BOOTTIME, on which timers really run. */
enum { TIME_OF_DAY = 1700000000, SLEPT = 5000 };

static bool has_lock; /* the machine's, or nobody else has the machine yet */

static void need_lock(void) {
    if (has_lock)
        return;
    puts("a device is used without the lock");
    exit(1);
}
#define pthread_mutex_lock(mutex) (has_lock = pthread_mutex_lock(mutex) == 0)
#define pthread_mutex_unlock(mutex) (has_lock = pthread_mutex_unlock(mutex) != 0, go_on((struct machine *)(mutex)))
CALLS

static int clock_of_host(clockid_t which, struct timespec *now) {
    int done = clock_gettime(CLOCK_BOOTTIME, now);
    if (which == CLOCK_BOOTTIME) /* for a moment */
        need_lock();
    now->tv_sec += which == CLOCK_REALTIME ? TIME_OF_DAY : which == CLOCK_MONOTONIC ? -SLEPT : 0;
    return done;
}
#define clock_gettime clock_of_host

/* The event loop polls once. */
static bool *is_to_stop;
static int poll_once(struct pollfd *files, nfds_t count, int timeout) {
    (void)timeout;
    *is_to_stop = true;
    return poll(files, count, 0);
}
#define poll poll_once

struct machine;
static void go_on(struct machine *machine);
static void set_clock_line(struct machine *machine, bool is_up);

MACHINE

#undef poll
enum { DAY = 86400 };

static bool line;  /* as the interrupt controller has it */
static int levels; /* how often it was told one */

static void set_clock_line(struct machine *machine, bool is_up) {
    set_clock_line_of_the_page(machine, is_up);
    line = is_up;
    levels++;
}

static void write_word(struct machine *machine, uint16_t offset, uint32_t value) {
    uint8_t bytes[4];
    for (int i = 0; i < 4; i++)
        bytes[i] = (uint8_t)(value >> 8 * i);
    memory_write(machine, CLOCK + offset, bytes, sizeof bytes);
}

static uint32_t read_word(struct machine *machine, uint16_t offset) {
    uint8_t bytes[4];
    memory_read(machine, CLOCK + offset, bytes, sizeof bytes);
    return (uint32_t)bytes[0] | (uint32_t)bytes[1] << 8 | (uint32_t)bytes[2] << 16 | (uint32_t)bytes[3] << 24;
}

static void expect(bool holds, const char *step) {
    if (!holds) {
        puts(step);
        exit(1);
    }
}

/* In how many seconds the timer goes off, rounded up: -1 if never, and 0 if it has. */
static int64_t goes_off_in(const struct machine *machine) {
    struct itimerspec left;
    if (poll(&(struct pollfd){.fd = machine->timer, .events = POLLIN}, 1, 0) == 1)
        return 0;
    timerfd_gettime(machine->timer, &left);
    return left.it_value.tv_sec == 0 && left.it_value.tv_nsec == 0 ? -1 : left.it_value.tv_sec + 1;
}

/* The host may have been slow, by some hours at most. */
static bool goes_off_in_days(const struct machine *machine, int64_t days) {
    int64_t left = goes_off_in(machine);
    return left <= days * DAY && left > days * DAY - DAY / 2;
}

static bool is_present(uint64_t moment) {
    struct timespec now;
    clock_gettime(CLOCK_REALTIME, &now);
    return moment + SLEPT / 2 > (uint64_t)now.tv_sec && moment <= (uint64_t)now.tv_sec;
}

/* Another thread takes the next moment as soon as the lock is free. */
static bool others_go_on;
static void go_on(struct machine *machine) {
    if (others_go_on)
        machine->now++;
}

static void open_new(struct machine *machine) {
    has_lock = true;
    open_machine(machine, STDIN_FILENO, STDOUT_FILENO);
    has_lock = false;
}

/* As others do that take the lock first. */
static void with_lock(struct machine *machine, void (*call)(struct machine *)) {
    pthread_mutex_lock(&machine->lock);
    call(machine);
    pthread_mutex_unlock(&machine->lock);
}

static void go_round(struct machine *machine) {
    is_to_stop = &machine->is_stopped;
    event_loop(machine);
    machine->is_stopped = false;
}

static void check_alarm(struct machine *machine) {
    write_word(machine, RTCIMSC, 1);
    expect(goes_off_in(machine) == -1 && levels == 0, "no alarm is set");
    write_word(machine, RTCLR, (uint32_t)machine->now + DAY); /* the guest's time is ahead */
    uint32_t match = (uint32_t)machine->now + 4 * DAY;
    match -= (match & 0xFF) == (match >> 8 & 0xFF) ? 2 : 0; /* two bytes that differ */
    write_word(machine, RTCMR, match);
    expect(goes_off_in_days(machine, 3) && levels == 0, "an alarm is set");
    write_word(machine, RTCCR, 1);
    expect(goes_off_in_days(machine, 3), "RTCCR is written");
    memory_write(machine, CLOCK + RTCLR, (uint8_t[2]){0}, 2);
    expect(read_word(machine, RTCLR) != 0, "two bytes are written");

    machine->ahead += 3 * DAY; /* as if the days had gone by */
    with_lock(machine, take_moment);
    with_lock(machine, follow_clock);
    expect(goes_off_in(machine) == 0 && levels == 0, "the alarm is due");
    go_round(machine);
    expect(goes_off_in(machine) == -1 && line && levels == 1, "the alarm is found");
    expect(read_word(machine, RTCMIS) == 1 && levels == 1, "RTCMIS is read");

    uint8_t bytes[2] = {0};
    memory_read(machine, CLOCK + RTCMR + 1, bytes, 1);
    expect(bytes[0] == (uint8_t)(match >> 8) && bytes[1] == 0, "a byte is read");
    memory_read(machine, CLOCK + RTCMIS + 3, bytes, 2);
    expect(bytes[0] == 0xFF && bytes[1] == 0xFF, "two words are read");
    write_word(machine, RTCICR, 1);
    expect(goes_off_in(machine) == -1 && !line && levels == 2, "the interrupt is cleared");
}

static void check_ports(struct machine *machine) {
    expect(port_read(machine, COM1 + 5) == 0x60 && port_read(machine, 0x61) == 0xFF, "ports are read");
    expect(port_read(machine, 0x64) == 0, "the controller is read");
    port_write(machine, 0x164, 0xFE);
    expect(!machine->is_reset, "no device is written");
    port_write(machine, COM1 + 7, 0x5A);
    expect(port_read(machine, COM1 + 7) == 0x5A, "the port is written");
    port_write(machine, 0x64, 0xFE);
    expect(machine->is_reset && port_read(machine, COM1 + 7) == 0x5A, "the machine is reset");
    access_served(machine);
    expect(!machine->is_reset && port_read(machine, COM1 + 7) == 0, "the access ends");
}

/* After a reset the controller may have either level. It is told the clock's level once. */
static void check_line_again(struct machine *machine) {
    for (int was_up = 0; was_up < 2; was_up++) {
        machine->clock_was_up = was_up;
        levels = 0;
        with_lock(machine, follow_clock_again);
        expect(levels == 1 && !line, "the line is set again");
    }
}

/* Restores a machine whose alarm is due in a day, and whose last moment is so many seconds after the time of day. Returns
 * how many seconds the first moment is after it. */
static int64_t restored(struct machine *machine, int64_t ahead, const char *step) {
    static struct snapshot saved;
    static struct machine other;
    int64_t timer, today = seconds(CLOCK_REALTIME);
    write_word(machine, RTCMR, read_word(machine, 0) + DAY);
    write_access(machine, 7, 0x5A);
    uint64_t last = machine->now;
    others_go_on = true;
    save(machine, &saved);
    others_go_on = false;
    expect(saved.now == last, "the clock is saved");
    saved.now = (uint64_t)(today + ahead);
    open_new(&other);
    levels = 0;
    expect(restore(&other, &saved), step);
    expect(read_access(&other, 7) == 0x5A, "the console is restored");
    timer = goes_off_in(&other);
    expect(levels == 1 && !line && timer != -1, "the clock is restored");
    return (int64_t)other.now - today;
}

/* A snapshot is refused if its port is not coherent, if its console is cut off, or if its clock is another device. Then no
 * device has changed. */
static void check_refusals(struct machine *machine) {
    static struct snapshot good, bad[3], before, after;
    static struct machine other, forged;
    save(machine, &good);
    open_new(&forged);
    forged.console.port.interrupt_identification = 0x04; /* RDA is pending, and no byte is held */
    save(&forged, &bad[0]);
    bad[1] = bad[2] = good;
    bad[1].count--;
    bad[2].clock[0] ^= 1;
    for (int i = 0; i < 3; i++) {
        open_new(&other);
        other.console.port.scratch = 0xA5;
        other.clock.mr = 1;
        save(&other, &before);
        expect(!restore(&other, &bad[i]), "a snapshot is refused");
        save(&other, &after);
        expect(memcmp(before.console, after.console, before.count) == 0
               && memcmp(before.clock, after.clock, sizeof before.clock) == 0, "what is refused changes nothing");
    }
}

static bool is_about(int64_t number, int64_t other) {
    return number >= other && number < other + DAY / 2;
}

int main(void) {
    static struct machine machine;
    open_new(&machine);
    with_lock(&machine, take_moment);
    expect(is_present(machine.now), "the clock is opened");
    eventfd_write(machine.irq, 1);
    expect(clear(machine.irq) && !clear(machine.irq), "the guest is interrupted once");
    check_alarm(&machine);
    check_ports(&machine);
    check_line_again(&machine);
    expect(is_about(restored(&machine, 2 * DAY, "a load"), 2 * DAY), "the time of day is behind");
    expect(is_about(restored(&machine, -2 * DAY, "a load"), 0), "the time of day is ahead");
    check_refusals(&machine);
    puts("each step is right");
}
