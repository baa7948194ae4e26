/* SPDX-License-Identifier: Apache-2.0 OR BSD-3-Clause */
/* Watches the program of docs/C.md: the linker gives its calls to this file, by its option --wrap. The interrupt line
 * refuses each third edge. The reader takes nothing until the guest is held. Each hold is first woken for nothing, as
 * any may be. Of three holds one ends by its time: then it takes nothing until output was dropped. Another ends by its
 * time just as there is room. So nothing depends on how busy the host is. The first rule of superio.h that is broken
 * ends the program with status 3, and is named. The last line says what has happened. */
#define _GNU_SOURCE
#include <errno.h>
#include <poll.h>
#include <pthread.h>
#include <stdio.h>
#include <superio.h>
#include <sys/eventfd.h>
#include <unistd.h>

enum { PIECE = 1000 }; /* the most bytes that the reader takes at once */

int __real_eventfd(unsigned value, int flags);
int __real_eventfd_write(int file, eventfd_t value);
int __real_eventfd_read(int file, eventfd_t *value);
int __real_poll(struct pollfd *files, nfds_t count, int timeout);
int __real_pthread_mutex_lock(pthread_mutex_t *mutex);
int __real_pthread_mutex_unlock(pthread_mutex_t *mutex);
int __real_pthread_cond_broadcast(pthread_cond_t *condition);
int __real_clock_gettime(clockid_t clock, struct timespec *time);
int __real_pthread_condattr_setclock(pthread_condattr_t *attributes, clockid_t clock);
ssize_t __real_read(int file, void *bytes, size_t count);
ssize_t __real_write(int file, const void *bytes, size_t count);
superio_console_read_effects __real_superio_console_read(superio_console *console, uint8_t offset);
superio_console_work __real_superio_console_write(superio_console *console, uint8_t offset, uint8_t value);
superio_console_receive_effects __real_superio_console_receive(superio_console *console, const uint8_t *bytes,
                                                               size_t count);
superio_console_work __real_superio_console_turn(superio_console *console);
superio_console_work __real_superio_console_refuse(superio_console *console);
superio_console_wanted __real_superio_console_wants(const superio_console *console);
void __real_superio_console_consume(superio_console *console, size_t count);
bool __real_superio_console_is_full(const superio_console *console);

static _Thread_local bool has_lock, is_loop;
/* What changes under the lock alone, apart from is_over. */
static int irq = -1, wake_up = -1;
static int edges_left;       /* to be raised for the last call */
static bool is_refused;      /* the last edge, which nobody has told the console */
static bool has_to_wake;     /* the guest, before it releases the lock */
static bool is_full, is_held, is_stuck, has_to_tell, has_room_late, is_woken_for_nothing;
static size_t not_received, not_consumed;
static uint64_t dropped;     /* when the guest was held in vain */
static long edges, refusals, holds;
static bool is_monotonic;
static const superio_console *watched;
static volatile bool is_over;
/* Of the event loop. */
static superio_console_wanted wanted;
static int polls, turns;
static bool is_woken, is_input_over;

static void need(bool is_kept, const char *rule) {
    if (is_kept)
        return;
    dprintf(STDERR_FILENO, "%s\n", rule);
    _exit(3);
}

/* Before the next call of the console, and before the lock is released. */
static void settle(void) {
    need(has_lock, "a console is called without its lock");
    need(edges_left == 0, "an edge is not raised");
    need(!is_refused, "a refusal is not told");
}

static superio_console_work leave(superio_console_work work) {
    edges_left = work.interrupts;
    has_to_wake |= work.wakes && !is_loop;
    return work;
}

static void release(void) {
    settle();
    need(!has_to_wake, "the loop is not woken");
    need(!has_to_tell, "a guest that is held is not told of room");
    need(not_received == 0, "input is read and does not go in");
    need(not_consumed == 0, "output is written and not consumed");
    has_lock = false;
}

int __wrap_pthread_mutex_lock(pthread_mutex_t *mutex) {
    int result = __real_pthread_mutex_lock(mutex);
    has_lock = true;
    return result;
}

int __wrap_pthread_mutex_unlock(pthread_mutex_t *mutex) {
    need(is_loop || !is_full || is_stuck || !has_room_late, "a guest is not held, since its time ended as there was room");
    need(is_loop || !is_full || is_stuck, "a guest is not held");
    release();
    if (!is_loop)
        is_full = false;
    return __real_pthread_mutex_unlock(mutex);
}

/* A limit of time is one of CLOCK_MONOTONIC, which nobody can set. */
int __wrap_clock_gettime(clockid_t clock, struct timespec *time) {
    need(clock == CLOCK_MONOTONIC, "a limit is by a clock that can be set");
    return __real_clock_gettime(clock, time);
}

int __wrap_pthread_condattr_setclock(pthread_condattr_t *attributes, clockid_t clock) {
    need(clock == CLOCK_MONOTONIC, "a limit is by a clock that can be set");
    is_monotonic = true;
    return __real_pthread_condattr_setclock(attributes, clock);
}

int __wrap_pthread_cond_timedwait(pthread_cond_t *condition, pthread_mutex_t *mutex, const struct timespec *end) {
    need(is_monotonic, "a limit is by a clock that can be set");
    need(end && is_full && !is_stuck, "a guest is held for nothing");
    release();
    if ((is_woken_for_nothing = !is_woken_for_nothing)) {
        has_lock = true;
        return 0;
    }
    if (++holds % 3 == 0) {
        has_lock = is_stuck = true;
        dropped = watched->dropped;
        return ETIMEDOUT;
    }
    is_held = true;
    int result = pthread_cond_wait(condition, mutex);
    has_lock = true;
    is_held = false;
    has_room_late = holds % 3 == 1;
    return has_room_late ? ETIMEDOUT : result;
}

int __wrap_pthread_cond_broadcast(pthread_cond_t *condition) {
    has_to_tell = false;
    return __real_pthread_cond_broadcast(condition);
}

int __wrap_eventfd(unsigned value, int flags) {
    int file = __real_eventfd(value, flags);
    is_loop = true; /* the main thread is the event loop's */
    *(irq < 0 ? &irq : &wake_up) = file;
    return file;
}

int __wrap_eventfd_write(int file, eventfd_t value) {
    if (file == irq) {
        need(edges_left > 0 && value == 1, "an edge is raised that nobody asks for");
        edges_left--;
        if (++edges % 3 > 0)
            return __real_eventfd_write(file, value);
        refusals++;
        edges_left = 0;
        is_refused = true;
        return -1;
    }
    need(!has_lock || has_to_wake, "the loop is woken for nothing");
    if (has_lock)
        has_to_wake = false;
    else
        is_over = true; /* the guest has switched its machine off */
    return __real_eventfd_write(file, value);
}

int __wrap_eventfd_read(int file, eventfd_t *value) {
    if (file == wake_up)
        is_woken = false;
    return __real_eventfd_read(file, value);
}

int __wrap_poll(struct pollfd *files, nfds_t count, int timeout) {
    need(!has_lock, "a thread polls that has its lock");
    if (!is_loop)
        return __real_poll(files, count, timeout);
    need(polls++ == 0 || turns == 1, "there is not one turn between two polls");
    need(!is_woken, "what has woken it wakes it again");
    need((files[1].fd >= 0) == (wanted.input > 0 && !is_input_over),
         "it does not poll for input exactly if that is wanted");
    need((files[2].fd >= 0) == wanted.output, "it does not poll for room exactly if that is wanted");
    need(timeout == (wanted.turn ? 5 : -1), "its poll ends at another time");
    turns = 0;
    int result = __real_poll(files, count, timeout);
    is_woken = files[0].revents;
    return result;
}

ssize_t __wrap_read(int file, void *bytes, size_t count) {
    need(count <= wanted.input, "more input is read than is wanted");
    ssize_t result = __real_read(file, bytes, count);
    is_input_over = result == 0;
    not_received = result > 0 ? (size_t)result : 0;
    return result;
}

ssize_t __wrap_write(int file, const void *bytes, size_t count) {
    bool takes = is_held || is_over || (is_stuck && watched->dropped > dropped);
    errno = EAGAIN;
    ssize_t result = takes ? __real_write(file, bytes, count < PIECE ? count : PIECE) : -1;
    not_consumed = result > 0 ? (size_t)result : 0;
    return result;
}

superio_console_read_effects __wrap_superio_console_read(superio_console *console, uint8_t offset) {
    settle();
    superio_console_read_effects done = __real_superio_console_read(console, offset);
    leave(done.work);
    return done;
}

/* From its first byte on, the guest's transmitter interrupts too: so a write may both interrupt and wake. */
superio_console_work __wrap_superio_console_write(superio_console *console, uint8_t offset, uint8_t value) {
    static bool sends_by_interrupts;
    settle();
    watched = console;
    superio_console_work before = {0}, work;
    if (offset == 0 && !sends_by_interrupts) {
        sends_by_interrupts = true;
        before = __real_superio_console_write(console, 1, 0x03);
    }
    work = __real_superio_console_write(console, offset, value);
    work.interrupts += before.interrupts;
    work.wakes |= before.wakes;
    leave(work);
    is_full = __real_superio_console_is_full(console);
    return work;
}

bool __wrap_superio_console_is_full(const superio_console *console) {
    settle();
    return is_full = __real_superio_console_is_full(console);
}

superio_console_receive_effects __wrap_superio_console_receive(superio_console *console, const uint8_t *bytes,
                                                               size_t count) {
    settle();
    need(count == not_received, "other input goes in than was read");
    not_received = 0;
    superio_console_receive_effects done = __real_superio_console_receive(console, bytes, count);
    leave(done.work);
    return done;
}

superio_console_wanted __wrap_superio_console_wants(const superio_console *console) {
    settle();
    return wanted = __real_superio_console_wants(console);
}

void __wrap_superio_console_consume(superio_console *console, size_t count) {
    settle();
    need(count == not_consumed, "other output is consumed than was written");
    not_consumed = 0;
    has_to_tell = is_held;
    is_stuck = false;
    __real_superio_console_consume(console, count);
}

superio_console_work __wrap_superio_console_turn(superio_console *console) {
    settle();
    turns++;
    return leave(__real_superio_console_turn(console));
}

superio_console_work __wrap_superio_console_refuse(superio_console *console) {
    need(is_refused, "a refusal is told that there was not");
    is_refused = false;
    return leave(__real_superio_console_refuse(console));
}

__attribute__((destructor)) static void tell(void) {
    dprintf(STDERR_FILENO, "held %d, refused %d, dropped %d\n", holds > 3, refusals > 1, watched->dropped > 1);
}
