/* SPDX-License-Identifier: Apache-2.0 OR BSD-3-Clause */
/*
 * examples/c/machine.c, which stands at MACHINE, with its locks watched: STEPS has all that each thread may do to them,
 * and what it may hold when it waits or ends. What the machine's lock is of is used only by who holds it, as `locked`
 * checks, and `here` only by who holds `processor`. Each thread is judged by what it does itself, so that nothing
 * depends on who comes first.
 *
 *     locks NUMBER    leaves out the call of that number that takes or releases a lock, or none, if it is -1
 *
 * Prints the first thing that nobody may do, and exits 1.
 */
#define _POSIX_C_SOURCE 200809L
#include <poll.h>
#include <pthread.h>
#include <stdbool.h>
#include <stdio.h>
#include <stdlib.h>
#include <string.h>

/* The locks that a thread holds, by letters: D is `door`, P is `processor`, and M is a machine's lock. */
enum { DOOR = 'D', PROCESSOR = 'P', MACHINE_LOCK = 'M', LOCKS = 3 };

/* Beside each thread, what it may do: the locks that it holds, and which it then takes (+) or releases (-). With W it
 * waits, and with E it ends. The guest makes its accesses without the door, at which whoever stops it may wait. */
static const char *const STEPS[][12] = {
    {"main", "+D", "D+P", "DP+M", "DPM-M", "DPW", "DP-P", "D-D", "W", "E"},
    {"guest", "+D", "D+P", "DP-D", "P+M", "PM-M", "P-P", "W", "E"},
    {"event_loop", "+M", "M-M", "W", "E"},
};

static __thread const char *const *own = STEPS[0]; /* the thread's row */
static __thread char held[LOCKS + 1];
static __thread pthread_mutex_t *holds[LOCKS], *left_out; /* beside `held`; and what it only seems to hold */
static bool has_threads; /* until then nobody else has the machines */
static int number_left_out;

static void refuse(const char *what) {
    printf("%s, which holds \"%s\", may not do this: %s\n", own[0], held, what);
    exit(1);
}

static void step(const char *what) {
    char wanted[LOCKS + 3];
    snprintf(wanted, sizeof wanted, "%s%s", held, what);
    for (const char *const *known = own + 1; *known; known++)
        if (strcmp(*known, wanted) == 0)
            return;
    refuse(what);
}

static char letter_of(const pthread_mutex_t *lock);

static void watched_lock(pthread_mutex_t *lock, int number) {
    if (number == number_left_out) {
        left_out = lock;
        return;
    }
    step((char[]){'+', letter_of(lock), '\0'});
    pthread_mutex_lock(lock);
    holds[strlen(held)] = lock;
    held[strlen(held)] = letter_of(lock);
}

static void watched_unlock(pthread_mutex_t *lock, int number) {
    if (number == number_left_out || lock == left_out) {
        left_out = lock == left_out ? NULL : left_out;
        return;
    }
    step((char[]){'-', letter_of(lock), '\0'});
    char *place = strchr(held, letter_of(lock));
    if (holds[place - held] != lock)
        refuse("to release another machine's lock");
    for (; *place; place++) {
        place[0] = place[1];
        holds[place - held] = place[1] ? holds[place - held + 1] : NULL;
    }
    pthread_mutex_unlock(lock);
}

static void need(const pthread_mutex_t *lock, const char *what) {
    bool has = !has_threads;
    for (int i = 0; i < LOCKS; i++)
        has |= holds[i] == lock;
    if (!has)
        refuse(what);
}

/* A thread that begins, and who it is. */
struct start {
    const char *const *row;
    void *(*function)(void *);
    void *argument;
};

static void *begin_thread(void *argument) {
    struct start start = *(struct start *)argument;
    free(argument);
    own = start.row;
    start.function(start.argument);
    step("E");
    return NULL;
}

static int watched_create(pthread_t *thread, void *(*function)(void *), const char *name, void *argument) {
    struct start *start = malloc(sizeof *start);
    size_t row = 1;
    while (strcmp(STEPS[row][0], name) != 0)
        row++;
    *start = (struct start){STEPS[row], function, argument};
    has_threads = true;
    return pthread_create(thread, NULL, begin_thread, start);
}

static int watched_join(pthread_t thread) {
    step("W");
    return pthread_join(thread, NULL);
}

static int watched_poll(struct pollfd *files, nfds_t count, int limit) {
    if (limit != 0)
        step("W");
    return poll(files, count, files ? limit : 1); /* who waits for nothing but a time need not wait long here */
}

/* These take the place of what the machine calls. */
#define main main_of_the_example
#define pthread_mutex_lock(lock) watched_lock(lock, __COUNTER__)
#define pthread_mutex_unlock(lock) watched_unlock(lock, __COUNTER__)
#define pthread_create(thread, attributes, function, argument) watched_create(thread, function, #function, argument)
#define pthread_join(thread, result) watched_join(thread)
#define poll watched_poll
#define locked(machine) (need(&(machine)->lock, "to use a machine"), machine)

MACHINE

#undef main

static char letter_of(const pthread_mutex_t *lock) {
    return lock == &door ? DOOR : lock == &processor ? PROCESSOR : MACHINE_LOCK;
}

int main(int count, char **words) {
    number_left_out = count > 1 ? atoi(words[1]) : -1;
    main_of_the_example();
    step("E");
}
