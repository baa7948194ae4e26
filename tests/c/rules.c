/* SPDX-License-Identifier: Apache-2.0 OR BSD-3-Clause */
/*
 * Runs examples/c/monitor.c on threads, files and a time of its own, and refuses what breaks a rule of superio.h for a
 * monitor around a console:
 *
 * 1. A thread has the lock of a console while it calls it and does what the call leaves to do. Under it nobody waits.
 * 2. Before the next call of a console as many edges are raised as the last one asks for, none after one that is
 *    refused, and after that one call says that it was refused.
 * 3. A guest's thread wakes the event loop exactly if the work of its call, or of the refusal, says so. The loop itself
 *    never does.
 * 4. The loop reads no more input than is wanted at that moment. All that it has read goes in, nothing else does, and
 *    what the line has taken of the oldest output is consumed.
 * 5. The loop makes one turn between two polls.
 * 6. It asks what is wanted after its last call before a poll. The poll asks the line for input or for room exactly if
 *    that is wanted, always for what wakes it, and for nothing else. It ends after 5 ms exactly if a turn is wanted.
 * 7. Once the poll has said that it is woken it reads that, and tells of a read that fails.
 *
 * One thread runs at a time. Which one goes on is random, wherever one may have to wait, so nothing depends on how busy
 * the host is. A line takes and gives a part of what it could, interrupts are refused, polls end without a reason, and
 * calls of the system fail. In some worlds the guests are the example's, in others they make random accesses.
 *
 *     rules SEED WORLDS    so many of each; another seed gives other ones
 *
 * Exits 1 at the first rule that is broken. Otherwise prints how often what the rules are about has happened.
 */
#define _GNU_SOURCE
#include <err.h>
#include <errno.h>
#include <fcntl.h>
#include <poll.h>
#include <pthread.h>
#include <stddef.h>
#include <stdio.h>
#include <stdlib.h>
#include <string.h>
#include <superio.h>
#include <sys/socket.h>
#include <ucontext.h>
#include <unistd.h>

#include "random.h"

struct machine;

static void watched_new(superio_console *console, bool is_polled);
static superio_console_read_effects watched_read_access(superio_console *console, uint8_t offset);
static superio_console_work watched_write_access(superio_console *console, uint8_t offset, uint8_t value);
static superio_console_receive_effects watched_receive(superio_console *console, const uint8_t *bytes, size_t count);
static size_t watched_output(const superio_console *console, uint8_t *bytes, size_t count);
static void watched_consume(superio_console *console, size_t count);
static superio_console_work watched_turn(superio_console *console);
static superio_console_work watched_refuse(superio_console *console);
static superio_console_wanted watched_wants(const superio_console *console);
static void watched_lock(pthread_mutex_t *lock);
static void watched_unlock(pthread_mutex_t *lock);
static void watched_create(pthread_t *thread, void *(*start)(void *), void *argument);
static void watched_join(pthread_t number);
static ssize_t watched_read(int file, void *bytes, size_t count);
static ssize_t watched_write(int file, const void *bytes, size_t count);
static int watched_poll(struct pollfd *files, nfds_t count, int limit, size_t size);
static void make_socket(int *files, bool is_stream);
static void make_pipe(int *files);
static void let_not_wait(int file);
static bool fails(void);
static void warned(void);
static void stop(int status) __attribute__((noreturn));

static char said[1 << 10]; /* what the example prints */
static uint32_t interface; /* of the library */

/* These take the place of what the example calls. */
#define main example_main
#define printf(...) snprintf(said + strlen(said), sizeof said - strlen(said), __VA_ARGS__)
#define err(status, ...) stop(status)
#define errx(status, ...) stop(status)
#define warn(...) warned()
#define superio_abi() interface
#define superio_console_new watched_new
#define superio_console_read watched_read_access
#define superio_console_write watched_write_access
#define superio_console_receive watched_receive
#define superio_console_output watched_output
#define superio_console_consume watched_consume
#define superio_console_turn watched_turn
#define superio_console_refuse watched_refuse
#define superio_console_wants watched_wants
#define pthread_mutex_lock(lock) watched_lock(lock)
#define pthread_mutex_unlock(lock) watched_unlock(lock)
#define pthread_create(thread, attributes, start, argument) \
    (fails() ? EAGAIN : (watched_create(thread, start, argument), 0))
#define pthread_join(thread, result) (watched_join(thread), 0)
#define socketpair(domain, type, protocol, files) \
    (fails() ? -1 : (make_socket(files, domain == AF_UNIX && type == SOCK_STREAM && protocol == 0), 0))
#define pipe(files) (fails() ? -1 : (make_pipe(files), 0))
#define fcntl(file, command, flags) \
    (fails() ? -1 : (let_not_wait((command) == F_SETFL && (flags) == O_NONBLOCK ? (file) : -1), 0))
#define read(file, bytes, count) watched_read(file, bytes, count)
#define write(file, bytes, count) watched_write(file, bytes, count)
#define poll(files, count, limit) watched_poll(files, count, limit, sizeof(files) / sizeof *(files))
#include "monitor.c"
#undef main
#undef printf
#undef superio_console_new
#undef superio_console_read
#undef superio_console_write
#undef superio_console_receive
#undef superio_console_output
#undef superio_console_consume
#undef superio_console_turn
#undef superio_console_refuse
#undef superio_console_wants

enum { MACHINES = 2, THREADS = 5, FILES = 10, FIRST_FILE = 100, ROOM = 100, ROOM_OF_PIPE = 3, STACK = 1 << 18 };
enum { ACCESSES = 1000, MOST_STEPS = 1000000 }; /* a good monitor's world takes 63,000 */
enum ending { BY_FILE, BY_TIME, BY_SIGNAL }; /* of a poll */

/* What the rules are about, and what happens to it. */
enum event { REFUSED, WOKEN, WOKEN_BY_REFUSAL, FULL, ONE_WANTED, TURNS, TIMES, SIGNALS, FAILED_READS, SLEEPS, EVENTS };
static const char *const EVENT_NAMES[EVENTS] = {
    "edges were refused", "calls woke the loop", "refusals alone woke the loop", "wakes found a full pipe",
    "polls asked for one byte", "polls asked for a turn", "polls ended by time", "polls ended by a signal",
    "reads of a wake failed", "sleeps of a guest ended by a signal"};

struct file {
    int other; /* what is written to it can be read there; -1 if nothing can be written */
    bool is_line, does_not_wait;
    size_t count;
    uint8_t bytes[ROOM];
};

struct thread {
    ucontext_t context;
    void *(*start)(void *);
    struct machine *machine; /* not of the first thread, which makes them */
    enum { RUNS, LOCKS, READS, POLLS, JOINS, ENDS } state;
    int file;                /* that it waits for, */
    unsigned joined;         /* or the thread; */
    struct pollfd *files;    /* or these files */
    nfds_t count;
    int limit;
    enum ending ending;
    bool is_joined;
    uint8_t offset, byte;    /* of an access that it makes */
    /* Of an event loop: */
    superio_console_wanted wanted;
    bool has_asked, is_woken, has_to_warn;
    unsigned polls, turns;
};

/* What is left to do for a console. */
struct duty {
    struct machine *machine;
    struct thread *holder;        /* of its lock */
    unsigned edges;               /* are to be raised */
    bool is_refused, wakes, is_woken;
    size_t count_read, count_taken;
    uint8_t input[SUPERIO_SERIAL_FIFO_SIZE];
};

static unsigned world, calls, failing_call, happened[EVENTS], count_of_threads, count_of_files, count_of_machines;
static bool has_failed, has_stopped, is_over, is_random;
static int status;
static ucontext_t scheduler;
static struct thread threads[THREADS], *current;
static char stacks[THREADS][STACK];
static struct file files_made[FILES];
static struct duty duties[MACHINES];

static void check(bool is_good, const char *what) {
    if (is_good)
        return;
    printf("world %u: %s\n", world, what);
    exit(1);
}

static size_t at_most(size_t number, size_t most) { return number < most ? number : most; }

/* ---- threads */

static struct duty *duty_of(const struct machine *machine) {
    for (unsigned i = 0; i < count_of_machines; i++)
        if (duties[i].machine == machine)
            return &duties[i];
    check(false, "a console is used that was not made");
    return NULL;
}

static struct file *file_of(int file) {
    check(file >= FIRST_FILE && file < FIRST_FILE + (int)count_of_files, "a file is used that was not made");
    return &files_made[file - FIRST_FILE];
}

static bool has_room(int file) { return file_of(file_of(file)->other)->count < ROOM; }

static short ready_events(const struct pollfd *file) {
    if (file->fd < 0)
        return 0;
    return file->events & (short)((file_of(file->fd)->count > 0 ? POLLIN : 0)
                                  | (file_of(file->fd)->is_line && has_room(file->fd) ? POLLOUT : 0));
}

static bool polls_what_is_ready(const struct thread *thread) {
    for (nfds_t i = 0; i < thread->count; i++)
        if (ready_events(&thread->files[i]))
            return true;
    return false;
}

static bool may_go_on(struct thread *thread) {
    switch (thread->state) {
    case RUNS: return true;
    case LOCKS: return !duty_of(thread->machine)->holder;
    case READS: return file_of(thread->file)->count > 0;
    case JOINS: return threads[thread->joined].state == ENDS;
    case POLLS: thread->ending = BY_FILE; return polls_what_is_ready(thread);
    default: return false;
    }
}

/* A poll that ends though no file is ready. A signal comes at times, while others run. */
static bool may_end_poll(struct thread *thread, bool is_idle) {
    if (thread->state != POLLS || polls_what_is_ready(thread))
        return false;
    thread->ending = thread->limit >= 0 ? BY_TIME : BY_SIGNAL;
    return thread->limit >= 0 ? is_idle || once_in(50) : !is_idle && once_in(100);
}

/* The thread that goes on. */
static struct thread *chosen(void) {
    struct thread *found[THREADS];
    unsigned count = 0;
    for (unsigned i = 0; i < count_of_threads; i++)
        if (may_go_on(&threads[i]) || may_end_poll(&threads[i], false))
            found[count++] = &threads[i];
    for (unsigned i = 0, others = count; i < count_of_threads; i++)
        if (others == 0 && may_end_poll(&threads[i], true))
            found[count++] = &threads[i];
    check(count > 0, "all wait for ever");
    return found[draw(count)];
}

static void wait_in(int state) {
    current->state = state;
    swapcontext(&current->context, &scheduler);
    current->state = RUNS;
}

static void begin_thread(void) {
    current->start(current->machine);
    current->state = ENDS;
}

static void make_thread(void *(*start)(void *), struct machine *machine) {
    check(count_of_threads < THREADS, "there are too many threads");
    struct thread *made = &threads[count_of_threads];
    *made = (struct thread){.start = start, .machine = machine, .state = RUNS};
    getcontext(&made->context);
    made->context.uc_stack.ss_sp = stacks[count_of_threads++];
    made->context.uc_stack.ss_size = STACK;
    made->context.uc_link = &scheduler;
    makecontext(&made->context, begin_thread, 0);
}

/* In place of the example's guest: random accesses, some of which make it ready. At times it takes all edges. */
static void *make_accesses(void *argument) {
    static const uint8_t OFFSETS[] = {0, 0, 0, 1, 2, 2, 4, 5};
    struct machine *machine = argument;
    for (unsigned i = 0; i < ACCESSES; i++) {
        uint8_t offset = OFFSETS[draw(sizeof OFFSETS)];
        current->offset = offset;
        current->byte = (uint8_t)(offset == 4 ? 0x08 | draw(2) << 4 : draw(4));
        if (once_in(3))
            guest_writes(machine, offset, current->byte);
        else
            check(guest_reads(machine, offset) == current->byte, "a guest reads another byte");
        if (once_in(2))
            file_of(machine->interrupts[0])->count = 0;
    }
    return NULL;
}

static void watched_create(pthread_t *thread, void *(*start)(void *), void *argument) {
    *thread = count_of_threads;
    make_thread(is_random && start == run_guest ? make_accesses : start, argument);
    wait_in(RUNS);
}

static void watched_join(pthread_t number) {
    check(number > 0 && number < count_of_threads, "a thread is joined that was not made");
    current->joined = (unsigned)number;
    wait_in(JOINS);
    threads[number].is_joined = true;
}

static void watched_lock(pthread_mutex_t *lock) {
    check(lock == &current->machine->lock, "a thread takes another machine's lock");
    check(duty_of(current->machine)->holder != current, "a thread takes its lock twice");
    wait_in(LOCKS);
    duty_of(current->machine)->holder = current;
}

/* ---- the calls of a console */

static bool is_loop(void) { return current->start == run_loop; }

static void check_done(const struct duty *duty) {
    check(duty->edges == 0, "an edge is not raised");
    check(!duty->is_refused, "a refusal is not told");
    check(duty->count_read == 0, "input is read and does not go in");
    check(duty->count_taken == 0, "output is taken and not consumed");
}

static void watched_unlock(pthread_mutex_t *lock) {
    struct duty *duty = duty_of(current->machine);
    check(lock == &current->machine->lock && duty->holder == current, "a thread releases a lock that it has not");
    check_done(duty);
    check(!duty->wakes, "the loop is not woken");
    duty->is_woken = false;
    duty->holder = NULL;
    wait_in(RUNS);
}

/* Returns what is left to do for a console that is called. */
static struct duty *called(const superio_console *console) {
    struct duty *duty = duty_of((struct machine *)((uintptr_t)console - offsetof(struct machine, console)));
    check(duty->holder == current, "a console is called without its lock");
    current->has_asked = false;
    return duty;
}

static superio_console_work left(struct duty *duty, superio_console_work work) {
    duty->edges = work.interrupts;
    duty->wakes |= work.wakes && !is_loop() && !duty->is_woken;
    return work;
}

static void watched_new(superio_console *console, bool is_polled) {
    check(!is_polled, "the guests do not poll");
    check(count_of_machines < MACHINES, "there are too many machines");
    struct machine *machine = (struct machine *)((uintptr_t)console - offsetof(struct machine, console));
    duties[count_of_machines++] = (struct duty){.machine = machine};
    superio_console_new(console, is_polled);
}

static superio_console_read_effects watched_read_access(superio_console *console, uint8_t offset) {
    struct duty *duty = called(console);
    check_done(duty);
    check(!is_random || offset == current->offset, "a guest reads at another offset");
    superio_console_read_effects done = superio_console_read(console, offset);
    current->byte = done.byte;
    left(duty, done.work);
    return done;
}

static superio_console_work watched_write_access(superio_console *console, uint8_t offset, uint8_t value) {
    struct duty *duty = called(console);
    check_done(duty);
    check(!is_random || (offset == current->offset && value == current->byte), "a guest writes something else");
    return left(duty, superio_console_write(console, offset, value));
}

static superio_console_receive_effects watched_receive(superio_console *console, const uint8_t *bytes, size_t count) {
    struct duty *duty = called(console);
    check(count > 0 && count == duty->count_read && memcmp(bytes, duty->input, count) == 0, "other input goes in");
    duty->count_read = 0;
    check_done(duty);
    superio_console_receive_effects done = superio_console_receive(console, bytes, count);
    check(done.accepted == count, "input is not accepted");
    left(duty, done.work);
    return done;
}

static size_t watched_output(const superio_console *console, uint8_t *bytes, size_t count) {
    check_done(called(console));
    return superio_console_output(console, bytes, count);
}

static void watched_consume(superio_console *console, size_t count) {
    struct duty *duty = called(console);
    check(count > 0 && count == duty->count_taken, "other output is consumed");
    duty->count_taken = 0;
    check_done(duty);
    superio_console_consume(console, count);
}

static superio_console_work watched_turn(superio_console *console) {
    struct duty *duty = called(console);
    check_done(duty);
    check(is_loop() && current->turns++ == 0, "there is a turn too many");
    return left(duty, superio_console_turn(console));
}

static superio_console_work watched_refuse(superio_console *console) {
    struct duty *duty = called(console);
    check(duty->is_refused, "a refusal is told that there was not");
    duty->is_refused = false;
    check_done(duty);
    bool has_to_wake = duty->wakes;
    superio_console_work work = left(duty, superio_console_refuse(console));
    happened[WOKEN_BY_REFUSAL] += duty->wakes && !has_to_wake;
    return work;
}

static superio_console_wanted watched_wants(const superio_console *console) {
    check_done(called(console));
    current->has_asked = true;
    return current->wanted = superio_console_wants(console);
}

/* ---- the system */

static bool fails(void) {
    check(!has_failed, "it goes on after a call has failed");
    errno = EMFILE;
    return has_failed = ++calls == failing_call;
}

static void stop(int given) {
    has_stopped = is_over = true;
    status = given;
    for (;;)
        swapcontext(&current->context, &scheduler);
}

static void warned(void) {
    check(current->has_to_warn, "it tells of what has not failed");
    current->has_to_warn = false;
}

static void make_files(int *numbers, struct file first, struct file second) {
    check(count_of_files + 2 <= FILES, "there are too many files");
    numbers[0] = FIRST_FILE + (int)count_of_files;
    numbers[1] = numbers[0] + 1;
    files_made[count_of_files++] = first;
    files_made[count_of_files++] = second;
}

static void make_socket(int *files, bool is_stream) {
    int other = FIRST_FILE + (int)count_of_files;
    check(is_stream, "it is another kind of socket");
    struct file first = {.other = other + 1, .is_line = true}, second = {.other = other, .is_line = true};
    make_files(files, first, second);
}

static void make_pipe(int *files) {
    struct file first = {.other = -1}, second = {.other = FIRST_FILE + (int)count_of_files};
    make_files(files, first, second);
}

static void let_not_wait(int file) { file_of(file)->does_not_wait = true; }

/* A file that a thread uses. One that waits is not used under a lock. */
static struct file *used(int number) {
    struct file *file = file_of(number);
    check(file->does_not_wait || duty_of(current->machine)->holder != current, "it may wait under its lock");
    return file;
}

static size_t take(struct file *file, void *bytes, size_t count) {
    memcpy(bytes, file->bytes, count);
    file->count -= count;
    memmove(file->bytes, file->bytes + count, file->count);
    return count;
}

static ssize_t again(void) {
    errno = once_in(2) ? EAGAIN : EINTR;
    return -1;
}

static ssize_t read_line(struct duty *duty, struct file *line, void *bytes, size_t count) {
    check_done(duty);
    check(is_loop() && duty->holder == current, "input is read without the lock");
    check(count <= superio_console_wants(&duty->machine->console).input, "more input is read than is wanted");
    size_t most = at_most(count, line->count);
    if (count > 0 && (most == 0 || once_in(8)))
        return again();
    duty->count_read = take(line, bytes, most > 0 && once_in(2) ? 1 + draw((unsigned)most) : most);
    memcpy(duty->input, bytes, duty->count_read);
    return (ssize_t)duty->count_read;
}

static ssize_t read_wake(struct file *wakes, void *bytes, size_t count) {
    check(is_loop() && current->is_woken, "it waits for what wakes it, and does not poll");
    current->is_woken = false;
    if (once_in(8)) {
        happened[FAILED_READS]++;
        current->has_to_warn = true;
        errno = EIO;
        return -1;
    }
    return (ssize_t)take(wakes, bytes, at_most(count, wakes->count));
}

static ssize_t watched_read(int number, void *bytes, size_t count) {
    struct machine *machine = current->machine;
    struct file *file = used(number);
    if (number == machine->line)
        return read_line(duty_of(machine), file, bytes, count);
    if (number == machine->wakes[0])
        return read_wake(file, bytes, count);
    check(number == machine->interrupts[0] && count == 1, "something else is read");
    if (once_in(8)) {
        happened[SLEEPS]++;
        wait_in(RUNS);
        errno = EINTR;
        return -1;
    }
    current->file = number;
    wait_in(READS);
    return (ssize_t)take(file, bytes, 1);
}

static size_t put_into(struct file *file, const void *bytes, size_t count) {
    memcpy(file->bytes + file->count, bytes, count);
    file->count += count;
    return count;
}

static ssize_t write_line(struct duty *duty, struct file *to, const void *bytes, size_t count) {
    uint8_t output[SUPERIO_CONSOLE_OUTPUT_SIZE];
    check_done(duty);
    check(is_loop() && duty->holder == current, "output is written without the lock");
    size_t waiting = superio_console_output(&duty->machine->console, output, sizeof output);
    check(count <= waiting && memcmp(bytes, output, count) == 0, "other output is written");
    size_t most = at_most(count, ROOM - to->count);
    if (count > 0 && (most == 0 || once_in(8)))
        return again();
    duty->count_taken = put_into(to, bytes, most > 0 && once_in(2) ? 1 + draw((unsigned)most) : most);
    return (ssize_t)duty->count_taken;
}

static ssize_t raise_edge(struct duty *duty, struct file *to, const void *bytes) {
    check(duty->holder == current && duty->edges > 0, "an edge is raised that nobody asks for");
    duty->edges--;
    if (to->count < ROOM_OF_PIPE && !once_in(8))
        return (ssize_t)put_into(to, bytes, 1);
    happened[REFUSED]++;
    duty->edges = 0;
    duty->is_refused = true;
    return again();
}

static ssize_t wake(struct duty *duty, struct file *to, const void *bytes) {
    check(duty->holder == current && duty->wakes, "the loop is woken for nothing");
    duty->wakes = false;
    duty->is_woken = true;
    happened[WOKEN]++;
    if (to->count < ROOM_OF_PIPE)
        return (ssize_t)put_into(to, bytes, 1);
    happened[FULL]++;
    return again();
}

static ssize_t watched_write(int number, const void *bytes, size_t count) {
    struct machine *machine = current->machine;
    struct file *file = used(number), *to = file_of(file->other);
    if (number == machine->line)
        return write_line(duty_of(machine), to, bytes, count);
    check(count == 1, "an edge or a wake is another number of bytes");
    if (number == machine->interrupts[1])
        return raise_edge(duty_of(machine), to, bytes);
    check(number == machine->wakes[1], "something else is written");
    return wake(duty_of(machine), to, bytes);
}

static void check_poll(const struct pollfd *files, nfds_t count, int limit) {
    struct machine *machine = current->machine;
    int asked = 0, wakes = 0;
    check(is_loop() && duty_of(machine)->holder != current, "a thread polls that has its lock");
    check(current->has_asked, "it polls and has not asked what is wanted");
    check(current->turns == 1 || current->polls == 0, "it polls without a turn after the last poll");
    check(!current->is_woken, "what has woken it wakes it again");
    check(!current->has_to_warn, "it does not tell of a read that failed");
    for (nfds_t i = 0; i < count; i++) {
        bool is_line = files[i].fd == machine->line;
        check(files[i].fd < 0 || is_line || files[i].fd == machine->wakes[0], "it polls another file");
        check(files[i].fd < 0 || files[i].events != 0, "it polls a file for nothing, and so for its end");
        asked |= is_line ? files[i].events : 0;
        wakes |= files[i].fd == machine->wakes[0] ? files[i].events : 0;
    }
    check(asked == ((current->wanted.input > 0 ? POLLIN : 0) | (current->wanted.output ? POLLOUT : 0)),
          "it polls the line for something else than is wanted");
    check(wakes == POLLIN, "it does not poll for what wakes it");
    check(limit == (current->wanted.turn ? 5 : -1), "its poll ends at another time");
}

static int watched_poll(struct pollfd *files, nfds_t count, int limit, size_t size) {
    int ready = 0;
    check(count == size, "it polls another number of files");
    check_poll(files, count, limit);
    happened[ONE_WANTED] += current->wanted.input == 1;
    happened[TURNS] += current->wanted.turn;
    current->files = files;
    current->count = count;
    current->limit = limit;
    wait_in(POLLS);
    current->polls++;
    current->turns = 0;
    current->has_asked = false;
    happened[TIMES] += current->ending == BY_TIME;
    happened[SIGNALS] += current->ending == BY_SIGNAL;
    errno = EINTR;
    for (nfds_t i = 0; i < count && current->ending != BY_SIGNAL; i++) {
        ready += (files[i].revents = ready_events(&files[i])) != 0;
        current->is_woken |= files[i].fd == current->machine->wakes[0] && files[i].revents;
    }
    return current->ending == BY_SIGNAL ? -1 : ready;
}

/* ---- worlds */

static void *run_main(void *unused) {
    status = example_main();
    is_over = true;
    return unused;
}

static void run_world(void) {
    unsigned steps = 0;
    world++;
    calls = count_of_threads = count_of_files = count_of_machines = 0;
    has_failed = has_stopped = is_over = false;
    said[0] = '\0';
    make_thread(run_main, NULL);
    while (!is_over) {
        check(++steps < MOST_STEPS, "it does not end");
        current = chosen();
        swapcontext(&scheduler, &current->context);
    }
}

static void check_end(void) {
    check(!has_stopped && status == 0, "the example fails");
    for (unsigned i = 1; i < count_of_threads; i++)
        check(threads[i].start == run_loop || threads[i].is_joined, "a guest's end is not waited for");
    check(is_random || strcmp(said, "3000 bytes came back, 3000 of them in order\n") == 0, "it prints something else");
    for (unsigned i = 0; i < count_of_machines && !is_random; i++) {
        struct machine *machine = duties[i].machine;
        check(!superio_console_wants(&machine->console).output && file_of(machine->line)->count == 0
              && superio_serial_fifo_capacity(&machine->console.port) == SUPERIO_SERIAL_FIFO_SIZE, "bytes are left");
    }
}

/* Each call that makes a machine fails once, and the library is another one once. */
static void run_failures(void) {
    for (failing_call = 1, has_failed = true; has_failed; failing_call++) {
        run_world();
        check(has_failed ? has_stopped && status == 1 : calls > 10, "a call fails, and the example goes on");
    }
    failing_call = 0;
    check_end();
    interface++;
    run_world();
    check(has_stopped && status == 1 && calls + count_of_machines == 0, "it goes on with another library");
    interface--;
}

int main(int count, char **arguments) {
    const char *seed = count > 1 ? arguments[1] : "";
    unsigned worlds = count > 2 ? (unsigned)atoi(arguments[2]) : 20;
    random_state = 2166136261u;
    for (; *seed; seed++)
        random_state = (random_state ^ (uint8_t)*seed) * 16777619u; /* an FNV hash */
    random_state |= 1;
    interface = SUPERIO_ABI;
    run_failures();
    for (unsigned i = 0; i < 2 * worlds; i++) {
        is_random = i % 2 == 1;
        run_world();
        check_end();
    }
    for (unsigned i = 0; i < EVENTS; i++) {
        printf("%u %s\n", happened[i], EVENT_NAMES[i]);
        check(happened[i] > 0, "this has not happened");
    }
    return 0;
}
