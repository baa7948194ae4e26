/* SPDX-License-Identifier: Apache-2.0 OR BSD-3-Clause */
/*
 * Drives the machine of examples/c by the lines of demo.txt, which come on standard input, in place of its `main`, its
 * guest and its host. Prints the lines, and beside each what the host is told for it. The Makefile makes demo_machine.c:
 * machine.c, whose `interrupt` has the name `interrupt_by_edges` there.
 */
#define _POSIX_C_SOURCE 200809L
#include <ctype.h>
#include <err.h>
#include <errno.h>
#include <fcntl.h>
#include <poll.h>
#include <pthread.h>
#include <setjmp.h>
#include <signal.h>
#include <stdio.h>
#include <stdlib.h>
#include <string.h>
#include <superio.h>
#include <sys/eventfd.h>
#include <sys/timerfd.h>
#include <time.h>
#include <unistd.h>

struct machine;
enum { TIME_OF_DAY = 1000, UPTIME = 300, MONOTONIC = 77 };

/* The files of a machine, in the order in which it opens them. */
enum which { IRQ, LINE, WAKE_UP, TIMER, FILES };

static jmp_buf ended;
static char said[1 << 16];               /* what the host is told for a line */
static unsigned long long first, second; /* the numbers of the line */
static int64_t day, uptime;              /* the host's time of day, and what CLOCK_BOOTTIME shows */
static int files;                        /* so many were opened. Those of a machine are in the order of open_machine */
static unsigned parts;                   /* of a machine that were made: 1 and 2 for attributes, 4 a lock, 8 a condition */
static bool is_woken;                    /* the event loop */
static int failure = -1;                 /* how reads and writes fail in the next turn, if they do. 0 is the end */
static bool falls_asleep;                /* the guest, during the next poll */
static bool has_level, level;            /* the interrupt line is a level, and up */
static bool is_down, is_interrupted;     /* the line takes no edges. It has taken one */
static unsigned locks;                   /* that are taken: 1 and 4 are the guest's, 2 the machine's */
static size_t given;                     /* bytes of input that are left */
static bool goes_off;                    /* the timer of the alarm */
static bool is_at_rest;                  /* the event loop has ended before a move */
static bool is_late;                     /* the next time for which the guest is held ends as there is room */

static bool interrupt(struct machine *machine, superio_console_work work);
static void demo_lock(pthread_mutex_t *lock, bool is_taken);
static int demo_open(bool is_right);
static int demo_make(unsigned part, bool is_right);
static int demo_eventfd_write(int file, eventfd_t value);
static int demo_eventfd_read(int file);
static int demo_settime(int file, int flags, const struct itimerspec *time);
static int demo_gettime(clockid_t which, struct timespec *time);
static int demo_hold(const struct timespec *end);
static int demo_create(void *(*start)(void *), const struct machine *of);
static int demo_join(pthread_t thread);
static void check(bool is_good, const char *what);
static int demo_poll(struct pollfd *files, nfds_t count, int limit);
static ssize_t demo_read(int file, uint8_t *bytes, size_t count);
static ssize_t demo_write(int file, const uint8_t *bytes, size_t count);

/* These take the place of what the machine calls. The line `move` says which load gives which status. */
#define say(...) (void)sprintf(said + strlen(said), __VA_ARGS__)
#define main demo_main
#define err(status, ...) (say(__VA_ARGS__), say(", status %d\n", status), longjmp(ended, 1))
#define errx(status, ...) (say(__VA_ARGS__), say(", status %d\n", status), longjmp(ended, 1))
#define eventfd(value, flags) demo_open((value) == 0 && (flags) == EFD_NONBLOCK)
#define timerfd_create(clock, flags) demo_open((clock) == CLOCK_BOOTTIME && (flags) == TFD_NONBLOCK)
#define pthread_condattr_init(of) ((void)(of), demo_make(1, true))
#define pthread_condattr_setclock(of, clock) demo_make(2, (clock) == CLOCK_MONOTONIC)
#define pthread_mutex_init(lock, of) ((void)(lock), demo_make(4, true))
#define pthread_cond_init(room, of) ((void)(room), (void)(of), demo_make(8, parts == 7))
#define eventfd_write(file, value) demo_eventfd_write(file, value)
#define eventfd_read(file, value) ((void)(value), demo_eventfd_read(file))
#define timerfd_settime(file, flags, time, old) demo_settime(file, flags, time)
#define clock_gettime demo_gettime
#define pthread_mutex_lock(lock) demo_lock(lock, true)
#define pthread_mutex_unlock(lock) demo_lock(lock, false)
#define pthread_cond_timedwait(room, lock, end) demo_hold(end)
#define pthread_cond_broadcast(room) say("goes on\n")
#define pthread_create(thread, attributes, start, of) (*(thread) = 0, demo_create(start, of))
#define pthread_join(thread, result) demo_join(thread)
#define poll demo_poll
#define read demo_read
#define write demo_write
#define superio_console_save(...) (check(is_at_rest, "it is not at rest"), superio_console_save(__VA_ARGS__))
#define superio_console_load(...) (first == FILES + 1 ? (uint32_t)second : superio_console_load(__VA_ARGS__))
#define superio_rtc_load(...) (first == FILES + 2 ? (uint32_t)second : superio_rtc_load(__VA_ARGS__))
#include "demo_machine.c"
#undef main
#undef superio_console_save
#undef poll
#undef read
#undef write

static struct machine machine;

static void check(bool is_good, const char *what) {
    if (!is_good)
        say("%s\n", what);
}

/* ---- the host */

static bool interrupt(struct machine *interrupted, superio_console_work work) {
    if (!has_level)
        return interrupt_by_edges(interrupted, work);
    level = work.is_up;
    return work.wakes;
}

static void demo_lock(pthread_mutex_t *lock, bool is_taken) {
    unsigned bit = lock == &processor ? 1 : lock == &door ? 4 : 2;
    check(!(locks & bit) == is_taken, "a lock is taken twice, or released");
    locks ^= bit;
}

/* Opens a file, but the one that the line names by its number from 1 on. */
static int demo_open(bool is_right) {
    check(is_right, "another file is opened");
    return files++ % FILES + 1 == (int)first ? -1 : files - 1;
}

static int demo_make(unsigned part, bool is_right) {
    check(is_right, "a machine is made in another way");
    return parts |= part, 0;
}

/* Something about a device is told to the host. */
static void tell(const char *what) {
    say("%s\n", what);
    check(locks & 2, "without its lock");
}

static enum which which_is(int file) { return (enum which)(file % FILES); }

static int demo_eventfd_write(int file, eventfd_t value) {
    check(value == 1, "another number is written");
    switch (which_is(file)) {
    case IRQ:
        tell(is_down ? "interrupt refused" : "interrupt");
        is_interrupted |= !is_down;
        return is_down ? -1 : 0;
    case LINE: return tell("line up"), 0;
    case WAKE_UP: return is_woken = true, say("wake\n"), 0;
    default: return check(false, "another file is written"), -1;
    }
}

static int demo_eventfd_read(int file) {
    if (which_is(file) == LINE)
        tell("line down");
    if (which_is(file) == IRQ)
        is_interrupted = false;
    if (which_is(file) == WAKE_UP)
        check(is_woken, "the loop forgets what has not woken it");
    is_woken &= which_is(file) != WAKE_UP;
    return check(which_is(file) != TIMER, "the timer is read"), 0;
}

static int demo_settime(int file, int flags, const struct itimerspec *time) {
    char what[64] = "no alarm";
    check(which_is(file) == TIMER && flags == TFD_TIMER_ABSTIME, "another timer is set");
    if (time->it_value.tv_sec != 0)
        sprintf(what, "alarm in %lld s", (long long)time->it_value.tv_sec - uptime);
    tell(what);
    return 0;
}

static int demo_gettime(clockid_t which, struct timespec *time) {
    *time = (struct timespec){.tv_sec = which == CLOCK_BOOTTIME ? uptime : which == CLOCK_REALTIME ? day : MONOTONIC};
    return 0;
}

/* The guest is held, and nobody takes its output for a second. The wait ends without a reason, too. */
static int demo_hold(const struct timespec *end) {
    static bool is_over = true;
    tell("held");
    check(end->tv_sec == MONOTONIC + 1, "for another time");
    superio_console_consume(&machine.console, is_late);
    is_over = is_late || !is_over;
    int result = is_late || is_over ? ETIMEDOUT : 0;
    is_late = false;
    return result;
}

/* The event loop ends. The guest makes no access then, and nobody has the machine's lock. */
static int demo_join(pthread_t thread) {
    (void)thread;
    check(locks == 5 && machine.is_stopped, "the event loop does not end");
    is_at_rest = true;
    return 0;
}

/* The event loop goes on in the other machine, before the guest does. */
static int demo_create(void *(*start)(void *), const struct machine *of) {
    check(locks == 5 && start == event_loop && !of->is_stopped, "the event loop does not begin");
    return 0;
}

/* The event loop polls. What it waits for is ready, and this is its last turn. */
static int demo_poll(struct pollfd *polled, nfds_t count, int limit) {
    superio_console_wanted wanted = superio_console_wants(&machine.console);
    check(locks == 0 && count == 4 && limit == (wanted.turn ? 5 : -1), "the loop polls for another time");
    check((polled[1].fd >= 0) == (wanted.input > 0 && machine.input >= 0), "the loop polls for other input");
    check((polled[2].fd >= 0) == wanted.output, "the loop polls for other output");
    check(which_is(polled[3].fd) == TIMER && which_is(polled[0].fd) == WAKE_UP, "the loop polls other files");
    check(polled[1].fd >= -1 && polled[2].fd >= -1, "the loop polls a file that is none");
    polled[0].revents = is_woken ? POLLIN : 0;
    polled[1].revents = polled[1].fd >= 0 && given > 0 ? POLLIN : 0;
    polled[2].revents = polled[2].fd >= 0 ? POLLOUT : 0;
    polled[3].revents = goes_off ? POLLIN : 0;
    machine.is_stopped = true;
    if (falls_asleep)
        superio_console_suspend(&machine.console);
    falls_asleep = false;
    return 1;
}

/* A read or a write fails. At the end there is no error, but one from before. */
static ssize_t fail(int before) {
    errno = failure == 0 ? before : failure;
    return failure == 0 ? 0 : -1;
}

static ssize_t demo_read(int file, uint8_t *bytes, size_t count) {
    if (failure >= 0)
        return fail(EAGAIN);
    count = count < given ? count : given;
    check(file == STDIN_FILENO && locks == 2, "another file is read");
    memset(bytes, (int)second, count);
    given -= count;
    return (ssize_t)count;
}

/* What could be part of an escape sequence must not reach a terminal as it is. */
static ssize_t demo_write(int file, const uint8_t *bytes, size_t count) {
    if (failure >= 0)
        return fail(EIO);
    check(file == STDOUT_FILENO && locks == 2, "another file is written");
    for (size_t i = 0; i < count; i++)
        say(isprint(bytes[i]) && bytes[i] != '\\' ? "output: %c\n" : "output: \\x%02x\n", bytes[i]);
    return (ssize_t)count;
}

/* ---- the lines */

static void make_machine(bool is_level) {
    day = TIME_OF_DAY;
    uptime = UPTIME;
    has_level = is_level;
    is_down = is_interrupted = is_woken = level = false;
    files = parts = 0;
    open_machine(&machine, STDIN_FILENO, STDOUT_FILENO);
    check(parts == 15, "a machine is not made");
}

static void read_port(uint16_t port) {
    uint8_t byte = port_read(&machine, port); /* which may tell something */
    say("%02x\n", byte);
}

static void write_port(uint16_t port, uint8_t value) {
    port_write(&machine, port, value);
    access_served(&machine);
}

/* The guest writes so many bytes of memory, the lowest first. */
static void write_memory(unsigned long long value, unsigned count) {
    uint8_t bytes[8];
    for (unsigned i = 0; i < 8; i++)
        bytes[i] = (uint8_t)(value >> 8 * i);
    memory_write(&machine, CLOCK + first, bytes, count);
}

/* The guest reads so many bytes of memory. Shows them as one number. */
static void read_memory(unsigned count) {
    uint8_t bytes[9] = {0};
    memory_read(&machine, CLOCK + first, bytes, count); /* which may tell something */
    check(bytes[count] == 0, "more is read");
    for (unsigned i = count; i > 0; i--)
        say("%02x", bytes[i - 1]);
    say("\n");
}

/* The guest's interrupt handler runs while the guest is interrupted. It looks at IIR again after 40 bytes, as Linux's
 * handler does after 256. */
static void run_handler(void) {
    int received = 0;
    bool runs = false;
    while (has_level ? level : is_interrupted) {
        runs = true;
        is_interrupted = false;
        while (!(port_read(&machine, COM1 + 2) & 0x01))
            for (int i = 0; i < 40 && port_read(&machine, COM1 + 5) & 0x01; i++, received++) /* data ready */
                check(port_read(&machine, COM1) == 'x', "another byte is received");
    }
    if (runs)
        say("received %d\n", received);
}

/* A turn of the event loop, for so many bytes of input. */
static void make_turn(size_t count, bool is_alarm) {
    given = count;
    goes_off = is_alarm;
    machine.is_stopped = is_at_rest = false;
    event_loop(&machine);
    check(!is_woken, "what has woken the loop wakes it again");
    failure = -1;
    if (given > 0)
        say("%zu went in\n", count - given);
}

/* The host that the machine moves to has run for another time. */
static void move_machine(void) {
    static struct machine other;
    uint8_t bytes[SUPERIO_CONSOLE_SAVED_MAX];
    pthread_t loop = 0;
    say("a console of %zu bytes\n", superio_console_save(&machine.console, bytes));
    first = first == 1 || first == 2 ? first + FILES : first; /* the load of this number fails, and no file */
    parts = 0;
    open_machine(&other, STDIN_FILENO, STDOUT_FILENO);
    is_woken = is_down = is_interrupted = false; /* nothing of the old interrupt controller is left */
    uptime += UPTIME;
    move(&machine, &other, &loop);
    check(here == &other, "the guest does not go on");
    machine = other;
    is_woken = false; /* by the other file */
}

#define IS(name) (strcmp(word, name) == 0)

static void obey(const char *word) {
    if (IS("edges") || IS("level")) make_machine(IS("level"));
    else if (IS("out")) write_port((uint16_t)first, (uint8_t)second);
    else if (IS("in")) read_port((uint16_t)first);
    else if (IS("store")) write_memory(second, 4);
    else if (IS("narrow")) write_memory(second, 2);
    else if (IS("wide")) write_memory(second, 8);
    else if (IS("fetch")) read_memory((unsigned)second);
    else if (IS("handler")) run_handler();
    else if (IS("send")) for (unsigned long long i = 0; i < first; i++) write_port(COM1, (uint8_t)second);
    else if (IS("turn")) make_turn((size_t)first, false);
    else if (IS("down")) is_down = true;
    else if (IS("up")) is_down = false;
    else if (IS("time")) uptime += (int64_t)first - day, day = (int64_t)first;
    else if (IS("day")) day = (int64_t)first;
    else if (IS("late")) is_late = true;
    else if (IS("asleep")) falls_asleep = true;
    else if (IS("fail")) failure = (int)first;
    else if (IS("alarm")) make_turn(0, true);
    else if (IS("move")) move_machine();
    else check(false, "this is no line");
    if (has_level && !IS("level")) say("level %d\n", level);
}

/* Joins what the host is told. What it is told again and again stands once, with its number. */
static void join(char *joined) {
    const char *last = "";
    int number = 1;
    for (char *part = strtok(said, "\n"); part || number > 1; part = part ? strtok(NULL, "\n") : NULL) {
        bool is_again = part && strcmp(part, last) == 0;
        if (!is_again && number > 1)
            sprintf(joined + strlen(joined), " x%d", number);
        if (!is_again && part)
            sprintf(joined + strlen(joined), "%s%s", *joined ? "; " : "", part);
        number = is_again ? number + 1 : 1;
        last = part ? part : "";
    }
}

/* Carries out a line. */
static void follow(const char *line, char *joined) {
    char word[16] = "";
    first = second = locks = 0;
    said[0] = joined[0] = '\0';
    sscanf(line, "%15s %llx %llx", word, &first, &second);
    if (setjmp(ended) == 0)
        obey(word);
    join(joined);
}

int main(void) {
    static char line[1024], joined[2 * sizeof said];
    (void)demo_main;
    while (fgets(line, sizeof line, stdin)) {
        char *behind = strstr(line, "  ");
        if (*line == '#' || *line == '\n') {
            printf("%s", line);
            continue;
        }
        *(behind ? behind : strchr(line, '\n')) = '\0';
        follow(line, joined);
        if (*joined)
            printf("%-18s  %s\n", line, joined);
        else
            printf("%s\n", line);
    }
    return 0;
}
