/* SPDX-License-Identifier: Apache-2.0 OR BSD-3-Clause */
/* The monitor: its start, the user's terminal, the event loop, and the end. */
#include "monitor.h"

#include <inttypes.h>
#include <poll.h>
#include <signal.h>
#include <termios.h>

static const char USAGE[] =
    "usage: monitor [-e] [-r] IMAGE [INITRAMFS [WORDS]]\n"
    "Boots IMAGE if it is a bzImage of Linux, with the command line WORDS. Starts any other at 0x7C00 in real mode.\n"
    "With -e the guest gets input before it has enabled its interrupt, as one that polls needs it.\n"
    "With -r it starts again when it resets the machine, which otherwise ends the monitor.\n"
    "Ctrl-A x leaves. Ctrl-A before any other key stands for that key.\n";
enum { CTRL_A = 0x01, PATIENCE = 1000, PAUSE = 5 /* milliseconds */, MOST_WRITES = 256 /* in a turn */ };

pthread_mutex_t lock = PTHREAD_MUTEX_INITIALIZER;
static struct termios before;  /* the terminal's settings, if there is one */
static int wakes;              /* an eventfd, which ends the poll of the event loop */
static const char *end_reason; /* why the monitor is to end, or NULL */
static int end_status;         /* the exit status then */
static pthread_cond_t has_room = PTHREAD_COND_INITIALIZER; /* the output has room */
static bool is_stuck;          /* the reader of the output has taken nothing for long */
static uint64_t taken;         /* how many bytes of output the reader has taken */
static uint64_t refused;       /* how many a closed pipe or a full disk has refused */
static bool restarts;          /* whether the machine starts again when the guest resets it */
static const char *image, *initramfs, *kernel_words = "console=ttyS0 reboot=k panic=1";

/* The result of a call that has to succeed. */
int must(int result, const char *what) {
    if (result < 0)
        err(1, "%s", what);
    return result;
}

/* Runs at each exit, and in the handler of signals. Without a terminal it has no effect. */
static void restore_terminal(void) {
    tcsetattr(STDIN_FILENO, TCSANOW, &before);
}

/* The first time, a signal that ends the monitor comes here. */
static void signalled(int number) {
    restore_terminal();
    raise(number);
}

static void open_terminal(void) {
    const int ending[] = {SIGHUP, SIGINT, SIGQUIT, SIGTERM, SIGSEGV, SIGBUS, SIGABRT};
    if (tcgetattr(STDIN_FILENO, &before) < 0)
        return;
    for (size_t i = 0; i < sizeof ending / sizeof *ending; i++)
        sigaction(ending[i], &(struct sigaction){.sa_handler = signalled, .sa_flags = SA_RESETHAND}, NULL);
    atexit(restore_terminal);
    struct termios raw = before;
    cfmakeraw(&raw);
    tcsetattr(STDIN_FILENO, TCSANOW, &raw);
}

void monitor_wake(void) {
    eventfd_write(wakes, 1);
}

/* The event loop ends the monitor, and the guest makes no further access. */
void monitor_end(int status, const char *why) {
    end_reason = why;
    end_status = status;
    monitor_wake();
}

bool monitor_is_ending(void) {
    return end_reason;
}

static void start_machine(void) {
    machine_create();
    boot(image, initramfs, kernel_words);
}

/* The guest resets the machine. KVM cannot reset one, so a new machine takes its place. The clock goes on, because it
 * has power all the time, and so does the reader of the output, which is outside the machine. */
void monitor_reset(void) {
    if (!restarts)
        monitor_end(0, "the guest reset the machine");
    if (end_reason)
        return;
    machine_discard();
    start_machine();
    serial_reset();
    clock_reset();
}

/* Holds the guest until the reader of its output has taken some, but for a second at most, because the reader may be a
 * guest that waits for this one. Meanwhile the lock is free. After a second the guest goes on, and what it sends is
 * dropped until the reader takes some again. Returns whether the reader took some in time. */
bool monitor_hold(void) {
    struct timespec end;
    clock_gettime(CLOCK_MONOTONIC, &end);
    end.tv_sec++;
    uint64_t before = taken; /* the reader may take some just as the time ends */
    if (!is_stuck && !end_reason)
        is_stuck = pthread_cond_clockwait(&has_room, &lock, CLOCK_MONOTONIC, &end) != 0 && taken == before;
    return !is_stuck && !end_reason;
}

/* Writes the oldest byte of the output once the terminal has room, and waits for room for `patience` milliseconds at
 * most. Since others use the terminal too, it is not set to non-blocking. A byte that it refuses for good is dropped.
 * Returns whether output goes on. */
static bool write_output(int patience) {
    struct pollfd output = {.fd = STDOUT_FILENO, .events = POLLOUT};
    uint8_t byte;
    pthread_mutex_lock(&lock);
    size_t count = serial_output(&byte, 1);
    pthread_mutex_unlock(&lock);
    if (count == 0)
        return false;
    int ready = poll(&output, 1, patience);
    bool is_written = ready > 0 && write(STDOUT_FILENO, &byte, 1) == 1;
    if (!is_written && (ready == 0 || errno == EAGAIN || errno == EINTR))
        return ready != 0;
    pthread_mutex_lock(&lock);
    serial_consume(1);
    taken++;
    refused += !is_written;
    is_stuck = false;
    pthread_cond_signal(&has_room);
    pthread_mutex_unlock(&lock);
    return true;
}

/* Ends the monitor, after the output that waits, if the terminal takes it. */
static _Noreturn void finish(void) {
    uint8_t rest[SUPERIO_CONSOLE_OUTPUT_SIZE];
    while (write_output(PATIENCE)) {}
    pthread_mutex_lock(&lock);
    uint64_t dropped = refused + serial_dropped();
    for (size_t count; (count = serial_output(rest, sizeof rest)) > 0; serial_consume(count))
        dropped += count;
    restore_terminal();
    if (dropped > 0)
        warnx("%s; %" PRIu64 " bytes of output were dropped", end_reason, dropped);
    else
        warnx("%s", end_reason);
    _exit(end_status);
}

/* What was typed and the console has not accepted. It is read even before the guest is ready, so that Ctrl-A x leaves a
 * guest that never is. */
static uint8_t typed[4096];
static size_t kept;

/* Reads what was typed, as far as there is room for it. Returns whether more may come. */
static bool read_input(void) {
    static bool is_after_ctrl_a;
    uint8_t bytes[sizeof typed];
    ssize_t count = read(STDIN_FILENO, bytes, sizeof typed - kept);
    if (count <= 0)
        return count < 0 && (errno == EAGAIN || errno == EINTR);
    for (ssize_t i = 0; i < count; i++) {
        if (is_after_ctrl_a && bytes[i] == 'x') {
            pthread_mutex_lock(&lock);
            monitor_end(0, "left by Ctrl-A x");
            pthread_mutex_unlock(&lock);
            break;
        }
        is_after_ctrl_a = bytes[i] == CTRL_A && !is_after_ctrl_a;
        if (!is_after_ctrl_a)
            typed[kept++] = bytes[i];
    }
    return true;
}

/* Makes a turn. Returns what the console waits for. */
static superio_console_wanted turn(void) {
    pthread_mutex_lock(&lock);
    size_t accepted = serial_receive(typed, kept);
    kept -= accepted;
    memmove(typed, typed + accepted, kept);
    superio_console_wanted wanted = serial_turn();
    clock_turn();
    bool is_over = end_reason;
    pthread_mutex_unlock(&lock);
    if (is_over)
        finish();
    return wanted;
}

/* The event loop. */
static _Noreturn void run(int alarm) {
    struct pollfd files[] = {{.events = POLLIN}, {.events = POLLOUT}, {.fd = wakes, .events = POLLIN},
                             {.fd = alarm, .events = POLLIN}};
    for (bool is_open = true;;) {
        superio_console_wanted wanted = turn();
        files[0].fd = is_open && kept < sizeof typed ? STDIN_FILENO : -1;
        files[1].fd = wanted.output ? STDOUT_FILENO : -1;
        if (poll(files, 4, wanted.turn ? PAUSE : -1) <= 0)
            continue;
        eventfd_t times;
        if (files[2].revents)
            eventfd_read(wakes, &times);
        if (files[0].revents)
            is_open = read_input();
        for (int i = 0; files[1].revents && i < MOST_WRITES && write_output(0); i++) {}
    }
}

int main(int count, char **words) {
    bool is_early = false, is_wrong = false;
    opterr = 0;
    for (int option; (option = getopt(count, words, "+er")) != -1;) {
        is_early |= option == 'e';
        restarts |= option == 'r';
        is_wrong |= option == '?';
    }
    count -= optind;
    if (is_wrong || count < 1 || count > 3) {
        fputs(USAGE, stderr);
        return 2;
    }
    if (!SUPERIO_ABI_MATCHES())
        errx(1, "the library has another interface than the header");
    image = words[optind];
    initramfs = words[optind + 1];
    if (count > 2)
        kernel_words = words[optind + 2];
    start_machine();
    serial_open(is_early);
    wakes = must(eventfd(0, EFD_NONBLOCK | EFD_CLOEXEC), "the event loop");
    int alarm = clock_open();
    signal(SIGPIPE, SIG_IGN);
    open_terminal();
    pthread_t thread;
    must(-(errno = pthread_create(&thread, NULL, machine_run, NULL)), "the vCPU's thread");
    run(alarm);
}
