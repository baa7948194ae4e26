/* SPDX-License-Identifier: Apache-2.0 OR BSD-3-Clause */
/* A monitor for one serial port. */
#define _POSIX_C_SOURCE 200809L
#include <errno.h>
#include <poll.h>
#include <pthread.h>
#include <signal.h>
#include <stdlib.h>
#include <sys/eventfd.h>
#include <time.h>
#include <unistd.h>

#include <superio.h>

static superio_console console;
static pthread_mutex_t lock = PTHREAD_MUTEX_INITIALIZER; /* of the console and its interrupt */
static pthread_cond_t has_room; /* for output */
static int irq;       /* an eventfd. KVM_IRQFD connects it to the guest's interrupt controller */
static int wake_up;   /* an eventfd that wakes the event loop */
static bool is_stuck; /* the reader of the output has taken nothing for a second */
static bool is_off;   /* the guest has switched its machine off */

/* Raises the interrupts that a call asks for. Returns whether to wake the event loop. */
static bool interrupt(superio_console_work work) {
    for (int i = 0; i < work.interrupts; i++)
        if (eventfd_write(irq, 1) != 0) /* it failed: a later call asks for the interrupt again */
            return superio_console_refuse(&console).wakes || work.wakes;
    return work.wakes;
}

/* The guest reads the register at `offset` from the port's base. */
static uint8_t read_access(uint8_t offset) {
    pthread_mutex_lock(&lock);
    superio_console_read_effects done = superio_console_read(&console, offset);
    if (interrupt(done.work))
        eventfd_write(wake_up, 1);
    pthread_mutex_unlock(&lock);
    return done.byte;
}

/* The guest writes `value` to the register at `offset`. If no more output fits, the guest is held until the reader takes
 * some, or for a second. Meanwhile the lock is free. */
static void write_access(uint8_t offset, uint8_t value) {
    struct timespec end;
    clock_gettime(CLOCK_MONOTONIC, &end);
    end.tv_sec++;
    pthread_mutex_lock(&lock);
    if (interrupt(superio_console_write(&console, offset, value)))
        eventfd_write(wake_up, 1);
    while (superio_console_is_full(&console) && !is_stuck)
        is_stuck = pthread_cond_timedwait(&has_room, &lock, &end) != 0 && superio_console_is_full(&console);
    pthread_mutex_unlock(&lock);
}

/* The event loop, until the guest is off and its output is written. Neither file blocks. */
static void event_loop(int input, int output) {
    uint8_t bytes[4096];
    for (;;) {
        pthread_mutex_lock(&lock);
        superio_console_wanted wants = superio_console_wants(&console);
        bool is_over = is_off && !wants.output;
        pthread_mutex_unlock(&lock);
        if (is_over)
            return;
        struct pollfd files[] = {
            {.fd = wake_up, .events = POLLIN},
            {.fd = wants.input > 0 ? input : -1, .events = POLLIN},
            {.fd = wants.output ? output : -1, .events = POLLOUT},
        };
        poll(files, 3, wants.turn ? 5 : -1); /* milliseconds */
        if (files[0].revents)
            eventfd_read(wake_up, &(eventfd_t){0});

        pthread_mutex_lock(&lock);
        size_t wanted = superio_console_wants(&console).input; /* may have changed during the poll */
        if (files[1].revents && wanted > 0) {
            ssize_t count = read(input, bytes, wanted);
            if (count > 0)
                interrupt(superio_console_receive(&console, bytes, (size_t)count).work);
            else if (count == 0 || (errno != EAGAIN && errno != EINTR))
                input = -1; /* its end */
        }
        if (files[2].revents) {
            size_t waiting = superio_console_output(&console, bytes, sizeof bytes);
            ssize_t count = write(output, bytes, waiting);
            if (count < 0 && errno != EAGAIN && errno != EINTR)
                count = (ssize_t)waiting; /* the reader is gone, so these bytes are dropped */
            if (count > 0) {
                superio_console_consume(&console, (size_t)count);
                is_stuck = false;
                pthread_cond_broadcast(&has_room);
            }
        }
        interrupt(superio_console_turn(&console)); /* the loop goes round again: nobody has to wake it */
        pthread_mutex_unlock(&lock);
    }
}

/* Call this once, before the guest starts. */
static void open_console(void) {
    pthread_condattr_t attributes;
    if (!SUPERIO_ABI_MATCHES())
        abort(); /* the library has another interface than the header */
    pthread_condattr_init(&attributes);
    pthread_condattr_setclock(&attributes, CLOCK_MONOTONIC); /* changes to the system time do not affect a wait */
    pthread_cond_init(&has_room, &attributes);
    signal(SIGPIPE, SIG_IGN); /* a write without a reader then fails, and does not end the program */
    superio_console_new(&console, false); /* true for a guest that polls */
    irq = eventfd(0, EFD_NONBLOCK);
    wake_up = eventfd(0, EFD_NONBLOCK);
}

/* ---- What follows stands in for a virtual machine, so that this program runs. Your monitor does not need it. ---- */

#include <ctype.h>
#include <fcntl.h>

/* A driver ready for input, and a program that sends a line back in capitals. */
static void *guest(void *unused) {
    write_access(1, 0x01); /* IER: the interrupt for received data */
    for (uint8_t byte = 0; byte != '\n';) {
        poll(&(struct pollfd){.fd = irq, .events = POLLIN}, 1, -1); /* sleeps until it is interrupted */
        eventfd_read(irq, &(eventfd_t){0});
        while (!(read_access(2) & 0x01))    /* IIR: something is pending */
            while (read_access(5) & 0x01) { /* LSR: a byte is held */
                byte = read_access(0);
                write_access(0, (uint8_t)toupper(byte));
            }
    }
    pthread_mutex_lock(&lock);
    is_off = true;
    pthread_mutex_unlock(&lock);
    eventfd_write(wake_up, 1);
    return unused;
}

/* Makes standard input and output blocking or not. At the end they are blocking again, for the shell's sake. */
static void let_block(bool blocks) {
    for (int file = STDIN_FILENO; file <= STDOUT_FILENO; file++) {
        int flags = fcntl(file, F_GETFL);
        fcntl(file, F_SETFL, blocks ? flags & ~O_NONBLOCK : flags | O_NONBLOCK);
    }
}

int main(void) {
    pthread_t processor;
    open_console();
    let_block(false);
    pthread_create(&processor, NULL, guest, NULL);
    event_loop(STDIN_FILENO, STDOUT_FILENO);
    let_block(true);
    return pthread_join(processor, NULL);
}
