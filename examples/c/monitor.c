/* SPDX-License-Identifier: Apache-2.0 OR BSD-3-Clause */
/*
 * Two machines whose serial ports are connected by a socket. Each has an event loop and, in place of a vCPU, a thread
 * that makes the accesses of its guest. One guest sends 3,000 bytes, and the other one sends them back.
 */
#define _POSIX_C_SOURCE 200809L
#include <err.h>
#include <errno.h>
#include <fcntl.h>
#include <poll.h>
#include <pthread.h>
#include <stdio.h>
#include <superio.h>
#include <sys/socket.h>
#include <unistd.h>

struct machine {
    pthread_mutex_t lock;
    superio_console console;
    int line;          /* its end of the socket */
    int interrupts[2]; /* a pipe in place of an interrupt controller: each byte is an edge */
    int wakes[2];      /* a pipe: a byte ends the event loop's poll */
    bool echoes;
};

/* Puts a byte into a pipe, without waiting. Returns whether there was room. */
static bool put(int file) {
    return write(file, "", 1) == 1;
}

/* Does what a call left to do. Returns whether to wake the event loop, which ignores this after its own calls. */
static bool carry_out(struct machine *machine, superio_console_work work) {
    for (int i = 0; i < work.interrupts; i++)
        if (!put(machine->interrupts[1]))
            return work.wakes | superio_console_refuse(&machine->console).wakes;
    return work.wakes;
}

static void end_access(struct machine *machine, superio_console_work work) {
    if (carry_out(machine, work))
        put(machine->wakes[1]); /* if it is full, the poll ends anyway */
    pthread_mutex_unlock(&machine->lock);
}

static void guest_writes(struct machine *machine, uint8_t offset, uint8_t value) {
    pthread_mutex_lock(&machine->lock);
    end_access(machine, superio_console_write(&machine->console, offset, value));
}

static uint8_t guest_reads(struct machine *machine, uint8_t offset) {
    pthread_mutex_lock(&machine->lock);
    superio_console_read_effects done = superio_console_read(&machine->console, offset);
    end_access(machine, done.work);
    return done.byte;
}

static void *run_loop(void *argument) {
    struct machine *machine = argument;
    for (uint8_t bytes[SUPERIO_CONSOLE_OUTPUT_SIZE];;) {
        pthread_mutex_lock(&machine->lock);
        superio_console_wanted wanted = superio_console_wants(&machine->console);
        ssize_t count = read(machine->line, bytes, wanted.input);
        if (count > 0)
            carry_out(machine, superio_console_receive(&machine->console, bytes, (size_t)count).work);
        count = write(machine->line, bytes, superio_console_output(&machine->console, bytes, sizeof bytes));
        if (count > 0)
            superio_console_consume(&machine->console, (size_t)count);
        carry_out(machine, superio_console_turn(&machine->console));
        wanted = superio_console_wants(&machine->console);
        pthread_mutex_unlock(&machine->lock);
        struct pollfd files[] = {
            {.fd = wanted.input > 0 ? machine->line : -1, .events = POLLIN}, /* at its end a line would end each poll */
            {.fd = wanted.output ? machine->line : -1, .events = POLLOUT},
            {.fd = machine->wakes[0], .events = POLLIN},
        };
        poll(files, 3, wanted.turn ? 5 : -1); /* milliseconds */
        if (files[2].revents && read(machine->wakes[0], bytes, sizeof bytes) == -1)
            warn("the event loop");
    }
    return NULL;
}

/* The guest's driver receives by interrupts, and sends by polling. */
static void *run_guest(void *argument) {
    struct machine *machine = argument;
    int sent = 0, received = 0, in_order = 0;
    uint8_t byte;
    for (guest_writes(machine, 1, 0x01); sent < 3000 && !machine->echoes; sent++) /* IER */
        guest_writes(machine, 0, (uint8_t)sent);
    while (received < 3000 && (read(machine->interrupts[0], &byte, 1) == 1 || errno == EINTR))
        while (!(guest_reads(machine, 2) & 0x01))    /* IIR: something is pending */
            while (guest_reads(machine, 5) & 0x01) { /* LSR: data is ready */
                byte = guest_reads(machine, 0);
                in_order += byte == (uint8_t)received++;
                if (machine->echoes)
                    guest_writes(machine, 0, byte);
            }
    if (!machine->echoes)
        printf("%d bytes came back, %d of them in order\n", received, in_order);
    return NULL;
}

int main(void) {
    static struct machine machines[] = {{.lock = PTHREAD_MUTEX_INITIALIZER}, {.lock = PTHREAD_MUTEX_INITIALIZER}};
    pthread_t loop, guests[2];
    int lines[2];
    if (!SUPERIO_ABI_MATCHES())
        errx(1, "the library has another interface than the header");
    if (socketpair(AF_UNIX, SOCK_STREAM, 0, lines) != 0)
        err(1, "connecting the machines");
    for (int i = 0; i < 2; i++) {
        struct machine *machine = &machines[i];
        superio_console_new(&machine->console, false);
        machine->line = lines[i];
        machine->echoes = i > 0;
        if (pipe(machine->interrupts) != 0 || pipe(machine->wakes) != 0
            || fcntl(machine->line, F_SETFL, O_NONBLOCK) != 0 || fcntl(machine->interrupts[1], F_SETFL, O_NONBLOCK) != 0
            || fcntl(machine->wakes[1], F_SETFL, O_NONBLOCK) != 0
            || pthread_create(&loop, NULL, run_loop, machine) || pthread_create(&guests[i], NULL, run_guest, machine))
            err(1, "making a machine");
    }
    return pthread_join(guests[0], NULL) || pthread_join(guests[1], NULL);
}
