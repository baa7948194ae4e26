/* SPDX-License-Identifier: Apache-2.0 OR BSD-3-Clause */
/* A guest's accesses by the functions of docs/C.md, which stand before this file, also with its other lines in
 * them: LOSES, LEVELS or STOPS_POLLING is 1 if the lines for this are there. Beside each access, the calls that
 * docs/USING.md tells of are made on a copy of the console. The console, the interrupt and the event loop then have to
 * get the same. The first access that is another ends the program with status 1, and is named. */
#include <stdio.h>
#include <string.h>

enum { ACCESSES = 20000 };

static superio_console copy;
static eventfd_t room;   /* how many edges the line takes. It refuses the next one */
static eventfd_t raised; /* what the line has to get. A line of levels gets 1 if it goes down, and 2 if it goes up */
static bool is_up, wakes;

static eventfd_t take(int file) {
    eventfd_t count = 0;
    eventfd_read(file, &count);
    return count;
}

static void do_work(superio_console_work work) {
    wakes |= work.wakes;
    if (LEVELS) {
        raised += work.is_up == is_up ? 0 : 1 + work.is_up;
        is_up = work.is_up;
    } else if (work.interrupts <= room) {
        raised += work.interrupts;
    } else {
        raised = room;
        wakes |= superio_console_refuse(&copy).wakes;
    }
}

static void do_write(uint8_t offset, uint8_t value) {
    if (LOSES && offset == 1)
        wakes |= superio_console_refuse(&copy).wakes;
    do_work(superio_console_write(&copy, offset, value));
    bool is_woken = wakes;
    if (STOPS_POLLING && offset == 1 && copy.port.interrupt_enable & 0x01)
        do_work(superio_console_set_polled(&copy, false));
    wakes = is_woken;
}

static bool is_same(void) {
    uint8_t saved[SUPERIO_CONSOLE_SAVED_MAX], wanted[SUPERIO_CONSOLE_SAVED_MAX];
    size_t count = superio_console_save(&console, saved);
    return count == superio_console_save(&copy, wanted) && memcmp(saved, wanted, count) == 0;
}

/* What the event loop may have done before an access: it brings input, takes output, and makes a turn. */
static void prepare(void) {
    static const uint8_t typed[16];
    interrupt(superio_console_receive(&console, typed, (size_t)rand() % sizeof typed).work);
    superio_console_consume(&console, (size_t)rand() % 16);
    if (rand() % 4 > 0)
        interrupt(superio_console_turn(&console));
    take(irq);
    copy = console;
    is_up = superio_serial_interrupt_line(&copy.port);
    raised = wakes = false;
    room = (eventfd_t)rand() % 3;
}

static const char *access_once(bool is_write, uint8_t offset, uint8_t value) {
    eventfd_t before = LEVELS ? 0 : UINT64_MAX - 1 - room; /* an eventfd holds no more than UINT64_MAX - 1 */
    uint8_t shown = 0, wanted = 0;
    eventfd_write(irq, before);
    if (is_write) {
        do_write(offset, value);
        write_access(offset, value);
    } else {
        superio_console_read_effects done = superio_console_read(&copy, offset);
        do_work(done.work);
        wanted = done.byte;
        shown = read_access(offset);
    }
    if (pthread_mutex_trylock(&lock) != 0)
        return "the lock is not free";
    pthread_mutex_unlock(&lock);
    if (take(irq) - before != raised)
        return "the line gets something else";
    if ((take(wake_up) > 0) != wakes)
        return "the event loop is woken for nothing, or is not woken";
    return shown == wanted && is_same() ? NULL : "the console is another";
}

int main(void) {
    const char *wrong = NULL;
    irq = eventfd(0, EFD_NONBLOCK);
    wake_up = eventfd(0, EFD_NONBLOCK);
    is_stuck = true; /* the guest is not held */
    for (int i = 0; i < ACCESSES && !wrong; i++) {
        if (i % 200 == 0) {
            interrupt(superio_console_reset(&console));
            superio_console_new(&console, i % 400 == 0);
        }
        prepare();
        wrong = access_once(rand() % 2, (uint8_t)(rand() % 8), (uint8_t)(rand() % 4 ? rand() % 4 : rand()));
    }
    puts(wrong ? wrong : "each access is right");
    return wrong != NULL;
}
