/* SPDX-License-Identifier: Apache-2.0 OR BSD-3-Clause */
/*
 * Random exchanges of Xen's driver. ../monitor/exchanges.c says what they print. The handler has a processor of its own, and
 * any access may be between any two of the other processor's. The debugger's stub, which reads one byte and not IIR, is
 * there if DEBUGGER is defined.
 */
#include <stdint.h>
static uint8_t last_byte; /* of RBR, once the port is open */
#define AFTER_READ(offset, byte) (offset == 0 ? last_byte = byte : 0)
#include "world.c"
#include "../monitor/exchanges.c"
#include <setjmp.h>
#include <ucontext.h>

void KASSERT(bool is_good) {
    if (!is_good)
        fail("assertion");
}

/* ---- two processors */

enum { OTHERS, HANDLERS };
static unsigned here; /* the one that runs */
static jmp_buf places[2];
static bool is_in_handler; /* the handler has begun, and not ended */
static bool is_single;     /* the other processor does not run */

static void switch_processor(void) {
    if (_setjmp(places[here]) == 0) {
        here = !here;
        _longjmp(places[here], 1);
    }
}

static void run_handlers(void) {
    for (;;) {
        switch_processor();
        ns16550_interrupt(4, &serial, NULL);
        is_in_handler = false;
    }
}

static void make_processors(void) {
    static char stack[1 << 16];
    static ucontext_t first, second;
    getcontext(&second);
    second.uc_stack.ss_sp = stack;
    second.uc_stack.ss_size = sizeof stack;
    second.uc_link = &first;
    makecontext(&second, run_handlers, 0);
    if (_setjmp(places[OTHERS]) == 0) {
        here = HANDLERS;
        setcontext(&second);
    }
}

/* The guest takes an interrupt, or its handler goes on. */
static void go_on(void) {
    if (!is_in_handler) {
        take();
        is_in_handler = true;
    }
    switch_processor();
}
static bool can_switch(void) { return !is_single && (is_in_handler || (asked() && chip.irqaction.handler)); }

void between(void) {
    turn_between();
    if (choose(pauses) == 0 && can_switch())
        here == OTHERS ? go_on() : switch_processor();
}

/* Edges that came before are taken by nobody. */
int setup_irq(int irq, unsigned flags, struct irqaction *action) {
    if (choose(2))
        mon.edges = 0;
    return 0;
}

/* ---- locks, and the order of bytes */

static jmp_buf gives_up;
static bool is_getting;
static unsigned long taken, reads_before;
static unsigned char byte_of[2]; /* what each processor read last */
static unsigned acts_left, echoes;

bool try_lock_of(spinlock_t *lock) {
    if (lock->is_taken)
        return false;
    lock->is_taken = 1;
    reads_before = lock == &serial.rx_lock ? rbr_reads : reads_before;
    return true;
}
void cpu_relax(void) {
    if (is_getting && here == OTHERS && choose(4) == 0)
        longjmp(gives_up, 1);
    if (accesses++ > 1000000)
        fail("does not end");
    if (can_switch())
        here == OTHERS ? go_on() : switch_processor();
}
void lock_of(spinlock_t *lock) {
    while (!try_lock_of(lock))
        cpu_relax();
}
void unlock_of(spinlock_t *lock) {
    if (lock == &serial.rx_lock && rbr_reads > reads_before) {
        if (rbr_reads != reads_before + 1 || last_byte != byte_at(0, taken++))
            fail("a byte is received out of order");
        byte_of[here] = last_byte;
    }
    if (!lock->is_taken)
        fail("unlock");
    lock->is_taken = 0;
}

void take_byte(char byte, struct cpu_user_regs *regs) {
    if (byte != (byte_of[here] & 0x7f))
        fail("another byte is received");
    received++;
    if (here == HANDLERS && choose(4) < echoes)
        act(choose(2), "an echo", 7);
}

void output_byte(unsigned char byte) {
    static bool has_return;
    if (here == HANDLERS)
        return; /* an echo */
    if (byte_at(1, sent) == '\n' && !has_return) {
        if (byte != '\r')
            fail("no return is sent before a new line");
        has_return = true;
        return;
    }
    has_return = false;
    check_sent(byte);
}

/* ---- exchanges */

static void one_act(void) {
    char bytes[300];
    unsigned kind = choose(ACTS + 2), count = 1 + choose(1 + choose(300));
    kind = kind < ACTS ? kind : 8;
    acts_left--;
#ifndef DEBUGGER
    if (kind == 7)
        return;
#endif
    if (kind < 2) {
        count = kind == 1 ? output > queued : count < output - queued ? count : output - queued;
        for (unsigned i = 0; i < count; i++)
            bytes[i] = byte_at(1, queued + i);
        queued += count;
    }
    if (kind == 8 && is_in_handler)
        return;
    is_getting = kind == 7;
    is_single = kind == 8;
    if (!is_getting || setjmp(gives_up) == 0)
        act(kind, bytes, count);
    is_getting = is_single = false;
    if (sent < queued)
        fail("output waits");
}

static bool exchange(void) {
    if (!chip.irqaction.handler)
        make_processors();
    memset(com, 0, sizeof com);
    memset(ns16550_com, 0, sizeof ns16550_com);
    post_irq = false;
    taken = 0;
    is_auto = choose(2);
    echoes = choose(2);
    set_polled(choose(2));
    find_port();
    open_port();
    if (chip.fifo_size != 16 || chip.baud != (is_auto ? 9600 : 115200))
        fail("kind of port");
    acts_left = choose(40);
    for (;;) {
        if ((is_in_handler || asked()) && choose(3))
            go_on();
        else if ((arrived < input || is_turn_due()) && (acts_left == 0 || choose(2)))
            turn_with_input(choose(1 + choose(200)));
        else if (acts_left > 0)
            one_act();
        else if (is_in_handler || asked())
            go_on();
        else
            break;
    }
    if (!(port_of_monitor()->interrupt_enable & 1) || rbr_reads < received)
        fail("IER");
    return received < arrived || has_to_send();
}
