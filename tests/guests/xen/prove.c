/* SPDX-License-Identifier: Apache-2.0 OR BSD-3-Clause */
/*
 * Proves, with CBMC, that no state is reachable in which a byte waits for ever: an invariant holds once the port is
 * opened, and each access of any processor keeps it. Before an access others may have led to any state of the invariant,
 * except for what a lock keeps from them. ../README.md has the argument.
 */
#include <stdint.h>
static void note(unsigned offset, uint8_t byte);
#define AFTER_READ(offset, byte) note(offset, byte)
#include "world.c"
#include "../monitor/proof.c"

void KASSERT(bool is_good) { __CPROVER_assert(is_good, "BUG_ON"); }

/* The handler is not idle from its begin until it reads that nothing is pending. */
static enum { IDLE, RUNS } handler;

static bool is_handlers, is_pollers; /* the code that is run is the handler's; or a poll's */
static bool is_alone;                /* nobody but the host does steps */
static bool has_tx, has_rx;          /* the code that is run holds this lock */

/* Held bytes interrupt the guest, or a turn of the event loop will. The poll's limit makes sure of that by itself. */
static bool is_input_asked_for(const struct view *m) {
#ifdef LIMIT
    return true;
#else
    return m->len == 0 || (m->line == LEVEL ? m->pending & 4 : m->edges > 0 || m->has_timer);
#endif
}

static bool invariant(void) {
    struct view m;
    look(&m, &mon);
    return is_sane(&m) && !has_divisor() && mon.is_ready && (m.enable == 1 || m.enable == 3) && !has_to_send()
        && handler <= RUNS && (handler == RUNS || (is_asked_for(&m) && is_input_asked_for(&m)));
}

static unsigned char enable_then; /* IER as others left it */

static void any_of_others(void) {
    unsigned char len = mon.port.len, enable = mon.port.interrupt_enable;
    any_changed_by_others(&mon);
    mon.port.interrupt_enable = has_tx || nondet_bool() ? enable : enable ^ 2;
    __CPROVER_assume(!has_rx || mon.port.len >= len);
    if (!is_handlers)
        handler = nondet_unsigned();
    chip.intr_works |= nondet_bool();
    __CPROVER_assume(invariant());
    enable_then = mon.port.interrupt_enable;
}

/* What the code has done until here. */
static void check_steps(void) {
    __CPROVER_assert(invariant(), "the invariant");
    __CPROVER_assert(has_tx || mon.port.interrupt_enable == enable_then, "IER is written with the lock");
}

/* While the port is opened, or the machine wakes: any turns of the event loop. */
static bool host_may(const struct view *m, const struct view *n) {
    unsigned lost = m->pending & ~n->pending, got = n->pending & ~m->pending;
    return is_coherent(n) && n->len >= m->len && !lost && !(got & ~(m->enable & 1) << 2)
        && (!is_asked_for(m) || is_asked_for(n));
}

void between(void) {
    if (!is_alone) {
        check_steps();
        any_of_others();
        return;
    }
    look(&before, &mon);
    __CPROVER_assert(is_coherent(&before), "coherent before each access");
    any_changed_by_others(&mon);
    look(&after, &mon);
    __CPROVER_assume(host_may(&before, &after));
}

static unsigned char held_then;
static unsigned passes, polls, spins;

static void note(unsigned offset, uint8_t byte) {
    if (is_alone)
        return;
    if (offset == UART_IIR && is_handlers) {
        handler = byte & UART_IIR_NOINT ? IDLE : RUNS;
        __CPROVER_assume(handler == IDLE || ++passes <= 2); /* each pass begins with any state of the invariant */
    }
    __CPROVER_assert(offset != UART_IIR || is_handlers, "only the handler reads IIR");
    __CPROVER_assume(offset != UART_IER || !is_pollers || ++polls <= 7); /* and so does each look of a poll */
    __CPROVER_assert(offset != UART_RBR || has_rx, "RBR is read with the lock");
    __CPROVER_assert(offset != UART_LSR || (byte & 0x60) == 0x60, "the transmitter is empty");
    if (offset == UART_LSR)
        held_then = byte & UART_LSR_DR;
    __CPROVER_assert(offset != UART_RBR || held_then, "RBR is read if a byte is held");
}

/* ---- locks: before the code has one, others go on */

static void has(spinlock_t *lock, bool is_taken) {
    *(lock == &serial.tx_lock ? &has_tx : &has_rx) = is_taken;
    lock->is_taken = is_taken;
}

void lock_of(spinlock_t *lock) {
    __CPROVER_assert(!lock->is_taken, "no deadlock");
    if (is_alone)
        return;
    check_steps();
    any_of_others();
    has(lock, true);
    if (lock == &serial.tx_lock) {
        serial.sync = choose(1000);
        serial.tx_log_everything = choose(1000);
        serial.tx_quench = nondet_bool();
    }
}
bool try_lock_of(spinlock_t *lock) {
    if (nondet_bool())
        return false;
    lock_of(lock);
    return true;
}
void unlock_of(spinlock_t *lock) {
    if (is_alone)
        return;
    check_steps();
    has(lock, false);
    enable_then = mon.port.interrupt_enable;
}
void cpu_relax(void) { __CPROVER_assume(++spins <= 2); } /* each further look begins with any state of the invariant */

int setup_irq(int irq, unsigned flags, struct irqaction *action) {
    mon.edges = 0; /* edges that came before are taken by nobody */
    return 0;
}

/* If it sends, it is as another processor that does. */
void take_byte(char byte, struct cpu_user_regs *regs) { received++; }

/* ---- any state */

static void is_as_opened(bool is_checked) {
#define FIELD(field, value) if (is_checked) __CPROVER_assert(field == value, #field); else field = value
    FIELD(serial.driver, &ns16550_driver);
    FIELD(serial.uart, &chip);
    FIELD(serial.state, serial_initialized);
    FIELD(serial.txbuf, alloc_xenheap_pages(0, 0));
    FIELD(serial.rx, take_byte);
    FIELD(handle, (SERHND_COM1 | SERHND_COOKED));
    FIELD(chip.io_base, 0x3f8);
    FIELD(chip.remapped_io_base, NULL);
    FIELD(chip.irq, 4);
    FIELD(chip.fifo_size, 16);
    FIELD(chip.lsr_mask, UART_LSR_THRE);
    FIELD(chip.data_bits, 8);
    FIELD(chip.stop_bits, 1);
    FIELD(chip.parity, UART_PARITY_NONE);
    FIELD(chip.clock_hz, UART_CLOCK_HZ);
    FIELD(chip.dw_usr_bsy, false);
}

static void any_monitor(void) {
    mon = nondet_monitor();
    mon.can_refuse = true;
    mon.port.modem_status = 0xb0;
    mon.port.modem_control = 0x0b; /* of MCR only the bit for loopback matters to the port, of LCR only DLAB, */
    mon.port.line_control = 0x03;  /* and the driver reads neither */
    mon.port.baud_divisor_low = 12;
    mon.port.baud_divisor_high = 0;
}

static void any_state(void) {
    is_as_opened(false);
    chip.baud = nondet_bool() ? 115200 : 9600;
    chip.intr_works = nondet_bool(); /* where the queue of output begins is left out: it is empty */
    any_monitor();
    mon.is_ready = true;
    handler = nondet_unsigned();
    __CPROVER_assume(invariant());
    enable_then = mon.port.interrupt_enable;
}

/* ---- what is proved */

/* What the host may do while the port is opened has a turn, and two in turn. */
void relation(void) {
    any_monitor();
    mon.port.modem_control = nondet_bool() ? 0x1a : 0x0b;
    look(&before, &mon);
    __CPROVER_assume(is_coherent(&before));
    __CPROVER_assert(host_may(&before, &before), "relation: nothing");
    host_step();
    look(&after, &mon);
    REACHED(after.len == 64 && after.len > before.len && after.pending == 6);
    __CPROVER_assert(host_may(&before, &after), "relation: turn");
}

void relation_twice(void) {
    struct view last;
    any_monitor();
    mon.port.modem_control = nondet_bool() ? 0x1a : 0x0b;
    look(&before, &mon);
    __CPROVER_assume(is_coherent(&before));
    any_changed_by_others(&mon);
    look(&after, &mon);
    __CPROVER_assume(host_may(&before, &after));
    any_changed_by_others(&mon);
    look(&last, &mon);
    __CPROVER_assume(host_may(&after, &last));
    REACHED(before.len < after.len && after.len < last.len && before.modem_control == 0x1a);
    __CPROVER_assert(host_may(&before, &last), "relation: twice");
}

/* Nothing is in flight, no turn is owed: nothing goes on unless something comes from outside. */
void quiet(void) {
    any_state();
    bool is_quiet = handler == IDLE && !is_asked() && !mon.has_timer;
    REACHED(is_quiet);
    __CPROVER_assert(!is_quiet || (mon.port.len == 0 && mon.waiting == 0 && !has_to_send()), "nothing waits");
}

void open(void) {
    mon.port = superio_serial_new();
    mon.line = FIRST_LINE + choose(LAST_LINE - FIRST_LINE + 1);
    mon.can_refuse = true;
    mon.is_polled = mon.is_ready = nondet_bool();
    is_alone = true;
    find_port();
    open_port();
    is_as_opened(true);
    REACHED(mon.is_polled && mon.port.len == 64);
    __CPROVER_assert(invariant(), "opened: the invariant");
}

/* The machine has slept, and the port has kept what it held. Only one processor runs, with interrupts masked. */
void resume(void) {
    any_state();
    handler = IDLE;
    __CPROVER_assume(invariant());
    is_alone = true;
    act(8, NULL, 0);
    is_alone = false;
    REACHED(mon.port.len == 64 && (mon.is_refused || mon.line == LEVEL));
    __CPROVER_assert(invariant(), "resume: the invariant");
}

void host(void) {
    any_state();
    host_step();
    REACHED(handler == IDLE && mon.port.len == 64 && (mon.is_refused || mon.line == LEVEL));
    __CPROVER_assert(invariant(), "turn: the invariant");
}

void turns(void) {
    any_state();
    turn_interrupts(handler == RUNS);
}

void begins(void) {
    any_state();
    __CPROVER_assume(handler == IDLE && is_asked());
    if (mon.line != LEVEL)
        mon.edges--;
    handler = RUNS;
    REACHED(mon.port.len == 64 && mon.line == LAST_LINE);
    __CPROVER_assert(invariant(), "the handler begins: the invariant");
}

/* The handler, with any number of passes. */
void interrupt_runs(void) {
    any_state();
    handler = RUNS;
    is_handlers = true;
    ns16550_interrupt(4, &serial, NULL);
    check_steps();
    REACHED(passes == 2 && received == 2 && mon.port.len > 0);
    REACHED(passes == 0);
    __CPROVER_assert(handler == IDLE && !has_tx && !has_rx, "the handler has ended");
}

/* A poll, by its timer, or the debugger: any number of looks. */
static void polls_by(unsigned kind) {
    any_state();
    is_pollers = true;
    act(kind, NULL, 0);
    check_steps();
    REACHED(received == 1 && handler == IDLE && mon.port.len > 0);
    __CPROVER_assert(!has_tx && !has_rx, "the locks are free");
}
void poll(void) { polls_by(6); }
void debugger(void) { polls_by(7); }

/* Each byte goes out in the call that sends it, and new lines as two. */
static void sends(unsigned kind, const char *bytes, unsigned count) {
    any_state();
    unsigned long then = thr_writes, lines = 0;
    for (unsigned i = 0; i < count; i++)
        lines += bytes[i] == '\n';
    act(kind, bytes, count);
    check_steps();
    REACHED(handler == IDLE && mon.port.len == 64 && mon.line != SINGLE);
    __CPROVER_assert(!has_tx && !has_rx, "the locks are free");
    __CPROVER_assert(kind > 1 || thr_writes - then == count + lines, "all is sent");
}
static char message[3];
static void any_message(void) {
    for (unsigned i = 0; i < sizeof message; i++)
        message[i] = nondet_unsigned();
}
void act_puts(void) {
    any_message();
    sends(0, message, choose(4));
}
void act_putc(void) {
    any_message();
    sends(1, message, 1);
}
void act_start_sync(void) { sends(2, NULL, 0); }
void act_end_sync(void) { sends(3, NULL, 0); }
void act_log_all(void) { sends(4, NULL, 0); }
void act_log_some(void) { sends(5, NULL, 0); }
