/* SPDX-License-Identifier: Apache-2.0 OR BSD-3-Clause */
/*
 * Proves, with CBMC, that no state is reachable in which a byte waits for ever: an invariant holds when the port is
 * opened (open), and each step of the guest and of the host keeps it (the other entries), whatever others do before each
 * access. So it holds after any number of steps. ../README.md has the argument.
 */

#define CUT 8 /* so many bytes a pass of the handler receives at most */

/* The loop that receives bytes in a pass of the handler, or what `received` and `looked` prove of it. */
#ifdef ANY_PASS
#define RX_CHARS receives_some
#else
#define RX_CHARS serial8250_rx_chars
#endif
/* An interrupt may end after any pass, as `whole_interrupt` says. */
#define LAST_PASS(condition) ((condition) || is_last_pass())
_Bool is_last_pass(void);
struct uart_8250_port;
unsigned short receives_some(struct uart_8250_port *port, unsigned short status);

#ifndef BUGS
#define BUGS 0 /* and UART_BUG_TXEN, if the handler runs on another processor while the port is opened */
#endif
#ifndef TYPE
#define TYPE PORT_16550A /* and PORT_8250, PORT_16450, PORT_U6_16550A */
#endif

#include "world.c"
#include "../monitor/proof.c"

void KASSERT(bool is_good) { __CPROVER_assert(is_good, "BUG_ON"); }
int tty_insert_flip_char(struct tty_port *p, unsigned char ch, char flag) {
    received++;
    return nondet_bool();
}
void *kmalloc(unsigned long size, int flags) { return NULL; }
void *memcpy(void *to, const void *from, size_t size) { return to; } /* what bytes are is left out */

/* ---- the handler, on a processor of its own: it is idle; it has begun; it is about to read IIR again; or it has read
 * IIR, something is pending, and it waits for the port's lock */

static enum { IDLE, BEGUN, RUNS, SERVES } handler;
static bool is_in_handler; /* the code that is run is the handler's own, so only the host does steps */

/* A step of the handler outside of the lock: it begins, or reads IIR. */
static void handler_step(void) {
    if (handler == IDLE && is_asked()) {
        if (mon.line != LEVEL)
            mon.edges--;
        handler = BEGUN;
    } else if (handler == BEGUN || handler == RUNS) {
        handler = read_access(UART_IIR) & UART_IIR_NO_INT ? IDLE : SERVES;
    }
}

/* ---- what others may do before an access of the guest: any number of steps of the host, and of the handler on another
 * processor up to its wait for the lock. The relation `others_may` has all of them, as `relation_*` below prove. */

/* From m, with the handler at h, others may lead to n and k. What is not named here stays. */
static bool others_may(const struct view *m, unsigned h, const struct view *n, unsigned k) {
    unsigned lost = m->pending & ~n->pending, got = n->pending & ~m->pending;
    bool is_possible = is_sane(n), was_asked = is_asked_for(m), stays_asked = is_asked_for(n);
    bool was_raised = is_rda_raised(m), stays_raised = is_rda_raised(n);
    is_possible = is_possible && n->len >= m->len && k <= SERVES && (!is_in_handler || h == k)
        && (h != SERVES || k == SERVES) && (k != RUNS || h == RUNS)
        && (k == BEGUN || (h != BEGUN && !was_asked) || stays_asked);
    bool is_kept = !lost && !(got & 2);
    return is_possible
        && (h == SERVES       ? is_kept
                : k == SERVES ? !(n->pending & 2)
                              : is_kept && (k != IDLE || (h == IDLE && !was_raised) || stays_raised));
}

static unsigned accesses;

void between(void) {
    accesses++;
    unsigned was = handler;
    look(&before, &mon);
    __CPROVER_assert(is_sane(&before), "sane before each access");
    any_changed_by_others(&mon);
    if (!is_in_handler)
        handler = nondet_unsigned();
    look(&after, &mon);
    __CPROVER_assume(others_may(&before, was, &after, handler));
}

/* ---- the invariant, while nobody has the port's lock */

static bool invariant(void) {
    struct view m;
    look(&m, &mon);
    bool is_good = is_sane(&m), is_asked = is_asked_for(&m), is_raised = is_rda_raised(&m), has_output = has_to_send();
    bool base = is_good && !(mon.port.line_control & 0x80) && mon.is_ready && up.ier < 16
        && (mon.port.interrupt_enable == up.ier || mon.port.interrupt_enable == (up.ier | UART_IER_THRI)) /* the timer's */
        && up.ier & UART_IER_RDI && state.xmit.head >= 0 && state.xmit.head < 4096 && state.xmit.tail >= 0
        && state.xmit.tail < 4096 && !up.port.lock.is_taken && flow <= STARTING
        && (flow == SETTLED || tty.is_stopped == (flow == STOPPING))
        && handler <= SERVES && (up.port.ignore_status_mask & ~0x1fu) == 0;
    /* What is to send has THRE enabled; THRE is pending if it is, unless the handler is about to serve the port. */
    bool sends = !has_output || up.ier & UART_IER_THRI;
    bool thre = handler == SERVES || !(up.ier & UART_IER_THRI) || m.pending & 2;
    return base && sends && thre && (handler == BEGUN || is_asked) && (handler != IDLE || is_raised);
}

/* Nothing is in flight, no turn is owed, the handler is idle: nothing goes on unless something comes from outside. */
static bool is_quiet(void) { return handler == IDLE && !is_asked() && !mon.has_timer; }
static bool is_all_done(void) { return mon.port.len == 0 && mon.waiting == 0 && !has_to_send(); }

/* ---- any state */

static unsigned char written[1];

static void fix_guest(void) {
    set_up_guest();
    up.port.type = TYPE;
    up.capabilities = TYPE == PORT_U6_16550A ? UART_CAP_FIFO | UART_CAP_AFE : TYPE == PORT_16550A ? UART_CAP_FIFO : 0;
    up.tx_loadsz = up.port.fifosize = TYPE == PORT_U6_16550A ? 64 : TYPE == PORT_16550A ? 16 : 1;
    state.xmit.buf = (char *)ring;
    state.port.iflags = 1;
    console.index = choose(2);
}

static void any_changing_state(void) {
    struct monitor any = nondet_monitor();
    enum line line = mon.line;
    bool can_refuse = mon.can_refuse;
    mon = any;
    mon.line = line;
    mon.can_refuse = can_refuse;
    mon.port.modem_status = 0xb0;
    mon.port.modem_control = 0x0b; /* of MCR only the bit for loopback matters to the port, of LCR only DLAB, */
    mon.port.line_control = 0x03;  /* and the driver reads neither */
    mon.port.baud_divisor_low = 1;
    mon.port.baud_divisor_high = 0;
    mon.is_ready = true;
    up.ier = nondet_unsigned();
    up.port.x_char = nondet_unsigned();
    state.xmit.head = nondet_unsigned();
    state.xmit.tail = nondet_unsigned();
    tty.is_stopped = nondet_bool();
    flow = nondet_unsigned();
    tty.termios.c_cflag = nondet_unsigned();
    tty.termios.c_iflag = nondet_unsigned();
    up.port.read_status_mask = nondet_unsigned();
    up.port.ignore_status_mask = nondet_unsigned();
    up.lcr = nondet_unsigned();
    __CPROVER_assume(!(up.lcr & 0x80));
    up.fcr = nondet_unsigned();
    up.mcr = nondet_unsigned();
    __CPROVER_assume(!(up.mcr & 0x10));
    up.port.mctrl = nondet_unsigned();
    __CPROVER_assume(!(up.port.mctrl & TIOCM_LOOP));
}

static void any_state(void) {
    fix_guest();
    up.bugs = BUGS;
    mon.line = FIRST_LINE + choose(LAST_LINE - FIRST_LINE + 1);
    mon.can_refuse = true;
    any_changing_state();
    handler = nondet_unsigned();
    __CPROVER_assume(invariant());
}

static unsigned long held_then, reads_then, writes_then; /* when the handler got the lock */
static bool sends_then;
static int tail_then;

void lock_of(spinlock_t *lock) {
    /* While the handler waits for the lock, others make any steps. */
    if (is_in_handler && lock == &up.port.lock && handler != IDLE) {
        handler = SERVES;
        any_changing_state();
        __CPROVER_assume(invariant());
        held_then = mon.port.len;
        reads_then = rbr_reads;
        writes_then = thr_writes;
        sends_then = has_to_send();
        has_read = has_written = false;
        tail_then = state.xmit.tail;
    }
    __CPROVER_assert(!lock->is_taken, "no deadlock");
    lock->is_taken = 1;
}

void unlock_of(spinlock_t *lock) { lock->is_taken = 0; }

/* ---- what is proved */

#ifdef ANY_PASS
/* While the handler has the lock: the invariant, but that somebody has it. */
static bool serves(void) {
    up.port.lock.is_taken = 0;
    bool holds = handler == SERVES && invariant();
    up.port.lock.is_taken = 1;
    return holds;
}

/* Any state in which the handler has the lock. */
static void any_serving(void) {
    any_state();
    __CPROVER_assume(handler == SERVES);
    is_in_handler = true;
    up.port.lock.is_taken = 1;
}

/* The loop of serial8250_rx_chars receives a byte, and then looks at LSR, in turn. Each of the two keeps what `serves`
 * says, so any number of them does. In place of the loop, `pass` has any state of this kind, after at least one byte.
 */
void receives(void) {
    any_serving();
    unsigned status = choose(0x10000);
    __CPROVER_assume(status & (UART_LSR_DR | UART_LSR_BI));
    bool holds_some = mon.port.len > 0;
    has_read = false;
    serial8250_read_char(&up, status);
    REACHED(has_read && mon.port.len > 0);
    REACHED(has_read && mon.port.len == 0);
    __CPROVER_assert(serves(), "a byte is received: the invariant");
    __CPROVER_assert(!(status & UART_LSR_DR) || has_read, "a byte is received: it is read out");
}

void looks(void) {
    any_serving();
    unsigned status = serial_in(&up, UART_LSR);
    REACHED(status & UART_LSR_DR);
    REACHED(!(status & UART_LSR_DR));
    __CPROVER_assert(serves(), "LSR is looked at: the invariant");
    __CPROVER_assert((status & 0xfe) == 0x60, "LSR is looked at: the transmitter is empty");
}

unsigned short receives_some(struct uart_8250_port *port, unsigned short status) {
    __CPROVER_assert(serves() && (status & 0xff) == 0x61, "the loop begins");
    any_changed_by_others(&mon); /* the driver's own state is not touched */
    __CPROVER_assume(serves());
    has_read = true;
    return 0x60 | choose(2);
}
#endif

/* The relation has no step, each step of the host, and each of the handler, and if it has two in turn, it has both. */
static struct monitor any_sane(void) {
    struct monitor m = nondet_monitor();
    struct view v;
    m.can_refuse = true;
    look(&v, &m);
    __CPROVER_assume(is_sane(&v));
    __CPROVER_assert(superio_serial_is_coherent(&m.port), "sane is coherent");
    return m;
}

static bool has_same_rest(const struct monitor *m, const struct monitor *n) {
    return m->port.interrupt_enable == n->port.interrupt_enable && m->port.line_control == n->port.line_control
        && m->port.modem_control == n->port.modem_control && m->port.modem_status == n->port.modem_status
        && m->port.baud_divisor_low == n->port.baud_divisor_low
        && m->port.baud_divisor_high == n->port.baud_divisor_high
        && m->port.scratch == n->port.scratch && m->is_ready == n->is_ready && m->line == n->line
        && m->can_refuse == n->can_refuse;
}

static bool others_made(const struct monitor *m, unsigned h, const struct monitor *n, unsigned k) {
    look(&before, m);
    look(&after, n);
    return has_same_rest(m, n) && others_may(&before, h, &after, k);
}

void relation(void) {
    struct monitor first = mon = any_sane();
    unsigned was = handler = choose(4);
    is_in_handler = nondet_bool();
    __CPROVER_assert(others_made(&first, was, &mon, handler), "relation: nothing");
    host_step();
    __CPROVER_assert(others_made(&first, was, &mon, handler), "relation: turn");
    mon = first;
    if (!is_in_handler) {
        handler_step();
        __CPROVER_assert(others_made(&first, was, &mon, handler), "relation: handler");
        REACHED(was == RUNS && handler == SERVES && mon.port.len == 64);
    }
    REACHED(is_in_handler && handler == SERVES && mon.port.len == 64);
}

void relation_twice(void) {
    struct monitor m = any_sane(), n = m, o;
    unsigned h = choose(4), k = choose(4), l = choose(4);
    is_in_handler = nondet_bool();
    any_changed_by_others(&n);
    o = n;
    any_changed_by_others(&o);
    __CPROVER_assume(others_made(&m, h, &n, k));
    __CPROVER_assume(others_made(&n, k, &o, l));
    REACHED(h == IDLE && k == BEGUN && l == SERVES);
    REACHED(is_in_handler && h == SERVES && m.port.len < n.port.len && n.port.len < o.port.len);
    __CPROVER_assert(others_made(&m, h, &o, l), "relation: twice");
}

/* Each step of the rest of the guest keeps the invariant. */
#define ACT(name, kind, count)                                                                                        \
    void name(void) {                                                                                                 \
        any_state();                                                                                                  \
        unsigned flow_then = flow;                                                                                    \
        act(kind, written, count);                                                                                    \
        REACHED(handler == IDLE && (accesses > 0 || flow != flow_then));                                              \
        REACHED(handler == SERVES && mon.port.len == 64 && (accesses > 0 || flow != flow_then));                      \
        __CPROVER_assert(invariant(), #name ": invariant");                                                           \
    }
ACT(act_write, 0, choose(5000))
ACT(act_stopped, 1, 0)
ACT(act_stop, 2, 0)
ACT(act_started, 3, 0)
ACT(act_start, 4, 0)
ACT(act_xchar, 5, 0)
ACT(act_console, 6, choose(4))
ACT(act_termios, 7, 0)
ACT(act_flush, 8, 0)
ACT(act_timer, 9, 0)

/* A turn of the event loop does. */
void host(void) {
    any_state();
    host_step();
    REACHED(handler == IDLE && mon.port.len == 64 && mon.waiting > 0);
    REACHED(handler == SERVES && (mon.is_refused || mon.line == LEVEL));
    __CPROVER_assert(invariant(), "turn: invariant");
}

/* and it interrupts the guest. */
void turns(void) {
    any_state();
    turn_interrupts(handler == BEGUN);
}

/* The handler's begin, and its read of IIR. */
void begins(void) {
    any_state();
    unsigned was = handler;
    handler_step();
    REACHED(was == IDLE && handler == BEGUN);
    REACHED(was == RUNS && handler == SERVES);
    REACHED(was == RUNS && handler == IDLE && mon.port.len == 64);
    __CPROVER_assert(invariant(), "handler's step: invariant");
}

/* A pass of the handler: it reads IIR and serves the port. */
void pass(void) {
    any_state();
    __CPROVER_assume(handler == BEGUN || handler == RUNS);
    is_in_handler = true;
    int result = up.port.handle_irq(&up.port); /* serial8250_default_handle_irq */
    handler = result ? RUNS : IDLE;
    REACHED(handler == IDLE && mon.port.len == 64);
    REACHED(handler == RUNS && held_then == 64 && sends_then && mon.port.len > 0);
    REACHED(handler == RUNS && !held_then && mon.port.len == 0 && (mon.is_refused || mon.line == LEVEL));
    __CPROVER_assert(invariant(), "pass: invariant");
    __CPROVER_assert(!result || !held_then || has_read, "pass: a byte is read out, if one is held");
    __CPROVER_assert(!result || !sends_then || has_written, "pass: a byte is sent, if one is to send");
#ifdef COUNTS /* counts make long runs slow */
    __CPROVER_assert(rbr_reads - reads_then <= 256 && thr_writes - writes_then <= up.tx_loadsz, "pass: it is bounded");
    __CPROVER_assert(up.port.ignore_status_mask & UART_LSR_DR || received == rbr_reads,
                     "pass: each byte goes to the tty layer");
#endif
}

/* The whole interrupt: serial8250_interrupt makes passes. What `pass` proves of one stands for each. It may give up
 * after any pass, so after 514 too; more than three show nothing new, since each begins with any state of the invariant.
 * If it gives up, bytes may be held that no interrupt is pending for, so without LIMIT this fails. */
static unsigned passes;
_Bool is_last_pass(void) { return passes >= 3 || nondet_bool(); }

static int a_pass(struct uart_port *port) {
    __CPROVER_assert(invariant() && (handler == BEGUN || handler == RUNS), "interrupt: invariant before each pass");
    any_changing_state();
    handler = nondet_bool() ? RUNS : IDLE;
    __CPROVER_assume(invariant());
    passes++;
    return handler == RUNS;
}

void whole_interrupt(void) {
    any_state();
    __CPROVER_assume(handler == BEGUN);
    up.port.handle_irq = a_pass;
    serial8250_interrupt(4, &info);
    REACHED(handler == RUNS && mon.port.len > 0 && !mon.was_up); /* it gives up */
    REACHED(handler == IDLE && passes == 2);
    handler = IDLE; /* also if it has given up */
    __CPROVER_assert(invariant(), "interrupt: invariant");
}

/* The invariant says that nothing waits when all is quiet. */
void quiet(void) {
    any_state();
    REACHED(is_quiet());
    __CPROVER_assert(!is_quiet() || is_all_done(), "nothing waits");
}

/* The port is opened; nothing else uses it until then. */
void open(void) {
    mon.port = superio_serial_new();
    mon.line = FIRST_LINE + choose(LAST_LINE - FIRST_LINE + 1);
    mon.can_refuse = true;
    mon.is_polled = mon.is_ready = nondet_bool();
    fix_guest();
    up.port.mctrl = nondet_unsigned();
    __CPROVER_assume(!(up.port.mctrl & TIOCM_LOOP));
    state.xmit.head = state.xmit.tail = choose(4096);
    tty.termios.c_cflag = nondet_unsigned();
    tty.termios.c_iflag = nondet_unsigned();
#ifdef ALONE
    is_in_handler = true; /* only the host makes steps */
#endif
    open_port();
    is_in_handler = false;
    REACHED(handler == IDLE && mon.port.len == 64);
    __CPROVER_assert(invariant(), "open: invariant");
#ifdef ALONE
    __CPROVER_assert(up.bugs == 0, "open: no bug is found");
#else
    REACHED(handler == SERVES && mon.is_polled);
    __CPROVER_assert(!(up.bugs & ~(UART_BUG_TXEN | UART_BUG_THRE)), "open: no other bugs are found");
#endif
}
