/* SPDX-License-Identifier: Apache-2.0 OR BSD-3-Clause */
/* What a proof says of the monitor and the port, whatever the driver is. After accesses.c. */

unsigned nondet_unsigned(void);
_Bool nondet_bool(void);
struct monitor nondet_monitor(void);

/* Each of these has to fail. This shows that its place is reached, so that what is assumed is possible. */
#define REACHED(condition) __CPROVER_assert(!(condition), "reached: " #condition)

unsigned choose(unsigned bound) {
    unsigned number = nondet_unsigned();
    __CPROVER_assume(number < bound);
    return number;
}

void input_bytes(unsigned char *bytes, unsigned count) {}
void output_byte(unsigned char byte) { sent++; }

/* The line takes levels, or edges. */
#ifdef LEVELS
enum { FIRST_LINE = LEVEL, LAST_LINE = LEVEL };
#else
enum { FIRST_LINE = SINGLE, LAST_LINE = MERGED };
#endif

static bool is_asked(void) { return mon.line == LEVEL ? mon.was_up : mon.edges > 0; }

static void host_step(void) { turn(choose(MANY)); }

/* What of the monitor and the port the relation speaks of. */
struct view {
    unsigned char len, pending, enable, status, modem_control, modem_status;
    enum line line;
    unsigned edges, waiting;
    bool was_up, is_refused, has_timer, is_ready;
};

/* IIR's 1 is nothing pending; 8 stands for what IIR never is. */
static void look(struct view *v, const struct monitor *m) {
    unsigned char iir = m->port.interrupt_identification;
    v->len = m->port.len;
    v->pending = iir == 1 ? 0 : iir == 0 ? 8 : iir;
    v->enable = m->port.interrupt_enable;
    v->status = m->port.line_status;
    v->modem_control = m->port.modem_control;
    v->modem_status = m->port.modem_status;
    v->line = m->line;
    v->edges = m->edges;
    v->waiting = m->waiting;
    v->was_up = m->was_up;
    v->is_refused = m->is_refused;
    v->has_timer = m->has_timer;
    v->is_ready = m->is_ready;
}

/* What is pending and enabled, in IIR's bits. */
static unsigned enabled(const struct view *m) { return m->pending & ((m->enable & 1) << 2 | (m->enable & 2)); }

/* The poll has its limit while bytes are held that IER lets interrupt, if LIMIT is defined. */
static bool has_limit(const struct view *m) {
#ifdef LIMIT
    return m->has_timer || m->len == 0 || !(m->enable & 1);
#else
    return m->line != LEVEL || !m->has_timer;
#endif
}

/* Holds always, also while a step is made, and while a driver tests the port. Here and below functions are called
 * before a condition, not in it: CBMC then takes a condition as one formula, and makes no branches of its parts. */
static bool is_coherent(const struct view *m) {
    bool is_up = enabled(m) != 0, is_limited = has_limit(m);
    return m->len <= SUPERIO_SERIAL_FIFO_SIZE && !(m->pending & ~6u) && (m->len > 0 || !(m->pending & 4))
        && m->status == (m->len > 0 ? 0x61 : 0x60) && m->modem_status == 0xb0 && m->enable < 16 && m->waiting <= MANY
        && m->edges <= MANY && (!m->is_ready || m->waiting == 0 || m->len > 0 || m->modem_control & 0x10)
        && m->line >= FIRST_LINE && m->line <= LAST_LINE && (m->line != MERGED || m->edges <= 1)
        && (m->line == LEVEL ? m->was_up == is_up && !m->is_refused : !m->was_up) && is_limited;
}

/* The same once it is tested. */
static bool is_sane(const struct view *m) {
    bool holds = is_coherent(m);
    return holds && !(m->modem_control & 0x10);
}

/* The guest is interrupted for what is pending, or a turn retries it, or a write of IER does. */
static bool is_asked_for(const struct view *m) {
    unsigned asks = enabled(m);
    return m->line == LEVEL
        || ((!m->pending || m->edges > 0 || m->is_refused) && (!asks || m->edges > 0 || m->has_timer));
}

/* RDA is pending if bytes are held that IER lets interrupt. */
static bool is_rda_pending(const struct view *m) { return !(m->enable & 1) || m->len == 0 || m->pending & 4; }

/* Held bytes have raised RDA, or a turn of the event loop will: it has a timer, and `turns` proves of each turn that it
 * does. */
static bool is_rda_raised(const struct view *m) {
#ifdef LIMIT
    return true;
#else
    return is_rda_pending(m);
#endif
}

/* A turn in which nothing is refused interrupts the guest for bytes that are held and IER lets interrupt, and for all
 * else that is pending and enabled, unless the guest's handler is about to read IIR. */
static void turn_interrupts(bool reads_iir) {
    struct view m;
    mon.can_refuse = false;
    host_step();
    look(&m, &mon);
    REACHED(m.len > 0 && m.enable & 1 && !reads_iir);
    REACHED(m.len == 0 && enabled(&m) && !reads_iir);
    __CPROVER_assert(is_rda_pending(&m), "turn: held bytes have raised RDA");
    __CPROVER_assert(reads_iir || !enabled(&m) || is_asked(), "turn: the guest is interrupted");
}

static void any_changed_by_others(struct monitor *m) {
    m->port.len = nondet_unsigned();
    unsigned char bits = nondet_unsigned() & 6;
    m->port.interrupt_identification = bits ? bits : 1;
    m->port.line_status = m->port.len ? 0x61 : 0x60;
    m->edges = nondet_unsigned();
    m->was_up = nondet_bool();
    m->is_refused = nondet_bool();
    m->has_timer = nondet_bool();
    m->waiting = nondet_unsigned();
}

static struct view before, after; /* what others do */
