/* SPDX-License-Identifier: Apache-2.0 OR BSD-3-Clause */
/*
 * Guests that receive and send at once, over the C library and a monitor that follows superio.h. In each exchange all
 * bytes have to arrive, in order and in both directions, and no timer may be needed: once everything has come, only a
 * driver that reads IIR once, or never, or gives up, gets further turns of the event loop. Monitors that break a rule, and
 * drivers that cannot work, have to stall in some exchanges: bytes are left, and no interrupt comes. The table ROWS has them
 * all.
 *
 *     console SEED    another seed gives other exchanges
 *
 * Prints for each row how many exchanges stalled. Exits 1 at the first that does not do what its row says.
 */
#include <limits.h>
#include <stdint.h>
#include <stdio.h>
#include <stdlib.h>
#include <superio.h>

enum { RBR = 0, THR = 0, IER = 1, IIR = 2, LSR = 5 };
enum { RDA = 0x01, THRE = 0x02 };                     /* in IER */
enum { NONE_PENDING = 0x01 };                         /* in IIR */
enum { DATA_READY = 0x01, TRANSMITTER_EMPTY = 0x20 }; /* in LSR */
enum { ALL = INT_MAX };
enum { PASSES = 514 }; /* of Linux's handler at most */
enum direction { INPUT, OUTPUT };

/* How interrupts reach the guest: as edges that it takes one by one, as edges that its controller merges until it takes
 * them, or as a level. */
enum line { SINGLE, MERGED, LEVEL };

struct console;

/* What a monitor does wrong. */
enum fault {
    NO_FAULT,
    NO_TIMEOUT,      /* it never makes the character timeout */
    ONLY_IN_TURNS,   /* it makes it in turns of its event loop, and not after a read of IIR */
    DROPS_SECOND,    /* of the two interrupts of an IER write it raises one */
    NO_RETRY,        /* the first of these two is refused, so it raises neither, and never tries again */
    DROPS_AFTER_THR, /* it raises none after a THR write */
    REFUSALS,        /* nothing: interrupts for input are refused. It tries again in its next turn, and at IER writes */
    NO_RETRY_AT_IER  /* with these refusals, it does not try again at IER writes */
};

/* What may end a stall: another received byte, the driver's IER once more, a retry, a turn of the event loop. */
enum { BYTE = 1, IER_WRITE = 2, RETRY = 4, TURN = 8 };

/* How a driver goes on: by interrupts alone; by these and turns of the event loop while bytes are held; or by both, and
 * it sends by polling, without an interrupt. */
enum way { ALONE, TURNS, TURNS_AND_POLLS };

/* A driver with a monitor. */
struct row {
    const char *name;
    void (*handle)(struct console *it); /* the driver's interrupt handler */
    enum fault fault;
    enum way way;
    enum line first, last;              /* the lines that it is tried with */
    unsigned exchanges;
    unsigned ends;                      /* what ends its stalls, or 0 if it must not stall */
    bool is_long;                       /* Linux's handler gives up in its exchanges */
};

/* An exchange. */
struct console {
    superio_serial port;
    const struct row *row;
    unsigned place;                           /* of the exchange in its row */
    uint32_t random;                          /* what is drawn next */
    size_t accesses, most_accesses;           /* of the guest: so far, and at most */
    enum line line;
    unsigned interrupts;                      /* that the guest has not taken */
    bool is_refused, has_timer;               /* one was refused; and a turn comes for it */
    size_t input, arrived, offered, received; /* so many bytes in all, and in the monitor, the port and the guest */
    size_t output, queued, written, sent;     /* so many bytes in all, and in the driver, the port and the host */
    unsigned most_in_piece, most_queued;      /* of input, and of what a program sends */
    unsigned pause;                           /* accesses between two turns of the event loop, on average */
    bool has_turns;                           /* it makes turns even if no input arrives */
    unsigned stops, messages;                 /* that are still to come */
    bool is_stopped;                          /* flow control has stopped the transmitter */
    bool is_printing;                         /* the kernel prints a message */
    uint8_t enabled;                          /* IER, as the driver wants it */
};

static const char *seed;

static void check(const struct console *it, bool is_good, const char *what) {
    if (is_good)
        return;
    printf("%s, exchange %u of seed %s: %s\n", it->row->name, it->place, seed, what);
    exit(1);
}

/* A number below `bound`, by Marsaglia's xorshift. */
static unsigned draw(struct console *it, unsigned bound) {
    it->random ^= it->random << 13;
    it->random ^= it->random >> 17;
    it->random ^= it->random << 5;
    return (unsigned)((uint64_t)it->random * bound >> 32); /* faster than by a division */
}

/* The size of a piece. Most are small. */
static size_t drawn_size(struct console *it, unsigned most) { return 1 + draw(it, 1 + draw(it, most)); }

/* The byte at a place of what one side sends. */
static uint8_t byte_at(enum direction direction, size_t place) {
    return (uint8_t)(((uint32_t)(2 * place + direction) * 2654435761u) >> 24);
}

static size_t at_most(size_t number, size_t most) { return number < most ? number : most; }

/* ---- the monitor */

/* Follows each call of the port: so many edges, or the level. */
static void interrupt(struct console *it, unsigned times) {
    it->interrupts += times;
    if (it->line == MERGED)
        it->interrupts = (unsigned)at_most(it->interrupts, 1);
    if (it->line == LEVEL)
        it->interrupts = superio_serial_interrupt_line(&it->port);
}

/* How many of the interrupts that a write asks for are raised. */
static unsigned raised(enum fault fault, uint8_t offset, unsigned asked) {
    if (fault == DROPS_SECOND && asked == 2)
        return 1;
    if ((fault == NO_RETRY && asked == 2) || (fault == DROPS_AFTER_THR && offset == THR))
        return 0;
    return asked;
}

static void make_timeout(struct console *it, bool is_turn) {
    if (it->row->fault != NO_TIMEOUT && (it->row->fault != ONLY_IN_TURNS || is_turn))
        interrupt(it, superio_serial_character_timeout(&it->port));
}

/* Offers the input that has arrived, and keeps what does not fit. */
static void offer(struct console *it) {
    uint8_t bytes[SUPERIO_SERIAL_FIFO_SIZE];
    size_t count = at_most(it->arrived - it->offered, sizeof bytes);
    for (size_t i = 0; i < count; i++)
        bytes[i] = byte_at(INPUT, it->offered + i);
    superio_serial_enqueue_effects done = superio_serial_enqueue(&it->port, bytes, count);
    it->offered += done.accepted;
    if (done.interrupts > 0 && it->row->fault >= REFUSALS && draw(it, 2))
        it->is_refused = it->has_timer = true;
    else
        interrupt(it, done.interrupts);
}

/* Tries again after a refusal, unless IER disables all that is pending. */
static void retry(struct console *it) {
    unsigned due = superio_serial_interrupts_due(&it->port);
    if (!it->is_refused || due == 0)
        return;
    it->is_refused = false;
    interrupt(it, due);
}

/* The event loop makes a turn: for a piece of the input that is still to come, or for nothing. */
static void turn(struct console *it) {
    it->has_timer = false;
    make_timeout(it, true);
    retry(it);
    if (it->arrived == it->input)
        return;
    it->arrived = at_most(it->arrived + drawn_size(it, it->most_in_piece), it->input);
    offer(it);
}

/* The event loop may make a turn before each access of the guest. */
static void begin_access(struct console *it) {
    check(it, it->accesses++ < it->most_accesses, "does not end");
    if (draw(it, it->pause) == 0 && (it->has_turns || it->has_timer || it->arrived < it->input))
        turn(it);
}

static uint8_t in(struct console *it, uint8_t offset) {
    begin_access(it);
    superio_serial_read_effects done = superio_serial_read(&it->port, offset);
    interrupt(it, 0);
    if (offset == IIR && done.byte & NONE_PENDING)
        make_timeout(it, false);
    if (done.in_buffer_empty)
        offer(it);
    return done.byte;
}

static void out(struct console *it, uint8_t offset, uint8_t value) {
    begin_access(it);
    superio_serial_write_effects done = superio_serial_write(&it->port, offset, value);
    if (done.sends && !it->is_printing)
        check(it, value == byte_at(OUTPUT, it->sent++), "a byte is sent out of order");
    interrupt(it, raised(it->row->fault, offset, done.interrupts));
    if (offset == IER && it->row->fault == REFUSALS)
        retry(it);
}

/* ---- the guest, apart from its handler */

static void enable(struct console *it, uint8_t conditions) {
    if (it->enabled != conditions)
        out(it, IER, conditions);
    it->enabled = conditions;
}

/* Sends bytes until none is left, and enables no interrupt. */
static void send_by_polling(struct console *it) {
    while (!it->is_stopped && it->written < it->queued && in(it, LSR) & TRANSMITTER_EMPTY)
        out(it, THR, byte_at(OUTPUT, it->written++));
}

/* Sends, or has the port ask for bytes, if there are some and the transmitter may send. */
static void start(struct console *it) {
    if (it->row->way == TURNS_AND_POLLS)
        send_by_polling(it);
    else if (!it->is_stopped && it->written < it->queued)
        enable(it, RDA | THRE);
}

/* The kernel prints by polling, with interrupts disabled, and enables them again. */
static void print_message(struct console *it) {
    it->is_printing = true;
    out(it, IER, 0);
    for (unsigned count = draw(it, 4); count > 0; count--)
        if (in(it, LSR) & TRANSMITTER_EMPTY)
            out(it, THR, '!');
    out(it, IER, it->enabled);
    it->is_printing = false;
}

/* A program has more to send. */
static void queue(struct console *it) {
    it->queued = at_most(it->queued + drawn_size(it, it->most_queued), it->output);
}

/* The driver opens the port. By then there may be input in it, and something to send. */
static void open_port(struct console *it) {
    if (it->row->is_long)
        it->queued = it->output;
    else if (draw(it, 2))
        queue(it);
    if (draw(it, 2))
        turn(it);
    start(it);
    enable(it, it->enabled | RDA);
}

/* What another processor of the guest may do between two turns of the handler, when the port's lock is free. */
static void act(struct console *it) {
    unsigned kind = draw(it, 4);
    if (kind == 0 && it->queued < it->output) {
        queue(it);
        start(it);
    } else if (kind == 1 && it->stops > 0 && !it->is_stopped) {
        it->stops--;
        it->is_stopped = true;
    } else if (kind == 2 && it->is_stopped) {
        it->is_stopped = false;
        start(it);
    } else if (kind == 3 && it->messages > 0) {
        it->messages--;
        print_message(it);
    }
}

/* ---- handlers */

/* Reads bytes out while LSR shows some. */
static void read_out(struct console *it, unsigned most) {
    for (; most > 0 && in(it, LSR) & DATA_READY; most--) {
        uint8_t byte = in(it, RBR);
        check(it, byte == byte_at(INPUT, it->received++), "a byte is received out of order");
    }
}

/* Sends bytes, if THRE is enabled. With none left, or stopped, it disables THRE, as Linux does. */
static void transmit(struct console *it, unsigned most) {
    if (!(it->enabled & THRE))
        return;
    for (; most > 0 && !it->is_stopped && it->written < it->queued; most--)
        out(it, THR, byte_at(OUTPUT, it->written++));
    if (it->is_stopped || it->written == it->queued)
        enable(it, RDA);
}

/* As Linux's: until nothing is pending, but in 514 passes at most, it reads out at most 256 bytes, and then sends at most
 * 16. */
static void handle_linux(struct console *it) {
    for (unsigned passes = 0; passes < PASSES && !(in(it, IIR) & NONE_PENDING); passes++) {
        read_out(it, 256);
        transmit(it, 16);
        act(it);
    }
}

/* As Xen's: until nothing is pending it sends at most 16 bytes, and then reads one out. */
static void handle_xen(struct console *it) {
    while (!(in(it, IIR) & NONE_PENDING)) {
        transmit(it, 16);
        read_out(it, 1);
        act(it);
    }
}

/* In each direction at least one byte, if there is one. */
static void serve(struct console *it) {
    read_out(it, 1 + draw(it, 20));
    transmit(it, 1 + draw(it, 16));
}

/* One that reads IIR once, at its start. */
static void handle_once(struct console *it) {
    if (!(in(it, IIR) & NONE_PENDING))
        serve(it);
}

/* As skiboot's, which never reads IIR, and so never ends THRE. It goes by LSR, reads out what it has room for, and sends
 * what waits. */
static void handle_by_lsr(struct console *it) {
    read_out(it, 1 + draw(it, 20));
    send_by_polling(it);
}

/* One that reads IIR at its end too. There it finds THRE, raised by the bytes that it sent, and so acknowledges it. A
 * 16550A does the same: a read of IIR ends THRE if IIR names it. */
static void handle_and_acknowledge(struct console *it) {
    if (in(it, IIR) & NONE_PENDING)
        return;
    serve(it);
    in(it, IIR);
}

/* One that serves one direction in each interrupt, and so needs an interrupt for each. */
static void handle_one_direction(struct console *it) {
    in(it, IIR);
    if (in(it, LSR) & DATA_READY)
        read_out(it, ALL);
    else
        transmit(it, 16);
}

/* ---- exchanges */

static void take_interrupt(struct console *it) {
    it->interrupts--;
    it->row->handle(it);
}

/* Whether nothing more comes from outside, and the transmitter may send. */
static bool is_over(const struct console *it) {
    return it->arrived == it->input && it->queued == it->output && it->stops + it->messages == 0 && !it->is_stopped;
}

static void carry_on(struct console *it) {
    while (it->interrupts > 0 || it->has_timer || !is_over(it)) {
        if (it->interrupts > 0 && (is_over(it) || draw(it, 3) > 0))
            take_interrupt(it);
        else if ((it->has_timer || it->arrived < it->input) && draw(it, 2) == 0)
            turn(it);
        else
            act(it);
        if (it->interrupts == 0 && is_over(it) && it->row->way != ALONE)
            turn(it);
    }
}

/* The exchange at a place of a row. All that is drawn in it follows from these two and the seed, by an FNV hash. */
static struct console begin(const struct row *row, unsigned place) {
    static const unsigned SIZES[] = {1, 8, 64, 1000}, PAUSES[] = {2, 8, 64, 512};
    struct console it = {.port = superio_serial_new(), .row = row, .place = place};
    char text[200];
    snprintf(text, sizeof text, "%u %s %s", place, row->name, seed);
    it.random = 2166136261u;
    for (const char *digit = text; *digit; digit++)
        it.random = (it.random ^ (uint8_t)*digit) * 16777619u;
    it.random |= 1;
    it.line = (enum line)(row->first + draw(&it, row->last - row->first + 1));
    it.most_in_piece = SIZES[draw(&it, 4)];
    it.most_queued = SIZES[draw(&it, 4)];
    it.pause = PAUSES[draw(&it, 4)];
    it.has_turns = draw(&it, 2);
    it.input = draw(&it, 2) ? draw(&it, 30) : draw(&it, 1000);
    it.output = draw(&it, 2) ? draw(&it, 30) : draw(&it, 1000);
    it.stops = draw(&it, 2) ? draw(&it, 4) : 0;
    it.messages = draw(&it, 2) ? draw(&it, 12) : 0;
    if (row->is_long) {
        /* It sends in each pass but the last one. Input comes faster than it is read, and is left after that pass. */
        it.pause = 64;
        it.most_in_piece = 1000;
        it.output = 16 * (PASSES - 1) - draw(&it, 16);
        it.input = 256 * PASSES + 100 + draw(&it, 1000);
        it.stops = it.messages = 0;
    }
    if (row->fault >= REFUSALS && draw(&it, 4) > 0) {
        /* Few things come after a refusal, but the turn for it, and messages. */
        it.pause = 2;
        it.has_turns = false;
        it.input = 1;
        it.output = draw(&it, 2);
        it.messages = 12;
    }
    it.most_accesses = 200 + 12 * (it.input + it.output);
    return it;
}

/* Whether a stall ends by this: in each direction that had stalled at least one of its bytes goes on. */
static bool ends_by(struct console it, unsigned what) {
    const struct console before = it;
    it.accesses = 0;
    it.has_turns = false;
    if (what == BYTE) {
        it.arrived = ++it.input;
        offer(&it);
    } else if (what == IER_WRITE)
        out(&it, IER, it.enabled);
    else if (what == RETRY)
        interrupt(&it, superio_serial_interrupts_due(&it.port));
    else
        turn(&it);
    while (it.interrupts > 0)
        take_interrupt(&it);
    return (before.received == before.arrived || it.received > before.received)
        && (before.sent == before.queued || it.sent > before.sent);
}

/* Carries out an exchange. Returns whether it stalled, if its row says so, and what the row says ended the stall. */
static bool stalls(struct console *it) {
    open_port(it);
    carry_on(it);
    if (it->received == it->input && it->sent == it->output)
        return false;
    check(it, it->row->ends != 0, "stalls");
    for (unsigned what = BYTE; what <= TURN; what *= 2)
        check(it, ends_by(*it, what) == ((it->row->ends & what) != 0), "what ends the stall is not what should");
    return true;
}

static void run_row(const struct row *row) {
    struct console it = {.row = row};
    size_t received = 0, sent = 0;
    unsigned stalled = 0;
    for (unsigned place = 0; place < row->exchanges; place++) {
        it = begin(row, place);
        stalled += stalls(&it);
        received += it.received;
        sent += it.sent;
    }
    check(&it, stalled > 0 || row->ends == 0, "none has stalled");
    printf("%u of %u exchanges stalled: %s; %zu bytes in, %zu out\n", stalled, row->exchanges, row->name, received,
           sent);
}

static const struct row ROWS[] = {
    {"Linux", handle_linux, NO_FAULT, ALONE, SINGLE, LEVEL, 4000, 0, false},
    {"Xen", handle_xen, NO_FAULT, ALONE, SINGLE, LEVEL, 3000, 0, false},
    {"IIR once", handle_once, NO_FAULT, TURNS, SINGLE, LEVEL, 3000, 0, false},
    {"never IIR", handle_by_lsr, NO_FAULT, TURNS_AND_POLLS, SINGLE, LEVEL, 3000, 0, false},
    {"never IIR, in turns", handle_by_lsr, ONLY_IN_TURNS, TURNS_AND_POLLS, SINGLE, LEVEL, 500, 0, false},
    {"IIR once, in turns", handle_once, ONLY_IN_TURNS, TURNS, SINGLE, LEVEL, 500, 0, false},

    /* Received bytes are left. */
    {"Linux, no timeout", handle_linux, NO_TIMEOUT, ALONE, SINGLE, LEVEL, 3000, BYTE | IER_WRITE, false},
    {"Xen, no timeout", handle_xen, NO_TIMEOUT, ALONE, SINGLE, LEVEL, 500, BYTE | IER_WRITE, false},
    {"IIR once, no timeout", handle_once, NO_TIMEOUT, TURNS, SINGLE, LEVEL, 500, BYTE | IER_WRITE, false},
    {"never IIR, no timeout", handle_by_lsr, NO_TIMEOUT, TURNS_AND_POLLS, SINGLE, LEVEL, 500, BYTE | IER_WRITE, false},
    {"Linux, in turns", handle_linux, ONLY_IN_TURNS, ALONE, SINGLE, LEVEL, 2000, BYTE | IER_WRITE | TURN, false},
    {"Xen, in turns", handle_xen, ONLY_IN_TURNS, ALONE, SINGLE, LEVEL, 500, BYTE | IER_WRITE | TURN, false},

    /* The same if Linux's handler gives up, on a line that takes levels, and no turn comes. */
    {"Linux gives up", handle_linux, NO_FAULT, ALONE, LEVEL, LEVEL, 5, BYTE | IER_WRITE | TURN, true},
    {"Linux gives up, turns", handle_linux, NO_FAULT, TURNS, LEVEL, LEVEL, 1, 0, true},
    {"Linux gives up, edges", handle_linux, NO_FAULT, ALONE, SINGLE, MERGED, 1, 0, true},

    /* Bytes to send are left, whatever the monitor does. */
    {"IIR at the end", handle_and_acknowledge, NO_FAULT, TURNS, SINGLE, LEVEL, 500, BYTE | IER_WRITE, false},

    /*
     * Of the two interrupts of an IER write one is enough: both conditions are pending before it is raised, so the
     * handler finds both. Only a driver that serves one direction in each interrupt loses one by it. But such a driver
     * also stalls without a fault of the monitor, if the two are merged or the line is a level.
     */
    {"Linux, second dropped", handle_linux, DROPS_SECOND, ALONE, SINGLE, MERGED, 500, 0, false},
    {"Xen, second dropped", handle_xen, DROPS_SECOND, ALONE, SINGLE, MERGED, 500, 0, false},
    {"IIR once, second dropped", handle_once, DROPS_SECOND, TURNS, SINGLE, MERGED, 500, 0, false},
    {"one direction", handle_one_direction, NO_FAULT, ALONE, SINGLE, SINGLE, 500, 0, false},
    {"one direction, second dropped", handle_one_direction, DROPS_SECOND, ALONE, SINGLE, SINGLE, 2000, IER_WRITE, false},
    {"one direction, merged", handle_one_direction, NO_FAULT, ALONE, MERGED, LEVEL, 500, IER_WRITE, false},

    /* Both conditions are pending, so neither a byte nor an IER write raises one again. */
    {"Linux, no retry", handle_linux, NO_RETRY, ALONE, SINGLE, MERGED, 500, RETRY, false},
    {"Xen, no retry", handle_xen, NO_RETRY, ALONE, SINGLE, MERGED, 500, RETRY, false},
    {"IIR once, no retry", handle_once, NO_RETRY, TURNS, SINGLE, MERGED, 500, RETRY, false},

    /* RDA is pending, was refused, and IER disabled it when it was tried again. */
    {"Linux, refusals", handle_linux, REFUSALS, ALONE, SINGLE, MERGED, 1000, 0, false},
    {"Linux, no retry at IER", handle_linux, NO_RETRY_AT_IER, ALONE, SINGLE, MERGED, 3000, RETRY | TURN, false},

    /* THRE is pending. A handler that reads IIR until nothing is pending finds it without an interrupt. */
    {"Linux, none after THR", handle_linux, DROPS_AFTER_THR, ALONE, SINGLE, MERGED, 500, 0, false},
    {"Xen, none after THR", handle_xen, DROPS_AFTER_THR, ALONE, SINGLE, MERGED, 500, 0, false},
    {"IIR once, none after THR", handle_once, DROPS_AFTER_THR, TURNS, SINGLE, MERGED, 500, BYTE | RETRY, false},
};

int main(int count, char **arguments) {
    seed = count > 1 ? arguments[1] : "";
    for (size_t i = 0; i < sizeof ROWS / sizeof *ROWS; i++)
        run_row(&ROWS[i]);
    return 0;
}
