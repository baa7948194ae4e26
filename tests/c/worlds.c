/* SPDX-License-Identifier: Apache-2.0 OR BSD-3-Clause */
/*
 * Worlds of guests, event loops and interrupt controllers around consoles, over the C library: as those of
 * rust/superio/tests/all/console.rs, whose settings these are. All comes to rest with nothing lost, whatever comes
 * between: refusals, resets, suspends, saves and loads, slow readers, or another machine at the other end of the line.
 *
 * 1. At rest all input is read that a driver wants, all is sent that the guest has, and all output is taken, in order.
 * 2. An event loop sleeps on what the console wanted last, until its poll returns or a guest's call wakes it.
 * 3. A driver that reads IIR until nothing is pending leaves no byte when it is idle, unless an interrupt was refused.
 * 4. Bytes that another driver leaves interrupt it before the limit of the poll is over.
 * 5. A guest that is held while the output is full loses none.
 * 6. No input goes in before a driver that does not poll has tested its port, or while the guest sleeps.
 *
 * And consoles of any bytes, of which each call says what the struct shows.
 *
 *     worlds SEED COUNT    so many of each; another seed gives other ones
 *
 * Exits 1 at the first that does something else.
 */
#include <setjmp.h>
#include <stdio.h>
#include <stdlib.h>
#include <string.h>
#include <superio.h>

#include "random.h"

enum { RBR = 0, THR = 0, IER = 1, IIR = 2, LCR = 3, MCR = 4, LSR = 5, MSR = 6, SCR = 7 };
enum { RDA = 0x01, THRE = 0x02 }; /* in IER */
enum { NONE_PENDING = 0x01, DATA_READY = 0x01, DLAB = 0x80, LOOPBACK = 0x10 };
/* The limit of a poll while a turn is wanted, in steps of the clock; how often a driver reads IIR in a run at most; and
 * the steps in which a world has to come to rest. */
enum { LIMIT = 100, PASSES = 40, MOST_STEPS = 100000 };
enum { ROOM = 8192 };

enum handler { UNTIL_NONE, ONCE, NEVER };     /* how a driver reads IIR. The last one polls */
enum phase { OFF, POLLS, DRIVES, SLEEPS };    /* what a guest does */
enum thread { GUEST, LOOP };                  /* which makes a call */

/* In what worlds differ. Of chances, 8 means once in eight times. */
struct setting {
    bool is_level;                 /* the interrupt controller takes levels, or else edges */
    enum handler handler;
    unsigned takes, sends;         /* bytes that the driver takes and sends in a pass */
    bool tests_port, has_loader;   /* it tests the port first; before it, a loader polls */
    unsigned refusals;             /* so many edges may be refused */
    bool loses_controller;         /* a load finds an interrupt controller that knows nothing */
    bool offers_stale;             /* the loop offers what it polled for, even if less is wanted now */
    unsigned loop_runs;            /* the chance that time passes between two accesses */
    unsigned machine, events;      /* that the machine is reset, suspended or moved, and how often it may be */
    unsigned typed, sent;          /* bytes that come, and that a guest sends */
    unsigned reader_turns;         /* the chance that the reader of the output begins to rest, or goes on */
    unsigned pipe;                 /* what fits between the event loop and the reader */
    bool is_joined, holds;         /* two machines read each other; the first is held while its output is full */
};

/* Bytes in order. */
struct queue {
    uint8_t bytes[ROOM];
    size_t head, count;
};

struct machine {
    superio_console console;
    struct queue held, output;     /* what the console holds, by its calls */
    struct queue to_send;          /* by the guest */
    bool is_interrupted;           /* a level, or an edge that waits */
    superio_console_wanted polled; /* what the event loop sleeps on, */
    unsigned slept_at;             /* and since when */
    bool is_woken;
    enum phase phase;
    unsigned sleeps_until;
    bool has_read_none, has_left;  /* the driver has ended a run so; bytes are left to it since `left_at` */
    unsigned left_at;
    unsigned sends;                /* how much it may still send */
    unsigned received;             /* so much input has gone in since it was reset, or fell asleep */
    jmp_buf stopped;               /* it comes to no further access */
};

static struct setting setting;
static struct machine machines[2];
static struct queue pipes[2]; /* machine 0 reads the first, and writes to the second. Another does the reverse */
static unsigned world, moment, refusals, events, typed, count_of_machines;
static bool is_resting;

static void check(bool is_good, const char *what) {
    if (is_good)
        return;
    printf("world %u: %s; handler %d, takes %u, level %d, joined %d, refusals %u\n", world, what, (int)setting.handler,
           setting.takes, setting.is_level, setting.is_joined, setting.refusals);
    exit(1);
}

static unsigned chosen(const unsigned *list, unsigned count) { return list[draw(count)]; }

#define ONE_OF(...) chosen((const unsigned[]){__VA_ARGS__}, sizeof((const unsigned[]){__VA_ARGS__}) / sizeof(unsigned))

static size_t at_most(size_t number, size_t most) { return number < most ? number : most; }

static void push(struct queue *queue, uint8_t byte) {
    check(queue->count < ROOM, "a queue of the test is full");
    queue->bytes[(queue->head + queue->count++) % ROOM] = byte;
}

static uint8_t byte_in(const struct queue *queue, size_t place) { return queue->bytes[(queue->head + place) % ROOM]; }

static void drop(struct queue *queue, size_t count) {
    queue->head += count;
    queue->count -= count;
}

static void draw_setting(void) {
    bool is_flood = once_in(60);
    setting = (struct setting){.is_level = once_in(2)};
    setting.handler = (enum handler)ONE_OF(UNTIL_NONE, UNTIL_NONE, ONCE, ONCE, NEVER);
    setting.takes = ONE_OF(1, 4, 16, 256);
    setting.sends = ONE_OF(1, 16);
    setting.tests_port = !once_in(4);
    setting.has_loader = once_in(4);
    setting.refusals = setting.is_level ? 0 : ONE_OF(0, 0, 5, 20);
    setting.loses_controller = once_in(2);
    setting.offers_stale = once_in(2);
    setting.loop_runs = ONE_OF(2, 8, 64);
    setting.machine = ONE_OF(20, 100, 500);
    setting.events = ONE_OF(0, 0, 1, 4);
    setting.typed = ONE_OF(0, 20, 200);
    setting.sent = is_flood ? 6000 : ONE_OF(0, 20, 200);
    setting.reader_turns = is_flood ? 400 : ONE_OF(4, 40);
    setting.pipe = ONE_OF(1, 50, 500);
    setting.is_joined = once_in(4);
    setting.holds = once_in(2);
}

/* ---- the monitor */

static void carry_out(struct machine *machine, superio_console_work work, enum thread thread) {
    if (work.wakes && thread == GUEST)
        machine->is_woken = true;
    if (setting.is_level) {
        machine->is_interrupted = work.is_up;
        return;
    }
    for (unsigned i = 0; i < work.interrupts; i++) {
        if (refusals > 0 && once_in(2)) {
            refusals--;
            if (superio_console_refuse(&machine->console).wakes && thread == GUEST)
                machine->is_woken = true;
            return;
        }
        machine->is_interrupted = true;
    }
}

static void take_input(struct machine *machine, struct queue *pipe) {
    uint8_t bytes[SUPERIO_SERIAL_FIFO_SIZE];
    size_t now = superio_console_wants(&machine->console).input;
    size_t wanted = setting.offers_stale ? machine->polled.input : now;
    if (wanted == 0 || pipe->count == 0)
        return;
    size_t count = at_most(1 + draw((unsigned)wanted), pipe->count);
    for (size_t i = 0; i < count; i++)
        bytes[i] = byte_in(pipe, i);
    superio_console_receive_effects done = superio_console_receive(&machine->console, bytes, count);
    check(done.accepted == at_most(count, now), "it takes another number of bytes than it wants");
    for (size_t i = 0; i < done.accepted; i++)
        push(&machine->held, bytes[i]);
    machine->received += (unsigned)done.accepted;
    drop(pipe, done.accepted);
    carry_out(machine, done.work, LOOP);
}

static void pass_output(struct machine *machine, struct queue *pipe) {
    uint8_t bytes[ROOM];
    size_t room = setting.pipe - pipe->count, most = room > 0 ? 1 + draw((unsigned)room) : 0;
    size_t count = superio_console_output(&machine->console, bytes, most);
    check((count > 0) == (most > 0 && machine->output.count > 0) && count <= most, "output is shown or not");
    for (size_t i = 0; i < count; i++) {
        check(bytes[i] == byte_in(&machine->output, i), "output is in another order");
        push(pipe, bytes[i]);
    }
    drop(&machine->output, count);
    superio_console_consume(&machine->console, count);
}

/* The event loop of a machine goes on if its poll returns. */
static void run_loop(struct machine *machine, struct queue *input, struct queue *output) {
    bool is_due = machine->polled.turn && moment - machine->slept_at >= LIMIT;
    bool has_input = machine->polled.input > 0 && input->count > 0;
    bool has_room = machine->polled.output && output->count < setting.pipe;
    if (!machine->is_woken && !has_input && !has_room && !is_due)
        return;
    machine->is_woken = false;
    take_input(machine, input);
    pass_output(machine, output);
    carry_out(machine, superio_console_turn(&machine->console), LOOP);
    machine->polled = superio_console_wants(&machine->console);
    machine->slept_at = moment;
}

/* Time passes, in which each event loop may run, and the terminal may read and type. */
static void pass_time(void) {
    moment++;
    for (unsigned i = 0; i < count_of_machines; i++)
        run_loop(&machines[i], &pipes[i], &pipes[1 - i]);
    if (setting.is_joined)
        return;
    is_resting ^= once_in(setting.reader_turns);
    if (!is_resting)
        drop(&pipes[1], at_most(draw(100), pipes[1].count));
    if (typed > 0 && once_in(8))
        for (unsigned count = (unsigned)at_most(1 + draw(80), typed); count > 0; count--, typed--)
            push(&pipes[0], (uint8_t)draw(256));
}

/* Another monitor goes on with the machine, whose struct had other contents before. */
static void move(struct machine *machine) {
    uint8_t saved[SUPERIO_CONSOLE_SAVED_MAX], again[SUPERIO_CONSOLE_SAVED_MAX];
    size_t count = superio_console_save(&machine->console, saved);
    memset(&machine->console, 0xA5, sizeof machine->console);
    check(superio_console_load(&machine->console, saved, count) == SUPERIO_LOAD_OK, "a saved console is refused");
    check(superio_console_save(&machine->console, again) == count && memcmp(saved, again, count) == 0,
          "a loaded console is another one");
    machine->is_woken = true;
    if (setting.loses_controller) {
        machine->is_interrupted = false;
        carry_out(machine, superio_console_refuse(&machine->console), GUEST);
    }
    carry_out(machine, superio_console_turn(&machine->console), GUEST);
}

static void reset(struct machine *machine) {
    machine->phase = OFF;
    machine->is_interrupted = false;
    machine->to_send.count = machine->held.count = machine->received = 0;
    carry_out(machine, superio_console_reset(&machine->console), GUEST);
}

static void suspend(struct machine *machine) {
    machine->phase = SLEEPS;
    machine->sleeps_until = moment + draw(3 * LIMIT);
    machine->received = 0;
    superio_console_suspend(&machine->console);
}

/* Between two accesses of a guest anything may happen. */
static void between(struct machine *machine) {
    if (once_in(setting.loop_runs))
        pass_time();
    if (events == 0 || !once_in(setting.machine))
        return;
    events--;
    unsigned kind = draw(4);
    if (kind > 1) {
        move(machine);
        return;
    }
    (kind == 0 ? reset : suspend)(machine);
    longjmp(machine->stopped, 1);
}

/* ---- the guest */

static void step(struct machine *machine);

static uint8_t in(struct machine *machine, uint8_t offset) {
    superio_console_read_effects done = superio_console_read(&machine->console, offset);
    if (offset == RBR) {
        uint8_t oldest = machine->held.count > 0 ? byte_in(&machine->held, 0) : 0;
        check(done.byte == oldest, "input is in another order");
        drop(&machine->held, machine->held.count > 0);
    }
    carry_out(machine, done.work, GUEST);
    between(machine);
    return done.byte;
}

static void hold(void) {
    for (unsigned steps = MOST_STEPS; superio_console_is_full(&machines[0].console); steps--) {
        check(steps > 0, "the output never has room");
        pass_time();
        if (setting.is_joined)
            step(&machines[1]);
    }
}

static void out(struct machine *machine, uint8_t offset, uint8_t value) {
    bool is_data = offset == THR && !(machine->console.port.line_control & DLAB);
    if (is_data && machine->console.port.modem_control & LOOPBACK) {
        if (machine->held.count < SUPERIO_SERIAL_FIFO_SIZE)
            push(&machine->held, value);
    } else if (is_data && machine->output.count < SUPERIO_CONSOLE_OUTPUT_SIZE)
        push(&machine->output, value);
    carry_out(machine, superio_console_write(&machine->console, offset, value), GUEST);
    if (setting.holds && machine == machines)
        hold();
    between(machine);
}

static void set_polled(struct machine *machine, bool is_polled) {
    carry_out(machine, superio_console_set_polled(&machine->console, is_polled), GUEST);
}

/* The driver takes, or sends, as many bytes as it does in one pass. After the last it disables the interrupt. */
static void take(struct machine *machine) {
    for (unsigned i = 0; i < setting.takes && in(machine, LSR) & DATA_READY; i++)
        in(machine, RBR);
}

static void transmit(struct machine *machine) {
    for (unsigned i = 0; i < setting.sends && machine->to_send.count > 0; i++) {
        uint8_t byte = byte_in(&machine->to_send, 0);
        drop(&machine->to_send, 1);
        out(machine, THR, byte);
    }
    if (machine->to_send.count == 0 && setting.handler != NEVER)
        out(machine, IER, in(machine, IER) & (uint8_t)~THRE);
}

/* The driver tests its port, much as Linux does, throws away what it finds in the FIFO, and enables the interrupt. */
static void start_driver(struct machine *machine) {
    static const uint8_t TEST[][2] = {{IER, 0}, {LCR, DLAB | 3}, {THR, 1}, {IER, 0}, {LCR, 3}, {MCR, 0x0A | LOOPBACK},
                                      {THR, 0xAE}, {MCR, 0x0B}, {IER, 0x0F}, {IER, 0}, {SCR, 0x5A}};
    for (size_t i = 0; setting.tests_port && i < sizeof TEST / sizeof *TEST; i++)
        out(machine, TEST[i][0], TEST[i][1]);
    if (setting.tests_port)
        in(machine, IIR);
    while (in(machine, LSR) & DATA_READY)
        in(machine, RBR);
    check(machine->received == 0 || machine->phase == POLLS || (machine->phase == OFF && machine->console.is_polled),
          "input goes in too early");
    out(machine, IER, RDA);
    machine->phase = DRIVES;
    machine->has_read_none = true;
    if (machine->to_send.count > 0)
        out(machine, IER, RDA | THRE);
}

static void handle_interrupt(struct machine *machine) {
    machine->has_read_none = machine->has_left = false;
    for (unsigned pass = 0; pass < PASSES; pass++) {
        machine->has_read_none = in(machine, IIR) & NONE_PENDING;
        if (machine->has_read_none)
            return;
        take(machine);
        if (machine->console.port.interrupt_enable & THRE)
            transmit(machine);
        if (setting.handler == ONCE)
            return;
    }
}

/* A process of the guest writes some bytes: the driver enables the interrupt that asks for them. */
static void start_to_send(struct machine *machine) {
    unsigned count = (unsigned)at_most(1 + draw(300), machine->sends);
    machine->sends -= count;
    for (; count > 0; count--)
        push(&machine->to_send, (uint8_t)draw(256));
    if (machine->phase == DRIVES)
        out(machine, IER, in(machine, IER) | THRE);
}

/* The guest's kernel prints while it disables all interrupts of the port. */
static void print(struct machine *machine) {
    uint8_t enabled = in(machine, IER);
    out(machine, IER, 0);
    for (const char *byte = "line\n"; *byte; byte++) {
        in(machine, LSR);
        out(machine, THR, (uint8_t)*byte);
    }
    out(machine, IER, enabled);
}

static void go_on(struct machine *machine) {
    switch (machine->phase) {
    case OFF:
        if (setting.handler != NEVER && !setting.has_loader) {
            start_driver(machine);
            return;
        }
        machine->phase = POLLS;
        set_polled(machine, true);
        return;
    case SLEEPS: /* a guest that polls has to be reset: it never writes IER */
        if (moment < machine->sleeps_until)
            return;
        if (setting.handler == NEVER || once_in(2))
            reset(machine);
        else
            start_driver(machine);
        return;
    case POLLS:
        if (setting.handler != NEVER && once_in(8)) {
            set_polled(machine, false);
            start_driver(machine);
            return;
        }
        take(machine);
        transmit(machine);
        return;
    case DRIVES:
        if (machine->is_interrupted) {
            machine->is_interrupted = setting.is_level;
            handle_interrupt(machine);
        } else if (events > 0 && once_in(50))
            print(machine);
    }
}

/* Whether bytes are left to a driver that wants them and is idle. */
static bool leaves_bytes(const struct machine *machine) {
    return machine->phase == DRIVES && !machine->is_interrupted && machine->held.count > 0
        && machine->console.port.interrupt_enable & RDA && refusals == 0;
}

static void step(struct machine *machine) {
    if (setjmp(machine->stopped) == 0) {
        if (machine->sends > 0 && (machine->phase == POLLS || machine->phase == DRIVES) && once_in(8))
            start_to_send(machine);
        else
            go_on(machine);
    }
    bool was_left = machine->has_left;
    machine->has_left = leaves_bytes(machine);
    if (!machine->has_left)
        return;
    machine->left_at = was_left ? machine->left_at : moment;
    check(setting.handler != UNTIL_NONE || !machine->has_read_none || setting.refusals > 0, "bytes are left");
    check(moment - machine->left_at <= LIMIT + 1, "bytes are left for long");
}

/* ---- worlds */

static bool is_at_rest(const struct machine *machine) {
    return machine->held.count + machine->output.count + machine->to_send.count + machine->sends == 0
        && !machine->is_interrupted && (machine->phase == POLLS || machine->phase == DRIVES);
}

static bool is_over(void) {
    bool is_over = pipes[0].count + pipes[1].count + typed == 0;
    for (unsigned i = 0; i < count_of_machines; i++)
        is_over = is_over && is_at_rest(&machines[i]);
    return is_over;
}

static void run_world(void) {
    draw_setting();
    count_of_machines = setting.is_joined ? 2 : 1;
    moment = 0;
    is_resting = false;
    refusals = setting.refusals;
    events = setting.events;
    typed = setting.is_joined ? 0 : setting.typed;
    memset(machines, 0, sizeof machines);
    memset(pipes, 0, sizeof pipes);
    for (unsigned i = 0; i < count_of_machines; i++) {
        superio_console_new(&machines[i].console, once_in(2));
        machines[i].polled = superio_console_wants(&machines[i].console);
        machines[i].sends = setting.sent;
        machines[i].has_read_none = machines[i].is_woken = true;
    }
    for (unsigned steps = MOST_STEPS; !is_over(); steps--) {
        check(steps > 0, "it does not come to rest");
        step(&machines[draw(count_of_machines)]);
        pass_time();
    }
    check(!setting.holds || superio_console_dropped(&machines[0].console) == 0, "a guest that is held loses output");
}

/* ---- any bytes */

/* Makes a call that leaves work, whose number this is. */
static superio_console_work worked(superio_console *console, unsigned which, const uint8_t *bytes, size_t count) {
    switch (which) {
    case 0: return superio_console_read(console, (uint8_t)draw(10)).work;
    case 1: return superio_console_write(console, (uint8_t)draw(10), (uint8_t)draw(256));
    case 2: return superio_console_receive(console, bytes, count).work;
    case 3: return superio_console_turn(console);
    case 4: return superio_console_refuse(console);
    case 5: return superio_console_reset(console);
    default: return superio_console_set_polled(console, draw(2));
    }
}

/* Each call of a struct of any bytes, in memory of its own size. */
static void call_any(void) {
    superio_console *console = (superio_console *)malloc(sizeof *console);
    size_t count = draw(100), most = draw(2) ? draw(9) : draw(5000);
    uint8_t *bytes = (uint8_t *)malloc(count + 1), *room = (uint8_t *)malloc(most + 1), *saved;
    for (size_t i = 0; i < sizeof *console; i++)
        ((uint8_t *)console)[i] = (uint8_t)draw(256);
    for (unsigned calls = 0; calls < 40; calls++) {
        superio_console_wanted before = superio_console_wants(console);
        superio_console_work work = worked(console, draw(7), count > 0 ? bytes : NULL, count);
        superio_console_wanted now = superio_console_wants(console);
        check(work.interrupts <= 2 && now.input <= SUPERIO_SERIAL_FIFO_SIZE, "a number is too large");
        check(work.is_up == superio_serial_interrupt_line(&console->port), "the level is not the port's");
        bool is_new = (!before.input && now.input) || (!before.output && now.output) || (!before.turn && now.turn);
        check(work.wakes == is_new, "it wakes the event loop for nothing, or not");
        size_t shown = superio_console_output(console, most > 0 ? room : NULL, most);
        check(shown <= most && (shown > 0) == (now.output && most > 0), "output is shown or not");
        superio_console_consume(console, draw(2) ? shown : draw(9000));
        if (once_in(20))
            superio_console_suspend(console);
        check(!superio_console_is_full(console) || superio_console_wants(console).output, "full, and nothing waits");
    }
    saved = (uint8_t *)malloc(SUPERIO_CONSOLE_SAVED_MAX);
    size_t size = superio_console_save(console, saved);
    uint8_t *loaded = (uint8_t *)malloc(size);
    memcpy(loaded, saved, size);
    check(superio_console_load(console, loaded, size) == SUPERIO_LOAD_OK, "a saved console is refused");
    check(superio_console_load(console, loaded, draw((unsigned)size)) != SUPERIO_LOAD_OK, "a part is loaded");
    check(superio_console_save(console, saved) == size && memcmp(saved, loaded, size) == 0, "it is another console");
    free(console), free(bytes), free(room), free(saved), free(loaded);
}

int main(int count, char **arguments) {
    const char *seed = count > 1 ? arguments[1] : "";
    unsigned worlds = count > 2 ? (unsigned)atoi(arguments[2]) : 2000;
    uint32_t start = 2166136261u;
    for (; *seed; seed++)
        start = (start ^ (uint8_t)*seed) * 16777619u; /* an FNV hash */
    for (world = 1; world <= worlds; world++) {
        random_state = (start + world * 0x9E3779B9u) | 1;
        run_world();
        call_any();
    }
    printf("%u worlds came to rest\n", worlds);
    return 0;
}
