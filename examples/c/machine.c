/* SPDX-License-Identifier: Apache-2.0 OR BSD-3-Clause */
/*
 * A monitor for a whole machine: console.c with a bus, a clock, the reset controller, and snapshots. Its guest answers
 * a line of input, waits for an alarm, and resets the machine. While it waits, main moves the machine to another one.
 */
#define _POSIX_C_SOURCE 200809L
#include <ctype.h>
#include <err.h>
#include <errno.h>
#include <fcntl.h>
#include <poll.h>
#include <pthread.h>
#include <signal.h>
#include <string.h>
#include <sys/eventfd.h>
#include <sys/timerfd.h>
#include <time.h>
#include <unistd.h>

#include <superio.h>

/* The first port of the console, the clock's first address, and registers of the clock. */
enum { COM1 = 0x3F8, CLOCK = 0xD1000, RTCMR = 0x004, RTCLR = 0x008, RTCCR = 0x00C, RTCIMSC = 0x010, RTCMIS = 0x018,
       RTCICR = 0x01C };

struct machine {
    pthread_mutex_t lock;    /* of the devices, their interrupts, and what follows */
    pthread_cond_t has_room; /* for output */
    superio_console console;
    superio_rtc clock;
    int64_t ahead;     /* how many seconds moments are ahead of CLOCK_BOOTTIME */
    uint64_t now;      /* the moment of the last access to the clock */
    bool clock_was_up; /* the level of the clock's line that was set last */
    bool is_stuck;     /* the reader of the output has taken nothing for a second */
    bool is_reset;     /* the guest has asked for a reset */
    bool is_stopped;   /* the event loop is to end at once */
    bool is_off;       /* the guest has switched its machine off */
    int input, output; /* neither blocks */
    int irq;           /* an eventfd. KVM_IRQFD connects it to the guest's interrupt controller */
    int clock_line;    /* an eventfd in place of the controller's input: it is readable while the line is up */
    int timer;         /* a timerfd, which goes off when the clock's alarm is due */
    int wake_up;       /* an eventfd that wakes the event loop */
};

/* Returns whether an eventfd was readable, which it is no longer. */
static bool clear(int file) {
    eventfd_t count;
    return eventfd_read(file, &count) == 0;
}

/* Raises the interrupts that a call asks for. Returns whether to wake the event loop. */
static bool interrupt(struct machine *machine, superio_console_work work) {
    for (int i = 0; i < work.interrupts; i++)
        if (eventfd_write(machine->irq, 1) != 0) /* it failed: a later call asks for the interrupt again */
            return superio_console_refuse(&machine->console).wakes || work.wakes;
    return work.wakes;
}

/* The guest reads the register at `offset` from the port's base. */
static uint8_t read_access(struct machine *machine, uint8_t offset) {
    pthread_mutex_lock(&machine->lock);
    superio_console_read_effects done = superio_console_read(&machine->console, offset);
    if (interrupt(machine, done.work))
        eventfd_write(machine->wake_up, 1);
    pthread_mutex_unlock(&machine->lock);
    return done.byte;
}

/* The guest writes `value` to the register at `offset`. If no more output fits, the guest is held until the reader
 * takes some, or for a second. Meanwhile the lock is free. */
static void write_access(struct machine *machine, uint8_t offset, uint8_t value) {
    struct timespec end;
    clock_gettime(CLOCK_MONOTONIC, &end);
    end.tv_sec++;
    pthread_mutex_lock(&machine->lock);
    if (interrupt(machine, superio_console_write(&machine->console, offset, value)))
        eventfd_write(machine->wake_up, 1);
    while (superio_console_is_full(&machine->console) && !machine->is_stuck)
        machine->is_stuck = pthread_cond_timedwait(&machine->has_room, &machine->lock, &end) != 0
                            && superio_console_is_full(&machine->console);
    pthread_mutex_unlock(&machine->lock);
}

static int64_t seconds(clockid_t which) {
    struct timespec time;
    clock_gettime(which, &time);
    return time.tv_sec;
}

/* Before each access to the clock: the present moment. */
static void take_moment(struct machine *machine) {
    machine->now = (uint64_t)(seconds(CLOCK_BOOTTIME) + machine->ahead);
}

/* Sets the clock's line at the interrupt controller. A monitor for KVM calls KVM_IRQ_LINE. */
static void set_clock_line(struct machine *machine, bool is_up) {
    if (is_up)
        eventfd_write(machine->clock_line, 1);
    else
        clear(machine->clock_line);
}

/* After each access to the clock: sets the timer for the alarm, and the clock's line if its level has changed. */
static void follow_clock(struct machine *machine) {
    uint64_t due = superio_rtc_alarm_due(&machine->clock, machine->now);
    struct itimerspec goes_off = {0}; /* all zero: disarmed */
    if (due != SUPERIO_RTC_NEVER)
        goes_off.it_value.tv_sec = (time_t)((int64_t)(machine->now + due) - machine->ahead);
    timerfd_settime(machine->timer, TFD_TIMER_ABSTIME, &goes_off, NULL);
    bool is_up = superio_rtc_interrupt_line(&machine->clock);
    if (is_up != machine->clock_was_up)
        set_clock_line(machine, is_up);
    machine->clock_was_up = is_up;
}

/* The timer has gone off. A read of RTCMIS in the guest's place makes the clock notice the alarm. follow_clock sets the
 * timer again, so you need not read() its file. */
static void alarm_is_due(struct machine *machine) {
    take_moment(machine);
    superio_rtc_read(&machine->clock, RTCMIS, machine->now);
    follow_clock(machine);
}

/* After a reset or a restore: the interrupt controller may no longer have the level that was set last. */
static void follow_clock_again(struct machine *machine) {
    machine->clock_was_up = !superio_rtc_interrupt_line(&machine->clock); /* so that the level is set in any case */
    take_moment(machine);
    follow_clock(machine);
}

static bool is_clock(uint64_t address) {
    return address >= CLOCK && address - CLOCK < SUPERIO_RTC_WINDOW;
}

/* The guest reads `count` bytes of memory. A read of fewer than four bytes gets its part of the four aligned bytes
 * around it. */
static void memory_read(struct machine *machine, uint64_t address, uint8_t *bytes, unsigned count) {
    unsigned within = count == 4 ? 0 : address % 4;
    memset(bytes, 0xFF, count); /* what a guest reads where no device answers */
    if (!is_clock(address) || within + count > 4)
        return;
    pthread_mutex_lock(&machine->lock);
    take_moment(machine);
    uint16_t offset = (uint16_t)(address - CLOCK - within);
    uint32_t value = superio_rtc_read(&machine->clock, offset, machine->now).value; /* 0 if the read is invalid */
    follow_clock(machine);
    pthread_mutex_unlock(&machine->lock);
    for (unsigned i = 0; i < count; i++)
        bytes[i] = (uint8_t)(value >> 8 * (within + i));
}

/* The guest writes `count` bytes to memory. */
static void memory_write(struct machine *machine, uint64_t address, const uint8_t *bytes, unsigned count) {
    uint32_t value = 0;
    if (!is_clock(address) || count != 4 || address - CLOCK == RTCCR)
        return;
    for (unsigned i = 0; i < count; i++)
        value |= (uint32_t)bytes[i] << 8 * i;
    pthread_mutex_lock(&machine->lock);
    take_moment(machine);
    superio_rtc_write(&machine->clock, (uint16_t)(address - CLOCK), value, machine->now);
    follow_clock(machine);
    pthread_mutex_unlock(&machine->lock);
}

static bool is_serial(uint16_t port) {
    return port >= COM1 && port < COM1 + SUPERIO_SERIAL_PORTS;
}

static bool is_controller(uint16_t port) {
    return port == SUPERIO_I8042_DATA_PORT || port == SUPERIO_I8042_COMMAND_PORT;
}

/* The guest's `out`. */
static void port_write(struct machine *machine, uint16_t port, uint8_t value) {
    if (is_serial(port))
        write_access(machine, (uint8_t)(port - COM1), value);
    if (is_controller(port) && superio_i8042_write((uint8_t)(port - SUPERIO_I8042_DATA_PORT), value).resets) {
        pthread_mutex_lock(&machine->lock);
        machine->is_reset = true;
        pthread_mutex_unlock(&machine->lock);
    }
}

/* The guest's `in`. No device answers at other ports, such as 0x61. */
static uint8_t port_read(struct machine *machine, uint16_t port) {
    if (is_controller(port))
        return superio_i8042_read((uint8_t)(port - SUPERIO_I8042_DATA_PORT));
    return is_serial(port) ? read_access(machine, (uint8_t)(port - COM1)) : 0xFF;
}

/* Call this after each access, but not with KVM. If the access asked for a reset, the machine is reset. The clock goes
 * on. This function is for one processor. With several, first stop them all, and then take the lock, because they need
 * the lock to end their accesses. */
static void access_served(struct machine *machine) {
    pthread_mutex_lock(&machine->lock);
    if (machine->is_reset) {
        clear(machine->irq); /* in place of a reset of the interrupt controller */
        if (interrupt(machine, superio_console_reset(&machine->console)))
            eventfd_write(machine->wake_up, 1);
        follow_clock_again(machine);
    }
    machine->is_reset = false;
    pthread_mutex_unlock(&machine->lock);
}

/* Input has come. The caller holds the lock. */
static void read_input(struct machine *machine) {
    uint8_t bytes[SUPERIO_SERIAL_FIFO_SIZE];
    size_t wanted = superio_console_wants(&machine->console).input; /* may have changed during the poll */
    if (wanted == 0)
        return;
    ssize_t count = read(machine->input, bytes, wanted);
    if (count > 0)
        interrupt(machine, superio_console_receive(&machine->console, bytes, (size_t)count).work);
    else if (count == 0 || (errno != EAGAIN && errno != EINTR))
        machine->input = -1; /* its end */
}

/* The reader of the output has room. The caller holds the lock. */
static void write_output(struct machine *machine) {
    uint8_t bytes[SUPERIO_CONSOLE_OUTPUT_SIZE];
    size_t waiting = superio_console_output(&machine->console, bytes, sizeof bytes);
    ssize_t count = write(machine->output, bytes, waiting);
    if (count < 0 && errno != EAGAIN && errno != EINTR)
        count = (ssize_t)waiting; /* the reader is gone, so these bytes are dropped */
    if (count > 0) {
        superio_console_consume(&machine->console, (size_t)count);
        machine->is_stuck = false;
        pthread_cond_broadcast(&machine->has_room);
    }
}

/* The event loop, until it is stopped, or until the guest is off and its output is written. */
static void *event_loop(void *argument) {
    struct machine *machine = argument;
    for (;;) {
        pthread_mutex_lock(&machine->lock);
        superio_console_wanted wants = superio_console_wants(&machine->console);
        bool is_over = machine->is_stopped || (machine->is_off && !wants.output);
        pthread_mutex_unlock(&machine->lock);
        if (is_over)
            return NULL;
        struct pollfd files[] = {
            {.fd = machine->wake_up, .events = POLLIN},
            {.fd = wants.input > 0 ? machine->input : -1, .events = POLLIN},
            {.fd = wants.output ? machine->output : -1, .events = POLLOUT},
            {.fd = machine->timer, .events = POLLIN},
        };
        poll(files, 4, wants.turn ? 5 : -1); /* milliseconds */
        if (files[0].revents)
            clear(machine->wake_up);

        pthread_mutex_lock(&machine->lock);
        if (files[1].revents)
            read_input(machine);
        if (files[2].revents)
            write_output(machine);
        if (files[3].revents)
            alarm_is_due(machine);
        interrupt(machine, superio_console_turn(&machine->console)); /* the loop goes round again: nobody has to wake it */
        pthread_mutex_unlock(&machine->lock);
    }
}

static int must(int file) {
    if (file < 0)
        err(1, "opening a machine");
    return file;
}

/* Makes a machine with new devices. */
static void open_machine(struct machine *machine, int input, int output) {
    pthread_condattr_t attributes;
    pthread_condattr_init(&attributes);
    pthread_condattr_setclock(&attributes, CLOCK_MONOTONIC); /* changes to the system time do not affect a wait */
    *machine = (struct machine){.input = input, .output = output};
    pthread_mutex_init(&machine->lock, NULL);
    pthread_cond_init(&machine->has_room, &attributes);
    machine->irq = must(eventfd(0, EFD_NONBLOCK));
    machine->clock_line = must(eventfd(0, EFD_NONBLOCK));
    machine->wake_up = must(eventfd(0, EFD_NONBLOCK));
    machine->timer = must(timerfd_create(CLOCK_BOOTTIME, TFD_NONBLOCK));
    superio_console_new(&machine->console, false); /* true for a guest that polls */
    machine->clock = superio_rtc_new();
    machine->ahead = seconds(CLOCK_REALTIME) - seconds(CLOCK_BOOTTIME);
}

/* The saved devices. You add what you save in step 3. */
struct snapshot {
    uint8_t console[SUPERIO_CONSOLE_SAVED_MAX], clock[SUPERIO_RTC_SAVED_SIZE];
    size_t count; /* of bytes in `console` */
    uint64_t now;
};

/* Steps 2 to 7 of a save, as docs/SNAPSHOTS.md numbers them. No processor runs, and each access has ended. The event
 * loop has ended, too. */
static void save(struct machine *machine, struct snapshot *saved) {
    /* step 2 */
    pthread_mutex_lock(&machine->lock);
    /* step 3: your processors, memory and interrupt controller */
    /* step 4 */
    saved->count = superio_console_save(&machine->console, saved->console);
    /* step 5: nothing to save, because the event loop reads no more than the console accepts */
    /* step 6 */
    superio_rtc_save(&machine->clock, saved->clock);
    saved->now = machine->now;
    /* step 7 */
    pthread_mutex_unlock(&machine->lock);
}

/* Steps 2 to 5 of a restore, and the release of the lock in step 6. The interrupt controller is restored, and neither
 * the processors nor the event loop run yet. Returns false if the snapshot is invalid. */
static bool restore(struct machine *machine, const struct snapshot *saved) {
    /* step 2: load into temporaries, so that a bad snapshot changes nothing */
    pthread_mutex_lock(&machine->lock);
    superio_console console;
    superio_rtc clock;
    bool is_good = superio_rtc_load(&clock, saved->clock, sizeof saved->clock) == SUPERIO_LOAD_OK
                   && superio_console_load(&console, saved->console, saved->count) == SUPERIO_LOAD_OK
                   && superio_serial_is_coherent(&console.port);
    if (is_good) {
        machine->console = console;
        machine->clock = clock;
        /* step 3: earlier pulses may have been lost */
        interrupt(machine, superio_console_refuse(&machine->console));
        interrupt(machine, superio_console_turn(&machine->console));
        /* step 4 */
        int64_t moment = (int64_t)saved->now, host = seconds(CLOCK_REALTIME);
        machine->ahead = (moment > host ? moment : host) - seconds(CLOCK_BOOTTIME);
        /* step 5 */
        follow_clock_again(machine);
    }
    pthread_mutex_unlock(&machine->lock);
    return is_good;
}

/* In place of a virtual machine. The guest's accesses go to the machine that it is in. Whoever holds `door` and
 * `processor` keeps it from making any: a monitor for KVM gets its threads out of KVM_RUN instead. (With `processor`
 * alone, the guest's thread might always be the first to take it again.) */
static pthread_mutex_t door = PTHREAD_MUTEX_INITIALIZER, processor = PTHREAD_MUTEX_INITIALIZER;
static struct machine *here;

static void begin(void) {
    pthread_mutex_lock(&door);
    pthread_mutex_lock(&processor);
    pthread_mutex_unlock(&door);
}

static void end(void) {
    access_served(here);
    pthread_mutex_unlock(&processor);
}

static void out(uint16_t port, uint8_t value) {
    begin();
    port_write(here, port, value);
    end();
}

static uint8_t in(uint16_t port) {
    begin();
    uint8_t value = port_read(here, port);
    end();
    return value;
}

static void store(uint16_t offset, uint8_t value) {
    const uint8_t bytes[4] = {value};
    begin();
    memory_write(here, CLOCK + offset, bytes, sizeof bytes);
    end();
}

static uint8_t fetch(uint16_t offset) {
    uint8_t value;
    begin();
    memory_read(here, CLOCK + offset, &value, 1);
    end();
    return value;
}

/* Sleeps until the serial port or the clock interrupts. */
static void sleep_until_interrupted(void) {
    for (bool is_interrupted = false; !is_interrupted;) {
        poll(NULL, 0, 1); /* a millisecond */
        begin();
        is_interrupted = clear(here->irq)
                         || poll(&(struct pollfd){.fd = here->clock_line, .events = POLLIN}, 1, 0) > 0;
        end();
    }
}

static void print(const char *text) {
    while (*text)
        out(COM1, (uint8_t)*text++);
}

static void *guest(void *unused) {
    out(COM1 + 1, 0x01); /* IER: the interrupt for received data */
    for (uint8_t byte = 0; byte != '\n';) {
        sleep_until_interrupted();
        while (!(in(COM1 + 2) & 0x01))    /* IIR: something is pending */
            while (in(COM1 + 5) & 0x01) { /* LSR: a byte is held */
                byte = in(COM1);
                out(COM1, (uint8_t)toupper(byte));
            }
    }
    store(RTCIMSC, 1); /* the alarm may raise the line */
    store(RTCLR, 100); /* the time */
    store(RTCMR, 102);
    while (!(fetch(RTCMIS) & 0x01))
        sleep_until_interrupted();
    store(RTCICR, 1);
    print(fetch(RTCMIS) == 0 ? "the alarm has come\n" : "the alarm is not over\n");
    out(SUPERIO_I8042_COMMAND_PORT, 0xFE); /* now the guest would start again */
    print(in(COM1 + 1) == 0 ? "the port is a new one, " : "the port is the old one, ");
    print(fetch(RTCLR) == 100 ? "and the clock has gone on\n" : "and the clock is a new one\n");
    begin();
    struct machine *machine = here;
    pthread_mutex_lock(&machine->lock);
    machine->is_off = true;
    pthread_mutex_unlock(&machine->lock);
    eventfd_write(machine->wake_up, 1);
    end();
    return unused;
}

/* Moves the guest from one machine to another. `loop` is the thread of the machine's event loop. */
static void move(struct machine *from, struct machine *to, pthread_t *loop) {
    static struct snapshot saved;
    /* step 1 of a save: the guest */
    pthread_mutex_lock(&door);      /* no access begins */
    pthread_mutex_lock(&processor); /* the last access has ended */
    /* step 1 of a save: the event loop */
    pthread_mutex_lock(&from->lock);
    from->is_stopped = true;
    pthread_mutex_unlock(&from->lock);
    eventfd_write(from->wake_up, 1);
    pthread_join(*loop, NULL);
    save(from, &saved);
    /* step 1 of a restore: nothing, because this example has neither a real processor nor a real controller */
    if (!restore(to, &saved))
        errx(1, "the snapshot is refused");
    /* step 6 of a restore */
    pthread_create(loop, NULL, event_loop, to);
    /* step 7 of a restore */
    here = to;
    pthread_mutex_unlock(&processor);
    pthread_mutex_unlock(&door);
}

/* Makes standard input and output blocking or not. At the end they are blocking again, for the shell's sake. */
static void let_block(bool blocks) {
    for (int file = STDIN_FILENO; file <= STDOUT_FILENO; file++) {
        int flags = fcntl(file, F_GETFL);
        fcntl(file, F_SETFL, blocks ? flags & ~O_NONBLOCK : flags | O_NONBLOCK);
    }
}

int main(void) {
    static struct machine first, second;
    pthread_t loop, thread;
    if (!SUPERIO_ABI_MATCHES())
        errx(1, "the library has another interface than the header");
    signal(SIGPIPE, SIG_IGN); /* a write without a reader then fails, and does not end the program */
    let_block(false);
    open_machine(&first, STDIN_FILENO, STDOUT_FILENO);
    open_machine(&second, STDIN_FILENO, STDOUT_FILENO);
    here = &first;
    pthread_create(&loop, NULL, event_loop, here);
    pthread_create(&thread, NULL, guest, NULL);
    poll(NULL, 0, 500); /* half a second */
    move(&first, &second, &loop);
    pthread_join(thread, NULL);
    pthread_join(loop, NULL);
    let_block(true);
    return 0;
}
