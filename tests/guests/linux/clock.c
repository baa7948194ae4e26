/* SPDX-License-Identifier: Apache-2.0 OR BSD-3-Clause */
/*
 * Random exchanges of Linux's driver of a PL031, unchanged, with a clock of the C library in a monitor. Programs set and
 * read the time and the alarm, by the kernel's functions for clocks or by the driver's own; time goes on, also between
 * two accesses; another kernel starts; and the machine moves.
 *
 *     clock EXCHANGES SEED [FAULT..]
 *
 * Prints in how many exchanges something was wrong, and what was wrong first in each.
 */
#include "clock_driver.c" /* rtc-pl031.c, interface.c and lib.c as wholes, and functions of three other files */
#include "superio.h"
#include <stdio.h>
#include <stdlib.h>
int strcmp(const char *a, const char *b);

enum { BASE = 0x9010000, IRQ = 34 };

/* Marsaglia's xorshift. */
static u64 x = 88172645463325252ull;
static unsigned choose(unsigned bound) {
    x ^= x << 13;
    x ^= x >> 7;
    x ^= x << 17;
    return (x >> 32) * bound >> 32; /* not a remainder, which takes longer */
}

static const char *wrong; /* what was wrong first in this exchange */
static void check(bool is_good, const char *what) {
    if (!is_good && !wrong)
        wrong = what;
}
void KASSERT(bool is_good) {
    if (!is_good)
        abort();
}

#include "clock_monitor.c"
static const char *const NAMES[] = {"PASSES_CONTROL", "NO_LINE", "NO_TIMER", "NO_READ", "NOT_AT_ONCE", "NOT_RESTORED",
                                    "CLEARS", "LATE", "STOPS", "EXPECTS_RESET"};

/* Whether guest time counts from now on for so many seconds. */
static bool counts(uint64_t seconds) {
    return guest_time(now) - guest.ahead == (uint32_t)now && guest_time(now) + seconds <= U32_MAX
        && (uint32_t)now + seconds <= U32_MAX;
}

static void find_reached(void) {
    uint32_t rest = guest.match - guest_time(now);
    guest.reached = guest.match < guest_time(now) ? now : counts(rest) ? now + rest : NEVER;
}

static void pass(uint64_t seconds) {
    uint64_t end = now + seconds;
    while (timer <= end) {
        now = timer > now ? timer : now;
        read_status();
    }
    now = end;
    check(!guest.is_armed || guest.reached == NEVER || now < guest.reached + 1 + has[LATE], "an alarm is late");
}

static void check_line(void) {
    check(line || !(guest.is_raised && guest.is_enabled), "the line is down");
    check(!line || (guest.is_raised && guest.is_enabled), "the line is up");
}

/* The machine moves, which takes a while. */
static void move(void) {
    uint8_t bytes[SUPERIO_RTC_SAVED_SIZE];
    superio_rtc_save(&device, bytes);
    timer = NEVER;
    line = false;
    now += choose(2) ? choose(3) : choose(400);
    device = superio_rtc_new();
    KASSERT(superio_rtc_load(&device, bytes, sizeof bytes) == SUPERIO_LOAD_OK);
    if (!has[NOT_RESTORED])
        follow();
    find_reached();
    pass(1);
}

/* ---- the guest's accesses */

static irqreturn_t (*handler)(int, void *);
static void *handler_of;
static bool in_handler;
static bool is_lost; /* the alarm: the driver has cleared it itself, or it had fired when the kernel found it */
static bool was_lost; /* another alarm in this exchange */
static unsigned pauses, spare; /* how seldom time goes on in the middle of a call, and for how long at most */
static uint32_t last_time;     /* that the guest read */
static uint64_t accessed;      /* the moment of the last access */
static unsigned long interrupts, told, cleared, found_fired;

static void run_handler(void);

static void between(void) {
    if (spare > 0 && choose(pauses) == 0) {
        spare--;
        pass(1);
    }
    if (line && !in_handler && handler && choose(2))
        run_handler();
}

u32 readl(const volatile void *address) {
    unsigned offset = (uintptr_t)address - BASE;
    between();
    superio_rtc_read_effects done = superio_rtc_read(&device, offset, now);
    check(!done.invalid_read, "an invalid read");
    expect_access();
    expect_read(offset, done.value);
    if (offset == RTC_DR)
        last_time = done.value;
    accessed = now;
    follow();
    check_line();
    return done.value;
}

void writel(u32 value, volatile void *address) {
    unsigned offset = (uintptr_t)address - BASE;
    between();
    if (line && offset == RTC_ICR && !in_handler) {
        is_lost = true;
        cleared++;
    }
    if (offset != RTC_CR || has[PASSES_CONTROL])
        check(!superio_rtc_write(&device, offset, value, now).invalid_write, "an invalid write");
    expect_write(offset, value);
    find_reached();
    accessed = now;
    follow();
    check_line();
}

/* ---- the kernel around the driver */

static struct amba_device bus_device;
static struct rtc_device *rtc;
static bool has_work;
static char memory[8192];
static size_t used;

void *devm_kzalloc(struct device *of, size_t size, int flags) {
    void *place = memory + used;
    used += (size + 15) / 16 * 16;
    KASSERT(used <= sizeof memory);
    return memset(place, 0, size);
}
void *devm_kmemdup(struct device *of, const void *from, size_t size, int flags) {
    return memcpy(devm_kzalloc(of, size, flags), from, size);
}
void lock_of(spinlock_t *lock) { KASSERT(!lock->is_taken++); }
void unlock_of(spinlock_t *lock) { KASSERT(!--lock->is_taken); }

struct rtc_device *devm_rtc_allocate_device(struct device *of) {
    rtc = devm_kzalloc(of, sizeof *rtc, 0);
    rtc->dev.parent = of;
    rtc_timer_init(&rtc->aie_timer, rtc_aie_update_irq, rtc);
    rtc_timer_init(&rtc->uie_rtctimer, rtc_uie_update_irq, rtc);
    set_bit(RTC_FEATURE_ALARM, rtc->features);
    set_bit(RTC_FEATURE_UPDATE_INTERRUPT, rtc->features);
    return rtc;
}
int request_irq(unsigned irq, irqreturn_t (*of)(int, void *), unsigned long flags, const char *name, void *data) {
    check(irq == IRQ, "another interrupt");
    handler = of;
    handler_of = data;
    return 0;
}
void free_irq(unsigned irq, void *of) { handler = NULL; }
void schedule(struct work_struct *work) { has_work = true; }

static void run_handler(void) {
    in_handler = true;
    has_work = false;
    check(handler(IRQ, handler_of) == IRQ_HANDLED, "an interrupt of nobody");
    check(has_work, "an interrupt without effect");
    check(!line, "the handler does not end its interrupt");
    in_handler = false;
    interrupts++;
}

/* ---- programs */

static bool in_haste;
static bool is_direct;   /* the driver's functions are called, and not the kernel's for clocks */
static bool has_alarm;   /* a program waits for its alarm */
static uint32_t alarm;   /* at this guest time; or it was, or would be */

/* A program is told that its alarm has come, or that a second is over. */
void tell(void) {
    unsigned long data = rtc->irq_data;
    rtc->irq_data = 0;
    if (!(data & RTC_AF))
        return;
    check(has_alarm, "an alarm of nobody");
    check(last_time >= alarm, "an alarm before its time");
    has_alarm = false;
    told++;
}

/* A guest time of interest. In an exchange in haste it is near. */
static uint64_t some_time(void) {
    static const uint64_t TIMES[] = {0, 1u << 31, U32_MAX, 1ull << 32, 1800000000};
    uint64_t from = in_haste || choose(2) ? guest_time(now) : TIMES[choose(5)], ahead = choose(in_haste || choose(2) ? 4 : 400);
    return choose(4) || from < ahead ? from + ahead : from - ahead;
}

static void set_time(void) {
    uint64_t time = some_time();
    struct rtc_time tm;
    if (is_direct)
        time &= U32_MAX;
    rtc_time64_to_tm(time, &tm);
    int error = is_direct ? rtc->ops->set_time(&bus_device.dev, &tm) : rtc_set_time(rtc, &tm);
    check(error == (time > U32_MAX ? -ERANGE : 0), "setting the time");
    if (error)
        return;
    set = time;
    set_at = accessed;
}

/* A time that was set goes on, while it and the host's have 32 bits. */
static void read_time(void) {
    struct rtc_time tm;
    check((is_direct ? rtc->ops->read_time(&bus_device.dev, &tm) : rtc_read_time(rtc, &tm)) == 0, "reading the time");
    uint64_t time = rtc_tm_to_time64(&tm), goes_on = set + (accessed - set_at);
    if (goes_on <= U32_MAX && accessed >> 32 == set_at >> 32)
        check(time == goes_on, "a time that was set is lost");
}

static void set_alarm(void) {
    uint64_t time = some_time();
    struct rtc_wkalrm request = {.enabled = choose(4) > 0};
    if (is_direct)
        time &= U32_MAX;
    rtc_time64_to_tm(time, &request.time);
    int error = is_direct ? rtc->ops->set_alarm(&bus_device.dev, &request) : rtc_set_alarm(rtc, &request);
    check(error == (time > U32_MAX ? -ERANGE : 0), "setting an alarm");
    if (error)
        return;
    alarm = time;
    has_alarm = request.enabled;
    was_lost |= is_lost;
    is_lost = false;
}

static void read_alarm(void) {
    struct rtc_wkalrm found;
    memset(&found, 0, sizeof found);
    if (is_direct) {
        check(rtc->ops->read_alarm(&bus_device.dev, &found) == 0, "reading the alarm");
        check(found.enabled == guest.is_enabled, "whether the alarm is on");
    } else {
        check(rtc_read_alarm(rtc, &found) == 0, "reading the alarm");
        check(found.enabled == has_alarm, "whether the alarm is on");
    }
    check(rtc_tm_to_time64(&found.time) == alarm, "the alarm's time");
}

static void turn_alarm(void) {
    bool is_on = choose(4);
    has_alarm = is_on;
    if (is_direct)
        check(rtc->ops->alarm_irq_enable(&bus_device.dev, is_on) == 0, "turning the alarm");
    else
        check(rtc_alarm_irq_enable(rtc, is_on) == 0, "turning the alarm");
}

static void work(void) {
    has_work = false;
    rtc_timer_do_work(&rtc->irqwork);
}

/* The kernel finds the clock by its identification, and its driver starts. */
static void probe(unsigned irq) {
    used = 0;
    handler = NULL;
    has_work = false;
    bus_device = (struct amba_device){.res = {BASE, BASE + SUPERIO_RTC_WINDOW - 1}, .irq = {irq}};
    KASSERT(amba_read_periphid(&bus_device) == 0);
    const struct amba_id *id = amba_lookup(pl031_driver.id_table, &bus_device);
    KASSERT(id && id->data == &arm_pl031);
    check(pl031_driver.probe(&bus_device, id) == 0, "a probe");
    check(!handler == !irq, "whether an interrupt is asked for");
}

/* A kernel starts on the clock as it is. It takes an alarm for set that has fired before the time was set back. */
static void start_kernel(void) {
    struct rtc_wkalrm found;
    if (choose(16) == 0) { /* one for which the clock has no interrupt, and then another */
        probe(0);
        check(rtc_set_alarm(rtc, &found) == -EINVAL, "an alarm without an interrupt");
    }
    probe(IRQ);
    check(rtc_read_alarm(rtc, &found) == 0, "reading the alarm");
    alarm = guest.match;
    check(rtc_tm_to_time64(&found.time) == alarm, "the alarm that the kernel finds");
    has_alarm = found.enabled;
    if (has_alarm && !guest.is_armed && !guest.is_raised) {
        is_lost = true;
        found_fired++;
    }
}

/* ---- an exchange */

static void act(void) {
    spare = has[STOPS] ? 10 : 1;
    switch (choose(11)) {
    case 0: pass(choose(3)); break;
    case 1: pass(choose(in_haste ? 2 : 400)); break;
    case 2: set_time(); break;
    case 3: case 4: read_time(); break;
    case 5: set_alarm(); break;
    case 6: read_alarm(); break;
    case 7: turn_alarm(); break;
    case 8:
        if (line)
            run_handler();
        break;
    case 9:
        if (has_work && !is_direct)
            work();
        break;
    case 10:
        switch (choose(8)) {
        case 0: start_kernel(); break;
        case 1: move(); break;
        }
        break;
    }
}

/* Whatever comes, comes. */
static void settle(void) {
    bool has_waited = false;
    spare = 0;
    for (int rounds = 0; rounds < 100; rounds++) {
        if (line)
            run_handler();
        else if (has_work && !is_direct)
            work();
        else if (!has_waited) {
            has_waited = true;
            uint64_t rest = alarm > guest_time(now) ? alarm - guest_time(now) : 0;
            if (counts(rest + 2))
                pass(rest + 2);
            else
                has_alarm = false;
        } else
            break;
    }
    check(!(guest.is_raised && guest.is_enabled), "an interrupt never comes");
    check(is_direct || !has_alarm || is_lost, was_lost ? "another alarm is lost" : "a program waits for ever");
}

static void exchange(void) {
    static const uint64_t STARTS[] = {0, 1800000000, (1ull << 31) - 200, (1ull << 32) - 200, 1ull << 32, (1ull << 34) - 200};
    static const unsigned PAUSES[] = {2, 8, 64};
    wrong = NULL;
    now = STARTS[choose(6)] + choose(400);
    device = superio_rtc_new();
    memset(&guest, 0, sizeof guest);
    timer = NEVER;
    line = is_lost = was_lost = false;
    spare = 0;
    pauses = PAUSES[choose(3)];
    is_direct = choose(2);
    in_haste = choose(2);
    set = now;
    set_at = now;
    start_kernel();
    for (unsigned acts = choose(60); acts > 0; acts--)
        act();
    settle();
}

int main(int count, char **arguments) {
    unsigned long exchanges = count > 1 ? strtoul(arguments[1], 0, 0) : 20000, failed = 0, kinds = 0;
    static struct { const char *what; unsigned long times; } reasons[100];
    x ^= (count > 2 ? strtoull(arguments[2], 0, 0) : 0) * 0x9e3779b97f4a7c15ull;
    for (int i = 3; i < count; i++) {
        unsigned fault = 0;
        while (fault < FAULTS && strcmp(NAMES[fault], arguments[i]))
            fault++;
        KASSERT(fault < FAULTS);
        has[fault] = true;
    }
    for (unsigned long i = 0; i < exchanges; i++) {
        exchange();
        failed += wrong != NULL;
        if (!wrong)
            continue;
        unsigned long kind = 0;
        while (kind < kinds && reasons[kind].what != wrong)
            kind++;
        kinds += kind == kinds;
        reasons[kind].what = wrong;
        reasons[kind].times++;
    }
    printf("%lu of %lu exchanges were wrong; %lu interrupts, %lu alarms told; %lu cleared by the driver, %lu found fired\n",
           failed, exchanges, interrupts, told, cleared, found_fired);
    for (unsigned long kind = 0; kind < kinds; kind++)
        printf("    %lu: %s\n", reasons[kind].times, reasons[kind].what);
    return 0;
}
