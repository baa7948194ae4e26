/* SPDX-License-Identifier: Apache-2.0 OR BSD-3-Clause */
/*
 * Proves, with CBMC, that Linux's driver of a PL031 and a clock in a monitor keep the time that was set and each alarm. An
 * invariant holds for a clock that is restored (restores). Each second and each call of the driver keeps it (the other
 * entries), whatever others do before each access, so it holds after any number of them. ../README.md has the argument.
 */
#include "clock_alone.c" /* rtc-pl031.c as a whole */
#include "superio.h"

unsigned nondet_unsigned(void);
uint64_t nondet_number(void);
_Bool nondet_bool(void);
superio_rtc nondet_clock(void);
uint64_t model_alarm_due(const superio_rtc *clock, uint64_t moment);
#define superio_rtc_alarm_due model_alarm_due
#include "../monitor/clock_device.c"
#undef superio_rtc_alarm_due
/* What is proved of a place may be used after it. If it is not proved, that is told of this place. */
#define check(is_good, what)                                                                                          \
    do {                                                                                                              \
        bool holds = is_good;                                                                                         \
        __CPROVER_assert(holds, what);                                                                                \
        __CPROVER_assume(holds);                                                                                      \
    } while (0)
static unsigned choose(unsigned bound) {
    unsigned number = nondet_unsigned();
    __CPROVER_assume(number < bound);
    return number;
}
void KASSERT(bool is_good) { __CPROVER_assert(is_good, "BUG_ON"); }

#include "clock_monitor.c"

/* Each of these has to fail. This shows that its place is reached, so that what is assumed is possible. */
#define REACHED(condition) __CPROVER_assert(!(condition), "reached: " #condition)

enum { IRQ = 34 };
static char window[SUPERIO_RTC_WINDOW];
static struct pl031_local local;
static struct device of_driver;
static bool is_in_handler;
static bool is_alone;     /* nobody does steps */
static bool was_set;      /* the time, since the clock was new or restored */
static uint64_t told;     /* how often the kernel was told of an alarm */
static bool is_to_come;   /* an alarm was set that was not past */
static bool is_cleared;   /* a call of the driver has ended an alarm that has come */
static uint64_t accessed; /* the moment of the last access */

/* ---- the invariant, which holds whenever nobody makes an access */

/* The clock in the monitor is a PL031 that is always on time, the line is as its registers say, and the timer goes off when
 * the match is reached, which is yet to come. */
static bool invariant(void) {
    bool is_clock = device.offset == guest.ahead && device.mr == guest.match && device.imsc == guest.is_enabled
        && device.ris == guest.is_raised && (device.armed != 0) == guest.is_armed;
    bool is_followed = line == (guest.is_raised && guest.is_enabled)
        && timer == (guest.is_armed ? guest.reached : NEVER);
    bool is_ahead = !guest.is_armed || now < guest.reached;
    bool goes_on = !was_set || (guest.ahead == (int64_t)set - (uint32_t)set_at && set_at <= now);
    return is_clock && is_followed && is_ahead && goes_on && now < NEVER / 4;
}

/* What `guest.reached` is, at this moment: guest time has not reached the match before it, and has at it. */
static void is_by_definition(void) {
    __CPROVER_assume(guest.reached > now ? guest_time(now) < guest.match
                                         : guest.reached < now || guest_time(now) >= guest.match);
}

/* Guest time, or the match, is another, so this is another moment. */
static void find_reached(void) {
    guest.reached = nondet_number();
    __CPROVER_assume(guest.reached >= now);
    is_by_definition();
}

/* What `due` proves of the library's function. */
uint64_t superio_rtc_alarm_due(const superio_rtc *clock, uint64_t moment) {
    if (is_alone)
        return model_alarm_due(clock, moment);
    check(!clock->armed || (guest.is_armed && moment <= guest.reached), "the time until an alarm is asked for in time");
    return !clock->armed || guest.reached == NEVER ? SUPERIO_RTC_NEVER : guest.reached - moment;
}

void due(void) {
    superio_rtc clock = nondet_clock();
    uint64_t moment = nondet_number();
    now = nondet_number();
    __CPROVER_assume(now < NEVER / 4 && clock.armed && moment >= now);
    guest.ahead = clock.offset;
    uint64_t seconds = model_alarm_due(&clock, now);
    REACHED(seconds == SUPERIO_RTC_NEVER);
    REACHED(seconds == UINT32_MAX);
    check(seconds <= UINT32_MAX || seconds == SUPERIO_RTC_NEVER, "seconds until an alarm");
    bool is_earlier = seconds == SUPERIO_RTC_NEVER || moment < now + seconds;
    check(!is_earlier || guest_time(moment) < clock.mr, "no earlier moment");
    check(seconds == SUPERIO_RTC_NEVER || guest_time(now + seconds) >= clock.mr, "this moment");
}

/* Time that was set goes on, while it and the host's have 32 bits. */
static void check_time(uint32_t time) {
    if (was_set && set + (accessed - set_at) <= U32_MAX && accessed >> 32 == set_at >> 32)
        check(time == set + (accessed - set_at), "a time that was set goes on");
}

/* ---- what others may do before an access: any number of seconds go by and, in between, the handler runs. The relation
 * `others_may` has all of it, as `relation` and `relation_twice` prove. */

struct view {
    superio_rtc device;
    uint64_t now, timer, told;
    bool is_armed, is_raised, is_enabled;
};
static struct view look(void) {
    return (struct view){device, now, timer, told, guest.is_armed, guest.is_raised, guest.is_enabled};
}

static bool others_may(const struct view *m, const struct view *n) {
    bool tells = n->told != m->told;
    return n->now >= m->now && n->told >= m->told && n->device.lr == m->device.lr && n->device.mr == m->device.mr
        && n->device.imsc == m->device.imsc && n->device.offset == m->device.offset
        && n->is_armed == (m->is_armed && n->now < m->timer) /* an alarm comes at its time, */
        && (!n->is_armed || n->timer == m->timer)
        && (m->is_armed || m->is_raised || (!n->is_raised && !tells))
        && (!m->is_armed || n->is_armed == !n->is_raised || tells || m->is_raised)
        && (!m->is_raised || n->is_raised || tells)
        && (!tells || (m->is_enabled && !is_in_handler)) /* and only the handler tells of one, and ends it */
        && (!n->is_armed || m->is_raised || (!n->is_raised && !tells));
}

static void any_changed_by_others(void) {
    now = nondet_number();
    timer = nondet_number();
    line = nondet_bool();
    guest.is_armed = nondet_bool();
    guest.is_raised = nondet_bool();
    device.armed = nondet_number();
    device.ris = nondet_unsigned();
    told = nondet_number();
}

static void between(void) {
    if (is_alone)
        return;
    struct view before = look();
    check(invariant(), "the invariant holds before each access");
    any_changed_by_others();
    __CPROVER_assume(invariant());
    if (before.is_armed)
        is_by_definition();
    struct view after = look();
    __CPROVER_assume(others_may(&before, &after));
}

/* ---- accesses */

u32 readl(const volatile void *address) {
    unsigned offset = (const volatile char *)address - window;
    between();
    superio_rtc_read_effects done = superio_rtc_read(&device, offset, now);
    check(!done.invalid_read, "an invalid read");
    expect_access();
    expect_read(offset, done.value);
    accessed = now;
    follow();
    return done.value;
}

void writel(u32 value, volatile void *address) {
    unsigned offset = (volatile char *)address - window;
    between();
    if (offset != RTC_CR || has[PASSES_CONTROL])
        check(!superio_rtc_write(&device, offset, value, now).invalid_write, "an invalid write");
    expect_access();
    is_cleared |= offset == RTC_ICR && guest.is_raised && !is_in_handler;
    if (offset == RTC_MR)
        is_to_come = value >= guest_time(now);
    expect_write(offset, value);
    if (offset == RTC_MR || offset == RTC_LR || (offset == RTC_CR && has[EXPECTS_RESET]))
        find_reached();
    if (offset == RTC_LR) {
        was_set = true;
        set = value;
        set_at = now;
    }
    accessed = now;
    follow();
}

/* ---- the kernel around the driver */

/* In place of the kernel's calendar: a pair of functions that are each other's inverse. */
void rtc_time64_to_tm(time64_t time, struct rtc_time *tm) {
    *tm = (struct rtc_time){.tm_sec = time, .tm_min = time >> 32};
}
time64_t rtc_tm_to_time64(struct rtc_time *tm) { return (u64)(unsigned)tm->tm_min << 32 | (unsigned)tm->tm_sec; }
int rtc_year_days(unsigned day, unsigned month, unsigned year) { return 0; }

void rtc_update_irq(struct rtc_device *rtc, unsigned long count, unsigned long events) {
    check(count == 1 && events == (RTC_AF | RTC_IRQF), "what the kernel is told");
    __CPROVER_assume(told < NEVER);
    told++;
}

/* ---- any state */

static void fix_guest(void) {
    local.base = window;
    local.vendor = &arm_pl031;
    of_driver.driver_data = &local;
}

static void any_state(void) {
    fix_guest();
    device = nondet_clock();
    guest.ahead = device.offset;
    guest.match = device.mr;
    guest.is_enabled = nondet_bool();
    was_set = nondet_bool();
    set = nondet_unsigned();
    set_at = nondet_number();
    any_changed_by_others();
    told = 0;
    guest.reached = nondet_number();
    __CPROVER_assume(invariant());
    if (guest.is_armed)
        is_by_definition();
}

/* A second goes by. The timer goes off when it is due. */
static void second(void) {
    now++;
    __CPROVER_assume(now < NEVER / 4);
    if (guest.is_armed)
        is_by_definition();
    if (timer <= now)
        read_status();
    expect_access();
}

/* The guest runs its handler, which is not interrupted itself. */
static void run_handler(void) {
    is_in_handler = true;
    check(pl031_interrupt(IRQ, &local) == IRQ_HANDLED, "an interrupt of nobody");
    is_in_handler = false;
}

/* ---- what is proved */

/* `others_may` has no step, a second, and the handler, */
void relation(void) {
    any_state();
    is_in_handler = nondet_bool();
    struct view first = look(), n = first;
    check(others_may(&first, &n), "others may do nothing");
    if (!is_in_handler && line && nondet_bool())
        run_handler();
    else
        second();
    n = look();
    REACHED(is_in_handler && guest.is_raised && line);
    REACHED(!is_in_handler && told > 0);
    check(others_may(&first, &n), "others may do it");
    check(invariant(), "others keep the invariant");
}

/* and if it has two steps in turn, it has both. */
void relation_twice(void) {
    struct view m, n, o;
    any_state();
    is_in_handler = nondet_bool();
    m = look();
    any_changed_by_others();
    __CPROVER_assume(invariant());
    n = look();
    __CPROVER_assume(others_may(&m, &n));
    any_changed_by_others();
    __CPROVER_assume(invariant());
    o = look();
    __CPROVER_assume(others_may(&n, &o));
    REACHED(guest.is_raised && line);
    check(others_may(&m, &o), "others may do both");
}

/* A clock is new, or restored with any time, match and mask, at any moment. */
void restores(void) {
    fix_guest();
    device = nondet_clock();
    __CPROVER_assume(device.imsc <= 1 && device.ris <= 1);
    now = nondet_number();
    __CPROVER_assume(now < NEVER / 4);
    guest.ahead = device.offset;
    guest.match = device.mr;
    guest.is_armed = device.armed;
    guest.is_raised = device.ris;
    guest.is_enabled = device.imsc;
    timer = NEVER;
    find_reached();
    if (!has[NOT_RESTORED])
        follow();
    expect_access();
    REACHED(guest.is_raised && line);
    check(invariant(), "a restored clock: the invariant");
}

/* The second goes by at which guest time reaches the match, or any other. */
void passes(void) {
    any_state();
    bool was_armed = guest.is_armed, was_raised = guest.is_raised;
    second();
    REACHED(was_armed && guest.is_raised && line && !was_raised);
    check(!was_armed || guest.is_armed == (guest_time(now) < guest.match), "an alarm comes at its time");
    check(guest.is_armed || !was_armed || guest.is_raised, "an alarm that comes raises its interrupt");
    check(was_raised || !guest.is_raised || guest_time(now) >= guest.match, "an alarm does not come before its time");
    check(line == (guest.is_raised && guest.is_enabled), "a second: the line");
    check(invariant(), "a second: the invariant");
}

/* The handler ends its interrupt, and tells the kernel of it once. */
void interrupt(void) {
    any_state();
    __CPROVER_assume(line);
    run_handler();
    REACHED(guest.is_armed);
    check(told == 1, "the kernel is told of the alarm once");
    check(!line && !guest.is_raised, "the handler ends its interrupt");
    check(invariant(), "the handler: the invariant");
}

void read_time(void) {
    struct rtc_time tm;
    any_state();
    check(local.vendor->ops.read_time(&of_driver, &tm) == 0, "reading the time");
    REACHED(guest.is_raised && line);
    check(rtc_tm_to_time64(&tm) == guest_time(accessed), "the time that is read");
    check_time(rtc_tm_to_time64(&tm));
    check(invariant(), "reading the time: the invariant");
}

void set_time(void) {
    uint32_t time = nondet_unsigned();
    struct rtc_time tm;
    any_state();
    rtc_time64_to_tm(time, &tm);
    check(local.vendor->ops.set_time(&of_driver, &tm) == 0, "setting the time");
    REACHED(guest.is_raised && line);
    check(set == time && set_at == accessed && guest_time(accessed) == time, "the time is set");
    check(invariant(), "setting the time: the invariant");
}

void read_alarm(void) {
    struct rtc_wkalrm found;
    any_state();
    check(local.vendor->ops.read_alarm(&of_driver, &found) == 0, "reading the alarm");
    REACHED(guest.is_armed && guest.is_enabled);
    check(rtc_tm_to_time64(&found.time) == guest.match && found.enabled == guest.is_enabled, "the alarm that is read");
    check(invariant(), "reading the alarm: the invariant");
}

/* An alarm waits, or it has come; or the call itself has found that it has come, and ended it. */
static void check_alarm(void) {
    check(!is_to_come || guest.is_armed || guest.is_raised || told > 0 || is_cleared, "an alarm waits, or has come");
    REACHED(is_to_come && guest.is_armed);
    REACHED(is_to_come && guest.is_raised);
    REACHED(is_to_come && is_cleared);
    check(invariant(), "the alarm: the invariant");
}

void set_alarm(void) {
    uint32_t time = nondet_unsigned();
    struct rtc_wkalrm request = {.enabled = nondet_bool()};
    any_state();
    rtc_time64_to_tm(time, &request.time);
    check(local.vendor->ops.set_alarm(&of_driver, &request) == 0, "setting an alarm");
    check(guest.match == time && guest.is_enabled == request.enabled, "the alarm is set");
    check(!guest.is_raised || is_to_come, "an alarm that is past does not come");
    check_alarm();
}

void turn_alarm(void) {
    bool is_on = nondet_bool();
    any_state();
    is_to_come = guest.is_armed || guest.is_raised;
    check(local.vendor->ops.alarm_irq_enable(&of_driver, is_on) == 0, "turning the alarm");
    check(guest.is_enabled == is_on, "the alarm is turned");
    check_alarm();
}

/* A kernel starts on the clock as it is, and reads its time. It reads the alarm too, as read_alarm does. */
static struct amba_device bus_device;
static struct rtc_device rtc;
static struct rtc_class_ops operations;
void *devm_kzalloc(struct device *of, size_t size, int flags) {
    check(size == sizeof local, "what memory is for");
    return &local;
}
void *devm_kmemdup(struct device *of, const void *from, size_t size, int flags) {
    check(size == sizeof operations, "what memory is for");
    operations = *(const struct rtc_class_ops *)from;
    return &operations;
}
struct rtc_device *devm_rtc_allocate_device(struct device *of) { return &rtc; }
int __devm_rtc_register_device(struct module *owner, struct rtc_device *of) {
    struct rtc_time tm;
    check(of->ops->read_time(&bus_device.dev, &tm) == 0, "a start reads the time");
    check_time(rtc_tm_to_time64(&tm));
    return 0;
}
int request_irq(unsigned irq, irqreturn_t (*of)(int, void *), unsigned long flags, const char *name, void *data) {
    check(irq == IRQ && of == pl031_interrupt && data == &local, "the interrupt that is asked for");
    return 0;
}
void free_irq(unsigned irq, void *of) {}

void starts(void) {
    any_state();
    struct view first = look();
    uint32_t set_before = set;
    uint64_t set_at_before = set_at;
    bus_device.res.start = (unsigned long)window;
    bus_device.res.end = bus_device.res.start + SUPERIO_RTC_WINDOW - 1;
    bus_device.irq[0] = IRQ;
    is_in_handler = true; /* no kernel has a handler yet */
    check(pl031_probe(&bus_device, &(struct amba_id){.data = &arm_pl031}) == 0, "a start");
    struct view last = look();
    REACHED(guest.is_armed && guest.is_enabled);
    if (has[EXPECTS_RESET])
        check(guest.ahead == 0, "a start takes the clock back to the host's time");
    else
        check(others_may(&first, &last) && set == set_before && set_at == set_at_before, "a start changes nothing");
    check(invariant(), "a start: the invariant");
}

/* An alarm of a new clock comes once its time is reached, and not before: in one run, without the invariant. */
void comes(void) {
    uint32_t time = nondet_unsigned();
    uint64_t end = nondet_number();
    struct rtc_wkalrm request = {.enabled = 1};
    fix_guest();
    is_alone = true;
    device = superio_rtc_new();
    now = nondet_number();
    follow();
    __CPROVER_assume(now < end && end >> 32 == now >> 32 && time > (uint32_t)now);
    rtc_time64_to_tm(time, &request.time);
    check(local.vendor->ops.set_alarm(&of_driver, &request) == 0, "setting an alarm");
    check(!line, "an alarm does not come before its time");
    for (int times = 0; times < 2 && timer <= end; times++) {
        now = timer;
        read_status();
    }
    now = end;
    REACHED(line);
    check(line == ((uint32_t)end >= time), "the line is up once the alarm's time is reached, and not before");
    if (line) {
        run_handler();
        check(!line && told == 1, "the handler ends it");
    }
}
