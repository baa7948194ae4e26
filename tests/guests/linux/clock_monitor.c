/* SPDX-License-Identifier: Apache-2.0 OR BSD-3-Clause */
/*
 * A clock in a monitor, and what its guest may expect of it: the registers of a PL031, whose alarm comes once its time is
 * reached. For exchanges, and for the proof. Before it stand the driver, `check` and `choose`.
 */
#define NEVER UINT64_MAX

/* What the monitor does wrong. */
enum fault {
    PASSES_CONTROL, /* passes writes at RTCCR on */
    NO_LINE,        /* sets no line */
    NO_TIMER,       /* sets no timer */
    NO_READ,        /* reads no RTCMIS when the timer goes off */
    NOT_AT_ONCE,    /* sets a timer to 0, which stops it */
    NOT_RESTORED,   /* sets neither after a restore */
    CLEARS,         /* clears half of the alarms when the timer goes off */
    LATE,           /* sets a timer that is up to a second late */
    STOPS,          /* stops the guest for up to ten seconds in the middle of a call, and not for one */
    EXPECTS_RESET,  /* and the guest expects that a write of RTCCR takes the clock back to the host's time */
    FAULTS
};
#ifndef HAS
#define HAS 0
#endif
static bool has[FAULTS] = {HAS};

/* ---- what a guest may expect of its clock */

static uint64_t now; /* the host's time, in seconds */
static uint32_t set; /* the time that was set, or that the clock had at first */
static uint64_t set_at;

/* The registers, and the moment from the last write of one on at which guest time first reaches the match. */
static struct {
    int64_t ahead;
    uint32_t match;
    bool is_armed, is_raised, is_enabled;
    uint64_t reached;
} guest;

/* The host's time as 32 bits, plus how far the guest is ahead; and the host's time alone if that has no 32 bits. This
 * is no function, so that CBMC sees the same formula each time: the proofs then take half as long. */
#define SUM(moment) ((uint32_t)(moment) + guest.ahead)
#define guest_time(moment)                                                                                            \
    ((uint32_t)(SUM(moment) >= 0 && SUM(moment) <= U32_MAX ? SUM(moment) : (uint32_t)(moment)))

static void expect_access(void) {
    if (guest.is_armed && guest_time(now) >= guest.match) {
        guest.is_armed = false;
        guest.is_raised = true;
    }
}

static void expect_write(unsigned offset, uint32_t value) {
    expect_access();
    switch (offset) {
    case RTC_MR:
        guest.match = value;
        guest.is_armed = value > guest_time(now);
        guest.is_raised |= value == guest_time(now);
        break;
    case RTC_LR: guest.ahead = (int64_t)value - (uint32_t)now; break;
    case RTC_CR: /* a PL031 runs on; here a write of 1 takes the clock back to the host's time */
        if (has[EXPECTS_RESET]) {
            guest.ahead = 0;
            set = now;
            set_at = now;
        }
        break;
    case RTC_IMSC: guest.is_enabled = value & 1; break;
    case RTC_ICR: guest.is_raised &= !(value & 1); break;
    default: check(false, "a write of another register");
    }
}

static void expect_read(unsigned offset, uint32_t value) {
    switch (offset) {
    case RTC_DR: check(value == guest_time(now), "RTCDR shows another time"); break;
    case RTC_MR: check(value == guest.match, "RTCMR"); break;
    case RTC_CR: check(value == 1, "RTCCR"); break;
    case RTC_IMSC: check(value == guest.is_enabled, "RTCIMSC"); break;
    case RTC_RIS: check(value == guest.is_raised, "RTCRIS"); break;
    case RTC_MIS: check(value == (guest.is_raised && guest.is_enabled), "RTCMIS"); break;
    default: check(offset >= 0xFE0, "a read of another register");
    }
}

/* ---- the monitor, by docs/CLOCK.md, 'The alarm' */

static superio_rtc device;
static bool line;
static uint64_t timer; /* when it goes off */

static void read_status(void);

/* After each access, and after a restore. */
static void follow(void) {
    uint64_t due = superio_rtc_alarm_due(&device, now);
    line = superio_rtc_interrupt_line(&device) && !has[NO_LINE];
    timer = due == SUPERIO_RTC_NEVER || due == 0 || has[NO_TIMER] ? NEVER : now + due + choose(1 + has[LATE]);
    if (due == 0 && !has[NO_TIMER] && !has[NO_READ] && !has[NOT_AT_ONCE])
        read_status();
}

static void read_status(void) {
    if (!has[NO_READ]) {
        superio_rtc_read(&device, RTC_MIS, now);
        expect_access();
    }
    if (has[CLEARS] && choose(2)) {
        superio_rtc_write(&device, RTC_ICR, 1, now);
        expect_write(RTC_ICR, 1);
    }
    follow();
}
