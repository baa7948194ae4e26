/* SPDX-License-Identifier: Apache-2.0 OR BSD-3-Clause */
/* The clock, its interrupt line and its alarm. Its moments begin with the time of day at the start, and go on with
 * CLOCK_BOOTTIME, which never goes back. */
#include "monitor.h"

#include <time.h>

enum { RTCCR = 0x00C, RTCMIS = 0x018 };

static superio_rtc rtc;
static bool was_up; /* the level of the line that the interrupt controller was told last */
static int timer;
static int64_t ahead; /* how many seconds moments are ahead of CLOCK_BOOTTIME */

static int64_t seconds(clockid_t which) {
    struct timespec time;
    clock_gettime(which, &time);
    return time.tv_sec;
}

/* The present moment, in seconds since 1970. */
static uint64_t moment(void) {
    return (uint64_t)(seconds(CLOCK_BOOTTIME) + ahead);
}

/* Called after each access: sets the timer to when the alarm is due, and the line to its level if that has changed. */
static void follow_clock(uint64_t now) {
    uint64_t due = superio_rtc_alarm_due(&rtc, now);
    struct itimerspec goes_off = {0}; /* which is never */
    if (due != SUPERIO_RTC_NEVER)
        goes_off.it_value.tv_sec = (int64_t)(now + due) - ahead;
    timerfd_settime(timer, TFD_TIMER_ABSTIME, &goes_off, NULL);
    bool is_up = superio_rtc_interrupt_line(&rtc);
    if (is_up != was_up)
        KVM(vm, KVM_IRQ_LINE, &((struct kvm_irq_level){.irq = CLOCK_IRQ, .level = is_up}));
    was_up = is_up;
}

/* The guest accesses an address without memory. The clock takes four bytes at any offset. A narrower read shows a part
 * of the four around it, as EDK II expects, or ones if it crosses two words. A narrower write has no effect, nor has one
 * of RTCCR: drivers make one when they start, and it would undo a time that the guest has set. */
void clock_access(uint64_t address, bool is_write, uint8_t *bytes, unsigned count) {
    uint16_t offset = (uint16_t)(address - CLOCK_BASE), within = count == 4 ? 0 : offset % 4;
    bool is_clock = address >= CLOCK_BASE && address < CLOCK_BASE + SUPERIO_RTC_WINDOW && within + count <= 4;
    uint64_t now = moment();
    uint32_t value;
    if (is_clock && is_write && count == 4 && offset != RTCCR) {
        memcpy(&value, bytes, sizeof value);
        superio_rtc_write(&rtc, offset, value, now);
    } else if (is_clock && !is_write) {
        value = superio_rtc_read(&rtc, (uint16_t)(offset - within), now).value >> 8 * within;
        memcpy(bytes, &value, count);
    } else if (!is_write) {
        memset(bytes, 0xFF, count);
    }
    follow_clock(now);
}

/* In each turn of the event loop: a guest that sleeps until the alarm makes no access, so the monitor makes one. */
void clock_turn(void) {
    uint8_t bytes[4];
    uint64_t times;
    if (read(timer, &times, sizeof times) == (ssize_t)sizeof times)
        clock_access(CLOCK_BASE + RTCMIS, false, bytes, sizeof bytes);
}

/* The machine is reset, and the input of its interrupt controller is down. The clock itself goes on. */
void clock_reset(void) {
    was_up = false;
    follow_clock(moment());
}

/* Returns a file descriptor that is readable when the alarm is due. */
int clock_open(void) {
    rtc = superio_rtc_new();
    ahead = seconds(CLOCK_REALTIME) - seconds(CLOCK_BOOTTIME);
    timer = must(timerfd_create(CLOCK_BOOTTIME, TFD_NONBLOCK | TFD_CLOEXEC), "the alarm's timer");
    return timer;
}
