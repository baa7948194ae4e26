/* SPDX-License-Identifier: Apache-2.0 OR BSD-3-Clause */
/*
 * What the clock's driver and the kernel's functions for clocks need beside kernel.h, and no more. All of it is trusted.
 * An access, a timer's work, and what a program is told are calls of the harness; the rest does nothing.
 */
#ifndef CLOCK_KERNEL_H
#define CLOCK_KERNEL_H

#include "kernel.h"
#include <limits.h>

typedef int64_t s64, __s64, time64_t;
typedef int32_t s32;
typedef uint64_t timeu64_t;
#define U32_MAX UINT32_MAX
#define ETIME 62
#define ERANGE 34
#define GFP_KERNEL 0
#define BITS_TO_LONGS(n) (((n) + 63) / 64)
#define set_bit(n, p) (*(p) |= 1UL << (n))
#define clear_bit(n, p) (*(p) &= ~(1UL << (n)))
#define EXPORT_SYMBOL_NS(x, y) extern int exported_##x
#define MODULE_AUTHOR(x) extern int author
#define MODULE_DESCRIPTION(x) extern int description
#define MODULE_DEVICE_TABLE(bus, table) extern int exported_##table
void *memset(void *to, int byte, size_t size);

/* Numbers and times. */
#define upper_32_bits(n) ((u32)((u64)(n) >> 32))
#define lower_32_bits(n) ((u32)(n))
static inline s64 div_s64_rem(s64 dividend, s32 divisor, s32 *rest) {
    *rest = dividend % divisor;
    return dividend / divisor;
}
static inline unsigned bcd2bin(unsigned char n) { return (n & 15) + (n >> 4) * 10; }
static inline unsigned char bin2bcd(unsigned n) { return (n / 10 << 4) + n % 10; }
time64_t mktime64(unsigned year, unsigned month, unsigned day, unsigned hour, unsigned minute, unsigned second);
struct timespec64 { time64_t tv_sec; long tv_nsec; };
#define ktime_set(seconds, ns) ((ktime_t)(seconds) * NSEC_PER_SEC + (ns))
#define ktime_add(a, b) ((a) + (b))
#define ktime_sub_ns(a, n) ((a) - (ktime_t)(n))
#define ktime_before(a, b) ((a) < (b))
#define ktime_to_ns(a) (a)
static inline struct timespec64 ktime_to_timespec64(ktime_t t) { /* of times from 1970 on */
    return (struct timespec64){t / NSEC_PER_SEC, t % NSEC_PER_SEC};
}

/* Locks, which nobody else takes here, power, and messages of the tracer. */
#define mutex_lock_interruptible(m) ((void)(m), 0)
#define pm_stay_awake(d) ((void)(d))
#define pm_relax(d) ((void)(d))
#define device_init_wakeup(d, is_on) ((void)(d))
#define dev_pm_set_wake_irq(d, irq) ((void)(d))
#define dev_pm_clear_wake_irq(d) ((void)(d))
#define cpu_relax() ((void)0)
#define trace_rtc_read_time(...) ((void)0)
#define trace_rtc_set_time(...) ((void)0)
#define trace_rtc_read_alarm(...) ((void)0)
#define trace_rtc_set_alarm(...) ((void)0)
#define trace_rtc_alarm_irq_enable(...) ((void)0)
#define trace_rtc_read_offset(...) ((void)0)
#define trace_rtc_set_offset(...) ((void)0)
#define trace_rtc_irq_set_state(...) ((void)0)
#define trace_rtc_irq_set_freq(...) ((void)0)
#define trace_rtc_timer_enqueue(...) ((void)0)
#define trace_rtc_timer_dequeue(...) ((void)0)
#define trace_rtc_timer_fired(...) ((void)0)

/* Work is done when the harness says. */
#define schedule_work(w) schedule(w)
void schedule(struct work_struct *work);
#define HRTIMER_RESTART 1
#undef hrtimer_try_to_cancel
#define hrtimer_try_to_cancel(t) ((void)(t), 0)
#define hrtimer_forward_now(t, n) ((void)(t), (u64)(n))

/* A queue of timers: a list in the order of their times. */
struct timerqueue_node { struct timerqueue_node *next; ktime_t expires; };
struct timerqueue_head { struct timerqueue_node *first; };
#define timerqueue_init(node) ((node)->next = NULL)
#define timerqueue_getnext(head) ((head)->first)
#define timerqueue_iterate_next(node) ((node)->next)
static inline bool timerqueue_add(struct timerqueue_head *head, struct timerqueue_node *node) {
    struct timerqueue_node **place = &head->first;
    while (*place && (*place)->expires <= node->expires)
        place = &(*place)->next;
    node->next = *place;
    *place = node;
    return head->first == node;
}
static inline bool timerqueue_del(struct timerqueue_head *head, struct timerqueue_node *node) {
    struct timerqueue_node **place = &head->first;
    while (*place && *place != node)
        place = &(*place)->next;
    KASSERT(*place == node);
    *place = node->next;
    return head->first != NULL;
}

/* Memory of a device, its registers, and its interrupt. */
void *devm_kzalloc(struct device *dev, size_t size, int flags);
void *devm_kmemdup(struct device *dev, const void *from, size_t size, int flags);
#define devm_ioremap(d, start, size) ((void *)(start))
#undef readl
#undef writel
u32 readl(const volatile void *address);
void writel(u32 value, volatile void *address);
#define IRQ_NONE 0
#define IRQ_HANDLED 1
#define IRQF_COND_SUSPEND 0x40000
int request_irq(unsigned irq, irqreturn_t (*handler)(int, void *), unsigned long flags, const char *name, void *of);
void free_irq(unsigned irq, void *of);

/* A bus of devices that have an identification. */
struct range { unsigned long start, end; };
#define resource_size(r) ((r)->end - (r)->start + 1)
struct amba_id { unsigned id, mask; void *data; };
struct amba_device {
    struct device dev;
    struct range res;
    struct { unsigned devarch, devtype; } uci;
    unsigned periphid, cid, irq[9];
};
struct amba_driver {
    struct { const char *name; } drv;
    int (*probe)(struct amba_device *, const struct amba_id *);
    void (*remove)(struct amba_device *);
    const struct amba_id *id_table;
};
#define module_amba_driver(x) extern int exported_##x
#define AMBA_CID 0xb105f00d
#define CORESIGHT_CID 0xb105900d
#define amba_cs_uci_id_match(table, d) 0
#define dev_pm_domain_attach(d, is_on) ((void)(d), 0)
#define dev_pm_domain_detach(d, is_off) ((void)(d))
#define amba_get_enable_pclk(d) ((void)(d), 0)
#define amba_put_disable_pclk(d) ((void)(d))
struct reset_control;
#define of_reset_control_array_get_optional_shared(node) NULL
#define reset_control_deassert(r) ((void)(r))
#define reset_control_put(r) ((void)(r))
#define EPROBE_DEFER 517
#define UCI_REG_DEVTYPE_OFFSET 0xfcc
#define UCI_REG_DEVARCH_OFFSET 0xfbc
#undef ioremap
#define ioremap(start, size) ((void *)(start))
#define amba_set_drvdata(d, p) ((d)->dev.driver_data = (p))
#define amba_request_regions(d, name) ((void)(d), 0)
#define amba_release_regions(d) ((void)(d))

/* What programs open, and are told by a signal: the harness looks at the clock's irq_data. */
struct seq_file;
struct class;
struct module;
struct nvmem_config;
struct fasync_struct;
struct cdev { int nothing; };
#define THIS_MODULE NULL
#define kill_fasync(queue, signal, band) ((void)(queue), tell())
void tell(void);
#define class_find_device_by_name(c, name) ((struct device *)NULL)
#define try_module_get(m) true
#define module_put(m) ((void)(m))
#define put_device(d) ((void)(d))
#define device_property_read_u32(d, name, number) (-EINVAL)
#define rtc_dev_prepare(r) ((void)(r))
#define rtc_proc_add_device(r) ((void)(r))
#define cdev_device_add(c, d) 0
#define devm_add_action_or_reset(d, f, of) 0
#define INIT_WORK(w, f) ((void)(w))
#endif
