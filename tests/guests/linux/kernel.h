/* SPDX-License-Identifier: Apache-2.0 OR BSD-3-Clause */
/*
 * What the unchanged files of Linux's driver need of the kernel, and no more. All of it is trusted. A lock, an access of
 * the port, and the characters that the tty layer takes are calls of the harness; the rest does nothing.
 */
#ifndef KERNEL_H
#define KERNEL_H

#include <stdbool.h>
#include <stddef.h>
#include <stdint.h>

typedef uint8_t u8; typedef uint16_t u16; typedef uint32_t u32; typedef uint64_t u64;
typedef uint8_t __u8; typedef uint16_t __u16; typedef uint32_t __u32; typedef int32_t __s32; typedef uint64_t __u64;
typedef unsigned long resource_size_t, phys_addr_t, dma_addr_t;
typedef long ssize_t;
typedef int dma_cookie_t;
typedef bool (*dma_filter_fn)(void *, void *);
typedef unsigned char cc_t; typedef unsigned int speed_t, tcflag_t;
typedef int atomic_t;
typedef long ktime_t;
#define __bitwise
#define __force
#define __iomem
#define __user
#define __maybe_unused __attribute__((unused))
#define __init
#define likely(x) (x)
#define unlikely(x) (x)
#define fallthrough __attribute__((fallthrough))
#define BIT(n) (1UL << (n))
#define _BITUL(n) (1UL << (n))
#define BIT_ULL(n) (1ULL << (n))
#define GENMASK(h, l) (((~0UL) << (l)) & (~0UL >> (63 - (h))))
#define container_of(p, type, member) ((type *)((char *)(p) - offsetof(type, member)))
#define list_entry(p, type, member) container_of(p, type, member)
#define EXPORT_SYMBOL(x) extern int exported_##x
#define EXPORT_SYMBOL_GPL(x) extern int exported_##x
#define READ_ONCE(x) (x)
#define max(a, b) ((a) > (b) ? (a) : (b))
#define min(a, b) ((a) < (b) ? (a) : (b))
#define ARRAY_SIZE(a) (sizeof(a) / sizeof *(a))
#define DIV_ROUND_UP(n, d) (((n) + (d) - 1) / (d))
#define DIV_ROUND_CLOSEST(n, d) (((n) + (d) / 2) / (d))
#define BUG_ON(x) KASSERT(!(x))
#define BUILD_BUG_ON(x)
#define WARN_ON(x) (x)
#define PAGE_SIZE 4096UL
#define HZ 250
#define NSEC_PER_MSEC 1000000L
#define NSEC_PER_SEC 1000000000L
#define EINVAL 22
#define ENOMEM 12
#define ENODEV 19
#define EBUSY 16
#define ENOSPC 28
#define EL3HLT 46
#define ENOTSUPP 524
#define EOPNOTSUPP 95
#define GFP_ATOMIC 0
#define xchg(p, v) ({ __typeof__(*(p)) old_ = *(p); *(p) = (v); old_; })
#define nsecs_to_jiffies(n) ((unsigned long)(n) / 4000000)
#define time_before(a, b) ((long)((a) - (b)) < 0)
extern unsigned long jiffies;
extern int oops_in_progress;
#define nr_irqs 256
#define CONFIG_SERIAL_8250_16550A_VARIANTS 0
#define IS_ENABLED(x) (x)
#define MODULE_LICENSE(x) extern int license
#define down_write(p) ((void)(p))
#define up_write(p) ((void)(p))
#define wake_up(q) ((void)(q))
#define lockdep_assert_held_once(p) ((void)0)
#define lockdep_assert_held(p) ((void)0)
#define atomic_add_unless(p, a, u) (*(p) != (u) ? (*(p) += (a), 1) : 0)
#define atomic_dec_and_test(p) (--*(p) == 0)
void KASSERT(bool is_good);

struct list_head { struct list_head *next, *prev; };
struct hlist_node { struct hlist_node *next, **pprev; };
typedef struct { int is_taken; } spinlock_t;
typedef struct { int nothing; } wait_queue_head_t;
struct mutex { int nothing; };
struct work_struct { int nothing; };
struct delayed_work { int nothing; };
struct timer_list { void (*function)(struct timer_list *); };
enum hrtimer_restart { HRTIMER_NORESTART };
struct hrtimer { enum hrtimer_restart (*function)(struct hrtimer *); };
#define CLOCK_MONOTONIC 1
#define HRTIMER_MODE_REL 1
#define from_timer(v, t, f) container_of(t, __typeof__(*(v)), f)
#define mod_timer(t, when) ((void)(t))
#define hrtimer_init(t, a, b) ((void)(t))
#define hrtimer_start(t, a, b) ((void)(t), (void)(a))
#define hrtimer_cancel(t) ((void)(t))
#define hrtimer_try_to_cancel(t) ((void)(t))
#define ktime_set(s, n) ((ktime_t)(s) + (n))
#define gpiod_set_value(pin, value) ((void)(pin))
#define ms_to_ktime(n) ((ktime_t)(n))
#define ns_to_ktime(n) ((ktime_t)(n))

/* Locks: calls of the harness. */
void lock_of(spinlock_t *lock);
void unlock_of(spinlock_t *lock);
#define spin_lock_init(l) ((l)->is_taken = 0)
#define spin_lock(l) lock_of(l)
#define spin_unlock(l) unlock_of(l)
#define spin_lock_irq(l) lock_of(l)
#define spin_unlock_irq(l) unlock_of(l)
#define spin_lock_irqsave(l, f) ((f) = 0, lock_of(l))
#define spin_unlock_irqrestore(l, f) ((void)(f), unlock_of(l))
#define spin_trylock(l) (lock_of(l), 1)
#define spin_trylock_irqsave(l, f) ((f) = 0, lock_of(l), 1)
#define mutex_lock(m) ((void)(m))
#define mutex_unlock(m) ((void)(m))

/* Ports: calls of the harness. */
u8 inb(unsigned long port);
void outb(u8 value, unsigned long port);
#define outb_p outb
#define inb_p inb
#define readb(p) (*(volatile u8 *)(p))
#define readw(p) (*(volatile u16 *)(p))
#define readl(p) (*(volatile u32 *)(p))
#define ioread32be(p) readl(p)
#define writeb(v, p) ((void)(*(volatile u8 *)(p) = (u8)(v)))
#define writew(v, p) ((void)(*(volatile u16 *)(p) = (u16)(v)))
#define writel(v, p) ((void)(*(volatile u32 *)(p) = (u32)(v)))
#define iowrite32be(v, p) writel(v, p)
#define ioremap(a, s) ((void *)0)
#define iounmap(p) ((void)(p))
#define request_region(a, b, c) ((void *)1)
#define request_mem_region(a, b, c) ((void *)1)
#define release_region(a, b) ((void)0)
#define release_mem_region(a, b) ((void)0)

/* Messages, delays, power, memory. */
#define dev_dbg(...) ((void)0)
#define dev_err(...) ((void)0)
#define dev_warn(...) ((void)0)
#define dev_info(...) ((void)0)
#define dev_info_ratelimited(...) ((void)0)
#define dev_warn_ratelimited(...) ((void)0)
#define pr_debug(...) ((void)0)
#define printk(...) ((void)0)
#define udelay(n) ((void)0)
#define mdelay(n) ((void)0)
#define touch_nmi_watchdog() ((void)0)
struct dev_pm_info { int nothing; };
struct device { struct device *parent; void *driver_data; };
#define pm_runtime_get_sync(d) ((void)(d))
#define pm_runtime_put_sync(d) ((void)(d))
#define pm_runtime_mark_last_busy(d) ((void)(d))
#define pm_runtime_put_autosuspend(d) ((void)(d))
#define pm_wakeup_event(d, n) ((void)(d))
void *kmalloc(unsigned long size, int flags);
void kfree(const void *p);
void *memcpy(void *to, const void *from, size_t size);

/* Interrupts. */
typedef int irqreturn_t;
#define IRQ_RETVAL(x) ((x) != 0)
#define IRQF_SHARED 0x80
struct irq_data { int nothing; };
#define irq_get_irq_data(i) ((struct irq_data *)0)
#define irqd_is_wakeup_set(d) false
#define disable_irq_nosync(i) ((void)(i))
#define enable_irq(i) ((void)(i))
#define synchronize_irq(i) ((void)(i))
#define probe_irq_on() 0UL
#define probe_irq_off(x) (x)
#define wake_up_interruptible(q) ((void)(q))

/* The tty layer. */
#define NCCS 19
struct ktermios { tcflag_t c_iflag, c_oflag, c_cflag, c_lflag; cc_t c_line; cc_t c_cc[NCCS]; speed_t c_ispeed, c_ospeed; };
#ifdef LINUX_5_10
#define FLOW bool stopped
#define is_stopped stopped
#else
#define FLOW struct { bool stopped; } flow
#define is_stopped flow.stopped
#endif
struct tty_struct { FLOW; struct ktermios termios; int termios_rwsem; void *driver_data; struct device *dev; };
#ifdef LINUX_6_12 /* its queue of output is a kfifo: two counts that wrap, and a size that is a power of two */
struct kfifo { unsigned in, out, size; unsigned char *data; };
#define kfifo_len(f) ((f)->in - (f)->out)
#define kfifo_is_empty(f) (kfifo_len(f) == 0)
#define kfifo_skip_count(f, count) ((void)((f)->out += (count)))
static unsigned kfifo_in(struct kfifo *f, const unsigned char *bytes, unsigned count) {
    if (count > f->size - kfifo_len(f))
        count = f->size - kfifo_len(f);
    for (unsigned i = 0; i < count; i++)
        f->data[(f->in + i) % f->size] = bytes[i];
    f->in += count;
    return count;
}
static unsigned kfifo_out(struct kfifo *f, unsigned char *bytes, unsigned count) {
    if (count > kfifo_len(f))
        count = kfifo_len(f);
    for (unsigned i = 0; i < count; i++)
        bytes[i] = f->data[(f->out + i) % f->size];
    f->out += count;
    return count;
}
#define kfifo_get(f, byte) kfifo_out(f, byte, 1)
#define EINPROGRESS 115
struct serial_port_device { struct device dev; };
#define pm_runtime_get(d) ((void)(d), 0)
#define pm_runtime_put_noidle(d) ((void)(d))
#define pm_runtime_enabled(d) false
#define pm_runtime_active(d) true
#define MODULE_DESCRIPTION(x) extern int description
#define CON_NBCON 0x100
#define hlist_unhashed_lockless(node) true
#define hlist_unhashed(node) true
#else
struct kfifo { int nothing; };
#endif
struct tty_port { struct tty_struct *tty; unsigned long iflags; wait_queue_head_t delta_msr_wait; struct mutex mutex; struct kfifo xmit_fifo; unsigned char *xmit_buf; };
struct console { short flags, index; int cflag; unsigned ispeed, ospeed; int node; void *write_atomic; };
struct uart_port;
#define CON_ENABLED 4
#define TTY_PORT_INITIALIZED 0
#define test_bit(n, p) ((*(p) >> (n)) & 1)
#define TTY_NORMAL 0
#define TTY_BREAK 1
#define TTY_FRAME 2
#define TTY_PARITY 3
#define TTY_OVERRUN 4
int tty_insert_flip_char(struct tty_port *port, unsigned char ch, char flag); /* of the harness */
#define tty_flip_buffer_push(p) ((void)(p))
#define tty_port_tty_get(p) ((p)->tty)
#define tty_kref_put(t) ((void)(t))
#define tty_port_initialized(p) ((p)->iflags & 1)
#define tty_port_tty_wakeup(p) ((void)(p))
#define do_SAK(t) ((void)(t))
#define handle_sysrq(c) ((void)(c))
#define sysrq_mask() 1
#define tty_termios_baud_rate(t) ((t)->c_ospeed)
#define tty_termios_encode_baud_rate(t, a, b) ((void)(t))
#define N_PPS 18
enum { CSIZE = 0x30, CS5 = 0, CS6 = 0x10, CS7 = 0x20, CS8 = 0x30, CSTOPB = 0x40, CREAD = 0x80, PARENB = 0x100,
       PARODD = 0x200, CLOCAL = 0x800 };
#define CMSPAR 0x40000000u
#define CRTSCTS 0x80000000u
enum { IGNBRK = 1, BRKINT = 2, IGNPAR = 4, PARMRK = 8, INPCK = 0x10 };
enum { TIOCM_DTR = 2, TIOCM_RTS = 4, TIOCM_CTS = 0x20, TIOCM_CAR = 0x40, TIOCM_RNG = 0x80, TIOCM_DSR = 0x100,
       TIOCM_OUT1 = 0x2000, TIOCM_OUT2 = 0x4000, TIOCM_LOOP = 0x8000, TIOCM_RI = 0x80, TIOCM_CD = 0x40 };
enum { TIOCSER_TEMT = 1 };
unsigned char tty_get_char_size(unsigned int cflag);
#define tty_get_frame_size(c) 10
#define DIV64_U64_ROUND_UP(a, b) DIV_ROUND_UP((u64)(a), (u64)(b))

/* Devices' attributes, and the rest that is only named. */
struct attribute { int nothing; };
struct attribute_group { struct attribute **attrs; };
struct device_attribute { struct attribute attr; };
#define DEVICE_ATTR_RW(x) struct device_attribute dev_attr_##x
#define kstrtou8(a, b, c) 0
#define sysfs_emit(b, ...) 0
#define dev_get_drvdata(d) ((d)->driver_data)
struct resource;
struct platform_device;
struct gpio_desc;
struct seq_file;
struct dma_chan;
struct dma_slave_config { int nothing; };
struct clk;
#define IS_ERR_OR_NULL(p) (!(p))
#define PTR_ERR(p) 0
#define IS_ERR(p) 0
#define ERR_PTR(n) NULL
#define roundup(x, y) ((((x) + (y) - 1) / (y)) * (y))
#endif
