/* SPDX-License-Identifier: Apache-2.0 OR BSD-3-Clause */
/*
 * What the unchanged files of Xen's driver need of Xen, and no more. All of it is trusted. Locks, accesses of the port, and a
 * processor that waits for others are calls of the harness; the rest does nothing, or is C's own.
 */
#ifndef XEN_H
#define XEN_H

#include <limits.h>
#include <stdbool.h>
#include <stddef.h>
#include <stdint.h>
#include <stdio.h>
#include <stdlib.h>
#include <string.h>

typedef uint8_t u8; typedef uint16_t u16; typedef uint32_t u32; typedef uint64_t u64;
typedef bool bool_t;
typedef uint64_t paddr_t;
typedef int64_t s_time_t;
#define __init
#define __initdata
#define __initconst
#define __iomem
#define __read_mostly
#define __ro_after_init
#define cf_check
#define unlikely(x) (x)
#define ARRAY_SIZE(a) (sizeof(a) / sizeof *(a))
#define max_t(type, a, b) ((type)(a) > (type)(b) ? (type)(a) : (type)(b))
#define BUG() KASSERT(false)
#define BUG_ON(x) KASSERT(!(x))
#define PAGE_SIZE 4096
#define PAGE_MASK (~4095L)
#define EIO 5
#define CONFIG_SERIAL_TX_BUFSIZE 16384 /* Xen's default */
void KASSERT(bool is_good);

/* Locks: calls of the harness. Interrupts are those of other processors too, so to mask them does nothing. */
typedef struct { int is_taken; } spinlock_t;
#define SPIN_LOCK_UNLOCKED { 0 }
void lock_of(spinlock_t *lock);
void unlock_of(spinlock_t *lock);
bool try_lock_of(spinlock_t *lock);
#define spin_lock_init(l) ((l)->is_taken = 0)
#define spin_trylock(l) try_lock_of(l)
#define spin_unlock(l) unlock_of(l)
#define spin_lock_irqsave(l, f) ((f) = 0, lock_of(l))
#define spin_unlock_irqrestore(l, f) ((void)(f), unlock_of(l))
#define local_irq_save(f) ((f) = 0)
#define local_irq_restore(f) ((void)(f))
#define udelay(n) ((void)0)
void cpu_relax(void);

/* Ports: calls of the harness. */
uint8_t inb(unsigned long port);
void outb(uint8_t value, unsigned long port);
#define readb(p) (*(volatile u8 *)(p))
#define readl(p) (*(volatile u32 *)(p))
#define writeb(v, p) ((void)(*(volatile u8 *)(p) = (v)))
#define writel(v, p) ((void)(*(volatile u32 *)(p) = (v)))
enum fixed_addresses { FIX_COM_BEGIN };
#define set_fixmap_nocache(i, a) ((void)(i))
#define fix_to_virt(i) NULL

/* Timers and interrupts: the harness calls what is due. */
struct timer { int nothing; };
#define NOW() 0L
#define MILLISECS(n) ((s_time_t)(n) * 1000000)
#define init_timer(t, function, data, processor) ((void)(t))
#define set_timer(t, when) ((void)(t), (void)(when))
#define stop_timer(t) ((void)(t))
struct cpu_user_regs;
#define guest_cpu_user_regs() ((struct cpu_user_regs *)NULL)
struct irqaction { void (*handler)(int, void *, struct cpu_user_regs *); const char *name; void *dev_id; };
int setup_irq(int irq, unsigned flags, struct irqaction *action); /* of the harness */
#define DEFINE_PER_CPU(type, name) type name
#define this_cpu(name) name

/* Xen's command line, memory and domains. */
#define printk(...) ((void)0)
#define string_param(name, variable) extern int no_parameter
#define size_param(name, variable) extern int no_parameter
#define get_order_from_bytes(size) 0
void *alloc_xenheap_pages(unsigned order, unsigned flags); /* of the harness */
#define hardware_domain NULL
#define ioports_deny_access(domain, first, last) 0
bool console_has(const char *name); /* of the harness */
#define strlcpy(to, from, size) snprintf(to, size, "%s", from)
#define simple_strtol strtol
#define simple_strtoul strtoul
#define simple_strtoull strtoull
#endif
