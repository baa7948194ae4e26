/* SPDX-License-Identifier: Apache-2.0 OR BSD-3-Clause */
/* What U-Boot's driver needs of U-Boot, in place of its headers but ns16550.h and serial.h. All of it is trusted. */
#ifndef UBOOT_H
#define UBOOT_H
#include "driver.h"
#include <stdbool.h>
#include <stddef.h>
#include <stdint.h>
#include <sys/types.h>

typedef uint8_t u8;
typedef uint32_t u32;
typedef unsigned long fdt_addr_t;
struct driver { const void *ops; };
struct udevice { void *plat, *priv; struct driver *driver; };
struct stdio_dev;

/* The configuration: the driver model, and a port at I/O addresses. */
#define CONFIG_DM_SERIAL
#define CONFIG_SYS_NS16550_PORT_MAPPED
#define CONFIG_POST 0
#define CONFIG_SYS_POST_UART 0
#define CONFIG_IS_ENABLED(x) ENABLED_##x
#define ENABLED_DM_SERIAL 1
#define ENABLED_OF_CONTROL 0
#define ENABLED_OF_REAL 0
#define ENABLED_SERIAL_PRESENT 0
#define IS_ENABLED(x) 0
#define DECLARE_GLOBAL_DATA_PTR extern int global_data

#define EAGAIN 11
#define EINVAL 22
#define ENOTSUPP 524
#define DIV_ROUND_CLOSEST(n, d) (((n) + (d) / 2) / (d))

/* Accesses of the port. */
#define inb(address) read_port(address)
#define outb(value, address) write_port(value, address)

/* A device: its data, and that it is not on PCI and has no reset line. */
#define dev_get_plat(d) ((struct ns16550_plat *)(d)->plat)
#define dev_get_priv(d) ((struct ns16550 *)(d)->priv)
#define device_is_on_pci_bus(d) false
#define devfdt_get_addr_pci(d) 0
#define FDT_ADDR_T_NONE (-1ul)
struct reset_ctl_bulk { int nothing; };
#define reset_get_bulk(d, r) (-1)
#define reset_deassert_bulk(r) ((void)(r))

/* What U-Boot does while it waits. */
#define schedule() ((void)0)
#endif
