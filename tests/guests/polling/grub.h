/* SPDX-License-Identifier: Apache-2.0 OR BSD-3-Clause */
/* What GRUB's driver needs of GRUB, in place of its headers but ns8250.h and serial.h. All of it is trusted. */
#ifndef GRUB_H
#define GRUB_H
#include "driver.h"
#include <stddef.h>
#include <stdint.h>
#include <stdio.h>
#include <stdlib.h>

#define GRUB_MACHINE_PCBIOS
typedef uint16_t grub_port_t;
typedef uint32_t grub_uint32_t;
typedef uint64_t grub_uint64_t;
typedef enum { GRUB_ERR_NONE, GRUB_ERR_BAD_ARGUMENT } grub_err_t;
typedef struct grub_usb_device *grub_usb_device_t;
typedef struct grub_term_output *grub_term_output_t;
typedef struct grub_term_input *grub_term_input_t;
#define EXPORT_FUNC(x) x
#define N_(x) x

/* The BIOS has found one port. */
extern const unsigned short bios_data_area[4];
#define GRUB_MEMORY_MACHINE_BIOS_DATA_AREA_ADDR bios_data_area
#define grub_absolute_pointer(x) (x)

/* Accesses of the port. */
#define grub_inb(address) read_port(address)
#define grub_outb(value, address) write_port(value, address)

/* Time goes on by chance. */
grub_uint64_t grub_get_time_ms(void);

/* Messages and memory. */
#define grub_error(error, text) (error)
#define grub_print_error() abort()
#define grub_snprintf snprintf
#define grub_malloc malloc
#define grub_free free
#define grub_xasprintf(...) NULL
#endif
