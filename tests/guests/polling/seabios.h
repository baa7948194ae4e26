/* SPDX-License-Identifier: Apache-2.0 OR BSD-3-Clause */
/* What SeaBIOS's code needs beside bregs.h, types.h and serialio.h, which are SeaBIOS's own. All of it is trusted. */
#ifndef SEABIOS_H
#define SEABIOS_H
#include "types.h"
#include "driver.h"

#define CONFIG_SERIAL 1
#define CONFIG_LPT 1
#define CONFIG_SERCON 1
#define CONFIG_DEBUG_SERIAL 0
#define CONFIG_DEBUG_SERIAL_PORT 0
#define romfile_loadint(name, otherwise) (otherwise ? otherwise : COM1) /* the port of the console */
#define F_CF 1

/* Accesses of the port. */
#define inb(address) read_port(address)
#define outb(value, address) write_port(value, address)

/* The BIOS's data area, as far as it is used. */
extern struct data_area {
    u16 port_com[4], port_lpt[3], equipment_list_flags, cursor_pos[1], cursor_type;
    u8 com_timeout[4], lpt_timeout[4], video_mode, video_cols, video_rows, video_page;
} bda;
#define GET_BDA(name) (bda.name)
#define SET_BDA(name, value) (bda.name = (value))
#define set_equipment_flags(clear, set) (bda.equipment_list_flags = (bda.equipment_list_flags & ~(clear)) | (set))

/* What fails sets the carry, as its own function does. */
#define set_invalid(regs) set_invalid_silent(regs)
#define set_unimplemented(regs) set_invalid_silent(regs)

/* Its other variables, the vectors of interrupts, and keys. */
#define GET_LOW(name) (name)
#define SET_LOW(name, value) ((name) = (value))
#define GET_GLOBAL(name) (name)
#define GET_IVT(vector) (struct segoff_s){}
#define SET_IVT(vector, value) ((void)0)
#define FUNC16(name) (struct segoff_s){}
#define warn_unimplemented(regs) ((void)0)
u16 cp437_to_unicode(u8 byte);
u16 ascii_to_keycode(u8 ascii);
void enqueue_key(u16 keycode);
static int ScreenAndDebug;

/* Messages and time. */
#define dprintf(...) ((void)0)
#define debug_enter(...) ((void)0)
#define yield() ((void)0)
#define udelay(n) ((void)0)
u32 irqtimer_calc_ticks(u32 ticks);
int irqtimer_check(u32 end);
#endif
