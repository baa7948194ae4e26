/* SPDX-License-Identifier: Apache-2.0 OR BSD-3-Clause */
/* SeaBIOS's src/serial.c as a whole. Trusted are the stand-ins of seabios.h, and that a guest calls the BIOS as here. */
#include "driver.c"

struct data_area bda;
/* A call waits for a byte as long as chance wants. */
u32 irqtimer_calc_ticks(u32 ticks) { return 0; }
int irqtimer_check(u32 end) { return choose(3) == 0; }

/* INT 14h, with a function in AH, for COM1. */
static struct bregs int14(u8 function, u8 al) {
    struct bregs regs = {.ah = function, .al = al, .flags = F_CF};
    handle_14(&regs);
    if (regs.flags & F_CF)
        __builtin_trap();
    return regs;
}

int set_up(void) {
    __builtin_memset(&bda, 0, sizeof bda);
    serial_setup();
    if (bda.port_com[0] != COM1 || bda.port_com[1] || bda.equipment_list_flags != 1 << 9)
        return 0;
    set_up_again();
    return 1;
}

void set_up_again(void) { int14(0, 0xe3); } /* 9,600 baud and 8 bits */

unsigned held(void) { return 0; }

unsigned poll_for(unsigned char *bytes) {
    if (choose(2) && !(int14(3, 0).ah & 0x01))
        return 0;
    struct bregs regs = int14(2, 0);
    bytes[0] = regs.al;
    return !(regs.ah & 0x80);
}

void send(const unsigned char *bytes, unsigned count) {
    for (unsigned i = 0; i < count; i++)
        if (int14(1, bytes[i]).ah & 0x80)
            __builtin_trap();
}
