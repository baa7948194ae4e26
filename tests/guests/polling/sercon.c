/* SPDX-License-Identifier: Apache-2.0 OR BSD-3-Clause */
/* SeaBIOS's src/sercon.c as a whole: its console, which looks for input at each tick of its timer. Trusted are the
 * stand-ins of seabios.h, and that a key is the byte that it came of. */
#include "driver.c"

struct data_area bda;
u32 irqtimer_calc_ticks(u32 ticks) { return 0; }
int irqtimer_check(u32 end) { return 0; }
static u8 keys[MOST], key_count; /* which the guest takes at once */
u16 cp437_to_unicode(u8 byte) { return byte; }
u16 ascii_to_keycode(u8 ascii) { return 0x100 | ascii; }
void enqueue_key(u16 keycode) { keys[key_count++] = (u8)keycode; }

int set_up(void) {
    sercon_setup();
    return sercon_port == COM1;
}

void set_up_again(void) {}

unsigned held(void) { return 0; }

unsigned poll_for(unsigned char *bytes) {
    key_count = 0;
    sercon_check_event();
    __builtin_memcpy(bytes, keys, key_count);
    return key_count;
}

void send(const unsigned char *bytes, unsigned count) {
    for (unsigned i = 0; i < count; i++)
        sercon_putchar(bytes[i]);
}
