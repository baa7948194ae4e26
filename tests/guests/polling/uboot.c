/* SPDX-License-Identifier: Apache-2.0 OR BSD-3-Clause */
/* U-Boot's drivers/serial/ns16550.c as a whole, with functions of serial-uclass.c, for a port of x86. Trusted are the
 * stand-ins of uboot.h, and how the driver is called here, as by its class of serial ports. */
#include "driver.c"

static struct ns16550_plat plat = {.base = COM1, .reg_width = 1, .clock = 1843200, .fcr = UART_FCR_DEFVAL};
static struct ns16550 private;
static struct driver driver = {&ns16550_serial_ops};
static struct udevice device = {&plat, &private, &driver};

int set_up(void) {
    int failed = ns16550_serial_probe(&device);
    set_up_again();
    return !failed;
}

void set_up_again(void) {
    unsigned config = SERIAL_DEFAULT_CONFIG;
    ns16550_serial_ops.setbrg(&device, choose(2) ? 115200 : 9600);
    if (choose(2))
        ns16550_serial_ops.setconfig(&device, config);
    if (choose(2))
        ns16550_reinit(&private, 1);
}

unsigned held(void) { return 0; }

/* By the driver model, or by the functions that boards without it call. */
unsigned poll_for(unsigned char *bytes) {
    if (choose(2)) {
        if (!__serial_tstc(&device))
            return 0;
        bytes[0] = __serial_getc(&device);
    } else {
        if (!ns16550_tstc(&private))
            return 0;
        bytes[0] = ns16550_getc(&private);
    }
    return 1;
}

void send(const unsigned char *bytes, unsigned count) {
    for (unsigned i = 0; i < count; i++)
        if (choose(2) && bytes[i] != '\n') /* the class sends a CR before this */
            _serial_putc(&device, bytes[i]);
        else
            ns16550_putc(&private, bytes[i]);
}
