/* SPDX-License-Identifier: Apache-2.0 OR BSD-3-Clause */
/* GRUB's grub-core/term/ns8250.c as a whole, as on a PC with a BIOS. Trusted are the stand-ins of grub.h, and how the
 * driver is called here, as by GRUB's terminals and by its command `serial`. */
#include "driver.c"

const unsigned short bios_data_area[4] = {COM1};
static grub_uint64_t milliseconds;
grub_uint64_t grub_get_time_ms(void) { return milliseconds += choose(3); }
static struct grub_serial_port *registered;
grub_err_t grub_serial_register(struct grub_serial_port *port) {
    registered = port;
    return GRUB_ERR_NONE;
}

int set_up(void) {
    registered = NULL;
    grub_ns8250_init();
    return registered && registered->port == COM1 && grub_ns8250_hw_get_port(0) == COM1;
}

/* It is configured, and gets ready when it is used next. */
void set_up_again(void) {
    struct grub_serial_config config = registered->config;
    config.speed = choose(2) ? 115200 : 9600;
    config.rtscts = choose(2);
    grub_serial_port_configure(registered, &config);
}

unsigned held(void) { return 0; }

unsigned poll_for(unsigned char *bytes) {
    int byte = grub_serial_port_fetch(registered);
    if (byte < 0)
        return 0;
    bytes[0] = byte;
    return 1;
}

void send(const unsigned char *bytes, unsigned count) {
    for (unsigned i = 0; i < count; i++)
        grub_serial_port_put(registered, bytes[i]);
}
