/* SPDX-License-Identifier: Apache-2.0 OR BSD-3-Clause */
/* Xen's driver, unchanged, on a serial port in a monitor. run.c makes random exchanges of it, and prove.c proves. */
#include "driver.c" /* serial.c and ns16550.c as a whole */
#include "../monitor/accesses.c"

/* ---- the guest: what the driver belongs to */

#define chip ns16550_com[0]
#define serial com[0]
static int handle;
static bool is_auto; /* the divisor stays as firmware has set it */

bool console_has(const char *name) { return is_auto; }

void *alloc_xenheap_pages(unsigned order, unsigned flags) {
    static char pages[CONFIG_SERIAL_TX_BUFSIZE];
    return pages;
}

/* Whoever takes input: in Xen, serial_rx of console.c. */
void take_byte(char byte, struct cpu_user_regs *regs);

/* As Xen starts: __start_xen, console_init_preirq, console_init_irq and console_init_postirq come down to this. */
static void find_port(void) {
    static struct ns16550_defaults com1 = {.data_bits = 8, .parity = 'n', .stop_bits = 1, .irq = 4, .io_base = 0x3f8};
    com1.baud = is_auto ? 0 : 115200;
    ns16550_init(0, &com1);
    serial_init_preirq();
    handle = serial_parse_handle("com1");
    serial_set_rx_handler(handle, take_byte);
}

static void open_port(void) {
    serial_init_irq();
    serial_init_postirq();
    serial_endboot();
}

static bool has_to_send(void) { return serial.txbufc != serial.txbufp; }

/* What else uses the port: a step of it, if it is its turn. */
static void act(unsigned kind, const char *bytes, unsigned count) {
    if (kind == 0)
        serial_puts(handle, bytes, count);
    else if (kind == 1 && count > 0)
        serial_putc(handle, *bytes);
    else if (kind == 2)
        serial_start_sync(handle);
    else if (kind == 3 && serial.sync > 0)
        serial_end_sync(handle);
    else if (kind == 4)
        serial_start_log_everything(handle);
    else if (kind == 5 && serial.tx_log_everything > 0)
        serial_end_log_everything(handle);
    else if (kind == 6)
        ns16550_poll(&serial); /* a timer calls it, until an interrupt has come */
    else if (kind == 7)
        take_byte(serial_getc(handle), NULL); /* the debugger's stub */
    else if (kind == 8) {
        serial_suspend(); /* on the only processor that runs, with interrupts masked */
        serial_resume();
    }
}
enum { ACTS = 9 };
