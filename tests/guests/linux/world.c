/* SPDX-License-Identifier: Apache-2.0 OR BSD-3-Clause */
/* Linux's 8250 driver, unchanged, on a serial port in a monitor. run.c makes random exchanges of it, and prove.c proves. */
#ifdef CUT
#include "driver_cut.c" /* for proofs: with CUT bytes in a pass of the handler in place of 256 */
#else
#include "driver.c" /* 8250_port.c as a whole, and functions of serial_core.c and 8250_core.c, line by line */
#endif
#include "../monitor/accesses.c"

/* ---- the guest: what the driver belongs to */

static struct uart_8250_port up;
static struct uart_state state;
static struct tty_struct tty;
static struct console console;
static struct irq_info info;
unsigned long jiffies;
int oops_in_progress;

/* The tty layer stops and starts with a lock of its own: it sets `stopped`, and then calls uart_stop or uart_start. */
static enum { SETTLED, STOPPING, STARTING } flow;

static int setup_irq(struct uart_8250_port *p) { return 0; }
static void release_irq(struct uart_8250_port *p) {}
static void setup_timer(struct uart_8250_port *p) {}
static const struct uart_8250_ops up_ops = {setup_irq, release_irq, setup_timer};

#ifdef LINUX_5_10
#define const_in_6 /* what 6.1 has, and 5.10 not */
typedef unsigned dcd;
#define LSR_MASK(mask) up.mcr_mask = 0xff /* of x86 */
#else
#define const_in_6 const
typedef bool dcd;
#define LSR_MASK(mask) up.lsr_save_mask = mask
#endif
unsigned int uart_get_baud_rate(struct uart_port *p, struct ktermios *new, const_in_6 struct ktermios *old, unsigned least,
                                unsigned most) { return 115200; }
unsigned int uart_get_divisor(struct uart_port *p, unsigned baud) { return 1; }
unsigned char tty_get_char_size(unsigned cflag) { return 8; }
void uart_handle_dcd_change(struct uart_port *p, dcd active) {}
void uart_parse_options(const char *o, int *baud, int *parity, int *bits, int *flow) {}
int uart_set_options(struct uart_port *p, struct console *c, int baud, int parity, int bits, int flow) { return 0; }
void kfree(const void *p) {}

/* A COM1 whose type is not known yet. */
static void set_up_guest(void) {
    up.port.iobase = 0x3f8;
    up.port.irq = 4;
    up.port.uartclk = 1843200;
    up.port.iotype = UPIO_PORT;
    up.port.flags = UPF_BOOT_AUTOCONF | UPF_SKIP_TEST;
    up.port.state = &state;
    up.port.cons = &console;
    LSR_MASK(LSR_SAVE_FLAGS);
    up.ops = &up_ops;
    serial8250_init_port(&up);
    serial8250_set_defaults(&up);
    state.port.tty = &tty;
    state.refcount = 1;
    state.uart_port = &up.port;
    tty.driver_data = &state;
    up.list.next = up.list.prev = &up.list;
    info.head = &up.list;
#ifdef LINUX_6_12
    static struct serial_port_device device;
    up.port.port_dev = &device;
#endif
}

/* The port is opened: uart_startup of serial_core.c comes down to this. */
static void open_port(void) {
    serial8250_startup(&up.port);
    up.port.ops->set_termios(&up.port, &tty.termios, NULL);
    state.port.iflags |= 1;
}

/* The driver's queue of output. */
static unsigned char ring[4096];
#ifdef LINUX_6_12
static unsigned waiting_output(void) { return kfifo_len(&state.port.xmit_fifo); }
static void make_queue(unsigned place) {
    state.port.xmit_buf = ring;
    state.port.xmit_fifo = (struct kfifo){place, place, sizeof ring, ring};
}
#else
static unsigned waiting_output(void) { return uart_circ_chars_pending(&state.xmit); }
static void make_queue(unsigned place) {
    state.xmit.buf = (char *)ring;
    state.xmit.head = state.xmit.tail = place;
}
#endif

/* Whether something is left to send, and flow control has not stopped it, nor is about to start it. */
static bool has_to_send(void) {
    bool waits = waiting_output() > 0, may_send = !uart_tx_stopped(&up.port);
    return (up.port.x_char || waits) && may_send && flow != STARTING;
}

/* What else uses the port, always with its lock: a step of it, if it is its turn. */
static void act(unsigned kind, const unsigned char *bytes, unsigned count) {
    if (kind == 0)
        uart_write(&tty, bytes, count);
    else if (kind == 1 && flow == SETTLED && !tty.is_stopped) {
        tty.is_stopped = true;
        flow = STOPPING;
    } else if (kind == 2 && flow == STOPPING) {
        uart_stop(&tty);
        flow = SETTLED;
    } else if (kind == 3 && flow == SETTLED && tty.is_stopped) {
        tty.is_stopped = false;
        flow = STARTING;
    } else if (kind == 4 && flow == STARTING) {
        uart_start(&tty);
        flow = SETTLED;
    } else if (kind == 5)
        uart_send_xchar(&tty, 0x11);
    else if (kind == 6)
        serial8250_console_write(&up, "!\n?", count < 3 ? count : 3);
    else if (kind == 7)
        up.port.ops->set_termios(&up.port, &tty.termios, NULL);
    else if (kind == 8)
        uart_start(&tty); /* uart_flush_chars */
    else if (kind == 9)
        serial8250_backup_timeout(&up.timer); /* a timer calls it if UART_BUG_THRE is set */
}
enum { ACTS = 10 };
