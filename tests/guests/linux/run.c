/* SPDX-License-Identifier: Apache-2.0 OR BSD-3-Clause */
/* Random exchanges of Linux's driver. ../monitor/exchanges.c says what they print. */
#include "world.c"
#include "../monitor/exchanges.c"

void KASSERT(bool is_good) {
    if (!is_good)
        fail("assertion");
}

static enum { IDLE, WAITS, RUNS } handler; /* it waits for the lock, and has read IIR */
static unsigned saved_iir;
static bool is_printing, is_opening;
static unsigned acts_left;

void output_byte(unsigned char byte) {
    if (!is_printing && !up.port.x_char)
        check_sent(byte);
}
int tty_insert_flip_char(struct tty_port *p, unsigned char ch, char flag) {
    if (flag != TTY_NORMAL)
        fail("flag");
    check_received(ch);
    return 1;
}
void *kmalloc(unsigned long size, int flags) { return malloc(size); }

void unlock_of(spinlock_t *lock) {
    if (!lock->is_taken)
        fail("unlock");
    lock->is_taken = 0;
}

static void one_act(void) {
    unsigned char bytes[300];
    unsigned kind = choose(ACTS), count = 1 + choose(1 + choose(300));
    if (acts_left == 0)
        return;
    acts_left--;
    if (kind == 0) {
        if (count > output - queued)
            count = output - queued;
        for (unsigned i = 0; i < count; i++)
            bytes[i] = byte_at(1, queued + i);
        unsigned before = waiting_output();
        unsigned long was_sent = sent;
        act(0, bytes, count);
        queued += waiting_output() - before + (sent - was_sent);
        return;
    }
    is_printing = kind == 6;
    act(kind, bytes, choose(4));
    is_printing = false;
}

void lock_of(spinlock_t *lock) {
    if (lock->is_taken)
        fail("deadlock");
    lock->is_taken = 1;
}

void between(void) {
    turn_between();
    if (is_in_step)
        return;
    if (is_opening)
        return;
    if (handler == RUNS && !up.port.lock.is_taken && choose(pauses) == 0) {
        one_act();
    } else if (handler == IDLE && up.port.lock.is_taken && asked() && choose(4) == 0) {
        is_in_step = true; /* on another processor the handler begins, and gets as far as the lock */
        take();
        unsigned iir = inb(0x3f8 + 2);
        if (iir & 1)
            unhandled++;
        else {
            handler = WAITS;
            saved_iir = iir;
        }
        is_in_step = false;
    }
}

static void run_handler(void) {
    int handled = 0;
    if (handler == WAITS) {
        handler = RUNS;
        serial8250_handle_irq(&up.port, saved_iir);
        handled = 1;
    }
    handler = RUNS;
    handled |= serial8250_interrupt(4, &info);
    handler = IDLE;
    unhandled += !handled;
}

static bool exchange(void) {
    memset(&up, 0, sizeof up);
    memset(&state, 0, sizeof state);
    memset(&tty, 0, sizeof tty);
    handler = IDLE;
    flow = SETTLED;
    make_queue(choose(sizeof ring));
    tty.termios.c_cflag = CS8 | CREAD | (choose(2) ? CLOCAL : 0) | (choose(2) ? CRTSCTS : 0);
    tty.termios.c_ospeed = 115200;
    acts_left = 0;
    is_opening = true;
    set_up_guest();
    console.index = choose(2);
    serial8250_config_port(&up.port, UART_CONFIG_TYPE);
    if (up.port.type != PORT_16550A)
        fail("type");
    up.port.flags &= ~UPF_BOOT_AUTOCONF;
    open_port();
    is_opening = false;
    if (up.bugs || up.tx_loadsz != 16)
        fail("bugs");
    acts_left = choose(40);
    for (;;) {
        if (handler == WAITS)
            run_handler();
        else if (asked() && choose(3)) {
            take();
            run_handler();
        } else if ((arrived < input || is_turn_due()) && (acts_left == 0 || choose(2))) {
            turn_with_input(choose(1 + choose(200)));
        } else if (acts_left > 0)
            one_act();
        else if (tty.is_stopped || flow != SETTLED)
            for (unsigned i = 2; i < 5; i++)
                act(i, 0, 0);
        else if (asked()) {
            take();
            run_handler();
        } else
            break;
    }
    if ((port_of_monitor()->interrupt_enable & ~2) != (up.ier & ~2))
        fail("IER");
    return received < arrived || has_to_send() || sent < queued;
}
