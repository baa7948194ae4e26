/* SPDX-License-Identifier: Apache-2.0 OR BSD-3-Clause */
/*
 * superio.h: emulated legacy devices for a virtual machine monitor.
 *
 * The devices are a 16550 serial port, a PL031 real-time clock, and an i8042
 * controller that resets the machine. What each call does to a device is
 * proved, for every argument and for any contents of the device's struct.
 * README.md names the builds that this proof covers.
 *
 * Begin with docs/USING.md. `make install` puts the pages and the program that
 * this header names into share/doc/superio, and Debian's package puts them into
 * share/doc/libsuperio-dev.
 *
 * A device is a struct of plain fields that you keep. A call takes a pointer to
 * it, can change it, and returns what is left for you to do. There are no
 * callbacks and no handles. The library allocates no memory, keeps no state,
 * makes no system calls, and needs no initialisation. It calls no function of
 * another library except memcpy, memmove and memset. The only calls that can
 * fail are the loads, which refuse bytes that are not a saved state.
 *
 * A console
 * ---------
 *
 * A superio_console is a serial port with most of the code that a monitor needs
 * around it. It holds input back until the guest's driver is ready, keeps
 * output until its reader takes it, asks again for the interrupts that your
 * interrupt controller refused, and tells your event loop what to poll.
 *
 * This is a monitor around it:
 *
 *     superio_console_new(&console, false); // true if the guest polls
 *
 *     // The guest writes a byte at an offset from the port's base.
 *     lock();
 *     if (carry_out(superio_console_write(&console, offset, value)))
 *         wake(); // ends the event loop's poll, for example by an eventfd
 *     unlock();
 *
 *     // The guest reads a byte.
 *     lock();
 *     superio_console_read_effects done =
 *         superio_console_read(&console, offset);
 *     if (carry_out(done.work))
 *         wake();
 *     unlock();
 *     return done.byte;
 *
 *     // The event loop. The files that it reads and writes do not block, and
 *     // docs/INTEGRATION.md says what to do when one of these calls fails.
 *     for (;;) {
 *         lock();
 *         wanted = superio_console_wants(&console);
 *         if (wanted.input && (count = read(source, bytes, wanted.input)) > 0)
 *             carry_out(superio_console_receive(&console, bytes, count).work);
 *         else if (wanted.input && count == 0)
 *             source = -1; // it has ended, and would end each poll
 *         count = superio_console_output(&console, bytes, sizeof bytes);
 *         if (count > 0 && (count = write(reader, bytes, count)) > 0)
 *             superio_console_consume(&console, count);
 *         carry_out(superio_console_turn(&console));
 *         wanted = superio_console_wants(&console);
 *         unlock();
 *         files[0].fd = wanted.input ? source : -1;  // for POLLIN
 *         files[1].fd = wanted.output ? reader : -1; // for POLLOUT
 *         poll(files, 3, wanted.turn ? 5 : -1);      // files[2] is for `wake`
 *         forget_wake();
 *     }
 *
 *     // `carry_out`, if your interrupt controller is edge-triggered. It
 *     // returns whether to wake the loop, which the loop itself ignores.
 *     for (int i = 0; i < work.interrupts; i++)
 *         if (!raise_interrupt())
 *             return work.wakes | superio_console_refuse(&console).wakes;
 *     return work.wakes;
 *
 *     // `carry_out`, if your interrupt controller is level-triggered.
 *     if (work.is_up != was_up)
 *         set_line(work.is_up);
 *     was_up = work.is_up;
 *     return work.wakes;
 *
 * The line of a new console is down, so superio_console_new returns no work. A
 * load returns none either, although it can change the level, so make a turn
 * after it. Every other call that can change the level returns work. At any
 * moment, superio_serial_interrupt_line(&console.port) returns the level.
 *
 * As long as the machine is neither reset nor suspended, no byte waits for ever
 * with such a loop, neither one that the console has accepted nor one that the
 * guest has to send. We conclude this in docs/EVERY-BYTE.md, from the law
 * each_byte_is_through and from assumptions about the guest, its driver and
 * your interrupt controller. By our reading, the drivers of Linux and Xen keep
 * the law's rules.
 *
 * A whole program is examples/console.c. If you want the port alone, take a
 * superio_serial: docs/PORT.md says what you then do yourself.
 *
 * Rules
 * -----
 *
 * - Never pass NULL as a device. Only superio_console_new and the loads take a
 *   struct that is not set: before any other call, set it by the device's
 *   `new`, by a load or by a copy.
 * - Any bytes are a valid device. Whatever the struct holds, no call reads or
 *   writes outside the struct and the bytes that you pass.
 * - An argument `bytes` points to memory outside the device's struct, of
 *   `count` bytes if the call has a `count`. It may be NULL if `count` is 0.
 * - The library takes no locks, so take one of your own if your threads share a
 *   device: calls on one device must not overlap in time, unless all of them
 *   take it by a pointer to const. Calls on different devices may overlap.
 * - A copy of the struct is a copy of the device, for use in the same program.
 *   To write a device to a file or send it to another machine, save it, because
 *   a saved device has a version and is the same on every machine. It also
 *   leaves out bytes that the guest has read and output that its reader has
 *   taken, which a copy can still hold.
 *
 * Around the calls
 * ----------------
 *
 * Locks. Hold a port's lock while you make a call and carry out what the call
 * leaves to you, both in the guest's accesses and in turns of the event loop.
 * Otherwise two changes of the interrupt line can reach your interrupt
 * controller in the wrong order.
 *
 * Accesses. A serial port takes one byte at a time, so split a wider access
 * into bytes, the lowest port first. The exception is a driver such as 8250_dw,
 * which makes accesses of 32 bits at a stride of 4 if the device tree says so
 * by `reg-io-width` and `reg-shift`. Such an access means one register, not
 * four, so pass on its lowest byte, and fill up a read with zeros.
 *
 * The clock takes four bytes at any offset, and reports which accesses are
 * invalid. Answer a narrower read from the four aligned bytes around it, and a
 * wider one with 0xFF in every byte. Ignore narrower and wider writes. No
 * driver that we know makes a wider access.
 *
 * Edges or levels. Your interrupt controller decides. The PIC of a PC is
 * edge-triggered, and so is an I/O APIC for ISA interrupts. An I/O APIC is
 * level-triggered for PCI interrupts, and so are QEMU's PLIC, the LPC
 * controller of a POWER machine, and a GIC unless the device tree says
 * otherwise. A level-triggered controller can miss a pulse: with pulses, a
 * guest at a GIC never got its input. Call your controller only when a level
 * changes, because some controllers take each call for an interrupt. But after
 * your controller is reset or restored, call it once with the levels of the
 * port and of the clock, even if they did not change.
 *
 * Output. Two monitors that are connected to each other can stand still for
 * ever, each in a write that waits until the other one reads. So never wait for
 * the reader of the output, neither in the event loop nor under the lock that
 * input needs. The guest does not wait for room either, because LSR always
 * shows it an empty transmitter. So if superio_console_is_full is true after a
 * guest's write, do one of two things:
 *
 * - Let the console drop what comes next. It counts the bytes.
 * - Hold the guest for a limited time: carry out the work of the write, release
 *   the lock, and let the guest go on once the event loop has made room. When
 *   the time is over, let the console drop bytes until the reader takes some.
 *
 * Suspend. A machine that is suspended to RAM is reset when it wakes, and bytes
 * that went into its port meanwhile are then lost. So call
 * superio_console_suspend when the machine falls asleep, and
 * superio_console_reset when it wakes.
 *
 * Reset. When the machine is reset, call superio_console_reset. Keep the clock
 * as it is, with its time, alarm, mask and status, because a guest expects its
 * clock to go on until the power is off. The driver's next start can still undo
 * the time that the guest set, as superio_rtc_write explains. A kexec resets
 * nothing, so the monitor does not learn of it, and input that goes in before
 * the new kernel's driver is ready can be lost.
 *
 * Snapshots. Stop the guest, and let its accesses end. Stop the machine's event
 * loop before you save its interrupt controller, because a later turn can raise
 * an interrupt that the controller's saved state lacks. If the machine goes on
 * elsewhere, the old monitor must no longer read input or write output, or
 * bytes end up in both monitors or in none. With a clock, save the last `now`.
 * To restore, begin with your interrupt controller, because its state would
 * overwrite the interrupts that you raise. Then restore the devices, as
 * superio_console_load says. docs/SNAPSHOTS.md has all the steps.
 *
 * Breaks. The port sends no break, not even if a guest sets bit 0x40 of LCR,
 * and receives none. If your terminal reports one, ignore it, and do not take
 * it for a zero.
 *
 * What the prebuilt libraries lack
 * --------------------------------
 *
 * - They have no unwind tables, so a backtrace from within a call can end
 *   there.
 * - They have no CET marks, so a program linked with one is not marked for
 *   shadow stacks or indirect branch tracking.
 * - Their symbols are not hidden, so a shared library that links the static one
 *   exports its functions too, unless it is linked with -Wl,--exclude-libs,ALL.
 * - They are not instrumented, so a sanitizer sees the caller's accesses to a
 *   struct, but of the library's accesses only those in memcpy, memmove and
 *   memset.
 */
#ifndef SUPERIO_H
#define SUPERIO_H

#include <stdbool.h>
#include <stddef.h>
#include <stdint.h>

/*
 * With these attributes a compiler can warn of misuse. Each is empty if the
 * compiler does not know it.
 */
#if defined(__has_attribute)
#define SUPERIO_HAS_ATTRIBUTE(name) __has_attribute(name)
#else
#define SUPERIO_HAS_ATTRIBUTE(name) 0
#endif

/* A caller who ignores the result loses work that is left to do. */
#if SUPERIO_HAS_ATTRIBUTE(warn_unused_result)
#define SUPERIO_MUST_USE __attribute__((warn_unused_result))
#else
#define SUPERIO_MUST_USE
#endif

/* The first argument must not be NULL. */
#if SUPERIO_HAS_ATTRIBUTE(nonnull)
#define SUPERIO_NONNULL __attribute__((nonnull(1)))
#else
#define SUPERIO_NONNULL
#endif

/* How a call uses the memory of an argument. What the call reads has to be set,
 * and the memory has to be as large as another argument says. */
#if SUPERIO_HAS_ATTRIBUTE(access)
#define SUPERIO_ACCESS(...) __attribute__((access(__VA_ARGS__)))
#else
#define SUPERIO_ACCESS(...)
#endif

/* `bytes` may be NULL only if `count` is 0. */
#if SUPERIO_HAS_ATTRIBUTE(diagnose_if)
#define SUPERIO_COUNTED                                                       \
    __attribute__((diagnose_if(!bytes && count > 0,                           \
                               "bytes is NULL, and count is not 0",           \
                               "warning")))
#else
#define SUPERIO_COUNTED
#endif

/* The minimum size of an array argument. */
#ifdef __cplusplus
#define SUPERIO_AT_LEAST(size)
#else
#define SUPERIO_AT_LEAST(size) static size
#endif

#ifdef __clang__
#pragma clang diagnostic push
#pragma clang diagnostic ignored "-Wgcc-compat" /* diagnose_if */
#endif

#ifdef __cplusplus
extern "C" {
#endif

/* The version of the library that this header belongs to. */
#define SUPERIO_VERSION_MAJOR 0
#define SUPERIO_VERSION_MINOR 2
#define SUPERIO_VERSION_PATCH 0
#define SUPERIO_VERSION "0.2.0"

/*
 * The number of the binary interface that this header describes. It changes
 * whenever a struct or the meaning of a call changes. A program must not call a
 * library with another number, so compare the numbers once, before any other
 * call:
 *
 *     if (!SUPERIO_ABI_MATCHES())
 *         abort();
 *
 * A struct does not hold the number, so if you keep copies of structs outside
 * the program, store the number with them. A saved device has its own version,
 * which a load checks.
 */
#define SUPERIO_ABI 5
#define SUPERIO_ABI_MATCHES() (superio_abi() == SUPERIO_ABI)

/* Returns this number for the library that the program runs with. */
uint32_t superio_abi(void);

/* ------------------------------------------------------------------------- */
/* The serial port, alone or in a console                                    */
/* ------------------------------------------------------------------------- */

/* How many received bytes a port holds at most. */
#define SUPERIO_SERIAL_FIFO_SIZE 64

/* How many I/O ports a serial port occupies, from its base on. */
#define SUPERIO_SERIAL_PORTS 8

/*
 * A 16550 serial port, reduced to what a guest's driver uses: registers at
 * offsets 0 to 7 from the port's base, and a receive FIFO of 64 bytes that is
 * always on. Any other offset reads as 0, and a write there has no effect. Nor
 * has a write at offset 2, because there is no FCR.
 *
 * The port interrupts the guest for two conditions: RDA, received data
 * available, and THRE, transmitter holding register empty. IIR has a bit for
 * each of them, so 0xC6 means that both are pending, where on a 16550 it means
 * an error of the line. One read of IIR ends both conditions, so a driver that
 * compares IIR with one value can miss THRE.
 *
 * The received bytes form a ring: the oldest is at bytes[head % 64], the others
 * follow it, and bytes[0] follows bytes[63]. At most 64 are held: a larger
 * `len` counts as 64.
 */
typedef struct superio_serial {
    uint8_t baud_divisor_low;  /* DLL, the low byte of the divisor latch */
    uint8_t baud_divisor_high; /* DLM, its high byte */
    uint8_t interrupt_enable;  /* IER. 0x01 enables RDA, and 0x02 THRE */
    uint8_t interrupt_identification; /* IIR without 0xC0. 0x04: RDA is pending,
                                         0x02: THRE is, 0x01: neither is */
    uint8_t line_control;      /* LCR. 0x80 is DLAB */
    uint8_t line_status;       /* LSR. 0x01 is data ready */
    uint8_t modem_control;     /* MCR. 0x10 is loopback */
    uint8_t modem_status;      /* MSR */
    uint8_t scratch;           /* SCR */
    uint8_t head;              /* the place of the oldest byte, modulo 64 */
    uint8_t len;               /* how many received bytes are held */
    uint8_t bytes[SUPERIO_SERIAL_FIFO_SIZE]; /* the received bytes. Those that
                                                are not held mean nothing */
} superio_serial;

/*
 * What a read did. Use the two events to count, to log, or to offer more input.
 * If both are true, `in_buffer_empty` comes first. A read of the data register
 * (RBR) shows 0 while no byte is held, and reports both.
 */
typedef struct superio_serial_read_effects {
    uint8_t byte;         /* what the guest reads */
    bool buffer_read;     /* event: the guest read the data register */
    bool in_buffer_empty; /* event: that read left no byte held */
} superio_serial_read_effects;

/* What a write leaves to you. */
typedef struct superio_serial_write_effects {
    bool sends;         /* send the written value */
    uint8_t interrupts; /* how often to raise the interrupt: 0 to 2 times */
} superio_serial_write_effects;

/* What an enqueue did, and what it leaves to you. */
typedef struct superio_serial_enqueue_effects {
    size_t accepted;    /* how many bytes it accepted, from the first on */
    bool fifo_full;     /* it accepted none of the bytes, because 64 were held.
                           This is false in loopback */
    uint8_t interrupts; /* how often to raise the interrupt: 0 or 1 times */
} superio_serial_enqueue_effects;

/*
 * Returns a fresh port: divisor 12, 8 bits a character, OUT2 set, and nothing
 * enabled, pending or held. Make one for each machine, and another one at each
 * reset of the machine. If your interrupt controller is level-triggered, take
 * the line down.
 */
superio_serial superio_serial_new(void) SUPERIO_MUST_USE;

/*
 * The guest reads at `offset`. A read asks for no interrupt. Afterwards do
 * three things, as docs/PORT.md explains:
 *
 * - If your interrupt controller is level-triggered, set the line to
 *   superio_serial_interrupt_line, because a read can end an interrupt.
 * - If `in_buffer_empty` is true, offer the input that you hold.
 * - If `offset` is 2 and bit 0x01 of the byte is set, call
 *   superio_serial_character_timeout. Otherwise input may never reach the
 *   guest.
 */
superio_serial_read_effects superio_serial_read(superio_serial *port,
                                                uint8_t offset)
    SUPERIO_NONNULL SUPERIO_ACCESS(read_write, 1);

/*
 * The guest writes `value` at `offset`. Afterwards do two things, in this
 * order, or in the other one if you hold the guest until there is room for its
 * output:
 *
 * 1. If `sends` is true, send the value, but do not wait for its reader. Go on
 *    with the second step even if the value is lost, because the port is the
 *    same either way. If you report the events of vm-superio, report `out_byte`
 *    for a value that is sent, and `tx_lost_byte` for one that is lost.
 * 2. Raise the interrupt as often as `interrupts` says, but stop at the first
 *    refusal, such as a write to an eventfd that fails. The port does not need
 *    to know of a refusal. The condition stays pending, so no later access asks
 *    for its interrupt: docs/PORT.md says when you raise it again. If your
 *    interrupt controller is level-triggered, set the line to
 *    superio_serial_interrupt_line instead.
 *
 * `interrupts` is 2 only if a write to IER raises both conditions. Even if you
 * stop at the first of the two interrupts, both conditions are pending, and
 * superio_serial_interrupts_due returns 2. The Rust crate vm-superio does not
 * raise THRE after that refusal: its guest can read 0xC4 at offset 2 where a
 * guest of this port reads 0xC6.
 *
 * A write to MCR, at offset 4, can end loopback. After it, offer again the
 * input that an enqueue did not accept.
 */
superio_serial_write_effects superio_serial_write(superio_serial *port,
                                                  uint8_t offset,
                                                  uint8_t value)
    SUPERIO_MUST_USE SUPERIO_NONNULL SUPERIO_ACCESS(read_write, 1);

/*
 * Bytes arrive for the guest. The port accepts as many of the `count` bytes as
 * fit, from the first on. In loopback it accepts none, and `fifo_full` is
 * false. Afterwards raise the interrupt as often as `interrupts` says or, if
 * your interrupt controller is level-triggered, set the line. The port keeps
 * the accepted bytes even if the interrupt is refused, so do not offer them
 * again.
 *
 * Keep the bytes that were not accepted. docs/PORT.md says when to offer input
 * for the first time, and when to offer it again.
 */
superio_serial_enqueue_effects superio_serial_enqueue(superio_serial *port,
                                                      const uint8_t *bytes,
                                                      size_t count)
    SUPERIO_MUST_USE SUPERIO_NONNULL SUPERIO_COUNTED
    SUPERIO_ACCESS(read_write, 1) SUPERIO_ACCESS(read_only, 2, 3);

/*
 * Raises RDA again for bytes that the guest has left. A guest's read of RBR or
 * IIR ends RDA even if it leaves bytes. Without this call, these bytes wait
 * without an interrupt until the guest writes IER or another byte arrives, and
 * a full FIFO has no room for another byte. A guest that waits for the
 * interrupt then hangs. So make the call
 *
 * - after each guest read at offset 2 that returns a byte with bit 0x01, which
 *   says that nothing is pending;
 * - once in each turn of your event loop, as docs/PORT.md explains.
 *
 * RDA becomes pending if bytes are held, IER enables RDA, and RDA is not
 * pending already. Otherwise nothing happens. DLAB and loopback make no
 * difference. Returns how often to raise the interrupt: 0 or 1 times. If your
 * interrupt controller is level-triggered, set the line instead.
 */
uint8_t superio_serial_character_timeout(superio_serial *port)
    SUPERIO_MUST_USE SUPERIO_NONNULL SUPERIO_ACCESS(read_write, 1);

/* Returns how many bytes fit: 64 minus those that are held. */
size_t superio_serial_fifo_capacity(const superio_serial *port)
    SUPERIO_MUST_USE SUPERIO_NONNULL SUPERIO_ACCESS(read_only, 1);

/*
 * Returns how many interrupts are due, 0 to 2: one for each condition that is
 * both pending and enabled.
 *
 * Raise that many in two cases: after a load, so that the guest gets interrupts
 * that it had not taken before, and after a refusal, at the moments that
 * docs/PORT.md names. The guest can then be interrupted again for a condition
 * that it knows already, even long afterwards.
 */
uint8_t superio_serial_interrupts_due(const superio_serial *port)
    SUPERIO_MUST_USE SUPERIO_NONNULL SUPERIO_ACCESS(read_only, 1);

/*
 * Returns whether the interrupt line is up: whether a condition is pending that
 * IER enables.
 *
 * If your interrupt controller is level-triggered, raise no interrupts.
 * Instead, set your line to this level after every call on the port, including
 * reads, `new` and loads. The line also goes up when IER enables a condition
 * that is pending already, for which no call asks for an interrupt.
 */
bool superio_serial_interrupt_line(const superio_serial *port)
    SUPERIO_MUST_USE SUPERIO_NONNULL SUPERIO_ACCESS(read_only, 1);

/*
 * Returns whether the port is coherent: `len` is at most 64, data ready says
 * whether a byte is held, IIR is 1, 2, 4 or 6, and RDA is pending only while a
 * byte is held. The other fields can have any value. A new port is coherent,
 * and every call except a load keeps a port coherent.
 *
 * If you do not trust the source of a saved port or console, refuse it if its
 * port is not coherent, because an interrupt can then be missing, or come
 * without a byte. Every call is memory-safe and well defined all the same,
 * whatever the struct holds.
 */
bool superio_serial_is_coherent(const superio_serial *port)
    SUPERIO_MUST_USE SUPERIO_NONNULL SUPERIO_ACCESS(read_only, 1);

/* ------------------------------------------------------------------------- */
/* The console                                                               */
/* ------------------------------------------------------------------------- */

/* How many bytes of output a console keeps at most. */
#define SUPERIO_CONSOLE_OUTPUT_SIZE 4096

/*
 * A console. Its waiting output forms a ring: the oldest byte is at
 * output_bytes[output_head % 4096], the others follow it, and output_bytes[0]
 * follows output_bytes[4095]. At most 4096 wait: a larger `output_len` counts
 * as 4096. A flag is set unless it is 0.
 */
typedef struct superio_console {
    superio_serial port;
    uint16_t output_head; /* the place of the oldest byte, modulo 4096 */
    uint16_t output_len;  /* how many bytes of output wait */
    uint8_t output_bytes[SUPERIO_CONSOLE_OUTPUT_SIZE]; /* the output. Bytes that
                                                          do not wait mean
                                                          nothing */
    uint64_t dropped;   /* how many bytes of output were dropped */
    uint8_t is_polled;  /* the guest polls, so input goes in at once */
    uint8_t is_ready;   /* the guest's driver has shown that it is ready */
    uint8_t is_asleep;  /* the guest sleeps in memory, and no driver has shown
                           since then that it is ready */
    uint8_t is_refused; /* an interrupt was refused, and the console has to ask
                           for it again */
} superio_console;

/* What a call leaves for you to do. */
typedef struct superio_console_work {
    uint8_t interrupts; /* raise the interrupt this many times, 0 to 2, if
                           your interrupt controller is edge-triggered. If
                           one of them is refused, raise no more, and call
                           superio_console_refuse */
    bool is_up;         /* set the line to this level, if your interrupt
                           controller is level-triggered */
    bool wakes;         /* wake the event loop: superio_console_wants names
                           something that it did not name before the call. It
                           is false if only the number of bytes of input grows,
                           so with edge-triggered epoll, read until none comes
                           or none is wanted */
} superio_console_work;

/* What the event loop polls, and whether it has to come back soon. */
typedef struct superio_console_wanted {
    size_t input; /* how many bytes of input can go in, 0 to 64. While it is 0,
                     do not read from the source of input */
    bool output;  /* output waits: poll its reader for room */
    bool turn;    /* make a turn after some milliseconds, even if nothing else
                     happens */
} superio_console_wanted;

/* What a guest's read shows, and what it leaves to you. */
typedef struct superio_console_read_effects {
    uint8_t byte; /* what the guest reads */
    superio_console_work work;
} superio_console_read_effects;

/* How much input went in, and what that leaves to you. */
typedef struct superio_console_receive_effects {
    size_t accepted; /* how many bytes it accepted, from the first on */
    superio_console_work work;
} superio_console_receive_effects;

/*
 * Makes a console with a fresh port and no output. If your interrupt controller
 * is level-triggered, take the line down.
 *
 * Many drivers test the port before they use it, and throw away some or all of
 * what they find in the FIFO. So input waits until the guest is ready, which it
 * shows by a write at offset 1 that leaves IER with RDA and without THRE. No
 * driver that we ran leaves IER like this while it tests a port. From then on
 * the guest stays ready, whatever it enables, until the machine is reset or
 * suspended.
 *
 * A guest that polls, such as a boot loader, never gets ready in this way, and
 * neither does one that enables RDA only together with THRE. Pass true as
 * `is_polled` for such a guest, and input goes in at once, even after a reset.
 */
void superio_console_new(superio_console *console, bool is_polled)
    SUPERIO_NONNULL SUPERIO_ACCESS(write_only, 1);

/*
 * The guest reads at `offset`. The console itself makes the character timeout
 * for which superio_serial_read asks, so you only carry out the work.
 */
superio_console_read_effects superio_console_read(superio_console *console,
                                                  uint8_t offset)
    SUPERIO_MUST_USE SUPERIO_NONNULL SUPERIO_ACCESS(read_write, 1);

/*
 * The guest writes `value` at `offset`. A byte that it sends waits for its
 * reader, or is dropped and counted if 4096 bytes wait already. To drop fewer,
 * ask superio_console_is_full after each write, and hold the guest as the part
 * about output above says.
 */
superio_console_work superio_console_write(superio_console *console,
                                           uint8_t offset, uint8_t value)
    SUPERIO_MUST_USE SUPERIO_NONNULL SUPERIO_ACCESS(read_write, 1);

/*
 * Returns what the event loop has to poll now. Poll all that the result names,
 * and make a turn when the poll returns. Ask again before you read input,
 * because the guest can change the answer during the poll.
 */
superio_console_wanted superio_console_wants(const superio_console *console)
    SUPERIO_MUST_USE SUPERIO_NONNULL SUPERIO_ACCESS(read_only, 1);

/*
 * Input arrives for the guest. The console accepts the first of the `count`
 * bytes, at most as many as superio_console_wants says. It accepts all if you
 * read no more than that, and have held the lock since you asked. Otherwise
 * keep the bytes that it did not accept until more are wanted.
 */
superio_console_receive_effects superio_console_receive(
    superio_console *console, const uint8_t *bytes, size_t count)
    SUPERIO_MUST_USE SUPERIO_NONNULL SUPERIO_COUNTED
    SUPERIO_ACCESS(read_write, 1) SUPERIO_ACCESS(read_only, 2, 3);

/*
 * Copies the oldest waiting output to `bytes`, at most `count` bytes and up to
 * the end of the ring, and returns how many bytes it copied. The result is 0
 * only if no output waits or `count` is 0. The bytes after the copied ones do
 * not change. Consume what the reader takes, and the next call copies the
 * output after it.
 */
size_t superio_console_output(const superio_console *console, uint8_t *bytes,
                              size_t count)
    SUPERIO_MUST_USE SUPERIO_NONNULL SUPERIO_COUNTED
    SUPERIO_ACCESS(read_only, 1) SUPERIO_ACCESS(write_only, 2, 3);

/*
 * The reader has taken the oldest `count` bytes of the waiting output, or all
 * of it if fewer wait. This leaves no work.
 */
void superio_console_consume(superio_console *console, size_t count)
    SUPERIO_NONNULL SUPERIO_ACCESS(read_write, 1);

/* Returns whether 4096 bytes of output wait, so that the next byte that the
 * guest sends is dropped. */
bool superio_console_is_full(const superio_console *console)
    SUPERIO_MUST_USE SUPERIO_NONNULL SUPERIO_ACCESS(read_only, 1);

/* Returns how many bytes of output were dropped, or 2^64 - 1 if more were. */
uint64_t superio_console_dropped(const superio_console *console)
    SUPERIO_MUST_USE SUPERIO_NONNULL SUPERIO_ACCESS(read_only, 1);

/*
 * The event loop makes a turn, because its poll has returned, for whatever
 * reason. The console interrupts the guest again for bytes that the guest has
 * left, and asks again for a refused interrupt.
 */
superio_console_work superio_console_turn(superio_console *console)
    SUPERIO_MUST_USE SUPERIO_NONNULL SUPERIO_ACCESS(read_write, 1);

/*
 * An interrupt that a call asked for was refused, or may be lost. From now on,
 * turns and writes of IER ask once for each condition that is pending and
 * enabled, until one of them finds such a condition, the guest reads IIR, or
 * the machine is reset. This call itself asks for nothing: `interrupts` is 0.
 *
 * Without this call, a write of IER does not ask for a condition that was
 * pending before the write. So if you raise edges, make this call before each
 * write at offset 1 in two cases: your controller can lose an edge, such as at
 * a masked pin, or the guest's driver never reads IIR.
 */
superio_console_work superio_console_refuse(superio_console *console)
    SUPERIO_MUST_USE SUPERIO_NONNULL SUPERIO_ACCESS(read_write, 1);

/*
 * The machine is reset. The port becomes a fresh one, and the bytes that it
 * held are lost. Waiting output is kept, and so is the count of dropped bytes.
 * Input waits again until the guest is ready, unless the guest polls. Refused
 * interrupts are forgotten.
 */
superio_console_work superio_console_reset(superio_console *console)
    SUPERIO_MUST_USE SUPERIO_NONNULL SUPERIO_ACCESS(read_write, 1);

/*
 * The machine is suspended to RAM. From now on input waits, even if the guest
 * polls, until a reset or until a write at offset 1 leaves IER with RDA and
 * without THRE. A write of DLM while IER is like this counts too. This leaves
 * no work.
 */
void superio_console_suspend(superio_console *console)
    SUPERIO_NONNULL SUPERIO_ACCESS(read_write, 1);

/*
 * Says whether the guest polls from now on, as superio_console_new says at
 * first. One guest can do both, if its boot loader polls and its kernel does
 * not.
 */
superio_console_work superio_console_set_polled(superio_console *console,
                                                bool is_polled)
    SUPERIO_MUST_USE SUPERIO_NONNULL SUPERIO_ACCESS(read_write, 1);

/* ------------------------------------------------------------------------- */
/* The real-time clock                                                       */
/* ------------------------------------------------------------------------- */

/* How many bytes of guest memory a clock occupies, from its base on. */
#define SUPERIO_RTC_WINDOW 0x1000

/* What superio_rtc_alarm_due returns if no access ever finds an alarm due. */
#define SUPERIO_RTC_NEVER UINT64_MAX

/*
 * A PL031 real-time clock, which counts seconds. The library reads no clock, so
 * pass to each access its moment `now`, in seconds since 1970.
 *
 * The host's time is the low 32 bits of `now`. Guest time is the host's time
 * plus `offset` if that sum is from 0 to 4294967295, and otherwise the host's
 * time. So guest time does not wrap at 32 bits: it falls back to the host's
 * time, and is the sum again when the sum is in range. A write of v to RTCLR
 * sets `offset` to v minus the host's time.
 *
 * The match register holds an alarm. A write to it sets the alarm if the value
 * is after guest time, and otherwise clears the alarm. If the value is guest
 * time, the write sets bit 0 of `ris` at once. The first access, of any kind,
 * at which guest time has reached the match sets this bit and clears the alarm.
 *
 * No call asks for an interrupt. If the clock has an interrupt line, set the
 * line to superio_rtc_interrupt_line after each access and after a restore.
 * Also set a timer for superio_rtc_alarm_due, because a guest that sleeps until
 * the interrupt makes no access. When the timer goes off, make an access of
 * your own, such as a read at 0x018 (RTCMIS). Moments are whole seconds, so a
 * timer that runs for the returned number of seconds is late by up to a second,
 * and Linux's driver can clear the alarm meanwhile. So let the timer go off at
 * the moment `now` plus this number. If it is 0, make that access at once,
 * because Linux stops a timer that is set to 0. docs/CLOCK.md has the code.
 */
typedef struct superio_rtc {
    uint32_t lr;    /* RTCLR, the last loaded value, or 0 */
    uint32_t mr;    /* RTCMR, the guest time that an alarm waits for */
    uint32_t imsc;  /* RTCIMSC, the interrupt mask */
    uint32_t ris;   /* RTCRIS, the raw interrupt status */
    int64_t offset; /* how far guest time is ahead of the host's, in seconds */
    uint64_t armed; /* 0: no alarm is set; any other value: one is */
} superio_rtc;

/* What a read of the clock did. */
typedef struct superio_rtc_read_effects {
    uint32_t value;    /* what the guest reads, as 4 bytes, lowest first */
    bool invalid_read; /* event: there is nothing to read here; value is 0 */
} superio_rtc_read_effects;

/* What a write to the clock did. */
typedef struct superio_rtc_write_effects {
    bool invalid_write; /* event: this offset takes no write */
} superio_rtc_write_effects;

/*
 * Returns a fresh clock: guest time is the host's, and no alarm is set. Make
 * one for each machine, and keep it as it is when the machine is reset.
 */
superio_rtc superio_rtc_new(void) SUPERIO_MUST_USE;

/*
 * The guest reads four bytes at `offset` from the clock's base, at the moment
 * `now`. `invalid_read` is true if there is nothing to read at this offset.
 */
superio_rtc_read_effects superio_rtc_read(superio_rtc *clock, uint16_t offset,
                                          uint64_t now)
    SUPERIO_NONNULL SUPERIO_ACCESS(read_write, 1);

/*
 * The guest writes `value`, as four bytes, lowest first, at `offset` from the
 * clock's base, at the moment `now`. If this offset takes no write, nothing is
 * stored, and `invalid_write` is true.
 *
 * A write of 1 at 0x00C (RTCCR) sets guest time to the host's. Linux and U-Boot
 * make this write whenever they start, and a hardware PL031 that runs ignores
 * it. To keep a time that the guest set, do not pass on writes at 0x00C.
 */
superio_rtc_write_effects superio_rtc_write(superio_rtc *clock, uint16_t offset,
                                            uint32_t value, uint64_t now)
    SUPERIO_NONNULL SUPERIO_ACCESS(read_write, 1);

/* Returns whether the interrupt line is up: bit 0 of `ris & imsc`, as RTCMIS
 * shows. */
bool superio_rtc_interrupt_line(const superio_rtc *clock)
    SUPERIO_MUST_USE SUPERIO_NONNULL SUPERIO_ACCESS(read_only, 1);

/*
 * Returns the seconds from the moment `now` until the alarm is due, if the
 * guest makes no access until then: an access at that moment finds the alarm
 * reached, and no earlier access does. The result is 0 if the alarm is due at
 * once, SUPERIO_RTC_NEVER if no alarm is set or guest time never reaches the
 * match, and otherwise less than 2^32. The mask plays no part.
 *
 * Ask again after each access, because it can change the match, guest time or
 * the alarm.
 */
uint64_t superio_rtc_alarm_due(const superio_rtc *clock, uint64_t now)
    SUPERIO_MUST_USE SUPERIO_NONNULL SUPERIO_ACCESS(read_only, 1);

/* ------------------------------------------------------------------------- */
/* The reset controller                                                      */
/* ------------------------------------------------------------------------- */

/*
 * The controller's ports on a PC, which are offsets 0 and 4 of the functions
 * below. Do not give it the ports between them, because 0x61 is system control
 * port B, and Linux waits until its bit 0x20 is set.
 */
#define SUPERIO_I8042_DATA_PORT 0x60
#define SUPERIO_I8042_COMMAND_PORT 0x64

/* What a write to the controller leaves to you. */
typedef struct superio_i8042_write_effects {
    bool resets; /* the guest asks to reset the machine */
} superio_i8042_write_effects;

/*
 * The guest writes to an i8042 keyboard controller, which knows one command:
 * 0xFE at offset 4 from its base resets the machine. Any other write has no
 * effect. The controller has no state, so there is no struct.
 */
superio_i8042_write_effects superio_i8042_write(uint8_t offset, uint8_t value)
    SUPERIO_MUST_USE;

/* Returns what the guest reads at `offset`: 0, at every offset. */
uint8_t superio_i8042_read(uint8_t offset) SUPERIO_MUST_USE;

/* ------------------------------------------------------------------------- */
/* Saved devices                                                             */
/* ------------------------------------------------------------------------- */

/*
 * A saved device is a string of bytes, whose encoding is in
 * docs/SAVED-STATES.md. The string is the same on every machine, and has no
 * checksum. Two devices have the same string only if their registers, offset,
 * alarm, held bytes, waiting output, count of dropped bytes and flags are the
 * same.
 */

/* The maximum sizes of a saved port and of a saved console, and the size of a
 * saved clock. */
#define SUPERIO_SERIAL_SAVED_MAX 81
#define SUPERIO_CONSOLE_SAVED_MAX 4196
#define SUPERIO_RTC_SAVED_SIZE 33

/*
 * What a load returns. Any bytes are allowed: the result is 0 if all is well,
 * and otherwise the first check of this list that they fail. For a console, its
 * own checks come first, and then those of the port in it. The calls return a
 * uint32_t, because the size of an enum is the compiler's choice.
 */
enum superio_saved_state_error {
    SUPERIO_LOAD_OK = 0,
    SUPERIO_LOAD_TOO_SHORT = 1,         /* there are fewer than 8 bytes */
    SUPERIO_LOAD_NOT_A_SAVED_STATE = 2, /* they do not begin with the magic */
    SUPERIO_LOAD_OTHER_DEVICE = 3,      /* they save another kind of device */
    SUPERIO_LOAD_UNKNOWN_VERSION = 4,   /* bytes[5], the version, is not 1 */
    SUPERIO_LOAD_WRONG_LENGTH = 5,      /* the length in the header is not the
                                           number of bytes after it. Or it is
                                           below 9 for a port, not 25 for a
                                           clock, or too small for a console's
                                           output, or more than 4096 bytes of
                                           output wait */
    SUPERIO_LOAD_TOO_MANY_BYTES = 6,    /* the port holds more than 64 bytes */
    SUPERIO_LOAD_INVALID_ARMED = 7,     /* `armed` is neither 0 nor 1 */
    SUPERIO_LOAD_INVALID_FLAGS = 8      /* a flag is set that is not known */
};

/*
 * Saves a port and returns how many bytes it wrote: 17, plus one for each held
 * byte. The other bytes do not change.
 */
size_t superio_serial_save(
    const superio_serial *port,
    uint8_t bytes[SUPERIO_AT_LEAST(SUPERIO_SERIAL_SAVED_MAX)])
    SUPERIO_MUST_USE SUPERIO_NONNULL SUPERIO_ACCESS(read_only, 1)
    SUPERIO_ACCESS(write_only, 2);

/*
 * Makes a port from `count` saved bytes. The port changes only if the result is
 * SUPERIO_LOAD_OK. Then raise the interrupt as often as
 * superio_serial_interrupts_due says, and later again as docs/PORT.md says, or
 * set the line if your interrupt controller is level-triggered.
 *
 * A loaded port holds at most 64 bytes. It need not be coherent, as
 * superio_serial_is_coherent tells.
 */
uint32_t superio_serial_load(superio_serial *port, const uint8_t *bytes,
                             size_t count)
    SUPERIO_MUST_USE SUPERIO_NONNULL SUPERIO_COUNTED
    SUPERIO_ACCESS(write_only, 1) SUPERIO_ACCESS(read_only, 2, 3);

/*
 * Saves a console and returns how many bytes it wrote: 36, plus one for each
 * byte of waiting output, plus one for each byte that the port holds. The other
 * bytes do not change.
 */
size_t superio_console_save(
    const superio_console *console,
    uint8_t bytes[SUPERIO_AT_LEAST(SUPERIO_CONSOLE_SAVED_MAX)])
    SUPERIO_MUST_USE SUPERIO_NONNULL SUPERIO_ACCESS(read_only, 1)
    SUPERIO_ACCESS(write_only, 2);

/*
 * Makes a console from `count` saved bytes. The console changes only if the
 * result is SUPERIO_LOAD_OK. Then do two things:
 *
 * 1. If your interrupt controller is edge-triggered, call
 *    superio_console_refuse, because an earlier interrupt may be lost. If none
 *    is lost, the guest gets one interrupt too many for each condition. You can
 *    leave out this call if you restored your controller from a state that has
 *    every interrupt which it had not delivered yet.
 * 2. Always make a turn, by superio_console_turn, and carry out its work.
 *
 * The port need not be coherent, as superio_serial_is_coherent tells of
 * `&console->port`.
 */
uint32_t superio_console_load(superio_console *console, const uint8_t *bytes,
                              size_t count)
    SUPERIO_MUST_USE SUPERIO_NONNULL SUPERIO_COUNTED
    SUPERIO_ACCESS(write_only, 1) SUPERIO_ACCESS(read_only, 2, 3);

/* Saves a clock: writes all SUPERIO_RTC_SAVED_SIZE bytes. */
void superio_rtc_save(const superio_rtc *clock,
                      uint8_t bytes[SUPERIO_AT_LEAST(SUPERIO_RTC_SAVED_SIZE)])
    SUPERIO_NONNULL SUPERIO_ACCESS(read_only, 1) SUPERIO_ACCESS(write_only, 2);

/*
 * Makes a clock from `count` saved bytes. The clock changes only if the result
 * is SUPERIO_LOAD_OK. Then set the clock's line and timer, if it has them.
 */
uint32_t superio_rtc_load(superio_rtc *clock, const uint8_t *bytes,
                          size_t count)
    SUPERIO_MUST_USE SUPERIO_NONNULL SUPERIO_COUNTED
    SUPERIO_ACCESS(write_only, 1) SUPERIO_ACCESS(read_only, 2, 3);

/* The structs have the sizes that the library gives them. */
typedef char superio_serial_has_75_bytes[sizeof(superio_serial) == 75 ? 1 : -1];
/* A console has 4 bytes less where a uint64_t is aligned to 4, as on i386. */
typedef char superio_console_has_4192_bytes
    [sizeof(superio_console) == 4192 || sizeof(superio_console) == 4188 ? 1
                                                                       : -1];
typedef char superio_rtc_has_32_bytes[sizeof(superio_rtc) == 32 ? 1 : -1];
typedef char superio_serial_read_effects_has_3_bytes
    [sizeof(superio_serial_read_effects) == 3 ? 1 : -1];
typedef char superio_serial_write_effects_has_2_bytes
    [sizeof(superio_serial_write_effects) == 2 ? 1 : -1];
typedef char superio_serial_enqueue_effects_has_2_words
    [sizeof(superio_serial_enqueue_effects) == 2 * sizeof(size_t) ? 1 : -1];
typedef char superio_console_work_has_3_bytes
    [sizeof(superio_console_work) == 3 ? 1 : -1];
typedef char superio_console_wanted_has_2_words
    [sizeof(superio_console_wanted) == 2 * sizeof(size_t) ? 1 : -1];
typedef char superio_console_read_effects_has_4_bytes
    [sizeof(superio_console_read_effects) == 4 ? 1 : -1];
typedef char superio_console_receive_effects_has_2_words
    [sizeof(superio_console_receive_effects) == 2 * sizeof(size_t) ? 1 : -1];
typedef char superio_rtc_read_effects_has_8_bytes
    [sizeof(superio_rtc_read_effects) == 8 ? 1 : -1];
typedef char superio_rtc_write_effects_has_1_byte
    [sizeof(superio_rtc_write_effects) == 1 ? 1 : -1];
typedef char superio_i8042_write_effects_has_1_byte
    [sizeof(superio_i8042_write_effects) == 1 ? 1 : -1];

#ifdef __cplusplus
}
#endif

#ifdef __clang__
#pragma clang diagnostic pop
#endif

#undef SUPERIO_HAS_ATTRIBUTE
#undef SUPERIO_MUST_USE
#undef SUPERIO_NONNULL
#undef SUPERIO_ACCESS
#undef SUPERIO_COUNTED
#undef SUPERIO_AT_LEAST

#endif
