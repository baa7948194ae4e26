/* SPDX-License-Identifier: Apache-2.0 OR BSD-3-Clause */
/* Lets reads and writes of a program fail, that of docs/C.md or machine.c: the linker gives its calls to this file, by its
 * option --wrap.
 * READ_ERROR is how the input fails, or 0 for its end, and WRITE_ERROR how the output fails. A file that only is not
 * ready has to be polled again, and so does one whose read or write a signal has ended. Output that nobody can take has
 * to be dropped, and input that is over has to be polled no more. The first rule that is broken ends the program with
 * status 3, and is named. */
#include <errno.h>
#include <poll.h>
#include <stdbool.h>
#include <stdio.h>
#include <string.h>
#include <superio.h>
#include <unistd.h>

superio_console_wanted __real_superio_console_wants(const superio_console *console);
int __real_poll(struct pollfd *files, nfds_t count, int timeout);

enum { INPUT = 1, OUTPUT = 2, BYTE = -1, CLOSED = -2, COUNT = 8 };
/* What the event loop finds ready, and how the read or write ends. The byte is the only one that the guest sends back. */
static const struct {
    int file, end;
} STEPS[COUNT] = {{INPUT, EAGAIN}, {INPUT, EINTR}, {INPUT, CLOSED}, {INPUT, BYTE}, {OUTPUT, EAGAIN}, {OUTPUT, EINTR}, {OUTPUT, WRITE_ERROR},
                  {INPUT, READ_ERROR}};
static size_t step; /* the next one */
static bool is_closed; /* the port, from a poll that finds input on: the console takes none, until it is asked again */

static void need(bool is_kept, const char *rule) {
    if (is_kept)
        return;
    puts(rule);
    fflush(stdout);
    _exit(3);
}

/* After a step, its file is polled or not. */
static void look(const struct pollfd *files) {
    int file = STEPS[step - 1].file, end = STEPS[step - 1].end;
    if (end == EAGAIN || end == EINTR || end == CLOSED)
        need(files[file].fd >= 0, "a file is not ready, and polled no more");
    else if (file == OUTPUT)
        need(files[file].fd < 0, "output is kept that nobody can take");
    else if (end != BYTE)
        need(files[file].fd < 0, "input is over, and polled again");
    if (step < COUNT)
        return;
    puts("each rule is kept");
    fflush(stdout);
    _exit(0);
}

int __wrap_poll(struct pollfd *files, nfds_t count, int timeout) {
    static size_t looked;
    if (count <= 1) /* the guest's */
        return __real_poll(files, count, timeout);
    if (looked < step)
        look(files);
    looked = step;
    files[INPUT].revents = files[OUTPUT].revents = 0;
    struct pollfd *ready = &files[STEPS[step].file];
    if (ready->fd < 0)
        return __real_poll(files, 1, timeout);
    files[0].revents = 0;
    ready->revents = ready->events;
    is_closed = STEPS[step].end == CLOSED;
    return 1;
}

superio_console_wanted __wrap_superio_console_wants(const superio_console *console) {
    superio_console_wanted wanted = __real_superio_console_wants(console);
    if (is_closed) {
        wanted.input = 0;
        step++;
    }
    is_closed = false;
    return wanted;
}

static ssize_t end_step(int file) {
    need(step < COUNT && STEPS[step].file == file, "a file is read or written that is not ready");
    errno = STEPS[step++].end;
    return errno == 0 ? 0 : -1;
}

ssize_t __wrap_read(int file, void *bytes, size_t count) {
    need(count > 0, "a read of no byte is taken for the end of the input");
    if (step < COUNT && STEPS[step].end == BYTE && file == STDIN_FILENO && count > 0) {
        memset(bytes, 'a', 1);
        return step++, 1;
    }
    return end_step(INPUT);
}

ssize_t __wrap_write(int file, const void *bytes, size_t count) {
    need(file == STDOUT_FILENO && count == 1 && !memcmp(bytes, "A", 1), "other output is written");
    return end_step(OUTPUT);
}
