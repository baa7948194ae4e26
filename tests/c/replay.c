/* SPDX-License-Identifier: Apache-2.0 OR BSD-3-Clause */
/*
 * Makes the calls of tests/data/calls, of own.txt and of console.txt, which come on standard input, over the C library,
 * as C and as C++, and compares what each did. The trigger, the writer and the events object, which the library leaves
 * to its caller, are here. Each struct and each string of bytes is beside a page that nobody may touch: in turn after
 * one and before one.
 *
 * Prints the first ten lines that differ, and how many calls did the same. Exits 1 if one differs, or if there is none.
 */
#define _DEFAULT_SOURCE
#include <superio.h>

#include <inttypes.h>
#include <stdio.h>
#include <stdlib.h>
#include <string.h>
#include <sys/mman.h>

enum { HEADER = 8, REGISTERS = 9, SHOWN = 16, MOST_WORDS = 8, MOST_TEXT = 16384 };
/* The size of a page, and which ones may be used. */
enum { PAGE = 131072, PORT_PAGE = 1, CLOCK_PAGE = 3, CONSOLE_PAGE = 5, BYTES_PAGE = 7, PAGES = 9 };

static uint8_t *memory;
static superio_serial *port;
static superio_console *console;
static superio_rtc *rtc;
static unsigned long line_number;

/* The call's name and its numbers, and how the objects behave in it: the letters of tests/data/calls. */
static char *words[MOST_WORDS + 1], behaviour[MOST_WORDS + 1];
static int trigger_calls;

/* What the call did: its reply, and then the calls of objects. */
static char reply[MOST_TEXT], events[MOST_TEXT];
static const char DIGITS[] = "0123456789abcdef";

static int value_of(char digit) { return digit <= '9' ? digit - '0' : digit - 'a' + 10; }

static uint64_t number(int place) {
    uint64_t value = 0;
    for (const char *digit = words[place]; *digit; digit++)
        value = value << 4 | (uint64_t)value_of(*digit);
    return value;
}

#define add(text, ...) sprintf((text) + strlen(text), __VA_ARGS__)

/* What most calls do is without `add`, for which an emulator takes long. */
static void add_text(char *text, const char *more) { strcat(text, more); }

static void add_bytes(const void *bytes, size_t count) {
    char *end = reply + strlen(reply);
    for (size_t i = 0; i < count; i++) {
        *end++ = DIGITS[((const uint8_t *)bytes)[i] >> 4];
        *end++ = DIGITS[((const uint8_t *)bytes)[i] & 15];
    }
    *end = '\0';
}

/* A number of up to eight bits has two digits, and one of more bits has more. */
static void add_number(size_t number) {
    uint8_t byte = (uint8_t)number;
    if (number > 0xFF)
        add(reply, "%zx", number);
    else
        add_bytes(&byte, 1);
}

/* Nobody may touch the pages beside those. */
static void make_memory(void) {
    memory = (uint8_t *)mmap(NULL, PAGES * PAGE, PROT_NONE, MAP_PRIVATE | MAP_ANONYMOUS, -1, 0);
    for (int page = PORT_PAGE; page < PAGES; page += 2)
        if (memory == MAP_FAILED || mprotect(memory + page * PAGE, PAGE, PROT_READ | PROT_WRITE) != 0)
            exit(2);
}

/* A place of so many bytes: in one line right after a guard, and in the next right before one. */
static void *beside_guard(int page, size_t size) {
    return memory + page * PAGE + (line_number % 2 == 0 ? 0 : PAGE - size);
}

/* The bytes of a word, or NULL if there are none. */
static uint8_t *bytes_of(const char *digits, size_t *count) {
    *count = *digits == '-' ? 0 : strlen(digits) / 2;
    uint8_t *bytes = (uint8_t *)beside_guard(BYTES_PAGE, *count);
    for (size_t i = 0; i < *count; i++)
        bytes[i] = (uint8_t)(value_of(digits[2 * i]) << 4 | value_of(digits[2 * i + 1]));
    return *count > 0 ? bytes : NULL;
}

/* ---- the objects */

/* The first call is refused if `1` stands in the line, and the second if `2` does. */
static bool trigger(void) {
    bool is_refused = strchr(behaviour, '1' + trigger_calls++) != NULL;
    add_text(events, is_refused ? " R" : " T");
    return !is_refused;
}

/* Sends a byte as Rust's `write_all` and `flush` do. */
static bool send(uint8_t byte) {
    add(events, " W%02x", byte);
    if (strchr(behaviour, 'i')) /* interrupted once: again */
        add(events, " W%02x", byte);
    if (strpbrk(behaviour, "nf"))
        return false;
    add_text(events, " F");
    return !strchr(behaviour, 'u');
}

/* Asks for interrupts up to a refusal. Returns how many are left. */
static int ask(int interrupts) {
    while (interrupts > 0 && trigger())
        interrupts--;
    return interrupts;
}

/*
 * Replies whether the interrupts that a call asks for were taken. They are due, so that they can be retried. The
 * recordings have vm-superio's behaviour: it raises THRE only after the interrupt of RDA is taken. The library raises
 * both, and a refusal changes nothing. So if both are left, this takes THRE back by the field: any bytes are a port.
 */
static bool request(int interrupts) {
    if (superio_serial_interrupts_due(port) < interrupts)
        add(events, " which is not due");
    int left = ask(interrupts);
    if (left == 2)
        port->interrupt_identification &= (uint8_t)~0x02;
    return left == 0;
}

/* ---- the serial port */

static void reply_port(void) {
    uint8_t saved[SUPERIO_SERIAL_SAVED_MAX];
    size_t held = superio_serial_save(port, saved) - HEADER - REGISTERS;
    add_bytes(saved + HEADER, REGISTERS);
    add_text(reply, held == 0 ? " -" : " ");
    add_bytes(saved + HEADER + REGISTERS, held);
    add_text(reply, " ");
    add_number(superio_serial_fifo_capacity(port));
}

static void serial_read(void) {
    superio_serial_read_effects done = superio_serial_read(port, (uint8_t)number(1));
    add_number(done.byte);
    add_text(events, done.in_buffer_empty ? " e" : "");
    add_text(events, done.buffer_read ? " b" : "");
}

static void serial_write(void) {
    uint8_t value = (uint8_t)number(2);
    superio_serial_write_effects done = superio_serial_write(port, (uint8_t)number(1), value);
    bool is_sent = !done.sends || send(value);
    if (done.sends)
        add_text(events, is_sent ? " o" : " l");
    add_text(reply, !request(done.interrupts) ? "trigger" : is_sent ? "ok" : "io");
}

static void serial_enqueue(void) {
    size_t count;
    const uint8_t *bytes = bytes_of(words[1], &count);
    superio_serial_enqueue_effects done = superio_serial_enqueue(port, bytes, count);
    if (done.fifo_full)
        add_text(reply, "full");
    else if (request(done.interrupts))
        add_number(done.accepted);
    else
        add_text(reply, "trigger");
}

/* A port takes the place of this one if its interrupts are not refused. */
static void restore(superio_serial restored) {
    superio_serial before = *port;
    *port = restored;
    if (ask(superio_serial_interrupts_due(port)) == 0) {
        reply_port();
    } else {
        *port = before;
        add_text(reply, "trigger");
    }
}

static void serial_struct(void) {
    size_t count;
    if (words[1]) {
        const uint8_t *bytes = bytes_of(words[1], &count);
        memset(port, 0, sizeof *port);
        memcpy(port, bytes, count);
    }
    add_bytes(port, SHOWN);
}

/* Any place can be that of the oldest byte, and any number from 64 on says that as many are held. */
static void serial_state(void) {
    superio_serial restored = superio_serial_new();
    size_t count;
    memcpy(&restored, bytes_of(words[1], &count), REGISTERS);
    const uint8_t *bytes = bytes_of(words[2], &count);
    if (count > SUPERIO_SERIAL_FIFO_SIZE) {
        add_text(reply, "full");
        return;
    }
    restored.head = (uint8_t)line_number;
    restored.len = (uint8_t)(count < SUPERIO_SERIAL_FIFO_SIZE ? count : count + line_number % 192);
    for (size_t i = 0; i < count; i++)
        restored.bytes[(restored.head + i) % SUPERIO_SERIAL_FIFO_SIZE] = bytes[i];
    restore(restored);
}

/* ---- the console */

/* Carries out what a call leaves, up to a refusal. */
static void carry_out(superio_console_work work) {
    int left = ask(work.interrupts);
    if (left > 0) {
        superio_console_work refused = superio_console_refuse(console);
        if (refused.interrupts != 0 || refused.is_up != work.is_up)
            add(events, " a refusal that leaves something else");
        work.wakes |= refused.wakes;
    }
    add_text(events, work.is_up ? " up" : "");
    add_text(events, work.wakes ? " wake" : "");
}

static void finish(superio_console_work work) {
    add_text(reply, "ok");
    carry_out(work);
}

static void console_read(void) {
    superio_console_read_effects done = superio_console_read(console, (uint8_t)number(1));
    add_number(done.byte);
    carry_out(done.work);
}

static void console_wants(void) {
    superio_console_wanted wanted = superio_console_wants(console);
    add(reply, "%02zx%s%s", wanted.input, wanted.output ? " output" : "", wanted.turn ? " turn" : "");
}

static void console_receive(void) {
    size_t count;
    const uint8_t *bytes = bytes_of(words[1], &count);
    superio_console_receive_effects done = superio_console_receive(console, bytes, count);
    add_number(done.accepted);
    carry_out(done.work);
}

static void console_output(void) {
    size_t count = (size_t)number(1);
    uint8_t *bytes = count > 0 ? (uint8_t *)beside_guard(BYTES_PAGE, count) : NULL;
    count = superio_console_output(console, bytes, count);
    add_text(reply, count == 0 ? "-" : "");
    add_bytes(bytes, count);
}

/* The struct by its fields, of arrays the first bytes. It may be set before: first the bytes of the port. */
static void console_struct(void) {
    size_t count;
    if (words[1]) {
        memset(console, 0, sizeof *console);
        const uint8_t *bytes = bytes_of(words[1], &count);
        memcpy(&console->port, bytes, count);
        console->output_head = (uint16_t)number(2);
        console->output_len = (uint16_t)number(3);
        bytes = bytes_of(words[4], &count);
        memcpy(console->output_bytes, bytes, count);
        console->dropped = number(5);
        bytes = bytes_of(words[6], &count);
        memcpy(&console->is_polled, bytes, count);
    }
    add_bytes(&console->port, SHOWN);
    add(reply, " %04x %04x ", console->output_head, console->output_len);
    add_bytes(console->output_bytes, 4);
    add(reply, " %" PRIx64 " %02x%02x%02x%02x", console->dropped, console->is_polled, console->is_ready,
        console->is_asleep, console->is_refused);
}

/* ---- the clock, and saved devices */

static void clock_state(void) {
    if (words[1]) {
        *rtc = superio_rtc_new();
        rtc->lr = (uint32_t)number(1);
        rtc->mr = (uint32_t)number(3);
        rtc->imsc = (uint32_t)number(4);
        rtc->ris = (uint32_t)number(5);
        rtc->offset = strtoll(words[2], NULL, 10);
        if (words[6]) /* any number but 0 says that an alarm is set */
            memset((uint8_t *)&rtc->armed + sizeof rtc->armed / 2, 1, 1);
    }
    add(reply, "%08" PRIx32 " %" PRId64 " %08" PRIx32 " %08" PRIx32 " %08" PRIx32 "%s", rtc->lr, rtc->offset, rtc->mr,
        rtc->imsc, rtc->ris, rtc->armed ? " armed" : "");
}

static void clock_read(void) {
    superio_rtc_read_effects done = superio_rtc_read(rtc, (uint16_t)number(2), number(1));
    add_text(events, done.invalid_read ? " i" : "");
    if (done.invalid_read && done.value == 0)
        add_text(reply, "a5a5a5a5");
    else
        add(reply, "%08" PRIx32, done.value);
}

static void clock_write(void) {
    if (superio_rtc_write(rtc, (uint16_t)number(2), (uint32_t)number(3), number(1)).invalid_write)
        add_text(events, " j");
    add_text(reply, "ok");
}

static void save(void) {
    size_t most = *words[0] == 's' ? SUPERIO_SERIAL_SAVED_MAX
                : *words[0] == 'l' ? SUPERIO_CONSOLE_SAVED_MAX : SUPERIO_RTC_SAVED_SIZE;
    uint8_t *bytes = (uint8_t *)beside_guard(BYTES_PAGE, most);
    if (*words[0] == 's')
        most = superio_serial_save(port, bytes);
    else if (*words[0] == 'l')
        most = superio_console_save(console, bytes);
    else
        superio_rtc_save(rtc, bytes);
    add_bytes(bytes, most);
}

/* Loads bytes as a device, and replies with the status in the words of docs/SCRIPT.md. */
static void load(void) {
    static const char *const WORDS[] = {
        "ok", /* by the status. tools/generate writes those after it */
        "too short", /* 1 */
        "not a saved state", /* 2 */
        "other device", /* 3 */
        "unknown version", /* 4 */
        "wrong length", /* 5 */
        "too many bytes", /* 6 */
        "invalid armed", /* 7 */
        "invalid flags", /* 8 */
    };
    size_t count;
    const uint8_t *bytes = bytes_of(words[1], &count);
    uint32_t status = *words[0] == 's' ? superio_serial_load(port, bytes, count)
                    : *words[0] == 'l' ? superio_console_load(console, bytes, count)
                                       : superio_rtc_load(rtc, bytes, count);
    add_text(reply, status < sizeof WORDS / sizeof *WORDS ? WORDS[status] : "no status");
    if (status == SUPERIO_LOAD_UNKNOWN_VERSION && *words[0] != 'l')
        add(reply, " %02x", bytes[5]);
}

static void answer(bool is_taken) { add_text(reply, is_taken ? "ok" : "trigger"); }

/* Each name has two letters, which are compared faster than by `strcmp`. */
#define IS(name) (words[0][0] == (name)[0] && words[0][1] == (name)[1] && words[0][2] == '\0')

static void make_call(void) {
    if (IS("sr")) serial_read();
    else if (IS("sw")) serial_write();
    else if (IS("sq")) serial_enqueue();
    else if (IS("si")) answer(request(superio_serial_character_timeout(port)));
    else if (IS("sp")) answer(ask(superio_serial_interrupts_due(port)) == 0);
    else if (IS("ss")) restore(*port);
    else if (IS("sx")) serial_struct();
    else if (IS("sl") && words[2]) serial_state();
    else if (IS("sl") || IS("ll") || (IS("cl") && !words[2])) load();
    else if (IS("sb") || IS("lb") || IS("cb")) save();
    else if (IS("sc")) add_number(superio_serial_fifo_capacity(port));
    else if (IS("sh")) add_number(superio_serial_interrupt_line(port));
    else if (IS("sf")) add(reply, "%02x", superio_serial_is_coherent(port));
    else if (IS("cr")) clock_read();
    else if (IS("cw")) clock_write();
    else if (IS("cl") || IS("cs")) clock_state();
    else if (IS("cd") && superio_rtc_alarm_due(rtc, number(1)) == SUPERIO_RTC_NEVER) add(reply, "never");
    else if (IS("cd")) add(reply, "%08" PRIx64, superio_rtc_alarm_due(rtc, number(1)));
    else if (IS("ch")) add(reply, "%02x", superio_rtc_interrupt_line(rtc));
    else if (IS("ln")) superio_console_new(console, words[1] != NULL), add_text(reply, "ok");
    else if (IS("lr")) console_read();
    else if (IS("lw")) finish(superio_console_write(console, (uint8_t)number(1), (uint8_t)number(2)));
    else if (IS("la")) console_wants();
    else if (IS("lq")) console_receive();
    else if (IS("lo")) console_output();
    else if (IS("lc")) superio_console_consume(console, (size_t)number(1)), add_text(reply, "ok");
    else if (IS("li")) add(reply, "%02x %" PRIx64, superio_console_is_full(console), superio_console_dropped(console));
    else if (IS("lt")) finish(superio_console_turn(console));
    else if (IS("lf")) finish(superio_console_refuse(console));
    else if (IS("lz")) finish(superio_console_reset(console));
    else if (IS("ls")) superio_console_suspend(console), add_text(reply, "ok");
    else if (IS("lp")) finish(superio_console_set_polled(console, number(1) != 0));
    else if (IS("lx")) console_struct();
    else if (IS("kr")) add_number(superio_i8042_read((uint8_t)number(1)));
    else if (IS("kw")) answer(!superio_i8042_write((uint8_t)number(1), (uint8_t)number(2)).resets || trigger());
}

/* Takes the words of a line's text, of which the last tell how the objects behave, and makes its call. */
static void follow(char *text) {
    int count = 0;
    memset(words, 0, sizeof words);
    while (*text && count < MOST_WORDS) {
        words[count++] = text;
        while (*text && *text != ' ')
            text++;
        if (*text)
            *text++ = '\0';
    }
    reply[0] = events[0] = behaviour[0] = '\0';
    trigger_calls = 0;
    for (; count > 1 && strlen(words[count - 1]) == 1 && strpbrk(words[count - 1], "12nifu"); words[--count] = NULL)
        strcat(behaviour, words[count - 1]);
    if (count > 0)
        make_call();
}

/* All bytes of the input are taken one by one: for what the C library has for text, an emulator takes twice as long. */
static bool is_equals(const char *text) { return text[0] == ' ' && text[1] == '=' && text[2] == ' '; }

/* Reads a line that fits, without its end. Returns whether there is one. */
static bool read_line(char *line, size_t size) {
    int byte = getc_unlocked(stdin);
    if (byte == EOF)
        return false;
    for (; byte != '\n' && byte != EOF && --size > 0; byte = getc_unlocked(stdin))
        *line++ = (char)byte;
    *line = '\0';
    return true;
}

int main(void) {
    static char line[4 * PAGE], text[4 * PAGE];
    unsigned long same = 0, different = 0;
    if (!SUPERIO_ABI_MATCHES() || superio_abi() != SUPERIO_ABI)
        return 2;
    make_memory();
    port = (superio_serial *)beside_guard(PORT_PAGE, sizeof *port);
    rtc = (superio_rtc *)beside_guard(CLOCK_PAGE, sizeof *rtc);
    console = (superio_console *)beside_guard(CONSOLE_PAGE, sizeof *console);
    *port = superio_serial_new();
    *rtc = superio_rtc_new();
    superio_console_new(console, false);
    while (read_line(line, sizeof line)) {
        size_t count = 0;
        for (; line[count] && !is_equals(line + count); count++)
            text[count] = line[count];
        if (!line[count])
            continue;
        text[count] = '\0';
        line_number++;
        /* Any bytes are a device, so the one that is called can be moved as bytes. */
        if (*text == 's')
            port = (superio_serial *)memmove(beside_guard(PORT_PAGE, sizeof *port), port, sizeof *port);
        if (*text == 'c')
            rtc = (superio_rtc *)memmove(beside_guard(CLOCK_PAGE, sizeof *rtc), rtc, sizeof *rtc);
        if (*text == 'l')
            console = (superio_console *)memmove(beside_guard(CONSOLE_PAGE, sizeof *console), console, sizeof *console);
        follow(text);
        strcat(reply, events);
        if (strcmp(reply, line + count + 3) == 0)
            same++;
        else if (different++ < 10)
            printf("recorded: %s\ngot:      %s\n", line, reply);
    }
    printf("%lu calls did the same, %lu did not\n", same, different);
    return different != 0 || same == 0;
}
