/* SPDX-License-Identifier: Apache-2.0 OR BSD-3-Clause */
/* Two threads, each with devices of its own, make random calls: first one after the other, and then at once. Whatever
 * the calls return has to be the same both times. */
#include <pthread.h>
#include <stdio.h>
#include <superio.h>

enum { ROUNDS = 200000 };

struct player {
    uint64_t seed, digest;
};

/* A linear congruential generator, whose high bits are good. */
static uint32_t drawn(uint64_t *seed) {
    *seed = *seed * 6364136223846793005u + 1442695040888963407u;
    return (uint32_t)(*seed >> 32);
}

static uint64_t mixed(uint64_t digest, uint64_t value) {
    return (digest ^ value) * 1099511628211u;
}

static uint64_t mixed_bytes(uint64_t digest, const uint8_t *bytes, size_t count) {
    for (size_t i = 0; i < count; i++)
        digest = mixed(digest, bytes[i]);
    return mixed(digest, count);
}

static uint64_t call_port(superio_serial *port, uint32_t number, uint64_t digest) {
    uint8_t saved[SUPERIO_SERIAL_SAVED_MAX] = {0}, offset = number >> 8 & 7, value = (uint8_t)(number >> 16);
    superio_serial_write_effects written = superio_serial_write(port, offset, value);
    superio_serial_enqueue_effects enqueued = superio_serial_enqueue(port, &value, number & 1);
    superio_serial_read_effects read = superio_serial_read(port, number >> 24 & 7);
    size_t count = superio_serial_save(port, saved);
    digest = mixed_bytes(mixed(digest, written.sends + 2u * written.interrupts), saved, count);
    digest = mixed(digest, superio_serial_load(port, saved, count) + 8 * enqueued.accepted + 16u * enqueued.interrupts);
    digest = mixed(digest, read.byte + 256u * read.buffer_read + 512u * read.in_buffer_empty);
    digest = mixed(digest, superio_serial_fifo_capacity(port) + 128u * superio_serial_interrupts_due(port));
    return mixed(digest, superio_serial_character_timeout(port) + 2u * superio_serial_interrupt_line(port));
}

static uint64_t call_console(superio_console *console, uint32_t number, uint64_t digest) {
    static const uint8_t VALUES[] = {0, 1, 3, 'a'};
    uint8_t saved[SUPERIO_CONSOLE_SAVED_MAX] = {0}, offset = number & 3, value = VALUES[number >> 8 & 3];
    superio_console_work written = superio_console_write(console, offset, value);
    superio_console_receive_effects received = superio_console_receive(console, &value, 1);
    superio_console_read_effects read = superio_console_read(console, number >> 16 & 7);
    superio_console_work turned = number >> 24 & 1 ? superio_console_turn(console) : superio_console_refuse(console);
    superio_console_wanted wanted = superio_console_wants(console);
    if (number >> 25 < 2)
        superio_console_suspend(console);
    else if (number >> 25 < 4)
        digest = mixed(digest, superio_console_reset(console).wakes + superio_console_set_polled(console, true).wakes);
    size_t count = superio_console_output(console, saved, number >> 28);
    superio_console_consume(console, count);
    digest = mixed_bytes(digest, saved, count);
    count = superio_console_save(console, saved);
    digest = mixed(mixed_bytes(digest, saved, count), superio_console_load(console, saved, count));
    digest = mixed(digest, written.interrupts + 4u * received.work.interrupts + 16u * turned.interrupts);
    digest = mixed(digest, read.byte + 256u * written.is_up + 512u * read.work.wakes + 1024u * wanted.input);
    return mixed(digest, superio_console_is_full(console) + superio_console_dropped(console));
}

static uint64_t call_clock(superio_rtc *clock, uint32_t number, uint64_t digest) {
    uint8_t saved[SUPERIO_RTC_SAVED_SIZE] = {0};
    uint64_t now = number & 0xFFFF;
    superio_rtc_write(clock, (uint16_t)(4 * (number >> 16 & 7)), number >> 20, now);
    superio_rtc_read_effects read = superio_rtc_read(clock, (uint16_t)(4 * (number >> 28 & 7)), now);
    superio_rtc_save(clock, saved);
    digest = mixed(mixed_bytes(digest, saved, sizeof saved), superio_rtc_load(clock, saved, sizeof saved));
    digest = mixed(digest, read.value + read.invalid_read);
    return mixed(digest, superio_rtc_alarm_due(clock, now) + superio_rtc_interrupt_line(clock));
}

static void *play(void *argument) {
    struct player *player = argument;
    superio_serial port = superio_serial_new();
    superio_console console;
    superio_rtc clock = superio_rtc_new();
    superio_console_new(&console, false);
    for (int i = 0; i < ROUNDS; i++) {
        player->digest = call_port(&port, drawn(&player->seed), player->digest);
        player->digest = call_console(&console, drawn(&player->seed), player->digest);
        player->digest = call_clock(&clock, drawn(&player->seed), player->digest);
    }
    return NULL;
}

int main(void) {
    struct player alone[2] = {{1, 0}, {2, 0}}, both[2] = {{1, 0}, {2, 0}};
    pthread_t threads[2];
    for (int i = 0; i < 2; i++)
        play(&alone[i]);
    for (int i = 0; i < 2; i++)
        if (pthread_create(&threads[i], NULL, play, &both[i]) != 0)
            return 1;
    for (int i = 0; i < 2; i++)
        pthread_join(threads[i], NULL);
    bool is_same = alone[0].digest == both[0].digest && alone[1].digest == both[1].digest;
    bool is_other = alone[0].digest != alone[1].digest;
    puts(is_same && is_other ? "both threads did what each did alone" : "a thread did something else than alone");
    return !(is_same && is_other);
}
