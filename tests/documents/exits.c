/* SPDX-License-Identifier: Apache-2.0 OR BSD-3-Clause */
/* The handler of KVM's exits in docs/C.md, which stands at HANDLER, with the page's lines for a serial port in memory,
 * over machine.c, which stands at MACHINE. There is
 * no KVM here: each step fills in a struct kvm_run as KVM does. The first step that goes wrong is named, and ends the
 * program with status 1. */
#define _GNU_SOURCE
#include <stdio.h>
#include <stdlib.h>

MACHINE

enum { SERIAL = 0x9000000, STRIDE = 4 };

HANDLER

enum { DATA = 4096, SIZE = 2 * DATA, UNTOUCHED = 0xEE };

static struct machine machine;
static union {
    struct kvm_run run;
    uint8_t bytes[SIZE];
} shared;
static uint8_t *const data = shared.bytes + DATA;

static void expect(bool holds, const char *step) {
    if (!holds) {
        puts(step);
        exit(1);
    }
}

/* An access of ports, `times` times. Its bytes are in `data`. */
static void access_ports(uint8_t direction, uint16_t port, uint8_t width, uint32_t times) {
    shared.run.exit_reason = KVM_EXIT_IO;
    shared.run.io.direction = direction;
    shared.run.io.port = port;
    shared.run.io.size = width;
    shared.run.io.count = times;
    shared.run.io.data_offset = DATA;
    expect(serve_exit(&machine, &shared.run), "an access of ports is served");
}

static void access_memory(bool is_write, uint64_t address, uint32_t count) {
    shared.run.exit_reason = KVM_EXIT_MMIO;
    shared.run.mmio.is_write = is_write;
    shared.run.mmio.phys_addr = address;
    shared.run.mmio.len = count;
    expect(serve_exit(&machine, &shared.run), "an access of memory is served");
}

static void check_ports(void) {
    memcpy(data, (uint8_t[]){0x1B, 0x03}, 2);
    access_ports(KVM_EXIT_IO_OUT, COM1 + 3, 2, 1);
    expect(machine.console.port.line_control == 0x1B && machine.console.port.modem_control == 0x03,
           "two bytes are written");
    memset(data, 0, 2);
    access_ports(KVM_EXIT_IO_IN, COM1 + 3, 2, 1);
    expect(data[0] == 0x1B && data[1] == 0x03, "two bytes are read");
    memcpy(data, (uint8_t[]){0x1A, 0x00, 0x03, 0x08}, 4);
    access_ports(KVM_EXIT_IO_OUT, COM1 + 3, 2, 2);
    expect(machine.console.port.line_control == 0x03 && machine.console.port.modem_control == 0x08,
           "two bytes are written twice");
}

static void check_strings(void) {
    uint8_t output[8];
    memcpy(data, "abc", 3);
    access_ports(KVM_EXIT_IO_OUT, COM1, 1, 3);
    expect(superio_console_output(&machine.console, output, sizeof output) == 3 && memcmp(output, "abc", 3) == 0,
           "a string is written");
    data[0] = 0x01;
    access_ports(KVM_EXIT_IO_OUT, COM1 + 1, 1, 1);
    interrupt(&machine, superio_console_receive(&machine.console, (const uint8_t *)"hi", 2).work);
    access_ports(KVM_EXIT_IO_IN, COM1, 1, 2);
    expect(memcmp(data, "hi", 2) == 0, "a string is read");
}

static void check_memory(void) {
    memcpy(shared.run.mmio.data, (uint8_t[]){0x01, 0x02, 0x03, 0x04}, 4);
    access_memory(true, CLOCK + RTCMR, 4);
    expect(machine.clock.mr == 0x04030201, "a word is written");
    memset(shared.run.mmio.data, UNTOUCHED, sizeof shared.run.mmio.data);
    access_memory(false, CLOCK + RTCMR + 1, 1);
    expect(shared.run.mmio.data[0] == 0x02 && shared.run.mmio.data[1] == UNTOUCHED, "a byte is read");
    access_memory(true, CLOCK + RTCMR, 2);
    expect(machine.clock.mr == 0x04030201, "half a word is not written");
}

/* Each register is four bytes after the one before. An access of any width means one register. */
static void check_port_in_memory(void) {
    memcpy(shared.run.mmio.data, (uint8_t[]){0x1B, 0xFF, 0xFF, 0xFF}, 4);
    access_memory(true, SERIAL + 3 * STRIDE, 4);
    expect(machine.console.port.line_control == 0x1B && machine.console.port.modem_control == 0x08,
           "a register is written");
    memset(shared.run.mmio.data, UNTOUCHED, sizeof shared.run.mmio.data);
    access_memory(false, SERIAL + 3 * STRIDE, 4);
    expect(memcmp(shared.run.mmio.data, (uint8_t[]){0x1B, 0, 0, 0}, 4) == 0, "a register is read");
    access_memory(false, SERIAL, 1);
    expect(shared.run.mmio.data[0] == 0, "the first register is read");
    for (int i = 0; i < 2; i++) {
        access_memory(false, i == 0 ? SERIAL - 1 : SERIAL + 8 * STRIDE, 1);
        expect(shared.run.mmio.data[0] == 0xFF, "no register is read");
    }
}

int main(void) {
    open_machine(&machine, STDIN_FILENO, STDOUT_FILENO);
    check_ports();
    check_strings();
    check_memory();
    check_port_in_memory();
    data[0] = 0xFE;
    access_ports(KVM_EXIT_IO_OUT, SUPERIO_I8042_COMMAND_PORT, 1, 1);
    expect(machine.is_reset && machine.console.port.interrupt_enable == 0x01, "a reset is left to the caller");
    shared.run.exit_reason = KVM_EXIT_HLT;
    expect(!serve_exit(&machine, &shared.run), "another exit is left to the caller");
    puts("each step is right");
}
