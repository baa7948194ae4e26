/* SPDX-License-Identifier: Apache-2.0 OR BSD-3-Clause */
/* A guest's first state: a flat image in real mode, or Linux by its 64-bit boot protocol. */
#include "monitor.h"

#include <asm/bootparam.h>

/* Where a PC loads a boot sector, conventional memory ends, and memory goes on, and where Linux finds what it needs. */
enum { FLAT_START = 0x7C00, LOW_END = 0x9FC00, HIGH_START = 0x100000 };
enum { DESCRIPTORS = 0x500, TABLES = 0x9000, PARAMETERS = 0x10000, WORDS = 0x20000, WORDS_SIZE = 2048 };
enum { INITRAMFS = MEMORY_SIZE / 2, BZIMAGE = 0x53726448, ENTRY = 0x200 };

static FILE *open_file(const char *path) {
    FILE *file = fopen(path, "rb");
    if (!file)
        err(1, "%s", path);
    return file;
}

/* Copies a file, from an offset on, to where it belongs, up to an end at most. Returns how many bytes there were. */
static uint32_t place(const char *path, long offset, uint64_t to, uint64_t end) {
    FILE *file = open_file(path);
    must(fseek(file, offset, SEEK_SET), path);
    size_t count = to < end && end <= MEMORY_SIZE ? fread(memory + to, 1, end - to, file) : 0;
    if (count == 0 || fgetc(file) != EOF)
        errx(1, "%s is empty, or does not fit into the guest's memory", path);
    fclose(file);
    return (uint32_t)count;
}

static void boot_flat(const char *image) {
    struct kvm_sregs system;
    place(image, 0, FLAT_START, LOW_END);
    KVM(vcpu, KVM_GET_SREGS, &system);
    system.cs.base = system.cs.selector = 0;
    KVM(vcpu, KVM_SET_SREGS, &system);
    KVM(vcpu, KVM_SET_REGS, &((struct kvm_regs){.rip = FLAT_START, .rsp = FLAT_START, .rflags = 2}));
}

/* Flat segments. The first gigabyte is mapped to itself, in pages of 2 MB. */
static void start_long_mode(uint64_t entry) {
    const uint64_t descriptors[4] = {0, 0, 0x00AF9B000000FFFF, 0x00CF93000000FFFF};
    memcpy(memory + DESCRIPTORS, descriptors, sizeof descriptors);
    uint64_t *tables = (uint64_t *)(memory + TABLES);
    tables[0] = TABLES + 0x1003; /* present, writable */
    tables[512] = TABLES + 0x2003;
    for (uint64_t i = 0; i < 512; i++)
        tables[1024 + i] = i << 21 | 0x83;

    struct kvm_sregs system;
    KVM(vcpu, KVM_GET_SREGS, &system);
    struct kvm_segment data = {.limit = ~0u, .selector = 0x18, .type = 3, .present = 1, .s = 1, .db = 1, .g = 1};
    system.ds = system.es = system.fs = system.gs = system.ss = data;
    system.cs = (struct kvm_segment){.limit = ~0u, .selector = 0x10, .type = 11, .present = 1, .s = 1, .l = 1, .g = 1};
    system.gdt = (struct kvm_dtable){.base = DESCRIPTORS, .limit = sizeof descriptors - 1};
    system.cr3 = TABLES;
    system.cr4 |= 0x20;       /* PAE */
    system.cr0 |= 0x80000001; /* PG, PE */
    system.efer |= 0x500;     /* LMA, LME */
    KVM(vcpu, KVM_SET_SREGS, &system);
    KVM(vcpu, KVM_SET_REGS, &((struct kvm_regs){.rip = entry, .rsi = PARAMETERS, .rflags = 2}));
}

static void boot_linux(const char *kernel, struct setup_header head, const char *initramfs, const char *words) {
    if (head.version < 0x20C || !(head.xloadflags & XLF_KERNEL_64))
        errx(1, "%s has no 64-bit entry", kernel);
    long sectors = head.setup_sects ? head.setup_sects : 4; /* of set-up code: the protocol has 0 for 4 */
    uint64_t end = head.pref_address + head.init_size;
    place(kernel, (sectors + 1) * 512, head.pref_address, end);
    if (initramfs) {
        if (end > INITRAMFS)
            errx(1, "%s leaves no room for %s", kernel, initramfs);
        head.ramdisk_image = INITRAMFS;
        head.ramdisk_size = place(initramfs, 0, INITRAMFS, MEMORY_SIZE);
    }
    head.type_of_loader = 0xFF; /* a loader without a number */
    head.cmd_line_ptr = WORDS;
    snprintf((char *)memory + WORDS, WORDS_SIZE, "%s", words);
    struct boot_params *parameters = (struct boot_params *)(memory + PARAMETERS);
    parameters->hdr = head;
    parameters->e820_entries = 2;
    parameters->e820_table[0] = (struct boot_e820_entry){0, LOW_END, 1};
    parameters->e820_table[1] = (struct boot_e820_entry){HIGH_START, MEMORY_SIZE - HIGH_START, 1};
    start_long_mode(head.pref_address + ENTRY);
}

/* An image that begins as a bzImage does is Linux. */
void boot(const char *image, const char *initramfs, const char *words) {
    struct boot_params start = {0};
    FILE *file = open_file(image);
    must((int)fread(&start, 1, sizeof start, file), image);
    fclose(file);
    if (start.hdr.header == BZIMAGE)
        boot_linux(image, start.hdr, initramfs, words);
    else
        boot_flat(image);
}
