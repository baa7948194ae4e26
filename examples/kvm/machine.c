/* SPDX-License-Identifier: Apache-2.0 OR BSD-3-Clause */
/* The virtual machine: its memory, its vCPU, and the thread that runs it. */
#include "monitor.h"

#include <fcntl.h>
#include <sys/mman.h>

enum { CPUID_ENTRIES = 256, TSS_ADDRESS = 0xFFFBD000, PAGE = 4096 };

int vm, vcpu;
_Alignas(PAGE) uint8_t memory[MEMORY_SIZE];
static struct kvm_run *run;
static size_t run_size;
static bool is_reset; /* whether the guest resets the machine in this access */
static int line; /* the serial port's interrupt. KVM makes one edge of each write to this eventfd */

static void add_memory(uint32_t slot, uint64_t start, uint64_t end) {
    struct kvm_userspace_memory_region region = {slot, 0, start, end - start, (uintptr_t)memory + start};
    KVM(vm, KVM_SET_USER_MEMORY_REGION, &region);
}

/* The processor is the host's, as far as KVM has it, with the number 0. A bit says that this is a virtual machine:
 * without it Linux does not ask for KVM's clock, and has to measure the processor's clock by a timer of late ticks. */
static void set_cpuid(int kvm) {
    static struct {
        struct kvm_cpuid2 head;
        struct kvm_cpuid_entry2 entries[CPUID_ENTRIES];
    } cpuid = {.head.nent = CPUID_ENTRIES};
    KVM(kvm, KVM_GET_SUPPORTED_CPUID, &cpuid);
    for (struct kvm_cpuid_entry2 *entry = cpuid.entries; entry < cpuid.entries + cpuid.head.nent; entry++) {
        if (entry->function == 0x01) {
            entry->ebx &= 0x00FFFFFF;
            entry->ecx |= 1u << 31;
        }
        if (entry->function == 0x0B || entry->function == 0x1F)
            entry->edx = 0;
    }
    KVM(vcpu, KVM_SET_CPUID2, &cpuid);
}

void machine_create(void) {
    int kvm = must(open("/dev/kvm", O_RDWR | O_CLOEXEC), "/dev/kvm");
    vm = KVM(kvm, KVM_CREATE_VM, NULL);
    KVM(vm, KVM_SET_TSS_ADDR, TSS_ADDRESS);
    KVM(vm, KVM_CREATE_IRQCHIP, NULL);
    /* The timer also serves port 0x61. If the guest is slow, late ticks are lost, so that they do not pile up. */
    KVM(vm, KVM_CREATE_PIT2, &(struct kvm_pit_config){.flags = KVM_PIT_SPEAKER_DUMMY});
    KVM(vm, KVM_REINJECT_CONTROL, &(struct kvm_reinject_control){.pit_reinject = 0});
    add_memory(0, 0, CLOCK_BASE);
    add_memory(1, CLOCK_BASE + SUPERIO_RTC_WINDOW, MEMORY_SIZE);
    line = must(eventfd(0, EFD_NONBLOCK | EFD_CLOEXEC), "the interrupt");
    KVM(vm, KVM_IRQFD, &((struct kvm_irqfd){.fd = (uint32_t)line, .gsi = SERIAL_IRQ}));
    vcpu = KVM(vm, KVM_CREATE_VCPU, NULL);
    set_cpuid(kvm);
    run_size = (size_t)KVM(kvm, KVM_GET_VCPU_MMAP_SIZE, NULL);
    run = mmap(NULL, run_size, PROT_READ | PROT_WRITE, MAP_SHARED, vcpu, 0);
    if (run == MAP_FAILED)
        err(1, "the vCPU's exits");
    close(kvm);
}

/* Leaves nothing of the machine, and its memory full of zeros. */
void machine_discard(void) {
    munmap(run, run_size);
    close(vcpu);
    close(line);
    close(vm);
    must(madvise(memory, sizeof memory, MADV_DONTNEED), "the guest's memory");
}

/* Interrupts the guest for the serial port, by an edge. Returns false if that is refused. */
bool machine_interrupt(void) {
    return eventfd_write(line, 1) == 0;
}

/* Serves the access of a byte at a port. The reset controller has the ports 0x60 and 0x64, and none between them. At a
 * port without a device, a read gives ones, and a write has no effect. */
static void serve_port(uint16_t port, bool is_write, uint8_t *byte) {
    bool is_serial = port >= COM1 && port < COM1 + SUPERIO_SERIAL_PORTS;
    bool is_controller = port == SUPERIO_I8042_DATA_PORT || port == SUPERIO_I8042_COMMAND_PORT;
    uint8_t offset = (uint8_t)(port - (is_serial ? COM1 : SUPERIO_I8042_DATA_PORT));
    if (is_serial && is_write)
        serial_write(offset, *byte);
    else if (is_controller && is_write && superio_i8042_write(offset, *byte).resets)
        is_reset = true;
    else if (!is_write)
        *byte = is_serial ? serial_read(offset) : is_controller ? superio_i8042_read(offset) : 0xFF;
}

/* Serves an access of the guest, however many bytes it has, or ends a machine that cannot go on. */
static void serve(void) {
    switch (run->exit_reason) {
    case KVM_EXIT_IO:
        for (uint32_t i = 0; i < run->io.count * run->io.size; i++)
            serve_port((uint16_t)(run->io.port + i % run->io.size), run->io.direction == KVM_EXIT_IO_OUT,
                       (uint8_t *)run + run->io.data_offset + i);
        break;
    case KVM_EXIT_MMIO:
        clock_access(run->mmio.phys_addr, run->mmio.is_write, run->mmio.data, run->mmio.len);
        break;
    default:
        warnx("KVM gives up, for reason %u, error %u", run->exit_reason,
              run->exit_reason == KVM_EXIT_INTERNAL_ERROR ? run->internal.suberror : 0);
        monitor_end(1, run->exit_reason == KVM_EXIT_SHUTDOWN ? "a triple fault" : "the guest cannot go on");
        break;
    }
}

/* What the vCPU's thread does. */
void *machine_run(void *nothing) {
    for (bool goes_on = true; goes_on;) {
        int result = ioctl(vcpu, KVM_RUN, NULL), error = errno;
        pthread_mutex_lock(&lock);
        if (result == 0)
            serve();
        else if (error != EINTR)
            errx(1, "KVM_RUN: %s", strerror(error));
        if (is_reset)
            monitor_reset();
        is_reset = false;
        goes_on = !monitor_is_ending();
        pthread_mutex_unlock(&lock);
    }
    return nothing;
}
