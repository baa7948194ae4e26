/* SPDX-License-Identifier: Apache-2.0 OR BSD-3-Clause */
/* A host for the monitor of examples/kvm in place of KVM: the guest, the user, the interrupt line and the time are a
 * script on standard input, whose lines scripts.txt explains. The linker gives some calls of the monitor to this file,
 * by its option --wrap. Standard error gets each line, and behind it what is seen.
 *
 * When the event loop has nothing left to do, the next line follows. If that is an exit of the guest, what the vCPU's
 * thread does is called from here: it serves the exit, and comes back by its next KVM_RUN, or ends. Every other KVM_RUN
 * and wait of the event loop fails, as it may at any time, but not the one after a timer, so that this has one turn. A
 * call for an interrupt, a timer or a turn, or that tells the other thread something, has to have the lock, and one
 * that may wait must not have it. A line that is `early` follows while the loop still works, at a moment at which it
 * has let go of the lock. */
#include "monitor.h"

#include <fcntl.h>
#include <poll.h>
#include <setjmp.h>
#include <signal.h>
#include <sys/eventfd.h>
#include <sys/mman.h>
#include <termios.h>

enum { MOST = 1 << 18, DATA = 4096, CLOCKS = CLOCK_BOOTTIME + 1, FUNCTIONS = 256, CPU = 0x5A5A5A5A };
#define SECOND 1000000000ll
#define SEE(...) dprintf(STDERR_FILENO, __VA_ARGS__)

static const struct termios BEFORE = {.c_iflag = ICRNL, .c_oflag = OPOST, .c_lflag = ICANON | ECHO | ISIG};
static FILE *script;
static char line[MOST];
static int keys;               /* where the user types */
static int parts;              /* of the machine: a file of a line for each, with which test_images.py compares */
static struct kvm_run *exits;  /* of the vCPU */
static unsigned runs;          /* for this exit */
static jmp_buf end_of_exit;
static int interrupt;          /* where it is asked for */
static int eventfds;           /* so many were made */
static long takes = 1 << 30;   /* requests of it */
static bool has_room;          /* the terminal, as the monitor knows it */
static long error;             /* of the next write to it */
static long input_error;       /* of the next read */
static bool hangs;             /* the reader of the terminal takes nothing */
static long hangs_until;       /* the monitor has waited so long for it at its end, or 0 if it never takes any */
static bool is_told = true;    /* a guest that waits for room, since some was made */
static int timer;              /* of CLOCK_BOOTTIME */
static int64_t due;            /* in nanoseconds, or 0 */
static int made, closed;       /* machines, and what they have of KVM: two parts each */
static bool is_mapped;         /* what the vCPU shows of its exits */
static int alarms;             /* since the last line */
static uint64_t lost;          /* bytes of output, beside those that the console has dropped */
static long early;             /* the next line follows when the loop has let go of the lock so often, or 0 */
static int64_t now[CLOCKS] = {
    [CLOCK_REALTIME] = 1700000000 * SECOND, [CLOCK_MONOTONIC] = 777 * SECOND, [CLOCK_BOOTTIME] = 5000 * SECOND};

/* The registers of the system after a reset, and those with which the guest begins. */
static const struct kvm_sregs system_before = {.cs = {.base = 0xFFFF0000, .selector = 0xF000}, .cr0 = 0x60000010};
static struct kvm_sregs system_after;

int __real_poll(struct pollfd *files, nfds_t count, int timeout);
int __real_eventfd(unsigned value, int flags);
int __real_eventfd_write(int fd, eventfd_t value);
ssize_t __real_read(int fd, void *bytes, size_t count);
size_t __real_serial_receive(const uint8_t *bytes, size_t count);
size_t __real_serial_output(uint8_t *bytes, size_t count);
void __real_serial_consume(size_t count);
uint64_t __real_serial_dropped(void);
superio_console_wanted __real_serial_turn(void);
ssize_t __real_write(int fd, const void *bytes, size_t count);
int __real_close(int fd);
int __real_munmap(void *start, size_t size);
int __real_pthread_mutex_unlock(pthread_mutex_t *mutex);

static void fail(const char *what) {
    SEE("  %s\n", what);
    _exit(3);
}

static void check_lock(const char *call, bool is_held) {
    bool is_free = pthread_mutex_trylock(&lock) == 0;
    if (is_free == is_held) {
        SEE("  %s, %s\n", call + strlen("__wrap_"), is_held ? "a call without the lock" : "a wait with the lock");
        _exit(3);
    }
    if (is_free)
        __real_pthread_mutex_unlock(&lock);
}
#define need_lock(is_held) check_lock(__func__, is_held)

/* Whether a call is to fail, which the environment names. */
static bool fails(const char *call) {
    const char *name = getenv("FAILS");
    return name && strcmp(name, call) == 0;
}

/* Takes the place of standard input. */
__attribute__((constructor)) static void begin(void) {
    int both[2];
    parts = must(creat("machine", 0644), "machine");
    script = fdopen(dup(STDIN_FILENO), "r");
    must(pipe(both), "the user");
    dup2(both[0], STDIN_FILENO);
    keys = both[1];
    madvise(memory, MEMORY_SIZE, MADV_HUGEPAGE); /* the sanitizer reads all of it when the monitor exits */
}

/* The first is for the interrupt, and the second for the event loop. A write to either has the lock. */
int __wrap_eventfd(unsigned value, int flags) {
    if (!(flags & EFD_NONBLOCK))
        fail("an eventfd whose write may block");
    errno = EMFILE;
    return eventfds++ == 1 && fails("loop") ? -1 : __real_eventfd(value, flags);
}

int __wrap_eventfd_write(int fd, eventfd_t value) {
    bool is_taken = takes > 0;
    need_lock(true);
    if (fd != interrupt)
        return __real_eventfd_write(fd, value);
    SEE(is_taken ? "  interrupt" : "  refused");
    takes -= is_taken;
    return is_taken && value == 1 ? 0 : -1;
}

int __wrap_clock_gettime(clockid_t clock, struct timespec *time) {
    *time = (struct timespec){.tv_sec = now[clock] / SECOND, .tv_nsec = now[clock] % SECOND};
    return 0;
}

int __wrap_timerfd_create(int clock, int flags) {
    if (!(flags & TFD_NONBLOCK) || clock != CLOCK_BOOTTIME)
        fail("a timer whose read may block, or of another clock");
    errno = EMFILE;
    return timer = fails("alarm") ? -1 : __real_eventfd(0, flags);
}

int __wrap_timerfd_settime(int fd, int flags, const struct itimerspec *new, struct itimerspec *old) {
    need_lock(true);
    due = new->it_value.tv_sec * SECOND + new->it_value.tv_nsec;
    return fd != timer || !(flags & TFD_TIMER_ABSTIME) || old ? -1 : 0;
}

/* Lets the timer go off if its time has come. */
static bool goes_off(void) {
    if (due == 0 || due > now[CLOCK_BOOTTIME])
        return false;
    due = 0;
    SEE("  timer");
    if (++alarms > 9)
        fail("an alarm that goes off again and again");
    return __real_eventfd_write(timer, 1) == 0;
}

/* A guest waits until its output has room. The event loop, which would make some, runs only between the lines. So this
 * takes a byte in its place, unless the terminal takes none. Every other wait ends early, as it may at any time. */
int __wrap_pthread_cond_clockwait(pthread_cond_t *condition, pthread_mutex_t *mutex, clockid_t clock,
                                  const struct timespec *end) {
    static bool is_early;
    int64_t left = end->tv_sec * SECOND + end->tv_nsec - now[clock];
    need_lock(true);
    if (!condition || mutex != &lock || clock != CLOCK_MONOTONIC)
        fail("a wait for something else");
    SEE("  holds %lld", (long long)(left / 1000000));
    is_early = !is_early && !hangs;
    if (!is_early && !hangs)
        __real_serial_consume(1);
    return hangs ? ETIMEDOUT : 0;
}

int __wrap_pthread_cond_signal(pthread_cond_t *condition) {
    need_lock(true);
    is_told = condition != NULL;
    return 0;
}

/* Each call of the port has to have the lock, and a guest that waits for room has to be told of some. */
size_t __wrap_serial_receive(const uint8_t *bytes, size_t count) {
    need_lock(true);
    return __real_serial_receive(bytes, count);
}

size_t __wrap_serial_output(uint8_t *bytes, size_t count) {
    need_lock(true);
    return __real_serial_output(bytes, count);
}

void __wrap_serial_consume(size_t count) {
    need_lock(true);
    is_told = false;
    __real_serial_consume(count);
}

uint64_t __wrap_serial_dropped(void) {
    need_lock(true);
    return lost + __real_serial_dropped();
}

superio_console_wanted __wrap_serial_turn(void) {
    need_lock(true);
    return __real_serial_turn();
}

int __wrap_tcgetattr(int fd, struct termios *settings) {
    if (fd != STDIN_FILENO)
        fail("settings of another terminal");
    errno = ENOTTY;
    if (fails("terminal"))
        return -1;
    *settings = BEFORE;
    return 0;
}

/* Settings that come later wait for the reader of the output, who may take nothing, or lose what was typed. */
int __wrap_tcsetattr(int fd, int when, const struct termios *settings) {
    bool is_restored = memcmp(settings, &BEFORE, sizeof BEFORE) == 0;
    if (fd != STDIN_FILENO || when != TCSANOW)
        fail("settings of another terminal, or not at once");
    SEE(is_restored ? "  restored" : settings->c_lflag == 0 ? "  raw" : "  neither");
    return 0;
}

ssize_t __wrap_write(int fd, const void *bytes, size_t count) {
    need_lock(false);
    if (fd != STDOUT_FILENO || count != 1 || !has_room)
        fail("a write that may block");
    has_room = false;
    errno = (int)error;
    if (error == 0)
        SEE("  sends %02x", *(const uint8_t *)bytes);
    error = 0;
    return errno == 0 ? 1 : -1;
}

ssize_t __wrap_read(int fd, void *bytes, size_t count) {
    if (fd == STDIN_FILENO)
        need_lock(false);
    if (fd != STDIN_FILENO || input_error == 0)
        return __real_read(fd, bytes, count);
    errno = (int)input_error;
    input_error = 0;
    return -1;
}

/* Has the monitor serve an exit. */
static void end_run(uint32_t reason) {
    exits->exit_reason = reason;
    runs = 0;
    if (setjmp(end_of_exit) == 0)
        machine_run(NULL);
}

/* The vCPU gives up. An error is of KVM's own reason alone: for any other the memory has something else there. */
static void give_up(const char *given) {
    unsigned long reason = 0, suberror = 0;
    sscanf(given, "%lu %lu", &reason, &suberror);
    exits->internal.suberror = (uint32_t)suberror;
    end_run((uint32_t)reason);
}

/* Reads hexadecimal digits, and returns how many bytes they are. */
static uint32_t bytes_of(const char *text, uint8_t *bytes) {
    uint32_t count = 0;
    for (; text[0] && text[1]; text += 2)
        bytes[count++] = (uint8_t)strtoul((const char[]){text[0], text[1], 0}, NULL, 16);
    return count;
}

/* An access of the guest, to a port or to memory, of an item or more. Shows what is read. */
static void serve_access(bool is_port, bool is_write) {
    uint8_t *data = is_port ? (uint8_t *)exits + DATA : exits->mmio.data;
    unsigned long long place;
    uint32_t size, items = 1;
    int end = 0;
    sscanf(line, "%*s %llx %u%n %u", &place, &size, &end, &items);
    memset(data, 0xA5, size * (is_write ? 0 : items));
    uint32_t count = is_write ? bytes_of(line + end + 1, data) : size * items;
    if (is_port) {
        exits->io.direction = is_write;
        exits->io.size = (uint8_t)size;
        exits->io.port = (uint16_t)place;
        exits->io.count = count / size;
        exits->io.data_offset = DATA;
    } else {
        exits->mmio.phys_addr = place;
        exits->mmio.len = count;
        exits->mmio.is_write = is_write;
    }
    end_run(is_port ? KVM_EXIT_IO : KVM_EXIT_MMIO);
    for (uint32_t i = 0; i < count && !is_write; i++)
        SEE(i == 0 ? "  %02x" : "%02x", data[i]);
}

/* The guest stores bytes to memory that it has. */
static void store_bytes(const char *given) {
    unsigned long long place;
    int end = 0;
    sscanf(given, "%llx %n", &place, &end);
    bytes_of(given + end, memory + place);
}

/* The next line of the script. At its end the host ends too. */
static void serve_line(void) {
    static uint8_t bytes[MOST];
    if (!fgets(line, sizeof line, script))
        _exit(0);
    line[strcspn(line, "\n")] = 0;
    SEE("\n%s", line);
    alarms = 0;
    const char *given = line + strcspn(line, " ");
    long number = strtol(given, NULL, 10);
    switch (*line) {
    case 'i': case 'o': serve_access(true, *line == 'o'); break;
    case 'l': case 's': serve_access(false, *line == 's'); break;
    case 'q': give_up(given); break;
    case 't': __real_write(keys, bytes, bytes_of(given + 1, bytes)); break;
    case 'c': close(keys); break;
    case 'k': raise((int)number); break;
    case 'a': takes = number; break;
    case 'f': error = number; break;
    case 'r': input_error = number; break;
    case 'h': hangs = true; hangs_until = number; break;
    case 'g': hangs = false; break;
    case 'm': store_bytes(given); break;
    case 'd': lost += strtoull(given, NULL, 10); break;
    case 'e': serve_line(); early = number; break;
    case 'b': now[CLOCK_REALTIME] -= number * SECOND; break;
    case 'w': now[CLOCK_MONOTONIC] += number * 1000000; /* fallthrough */
    case 'n':
        now[CLOCK_BOOTTIME] += number * 1000000;
        now[CLOCK_REALTIME] += number * 1000000;
        break;
    default: fail("no line of a script");
    }
}

/* The other thread may run as soon as one has let go of the lock. */
int __wrap_pthread_mutex_unlock(pthread_mutex_t *mutex) {
    int result = __real_pthread_mutex_unlock(mutex);
    if (early > 0 && --early == 0)
        serve_line();
    return result;
}

/* What is ready, of files of which the second is the terminal, if it is waited for. */
static int ready_of(struct pollfd *files, nfds_t count) {
    struct pollfd terminal = files[1];
    files[1].fd = -1;
    int ready = __real_poll(files, count, 0);
    files[1] = terminal;
    files[1].revents = terminal.fd == STDOUT_FILENO && !hangs ? POLLOUT : 0;
    return ready + (files[1].revents != 0);
}

int __wrap_poll(struct pollfd *files, nfds_t count, int timeout) {
    static bool is_again, is_terminal_again;
    int64_t end = now[CLOCK_MONOTONIC] + timeout * 1000000ll;
    int ready;
    need_lock(false);
    if (!is_told)
        fail("a guest is not told of room");
    errno = EINTR;
    if (files->fd == STDOUT_FILENO) {
        if (count != 1 || files->events != POLLOUT)
            fail("a wait for more than the terminal");
        is_terminal_again = !is_terminal_again;
        if (is_terminal_again)
            return -1;
        if (hangs)
            SEE("  waits %d", timeout);
        if (hangs_until > 0 && timeout > hangs_until)
            hangs = false;
        has_room = !hangs;
        return has_room;
    }
    is_again = !is_again;
    if (is_again)
        return -1;
    while ((ready = ready_of(files, count)) == 0) {
        if (timeout >= 0 && now[CLOCK_MONOTONIC] >= end) {
            SEE("  turn");
            return 0;
        }
        is_again = goes_off();
        if (early > 0)
            SEE("  late");
        early = 0;
        if (!is_again)
            serve_line();
    }
    return ready;
}

/* The guest starts. What its thread does is called when it is wanted. */
int __wrap_pthread_create(pthread_t *thread, const pthread_attr_t *attributes, void *(*work)(void *), void *argument) {
    SEE("  starts %02x", memory[0x7C00]);
    *thread = pthread_self();
    return attributes || work != machine_run || argument ? EINVAL : fails("thread") ? EAGAIN : 0;
}

/* A guest that starts again has to find the memory that it found first: what another guest left there is seen. */
static void compare_memory(void) {
    enum { PART = 1 << 20 };
    static uint8_t found[2][PART];
    static bool is_again;
    for (int part = 0; part < 2; part++) {
        const uint8_t *begin = memory + (part == 0 ? 0 : MEMORY_SIZE - PART);
        if (is_again && memcmp(found[part], begin, PART) != 0)
            SEE("  %s memory has changed", part == 0 ? "low" : "high");
        memcpy(found[part], begin, PART);
    }
    is_again = true;
}

/* Writes the guest's first state, with which test_images.py compares: the registers, and 2 MB of memory. */
static void write_state(const struct kvm_regs *registers) {
    FILE *file = fopen("state", "wb");
    must(file ? 0 : -1, "state");
    fwrite(registers, sizeof *registers, 1, file);
    fwrite(&system_after, sizeof system_after, 1, file);
    fwrite(memory, 1 << 21, 1, file);
    fclose(file);
}

/* The processor that KVM has: as many functions as can be, with the same bits in each register. */
static void get_cpuid(struct kvm_cpuid2 *cpuid) {
    if (cpuid->nent < FUNCTIONS)
        fail("too little room for the processor");
    cpuid->nent = FUNCTIONS;
    for (uint32_t i = 0; i < FUNCTIONS; i++)
        cpuid->entries[i] = (struct kvm_cpuid_entry2){.function = i, .eax = CPU, .ebx = CPU, .ecx = CPU, .edx = CPU};
}

static void note_cpuid(const struct kvm_cpuid2 *cpuid) {
    for (const struct kvm_cpuid_entry2 *it = cpuid->entries; it < cpuid->entries + cpuid->nent; it++)
        dprintf(parts, "cpuid %x: %x %x %x %x\n", it->function, it->eax, it->ebx, it->ecx, it->edx);
}

static void note_memory(const struct kvm_userspace_memory_region *it) {
    dprintf(parts, "memory %u: flags %x, %llx and %llx more, from %llx\n", it->slot, it->flags, it->guest_phys_addr,
            it->memory_size, it->userspace_addr - (uintptr_t)memory);
}

/* The monitor may not wait for the interrupt, and asks for none before the guest starts. */
static void take_interrupt(const struct kvm_irqfd *given) {
    struct pollfd file = {.fd = (int)given->fd, .events = POLLIN};
    interrupt = file.fd;
    SEE("  edges of irq %u", given->gsi);
    if (!(fcntl(interrupt, F_GETFL) & O_NONBLOCK) || __real_poll(&file, 1, 0) != 0)
        fail("an interrupt that may block, or comes at once");
}

/* KVM, whose parts are all standard input, but for the vCPU. */
int __wrap_ioctl(int fd, unsigned long request, void *argument) {
    switch (request) {
    case KVM_CREATE_VM:
        if (closed != 2 * made++ || is_mapped)
            fail("a machine beside another one");
        break;
    case KVM_SET_TSS_ADDR: dprintf(parts, "tss %lx\n", (unsigned long)argument); break;
    case KVM_CREATE_IRQCHIP: dprintf(parts, "interrupt controllers\n"); break;
    case KVM_CREATE_PIT2: dprintf(parts, "timer, flags %x\n", ((struct kvm_pit_config *)argument)->flags); break;
    case KVM_REINJECT_CONTROL:
        dprintf(parts, "late ticks %u\n", ((struct kvm_reinject_control *)argument)->pit_reinject);
        break;
    case KVM_SET_USER_MEMORY_REGION: note_memory(argument); break;
    case KVM_CREATE_VCPU:
        if (closed != 2 * (made - 1))
            fail("a vCPU without a machine");
        fd = memfd_create("exits", 0);
        must(ftruncate(fd, MOST), "exits");
        exits = mmap(NULL, MOST, PROT_READ | PROT_WRITE, MAP_SHARED, fd, 0);
        is_mapped = true;
        return fd;
    case KVM_GET_VCPU_MMAP_SIZE: return fails("mmap") ? 0 : MOST;
    case KVM_GET_SUPPORTED_CPUID: get_cpuid(argument); break;
    case KVM_SET_CPUID2: note_cpuid(argument); break;
    case KVM_GET_SREGS: *(struct kvm_sregs *)argument = system_before; break;
    case KVM_SET_SREGS: system_after = *(struct kvm_sregs *)argument; break;
    case KVM_SET_REGS:
        SEE("  at %llx", ((struct kvm_regs *)argument)->rip);
        compare_memory();
        write_state(argument);
        break;
    case KVM_IRQFD: take_interrupt(argument); break;
    case KVM_IRQ_LINE:
        SEE("  line %u %u", ((struct kvm_irq_level *)argument)->irq, ((struct kvm_irq_level *)argument)->level);
        break;
    case KVM_RUN:
        need_lock(false);
        if (runs > 0 && monitor_is_ending())
            SEE("  the guest runs on, though the monitor is to end");
        if (runs == 2)
            longjmp(end_of_exit, 1);
        errno = runs++ == 0 ? EINTR : EFAULT;
        return errno == EINTR || exits->exit_reason == 0 ? -1 : 0;
    }
    return 0;
}

int __wrap_open(const char *path, int flags) {
    errno = EACCES;
    return strcmp(path, "/dev/kvm") == 0 && flags == (O_RDWR | O_CLOEXEC) && !fails("open") ? STDIN_FILENO : -1;
}

/* KVM's parts stay open, since they are standard input. */
int __wrap_close(int fd) {
    closed += fd == STDIN_FILENO;
    return fd == STDIN_FILENO ? 0 : __real_close(fd);
}

int __wrap_munmap(void *start, size_t size) {
    is_mapped = false;
    return size == MOST ? __real_munmap(start, size) : -1;
}

uint32_t __wrap_superio_abi(void) {
    return SUPERIO_ABI + fails("library");
}
