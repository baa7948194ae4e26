# SPDX-License-Identifier: Apache-2.0 OR BSD-3-Clause
"""host.c refuses each call that breaks a rule: one call for each of its checks, and for each condition of a check. They
are made without a monitor, so that none depends on what a script has."""
import re
from collections import Counter

import pytest
from harness import ROOT, at_least, check, run
from monitors import HERE, WRAPPED

pytestmark = [pytest.mark.needs("cc"), pytest.mark.where("Linux on x86-64")]

HOST = (HERE / "host.c").read_text(encoding="utf-8")
WITHOUT, WITH = "a call without the lock", "a wait with the lock"
# What rows begin with: the lock is taken, or free again; the terminal has room, after a poll that ends early; a machine
# has a vCPU; the timer is made, and the lock taken; a guest starts.
LOCK, FREE = "pthread_mutex_lock(&lock); ", "pthread_mutex_unlock(&lock); "
ROOM = "poll(&out, 1, 0); poll(&out, 1, 0); "
MACHINE = "ioctl(0, KVM_CREATE_VM, NULL); ioctl(0, KVM_CREATE_VCPU, NULL); "
TIMER = f"int timer = files[3].fd = timerfd_create(CLOCK_BOOTTIME, TFD_NONBLOCK); {LOCK}"
STARTS = "ioctl(0, KVM_SET_REGS, &registers); "
# Calls that host.c refuses, and what it says then. Some only fail.
REFUSED = at_least(49, [
    *((f"{call}, {WITHOUT}", f"{call}({words});") for call, words in {
        "eventfd_write": "9, 1", "timerfd_settime": "9, TFD_TIMER_ABSTIME, &never, NULL",
        "pthread_cond_clockwait": "&room, &lock, CLOCK_MONOTONIC, &end", "pthread_cond_signal": "&room",
        "serial_receive": "byte, 0", "serial_output": "byte, 1", "serial_consume": "0", "serial_dropped": "",
        "serial_turn": ""}.items()),
    *((f"{call}, {WITH}", f"{before}{LOCK}{call}({words});") for call, before, words in [
        ("write", ROOM, "1, byte, 1"), ("read", "", "0, byte, 0"), ("poll", "", "files, 4, 0"),
        ("ioctl", MACHINE, "0, KVM_RUN, NULL")]),
    ("an eventfd whose write may block", "eventfd(0, EFD_CLOEXEC);"),
    *(("a timer whose read may block, or of another clock", f"timerfd_create({words});")
      for words in ("CLOCK_BOOTTIME, TFD_CLOEXEC", "CLOCK_REALTIME, TFD_NONBLOCK")),
    ("an alarm that goes off again and again", f"{TIMER}{FREE}for (int i = 0; i < 20; i++) {{ {LOCK}"
     f"timerfd_settime(timer, TFD_TIMER_ABSTIME, &past, NULL); {FREE}poll(files, 4, -1); read(timer, times, 8); }}"),
    *(("a wait for something else", f"{LOCK}pthread_cond_clockwait({words}, &end);") for words in (
        "NULL, &lock, CLOCK_MONOTONIC", "&room, &other, CLOCK_MONOTONIC", "&room, &lock, CLOCK_REALTIME")),
    ("settings of another terminal", "tcgetattr(1, &settings);"),
    *(("settings of another terminal, or not at once", f"tcsetattr({words}, &settings);")
      for words in ("1, TCSANOW", "0, TCSADRAIN")),
    *(("a write that may block", f"{call};") for call in (
        f"{ROOM}write(2, byte, 1)", f"{ROOM}write(1, byte, 2)", "write(1, byte, 1)")),
    ("no line of a script", "poll(files, 4, -1); poll(files, 4, -1);"),
    ("a guest is not told of room", f"{LOCK}serial_consume(0); {FREE}poll(files, 4, 0);"),
    *(("a wait for more than the terminal", f"poll({words}, 0);") for words in (
        "(struct pollfd[]){out, out}, 2", "&(struct pollfd){1, POLLIN}, 1")),
    ("too little room for the processor", "ioctl(0, KVM_GET_SUPPORTED_CPUID, &(struct kvm_cpuid2){.nent = 1});"),
    *(("an interrupt that may block, or comes at once", f"{made}; irq.fd = ends[0]; ioctl(0, KVM_IRQFD, &irq);")
      for made in ("pipe(ends)", "ends[0] = eventfd(1, EFD_NONBLOCK)")),
    *(("a machine beside another one", f"{MACHINE}{left}ioctl(0, KVM_CREATE_VM, NULL);")
      for left in ("munmap(shown, SHOWN); ", "close(0); close(0); ")),
    ("a vCPU without a machine", "ioctl(0, KVM_CREATE_VCPU, NULL);"),
    ("the guest runs on, though the monitor is to end",
     f"{MACHINE}{LOCK}monitor_end(0, NULL + 1); {FREE}ioctl(0, KVM_RUN, NULL); ioctl(0, KVM_RUN, NULL);"),
    ("low memory has changed", f"{STARTS}memory[0] = 1; {STARTS}"),
    ("high memory has changed", f"{STARTS}memory[MEMORY_SIZE - 1] = 1; {STARTS}"),
    *(("it fails", f"{before}fails({call});") for before, call in [
        (TIMER, "timerfd_settime(timer + 1, TFD_TIMER_ABSTIME, &never, NULL)"),
        (TIMER, "timerfd_settime(timer, 0, &never, NULL)"),
        (TIMER, "timerfd_settime(timer, TFD_TIMER_ABSTIME, &never, &past)"),
        (f"ioctl(0, KVM_IRQFD, &irq); {LOCK}", "eventfd_write(irq.fd, 2)"),
        ("", "pthread_create(&thread, &attributes, machine_run, NULL)"),
        ("", "pthread_create(&thread, NULL, other_work, NULL)"),
        ("", "pthread_create(&thread, NULL, machine_run, byte)"),
        ("", 'open("/dev/kvm2", O_RDWR | O_CLOEXEC)'), ("", 'open("/dev/kvm", O_RDWR)'),
        (MACHINE, "munmap(shown, SHOWN - 1)")]),
])
PROGRAM = """#undef main
#include "monitor.h"
#include <fcntl.h>
#include <poll.h>
#include <sys/mman.h>
#include <termios.h>
enum { SHOWN = 1 << 18 }; /* what a vCPU shows of its exits */
static void *other_work(void *nothing) { return nothing; }
static void fails(int result) { if (result) puts("  it fails"); }
int main(int count, char **words) {
    static pthread_cond_t room;
    static pthread_mutex_t other;
    static pthread_attr_t attributes;
    static pthread_t thread;
    static struct termios settings;
    static struct timespec end;
    static struct itimerspec never, past = {.it_value.tv_sec = 1};
    static struct kvm_regs registers;
    static uint8_t byte[2], times[8];
    static int ends[2];
    struct pollfd out = {1, POLLOUT}, files[4] = {{-1}, {-1}, {-1}, {-1, POLLIN}};
    struct kvm_irqfd irq = {.fd = eventfd(0, EFD_NONBLOCK)};
    void *shown = mmap(NULL, SHOWN, PROT_READ, MAP_PRIVATE | MAP_ANONYMOUS, -1, 0);
    switch (atoi(words[1])) {
%s    }
    fflush(stdout);
    _exit(0);
}
"""


@pytest.fixture(scope="module")
def calls(tmp_path_factory):
    """The folder of a program that makes the calls of a row."""
    folder = tmp_path_factory.mktemp("calls")
    rows = "".join(f"    case {number}: {{ {made} }} break;\n" for number, (_, made) in enumerate(REFUSED))
    (folder / "calls.c").write_text(PROGRAM % rows, encoding="ascii")
    kvm = ROOT / "examples" / "kvm"
    check(["cc", "-w", "-D_GNU_SOURCE", "-Dmain=main_of_the_monitor", "-I", kvm, "-I", ROOT / "bindings/c", "calls.c",
           *sorted(kvm.glob("*.c")), HERE / "host.c", ROOT / "prebuilt/x86_64-linux/libsuperio_c.a", "-pthread",
           *(f"-Wl,--wrap={name}" for name in WRAPPED), "-o", "calls"], "", cwd=folder)
    return folder


@pytest.mark.parametrize("number", range(len(REFUSED)), ids=lambda number: REFUSED[number][0])
def test_refused(number, calls):
    ran = run([calls / "calls", str(number)], cwd=calls, input="!\n")
    assert REFUSED[number][0] in re.split(r"  +|\n", ran.stdout), f"{ran.returncode}: {ran.stdout}"


def test_each_check_has_a_call():
    """And each condition of a check."""
    wanted = Counter(f"{name}, {WITHOUT if is_held == 'true' else WITH}"
                     for name, body in re.findall(r"__wrap_(\w+)\([^;{]*\{\n(.*?)^\}", HOST, re.M | re.S)
                     for is_held in re.findall(r"\bneed_lock\((\w+)\)", body))
    assert wanted.total() == HOST.count("need_lock(") - 1 >= 12
    for condition, said in at_least(13, re.findall(r'(.*)\n? +fail\("(.*)"\);', HOST)):
        wanted[said] += 1 + condition.count("||")
    said = Counter(said for said, _ in REFUSED)
    assert wanted.items() <= said.items(), wanted - said
