# SPDX-License-Identifier: Apache-2.0 OR BSD-3-Clause
"""The monitor of examples/kvm.

Over host.c, a host that is a script in place of KVM, it does what scripts.txt says, by the C library and by the Rust
crate's `Serial`, and sanitizers find nothing. Under KVM guest.S echoes a paste of 70,000 bytes by interrupts, although
it takes at most 256 bytes for an interrupt; sleeps until an alarm; echoes what came meanwhile; and resets the machine,
which ends the monitor, or with -r starts it again.
Two monitors whose guests echo each other go on after the socket between them was full in both directions.
"""
import difflib
import random
import re
import signal
import socket
import subprocess
import threading
import time
from contextlib import suppress

import pytest
from documents import Document
from harness import LIMIT, ROOT, at_least, check, run
from hosts import build_edited, build_over_host, compile_for_edits
from monitors import HERE, WRAPPED, build_monitor, rust_port
from places import is_place

pytestmark = [pytest.mark.needs("cc", "make"), pytest.mark.where("Linux on x86-64")]

# How many bytes are pasted, more than a pipe holds, and commands of the guest.
PASTED, AWAIT_ALARM, RESET = 70_000, "\x14", "\x04"
CROWD = 40_000   # how many bytes each of two guests gets, several times what is between them
# Loaded before the C library, it holds a guest until the event loop has written, however late a busy machine runs that:
# after a second the monitor would drop output.
PATIENT = """
#include <pthread.h>
int pthread_cond_clockwait(pthread_cond_t *condition, pthread_mutex_t *mutex, clockid_t clock, const struct timespec *end)
{
    (void)clock, (void)end;
    return pthread_cond_wait(condition, mutex);
}
"""
TEXT = re.sub("^#.*\n", "", (HERE / "scripts.txt").read_text(encoding="ascii"), flags=re.M)
# What is seen when the guest starts.
STARTS = "monitor image  edges of irq 4  at 7c00  raw  starts f4"
SCRIPTS = at_least(20, re.split("\n\n+", TEXT.strip("\n")))


def test_number_of_lines():
    assert sum(script.count("\n") for script in SCRIPTS) > 300
    assert len(WRAPPED) >= 21


@pytest.fixture(scope="module", params=["C", pytest.param("Rust", marks=pytest.mark.needs("cargo"))])
def over_host(tmp_path_factory, request):
    """The folder of the monitor over host.c, in which an image stands."""
    folder = tmp_path_factory.mktemp("host")
    build_over_host(folder, rust_port(folder / "target") if request.param == "Rust" else "serial.c")
    (folder / "image").write_bytes(b"\xF4")
    return folder


@pytest.fixture(scope="module")
def compiled(tmp_path_factory):
    """The folder of what an edit leaves of the monitor over host.c."""
    folder = tmp_path_factory.mktemp("compiled")
    compile_for_edits(folder)
    return folder


@pytest.fixture(scope="module")
def monitor(tmp_path_factory):
    """The folder of the monitor for KVM."""
    folder = tmp_path_factory.mktemp("kvm")
    build_monitor("kvm", folder)
    return folder


@pytest.fixture(scope="module")
def guest(tmp_path_factory):
    path = tmp_path_factory.mktemp("guest") / "guest"
    image = ["-m32", "-nostdlib", "-no-pie", "-Wl,-Ttext=0x7C00,--oformat=binary,--build-id=none"]
    check(["cc", *image, HERE / "guest.S", "-o", path], "")
    return path


def shortened(text):
    """A text where what is seen again and again, and many equal bytes, stand once, with their number."""
    text = re.sub(r"(  [a-z]+(?: \w+)?)\1+(?!\S)", lambda found: f"{found[1]} x{len(found[0]) // len(found[1])}", text)
    return re.sub(r"(?<= )(\w\w)\1{7,}(?!\S)", lambda found: f"{found[1]}*{len(found[0]) // 2}", text)


def seen_of(folder, script, limit=LIMIT):
    """A script with what the monitor of a folder does behind its lines."""
    full = re.sub(r"(\w\w)\*(\d+)", lambda found: found[1] * int(found[2]), script)
    command, *lines = (line.partition("  ")[0] for line in full.splitlines())
    given = "".join(f"{line}\n" for line in lines[:-1])   # the last one is the status
    ran = run([f"./{command.split()[0]}", *command.split()[1:]], cwd=folder, input=given, timeout=limit)
    said = re.sub("monitor: |usage: ", r"\n\g<0>", ran.stdout).rstrip("\n")
    return shortened(f"{command}{said}\nstatus {ran.returncode}")


def check_script(folder, script):
    """The monitor of a folder does what stands behind the lines of a script."""
    seen = seen_of(folder, script)
    assert seen == script, "\n".join(difflib.ndiff(script.splitlines(), seen.splitlines()))


@pytest.mark.parametrize("script", SCRIPTS, ids=lambda script: script.splitlines()[0].strip()[:40])
def test_script(over_host, script):
    check_script(over_host, script)


# What host.c says of a monitor that breaks a rule of calls, and a slip that breaks it.
BROKEN = {
    "a call without the lock": ("main.c", "    pthread_mutex_lock(&lock);\n    size_t accepted", "    size_t accepted"),
    "a wait with the lock": ("main.c", "    pthread_mutex_unlock(&lock);\n    if (count == 0)", "    if (count == 0)"),
    "an eventfd whose write may block": ("main.c", "eventfd(0, EFD_NONBLOCK | EFD_CLOEXEC)", "eventfd(0, EFD_CLOEXEC)"),
    "a timer whose read may block, or of another clock": ("clock.c", "TFD_NONBLOCK | TFD_CLOEXEC", "TFD_CLOEXEC"),
    "a wait for something else": ("main.c", "&lock, CLOCK_MONOTONIC, &end", "&lock, CLOCK_REALTIME, &end"),
    "settings of another terminal, or not at once": ("main.c", "TCSANOW, &raw", "TCSADRAIN, &raw"),
    "a write that may block": ("main.c", "ready > 0 && write(STDOUT_FILENO", "ready > 0 && write(STDERR_FILENO"),
    "pthread_cond_signal, a call without the lock": (
        "main.c", "    pthread_cond_signal(&has_room);\n    pthread_mutex_unlock(&lock);\n",
        "    pthread_mutex_unlock(&lock);\n    pthread_cond_signal(&has_room);\n"),
    "a guest is not told of room": ("main.c", "    pthread_cond_signal(&has_room);\n", ""),
    "a machine beside another one": ("machine.c", "    munmap(run, run_size);\n", ""),
}


@pytest.mark.parametrize("fault", BROKEN)
def test_a_broken_rule_is_seen(fault, compiled, tmp_path):
    """So host.c notices it in a script, where the replies of the guest's port would not differ, and no lock is waited for
    without end. That is host.c's work, and not the sanitizers'."""
    build_edited(tmp_path, compiled, BROKEN[fault])
    (tmp_path / "image").write_bytes(b"\xF4")
    assert any(fault in seen_of(tmp_path, script, limit=30) for script in SCRIPTS)


# What a guest does that the event loop has to hear of, what is seen on the last of these lines, and the lines before
# and after it, with which the guest can do the same again.
HEARD = [([], ["out 3f8 1 42"], "sends 42", []),
         (["type 61*70"], ["in 3f8 1 64"], "interrupt", ["in 3f8 1 6"]),
         (["accept 0"], ["out 3f9 1 03", "accept 9", "wait 5"], "interrupt", ["in 3fa 1", "out 3f9 1 01"])]
# So often the loop lets go of the lock while it works on a byte of output, and once more, which is late.
MOMENTS = range(1, 10)


def check_moments(folder):
    """The monitor of a folder forgets nothing that the guest does while the loop still works on a byte before it."""
    script, wanted = ["monitor image", "out 3f9 1 01"], {}
    for before, lines, seen, after in HEARD:
        for moment in MOMENTS:
            script += [*before, f"early {moment}", "out 3f8 1 41", *lines]
            wanted[len(script) - 1] = seen
            script += after
    rows = seen_of(folder, "\n".join([*script, "status 0"])).splitlines()
    for number, seen in wanted.items():
        assert seen in rows[number].split("  "), "\n".join(rows[number - 5:number + 1])
    for moment in MOMENTS:
        ended = seen_of(folder, f"monitor image\nearly {moment}\nout 3f8 1 41\nout 64 1 fe\nin 3ff 1\nstatus 0")
        assert ended.endswith("restored\nmonitor: the guest reset the machine\nstatus 0"), ended
        assert ("  late" in ended) == (moment == MOMENTS[-1]), ended


def test_at_any_moment(over_host):
    check_moments(over_host)


def test_a_wake_up_that_is_lost_is_seen(compiled, tmp_path):
    """A loop that also takes wake-ups after its turn forgets what came in between."""
    wait = "        if (poll(files, 4"
    build_edited(tmp_path, compiled, ("main.c", wait, f"        eventfd_read(wakes, &(eventfd_t){{0}});\n{wait}"))
    (tmp_path / "image").write_bytes(b"\xF4")
    with pytest.raises(AssertionError):
        check_moments(tmp_path)


# For what has nothing to do with the port.
with_c = pytest.mark.parametrize("over_host", ["C"], indirect=True)


@with_c
@pytest.mark.parametrize("name", "HUP INT QUIT ABRT BUS SEGV TERM".split())
def test_signal(over_host, name):
    """A signal that usually ends a program ends the monitor, which restores the terminal."""
    number = signal.Signals[f"SIG{name}"].value
    check_script(over_host, f"{STARTS}\nkill {number}  restored\nstatus {-number}")


@with_c
@pytest.mark.parametrize("name", "PIPE CHLD CONT URG WINCH".split())
def test_signal_without_effect(over_host, name):
    check_script(over_host, f"{STARTS}\nkill {signal.Signals['SIG' + name].value}\nin 3fd 1  60\nstatus 0")


@with_c
@pytest.mark.parametrize("name", "HUP INT QUIT TERM".split())
def test_without_a_terminal(over_host, name):
    """Nothing is set or restored. A signal ends the monitor, unless whoever started it has it ignored, as `nohup` does,
    or a shell for what runs in its background."""
    number = signal.Signals[f"SIG{name}"].value
    for option, goes_on, status in [("--default-signal", "", -number), ("--ignore-signal", "\nin 3fd 1  60", 0)]:
        ran = run(["env", f"{option}={name}", "FAILS=terminal", "./monitor", "image"], cwd=over_host,
                  input=f"kill {number}\nin 3fd 1\n")
        assert f"monitor image{ran.stdout}" == f"{STARTS.replace('  raw', '')}\nkill {number}{goes_on}"
        assert ran.returncode == status


PAGE = " ".join(Document("docs/MONITOR.md").prose.split())
# What a guest or a user does, by the words of the page for an end, and the monitor's words.
ENDS = {"after a reset": ("image", "out 64 1 fe\n"), "Ctrl-A x": ("image", "type 0178\n"),
        "if something failed": ("missing", ""), "if the arguments were wrong": ("-k image", "")}
# What the page says an option is for, and what is then seen more often: the guest that starts again after a reset, and
# input in a port whose driver was never ready.
OPTIONS = {"To start the guest again after a reset": ("out 64 1 fe\n", "at 7c00"),
           "To give the guest input at once": ("type 61\nin 3f8 1\n", "in 3f8 1  61")}


@with_c
def test_statuses_of_the_page(over_host):
    [said] = re.findall(r"The monitor exits with (status .*?)\.", PAGE)
    for number, words in at_least(3, re.findall(r"(?:status|with) (\d) (.*?)(?:, (?:and )?(?=with)|$)", said)):
        for end in words.split(" or "):
            command, given = ENDS[end]
            assert run(["./monitor", *command.split()], cwd=over_host, input=given).returncode == int(number), end


# Where the monitor has its devices and its guest, by the sentences that say so. No other sentence of its page does.
KVM = ROOT / "examples" / "kvm"
PLACES = {name: int(number, 0) for name, number in re.findall(
    r"\b([A-Z]\w+) = (0x\w+|\d+)", "".join((KVM / name).read_text("utf-8") for name in ("monitor.h", "boot.c")))}
SAID = at_least(10, [
    ("docs/MONITOR.md", r"COM1 at IRQ (\d+)", "SERIAL_IRQ"), ("docs/MONITOR.md", r"memory at (0x\w+)", "CLOCK_BASE"),
    ("docs/MONITOR.md", r"memory at 0x\w+, at IRQ (\d+)", "CLOCK_IRQ"),
    ("docs/MONITOR.md", r"It starts at (0x\w+)", "FLAT_START"), ("docs/MONITOR.md", r"guest, at (0x\w+)", "CLOCK_BASE"),
    ("docs/MONITOR.md", r"IRQ (\d+) +IRQ \d", "SERIAL_IRQ"), ("docs/MONITOR.md", r"IRQ \d +IRQ (\d+)", "CLOCK_IRQ"),
    ("docs/INTEGRATION.md", r"\(MONITOR\.md\) uses (0x\w+)", "CLOCK_BASE"),
    ("docs/INTEGRATION.md", r"looks for the port at (0x\w+)", "COM1"),
    ("docs/INTEGRATION.md", r"looks for the port at 0x\w+, with IRQ (\d+)", "SERIAL_IRQ"),
    ("examples/linux-boot/README.md", r"serial port at (0x\w+)", "COM1"),
    ("examples/linux-boot/README.md", r"clock at (0x\w+)", "CLOCK_BASE"),
    ("examples/kvm/main.c", r"Starts any other at (0x\w+)", "FLAT_START")])


@pytest.mark.parametrize("page, form, name", SAID)
def test_places_of_the_page(page, form, name):
    text = (ROOT / page).read_text("utf-8")
    assert [int(number, 0) for number in re.findall(form, text)] == [PLACES[name]]


def test_each_place_of_the_page_is_compared():
    found = re.findall(r"\b0x\w+|IRQ \d+", (ROOT / "docs/MONITOR.md").read_text("utf-8"))
    assert len(found) == sum(page == "docs/MONITOR.md" for page, *_ in SAID)


@with_c
def test_options_of_the_page(over_host):
    said = dict(re.findall(r"\*\*([^*]+)\*\*,[^*]*? write `(-\w)` before the image", PAGE))
    assert said.keys() == OPTIONS.keys()
    for use, option in said.items():
        given, seen = OPTIONS[use]
        without, with_it = (run(["./monitor", *words, "image"], cwd=over_host, input=given).stdout.count(seen)
                            for words in ([], [option]))
        assert without < with_it, use


@with_c
def test_resets_leave_nothing(over_host):
    """Each gives back the files of the machine before."""
    resets = "out 64 1 fe\n" * 16
    ran = run(["sh", "-c", "ulimit -n 20; exec ./monitor -r image"], cwd=over_host, input=resets)
    assert ran.returncode == 0 and ran.stdout.count("edges of irq 4  at 7c00") == 17, ran.stdout[-300:]


# Over main.c alone: whether a guest is held, by whether its reader is stuck and the monitor is to end, or takes some just
# as the time ends.
HOLDS = """#define main main_of_the_monitor
#include "main.c"
#undef main
static bool takes;
int __real_pthread_cond_clockwait(pthread_cond_t *, pthread_mutex_t *, clockid_t, const struct timespec *);
int __wrap_pthread_cond_clockwait(pthread_cond_t *room, pthread_mutex_t *mutex, clockid_t clock,
                                  const struct timespec *end) {
    taken += takes;
    return takes ? ETIMEDOUT : __real_pthread_cond_clockwait(room, mutex, clock, end);
}
int main(void) {
    for (int number = 1; number < 4; number++) {
        is_stuck = number & 1;
        end_reason = number & 2 ? "it is to end" : NULL;
        if (monitor_hold() || is_stuck != (number & 1))
            return number;
    }
    is_stuck = false;
    end_reason = NULL;
    pthread_condattr_t attributes;
    pthread_condattr_init(&attributes);
    pthread_cond_init(&has_room, &attributes);
    takes = true;
    if (!monitor_hold() || is_stuck)
        return 4;
    takes = false;
    return !monitor_hold() && is_stuck ? 0 : 5; /* nobody takes anything for a second */
}
"""


def test_who_is_held(tmp_path):
    """A guest that is held would keep a monitor that is to end, and one whose reader is stuck is held once."""
    (tmp_path / "holds.c").write_text(HOLDS, "ascii")
    others = [path for path in KVM.glob("*.c") if path.name != "main.c"]
    library = ROOT / "prebuilt" / "x86_64-linux" / "libsuperio_c.a"
    check(["cc", "-std=c11", "-D_GNU_SOURCE", "-I", ROOT / "bindings/c", "-I", KVM, "holds.c", *others, library,
           "-pthread", "-Wl,--wrap=pthread_cond_clockwait", "-o", "holds"], "", cwd=tmp_path)
    check([tmp_path / "holds"], "")


def test_builds(monitor, guest):
    assert (monitor / "monitor").is_file() and guest.stat().st_size > 0


@pytest.mark.where("KVM")
def test_guest(monitor, guest, tmp_path):
    """A guest shows what is typed, awaits an alarm meanwhile, and resets the machine. Its output goes into a file, which
    has room at each moment."""
    check(["cc", "-shared", "-fPIC", "-D_GNU_SOURCE", "-x", "c", "-", "-o", tmp_path / "patient.so"], "", input=PATIENT)
    text = "".join(random.Random("paste").choices("abcdefghijklmnopqrstuvwxyz", k=PASTED))
    with open(tmp_path / "shown", "w+b") as shown:
        ran = run([monitor / "monitor", guest], input=text + AWAIT_ALARM + text[:100] + RESET, stdout=shown,
                  env={"LD_PRELOAD": str(tmp_path / "patient.so")})
        shown.seek(0)
        said = shown.read().decode()
    assert said == f"ready\r\n{text}alarm\r\n{text[:100]}monitor: the guest reset the machine\n", said[-300:]
    assert ran.returncode == 0


@pytest.mark.needs("cc", "make")
def test_whether_kvm_is_there(monitor, guest):
    """The tests of KVM are left out only where the monitor, too, finds none."""
    ran = run([monitor / "monitor", guest], input=RESET)
    assert (ran.returncode == 0) == is_place("KVM"), ran.stdout


@pytest.mark.where("KVM")
def test_guest_resets(monitor, guest):
    """With -r a guest that resets the machine starts again, and the user leaves."""
    process = subprocess.Popen([monitor / "monitor", "-r", guest], stdin=subprocess.PIPE, stdout=subprocess.PIPE,
                               stderr=subprocess.STDOUT, bufsize=0)
    limit = threading.Timer(LIMIT, process.kill)
    limit.start()
    try:
        for text in b"first", b"second", b"third":
            assert process.stdout.readline() == b"ready\r\n"
            process.stdin.write(text + b"\n")
            assert process.stdout.readline() == text + b"\n"
            process.stdin.write(RESET.encode())
        assert process.stdout.readline() == b"ready\r\n"
        process.stdin.write(b"\x01x")
        assert (process.stdout.read(), process.wait()) == (b"monitor: left by Ctrl-A x\n", 0)
    finally:
        limit.cancel()
        process.kill()


@pytest.mark.where("KVM")
def test_pair(monitor, guest):
    """Two monitors go on whose guests echo each other, with more bytes on the way than fit. What is sent to one end of
    the socket is input of the monitor at the other. They are hung if they take nothing for long, as a busy machine may
    take long for all of it."""
    ends, deadline = socket.socketpair(), time.monotonic() + LIMIT
    for end in ends:
        end.setsockopt(socket.SOL_SOCKET, socket.SO_SNDBUF, 4096)
    rest = {end: b"x" * CROWD + RESET.encode() for end in ends}
    monitors = [subprocess.Popen([monitor / "monitor", guest], stdin=end, stdout=end, stderr=subprocess.PIPE, text=True)
                for end in ends]
    try:
        while any(rest.values()) and time.monotonic() < deadline:
            for end in ends:
                with suppress(BlockingIOError):
                    rest[end] = rest[end][end.send(rest[end][:4096], socket.MSG_DONTWAIT):]
                    deadline = time.monotonic() + LIMIT
            time.sleep(0.001)
        assert not any(rest.values()), "the monitors stand still"
        dropped = 0   # by one of them, or by both: which one depends on who is faster
        for process in monitors:
            said = process.communicate(timeout=LIMIT)[1]
            [count] = re.fullmatch(r"monitor: the guest reset the machine(?:; (\d+) bytes of output were dropped)?\n",
                                   said).groups()
            assert process.returncode == 0
            dropped += int(count or 0)
        assert dropped > 0
    finally:
        for process in monitors:
            process.kill()
