# SPDX-License-Identifier: Apache-2.0 OR BSD-3-Clause
"""The examples of examples/c compare what they receive: each says so if one byte is another, at the first place, at the
last, or between. monitor.c serves a line that takes and gives little, and only after a poll, and breaks no rule of
superio.h on threads, files and a time that rules.c makes. machine.c moves in the middle of its input and output, and
takes its locks as locks.c says."""
import fcntl
import os
import platform
import re
import subprocess
import time
from concurrent.futures import ThreadPoolExecutor

import pytest
from builds import run_rules
from generators.libraries import PREBUILT, STATIC
from harness import LIMIT, ROOT, at_least, check, run

pytestmark = pytest.mark.needs("cc")

# In place of a call by which a guest reads: one of the reads of RBR, of whichever thread, shows another bit.
SPOILT = """#include <stdlib.h>
#include <superio.h>
superio_{0}_read_effects __real_superio_{0}_read(superio_{0} *device, uint8_t offset);
superio_{0}_read_effects __wrap_superio_{0}_read(superio_{0} *device, uint8_t offset);
superio_{0}_read_effects __wrap_superio_{0}_read(superio_{0} *device, uint8_t offset) {{
    static int reads;
    superio_{0}_read_effects done = __real_superio_{0}_read(device, offset);
    int place = atoi(getenv("PLACE"));
    if (offset == 0 && __atomic_add_fetch(&reads, 1, __ATOMIC_SEQ_CST) == place)
        done.byte ^= 1 << place % 8;
    return done;
}}
"""
# Beside each program: the device whose reads are spoilt, the places, and what is said. In monitor.c each of 3,000 bytes is
# read by two guests. The guest of machine.c sends what was typed back in capitals.
PROGRAMS = {
    "paste": ("serial", (1, 64, 65, 999, 1000), "1000 bytes in 16 pieces, 999 of them in order\n"),
    "monitor": ("console", (1, 3000, 5999, 6000), "3000 bytes came back, 2999 of them in order\n"),
    "machine": ("console", (1, 40, 41, 64, 65, 99), None),
}
TYPED = "x" * 99 + "\n"
CASES = at_least(15, [(name, place) for name, (_, places, *_) in PROGRAMS.items() for place in places])

# In place of the socket of monitor.c: once a poll has told that it has room, or bytes, it takes or gives three of them.
NARROW = """#define _GNU_SOURCE
#include <errno.h>
#include <poll.h>
#include <stdbool.h>
#include <sys/socket.h>
#include <unistd.h>
enum { FILES = 64, MOST = 3 };
static bool is_line[FILES], may_read[FILES], may_write[FILES];
int __real_socketpair(int domain, int type, int protocol, int files[2]);
int __real_poll(struct pollfd *files, nfds_t count, int timeout);
ssize_t __real_read(int file, void *bytes, size_t count);
ssize_t __real_write(int file, const void *bytes, size_t count);
int __wrap_socketpair(int domain, int type, int protocol, int files[2]) {
    int result = __real_socketpair(domain, type, protocol, files);
    return is_line[files[0]] = is_line[files[1]] = true, result;
}
int __wrap_poll(struct pollfd *files, nfds_t count, int timeout) {
    int result = __real_poll(files, count, timeout);
    for (nfds_t i = 0; i < count; i++)
        if (files[i].fd >= 0 && result > 0) {
            may_read[files[i].fd] |= files[i].revents & POLLIN;
            may_write[files[i].fd] |= files[i].revents & POLLOUT;
        }
    return result;
}
static bool takes(bool *may, int file, size_t *count) {
    if (!is_line[file])
        return true;
    bool did = may[file];
    may[file] = false;
    errno = EAGAIN;
    *count = *count < MOST ? *count : MOST;
    return did;
}
ssize_t __wrap_read(int file, void *bytes, size_t count) {
    return takes(may_read, file, &count) ? __real_read(file, bytes, count) : -1;
}
ssize_t __wrap_write(int file, const void *bytes, size_t count) {
    return takes(may_write, file, &count) ? __real_write(file, bytes, count) : -1;
}
"""


def ran_at_once(commands):
    """What becomes of programs, by their cases. A machine waits for two seconds until its alarm goes off."""
    with ThreadPoolExecutor(len(commands)) as pool:
        return dict(zip(commands, pool.map(lambda options: run(**options), commands.values())))


@pytest.fixture(scope="module")
def spoilt(tmp_path_factory):
    """What becomes of the programs, which spoil the read that PLACE names."""
    folder = tmp_path_factory.mktemp("spoilt")
    for name, (device, *_) in PROGRAMS.items():
        (folder / f"{name}.c").write_text(SPOILT.format(device), encoding="ascii")
        check(["cc", "-I", ROOT / "bindings/c", folder / f"{name}.c", ROOT / f"examples/c/{name}.c",
               PREBUILT / f"{platform.machine()}-linux" / STATIC, f"-Wl,--wrap=superio_{device}_read", "-pthread",
               "-o", folder / name], "")
    return ran_at_once({(name, place): {"command": [folder / name], "env": {**os.environ, "PLACE": f"{place}"},
                                        "input": TYPED} for name, place in CASES})


@pytest.mark.parametrize("name, place", CASES)
def test_another_byte_is_noticed(spoilt, name, place):
    *_, said = PROGRAMS[name]
    other = chr(ord("x") ^ 1 << place % 8)
    said = said or f"{TYPED[:place - 1]}{other}{TYPED[place:]}".upper()
    ran = spoilt[name, place]
    assert ran.returncode == 0 and said in ran.stdout, ran.stdout


def test_every_example_is_spoilt():
    assert sorted(PROGRAMS) == sorted(path.stem for path in (ROOT / "examples/c").glob("*.c"))


def test_a_narrow_line(tmp_path):
    """The event loop polls for what it waits for, and goes on where the last write ended."""
    (tmp_path / "narrow.c").write_text(NARROW, encoding="ascii")
    wrapped = [f"-Wl,--wrap={name}" for name in ("socketpair", "poll", "read", "write")]
    check(["cc", "-I", ROOT / "bindings/c", tmp_path / "narrow.c", ROOT / "examples/c/monitor.c",
           PREBUILT / f"{platform.machine()}-linux" / STATIC, *wrapped, "-pthread", "-o", tmp_path / "monitor"], "")
    check([tmp_path / "monitor"], "3000 bytes came back, 3000 of them in order\n")


def test_rules_of_a_monitor(tmp_path):
    """Whichever thread goes on, and whatever is refused."""
    ran = run_rules(ROOT / "examples/c/monitor.c", tmp_path)
    assert ran.returncode == 0, ran.stdout


MACHINE = (ROOT / "examples/c/machine.c").read_text("utf-8")
# What the lock of a machine is of, but where the guest is in place of the interrupt controller.
OF_LOCK = re.compile(r"\b(machine|from|to)->(console|clock|ahead|now|clock_was_up|is_\w+|irq|clock_line)\b(?! = must)")
HERE = "static struct machine *here;\n"
CALLS_OF_LOCKS = at_least(32, re.findall(r"\bpthread_mutex_((?:un)?lock\([^()]+\))", MACHINE))


@pytest.fixture(scope="module")
def locks(tmp_path_factory):
    """A program that watches the locks of machine.c."""
    folder = tmp_path_factory.mktemp("locks")
    assert MACHINE.count(HERE) == 1
    machine = OF_LOCK.sub(r"locked(\1)->\2", MACHINE)
    machine = machine.replace(HERE, f'{HERE}#define here (*(need(&processor, "to use `here`"), &here))\n')
    text = (ROOT / "tests/c/locks.c").read_text("ascii").replace("MACHINE\n\n", machine, 1)
    (folder / "locks.c").write_text(text, "ascii")
    check(["cc", "-Wall", "-Wextra", "-Werror", "-I", ROOT / "bindings/c", folder / "locks.c",
           PREBUILT / f"{platform.machine()}-linux" / STATIC, "-pthread", "-o", folder / "locks"], "")
    return folder / "locks"


def test_locks_of_a_machine(locks):
    check([locks], (ROOT / "examples/c/expected").read_text("ascii"), input="hello\n")


@pytest.fixture(scope="module")
def without_one_lock(locks):
    """What becomes of the machine without each of the calls."""
    return ran_at_once({number: {"command": [locks, number], "input": "hello\n"}
                        for number in range(len(CALLS_OF_LOCKS))})


@pytest.mark.parametrize("number", range(len(CALLS_OF_LOCKS)), ids=lambda number: f"{number} {CALLS_OF_LOCKS[number]}")
def test_a_machine_without_one_lock(without_one_lock, number):
    """Whichever call takes a lock, and releases it after that, or only releases it."""
    ran = without_one_lock[number]
    assert ran.returncode == 1 and "may not do this" in ran.stdout, ran.stdout


SET_PIPE_SIZE = 1031   # of Linux, which Python 3.9 does not name
# How machine.c is edited so that nothing depends on who comes first. Its guest is held until the reader of its output
# takes some, and is moved once it is held, with all that the port can hold. A line on standard error then has the
# reader begin. `written` counts what has gone out since the machine was saved.
PATIENT = {
    "    end.tv_sec++;\n": f"    end.tv_sec += {LIMIT};\n",
    "struct machine {\n": "static size_t written;\n\nstruct machine {\n",
    "        superio_console_consume(&machine->console, (size_t)count);\n":
        "        superio_console_consume(&machine->console, (size_t)count);\n        written += (size_t)count;\n",
    "    save(from, &saved);\n": "    save(from, &saved);\n    written = 0;\n",
    "    poll(NULL, 0, 500); /* half a second */\n": """    for (bool is_held = false; !is_held; poll(NULL, 0, 1)) {
        pthread_mutex_lock(&here->lock);
        is_held = superio_console_is_full(&here->console) && superio_console_wants(&here->console).input == 0;
        pthread_mutex_unlock(&here->lock);
    }
""",
}
SAVED = "    save(from, &saved);\n    written = 0;\n"
BEGIN = "    pthread_mutex_lock(&door);      /* no access begins */\n"
TOLD = '    write(STDERR_FILENO, "held\\n", 5);\n'
STOPPED = """    pthread_mutex_lock(&door);
    pthread_mutex_lock(&processor);
    pthread_mutex_lock(&from->lock);
    from->is_stopped = true;
    pthread_mutex_unlock(&from->lock);
    eventfd_write(from->wake_up, 1);
    pthread_join(*loop, NULL);
"""
GOES_ON = """    from->is_stopped = false;
    pthread_create(loop, NULL, event_loop, from);
    pthread_mutex_unlock(&processor);
    pthread_mutex_unlock(&door);
    for (bool is_late = false; !is_late; poll(NULL, 0, 1)) {
        pthread_mutex_lock(&from->lock);
        is_late = written > 0;
        pthread_mutex_unlock(&from->lock);
    }
"""
# A good move. Then moves that save a machine whose guest makes an access, or makes further ones: what goes out after
# that goes out again.
MOVES = {
    "at rest": {BEGIN: BEGIN + TOLD},
    "in an access": {SAVED: "", BEGIN: BEGIN + SAVED + TOLD},
    "before further accesses": {BEGIN: BEGIN + TOLD, SAVED: SAVED + GOES_ON + STOPPED},
}


def came_back(edits, typed, folder):
    """What a machine sends whose guest is held before it moves."""
    machine = MACHINE
    for old, new in [*PATIENT.items(), *edits.items()]:
        assert machine.count(old) == 1, old
        machine = machine.replace(old, new)
    (folder / "machine.c").write_text(machine, "utf-8")
    check(["cc", "-I", ROOT / "bindings/c", folder / "machine.c", PREBUILT / f"{platform.machine()}-linux" / STATIC,
           "-pthread", "-o", folder / "machine"])
    reader, writer = os.pipe()
    fcntl.fcntl(writer, SET_PIPE_SIZE, 4096)
    with subprocess.Popen(["timeout", f"{LIMIT}", folder / "machine"], stdin=subprocess.PIPE, stdout=writer,
                          stderr=subprocess.PIPE) as process:
        os.close(writer)
        process.stdin.write(typed)
        process.stdin.close()
        assert process.stderr.readline() == b"held\n"
        with open(reader, "rb") as output:
            return output.read()


TEXT = b"".join(b"%d, " % number for number in range(5000)) + b"and so on\n"
ALL = TEXT.upper() + (ROOT / "examples/c/expected").read_bytes().removeprefix(b"HELLO\n")


@pytest.mark.parametrize("saved", MOVES)
def test_a_machine_moves(saved, tmp_path):
    """While its guest is held, input waits in the port, and output in the console: each byte comes back once, if the
    machine is saved at rest."""
    assert (came_back(MOVES[saved], TEXT, tmp_path) == ALL) == (saved == "at rest")


def test_a_machine_sleeps(tmp_path):
    """Its guest until it is interrupted, and its event loop until there is something to do."""
    check(["cc", "-I", ROOT / "bindings/c", ROOT / "examples/c/machine.c",
           PREBUILT / f"{platform.machine()}-linux" / STATIC, "-pthread", "-o", tmp_path / "machine"], "")
    with subprocess.Popen([tmp_path / "machine"], stdin=subprocess.PIPE, stdout=subprocess.DEVNULL) as process:
        time.sleep(3)
        process.stdin.write(b"hello\n")
        process.stdin.close()
        # Its own time alone: other children of this process may end meanwhile.
        _, status, used = os.wait4(process.pid, 0)
        process.returncode = os.waitstatus_to_exitcode(status)
    assert process.returncode == 0 and used.ru_utime + used.ru_stime < 0.5
