# SPDX-License-Identifier: Apache-2.0 OR BSD-3-Clause
"""Random images of Linux, hostile ones among them, booted by the monitor over host.c: one that does not fit into the
guest's memory is refused, and no byte is written outside of that memory. The machine has the parts that a guest needs,
and the guest begins in the state that Linux's boot protocol asks for, or a boot sector. The monitor says which call of
the system failed."""
import os
import random
import struct
from collections import Counter
from typing import NamedTuple

import pytest
from harness import run
from hosts import build_over_host
from seeds import random_source

pytestmark = [pytest.mark.needs("cc", "make"), pytest.mark.where("Linux on x86-64")]

MEMORY_SIZE = 256 << 20
INITRAMFS = MEMORY_SIZE // 2
# Where Linux's boot protocol has fields of a bzImage, by their formats.
FIELDS = {"setup_sects": (0x1F1, "<B"), "header": (0x202, "<I"), "version": (0x206, "<H"), "xloadflags": (0x236, "<H"),
          "pref_address": (0x258, "<Q"), "init_size": (0x260, "<I")}
MAGIC, KERNEL_64 = 0x53726448, 1
SECTOR = 512


class Image(NamedTuple):
    """A bzImage: its fields, and how many bytes follow its set-up code."""
    setup_sects: int
    version: int
    xloadflags: int
    pref_address: int
    init_size: int
    size: int

    def content(self):
        """The bytes of the file."""
        head = bytearray(((self.setup_sects or 4) + 1) * SECTOR)   # by the protocol, 0 stands for 4
        for name, (place, form) in FIELDS.items():
            struct.pack_into(form, head, place, MAGIC if name == "header" else getattr(self, name))
        return bytes(head) + b"\xCC" * self.size

    def fits(self):
        """Whether its code goes into its own room, and that into the guest's memory."""
        return 0 < self.size <= self.init_size and self.pref_address + self.init_size <= MEMORY_SIZE


def random_image(source):
    """Half of them fit, or miss that by a byte or two."""
    size = source.choice([0, 1, 4096, 70_000])
    init_size = (size + source.choice([-1, 0, 0, 1, 1 << 20, 1 << 20, 2 ** 32 - 1 - size])) % 2 ** 32
    edge = source.choice([1 << 20, 1 << 20, *[MEMORY_SIZE - init_size] * 4, MEMORY_SIZE - size, 2 ** 32,
                          2 ** 64 - init_size])
    return Image(source.choice([0, 1, 4, 31, 255]), source.choice([0x20B, *[0x20C, 0x20F] * 4]),
                 source.choice([0, *[KERNEL_64, 0xFF] * 4]), (edge + source.randrange(-2, 3)) % 2 ** 64, init_size,
                 size)


@pytest.fixture(scope="module")
def monitor(tmp_path_factory):
    """The folder of the monitor over host.c."""
    folder = tmp_path_factory.mktemp("host")
    build_over_host(folder)
    return folder


def booted(folder, *words, fails=""):
    """The status of a monitor whose user says nothing, and what is seen. A call that is named fails."""
    ran = run(["./monitor", *words], cwd=folder, env={**os.environ, "FAILS": fails})
    return ran.returncode, ran.stdout


def outcome(image):
    """The status of an image's monitor, and a part of what is seen."""
    if image.version < 0x20C or not image.xloadflags & KERNEL_64:
        return 1, "monitor: kernel has no 64-bit entry"
    if not image.fits():
        return 1, "monitor: kernel is empty, or does not fit"
    return 0, f"  at {image.pref_address + 0x200:x}  "


def test_images(monitor):
    """The same in each commit, and some of its own."""
    fixed, own, outcomes = random.Random("images"), random_source("images"), Counter()
    for source in 45 * [fixed] + 15 * [own]:
        image = random_image(source)
        (monitor / "kernel").write_bytes(image.content())
        status, seen = booted(monitor, "kernel")
        wanted, part = outcome(image)
        assert status == wanted and part in seen and "anitizer" not in seen, f"{image}: {seen}"
        outcomes[part if wanted else "boots"] += 1
    assert len(outcomes) == 3 and min(outcomes.values()) >= 6, outcomes


@pytest.mark.parametrize("content", [b"", b"\xF4" * 10, b"\xF4" * (0x9FC00 - 0x7C00)], ids=["empty", "small", "full"])
def test_flat_images(monitor, content):
    """A flat image fills conventional memory at most."""
    for size in (0, 1):
        (monitor / "flat").write_bytes(content + b"\xF4" * size)
        fits = 0 < len(content) + size <= 0x9FC00 - 0x7C00
        status, seen = booted(monitor, "flat")
        assert (status, "at 7c00" in seen) == (0 if fits else 1, fits), seen


def test_initramfs(monitor):
    """It has the upper half of the memory."""
    (monitor / "kernel").write_bytes(Image(4, 0x20F, KERNEL_64, 1 << 20, 1 << 20, 5000).content())
    for size in (0, 1, INITRAMFS - 1, INITRAMFS, INITRAMFS + 1):
        with open(monitor / "initramfs", "wb") as file:
            file.truncate(size)
        fits = 0 < size <= INITRAMFS
        status, seen = booted(monitor, "kernel", "initramfs", "x" * 5000)
        assert (status, "at 100200" in seen) == (0 if fits else 1, fits), seen
    status, seen = booted(monitor, "kernel", "missing")
    assert status == 1 and seen.endswith("monitor: missing: No such file or directory\n"), seen


def test_a_kernel_ends_below_its_initramfs(monitor):
    """Its whole room, which it may use before it has taken the initramfs. Without one, it may have all memory."""
    (monitor / "initramfs").write_bytes(b"i" * 3000)
    for beyond in (-1, 0, 1):
        room = INITRAMFS - (1 << 20) + beyond
        (monitor / "kernel").write_bytes(Image(4, 0x20F, KERNEL_64, 1 << 20, room, 5000).content())
        assert booted(monitor, "kernel")[0] == 0
        status, seen = booted(monitor, "kernel", "initramfs")
        assert (status, "monitor: kernel leaves no room for initramfs" in seen) == (beyond > 0, beyond > 0), seen


# Segments, of which processors read descriptors in memory too.
CODE = {"base": 0, "limit": 2 ** 32 - 1, "type": 11, "present": 1, "dpl": 0, "db": 0, "s": 1, "l": 1, "g": 1, "avl": 0}
DATA = {**CODE, "type": 3, "db": 1, "l": 0}
LOW_END, HIGH_START, WORDS_SIZE = 0x9FC00, 1 << 20, 2048


class State:
    """The state with which a guest begins, as host.c wrote it: KVM's kvm_regs and kvm_sregs, and memory."""

    def __init__(self, data):
        names = "rax rbx rcx rdx rsi rdi rsp rbp r8 r9 r10 r11 r12 r13 r14 r15 rip rflags".split()
        self.general = {name: value for name, value in zip(names, struct.unpack_from("<18Q", data)) if value}
        self.segments = {}
        for place, name in enumerate("cs ds es fs gs ss".split()):
            base, limit, selector, *bits = struct.unpack_from("<QIH8B", data, 144 + 24 * place)
            self.segments[name] = selector, {"base": base, "limit": limit, **dict(zip(
                ("type", "present", "dpl", "db", "s", "l", "g", "avl"), bits))}
        self.descriptors = struct.unpack_from("<QH", data, 144 + 24 * 8)
        self.cr0, _, self.cr3, self.cr4, _, self.efer = struct.unpack_from("<6Q", data, 144 + 24 * 8 + 32)
        self.memory = data[-(1 << 21):]

    def words(self, address, count):
        return struct.unpack_from(f"<{count}Q", self.memory, address)

    def number(self, address, size=4):
        return int.from_bytes(self.memory[address:address + size], "little")


def descriptor(word):
    """A segment by its descriptor, as the processor's manual has it."""
    limit, g = word & 0xFFFF | word >> 32 & 0xF0000, word >> 55 & 1
    return {"base": word >> 16 & 0xFFFFFF | word >> 32 & 0xFF000000, "limit": limit << 12 | 0xFFF if g else limit,
            "type": word >> 40 & 15, "s": word >> 44 & 1, "dpl": word >> 45 & 3, "present": word >> 47 & 1,
            "avl": word >> 52 & 1, "l": word >> 53 & 1, "db": word >> 54 & 1, "g": g}


def begun(folder, *words):
    assert booted(folder, *words)[0] == 0
    return State((folder / "state").read_bytes())


def test_a_boot_sector_begins(monitor):
    (monitor / "flat").write_bytes(b"\xF4" * 700)
    state = begun(monitor, "flat")
    assert state.general == {"rip": 0x7C00, "rsp": 0x7C00, "rflags": 2}
    assert (state.segments["cs"][0], state.segments["cs"][1]["base"], state.cr0) == (0, 0, 0x60000010)
    assert state.memory.strip(b"\0") == b"\xF4" * 700


@pytest.mark.parametrize("words, setup_sects", [("console=ttyS0", 4), ("x" * 5000, 0)], ids=["few", "many"])
def test_linux_begins(monitor, words, setup_sects):
    """In long mode, with the first gigabyte mapped to itself, flat segments, and its parameters."""
    image = Image(setup_sects, 0x20F, KERNEL_64, 1 << 20, 1 << 20, 5000)
    (monitor / "kernel").write_bytes(image.content())
    (monitor / "initramfs").write_bytes(b"i" * 3000)
    state = begun(monitor, "kernel", "initramfs", words)
    parameters = state.general["rsi"]
    assert state.general == {"rip": image.pref_address + 0x200, "rsi": parameters, "rflags": 2}
    assert (state.cr0, state.cr4, state.efer) == (0x60000010 | 0x80000001, 0x20, 0x500)
    base, limit = state.descriptors
    table = state.words(base, 4)
    assert base % 8 == 0 and limit == 31 and table[:2] == (0, 0) and [*map(descriptor, table[2:])] == [CODE, DATA]
    assert state.segments == {"cs": (0x10, CODE), **dict.fromkeys(("ds", "es", "fs", "gs", "ss"), (0x18, DATA))}
    first = state.words(state.cr3, 512)
    second = state.words(first[0] & ~0xFFF, 512)
    third = state.words(second[0] & ~0xFFF, 512)
    assert [entry & 0xFFF for entry in (first[0], second[0])] == [3, 3] and not any(first[1:]) and not any(second[1:])
    assert [*third] == [page << 21 | 0x83 for page in range(512)]
    head = {0x210: 0xFF, 0x218: INITRAMFS, 0x21C: 3000}
    assert {place: state.number(parameters + place, 1 if place == 0x210 else 4) for place in head} == head
    for name, (place, form) in FIELDS.items():
        value, = struct.unpack_from(form, state.memory, parameters + place)
        assert value == (MAGIC if name == "header" else getattr(image, name)), name
    assert state.number(parameters + 0x1E8, 1) == 2
    regions = [struct.unpack_from("<QQI", state.memory, parameters + 0x2D0 + 20 * place) for place in range(3)]
    assert regions == [(0, LOW_END, 1), (HIGH_START, MEMORY_SIZE - HIGH_START, 1), (0, 0, 0)]
    at = state.number(parameters + 0x228)
    assert state.memory[at:at + WORDS_SIZE + 1].split(b"\0")[0] == words[:WORDS_SIZE - 1].encode()
    assert state.memory[image.pref_address:image.pref_address + image.size] == b"\xCC" * image.size
    tables = state.cr3, first[0] & ~0xFFF, second[0] & ~0xFFF
    rest, used = bytearray(state.memory), [(base, limit + 1), *((address, 4096) for address in tables),
                                           (parameters, 4096), (at, WORDS_SIZE), (image.pref_address, image.size)]
    for start, size in used:
        assert start + size <= LOW_END or start >= HIGH_START
        rest[start:start + size] = bytes(size)
    assert not any(rest) and len({start for start, _ in used}) == len(used)


@pytest.mark.parametrize("files", [["kernel"], ["kernel", "initramfs"]])
@pytest.mark.parametrize("options", [[], ["-e"]])
def test_linux_begins_without_words(monitor, options, files):
    """It gets the monitor's own then, and an initramfs only if one is named."""
    (monitor / "kernel").write_bytes(Image(4, 0x20F, KERNEL_64, 1 << 20, 1 << 20, 5000).content())
    (monitor / "initramfs").write_bytes(b"i" * 3000)
    state = begun(monitor, *options, *files)
    parameters = state.general["rsi"]
    at = state.number(parameters + 0x228)
    assert state.memory[at:at + WORDS_SIZE].split(b"\0")[0] == b"console=ttyS0 reboot=k panic=1"
    found = [state.number(parameters + place) for place in (0x218, 0x21C)]
    assert found == ([INITRAMFS, 3000] if "initramfs" in files else [0, 0])


def test_machine(monitor):
    """Memory is where the clock is not. The processor is the one that KVM has, with the number 0, and says that it is a
    virtual one. In host.c all registers of that are the same."""
    (monitor / "flat").write_bytes(b"\xF4")
    begun(monitor, "flat")
    lines = (monitor / "machine").read_text(encoding="ascii").splitlines()
    parts = [line for line in lines if not line.startswith("cpuid")]
    assert parts == ["tss fffbd000", "interrupt controllers", "timer, flags 1", "late ticks 0",
                     "memory 0: flags 0, 0 and d0000 more, from 0",
                     f"memory 1: flags 0, d1000 and {MEMORY_SIZE - 0xD1000:x} more, from d1000"]
    changed = {0x01: "5a5a5a5a 5a5a5a da5a5a5a 5a5a5a5a", **dict.fromkeys((0x0B, 0x1F), f"{'5a5a5a5a ' * 3}0")}
    functions = [f"cpuid {number:x}: {changed.get(number, '5a5a5a5a 5a5a5a5a 5a5a5a5a 5a5a5a5a')}"
                 for number in range(256)]
    assert lines == parts + functions


@pytest.mark.parametrize("name", ["flat", "kernel"])
def test_a_reset_begins_again(monitor, name):
    """The machine has the same parts after it, and the guest begins in the same state, whatever it left in memory."""
    (monitor / "flat").write_bytes(b"\xF4" * 700)
    (monitor / "kernel").write_bytes(Image(4, 0x20F, KERNEL_64, 1 << 20, 1 << 20, 5000).content())
    (monitor / "initramfs").write_bytes(b"i" * 3000)
    words = [name, "initramfs", "some words"]
    assert booted(monitor, *words)[0] == 0
    state, parts = ((monitor / file).read_bytes() for file in ("state", "machine"))
    written = [0, 0x500, 0x7C00, 0x9000, 0x10000, 0x20000, 0xCFFF0, 1 << 20, (1 << 20) + 0x200, (1 << 21) - 16]
    script = "".join(f"memory {place:x} {'a5' * 16}\n" for place in written) + "out 64 1 fe\n"
    ran = run(["./monitor", "-r", *words], cwd=monitor, input=script)
    assert ran.returncode == 0 and "anitizer" not in ran.stdout, ran.stdout
    assert (monitor / "state").read_bytes() == state and (monitor / "machine").read_bytes() == 2 * parts


# Calls that may fail, and what the monitor says of them.
FAILURES = {
    "library": "the library has another interface than the header", "open": "/dev/kvm: Permission denied",
    "mmap": "the vCPU's exits: Invalid argument", "loop": "the event loop: Too many open files",
    "alarm": "the alarm's timer: Too many open files", "thread": "the vCPU's thread: Resource temporarily unavailable",
}


@pytest.mark.parametrize("call", FAILURES)
def test_a_call_fails(monitor, call):
    (monitor / "flat").write_bytes(b"\xF4")
    status, seen = booted(monitor, "flat", fails=call)
    assert status == 1 and f"monitor: {FAILURES[call]}\n" in seen, seen
