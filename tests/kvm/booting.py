# SPDX-License-Identifier: Apache-2.0 OR BSD-3-Clause
"""Linux in the monitor of examples/kvm: the monitors that boot it, a host for them, and a guest's console.

A host is this machine if its own processor runs guests by KVM. Otherwise it is Linux in QEMU, whose emulated processor
has AMD's virtualization, so that its KVM runs the monitor. Debian's packages have the kernel, for both, and busybox.
"""
import hashlib
import os
import select
import shutil
import signal
import socket
import subprocess
import threading
import time
from contextlib import contextmanager, suppress
from pathlib import Path

from harness import ROOT, check
from monitors import build_monitor, rust_port

IMAGES = ROOT / "out" / "linux"  # what examples/kvm/fetch gets
# What a record is of: all that a guest's console and clock go through, and what looks at them.
SOURCES = ["bindings/c/superio.h", "rust/vm-superio/src", "rust/superio/src", "crates/superio_c/src",
           "crates/superio_console/src", "crates/superio_core/src", "examples/kvm", "prebuilt/SHA256SUMS",
           "tests/kvm/booting.py", "tests/kvm/monitors.py", "tests/kvm/serial", "tests/kvm/test_linux.py",
           "tests/kvm/timeout.c"]
WORDS = "console=ttyS0 reboot=k panic=1 loglevel=0 mitigations=off initcall_blacklist=i8042_init"
QEMU = ["qemu-system-x86_64", "-accel", "tcg", "-cpu", "EPYC,+svm,+npt,-x2apic", "-m", "768", "-nodefaults",
        "-nographic", "-no-reboot", "-append", "console=ttyS0 quiet loglevel=0 mitigations=off panic=1"]
MODULES = ["irqbypass", "kvm", "kvm-amd", "virtio_ring", "virtio", "virtio_pci_legacy_dev", "virtio_pci_modern_dev",
           "virtio_pci", "virtio_console"]
# The host in QEMU: each line that comes in names a monitor, which then has the connection until it ends. The port can be
# opened once it has its name, which is later than its file is there.
INIT = f"""#!/bin/busybox sh
/bin/busybox --install -s /bin
mount -t proc proc /proc
mount -t devtmpfs dev /dev
mount -t sysfs sys /sys
for module in {' '.join(MODULES)}; do insmod /$module.ko; done
until [ -e /sys/class/virtio-ports/vport0p1/name ]; do sleep 0.01; done
exec <>/dev/vport0p1 >&0 2>&1
while read monitor; do
    /$monitor /kernel /initramfs "{WORDS}"
    echo "status $?"
done
"""
LIMIT = 3600  # seconds that a guest may take, on a busy machine too


def sum_of_sources():
    """The digest of what `sha256sum` prints of the sources, in the order of their paths."""
    paths = (path for name in SOURCES for path in (ROOT / name, *(ROOT / name).rglob("*")))
    built = {"monitor", "Cargo.lock", "target"}
    names = sorted(path.relative_to(ROOT).as_posix() for path in paths
                   if path.is_file() and not built & set(path.relative_to(ROOT).parts))
    listing = "".join(f"{hashlib.sha256((ROOT / name).read_bytes()).hexdigest()}  {name}\n" for name in names)
    return hashlib.sha256(listing.encode()).hexdigest()


def build_monitors(folder):
    """Builds the monitor over the C library, and over the Rust crate."""
    for name, port in {"c": "serial.c", "rust": rust_port(folder / "target")}.items():
        build_monitor("linux", folder / name, port)
    return {name: folder / name / "monitor" for name in ("c", "rust")}


class Stalled(AssertionError):
    """What was awaited did not come in time. The argument is what came instead."""


class Console:
    """A guest's console, or what a host says: one end of a socket."""

    def __init__(self, connection):
        self.connection, self.seen, self.sent = connection, b"", 0

    def receive(self, seconds):
        """Takes what comes next within so many seconds. Returns whether something came."""
        if not select.select([self.connection], [], [], max(seconds, 0))[0]:
            return False
        with suppress(ConnectionResetError):
            received = self.connection.recv(65536)
            self.seen += received
            return bool(received)
        return False

    def until(self, end, seconds):
        """What comes before this end, which comes too."""
        deadline = time.monotonic() + seconds
        while end not in self.seen:
            if not self.receive(deadline - time.monotonic()):
                raise Stalled(f"{end!r} has not come: {self.seen[-300:]!r}")
        before, _, self.seen = self.seen.partition(end)
        return before

    def take(self, count, seconds):
        """The next bytes, so many of them."""
        deadline = time.monotonic() + seconds
        while len(self.seen) < count:
            if not self.receive(deadline - time.monotonic()):
                raise Stalled(f"{len(self.seen)} bytes of {count} have come")
        taken, self.seen = self.seen[:count], self.seen[count:]
        return taken

    def send(self, text):
        content = text if isinstance(text, bytes) else text.encode()
        self.sent += len(content)
        self.connection.sendall(content)

    def paste(self, content, sizes):
        """Sends bytes in pieces of these sizes in turn, 5 milliseconds apart."""
        place = number = 0
        while place < len(content):
            size = sizes[number % len(sizes)]
            self.send(content[place:place + size])
            place, number = place + size, number + 1
            time.sleep(0.005)


class OwnHost:
    """This machine."""

    def __init__(self, monitors):
        self.monitors, self.running, self.logs = monitors, [], []

    def begin(self, name):
        ours, theirs = socket.socketpair()
        script = f'{self.monitors[name]} kernel initramfs "{WORDS}"; echo "status $?"'
        self.running.append(subprocess.Popen(["sh", "-c", script], cwd=IMAGES, stdin=theirs, stdout=theirs,
                                             stderr=theirs, start_new_session=True))
        theirs.close()
        return Console(ours)

    def stop(self):
        for process in self.running:
            with suppress(ProcessLookupError):
                os.killpg(process.pid, signal.SIGKILL)
            process.wait()


class HostInQemu:
    """Linux in QEMU."""

    def __init__(self, monitors, folder):
        ours, theirs = socket.socketpair()
        self.logs = [folder / "qemu.log", folder / "host.log"]
        words = [*QEMU, "-kernel", IMAGES / "kernel", "-initrd", make_initramfs(folder, monitors),
                 "-serial", f"file:{self.logs[1]}", "-chardev", f"socket,id=port,fd={theirs.fileno()}",
                 "-device", "virtio-serial", "-device", "virtserialport,chardev=port,name=monitors"]
        with open(self.logs[0], "wb") as log:
            self.process = subprocess.Popen(words, stdin=subprocess.DEVNULL, stdout=log, stderr=log,
                                            pass_fds=[theirs.fileno()])
        theirs.close()
        self.console = Console(ours)

    def begin(self, name):
        self.console.send(f"{name}\n")
        return self.console

    def stop(self):
        self.process.kill()
        self.process.wait()


def own_processor_runs_guests():
    is_loaded = any(Path("/sys/module", name).exists() for name in ("kvm_intel", "kvm_amd"))
    return is_loaded and os.access("/dev/kvm", os.R_OK | os.W_OK)


def make_initramfs(folder, monitors):
    """The files of the host in QEMU."""
    root = folder / "root"
    for name in ("bin", "dev", "proc", "sys"):
        (root / name).mkdir(parents=True)
    shutil.copy(IMAGES / "bin" / "busybox", root / "bin")
    for module in MODULES:
        shutil.copy(next((IMAGES / "lib" / "modules").rglob(f"{module}.ko")), root)
    for name in ("kernel", "initramfs"):
        shutil.copy(IMAGES / name, root)
    for name, monitor in monitors.items():
        shutil.copy(monitor, root / name)
    (root / "init").write_text(INIT, encoding="ascii")
    (root / "init").chmod(0o755)
    with open(folder / "initramfs", "wb") as file:
        names = "".join(f"{path.relative_to(root)}\n" for path in sorted(root.rglob("*")))
        subprocess.run([IMAGES / "bin" / "busybox", "cpio", "-o", "-H", "newc"], cwd=root, input=names.encode(),
                       stdout=file, stderr=subprocess.DEVNULL, check=True)
    return folder / "initramfs"


@contextmanager
def host(folder):
    """A host for the monitors, as a context."""
    if not (IMAGES / "initramfs").exists():
        check([ROOT / "examples" / "kvm" / "fetch", IMAGES])
    monitors = build_monitors(folder)
    machine = OwnHost(monitors) if own_processor_runs_guests() else HostInQemu(monitors, folder)
    try:
        yield machine
    finally:
        machine.stop()


@contextmanager
def console(machine, name):
    """The console of a guest in a monitor, as a context. If this takes LIMIT seconds, the host ends."""
    limit = threading.Timer(LIMIT, machine.stop)
    limit.start()
    try:
        yield machine.begin(name)
    except Stalled:
        print(*(log.read_text(errors="replace")[-2000:] for log in machine.logs if log.exists()), sep="\n")
        raise
    finally:
        limit.cancel()
