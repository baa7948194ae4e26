# SPDX-License-Identifier: Apache-2.0 OR BSD-3-Clause
"""Debian's Linux in the monitor of examples/kvm, over the C library and over the Rust crate's `Serial`.

It boots to a shell, and gets pastes in pieces, which arrive whole: so many of the kind that stalls without a character
timeout that docs/MONITOR.md can count them. It sends bytes back, then both at once. It reads, sets and awaits the
clock. Without the character timeout a burst stalls until one more byte comes. At the end it resets the machine.

Since this takes minutes, `linux.record` has the sum of the sources with which it last passed. If these have changed,
or with --boot, Linux boots. If it then passes with other sources, --write-record writes the record again, and without
it the test fails.
"""
import hashlib
import random
import time
from itertools import count

import pytest
from booting import Stalled, console, host, sum_of_sources
from harness import LIMIT
from monitors import HERE

pytestmark = [pytest.mark.needs("cc", "make", "cargo", "qemu"), pytest.mark.where("Linux on x86-64")]

RECORD = HERE / "linux.record"
PASTES, PASTED, MOVED, EXCHANGED = 30, 4096, 65536, 16384
# A burst has more bytes than Linux's handler takes in one pass, 256, but not more than the FIFO has room for.
BURST = 256 + 40
# Pieces of a paste: their sizes in turn.
EVEN, ODD = [1000], [1, 7, 64, 65, 300, 1000, 255, 257]
# After how many seconds what does not come counts as what never comes, and how many a stall is looked at.
PATIENCE, STALL = LIMIT, 8
CLOCK = 0xD0000
RTCDR, RTCMR, RTCLR, RTCIMSC, RTCMIS, RTCICR = (CLOCK + offset for offset in (0x000, 0x004, 0x008, 0x010, 0x018, 0x01C))
SET_TO = 0x10000000  # in 1978


def printable(count, seed):
    """So many random letters, which no terminal takes for anything else."""
    return bytes(random.Random(seed).choices(b"abcdefghijklmnopqrstuvwxyz", k=count))


def digest(content):
    return hashlib.md5(content).hexdigest().encode()


def run(guest, command):
    """What a command of the guest prints."""
    guest.send(f"echo b''egin; {command}; echo e''nd\n")
    guest.until(b"begin\r\n", PATIENCE)
    return guest.until(b"end\r\n", PATIENCE).decode()


def begin_raw(guest, command):
    """Starts a command on a terminal that passes every byte as it is."""
    guest.send(f"stty raw -echo; echo r''eady; {command}; stty sane\n")
    guest.until(b"ready\n", PATIENCE)


def check_paste(guest, sizes):
    """A paste arrives whole."""
    content = printable(PASTED, str(sizes))
    begin_raw(guest, f"head -c {PASTED} | md5sum")
    guest.paste(content, sizes)
    assert guest.until(b"  -\n", PATIENCE) == digest(content)


def check_output(guest):
    """What the guest sends comes out as it is."""
    run(guest, f"dd if=/dev/urandom of=/sent bs={MOVED} count=1")
    begin_raw(guest, "cat /sent; md5sum < /sent")
    content = guest.take(MOVED, PATIENCE)
    assert guest.until(b"  -\n", PATIENCE) == digest(content)


def check_both(guest):
    """The guest receives while it sends."""
    content = printable(EXCHANGED, "both")
    run(guest, f"dd if=/dev/urandom of=/sent bs={EXCHANGED} count=1")
    begin_raw(guest, f"(cat /sent & head -c {EXCHANGED} > /received; wait); cat /sent /received | md5sum")
    guest.paste(content, EVEN)
    sent = guest.take(EXCHANGED, PATIENCE)
    assert guest.until(b"  -\n", PATIENCE) == digest(sent + content)


def next_sum(guest, all_came, seconds):
    """The sum that the guest says next. Before it the monitor may say how many bytes have come while some wait: once all
    have come, the sum is awaited for so many seconds."""
    said = b"0"
    while said.isdigit():
        said = guest.until(b"  -\n", seconds if said == all_came else PATIENCE)
    return said


def check_stall(guest):
    """Without the character timeout a burst waits until one more byte comes, and has lost nothing. It does not wait if
    the handler finds the FIFO empty, or runs once more to send. So this makes bursts until one waits."""
    run(guest, "stty cstopb")  # the monitors of this test make no timeout then, and say what has come and waits
    before = guest.sent
    for number in count():
        content = printable(BURST, f"burst {number}")
        begin_raw(guest, f"head -c {BURST} | md5sum")
        guest.send(content)
        try:
            assert next_sum(guest, str(guest.sent - before).encode(), STALL) == digest(content)
        except Stalled:
            guest.send(b"\n")
            assert next_sum(guest, b"", PATIENCE) == digest(content)
            return


def check_clock(guest):
    """The guest reads the time, sets it, and sees an alarm."""
    before = time.time()
    assert before - 60 < int(run(guest, f"devmem {RTCDR}"), 16) < time.time() + 60
    before = time.time()
    run(guest, f"devmem {RTCLR} 32 {SET_TO}")
    assert 0 <= int(run(guest, f"devmem {RTCDR}"), 16) - SET_TO <= time.time() - before + 1
    run(guest, f"devmem {RTCIMSC} 32 1")
    # Far ahead of any moment of this test, and then so near that it comes: but if the guest stands still meanwhile, the
    # moment may have passed before it is set, and the next one is tried.
    assert run(guest, f"devmem {RTCICR} 32 1; devmem {RTCMR} 32 {2 * SET_TO}; devmem {RTCMIS}") == "0x00000000\r\n"
    run(guest, f"while at=$(($(devmem {RTCDR}) + 4)); devmem {RTCMR} 32 $at; [ $(($(devmem {RTCDR}))) -ge $at ]; do :; "
               f"done")
    assert run(guest, f"while [ $(devmem {RTCMIS}) = 0x00000000 ]; do usleep 100000; done; devmem {RTCMIS}") \
        == "0x00000001\r\n"


def end(guest):
    """The guest resets the machine, which ends the monitor."""
    guest.send("reboot -f\n")
    guest.until(b": the guest reset the machine\n", PATIENCE)
    guest.until(b"status 0\n", PATIENCE)


def check_guest(guest):
    guest.until(b"/ # ", PATIENCE)
    assert run(guest, "uname -s") == "Linux\r\n"
    for sizes in [*PASTES * [EVEN], ODD]:
        check_paste(guest, sizes)
    check_output(guest)
    check_both(guest)
    check_clock(guest)
    check_stall(guest)
    end(guest)


def test_linux_passed_with_these_sources(tmp_path, pytestconfig):
    before = RECORD.read_text(encoding="ascii")
    record = f"{sum_of_sources()}  the sources with which Linux last passed\n"
    if before != record or pytestconfig.getoption("--boot"):
        with host(tmp_path) as machine:
            for name in ("c", "rust"):
                with console(machine, name) as guest:
                    check_guest(guest)
        if pytestconfig.getoption("--write-record"):
            RECORD.write_text(record, encoding="ascii")
            before = record
    assert before == record, "Linux passed with the changed sources: run tools/generate linux, and commit its record"
