// SPDX-License-Identifier: Apache-2.0 OR BSD-3-Clause
// The rules of the bus of docs/RUST.md, in place of its `main`: what each access at each place does, by the rules of
// docs/INTEGRATION.md, and by devices of its own. `DONE` has the work of consoles that was carried out, and `FOLLOWED`
// is how many times the clock's line and timer were set: `LINE` is the level, and `TIMER` the moment at which the timer
// goes off.

use std::sync::atomic::{AtomicBool, AtomicU64, AtomicUsize, Ordering::Relaxed};
use std::sync::Mutex;

static DONE: Mutex<Vec<Work>> = Mutex::new(Vec::new());
static FOLLOWED: AtomicUsize = AtomicUsize::new(0);
static LINE: AtomicBool = AtomicBool::new(false);
static TIMER: AtomicU64 = AtomicU64::new(u64::MAX);
const NOW: u64 = 1_700_000_000;

/// A machine of which no access leaves all as it is: a byte is held, RDA is pending and an alarm is due.
fn used_machine() -> Machine {
    let mut machine = Machine { console: Console::new(false), clock: Pl031::new(), clock_was_up: false, now: NOW };
    let _ = machine.console.write(1, 0x03);
    let _ = machine.console.receive(b"hi");
    machine.clock.write(0x010, 1, NOW - 60);
    machine.clock.write(0x004, NOW as u32, NOW - 60);
    machine
}

/// What one access did to a used machine has to be what `by_rule` does to another, with the same reply and work.
fn assert_same<T: PartialEq + std::fmt::Debug>(
    place: &str,
    access: impl FnOnce(&mut Machine) -> T,
    by_rule: impl FnOnce(&mut Machine) -> (T, Option<Work>, usize),
) {
    let (mut machine, mut other) = (used_machine(), used_machine());
    DONE.lock().unwrap().clear();
    FOLLOWED.store(0, Relaxed);
    LINE.store(false, Relaxed);
    TIMER.store(u64::MAX, Relaxed);
    let found = access(&mut machine);
    let (reply, work, followed) = by_rule(&mut other);
    assert_eq!((found, FOLLOWED.load(Relaxed)), (reply, followed), "{place}");
    assert_eq!(*DONE.lock().unwrap(), Vec::from_iter(work), "{place}");
    assert!(machine.console == other.console && machine.clock == other.clock, "{place}: another state");
    if followed > 0 {
        let timer = machine.clock.alarm_due(NOW).map_or(u64::MAX, |due| NOW + due);
        assert_eq!((LINE.load(Relaxed), TIMER.load(Relaxed)), (machine.clock.interrupt_line(), timer), "{place}");
    }
}

fn main() {
    for port in 0..=u16::MAX {
        for value in [0x5A, 0xFE] {
            let write = |machine: &mut Machine| machine.port_write(port, value);
            assert_same(&format!("write {port:x} {value:x}"), write, |other| match (port, value) {
                (0x3F8..=0x3FF, _) => ((), Some(other.console.write((port - 0x3F8) as u8, value)), 0),
                (0x64, 0xFE) => ((), Some(other.console.reset()), 0),
                _ => ((), None, 0),
            });
        }
        assert_same(&format!("read {port:x}"), |machine| machine.port_read(port), |other| match port {
            0x3F8..=0x3FF => {
                let read = other.console.read((port - 0x3F8) as u8);
                (read.byte, Some(read.work), 0)
            }
            0x60 | 0x64 => (0, None, 0),
            _ => (0xFF, None, 0),
        });
    }
    for offset in 0..0x1000 {
        for size in 1..=8 {
            let read = |machine: &mut Machine| {
                let mut bytes = vec![0xAA; size];
                machine.clock_read(offset, &mut bytes);
                bytes
            };
            assert_same(&format!("read {offset:x} {size}"), read, |other| {
                let (word, begin) = if size == 4 { (offset, 0) } else { (offset & !3, usize::from(offset & 3)) };
                if begin + size > 4 {
                    return (vec![0xFF; size], None, 0); // it crosses a boundary, or is wider
                }
                let value = other.clock.read(word, NOW).unwrap_or(0).to_le_bytes();
                (value[begin..begin + size].to_vec(), None, 1)
            });
            let bytes = &[0x10, 0xF2, 0x53, 0x65, 1, 2, 3, 4][..size];
            let write = |machine: &mut Machine| machine.clock_write(offset, bytes);
            assert_same(&format!("write {offset:x} {size}"), write, |other| {
                let is_taken = size == 4 && offset != 0x00C;
                if is_taken {
                    other.clock.write(offset, 0x6553_F210, NOW);
                }
                ((), None, usize::from(is_taken))
            });
        }
    }
    println!("each rule is kept");
}
