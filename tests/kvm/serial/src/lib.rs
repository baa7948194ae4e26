// SPDX-License-Identifier: Apache-2.0 OR BSD-3-Clause
//! The functions of `serial.c` of `examples/kvm`, over the `Serial` of the Rust crate: what docs/PORT.md has somebody do
//! who takes the bare port. The monitor around them, in C, is the same. It calls each with its lock held.
// Old compilers find the blocks needless, unless they have to be there.
#![deny(unsafe_op_in_unsafe_fn)]

use std::collections::VecDeque;
use std::io::{self, Write};
use std::mem::take;
use std::slice;
use std::sync::Mutex;

use vm_superio::serial::line::InterruptLine;
use vm_superio::serial::timeout::CharacterTimeout;
use vm_superio::serial::NoEvents;
use vm_superio::{Serial, Trigger};

const INTERRUPT_ENABLE: u8 = 1;
const INTERRUPT_IDENTIFICATION: u8 = 2;
const FIFO_SIZE: usize = 64;
const OUTPUT_SIZE: usize = 4096;
const LOOPBACK: u8 = 0x10;

/// With this bit of LCR, two stop bits, a guest gets no character timeout, so that a test shows what that is for. When
/// it then leaves bytes and reads that nothing is pending, this says how many have come, as timeout.c does.
const NO_TIMEOUT: u8 = 0x04;

extern "C" {
    fn machine_interrupt() -> bool;
    fn monitor_hold() -> bool;
    fn monitor_wake();
}

/// The interrupt of the port.
struct Line;

/// The interrupt is to be asked for again later.
#[derive(Debug)]
struct Refused;

impl Trigger for Line {
    type E = Refused;

    fn trigger(&self) -> Result<(), Refused> {
        // SAFETY: the monitor holds its lock.
        unsafe { machine_interrupt() }.then_some(()).ok_or(Refused)
    }
}

/// What the guest has sent, until the terminal takes it. What finds no room is dropped, and counted.
#[derive(Default)]
struct Output {
    waiting: VecDeque<u8>,
    dropped: u64,
}

impl Write for Output {
    fn write(&mut self, bytes: &[u8]) -> io::Result<usize> {
        let kept = bytes.len().min(OUTPUT_SIZE - self.waiting.len());
        self.waiting.extend(&bytes[..kept]);
        self.dropped += (bytes.len() - kept) as u64;
        Ok(bytes.len())
    }

    fn flush(&mut self) -> io::Result<()> {
        Ok(())
    }
}

/// What the event loop waits for, as a `superio_console_wanted` of C.
#[repr(C)]
pub struct Wanted {
    input: usize,
    output: bool,
    turn: bool,
}

struct Port {
    serial: Serial<Line, NoEvents, Output>,
    is_polled: bool,
    takes_input: bool,
    is_refused: bool,
    /// So many bytes the guest has read since it wanted no character timeout.
    taken: usize,
}

static PORT: Mutex<Option<Port>> = Mutex::new(None);

/// Calls a function with the port.
fn with_port<T>(call: impl FnOnce(&mut Port) -> T) -> T {
    call(PORT.lock().unwrap().as_mut().unwrap())
}

/// An access of the guest. Afterwards it wakes the event loop if that has something new to wait for.
fn access<T>(make: impl FnOnce(&mut Port) -> T) -> T {
    with_port(|port| {
        let before = port.wants();
        let result = make(port);
        let now = port.wants();
        if before.input == 0 && now.input > 0 || !before.output && now.output || !before.turn && now.turn {
            // SAFETY: the monitor holds its lock.
            unsafe { monitor_wake() }
        }
        result
    })
}

impl Port {
    fn wants(&self) -> Wanted {
        let (state, room) = (self.serial.state(), self.serial.fifo_capacity());
        let is_open = self.takes_input && state.modem_control & LOOPBACK == 0;
        let has_input = room < FIFO_SIZE && state.interrupt_enable & 1 != 0;
        Wanted {
            input: if is_open { room } else { 0 },
            output: !self.serial.writer().waiting.is_empty(),
            turn: has_input || self.is_refused && self.serial.interrupt_line(),
        }
    }

    fn note<T, E>(&mut self, result: Result<T, E>) {
        self.is_refused |= result.is_err();
    }

    /// Asks again for what was refused, once IER enables it.
    fn retry(&mut self) {
        if self.is_refused && self.serial.interrupt_line() {
            self.is_refused = self.serial.retry_interrupts().is_err();
        }
    }

    fn has_no_timeout(&self) -> bool {
        self.serial.state().line_control & NO_TIMEOUT != 0
    }

    fn held(&self) -> usize {
        self.serial.state().in_buffer.len()
    }

    /// Makes the character timeout, unless the guest wants none.
    fn time_out(&mut self) {
        if !self.has_no_timeout() {
            let result = self.serial.character_timeout();
            self.note(result);
        }
    }
}

#[no_mangle]
pub extern "C" fn serial_open(is_polled: bool) {
    let serial = Serial::new(Line, Output::default());
    *PORT.lock().unwrap() = Some(Port { serial, is_polled, takes_input: is_polled, is_refused: false, taken: 0 });
}

/// Waiting output is kept.
#[no_mangle]
pub extern "C" fn serial_reset() {
    access(|port| {
        port.serial = Serial::new(Line, take(port.serial.writer_mut()));
        port.takes_input = port.is_polled;
        port.is_refused = false;
    });
}

#[no_mangle]
pub extern "C" fn serial_read(offset: u8) -> u8 {
    access(|port| {
        let held = port.held();
        let value = port.serial.read(offset);
        port.taken = if port.has_no_timeout() { port.taken + held - port.held() } else { 0 };
        if offset == INTERRUPT_IDENTIFICATION {
            port.is_refused = false;
            if value & 1 != 0 {
                port.time_out();
                if held > 0 && port.has_no_timeout() {
                    eprint!("{}", format!("{}  -\n", port.taken + held));
                }
            }
        }
        value
    })
}

#[no_mangle]
pub extern "C" fn serial_write(offset: u8, value: u8) {
    access(|port| match port.serial.write(offset, value) {
        Ok(()) if offset == INTERRUPT_ENABLE => port.retry(),
        result => port.note(result),
    });
    if offset == INTERRUPT_ENABLE {
        access(|port| port.takes_input |= port.serial.state().interrupt_enable & 3 == 1);
    }
    // The guest may wait here, without the monitor's lock and without the port.
    let is_full = || with_port(|port| port.serial.writer().waiting.len() == OUTPUT_SIZE);
    // SAFETY: the monitor holds its lock.
    while is_full() && unsafe { monitor_hold() } {}
}

/// # Safety
///
/// `bytes` points to `count` bytes.
#[no_mangle]
pub unsafe extern "C" fn serial_receive(bytes: *const u8, count: usize) -> usize {
    // SAFETY: the caller's duty.
    let bytes = unsafe { slice::from_raw_parts(bytes, count) };
    with_port(|port| {
        let accepted = count.min(port.wants().input);
        if accepted > 0 {
            let result = port.serial.enqueue_raw_bytes(&bytes[..accepted]);
            port.note(result);
        }
        accepted
    })
}

/// # Safety
///
/// `bytes` points to `count` bytes.
#[no_mangle]
pub unsafe extern "C" fn serial_output(bytes: *mut u8, count: usize) -> usize {
    // SAFETY: the caller's duty.
    let bytes = unsafe { slice::from_raw_parts_mut(bytes, count) };
    with_port(|port| {
        let oldest = port.serial.writer().waiting.as_slices().0;
        let copied = count.min(oldest.len());
        bytes[..copied].copy_from_slice(&oldest[..copied]);
        copied
    })
}

#[no_mangle]
pub extern "C" fn serial_consume(count: usize) {
    with_port(|port| drop(port.serial.writer_mut().waiting.drain(..count)));
}

#[no_mangle]
pub extern "C" fn serial_dropped() -> u64 {
    with_port(|port| port.serial.writer().dropped)
}

#[no_mangle]
pub extern "C" fn serial_turn() -> Wanted {
    with_port(|port| {
        port.retry();
        port.time_out();
        port.wants()
    })
}
