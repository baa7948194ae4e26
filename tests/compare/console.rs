// SPDX-License-Identifier: Apache-2.0 OR BSD-3-Clause
//! Makes rows of accesses as accesses.rs does, on a port alone or on a console. Prints two numbers that depend on each
//! reply of the ten rounds and of the third list. Callgrind counts `sum_of_port` and `sum_of_console`.
//!
//! Both monitors raise edges, and learn when the FIFO takes more input: from the console's wakes, or whenever a read
//! has emptied it. The output of the port is dropped.
use std::sync::atomic::{AtomicU64, Ordering::Relaxed};

use superio::sansio::Uart;
use superio::sansio::console::{Console, Work};

use super::{ROUNDS, rows};

static INTERRUPTS: AtomicU64 = AtomicU64::new(0);
static WAKES: AtomicU64 = AtomicU64::new(0);

#[inline(always)]
fn raise(interrupts: u8) {
    if interrupts > 0 {
        INTERRUPTS.fetch_add(interrupts.into(), Relaxed);
    }
}

#[inline(always)]
fn wake(wakes: bool) {
    if wakes {
        WAKES.fetch_add(1, Relaxed);
    }
}

#[inline(always)]
fn carry_out(work: Work) {
    raise(work.interrupts);
    wake(work.wakes);
}

/// What makes accesses, and returns what each read or enqueued.
pub trait Device {
    fn fresh() -> Self;
    fn make(&mut self, access: [u8; 3]) -> u64;
}

impl Device for Uart {
    fn fresh() -> Uart {
        Uart::new()
    }

    #[inline(always)]
    fn make(&mut self, [kind, offset, value]: [u8; 3]) -> u64 {
        match kind {
            b'r' => {
                let effects = self.read(offset);
                wake(effects.in_buffer_empty);
                return effects.byte.into();
            }
            b'w' => raise(self.write(offset, value).interrupts),
            b'e' => {
                let effects = self.enqueue_raw_bytes(&[b'a'; 255][..value.into()]);
                raise(effects.interrupts);
                return effects.accepted as u64;
            }
            b't' => raise(self.character_timeout()),
            _ => {}
        }
        0
    }
}

impl Device for Console {
    fn fresh() -> Console {
        Console::new(true)
    }

    #[inline(always)]
    fn make(&mut self, [kind, offset, value]: [u8; 3]) -> u64 {
        match kind {
            b'r' => {
                let read = self.read(offset);
                carry_out(read.work);
                return read.byte.into();
            }
            b'w' => carry_out(self.write(offset, value)),
            b'e' => {
                let received = self.receive(&[b'a'; 255][..value.into()]);
                carry_out(received.work);
                return received.accepted as u64;
            }
            b't' => carry_out(self.turn()),
            b'v' => {
                let wants = self.wants();
                return wants.input as u64 + u64::from(wants.output) + u64::from(wants.turn);
            }
            b'c' => self.consume(value.into()),
            _ => {}
        }
        0
    }
}

/// Makes accesses in order.
#[inline(always)]
fn sum_of(device: &mut impl Device, list: &[[u8; 3]]) -> u64 {
    list.iter().fold(0, |sum: u64, access| sum.wrapping_mul(31).wrapping_add(device.make(*access)))
}

#[no_mangle]
#[inline(never)]
pub fn sum_of_port(port: &mut Uart, list: &[[u8; 3]]) -> u64 {
    sum_of(port, list)
}

#[no_mangle]
#[inline(never)]
pub fn sum_of_console(console: &mut Console, list: &[[u8; 3]]) -> u64 {
    sum_of(console, list)
}

/// Makes the rows of standard input on devices whose accesses a function makes.
pub fn make_rows<D: Device>(sum_of: fn(&mut D, &[[u8; 3]]) -> u64) {
    for [once, repeated, last] in rows() {
        let mut device = D::fresh();
        sum_of(&mut device, &once);
        sum_of(&mut device, &repeated);
        let sum = sum_of(&mut device, &repeated.repeat(ROUNDS));
        println!("{sum} {} 0 0", sum_of(&mut device, &last));
    }
}
