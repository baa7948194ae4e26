// SPDX-License-Identifier: Apache-2.0 OR BSD-3-Clause
//! Makes the rows of accesses that come on standard input, for tests/costs. A row has three lists, with ` / `
//! between them: a new board makes the first, then the second once and ten times, and then the third. Callgrind counts
//! `sum_of`. An access is one of docs/PERFORMANCE.md, such as `w0741`. With the word `port` or `console`, it is
//! console.rs that makes them: one program has all of them, because its link-time optimisation takes seconds.
//!
//! Prints two numbers that depend on each reply of the ten rounds and of the third list, how often the trigger was
//! called, and how often the clock asked for the host's time in the ten rounds. The output is dropped, and nobody hears
//! the events.
#[cfg(feature = "further")]
mod console;

use std::convert::Infallible;
use std::env::args;
use std::hint::black_box;
use std::io::{Sink, sink, stdin};
use std::sync::atomic::{AtomicU64, Ordering::Relaxed};
use std::time::{SystemTime, UNIX_EPOCH};

use objects::{ASKED, set_moment};
use superio::rtc_pl031;
use superio::serial::{NoEvents, Serial};
use superio::{I8042Device, Rtc, Trigger};

const ROUNDS: usize = 10;
const MOMENT: u64 = 1_000;
static INTERRUPTS: AtomicU64 = AtomicU64::new(0);

/// Counts its calls, and refuses none.
struct Counter;

impl Trigger for Counter {
    type E = Infallible;

    fn trigger(&self) -> Result<(), Infallible> {
        INTERRUPTS.fetch_add(1, Relaxed);
        Ok(())
    }
}

type Clock = Rtc<rtc_pl031::NoEvents>;

// A monitor has these once, and they are large: merged with the others they would change their counts.

#[inline(never)]
fn host_time() -> u64 {
    SystemTime::now().duration_since(UNIX_EPOCH).map_or(0, |since| since.as_secs())
}

#[inline(never)]
fn read_clock(clock: &mut Clock, offset: u16) -> u32 {
    let mut bytes = [0; 4];
    clock.read(offset, &mut bytes);
    u32::from_le_bytes(bytes)
}

#[inline(never)]
fn write_clock(clock: &mut Clock, offset: u16, value: u32) {
    clock.write(offset, &value.to_le_bytes());
}

/// Reads the clock at the moment of an exit. vm-superio asks for the time all the same, where it does.
#[inline(never)]
fn read_clock_at(clock: &mut Clock, offset: u16, _now: u64) -> u32 {
    let mut bytes = [0; 4];
    #[cfg(feature = "further")]
    clock.read_at(offset, &mut bytes, _now);
    #[cfg(not(feature = "further"))]
    clock.read(offset, &mut bytes);
    u32::from_le_bytes(bytes)
}

#[inline(never)]
fn write_clock_at(clock: &mut Clock, offset: u16, value: u32, _now: u64) {
    #[cfg(feature = "further")]
    clock.write_at(offset, &value.to_le_bytes(), _now);
    #[cfg(not(feature = "further"))]
    clock.write(offset, &value.to_le_bytes());
}

struct Board {
    serial: Serial<Counter, NoEvents, Sink>,
    clock: Clock,
    controller: I8042Device<Counter>,
}

impl Board {
    fn new() -> Board {
        Board { serial: Serial::new(Counter, sink()), clock: Rtc::new(), controller: I8042Device::new(Counter) }
    }

    /// Makes an access. Returns what it read or enqueued.
    #[inline(always)]
    fn make(&mut self, [kind, offset, value]: [u8; 3]) -> u64 {
        match kind {
            b'r' => return self.serial.read(offset).into(),
            b'w' => return self.serial.write(offset, value).is_err().into(),
            b'e' => return self.serial.enqueue_raw_bytes(&[b'a'; 255][..value.into()]).unwrap_or(0) as u64,
            b's' => {
                let port = Serial::from_state(&self.serial.state(), Counter, NoEvents, sink());
                self.serial = port.expect("a port of its own state");
            }
            b'R' => return read_clock(&mut self.clock, offset.into()).into(),
            b'W' => write_clock(&mut self.clock, offset.into(), value.into()),
            b'm' => return read_clock_at(&mut self.clock, offset.into(), MOMENT).into(),
            b'M' => write_clock_at(&mut self.clock, offset.into(), value.into(), MOMENT),
            b'h' => return host_time(),
            // rustc is kept from seeing that all numbers stay as they are.
            b'S' => self.clock = Rtc::from_state(&black_box(self.clock.state()), rtc_pl031::NoEvents),
            b'i' => return self.controller.read(offset).into(),
            b'o' => return self.controller.write(offset, value).is_err().into(),
            _ => {}
        }
        0
    }

    /// Makes accesses in order.
    #[no_mangle]
    #[inline(never)]
    fn sum_of(&mut self, list: &[[u8; 3]]) -> u64 {
        list.iter().fold(0, |sum: u64, access| sum.wrapping_mul(31).wrapping_add(self.make(*access)))
    }
}

fn accesses_of(words: &str) -> Vec<[u8; 3]> {
    let byte = |digits| u8::from_str_radix(digits, 16).expect("two digits");
    words.split_whitespace().map(|word| [word.as_bytes()[0], byte(&word[1..3]), byte(&word[3..])]).collect()
}

/// The rows of standard input, each with its three lists.
fn rows() -> impl Iterator<Item = [Vec<[u8; 3]>; 3]> {
    stdin().lines().map(|row| {
        let row = row.expect("a row");
        [0, 1, 2].map(|place| accesses_of(row.split('/').nth(place).expect("three lists")))
    })
}

fn main() {
    match args().nth(1).as_deref() {
        #[cfg(feature = "further")]
        Some("port") => console::make_rows(console::sum_of_port),
        #[cfg(feature = "further")]
        Some("console") => console::make_rows(console::sum_of_console),
        _ => make_rows(),
    }
}

fn make_rows() {
    set_moment(MOMENT);
    for [once, repeated, last] in rows() {
        let mut board = Board::new();
        INTERRUPTS.store(0, Relaxed);
        board.sum_of(&once);
        board.sum_of(&repeated);
        ASKED.store(0, Relaxed);
        let sum = board.sum_of(&repeated.repeat(ROUNDS));
        let asked = ASKED.load(Relaxed);
        println!("{sum} {} {} {asked}", board.sum_of(&last), INTERRUPTS.load(Relaxed));
    }
}
