// SPDX-License-Identifier: Apache-2.0 OR BSD-3-Clause
//! What the devices of the programs here call: the host's clock, and an object that is the trigger, the events object
//! and the writer in one, behaves as a call says, and keeps a log.
use std::cell::RefCell;
use std::io::{self, ErrorKind, Write};
use std::panic;
use std::rc::Rc;
use std::sync::atomic::{AtomicU64, Ordering};

use superio::Trigger;
use superio::rtc_pl031::RtcEvents;
use superio::serial::SerialEvents;

static MOMENT: AtomicU64 = AtomicU64::new(0);
/// How often the clock has asked for the host's time.
pub static ASKED: AtomicU64 = AtomicU64::new(0);

/// Sets the moment that the clock sees, in seconds since the start of 1970. The clock looks at its low 32 bits.
pub fn set_moment(moment: u64) {
    MOMENT.store(moment & u64::MAX >> 1, Ordering::Relaxed);
}

/// Takes the place of the C function by which Rust's library finds `SystemTime::now()`, for which the clock asks.
///
/// # Safety
///
/// Two numbers of 64 bits can be written to `time`, as on 64-bit Linux.
#[no_mangle]
unsafe extern "C" fn clock_gettime(_clock: i32, time: *mut [u64; 2]) -> i32 {
    ASKED.fetch_add(1, Ordering::Relaxed);
    time.write([MOMENT.load(Ordering::Relaxed), 0]);
    0
}

/// The words of a behaviour, and the signs of the calls in which an object was asked.
#[derive(Clone, Debug, Default)]
pub struct Object {
    behaviour: Rc<RefCell<String>>,
    log: Rc<RefCell<Vec<String>>>,
}

impl Object {
    /// Whether a word says how objects behave, as those of tests/README.md do, or such as `p2`: the call of an
    /// object panics that comes after two others.
    pub fn obeys(word: &&str) -> bool {
        matches!(*word, "1" | "2" | "n" | "i" | "f" | "u") || word.starts_with('p')
    }

    /// Begins a call, in which the object behaves as the words say.
    pub fn begin(&self, words: &[&str]) {
        self.behaviour.replace(words.join(" "));
        self.log.take();
    }

    /// The log of the call, with a space before each sign.
    pub fn log(&self) -> String {
        self.log.borrow().iter().map(|sign| format!(" {sign}")).collect()
    }

    fn behaves(&self, word: &str) -> bool {
        self.behaviour.borrow().split(' ').any(|it| it == word)
    }

    fn note(&self, sign: &str) {
        self.log.borrow_mut().push(sign.into());
        if self.behaves(&format!("p{}", self.log.borrow().len() - 1)) {
            panic::resume_unwind(Box::new("an object panics")); // which prints nothing
        }
    }

    /// How many signs of the log begin so.
    fn count(&self, signs: &[char]) -> usize {
        self.log.borrow().iter().filter(|it| it.starts_with(signs)).count()
    }
}

impl Trigger for Object {
    type E = io::Error;

    fn trigger(&self) -> io::Result<()> {
        let refuses = self.behaves(&(self.count(&['T', 'R']) + 1).to_string());
        self.note(if refuses { "R" } else { "T" });
        if refuses { Err(ErrorKind::WouldBlock.into()) } else { Ok(()) }
    }
}

macro_rules! notes {
    ($($event:ident $sign:literal)*) => { $(fn $event(&self) { self.note($sign); })* };
}

impl SerialEvents for Object {
    notes!(buffer_read "b" out_byte "o" tx_lost_byte "l" in_buffer_empty "e");
}

impl RtcEvents for Object {
    notes!(invalid_read "i" invalid_write "j");
}

impl Write for Object {
    fn write(&mut self, bytes: &[u8]) -> io::Result<usize> {
        bytes.iter().for_each(|byte| self.note(&format!("W{byte:02x}")));
        match () {
            _ if self.behaves("n") => Ok(0),
            _ if self.behaves("f") => Err(ErrorKind::BrokenPipe.into()),
            _ if self.behaves("i") && self.count(&['W']) == 1 => Err(ErrorKind::Interrupted.into()),
            _ => Ok(bytes.len()),
        }
    }

    fn flush(&mut self) -> io::Result<()> {
        self.note("F");
        if self.behaves("u") { Err(ErrorKind::BrokenPipe.into()) } else { Ok(()) }
    }
}
