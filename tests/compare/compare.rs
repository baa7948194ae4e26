// SPDX-License-Identifier: Apache-2.0 OR BSD-3-Clause
//! Makes the calls of standard input on the devices of rust/vm-superio, or of the Rust crate vm-superio 0.8.2, and prints
//! each with what it did. They are lines of text in the form of tests/README.md, of which what stands behind
//! ` = ` does not count. What the crate does not have is `no call`.
#[cfg(feature = "further")]
mod further;

use std::io::{self, BufRead};
use std::panic::{AssertUnwindSafe, catch_unwind};
use std::sync::Arc;

use objects::{Object, set_moment};
use superio::I8042Device;
use superio::rtc_pl031::{Rtc, RtcState};
use superio::serial::{Error, Serial, SerialState};

/// The text of a reply, or of one that says why a call failed.
type Outcome = Result<String, String>;

struct Devices {
    object: Object,
    serial: Serial<Object, Arc<Object>, Object>,
    clock: Rtc<Arc<Object>>,
    controller: I8042Device<Object>,
}

impl Devices {
    fn new() -> Devices {
        let object = Object::default();
        Devices {
            serial: Serial::with_events(object.clone(), Arc::new(object.clone()), object.clone()),
            clock: Rtc::with_events(Arc::new(object.clone())),
            controller: I8042Device::new(object.clone()),
            object,
        }
    }

    /// Makes a call. Returns its reply and the calls of objects.
    fn make(&mut self, call: &str) -> String {
        let words: Vec<&str> = call.split(' ').collect();
        let count = words.iter().rev().skip_while(|word| Object::obeys(word)).count();
        self.object.begin(&words[count..]);
        let done = catch_unwind(AssertUnwindSafe(|| self.carry_out(&words[..count])));
        let reply = done.unwrap_or_else(|_| Err("panics".into())).unwrap_or_else(|error| error);
        reply + &self.object.log()
    }

    fn carry_out(&mut self, words: &[&str]) -> Outcome {
        match *words {
            ["sr", offset] => hex(self.serial.read(byte(offset))),
            ["sw", offset, value] => {
                self.serial.write(byte(offset), byte(value)).map(|()| "ok".into()).map_err(name_of)
            }
            ["sq", bytes] => {
                self.serial.enqueue_raw_bytes(&bytes_of(bytes)).map_err(name_of).and_then(|it| hex(it as u8))
            }
            ["sc"] => hex(self.serial.fifo_capacity() as u8),
            ["ss"] => self.restore(&self.serial.state()),
            ["sl", registers, bytes] => self.restore(&port_of(&bytes_of(registers), bytes_of(bytes))),
            ["cr", moment, offset] => {
                set_moment(number(moment));
                let mut bytes = [0xA5; 4]; // which an invalid read leaves as they were
                self.clock.read(number(offset) as u16, &mut bytes);
                Ok(format!("{:08x}", u32::from_le_bytes(bytes)))
            }
            ["cw", moment, offset, value] => {
                set_moment(number(moment));
                self.clock.write(number(offset) as u16, &(number(value) as u32).to_le_bytes());
                Ok("ok".into())
            }
            #[cfg(feature = "further")]
            ["cs"] => self.take_snapshot(&self.clock.snapshot()),
            #[cfg(not(feature = "further"))]
            ["cs"] => self.restore_clock(&self.clock.state()),
            ["cl", _, _, _, _, _] => self.restore_clock(&clock_of(words)),
            ["kr", offset] => hex(self.controller.read(byte(offset))),
            ["kw", offset, value] => {
                self.controller.write(byte(offset), byte(value)).map(|()| "ok".into()).map_err(|_| "trigger".into())
            }
            _ => self.carry_out_further(words),
        }
    }

    #[cfg(not(feature = "further"))]
    fn carry_out_further(&mut self, _: &[&str]) -> Outcome {
        Err("no call".into())
    }

    /// A port of this state takes the place of the one that was there.
    fn restore(&mut self, state: &SerialState) -> Outcome {
        let (object, events) = (&self.object, Arc::clone(self.serial.events()));
        self.serial = Serial::from_state(state, object.clone(), events, object.clone()).map_err(name_of)?;
        let (mut state, room) = (self.serial.state(), self.serial.fifo_capacity());
        let registers = registers_of(&mut state).map(|register| *register);
        Ok(format!("{} {} {room:02x}", hex_of(&registers), hex_of(&state.in_buffer)))
    }

    /// The same of a clock, which has no alarm then.
    fn restore_clock(&mut self, state: &RtcState) -> Outcome {
        self.clock = Rtc::from_state(state, Arc::clone(self.clock.events()));
        Ok(clock_as_text(&self.clock.state()))
    }
}

fn registers_of(state: &mut SerialState) -> [&mut u8; 9] {
    [
        &mut state.baud_divisor_low,
        &mut state.baud_divisor_high,
        &mut state.interrupt_enable,
        &mut state.interrupt_identification,
        &mut state.line_control,
        &mut state.line_status,
        &mut state.modem_control,
        &mut state.modem_status,
        &mut state.scratch,
    ]
}

fn port_of(registers: &[u8], in_buffer: Vec<u8>) -> SerialState {
    let mut state = SerialState { in_buffer, ..SerialState::default() };
    registers_of(&mut state).into_iter().zip(registers).for_each(|(register, value)| *register = *value);
    state
}

fn clock_of(words: &[&str]) -> RtcState {
    let [lr, mr, imsc, ris] = [1, 3, 4, 5].map(|place| number(words[place]) as u32);
    RtcState { lr, offset: words[2].parse().expect("a decimal number"), mr, imsc, ris }
}

fn clock_as_text(RtcState { lr, offset, mr, imsc, ris }: &RtcState) -> String {
    format!("{lr:08x} {offset} {mr:08x} {imsc:08x} {ris:08x}")
}

fn number(word: &str) -> u64 {
    u64::from_str_radix(word, 16).expect("a hexadecimal number")
}

fn byte(word: &str) -> u8 {
    number(word) as u8
}

/// The bytes of a word, `-` if there are none.
fn bytes_of(word: &str) -> Vec<u8> {
    let digits = word.trim_end_matches('-');
    (0..digits.len()).step_by(2).map(|place| byte(&digits[place..place + 2])).collect()
}

fn hex_of(bytes: &[u8]) -> String {
    if bytes.is_empty() { "-".into() } else { bytes.iter().map(|byte| format!("{byte:02x}")).collect() }
}

fn hex(value: u8) -> Outcome {
    Ok(format!("{value:02x}"))
}

fn name_of(error: Error<io::Error>) -> String {
    match error {
        Error::Trigger(_) => "trigger".into(),
        Error::IOError(_) => "io".into(),
        Error::FullFifo => "full".into(),
    }
}

fn main() {
    let mut devices = Devices::new();
    for line in io::stdin().lock().lines().map_while(Result::ok) {
        let call = line.split(" = ").next().unwrap_or_default();
        println!("{call} = {}", devices.make(call));
    }
}
