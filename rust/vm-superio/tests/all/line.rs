// SPDX-License-Identifier: Apache-2.0 OR BSD-3-Clause
//! The interrupt line as a level, under a model of an interrupt controller that takes levels.
use std::convert::Infallible;
use std::io::{self, Sink};

use vm_superio::serial::line::InterruptLine;
use vm_superio::serial::timeout::CharacterTimeout;
use vm_superio::serial::NoEvents;
use vm_superio::{Serial, Trigger};

/// The line is set after each call instead.
struct NoPulse;

impl Trigger for NoPulse {
    type E = Infallible;

    fn trigger(&self) -> Result<(), Infallible> {
        Ok(())
    }
}

struct Machine {
    port: Serial<NoPulse, NoEvents, Sink>,
    line: bool,
}

impl Machine {
    /// Sets the line after a call of the port, and passes on what the call returned.
    fn set_line<T>(&mut self, returned: T) -> T {
        self.line = self.port.interrupt_line(); // a monitor passes it to KVM if it has changed
        returned
    }

    fn read(&mut self, offset: u8) -> u8 {
        let value = self.port.read(offset);
        if offset == 2 && value & 0x01 != 0 {
            let _ = self.port.character_timeout(); // whose trigger does nothing
        }
        self.set_line(value)
    }

    /// What the guest receives of a paste if it reads out at most `most` bytes for each look at IIR.
    fn received(&mut self, paste: &[u8], most: usize) -> Vec<u8> {
        let (mut offered, mut received) = (0, Vec::new());
        while offered < paste.len() {
            let accepted = self.port.enqueue_raw_bytes(&paste[offered..]);
            offered += self.set_line(accepted).unwrap();
            while self.line {
                while self.read(2) & 0x01 == 0 {
                    for _ in 0..most {
                        if self.read(5) & 0x01 != 0 {
                            received.push(self.read(0));
                        }
                    }
                }
            }
        }
        received
    }
}

#[test]
fn pastes_arrive_whole_by_a_level() {
    let paste: Vec<u8> = (0..1_000).map(|number| (number % 251) as u8).collect();
    for most in [1, 16, 63, 64, 256] {
        let mut machine = Machine { port: Serial::new(NoPulse, io::sink()), line: false };
        let written = machine.port.write(1, 0x01);
        machine.set_line(written).unwrap();
        assert_eq!(machine.received(&paste, most), paste, "{most} bytes at a look");
    }
}
