// SPDX-License-Identifier: Apache-2.0 OR BSD-3-Clause
//! A guest's driver that sends back what you type, in capitals: `echo hello | cargo run --example echo` prints HELLO.
//!
//! Each line of standard input reaches the console as a terminal's input would. The driver below is the guest. It is
//! called for the interrupt, reads bytes that have come, and sends its answer. The end of input (Ctrl-D) ends the
//! program.
use std::io::{self, BufRead, Write};

use superio::console::{Console, Work};

const DATA: u8 = 0;
const INTERRUPT_ENABLE: u8 = 1;
const INTERRUPT_IDENTIFICATION: u8 = 2;
const LINE_STATUS: u8 = 5;

/// How many bytes the guest's driver reads out in one pass. It leaves the others to the next one, as many do.
const MOST: usize = 16;

/// A machine with its monitor.
pub struct Machine {
    pub console: Console,
    /// The interrupt line: a flag that the guest's processor looks at.
    pub is_interrupted: bool,
}

impl Machine {
    /// A machine whose guest has not started.
    pub fn fresh() -> Machine {
        Machine { console: Console::new(false), is_interrupted: false }
    }

    /// Carries out what a call has left. This line is edge-triggered and refuses nothing, and the guest's processor
    /// runs in the thread of the event loop, so there is nobody to wake.
    fn carry_out(&mut self, work: Work) {
        self.is_interrupted |= work.interrupts > 0;
    }

    /// The guest reads a register.
    pub fn read(&mut self, offset: u8) -> u8 {
        let read = self.console.read(offset);
        self.carry_out(read.work);
        read.byte
    }

    /// The guest writes a register.
    pub fn write(&mut self, offset: u8, value: u8) {
        let work = self.console.write(offset, value);
        self.carry_out(work);
    }

    /// A turn of the event loop, with the input that has arrived. Returns how many bytes of it went in: the others have
    /// to be offered again.
    pub fn turn(&mut self, arrived: &[u8]) -> usize {
        let received = self.console.receive(arrived);
        self.carry_out(received.work);
        let work = self.console.turn();
        self.carry_out(work);
        received.accepted
    }

    /// Passes output on as far as the reader takes it. One that does not block may take nothing now.
    pub fn drain(&mut self, reader: &mut impl Write) -> io::Result<()> {
        while self.console.wants().output {
            match reader.write(self.console.output()) {
                Ok(0) => return Err(io::ErrorKind::WriteZero.into()),
                Ok(count) => self.console.consume(count),
                Err(fault) if fault.kind() == io::ErrorKind::WouldBlock => break,
                Err(fault) if fault.kind() == io::ErrorKind::Interrupted => {}
                Err(fault) => return Err(fault),
            }
        }
        Ok(())
    }

    /// The guest's interrupt handler, as drivers of a 16550 have it.
    pub fn handle_interrupt(&mut self) {
        while self.read(INTERRUPT_IDENTIFICATION) & 1 == 0 {
            for _ in 0..MOST {
                if self.read(LINE_STATUS) & 1 == 0 {
                    break;
                }
                let byte = self.read(DATA).to_ascii_uppercase();
                self.write(DATA, byte);
            }
        }
    }
}

fn main() -> io::Result<()> {
    let mut machine = Machine::fresh();
    machine.write(INTERRUPT_ENABLE, 0x01); // the guest's driver starts
    let (mut source, mut reader) = (io::stdin().lock(), io::stdout());
    loop {
        let arrived = source.fill_buf()?; // this waits: the guest has left nothing for which a turn is due
        if arrived.is_empty() {
            return Ok(());
        }
        let accepted = machine.turn(arrived);
        source.consume(accepted);
        while std::mem::take(&mut machine.is_interrupted) {
            machine.handle_interrupt();
            machine.drain(&mut reader)?; // this may block too
            reader.flush()?; // Rust keeps an unfinished line back, such as a prompt
        }
    }
}
