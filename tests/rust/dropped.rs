// SPDX-License-Identifier: Apache-2.0 OR BSD-3-Clause
//! Each line of a function drops the result of a call, which leaves work: a byte to send, an interrupt to raise, a
//! machine to reset, or what is to be kept. A line that begins with `let` drops none.
use superio::console::Console;
use superio::serial::registers::Register;
use superio::{is_reset_command, RtcState, Uart};

pub fn of_a_port(bytes: &[u8]) {
    let mut port = Uart::new();
    port.read(2);
    port.write(1, 0x01);
    port.enqueue_raw_bytes(bytes);
    port.character_timeout();
    port.interrupts_due();
    Uart::from_bytes(bytes);
}

pub fn of_registers(bytes: &[u8]) {
    let Uart { mut registers, in_buffer: mut fifo } = Uart::new();
    registers.read(&mut fifo, Register::Iir);
    registers.write(&mut fifo, Register::Ier, 0x01);
    registers.enqueue(&mut fifo, bytes);
    registers.character_timeout(&fifo);
    registers.interrupts_due();
}

pub fn of_a_console(bytes: &[u8]) {
    let mut console = Console::new(false);
    console.read(2);
    console.write(1, 0x01);
    console.receive(bytes);
    console.turn();
    console.refuse();
    console.reset();
    console.set_polled(true);
    console.load(bytes);
    Console::from_bytes(bytes);
}

pub fn of_the_others(bytes: &[u8]) {
    is_reset_command(4, 0xFE);
    RtcState::from_bytes(bytes);
}
