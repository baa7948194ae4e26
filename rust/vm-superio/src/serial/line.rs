// SPDX-License-Identifier: Apache-2.0 OR BSD-3-Clause
//! The level of the interrupt line, which vm-superio 0.8.2 does not have.
use std::io::Write;

use super::{Serial, SerialEvents};
use crate::Trigger;

/// Returns the level of the interrupt line, for a level-triggered interrupt controller.
///
/// A PCI interrupt is a level, and so are level-triggered inputs of an I/O APIC or a GIC. There a trigger that pulses
/// may lose interrupts. Let the trigger do nothing, and set the line to this level after every call of the port,
/// including reads.
///
/// This is a trait of its own, so that it cannot collide with a method of a program that was written for vm-superio:
/// import it where you make the call.
pub trait InterruptLine {
    /// Whether the line is up. It is up while a condition is pending that IER enables. The port does not change.
    fn interrupt_line(&self) -> bool;
}

impl<T: Trigger, EV: SerialEvents, W: Write> InterruptLine for Serial<T, EV, W> {
    fn interrupt_line(&self) -> bool {
        self.port.interrupt_line()
    }
}
