// SPDX-License-Identifier: Apache-2.0 OR BSD-3-Clause
//! The character timeout, which vm-superio 0.8.2 does not have.
use std::io::Write;

use super::{Error, Serial, SerialEvents};
use crate::Trigger;

/// Interrupts the guest again while received bytes wait for it.
///
/// A guest's read of IIR or of a byte ends the interrupt of received data, even if it leaves bytes in the FIFO. Without
/// this call these bytes wait silently until the guest writes IER or another byte arrives, and a full FIFO has no room
/// for another byte. A guest that waits for the interrupt hangs.
///
/// # When to make the call
///
/// Make it after each guest read of offset 2 whose answer has bit 0x01 (none pending), and once in each turn of your
/// event loop. If the trigger refuses, the guest has read the value all the same: return it, and call
/// [`retry_interrupts`](Serial::retry_interrupts) some milliseconds later.
///
/// # Example
///
/// The guest's handler reads out one byte at each interrupt, as Xen's console does.
///
/// ```
/// use std::cell::Cell;
/// use std::convert::Infallible;
/// use vm_superio::serial::timeout::CharacterTimeout;
/// use vm_superio::serial::{Error, NoEvents};
/// use vm_superio::{Serial, Trigger};
///
/// #[derive(Default)]
/// struct Interrupt(Cell<bool>);
///
/// impl Trigger for Interrupt {
///     type E = Infallible;
///
///     fn trigger(&self) -> Result<(), Infallible> {
///         self.0.set(true);
///         Ok(())
///     }
/// }
///
/// type Port = Serial<Interrupt, NoEvents, Vec<u8>>;
///
/// /// The guest reads at `offset` from the port's base. The result also says whether to retry in the next turn.
/// fn guest_reads(port: &mut Port, offset: u8) -> (u8, bool) {
///     let value = port.read(offset);
///     let is_refused = offset == 2 && value & 0x01 != 0 && port.character_timeout().is_err();
///     (value, is_refused)
/// }
///
/// let mut port = Serial::new(Interrupt::default(), Vec::new());
/// port.write(1, 0x01)?; // the guest enables the interrupt of received data
/// port.enqueue_raw_bytes(b"abc")?;
///
/// let mut received = Vec::new();
/// while port.interrupt_evt().0.replace(false) {
///     while guest_reads(&mut port, 2).0 & 0x01 == 0 {
///         received.push(guest_reads(&mut port, 0).0);
///     }
/// }
/// assert_eq!(received, b"abc");
/// # Ok::<(), Error<Infallible>>(())
/// ```
///
/// This is a trait of its own, so that it cannot collide with a method of a program that was written for vm-superio:
/// import it where you make the call.
pub trait CharacterTimeout {
    /// Why the trigger refused.
    type E;

    /// Raises the interrupt for received data and calls the trigger once, if bytes are held, IER enables the interrupt,
    /// and it is not pending already. Otherwise nothing happens. DLAB and loopback make no difference.
    ///
    /// # Errors
    ///
    /// [`Error::Trigger`] if the trigger refused the call. The condition stays pending, so a further character timeout
    /// does nothing: call [`retry_interrupts`](Serial::retry_interrupts). It returns no other error.
    fn character_timeout(&mut self) -> Result<(), Error<Self::E>>;
}

impl<T: Trigger, EV: SerialEvents, W: Write> CharacterTimeout for Serial<T, EV, W> {
    type E = T::E;

    fn character_timeout(&mut self) -> Result<(), Error<T::E>> {
        match self.port.character_timeout() {
            0 => Ok(()),
            _ => self.interrupt_evt.trigger().map_err(Error::Trigger),
        }
    }
}
