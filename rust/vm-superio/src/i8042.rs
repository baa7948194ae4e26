// SPDX-License-Identifier: Apache-2.0 OR BSD-3-Clause
//! An i8042 keyboard controller, reduced to CPU reset.
use crate::sansio::is_reset_command;
use crate::Trigger;

/// A keyboard controller that knows one command: 0xFE, written at offset 4, resets the machine.
///
/// # Example
///
/// ```
/// use std::cell::Cell;
/// use vm_superio::{I8042Device, Trigger};
///
/// #[derive(Default)]
/// struct Reset(Cell<bool>);
///
/// impl Trigger for Reset {
///     type E = std::convert::Infallible;
///
///     fn trigger(&self) -> Result<(), Self::E> {
///         self.0.set(true);
///         Ok(())
///     }
/// }
///
/// let mut controller = I8042Device::new(Reset::default());
/// assert_eq!(controller.read(0), 0);
/// controller.write(4, 0xFE).unwrap();
/// assert!(controller.reset_evt().0.get());
/// ```
#[derive(Debug)]
pub struct I8042Device<T: Trigger> {
    reset_evt: T,
}

impl<T: Trigger> I8042Device<T> {
    /// Makes a controller that calls `reset_evt` for each reset command. Does not call it now.
    pub fn new(reset_evt: T) -> I8042Device<T> {
        I8042Device { reset_evt }
    }

    /// The trigger.
    pub fn reset_evt(&self) -> &T {
        &self.reset_evt
    }

    /// What the guest reads at an offset from the controller's base: 0 everywhere.
    pub fn read(&mut self, _offset: u8) -> u8 {
        0
    }

    /// The guest writes `value` at `offset` from the controller's base.
    ///
    /// # Errors
    ///
    /// The trigger's refusal of a reset command.
    pub fn write(&mut self, offset: u8, value: u8) -> Result<(), T::E> {
        if is_reset_command(offset, value) {
            self.reset_evt.trigger()?;
        }
        Ok(())
    }
}
