// SPDX-License-Identifier: Apache-2.0 OR BSD-3-Clause
//! A serial port with the registers of a 16550.
use std::error::Error as StdError;
use std::fmt;
use std::io::{self, Write};

use crate::sansio::Uart;
use crate::Trigger;

mod events;
pub mod line;
mod state;
pub mod timeout;

pub use events::{NoEvents, SerialEvents};
pub use state::SerialState;

/// The bit of `interrupt_identification` that shows that THRE, transmitter holding register empty, is pending.
const THRE: u8 = 0x02;

/// A 16550 serial port: its registers, a receive FIFO of 64 bytes that is always on, and two interrupt conditions.
///
/// It owns the trigger of its interrupt, an events object, and the writer of the guest's output. If one of them panics
/// and you catch the panic, the port is in the state that vm-superio 0.8.2's port would be in as well.
///
/// A port is `Send` and `Sync` if these objects are. If threads share it, put a lock around it.
///
/// # Example
///
/// An event loop has a byte for the guest, and the guest answers it.
///
/// ```
/// use std::cell::Cell;
/// use std::convert::Infallible;
/// use vm_superio::{Serial, Trigger};
///
/// /// Counts its calls. A monitor writes to an eventfd instead.
/// #[derive(Default)]
/// struct Interrupt(Cell<u32>);
///
/// impl Trigger for Interrupt {
///     type E = Infallible;
///
///     fn trigger(&self) -> Result<(), Infallible> {
///         self.0.set(self.0.get() + 1);
///         Ok(())
///     }
/// }
///
/// // `std::io::sink()` in place of the `Vec` drops what the guest sends.
/// let mut serial = Serial::new(Interrupt::default(), Vec::new());
/// serial.write(1, 0x01).unwrap(); // the guest enables the interrupt of received data
///
/// let input = b"hi";
/// if serial.fifo_capacity() >= input.len() {
///     assert_eq!(serial.enqueue_raw_bytes(input).unwrap(), 2);
/// }
/// assert_eq!(serial.interrupt_evt().0.get(), 1);
///
/// assert_eq!(serial.read(2), 0xC4); // the guest finds received data
/// assert_eq!([serial.read(0), serial.read(0)], *input);
/// serial.write(0, b'!').unwrap(); // and sends a byte
/// assert_eq!(serial.writer(), b"!");
/// ```
pub struct Serial<T: Trigger, EV: SerialEvents, W: Write> {
    port: Uart,
    interrupt_evt: T,
    events: EV,
    out: W,
}

impl<T: Trigger + fmt::Debug, EV: SerialEvents + fmt::Debug, W: Write + fmt::Debug> fmt::Debug for Serial<T, EV, W> {
    fn fmt(&self, f: &mut fmt::Formatter) -> fmt::Result {
        let state = self.state();
        f.debug_struct("Serial")
            .field("baud_divisor_low", &state.baud_divisor_low)
            .field("baud_divisor_high", &state.baud_divisor_high)
            .field("interrupt_enable", &state.interrupt_enable)
            .field("interrupt_identification", &state.interrupt_identification)
            .field("line_control", &state.line_control)
            .field("line_status", &state.line_status)
            .field("modem_control", &state.modem_control)
            .field("modem_status", &state.modem_status)
            .field("scratch", &state.scratch)
            .field("in_buffer", &state.in_buffer)
            .field("interrupt_evt", &self.interrupt_evt)
            .field("events", &self.events)
            .field("out", &self.out)
            .finish()
    }
}

/// Why a call of a serial port failed.
#[derive(Debug)]
pub enum Error<E> {
    /// The trigger refused a call.
    Trigger(E),
    /// The writer failed to take the byte, or to flush.
    IOError(io::Error),
    /// The receive FIFO has no room, or a saved state has more bytes than it can hold.
    FullFifo,
}

impl<E: fmt::Display> fmt::Display for Error<E> {
    fn fmt(&self, f: &mut fmt::Formatter) -> fmt::Result {
        match self {
            Error::Trigger(e) => write!(f, "Failed to trigger interrupt: {e}"),
            Error::IOError(e) => write!(f, "Couldn't write/flush to the given destination: {e}"),
            Error::FullFifo => write!(f, "No space left in FIFO"),
        }
    }
}

impl<E: StdError> StdError for Error<E> {}

impl<T: Trigger, W: Write> Serial<T, NoEvents, W> {
    /// Makes a new port that reports no events. Does not call the trigger.
    pub fn new(trigger: T, out: W) -> Serial<T, NoEvents, W> {
        Self::with_events(trigger, NoEvents, out)
    }
}

impl<T: Trigger, EV: SerialEvents, W: Write> Serial<T, EV, W> {
    /// Makes a port from a saved state. Calls the trigger once for each condition that is both pending and enabled, so
    /// that the new trigger gets the interrupts that the guest has not taken. For a condition that IER disables, call
    /// [`retry_interrupts`](Serial::retry_interrupts) later.
    ///
    /// # Errors
    ///
    /// [`Error::FullFifo`] if the state holds more than 64 bytes: the trigger is not called.
    /// [`Error::Trigger`] at the first call that the trigger refuses. An error drops the objects.
    pub fn from_state(state: &SerialState, trigger: T, serial_evts: EV, out: W) -> Result<Self, Error<T::E>> {
        let port = state.port().ok_or(Error::FullFifo)?;
        let serial = Serial { port, interrupt_evt: trigger, events: serial_evts, out };
        serial.retry_interrupts().map_err(Error::Trigger)?;
        Ok(serial)
    }

    /// Makes a new port. Calls neither the trigger nor the events object.
    pub fn with_events(trigger: T, serial_evts: EV, out: W) -> Self {
        Serial { port: Uart::new(), interrupt_evt: trigger, events: serial_evts, out }
    }

    /// Returns a snapshot, from which [`from_state`](Serial::from_state) recreates the port.
    pub fn state(&self) -> SerialState {
        SerialState::of(&self.port)
    }

    /// The writer.
    pub fn writer(&self) -> &W {
        &self.out
    }

    /// The writer, mutably.
    pub fn writer_mut(&mut self) -> &mut W {
        &mut self.out
    }

    /// Returns the writer unchanged. Drops the trigger and the events object.
    pub fn into_writer(self) -> W {
        self.out
    }

    /// The trigger of the interrupt.
    pub fn interrupt_evt(&self) -> &T {
        &self.interrupt_evt
    }

    /// The events object.
    pub fn events(&self) -> &EV {
        &self.events
    }

    /// The guest writes `value` at `offset` from the port's base. At 2, 5 and 6 (IIR, LSR and MSR), and from 8 on, a
    /// write has no effect.
    ///
    /// # Errors
    ///
    /// [`Error::Trigger`] if the trigger refused a call, even if the writer failed too; otherwise [`Error::IOError`] if
    /// the writer failed to take the byte or to flush. The write has taken effect all the same, so do not repeat it. A
    /// refused condition stays pending: the trigger is not called for it again until the guest has acknowledged it, or
    /// you call [`retry_interrupts`](Serial::retry_interrupts). But if a write at 1, IER, raises both conditions and
    /// the trigger refuses the call for RDA, THRE is not raised, and no retry brings it.
    pub fn write(&mut self, offset: u8, value: u8) -> Result<(), Error<T::E>> {
        let pending = self.port.registers.interrupt_identification;
        let effects = self.port.write(offset, value);
        let sent = if effects.sends { self.send(value, pending) } else { Ok(()) };
        match effects.interrupts {
            0 => {}
            1 => self.interrupt_evt.trigger().map_err(Error::Trigger)?,
            _ => self.trigger_twice().map_err(Error::Trigger)?,
        }
        sent
    }

    /// Sends a byte. Only afterwards does IIR show the interrupt that the write raises: if the writer or the events
    /// object panics, the conditions that were pending before still are.
    fn send(&mut self, value: u8, pending_before: u8) -> Result<(), Error<T::E>> {
        let pending = std::mem::replace(&mut self.port.registers.interrupt_identification, pending_before);
        let sent = self.out.write_all(&[value]).and_then(|()| self.out.flush());
        match sent {
            Ok(()) => self.events.out_byte(),
            Err(_) => self.events.tx_lost_byte(),
        }
        self.port.registers.interrupt_identification = pending;
        sent.map_err(Error::IOError)
    }

    /// Calls the trigger for both conditions that a write to IER raised. In vm-superio the second one, THRE, becomes
    /// pending after the first call has succeeded, so a call that refuses or panics leaves RDA alone.
    #[cold]
    #[inline(never)]
    fn trigger_twice(&mut self) -> Result<(), T::E> {
        let both_pending = self.port.registers.interrupt_identification;
        self.port.registers.interrupt_identification = both_pending & !THRE; // RDA is left, so 'none' stays clear
        self.interrupt_evt.trigger()?;
        self.port.registers.interrupt_identification = both_pending;
        self.interrupt_evt.trigger()
    }

    /// The guest reads the byte at `offset` from the port's base. From 8 on it is 0. The trigger is not called.
    ///
    /// If `offset` is 2 and the answer has bit 0x01 (none pending), make a [character timeout](timeout) afterwards.
    pub fn read(&mut self, offset: u8) -> u8 {
        let effects = self.port.read(offset);
        if effects.in_buffer_empty {
            self.events.in_buffer_empty();
        }
        if effects.buffer_read {
            self.events.buffer_read();
        }
        effects.byte
    }

    /// Calls the trigger once for each condition that is both pending and enabled, up to the first refusal. The port
    /// does not change.
    ///
    /// vm-superio 0.8.2 has no such call. If your trigger can refuse, make the call some milliseconds after a refusal,
    /// and repeat it until it returns `Ok`. It does not ask for a condition that IER disables, so make it after each
    /// write at offset 1 too, until it returns `Ok` while the port's line is up. Otherwise a refused interrupt may
    /// never reach the guest. The guest may be interrupted again for a condition that it knows already.
    ///
    /// # Errors
    ///
    /// The trigger's refusal.
    pub fn retry_interrupts(&self) -> Result<(), T::E> {
        (0..self.port.interrupts_due()).try_for_each(|_| self.interrupt_evt.trigger())
    }

    /// How many bytes may still be enqueued: 64 minus the number of held bytes.
    #[inline]
    pub fn fifo_capacity(&self) -> usize {
        self.port.fifo_capacity()
    }

    /// Input arrives for the guest. The port accepts as many bytes as fit, from the first on, and none in loopback.
    /// Returns how many. Keep the others, and offer them again later.
    ///
    /// # Errors
    ///
    /// [`Error::FullFifo`] if bytes come outside loopback while 64 are held. Nothing changes then.
    /// [`Error::Trigger`] if the trigger refused. The bytes that fit are kept, so do not enqueue them again. To find
    /// out how many they are, compare [`fifo_capacity`](Serial::fifo_capacity) before and after.
    pub fn enqueue_raw_bytes(&mut self, input: &[u8]) -> Result<usize, Error<T::E>> {
        let effects = self.port.enqueue_raw_bytes(input);
        if effects.fifo_full {
            return Err(Error::FullFifo);
        }
        if effects.interrupts > 0 {
            self.interrupt_evt.trigger().map_err(Error::Trigger)?;
        }
        Ok(effects.accepted)
    }
}
