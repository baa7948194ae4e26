// SPDX-License-Identifier: Apache-2.0 OR BSD-3-Clause
//! What a serial port reports.
use std::sync::Arc;

/// Receives a serial port's events.
///
/// A port calls it only to report: what it does cannot change the port.
///
/// # Example
///
/// ```
/// use std::cell::Cell;
/// use vm_superio::serial::{NoEvents, SerialEvents};
/// # use vm_superio::{Serial, Trigger};
/// # struct Silent;
/// # impl Trigger for Silent {
/// #     type E = std::convert::Infallible;
/// #     fn trigger(&self) -> Result<(), Self::E> { Ok(()) }
/// # }
///
/// /// Counts the bytes that the guest sent, and wants input when the guest has read the last byte.
/// #[derive(Default)]
/// struct Metrics {
///     sent: Cell<u64>,
///     lost: Cell<u64>,
///     wants_input: Cell<bool>,
/// }
///
/// impl SerialEvents for Metrics {
///     fn buffer_read(&self) {}
///     fn out_byte(&self) { self.sent.set(self.sent.get() + 1); }
///     fn tx_lost_byte(&self) { self.lost.set(self.lost.get() + 1); }
///     fn in_buffer_empty(&self) { self.wants_input.set(true); }
/// }
///
/// let mut serial = Serial::with_events(Silent, Metrics::default(), Vec::new());
/// serial.write(0, b'a').unwrap();
/// serial.read(0);
/// assert_eq!(serial.events().sent.get(), 1);
/// assert_eq!(serial.events().lost.get(), 0);
/// assert!(serial.events().wants_input.get());
/// ```
pub trait SerialEvents {
    /// The guest read the receive buffer, at offset 0.
    fn buffer_read(&self);

    /// The writer took a byte that the guest sent, and was flushed.
    fn out_byte(&self);

    /// The writer failed, so a byte that the guest sent is lost.
    fn tx_lost_byte(&self);

    /// The guest read the receive buffer, and the port holds no byte now. Reported before the read's
    /// [`buffer_read`](Self::buffer_read).
    fn in_buffer_empty(&self);
}

/// An events object that ignores every event.
#[derive(Debug, Clone, Copy)]
pub struct NoEvents;

impl SerialEvents for NoEvents {
    fn buffer_read(&self) {}

    fn out_byte(&self) {}

    fn tx_lost_byte(&self) {}

    fn in_buffer_empty(&self) {}
}

impl<EV: SerialEvents> SerialEvents for Arc<EV> {
    fn buffer_read(&self) {
        self.as_ref().buffer_read();
    }

    fn out_byte(&self) {
        self.as_ref().out_byte();
    }

    fn tx_lost_byte(&self) {
        self.as_ref().tx_lost_byte();
    }

    fn in_buffer_empty(&self) {
        self.as_ref().in_buffer_empty();
    }
}
