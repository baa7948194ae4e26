// SPDX-License-Identifier: Apache-2.0 OR BSD-3-Clause
#![doc = include_str!("../README.md")]
//!
//! ## Calls that this page names
//!
//! - Of a port: [`retry_interrupts`](Serial::retry_interrupts),
//!   [`character_timeout`](serial::timeout::CharacterTimeout::character_timeout) and
//!   [`interrupt_line`](serial::line::InterruptLine::interrupt_line).
//! - Of a clock: [`read`](Rtc::read), [`write`](Rtc::write), [`read_at`](Rtc::read_at), [`write_at`](Rtc::write_at),
//!   [`interrupt_line`](Rtc::interrupt_line), [`alarm_due`](Rtc::alarm_due) and [`snapshot`](Rtc::snapshot).
//! - Of saved states: [`SerialState::to_bytes`], [`SerialState::is_coherent`] and
//!   [`RtcSnapshot::to_bytes`](rtc_pl031::RtcSnapshot::to_bytes) and
//!   [`to_five`](rtc_pl031::RtcSnapshot::to_five).
#![forbid(unsafe_code)]
#![deny(missing_docs)]
#![deny(missing_copy_implementations)]

pub mod i8042;
pub mod rtc_pl031;
pub mod saved;
pub mod serial;

/// The devices without I/O: the crate [`superio`], which also compiles without std.
///
/// # Example
///
/// ```
/// use vm_superio::sansio::Uart;
///
/// let mut port = Uart::new();
/// assert_eq!(port.write(1, 0x01).interrupts, 0); // the guest enables the interrupt of received data
/// assert_eq!(port.enqueue_raw_bytes(b"hi").interrupts, 1); // raise it once
/// ```
pub mod sansio {
    pub use superio::*;
}

pub use i8042::I8042Device;
pub use rtc_pl031::{Rtc, RtcState};
pub use serial::{Serial, SerialState};

/// Notifies the part of a monitor that raises an interrupt or resets the machine.
///
/// A device owns its trigger, and calls it for one event at a time.
///
/// # Example
///
/// A trigger that writes to an eventfd, which KVM has as an irqfd.
///
/// ```
/// use std::fs::File;
/// use std::io::{self, Write};
/// use vm_superio::Trigger;
///
/// struct EventFd(File);
///
/// impl Trigger for EventFd {
///     type E = io::Error;
///
///     fn trigger(&self) -> io::Result<()> {
///         (&self.0).write_all(&1u64.to_ne_bytes())
///     }
/// }
/// # let (mut end, other) = std::os::unix::net::UnixStream::pair().unwrap();
/// # EventFd(File::from(std::os::unix::io::OwnedFd::from(other))).trigger().unwrap();
/// # let mut bytes = Vec::new();
/// # io::Read::read_to_end(&mut end, &mut bytes).unwrap();
/// # assert_eq!(bytes, 1u64.to_ne_bytes()); // which an eventfd takes, and nothing else
/// ```
pub trait Trigger {
    /// Why a call was refused.
    type E: core::fmt::Debug;

    /// Notifies once, or returns an error if nobody was notified. A trigger may instead note the failure itself, and
    /// return `Ok`.
    fn trigger(&self) -> Result<(), Self::E>;
}
