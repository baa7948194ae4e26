// SPDX-License-Identifier: Apache-2.0 OR BSD-3-Clause
// Made by the command tools/erase from crates/superio_core/src/lib.rt.
// These are the lines that the prover checks, without their contracts. Change them there.
//! The devices of a virtual machine monitor without I/O (sans-I/O): a call changes a device and returns what is left to
//! do. The devices hold no objects, use no heap and have no dependencies.
//!
//! ```text
//! let mut port = Uart::new();
//! port.write(1, 0x01); // the guest enables the interrupt of received data
//! let typed = port.enqueue_raw_bytes(b"hi"); // `typed.interrupts` is 1: raise the interrupt
//! let found = port.read(2).byte; // 0xC4: the guest's handler finds received data,
//! let first = port.read(0).byte; // b'h': reads one byte out,
//! let found = port.read(2).byte; // 0xC1: and finds nothing more pending, though `i` is held
//! let again = port.character_timeout(); // 1: raise the interrupt again
//!
//! let mut clock = Pl031::new();
//! let time = clock.read(0x000, 1_000); // Some(1_000): guest time is the host's
//!
//! let resets = is_reset_command(4, 0xFE); // true: the guest resets its machine
//! ```

pub mod fifo;
pub mod i8042;
pub mod rtc_pl031;
pub mod saved;
pub mod serial;

pub use i8042::is_reset_command;
pub use rtc_pl031::{Pl031, RtcState};
pub use serial::Uart;
