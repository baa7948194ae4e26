// SPDX-License-Identifier: Apache-2.0 OR BSD-3-Clause
// Made by the command tools/erase from crates/superio_core/src/saved.rt.
// These are the lines that the prover checks, without their contracts. Change them there.
//! A saved state as bytes: its header, and why bytes are refused.
//!
//! The encoding is the same on every machine. A state has at most one encoding, and no two states share one.

/// The first bytes of a saved state.
const MAGIC: [u8; 4] = *b"SIOS";

/// The version of the encoding.
const VERSION: u8 = 1;

/// The length of the header.
pub const HEADER_SIZE: usize = 8;

/// The kind of the serial port.
pub(crate) const SERIAL_KIND: u8 = 1;

/// The kind of the clock.
pub(crate) const CLOCK_KIND: u8 = 2;

/// The kind of the console, a serial port with the monitor's end of its line.
pub const CONSOLE_KIND: u8 = 3;

/// Why bytes were refused. The checks are made in the order of these cases, and the first one that fails is the error.
/// A console's own bytes are checked first, and then its port's bytes.
#[derive(Clone, Copy, Debug, Eq, PartialEq)]
pub enum SavedStateError {
    /// There are fewer than eight bytes, the length of a header.
    TooShort,
    /// The bytes do not begin with `SIOS`.
    NotASavedState,
    /// The state belongs to another device.
    OtherDevice,
    /// The encoding has this version, which is not 1.
    UnknownVersion(u8),
    /// The length in the header is not the number of bytes after it, or it is too small or too large for the device.
    WrongLength,
    /// The port would hold more than 64 received bytes.
    TooManyBytes,
    /// The clock's alarm byte is neither 0 nor 1.
    InvalidArmed,
    /// The console's flags have a bit that means nothing.
    InvalidFlags,
}

/// The header of a state of this kind that has `length` bytes after it.
// Clauses in crates/superio_core/src/saved.rt: returns.
pub fn header(kind: u8, length: u16) -> [u8; 8] {
    let [m0, m1, m2, m3] = MAGIC;
    let [low, high] = length.to_le_bytes();
    [m0, m1, m2, m3, kind, VERSION, low, high]
}

/// Returns the bytes after the header of a state of this kind.
///
/// # Errors
///
/// Returns the first check of the header that fails: [`SavedStateError::TooShort`],
/// [`SavedStateError::NotASavedState`], [`SavedStateError::OtherDevice`], [`SavedStateError::UnknownVersion`] or
/// [`SavedStateError::WrongLength`].
// Clauses in crates/superio_core/src/saved.rt: encoding, fault.
pub fn decode_header(kind: u8, bytes: &[u8]) -> Result<&[u8], SavedStateError> {
    match bytes {
        [
            m0,
            m1,
            m2,
            m3,
            its_kind,
            its_version,
            low,
            high,
            contents @ ..,
        ] => {
            if [*m0, *m1, *m2, *m3] != MAGIC {
                return Err(SavedStateError::NotASavedState);
            }
            if *its_kind != kind {
                return Err(SavedStateError::OtherDevice);
            }
            if *its_version != VERSION {
                return Err(SavedStateError::UnknownVersion(*its_version));
            }
            if usize::from(u16::from_le_bytes([*low, *high])) != contents.len() {
                return Err(SavedStateError::WrongLength);
            }
            Ok(contents)
        }
        _ => Err(SavedStateError::TooShort),
    }
}
