// SPDX-License-Identifier: Apache-2.0 OR BSD-3-Clause
// Made by the command tools/erase from crates/superio_core/src/serial/encoding.rt.
// These are the lines that the prover checks, without their contracts. Change them there.
//! The encoding of a serial port's state.

use super::super::fifo::FIFO_SIZE;
use super::super::saved::{HEADER_SIZE, SERIAL_KIND, SavedStateError, decode_header, header};
use super::Uart;
use super::registers::{REGISTER_COUNT, Registers};

/// The size of an encoding without received bytes: the header and the registers.
const SAVED_MIN: usize = HEADER_SIZE + REGISTER_COUNT;

/// The maximum size of a port's encoding: the header, the registers and 64 received bytes.
pub const SAVED_MAX: usize = SAVED_MIN + FIFO_SIZE;

/// The bytes of a saved port. Contracts see a list of at most 81 bytes.
#[derive(Clone, Debug)]
pub struct SerialEncoding {
    pub(super) bytes: [u8; SAVED_MAX],
    pub(super) count: usize,
}

impl SerialEncoding {
    /// The bytes.
    // Clauses in crates/superio_core/src/serial/encoding.rt: returns.
    pub fn as_bytes(&self) -> &[u8] {
        &self.bytes[..self.count]
    }
}

impl PartialEq for SerialEncoding {
    fn eq(&self, other: &Self) -> bool {
        self.as_bytes() == other.as_bytes()
    }
}

impl Eq for SerialEncoding {
}

/// Two ports are equal if their saved states are equal. No guest can tell such ports apart.
impl PartialEq for Uart {
    fn eq(&self, other: &Self) -> bool {
        self.to_bytes() == other.to_bytes()
    }
}

impl Eq for Uart {
}

/// Copies two slices to the start of another, one after the other.
fn copy_both(target: &mut [u8], first: &[u8], second: &[u8]) {
    let (start, rest) = target.split_at_mut(first.len());
    start.copy_from_slice(first);
    // The held bytes are mostly in one piece.
    if !second.is_empty() {
        rest[..second.len()].copy_from_slice(second);
    }
}

impl Registers {
    /// Writes the encoding of a port with these registers and these received bytes, given in two slices, to the start
    /// of an array. Returns its length. The bytes after it do not change.
    pub(super) fn encode_serial(
        &self,
        older: &[u8],
        newer: &[u8],
        encoding: &mut [u8; SAVED_MAX],
    ) -> usize {
        let held = older.len() + newer.len();
        let (start, rest) = encoding.split_at_mut(SAVED_MIN);
        start.copy_from_slice(&self.encode_prefix(held));
        copy_both(rest, older, newer);
        SAVED_MIN + held
    }

    /// The start of the encoding of a port with these registers and `held` received bytes.
    fn encode_prefix(&self, held: usize) -> [u8; SAVED_MIN] {
        let [m0, m1, m2, m3, kind, version, low, high] = header(
            SERIAL_KIND,
            (REGISTER_COUNT + held) as u16,
        );
        [
            m0,
            m1,
            m2,
            m3,
            kind,
            version,
            low,
            high,
            self.baud_divisor_low,
            self.baud_divisor_high,
            self.interrupt_enable,
            self.interrupt_identification,
            self.line_control,
            self.line_status,
            self.modem_control,
            self.modem_status,
            self.scratch,
        ]
    }
}

/// The registers and the received bytes of a port's encoding.
///
/// # Errors
///
/// Returns the errors of [`Uart::from_bytes`].
pub(super) fn decode_serial(bytes: &[u8]) -> Result<(Registers, &[u8]), SavedStateError> {
    match decode_header(SERIAL_KIND, bytes)? {
        [dll, dlm, ier, iir, lcr, lsr, mcr, msr, scr, in_buffer @ ..] => {
            if in_buffer.len() > FIFO_SIZE {
                return Err(SavedStateError::TooManyBytes);
            }
            let registers = Registers {
                baud_divisor_low: *dll,
                baud_divisor_high: *dlm,
                interrupt_enable: *ier,
                interrupt_identification: *iir,
                line_control: *lcr,
                line_status: *lsr,
                modem_control: *mcr,
                modem_status: *msr,
                scratch: *scr,
            };
            Ok((registers, in_buffer))
        }
        _ => Err(SavedStateError::WrongLength),
    }
}
