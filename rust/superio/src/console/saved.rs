// SPDX-License-Identifier: Apache-2.0 OR BSD-3-Clause
// Made by the command tools/erase from crates/superio_console/src/saved.rt.
// These are the lines that the prover checks, without their contracts. Change them there.
//! A saved console as bytes.
//!
//! Its parts are, in order:
//!
//! - a header of eight bytes, which each saved device has,
//! - the four flags in one byte,
//! - the number of dropped bytes in eight bytes,
//! - the number of bytes of output that wait, in two bytes,
//! - these bytes of output, and
//! - the port, as [`Uart::to_bytes`](crate::Uart) writes it.
//!
//! Numbers are little-endian.

use super::Console;
use super::output_ring::OUTPUT_SIZE;
use crate::saved::{CONSOLE_KIND, HEADER_SIZE, SavedStateError, decode_header, header};
use crate::serial::encoding::SAVED_MAX as PORT_MAX;

/// The size of the flags and of the two counts.
const PREFIX_SIZE: usize = 11;

/// The maximum size of a console's encoding: the header, the flags and counts, 4,096 bytes of output, and a port.
pub const CONSOLE_SAVED_MAX: usize = HEADER_SIZE + PREFIX_SIZE + OUTPUT_SIZE + PORT_MAX;

/// The bits of the flags.
pub(super) const POLLED_BIT: u8 = 0x01;

pub(super) const READY_BIT: u8 = 0x02;

pub(super) const ASLEEP_BIT: u8 = 0x04;

pub(super) const REFUSED_BIT: u8 = 0x08;

const ALL_BITS: u8 = 0x0F;

/// Two consoles are equal exactly if their saved states are equal. No guest can tell such consoles apart.
impl PartialEq for Console {
    fn eq(&self, other: &Self) -> bool {
        let mut bytes = [0; CONSOLE_SAVED_MAX];
        let mut other_bytes = [0; CONSOLE_SAVED_MAX];
        let count = self.save(&mut bytes);
        let other_count = other.save(&mut other_bytes);
        bytes[..count] == other_bytes[..other_count]
    }
}

impl Eq for Console {
}

impl Console {
    /// The start of an encoding, before `waiting` bytes of output and `port` bytes of a port.
    pub(super) fn encode_prefix(
        &self,
        waiting: usize,
        port: usize,
    ) -> [u8; HEADER_SIZE + PREFIX_SIZE] {
        let [m0, m1, m2, m3, kind, version, low, high] = header(
            CONSOLE_KIND,
            (PREFIX_SIZE + waiting + port) as u16,
        );
        let [d0, d1, d2, d3, d4, d5, d6, d7] = self.dropped.to_le_bytes();
        let [count_low, count_high] = (waiting as u16).to_le_bytes();
        [
            m0,
            m1,
            m2,
            m3,
            kind,
            version,
            low,
            high,
            self.flags(),
            d0,
            d1,
            d2,
            d3,
            d4,
            d5,
            d6,
            d7,
            count_low,
            count_high,
        ]
    }

    /// The flags in one byte.
    fn flags(&self) -> u8 {
        bit_if(self.is_polled, POLLED_BIT)
            | bit_if(self.is_ready, READY_BIT)
            | bit_if(self.is_asleep, ASLEEP_BIT)
            | bit_if(self.is_refused, REFUSED_BIT)
    }
}

/// The bit if the flag is set, and otherwise 0.
fn bit_if(flag: u8, bit: u8) -> u8 {
    if flag == 0 { 0 } else { bit }
}

/// The parts of a console's encoding: the flags, how many bytes of output were dropped, the output that waits, and the
/// encoding of the port, which is not checked.
///
/// # Errors
///
/// Returns the errors of [`Console::from_bytes`], except for what [`Uart::from_bytes`] finds in the port.
pub(super) fn decode_console(bytes: &[u8]) -> Result<(u8, u64, &[u8], &[u8]), SavedStateError> {
    match decode_header(CONSOLE_KIND, bytes)? {
        [flags, d0, d1, d2, d3, d4, d5, d6, d7, low, high, rest @ ..] => {
            let waiting = usize::from(u16::from_le_bytes([*low, *high]));
            if waiting > OUTPUT_SIZE || waiting > rest.len() {
                return Err(SavedStateError::WrongLength);
            }
            if *flags > ALL_BITS {
                return Err(SavedStateError::InvalidFlags);
            }
            let dropped = u64::from_le_bytes([*d0, *d1, *d2, *d3, *d4, *d5, *d6, *d7]);
            let (output, port) = rest.split_at(waiting);
            Ok((*flags, dropped, output, port))
        }
        _ => Err(SavedStateError::WrongLength),
    }
}

/// Writes `part` after the first `count` bytes, and returns how many bytes there are then.
pub(super) fn append(bytes: &mut [u8], count: usize, part: &[u8]) -> usize {
    let end = count + part.len();
    bytes[count..end].copy_from_slice(part);
    end
}
