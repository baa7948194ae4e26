// SPDX-License-Identifier: Apache-2.0 OR BSD-3-Clause
// Made by the command tools/erase from crates/superio_core/src/rtc_pl031/encoding.rt.
// These are the lines that the prover checks, without their contracts. Change them there.
//! The state of a clock, as vm-superio names its fields, and its encoding.

use super::super::saved::{CLOCK_KIND, SavedStateError, decode_header, header};
use super::Pl031;

/// The size of a clock's encoding: the header and 25 bytes.
pub const SAVED_SIZE: usize = 33;

/// The number of bytes after the header.
const CONTENTS_SIZE: usize = 25;

/// The contents of a clock's registers, from which the clock can be recreated.
///
/// Any values may be restored, and reads show them unchanged. In the default state all numbers are 0, and no alarm is
/// set.
#[derive(Clone, Copy, Debug, Default, Eq, PartialEq)]
pub struct RtcState {
    /// The load register, RTCLR: the last loaded value, or 0 after a reset.
    pub lr: u32,
    /// How far guest time is ahead of the host's time, in seconds.
    pub offset: i64,
    /// The match register, RTCMR: the guest time that an alarm waits for.
    pub mr: u32,
    /// The interrupt mask, RTCIMSC. A write stores bit 0 of its value, and clears the others.
    pub imsc: u32,
    /// The raw interrupt status, RTCRIS. The alarm sets bit 0; nothing sets other bits.
    pub ris: u32,
    /// Whether an alarm is set and has not fired.
    pub armed: bool,
}

impl RtcState {
    /// Makes a state of these five fields, as a program without alarms saves them. No alarm is set.
    // Clauses in crates/superio_core/src/rtc_pl031/encoding.rt: returns.
    pub fn from_five(lr: u32, offset: i64, mr: u32, imsc: u32, ris: u32) -> RtcState {
        RtcState {
            lr,
            offset,
            mr,
            imsc,
            ris,
            armed: false,
        }
    }

    /// Returns the five fields that [`from_five`](Self::from_five) takes, for a program without alarms, or `None` if an
    /// alarm is set.
    // Clauses in crates/superio_core/src/rtc_pl031/encoding.rt: fields, some.
    pub fn to_five(&self) -> Option<(u32, i64, u32, u32, u32)> {
        if self.armed {
            None
        } else {
            Some((self.lr, self.offset, self.mr, self.imsc, self.ris))
        }
    }
}

/// Two clocks are equal if their states are equal. No guest can tell such clocks apart.
impl PartialEq for Pl031 {
    fn eq(&self, other: &Self) -> bool {
        self.state().to_bytes() == other.state().to_bytes()
    }
}

impl Eq for Pl031 {}

impl RtcState {
    /// Saves the state as 33 bytes, which [`from_bytes`](Self::from_bytes) reads back.
    ///
    /// They are a header of eight bytes; `lr`, `mr`, `imsc` and `ris` in four bytes each; `offset` in eight bytes; and
    /// a last byte that is 1 if an alarm is set, and otherwise 0. Numbers are little-endian.
    // Clauses in crates/superio_core/src/rtc_pl031/encoding.rt: returns.
    pub fn to_bytes(&self) -> [u8; SAVED_SIZE] {
        let [m0, m1, m2, m3, kind, version, low, high] = header(CLOCK_KIND, CONTENTS_SIZE as u16);
        let [lr0, lr1, lr2, lr3] = self.lr.to_le_bytes();
        let [mr0, mr1, mr2, mr3] = self.mr.to_le_bytes();
        let [imsc0, imsc1, imsc2, imsc3] = self.imsc.to_le_bytes();
        let [ris0, ris1, ris2, ris3] = self.ris.to_le_bytes();
        let [o0, o1, o2, o3, o4, o5, o6, o7] = self.offset.to_le_bytes();
        let armed = u8::from(self.armed);
        [
            m0, m1, m2, m3, kind, version, low, high, lr0, lr1, lr2, lr3, mr0, mr1, mr2, mr3,
            imsc0, imsc1, imsc2, imsc3, ris0, ris1, ris2, ris3, o0, o1, o2, o3, o4, o5, o6, o7,
            armed,
        ]
    }

    /// Reads the state back from its saved bytes.
    ///
    /// # Errors
    ///
    /// Returns the first check that fails, in the order of [`SavedStateError`]. A clock never fails with
    /// [`SavedStateError::TooManyBytes`] or [`SavedStateError::InvalidFlags`].
    // Clauses in crates/superio_core/src/rtc_pl031/encoding.rt: encoding, read, fault.
    pub fn from_bytes(bytes: &[u8]) -> Result<RtcState, SavedStateError> {
        Self::parse(bytes)
    }

    /// Does what `from_bytes` does.
    fn parse(bytes: &[u8]) -> Result<RtcState, SavedStateError> {
        let contents = decode_header(CLOCK_KIND, bytes)?;
        if contents.len() != CONTENTS_SIZE {
            return Err(SavedStateError::WrongLength);
        }
        let (lr, rest) = split_number(contents);
        let (mr, rest) = split_number(rest);
        let (imsc, rest) = split_number(rest);
        let (ris, rest) = split_number(rest);
        let (offset, rest) = split_offset(rest);
        let armed = match rest {
            [0] => false,
            [1] => true,
            _ => return Err(SavedStateError::InvalidArmed),
        };
        Ok(RtcState {
            lr,
            offset,
            mr,
            imsc,
            ris,
            armed,
        })
    }
}

/// The number in the first four bytes, and the bytes after it.
fn split_number(bytes: &[u8]) -> (u32, &[u8]) {
    let number = u32::from_le_bytes([bytes[0], bytes[1], bytes[2], bytes[3]]);
    (number, &bytes[4..])
}

/// The signed number in the first eight bytes, and the bytes after it.
fn split_offset(bytes: &[u8]) -> (i64, &[u8]) {
    let number = i64::from_le_bytes([
        bytes[0], bytes[1], bytes[2], bytes[3], bytes[4], bytes[5], bytes[6], bytes[7],
    ]);
    (number, &bytes[8..])
}
