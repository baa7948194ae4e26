// SPDX-License-Identifier: Apache-2.0 OR BSD-3-Clause
//! What is printed of errors, and of a console's output, which is not proved.
use core::fmt;

use crate::console::output_ring::OutputRing;
use crate::devices::saved::SavedStateError;

/// Not its 4,096 bytes.
impl fmt::Debug for OutputRing {
    fn fmt(&self, f: &mut fmt::Formatter) -> fmt::Result {
        f.debug_struct("OutputRing").field("head", &self.head).field("len", &self.len).finish_non_exhaustive()
    }
}

impl fmt::Display for SavedStateError {
    fn fmt(&self, f: &mut fmt::Formatter) -> fmt::Result {
        match self {
            SavedStateError::TooShort => f.write_str("Too short for a saved state"),
            SavedStateError::NotASavedState => f.write_str("Not a saved state"),
            SavedStateError::OtherDevice => f.write_str("The saved state of another device"),
            SavedStateError::UnknownVersion(_) => f.write_str("A saved state of an unknown version"),
            SavedStateError::WrongLength => f.write_str("A saved state of the wrong length"),
            SavedStateError::TooManyBytes => f.write_str("More than 64 received bytes"),
            SavedStateError::InvalidArmed => f.write_str("An alarm that is neither set nor clear"),
            SavedStateError::InvalidFlags => f.write_str("A flag that no console has"),
        }
    }
}

#[cfg(feature = "std")]
impl std::error::Error for SavedStateError {}
