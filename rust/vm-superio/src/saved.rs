// SPDX-License-Identifier: Apache-2.0 OR BSD-3-Clause
//! Saved states as bytes, with one encoding in every language and on every machine.
//!
//! A port is saved by [`SerialState::to_bytes`] and read back by [`SerialState::from_bytes`], a clock by
//! [`RtcSnapshot::to_bytes`] and [`RtcSnapshot::from_bytes`]. docs/SAVED-STATES.md of the repository describes the
//! encoding byte by byte. It has no checksum: put one into the file or the stream around it.
//!
//! [`SerialState::to_bytes`]: crate::SerialState::to_bytes
//! [`SerialState::from_bytes`]: crate::SerialState::from_bytes
//! [`RtcSnapshot::to_bytes`]: crate::rtc_pl031::RtcSnapshot::to_bytes
//! [`RtcSnapshot::from_bytes`]: crate::rtc_pl031::RtcSnapshot::from_bytes
pub use crate::sansio::saved::SavedStateError;
