// SPDX-License-Identifier: Apache-2.0 OR BSD-3-Clause
//! A PL031 real-time clock, which counts seconds.
//!
//! # The alarm
//!
//! In vm-superio 0.8.2 the match register RTCMR (0x004) only reads back what was written. Here it is an alarm. The
//! first access that finds guest time at or past the match raises bit 0 of the raw interrupt status, unless the match
//! was in the past when it was written. The clock has no trigger. If its guest expects an interrupt line, set the line
//! to [`Rtc::interrupt_line`] after each access. Also set a timer to [`Rtc::alarm_due`], and make an access when it
//! goes off.
use std::error::Error as StdError;
use std::fmt;
use std::sync::Arc;
use std::time::{SystemTime, UNIX_EPOCH};

use crate::sansio::{self, Pl031};
use crate::saved::SavedStateError;

/// The offset of RTCDR, which shows guest time.
const RTCDR: u16 = 0x000;
/// The offset of RTCMR, which sets an alarm if its value is not in the past.
const RTCMR: u16 = 0x004;
/// The offset of RTCLR, which sets guest time.
const RTCLR: u16 = 0x008;
/// The moment that is passed to an access whose effect does not depend on it.
const ANY_MOMENT: u64 = 0;

/// Receives a clock's invalid accesses. The clock calls it for nothing else. An `Arc` of an events object is an events
/// object too.
pub trait RtcEvents {
    /// The guest read an unreadable offset.
    fn invalid_read(&self);

    /// The guest wrote to an unwritable offset.
    fn invalid_write(&self);
}

/// An events object that ignores every event.
#[derive(Debug, Clone, Copy)]
pub struct NoEvents;

impl RtcEvents for NoEvents {
    fn invalid_read(&self) {}

    fn invalid_write(&self) {}
}

impl<EV: RtcEvents> RtcEvents for Arc<EV> {
    fn invalid_read(&self) {
        self.as_ref().invalid_read();
    }

    fn invalid_write(&self) {
        self.as_ref().invalid_write();
    }
}

/// The contents of a clock's registers, as vm-superio 0.8.2 saves them. Any values may be restored. The default is all
/// zeros.
///
/// These five fields do not say whether an alarm is set, so a clock restored from them has none.
/// [`RtcSnapshot`] has the whole state, and [`RtcSnapshot::to_five`] refuses to lose an alarm.
#[derive(Clone, Copy, Debug, Default, Eq, PartialEq)]
#[cfg_attr(feature = "serde", derive(serde::Deserialize, serde::Serialize))]
pub struct RtcState {
    /// The load register, RTCLR: the value that was loaded last, or 0 after a reset.
    pub lr: u32,
    /// How far guest time is ahead of the host's time, in seconds.
    pub offset: i64,
    /// The match register, RTCMR: the guest time that an alarm waits for.
    pub mr: u32,
    /// The interrupt mask, RTCIMSC.
    pub imsc: u32,
    /// The raw interrupt status, RTCRIS. The alarm sets bit 0.
    pub ris: u32,
}

/// The whole state of a clock: its registers, and whether an alarm is set.
///
/// # Example
///
/// ```
/// use vm_superio::rtc_pl031::{NoEvents, Rtc, RtcSnapshot};
///
/// let mut clock = Rtc::new();
/// clock.write_at(0x004, &1_000u32.to_le_bytes(), 900); // an alarm in 100 seconds
/// let bytes = clock.snapshot().to_bytes(); // goes to a file, or to another host
///
/// let snapshot = RtcSnapshot::from_bytes(&bytes).unwrap();
/// assert!(snapshot.armed);
/// let restored = Rtc::from_snapshot(&snapshot, NoEvents);
/// assert_eq!(restored.alarm_due(950), Some(50));
/// ```
#[derive(Clone, Copy, Debug, Default, Eq, PartialEq)]
#[cfg_attr(feature = "serde", derive(serde::Deserialize, serde::Serialize))]
pub struct RtcSnapshot {
    /// The registers.
    pub state: RtcState,
    /// Whether an alarm is set and has not fired.
    pub armed: bool,
}

impl RtcSnapshot {
    /// The whole state of a clock with these five fields. No alarm is set.
    pub fn from_five(state: RtcState) -> RtcSnapshot {
        RtcSnapshot { state, armed: false }
    }

    /// The five fields that [`from_five`](Self::from_five) takes, for a program without alarms.
    ///
    /// # Errors
    ///
    /// [`AlarmIsSet`] if an alarm is set and has not fired.
    pub fn to_five(&self) -> Result<RtcState, AlarmIsSet> {
        if self.armed {
            Err(AlarmIsSet)
        } else {
            Ok(self.state)
        }
    }

    /// Returns the encoding: 33 bytes, the same on every machine. A state has exactly one.
    pub fn to_bytes(&self) -> Vec<u8> {
        self.value().to_bytes().to_vec()
    }

    /// Reads a state back from its encoding.
    ///
    /// # Errors
    ///
    /// Returns the first check of [`SavedStateError`] that the bytes fail.
    pub fn from_bytes(bytes: &[u8]) -> Result<RtcSnapshot, SavedStateError> {
        sansio::RtcState::from_bytes(bytes).map(RtcSnapshot::of)
    }

    fn of(value: sansio::RtcState) -> RtcSnapshot {
        let sansio::RtcState { lr, offset, mr, imsc, ris, armed } = value;
        RtcSnapshot { state: RtcState { lr, offset, mr, imsc, ris }, armed }
    }

    fn value(&self) -> sansio::RtcState {
        let RtcState { lr, offset, mr, imsc, ris } = self.state;
        sansio::RtcState { lr, offset, mr, imsc, ris, armed: self.armed }
    }
}

/// An alarm is set, which vm-superio's five fields cannot hold.
#[derive(Clone, Copy, Debug, Eq, PartialEq)]
pub struct AlarmIsSet;

impl fmt::Display for AlarmIsSet {
    fn fmt(&self, f: &mut fmt::Formatter) -> fmt::Result {
        f.write_str("an alarm is set, and the five fields of RtcState cannot hold it")
    }
}

impl StdError for AlarmIsSet {}

/// A PL031 real-time clock, which shows the host's time until the guest sets another.
///
/// # Example
///
/// ```
/// use vm_superio::Rtc;
///
/// const RTCDR: u16 = 0x000;
/// const RTCLR: u16 = 0x008;
///
/// let mut clock = Rtc::new();
/// clock.write(RTCLR, &1_000u32.to_le_bytes()); // the guest sets its time
///
/// let mut data = [0; 4];
/// clock.read(RTCDR, &mut data);
/// assert!((1_000..1_010).contains(&u32::from_le_bytes(data)));
///
/// // A monitor that has the moment of an exit, in seconds since 1970, passes it. A test needs no clock then.
/// clock.write_at(RTCLR, &1_000u32.to_le_bytes(), 70_000);
/// clock.read_at(RTCDR, &mut data, 70_007);
/// assert_eq!(u32::from_le_bytes(data), 1_007);
/// ```
pub struct Rtc<EV: RtcEvents> {
    clock: Pl031,
    events: EV,
}

impl<EV: RtcEvents + fmt::Debug> fmt::Debug for Rtc<EV> {
    fn fmt(&self, f: &mut fmt::Formatter) -> fmt::Result {
        let RtcState { lr, offset, mr, imsc, ris } = self.state();
        f.debug_struct("Rtc")
            .field("lr", &lr)
            .field("offset", &offset)
            .field("mr", &mr)
            .field("imsc", &imsc)
            .field("ris", &ris)
            .field("events", &self.events)
            .finish()
    }
}

/// The moment of a host's time: the seconds since 1970, or 0 if it is before that.
fn moment_of(time: SystemTime) -> u64 {
    time.duration_since(UNIX_EPOCH).map_or(0, |since| since.as_secs())
}

/// The host's time.
fn moment() -> u64 {
    moment_of(SystemTime::now())
}

// What asks for the host's time is in functions of its own, so that other accesses save no registers for it. A call
// that names its register looks it up in no table, which spares some ten instructions.

#[inline(never)]
fn read_guest_time_now(clock: &mut Pl031) -> Option<u32> {
    clock.read(RTCDR, moment())
}

#[inline(never)]
fn read_now(clock: &mut Pl031, offset: u16) -> Option<u32> {
    clock.read(offset, moment())
}

/// Asks only if the write depends on the host's time.
#[inline(never)]
fn write_now(clock: &mut Pl031, offset: u16, value: u32) -> bool {
    match offset {
        RTCMR => clock.write(RTCMR, value, moment()),
        RTCLR => clock.write(RTCLR, value, moment()),
        _ if clock.armed != 0 => clock.write(offset, value, moment()),
        _ => clock.write(offset, value, ANY_MOMENT),
    }
}

impl Default for Rtc<NoEvents> {
    fn default() -> Self {
        Self::new()
    }
}

impl Rtc<NoEvents> {
    /// Makes a clock in the default state that ignores events.
    pub fn new() -> Self {
        Self::with_events(NoEvents)
    }
}

impl<EV: RtcEvents> Rtc<EV> {
    /// Makes a clock from `state`, whatever its values, with no alarm set. Does not call the events object.
    pub fn from_state(state: &RtcState, rtc_events: EV) -> Self {
        Self::from_snapshot(&RtcSnapshot::from_five(*state), rtc_events)
    }

    /// Makes a clock from a whole state, whatever its values. Does not call the events object.
    pub fn from_snapshot(snapshot: &RtcSnapshot, rtc_events: EV) -> Self {
        Rtc { clock: Pl031::from_state(&snapshot.value()), events: rtc_events }
    }

    /// Makes a clock in the default state. Does not call the events object.
    pub fn with_events(rtc_events: EV) -> Self {
        Rtc { clock: Pl031::new(), events: rtc_events }
    }

    /// Returns a snapshot of the registers, as in vm-superio, from which [`from_state`](Rtc::from_state) recreates the
    /// clock without its alarm. To keep the alarm, save a [`snapshot`](Rtc::snapshot).
    pub fn state(&self) -> RtcState {
        self.snapshot().state
    }

    /// Returns a snapshot, from which [`from_snapshot`](Rtc::from_snapshot) recreates the clock.
    pub fn snapshot(&self) -> RtcSnapshot {
        RtcSnapshot::of(self.clock.state())
    }

    /// Whether an alarm is set and has not fired.
    pub fn is_armed(&self) -> bool {
        self.clock.armed != 0
    }

    /// Whether the interrupt line is up: bit 0 of RTCMIS, set if both RTCRIS and RTCIMSC have it.
    pub fn interrupt_line(&self) -> bool {
        self.clock.interrupt_line()
    }

    /// Returns the seconds from the moment `now`, in seconds since 1970, until an access finds the alarm reached, if
    /// the guest makes no access before. They are less than 2^32, and 0 if an access at `now` finds it. Returns `None`
    /// if no alarm is set, or if guest time never reaches the match. The mask plays no part.
    pub fn alarm_due(&self, now: u64) -> Option<u64> {
        self.clock.alarm_due(now)
    }

    /// The events object.
    pub fn events(&self) -> &EV {
        &self.events
    }

    /// The guest writes `data`, lowest byte first, at `offset` from the clock's base.
    ///
    /// A write to an unwritable offset stores nothing and calls the events object's
    /// [`invalid_write`](RtcEvents::invalid_write) once.
    ///
    /// Asks for the host's time once at a write of RTCMR or RTCLR and, while an alarm is set, at any write. To spare
    /// that, use [`write_at`](Rtc::write_at).
    pub fn write(&mut self, offset: u16, data: &[u8; 4]) {
        if offset > RTCLR && !self.is_armed() {
            self.write_at(offset, data, ANY_MOMENT); // the registers of guest time come first
        } else {
            let is_valid = write_now(&mut self.clock, offset, u32::from_le_bytes(*data));
            self.report_write(is_valid);
        }
    }

    /// Writes as [`write`](Rtc::write) does, at the moment `now`, in seconds since 1970. Does not ask for the host's
    /// time.
    pub fn write_at(&mut self, offset: u16, data: &[u8; 4], now: u64) {
        let is_valid = self.clock.write(offset, u32::from_le_bytes(*data), now);
        self.report_write(is_valid);
    }

    fn report_write(&self, is_valid: bool) {
        if !is_valid {
            self.events.invalid_write();
        }
    }

    /// The guest reads into `data`, lowest byte first, at `offset` from the clock's base.
    ///
    /// A read of an unreadable offset leaves `data` unchanged and calls the events object's
    /// [`invalid_read`](RtcEvents::invalid_read) once.
    ///
    /// Asks for the host's time once at a read of RTCDR and, while an alarm is set, at any read. To spare that, use
    /// [`read_at`](Rtc::read_at).
    pub fn read(&mut self, offset: u16, data: &mut [u8; 4]) {
        if offset == RTCDR {
            let value = read_guest_time_now(&mut self.clock);
            self.show(value, data);
        } else if self.is_armed() {
            let value = read_now(&mut self.clock, offset);
            self.show(value, data);
        } else {
            self.read_at(offset, data, ANY_MOMENT);
        }
    }

    /// Reads as [`read`](Rtc::read) does, at the moment `now`, in seconds since 1970. Does not ask for the host's time.
    pub fn read_at(&mut self, offset: u16, data: &mut [u8; 4], now: u64) {
        let value = self.clock.read(offset, now);
        self.show(value, data);
    }

    fn show(&self, value: Option<u32>, data: &mut [u8; 4]) {
        match value {
            Some(value) => *data = value.to_le_bytes(),
            None => self.events.invalid_read(),
        }
    }
}

#[cfg(test)]
mod tests {
    use super::{moment_of, UNIX_EPOCH};
    use std::time::Duration;

    #[test]
    fn a_host_before_1970_has_the_moment_0() {
        for before in [Duration::from_nanos(1), Duration::from_secs(1 << 33)] {
            assert_eq!(moment_of(UNIX_EPOCH - before), 0);
        }
        assert_eq!(moment_of(UNIX_EPOCH + Duration::from_millis(70_999)), 70);
    }
}
