// SPDX-License-Identifier: Apache-2.0 OR BSD-3-Clause
// Made by the command tools/erase from crates/superio_core/src/rtc_pl031.rt.
// These are the lines that the prover checks, without their contracts. Change them there.
//! A real-time clock with the registers of an ARM PL031, without I/O.
//!
//! A call changes the clock and returns what the guest reads, or whether the access is invalid. The clock never reads
//! the host's clock: you pass the moment of each access, in seconds since 1970.

mod alarm;
pub mod encoding;

use alarm::{guest_time, seconds_until};
pub use encoding::RtcState;

/// The data register.
const RTCDR: u16 = 0x000;

/// The match register.
const RTCMR: u16 = 0x004;

/// The load register.
const RTCLR: u16 = 0x008;

/// The control register.
const RTCCR: u16 = 0x00C;

/// The interrupt mask.
const RTCIMSC: u16 = 0x010;

/// The raw interrupt status.
const RTCRIS: u16 = 0x014;

/// The masked interrupt status.
const RTCMIS: u16 = 0x018;

/// The interrupt clear register.
const RTCICR: u16 = 0x01C;

/// The first offset of the peripheral and PrimeCell identification.
const AMBA_ID_LOW: u16 = 0xFE0;

/// The last offset of the identification.
const AMBA_ID_HIGH: u16 = 0xFFF;

/// The identification bytes, each at four offsets.
const AMBA_IDS: [u8; 8] = [0x31, 0x10, 0x04, 0x00, 0x0D, 0xF0, 0x05, 0xB1];

/// The register that an offset selects, by its name in the datasheet. Contracts name it.
#[derive(Clone, Copy, Debug, PartialEq, Eq)]
pub enum ClockRegister {
    /// RTCDR, the data register at 0x000, shows guest time. It takes no write.
    Dr,
    /// RTCMR, the match register at 0x004. A write stores the value and drops any alarm set before. If the value is
    /// greater than guest time, it sets the alarm. If they are equal, it raises bit 0 of RTCRIS at once. If the value
    /// is past, it does neither.
    Mr,
    /// RTCLR, the load register at 0x008. A write stores the value and makes it guest time.
    Lr,
    /// RTCCR, the control register at 0x00C, shows 1, as the clock always runs. A write of 1 clears RTCLR and makes
    /// guest time the host's. Other values have no effect.
    Cr,
    /// RTCIMSC, the interrupt mask at 0x010. A write stores bit 0 of its value, and clears the others.
    Imsc,
    /// RTCRIS, the raw interrupt status at 0x014. It takes no write.
    Ris,
    /// RTCMIS, the masked interrupt status at 0x018, shows the bits that RTCRIS and RTCIMSC both have. It takes no
    /// write.
    Mis,
    /// RTCICR, the interrupt clear register at 0x01C. A write clears the bits of RTCRIS that the value has set. It
    /// shows nothing.
    Icr,
    /// A part of the identification at 0xFE0 to 0xFFF. It shows this byte, which is at four offsets, and takes no
    /// write.
    Id(u8),
    /// No register. It shows nothing, and takes no write.
    Reserved,
}

impl ClockRegister {
    /// The register at `offset`.
    #[inline(always)]
    fn decode(offset: u16) -> ClockRegister {
        match offset {
            RTCDR => ClockRegister::Dr,
            RTCMR => ClockRegister::Mr,
            RTCLR => ClockRegister::Lr,
            RTCCR => ClockRegister::Cr,
            RTCIMSC => ClockRegister::Imsc,
            RTCRIS => ClockRegister::Ris,
            RTCMIS => ClockRegister::Mis,
            RTCICR => ClockRegister::Icr,
            AMBA_ID_LOW..=AMBA_ID_HIGH => {
                let index = (offset - AMBA_ID_LOW) / 4;
                ClockRegister::Id(AMBA_IDS[usize::from(index)])
            }
            _ => ClockRegister::Reserved,
        }
    }
}

/// A PL031 real-time clock without I/O. Any values are a valid clock.
///
/// ```
/// # use superio::Pl031;
/// let mut clock = Pl031::new();
/// assert!(clock.write(0x004, 1_010, 1_000)); // RTCMR, at the moment 1,000: an alarm ten seconds ahead
/// assert_eq!(clock.alarm_due(1_000), Some(10)); // set a timer
/// assert_eq!(clock.read(0x000, 1_010), Some(1_010)); // RTCDR
/// assert_eq!(clock.read(0x014, 1_010), Some(1)); // RTCRIS: the alarm has come
/// ```
#[repr(C)]
#[derive(Clone, Debug)]
pub struct Pl031 {
    /// RTCLR, the load register: the last loaded value, or 0 after a reset.
    pub lr: u32,
    /// RTCMR, the match register: the guest time that an alarm waits for.
    pub mr: u32,
    /// RTCIMSC, the interrupt mask. A write stores bit 0 of its value, and clears the others.
    pub imsc: u32,
    /// RTCRIS, the raw interrupt status. The alarm sets bit 0; nothing sets other bits.
    pub ris: u32,
    /// How far guest time is ahead of the host's time, in seconds.
    pub offset: i64,
    /// Nonzero if an alarm is set and has not fired. It is eight bytes wide so that the struct has no padding.
    pub armed: u64,
}

impl Pl031 {
    /// A fresh clock: it shows the host's time and has no alarm.
    // Clauses in crates/superio_core/src/rtc_pl031.rt: returns.
    pub fn new() -> Pl031 {
        Pl031 {
            lr: 0,
            mr: 0,
            imsc: 0,
            ris: 0,
            offset: 0,
            armed: 0,
        }
    }

    /// Makes a clock with this state.
    // Clauses in crates/superio_core/src/rtc_pl031.rt: returns.
    pub fn from_state(state: &RtcState) -> Pl031 {
        Pl031 {
            lr: state.lr,
            mr: state.mr,
            imsc: state.imsc,
            ris: state.ris,
            offset: state.offset,
            armed: u64::from(state.armed),
        }
    }

    /// Returns a snapshot, from which [`from_state`](Self::from_state) recreates the clock.
    // Clauses in crates/superio_core/src/rtc_pl031.rt: returns.
    pub fn state(&self) -> RtcState {
        RtcState {
            lr: self.lr,
            offset: self.offset,
            mr: self.mr,
            imsc: self.imsc,
            ris: self.ris,
            armed: self.armed != 0,
        }
    }

    /// Begins an access at the moment `now` and returns the host's time. Any access, even an invalid one, may fire the
    /// alarm before its own effect.
    #[inline(always)]
    fn begin_access(&mut self, now: u64) -> u32 {
        let time = (now % (1 << 32)) as u32;
        if self.armed != 0 && guest_time(self.offset, time) >= self.mr {
            self.ris |= 1;
            self.armed = 0;
        }
        time
    }

    /// The value read from `register` at the host's time `time`, or `None` if it is not readable.
    #[inline(always)]
    fn read_register(&self, register: ClockRegister, time: u32) -> Option<u32> {
        match register {
            ClockRegister::Dr => Some(guest_time(self.offset, time)),
            ClockRegister::Mr => Some(self.mr),
            ClockRegister::Lr => Some(self.lr),
            ClockRegister::Cr => Some(1),
            ClockRegister::Imsc => Some(self.imsc),
            ClockRegister::Ris => Some(self.ris),
            ClockRegister::Mis => Some(self.ris & self.imsc),
            ClockRegister::Id(byte) => Some(u32::from(byte)),
            ClockRegister::Icr | ClockRegister::Reserved => None,
        }
    }

    /// Stores a match. Sets the alarm if guest time has yet to reach it, and raises the interrupt at once if guest time
    /// equals it.
    #[inline(always)]
    fn write_match(&mut self, value: u32, time: u32) {
        let guest_time = guest_time(self.offset, time);
        self.mr = value;
        self.armed = u64::from(guest_time < value);
        if value == guest_time {
            self.ris |= 1;
        }
    }

    /// Writes `value` to `register` at the host's time `time`, and returns whether the register takes a write. If not,
    /// nothing changes.
    #[inline(always)]
    fn store(&mut self, register: ClockRegister, value: u32, time: u32) -> bool {
        match register {
            ClockRegister::Mr => self.write_match(value, time),
            ClockRegister::Lr => {
                self.lr = value;
                self.offset = i64::from(value) - i64::from(time);
            }
            ClockRegister::Cr => {
                if value == 1 {
                    self.lr = 0;
                    self.offset = 0;
                }
            }
            ClockRegister::Imsc => self.imsc = value & 1,
            ClockRegister::Icr => self.ris &= !value,
            _ => return false,
        }
        true
    }

    /// The guest reads four bytes at `offset` from the clock's base, at the moment `now`, in seconds since 1970. Only
    /// the low 32 bits of `now` count. Returns the number that the guest reads, lowest byte first, or `None` if this
    /// offset cannot be read. Even then the access may find the alarm reached.
    #[inline(always)]
    // Clauses in crates/superio_core/src/rtc_pl031.rt: response, state.
    pub fn read(&mut self, offset: u16, now: u64) -> Option<u32> {
        let time = self.begin_access(now);
        self.read_register(ClockRegister::decode(offset), time)
    }

    /// The guest writes `value` at `offset` from the clock's base, as four bytes, lowest first, at the moment `now`, in
    /// seconds since 1970. Only the low 32 bits of `now` count. Returns whether this offset takes a write. If it does
    /// not, nothing is stored, but the access may still find the alarm reached.
    #[inline(always)]
    // Clauses in crates/superio_core/src/rtc_pl031.rt: writable, state.
    pub fn write(&mut self, offset: u16, value: u32, now: u64) -> bool {
        let time = self.begin_access(now);
        self.store(ClockRegister::decode(offset), value, time)
    }

    /// Whether the interrupt line is up. Bit 0 of RTCMIS says so: it is set if RTCRIS and RTCIMSC both have it. Set
    /// your line to this level after each access.
    // Clauses in crates/superio_core/src/rtc_pl031.rt: returns.
    pub fn interrupt_line(&self) -> bool {
        self.ris & self.imsc & 1 == 1
    }

    /// How many seconds after the moment `now` an access finds the alarm reached, if the guest makes no access before.
    /// `now` is in seconds since 1970. The result is less than 2^32, and 0 if an access at `now` finds the alarm
    /// reached. It is `None` if no alarm is set, or if guest time never reaches the match. The mask plays no part.
    // Clauses in crates/superio_core/src/rtc_pl031.rt: due, bound.
    pub fn alarm_due(&self, now: u64) -> Option<u64> {
        if self.armed == 0 {
            return None;
        }
        seconds_until(self.offset, self.mr, now)
    }
}
