// SPDX-License-Identifier: Apache-2.0 OR BSD-3-Clause
// The items and methods that tools/recheck does not translate, word by word, without their comments. It refuses any other that
// it cannot translate, and a crate that has not these.

//: rust/superio/src/lib.rs
#[cfg(feature = "std")]
extern crate std;

//: rust/superio/src/printed.rs
use core::fmt;

use crate::console::output_ring::OutputRing;
use crate::devices::saved::SavedStateError;

impl fmt::Debug for OutputRing {
    fn fmt(&self, f: &mut fmt::Formatter) -> fmt::Result {
        f.debug_struct("OutputRing").field("head", &self.head).field("len", &self.len).finish_non_exhaustive()
    }
}

impl fmt::Display for SavedStateError {
    fn fmt(&self, f: &mut fmt::Formatter) -> fmt::Result {
        match self {
            SavedStateError::TooShort => f.write_str("Too short for a saved state"),
            SavedStateError::NotASavedState => f.write_str("Not a saved state"),
            SavedStateError::OtherDevice => f.write_str("The saved state of another device"),
            SavedStateError::UnknownVersion(_) => f.write_str("A saved state of an unknown version"),
            SavedStateError::WrongLength => f.write_str("A saved state of the wrong length"),
            SavedStateError::TooManyBytes => f.write_str("More than 64 received bytes"),
            SavedStateError::InvalidArmed => f.write_str("An alarm that is neither set nor clear"),
            SavedStateError::InvalidFlags => f.write_str("A flag that no console has"),
        }
    }
}

#[cfg(feature = "std")]
impl std::error::Error for SavedStateError {}

//: rust/superio/src/console/saved.rs
impl PartialEq for Console {
    fn eq(&self, other: &Self) -> bool {
        let mut bytes = [0; CONSOLE_SAVED_MAX];
        let mut other_bytes = [0; CONSOLE_SAVED_MAX];
        let count = self.save(&mut bytes);
        let other_count = other.save(&mut other_bytes);
        bytes[..count] == other_bytes[..other_count]
    }
}

impl Eq for Console {
}

//: rust/superio/src/devices/rtc_pl031/encoding.rs
impl PartialEq for Pl031 {
    fn eq(&self, other: &Self) -> bool {
        self.state().to_bytes() == other.state().to_bytes()
    }
}

impl Eq for Pl031 {}

//: rust/superio/src/devices/serial/encoding.rs
impl PartialEq for SerialEncoding {
    fn eq(&self, other: &Self) -> bool {
        self.as_bytes() == other.as_bytes()
    }
}

impl Eq for SerialEncoding {
}

impl PartialEq for Uart {
    fn eq(&self, other: &Self) -> bool {
        self.to_bytes() == other.to_bytes()
    }
}

impl Eq for Uart {
}

//: bindings/c/from-source/src/lib.rs
unsafe fn bytes_at<'a>(bytes: *const u8, count: usize) -> &'a [u8] {
    if count == 0 {
        return &[];
    }
    unsafe { core::slice::from_raw_parts(bytes, count) }
}

unsafe fn store<T>(place: *mut T, loaded: Result<T, SavedStateError>) -> u32 {
    match loaded {
        Ok(device) => {
            unsafe { place.write(device) };
            LOADED
        }
        Err(error) => load_status(error),
    }
}

#[panic_handler]
fn stop(_: &core::panic::PanicInfo) -> ! {
    loop {
        core::hint::spin_loop();
    }
}

//: rust/vm-superio/src/lib.rs
pub mod sansio {
    pub use superio::*;
}

//: rust/vm-superio/src/rtc_pl031.rs
impl RtcEvents for NoEvents {
    fn invalid_read(&self) {}

    fn invalid_write(&self) {}
}

impl<EV: RtcEvents> RtcEvents for Arc<EV> {
    fn invalid_read(&self) {
        self.as_ref().invalid_read();
    }

    fn invalid_write(&self) {
        self.as_ref().invalid_write();
    }
}

impl fmt::Display for AlarmIsSet {
    fn fmt(&self, f: &mut fmt::Formatter) -> fmt::Result {
        f.write_str("an alarm is set, and the five fields of RtcState cannot hold it")
    }
}

impl StdError for AlarmIsSet {}

impl<EV: RtcEvents + fmt::Debug> fmt::Debug for Rtc<EV> {
    fn fmt(&self, f: &mut fmt::Formatter) -> fmt::Result {
        let RtcState { lr, offset, mr, imsc, ris } = self.state();
        f.debug_struct("Rtc")
            .field("lr", &lr)
            .field("offset", &offset)
            .field("mr", &mr)
            .field("imsc", &imsc)
            .field("ris", &ris)
            .field("events", &self.events)
            .finish()
    }
}

impl Default for Rtc<NoEvents> {
    fn default() -> Self {
        Self::new()
    }
}

#[cfg(test)]
mod tests {
    use super::{moment_of, UNIX_EPOCH};
    use std::time::Duration;

    #[test]
    fn a_host_before_1970_has_the_moment_0() {
        for before in [Duration::from_nanos(1), Duration::from_secs(1 << 33)] {
            assert_eq!(moment_of(UNIX_EPOCH - before), 0);
        }
        assert_eq!(moment_of(UNIX_EPOCH + Duration::from_millis(70_999)), 70);
    }
}

//: rust/vm-superio/src/serial.rs
pub fn writer_mut(&mut self) -> &mut W {
    &mut self.out
}

impl<T: Trigger + fmt::Debug, EV: SerialEvents + fmt::Debug, W: Write + fmt::Debug> fmt::Debug for Serial<T, EV, W> {
    fn fmt(&self, f: &mut fmt::Formatter) -> fmt::Result {
        let state = self.state();
        f.debug_struct("Serial")
            .field("baud_divisor_low", &state.baud_divisor_low)
            .field("baud_divisor_high", &state.baud_divisor_high)
            .field("interrupt_enable", &state.interrupt_enable)
            .field("interrupt_identification", &state.interrupt_identification)
            .field("line_control", &state.line_control)
            .field("line_status", &state.line_status)
            .field("modem_control", &state.modem_control)
            .field("modem_status", &state.modem_status)
            .field("scratch", &state.scratch)
            .field("in_buffer", &state.in_buffer)
            .field("interrupt_evt", &self.interrupt_evt)
            .field("events", &self.events)
            .field("out", &self.out)
            .finish()
    }
}

impl<E: fmt::Display> fmt::Display for Error<E> {
    fn fmt(&self, f: &mut fmt::Formatter) -> fmt::Result {
        match self {
            Error::Trigger(e) => write!(f, "Failed to trigger interrupt: {e}"),
            Error::IOError(e) => write!(f, "Couldn't write/flush to the given destination: {e}"),
            Error::FullFifo => write!(f, "No space left in FIFO"),
        }
    }
}

impl<E: StdError> StdError for Error<E> {}

//: rust/vm-superio/src/serial/state.rs
impl Default for SerialState {
    fn default() -> Self {
        SerialState::of(&Uart::new())
    }
}

//: rust/vm-superio/src/serial/events.rs
impl SerialEvents for NoEvents {
    fn buffer_read(&self) {}

    fn out_byte(&self) {}

    fn tx_lost_byte(&self) {}

    fn in_buffer_empty(&self) {}
}

impl<EV: SerialEvents> SerialEvents for Arc<EV> {
    fn buffer_read(&self) {
        self.as_ref().buffer_read();
    }

    fn out_byte(&self) {
        self.as_ref().out_byte();
    }

    fn tx_lost_byte(&self) {
        self.as_ref().tx_lost_byte();
    }

    fn in_buffer_empty(&self) {
        self.as_ref().in_buffer_empty();
    }
}

//: bindings/c/from-source/build.rs
fn main() {
    println!("cargo:rerun-if-changed=build.rs");
    println!("cargo:rerun-if-changed=src/lib.rs");
    let abi = include_str!("src/lib.rs").split("const ABI: u32 = ").nth(1).and_then(|rest| rest.split(';').next());
    if std::env::var("CARGO_CFG_TARGET_OS").as_deref() == Ok("linux") {
        println!("cargo:rustc-cdylib-link-arg=-Wl,-soname,libsuperio.so.{}", abi.unwrap());
    }
}
