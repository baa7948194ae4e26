// SPDX-License-Identifier: Apache-2.0 OR BSD-3-Clause
#![doc = include_str!("../README.md")]
#![no_std]
#![deny(unsafe_op_in_unsafe_fn)]

use superio::console::saved::CONSOLE_SAVED_MAX;
use superio::console::{Console, ConsoleRead, ConsoleReceived, Wants, Work};
use superio::rtc_pl031::encoding::SAVED_SIZE;
use superio::saved::SavedStateError;
use superio::serial::{EnqueueEffects, ReadEffects, WriteEffects};
use superio::{is_reset_command, Pl031, RtcState, Uart};

/// Changes with every change to a struct or to the meaning of a call.
const ABI: u32 = 5;

/// What `superio_rtc_alarm_due` returns if no access ever finds an alarm due.
const NEVER: u64 = u64::MAX;

/// What a load returns on success.
const LOADED: u32 = 0;

#[repr(C)]
pub struct RtcReadEffects {
    pub value: u32,
    pub invalid_read: bool,
}

#[repr(C)]
pub struct RtcWriteEffects {
    pub invalid_write: bool,
}

#[repr(C)]
pub struct I8042WriteEffects {
    pub resets: bool,
}

/// The bytes that C passes as a pointer and a count.
///
/// # Safety
///
/// `count` bytes can be read at `bytes`, and nobody writes them while the result is in use. If `count` is 0, `bytes`
/// may be null.
unsafe fn bytes_at<'a>(bytes: *const u8, count: usize) -> &'a [u8] {
    if count == 0 {
        return &[];
    }
    // SAFETY: as the function requires. A slice of no bytes has to have a pointer that is not null, hence the case
    // above.
    unsafe { core::slice::from_raw_parts(bytes, count) }
}

/// The number of an error in the header's `enum superio_saved_state_error`.
fn load_status(error: SavedStateError) -> u32 {
    match error {
        SavedStateError::TooShort => 1,
        SavedStateError::NotASavedState => 2,
        SavedStateError::OtherDevice => 3,
        SavedStateError::UnknownVersion(_) => 4,
        SavedStateError::WrongLength => 5,
        SavedStateError::TooManyBytes => 6,
        SavedStateError::InvalidArmed => 7,
        SavedStateError::InvalidFlags => 8,
    }
}

/// Writes a loaded device to its place, or says why there is none.
///
/// # Safety
///
/// A `T` can be written at `place`. It need not hold one.
unsafe fn store<T>(place: *mut T, loaded: Result<T, SavedStateError>) -> u32 {
    match loaded {
        Ok(device) => {
            // SAFETY: as the function requires. What the place held is not dropped: a device owns nothing.
            unsafe { place.write(device) };
            LOADED
        }
        Err(error) => load_status(error),
    }
}

#[no_mangle]
pub extern "C" fn superio_rtc_new() -> Pl031 {
    Pl031::new()
}

#[no_mangle]
pub extern "C" fn superio_rtc_read(clock: &mut Pl031, offset: u16, now: u64) -> RtcReadEffects {
    let value = clock.read(offset, now);
    RtcReadEffects { value: value.unwrap_or(0), invalid_read: value.is_none() }
}

#[no_mangle]
pub extern "C" fn superio_rtc_write(clock: &mut Pl031, offset: u16, value: u32, now: u64) -> RtcWriteEffects {
    let is_taken = clock.write(offset, value, now);
    RtcWriteEffects { invalid_write: !is_taken }
}

#[no_mangle]
pub extern "C" fn superio_rtc_interrupt_line(clock: &Pl031) -> bool {
    clock.interrupt_line()
}

#[no_mangle]
pub extern "C" fn superio_rtc_alarm_due(clock: &Pl031, now: u64) -> u64 {
    clock.alarm_due(now).unwrap_or(NEVER)
}

/// # Safety
///
/// 81 bytes outside the port can be written at `bytes`. They need not be set.
#[no_mangle]
pub unsafe extern "C" fn superio_serial_save(port: &Uart, bytes: *mut u8) -> usize {
    let encoding = port.to_bytes();
    let saved = encoding.as_bytes();
    // SAFETY: a saved port has at most 81 bytes, for which there is room at `bytes`.
    unsafe { bytes.copy_from_nonoverlapping(saved.as_ptr(), saved.len()) };
    saved.len()
}

/// # Safety
///
/// A port can be written at `port`, which need not hold one. `count` bytes outside the port can be read at `bytes`,
/// which may be null if `count` is 0.
#[no_mangle]
pub unsafe extern "C" fn superio_serial_load(port: *mut Uart, bytes: *const u8, count: usize) -> u32 {
    // SAFETY: as the function requires of both.
    unsafe { store(port, Uart::from_bytes(bytes_at(bytes, count))) }
}

/// # Safety
///
/// `CONSOLE_SAVED_MAX` bytes outside the console can be written at `bytes`. They need not be set.
#[no_mangle]
pub unsafe extern "C" fn superio_console_save(console: &Console, bytes: *mut u8) -> usize {
    let mut saved = [0; CONSOLE_SAVED_MAX];
    let count = console.save(&mut saved);
    // SAFETY: there is room for all of `saved` at `bytes`.
    unsafe { bytes.copy_from_nonoverlapping(saved.as_ptr(), count) };
    count
}

/// # Safety
///
/// A console can be written at `console`, which need not hold one. `count` bytes outside the console can be read at
/// `bytes`, which may be null if `count` is 0.
#[no_mangle]
pub unsafe extern "C" fn superio_console_load(console: *mut Console, bytes: *const u8, count: usize) -> u32 {
    // SAFETY: as the function requires of both.
    unsafe { store(console, Console::from_bytes(bytes_at(bytes, count))) }
}

/// # Safety
///
/// `SAVED_SIZE` bytes outside the clock can be written at `bytes`. They need not be set.
#[no_mangle]
pub unsafe extern "C" fn superio_rtc_save(clock: &Pl031, bytes: *mut u8) {
    let saved = clock.state().to_bytes();
    // SAFETY: it has as many bytes as there is room for at `bytes`.
    unsafe { bytes.copy_from_nonoverlapping(saved.as_ptr(), SAVED_SIZE) };
}

/// # Safety
///
/// A clock can be written at `clock`, which need not hold one. `count` bytes outside the clock can be read at `bytes`,
/// which may be null if `count` is 0.
#[no_mangle]
pub unsafe extern "C" fn superio_rtc_load(clock: *mut Pl031, bytes: *const u8, count: usize) -> u32 {
    // SAFETY: as the function requires of both.
    unsafe { store(clock, RtcState::from_bytes(bytes_at(bytes, count)).map(|state| Pl031::from_state(&state))) }
}

#[no_mangle]
pub extern "C" fn superio_serial_new() -> Uart {
    Uart::new()
}

#[no_mangle]
pub extern "C" fn superio_serial_read(port: &mut Uart, offset: u8) -> ReadEffects {
    // Only at 0 there are events. With an arm of its own for 0, rustc 1.95 puts no struct together for another offset,
    // which is then the byte alone: a read of LSR takes 20 instructions, and 29 without.
    match offset {
        0 => port.read(0),
        _ => port.read(offset),
    }
}

#[no_mangle]
pub extern "C" fn superio_serial_write(port: &mut Uart, offset: u8, value: u8) -> WriteEffects {
    port.write(offset, value)
}

/// # Safety
///
/// `count` bytes outside the port can be read at `bytes`, which may be null if `count` is 0.
#[no_mangle]
pub unsafe extern "C" fn superio_serial_enqueue(port: &mut Uart, bytes: *const u8, count: usize) -> EnqueueEffects {
    // SAFETY: as the function requires, and `port` is borrowed alone: nobody writes the bytes during the call.
    port.enqueue_raw_bytes(unsafe { bytes_at(bytes, count) })
}

#[no_mangle]
pub extern "C" fn superio_serial_character_timeout(port: &mut Uart) -> u8 {
    port.character_timeout()
}

#[no_mangle]
pub extern "C" fn superio_serial_fifo_capacity(port: &Uart) -> usize {
    port.fifo_capacity()
}

#[no_mangle]
pub extern "C" fn superio_serial_interrupts_due(port: &Uart) -> u8 {
    port.interrupts_due()
}

#[no_mangle]
pub extern "C" fn superio_serial_interrupt_line(port: &Uart) -> bool {
    port.interrupt_line()
}

#[no_mangle]
pub extern "C" fn superio_serial_is_coherent(port: &Uart) -> bool {
    port.is_coherent()
}

/// # Safety
///
/// A console can be written at `console`, which need not hold one.
#[no_mangle]
pub unsafe extern "C" fn superio_console_new(console: *mut Console, is_polled: bool) {
    // SAFETY: as the function requires. What the place held is not dropped: a console owns nothing.
    unsafe { console.write(Console::new(is_polled)) };
}

#[no_mangle]
pub extern "C" fn superio_console_read(console: &mut Console, offset: u8) -> ConsoleRead {
    console.read(offset)
}

#[no_mangle]
pub extern "C" fn superio_console_write(console: &mut Console, offset: u8, value: u8) -> Work {
    console.write(offset, value)
}

#[no_mangle]
pub extern "C" fn superio_console_wants(console: &Console) -> Wants {
    console.wants()
}

/// # Safety
///
/// `count` bytes outside the console can be read at `bytes`, which may be null if `count` is 0.
#[no_mangle]
pub unsafe extern "C" fn superio_console_receive(
    console: &mut Console,
    bytes: *const u8,
    count: usize,
) -> ConsoleReceived {
    // SAFETY: as the function requires, and `console` is borrowed alone: nobody writes the bytes during the call.
    console.receive(unsafe { bytes_at(bytes, count) })
}

/// # Safety
///
/// `count` bytes outside the console can be written at `bytes`, which may be null if `count` is 0. They need not be set.
#[no_mangle]
pub unsafe extern "C" fn superio_console_output(console: &Console, bytes: *mut u8, count: usize) -> usize {
    let oldest = console.output();
    let copied = oldest.len().min(count);
    if copied > 0 {
        // SAFETY: there is room for `count` bytes at `bytes`, which is not null, since `count` is not 0.
        unsafe { bytes.copy_from_nonoverlapping(oldest.as_ptr(), copied) };
    }
    copied
}

#[no_mangle]
pub extern "C" fn superio_console_consume(console: &mut Console, count: usize) {
    console.consume(count);
}

#[no_mangle]
pub extern "C" fn superio_console_is_full(console: &Console) -> bool {
    console.is_full()
}

#[no_mangle]
pub extern "C" fn superio_console_dropped(console: &Console) -> u64 {
    console.dropped()
}

#[no_mangle]
pub extern "C" fn superio_console_turn(console: &mut Console) -> Work {
    console.turn()
}

#[no_mangle]
pub extern "C" fn superio_console_refuse(console: &mut Console) -> Work {
    console.refuse()
}

#[no_mangle]
pub extern "C" fn superio_console_reset(console: &mut Console) -> Work {
    console.reset()
}

#[no_mangle]
pub extern "C" fn superio_console_suspend(console: &mut Console) {
    console.suspend();
}

#[no_mangle]
pub extern "C" fn superio_console_set_polled(console: &mut Console, is_polled: bool) -> Work {
    console.set_polled(is_polled)
}

#[no_mangle]
pub extern "C" fn superio_abi() -> u32 {
    ABI
}

#[no_mangle]
pub extern "C" fn superio_i8042_read(_offset: u8) -> u8 {
    0
}

#[no_mangle]
pub extern "C" fn superio_i8042_write(offset: u8, value: u8) -> I8042WriteEffects {
    I8042WriteEffects { resets: is_reset_command(offset, value) }
}

/// No call reaches this: it is proved that none panics. A library without an operating system has to have it.
#[panic_handler]
fn stop(_: &core::panic::PanicInfo) -> ! {
    loop {
        core::hint::spin_loop();
    }
}
