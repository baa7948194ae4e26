// SPDX-License-Identifier: Apache-2.0 OR BSD-3-Clause
#![doc = include_str!("../README.md")]
//!
//! ## Calls that this page names
//!
//! - Of a console: [`wants`](console::Console::wants), [`refuse`](console::Console::refuse),
//!   [`reset`](console::Console::reset) and [`suspend`](console::Console::suspend).
//! - Of a port: [`character_timeout`](Uart::character_timeout).
//! - Of a clock: [`interrupt_line`](Pl031::interrupt_line), [`alarm_due`](Pl031::alarm_due) and
//!   [`from_state`](Pl031::from_state); of its state [`to_bytes`](RtcState::to_bytes) and
//!   [`from_bytes`](RtcState::from_bytes).
//!
//! ## A FIFO of your own
//!
//! [`serial::Registers`] are the registers of a port around a receive FIFO of yours, which implements [`fifo::RxFifo`].
//! What is proved holds if each method of your FIFO does what the comments of [`fifo::RxFifo`] say.
//!
//! If your interrupt controller refuses the first of two interrupts, later raise as many as
//! [`interrupts_due`](serial::Registers::interrupts_due) returns. If you want to lose THRE instead, as vm-superio's
//! `Serial` does, call [`cancel_thre`](serial::Registers::cancel_thre).
//!
//! ## Names that you can ignore
//!
//! Contracts of the proved source name the cases of [`serial::registers::Condition`],
//! [`rtc_pl031::ClockRegister`] and [`serial::Sent`], so these are public. The console uses the constants and the free
//! functions of [`saved`] and [`serial::registers`], so these are public too.
#![no_std]
#![forbid(unsafe_code)]
#![deny(missing_docs)]
#![deny(missing_copy_implementations)]
// The modules below are lines of the proved source, in the layout and style of its language. A pattern that names no
// constant, and a result that is not used, would not mean the same in Rust: these lints deny them.
#![deny(arithmetic_overflow, overflowing_literals, unconditional_panic, unconditional_recursion)]
#![deny(non_snake_case, unreachable_patterns, unused_must_use, unused_variables)]

#[cfg(feature = "std")]
extern crate std;

#[rustfmt::skip]
#[allow(clippy::style)]
#[allow(clippy::type_complexity)] // of the parts of a saved console
#[allow(missing_copy_implementations)] // of a console, which is large
pub mod console;
#[rustfmt::skip]
#[allow(clippy::style)]
#[allow(missing_copy_implementations)] // of a saved port's bytes, which are only read
mod devices;

mod printed;

pub use devices::*;
