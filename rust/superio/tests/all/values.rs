// SPDX-License-Identifier: Apache-2.0 OR BSD-3-Clause
//! The crate's types as values: which are copied in silence, what is equal and what is printed; and which writes send.
use std::fmt::Debug;
use std::marker::PhantomData;

use superio::console::output_ring::OutputRing;
use superio::console::{Console, ConsoleRead, ConsoleReceived, Wants, Work};
use superio::fifo::ArrayFifo;
use superio::rtc_pl031::ClockRegister;
use superio::saved::SavedStateError;
use superio::serial::encoding::SerialEncoding;
use superio::serial::registers::{Condition, Register};
use superio::serial::{Asked, EnqueueEffects, ReadEffects, Registers, Sent, WriteEffects};
use superio::{Pl031, RtcState, Uart};

use crate::refused;

/// Whether a type is copied in silence: its own constant comes before that of the trait.
struct Probe<T>(PhantomData<T>);

trait NotCopied {
    const IS_COPIED: bool = false;
}

impl<T> NotCopied for Probe<T> {}

impl<T: Copy> Probe<T> {
    const IS_COPIED: bool = true;
}

fn is_value<T: Clone + Debug>() {}

fn is_compared<T: Clone + Debug + Eq>() {}

#[test]
fn each_type_is_printed_and_what_can_be_is_compared() {
    is_value::<ArrayFifo>();
    is_value::<OutputRing>();
    is_compared::<Uart>();
    is_compared::<Pl031>();
    is_compared::<Console>();
    is_compared::<Registers>();
    is_compared::<SerialEncoding>();
    is_compared::<RtcState>();
    is_compared::<ReadEffects>();
    is_compared::<WriteEffects>();
    is_compared::<EnqueueEffects>();
    is_compared::<ConsoleRead>();
    is_compared::<ConsoleReceived>();
    is_compared::<Wants>();
    is_compared::<Work>();
    is_compared::<SavedStateError>();
    is_compared::<Register>();
    is_compared::<ClockRegister>();
    is_compared::<Condition>();
    is_compared::<Asked>();
    is_compared::<Sent>();
}

#[test]
fn no_device_is_copied_in_silence() {
    let copied = [
        Probe::<WriteEffects>::IS_COPIED,
        Probe::<Uart>::IS_COPIED,
        Probe::<Pl031>::IS_COPIED,
        Probe::<Console>::IS_COPIED,
        Probe::<ArrayFifo>::IS_COPIED,
        Probe::<OutputRing>::IS_COPIED,
    ];
    assert_eq!(copied, [true, false, false, false, false, false]);
}

#[test]
fn ports_are_equal_if_their_states_are() {
    let (port, mut other) = (Uart::new(), Uart::new());
    assert_eq!(other.enqueue_raw_bytes(b"a").accepted, 1);
    assert_ne!(port, other);
    assert_eq!(other.read(0).byte, b'a');
    assert_ne!(port.in_buffer.head, other.in_buffer.head);
    assert_eq!(port, other);
    let _ = other.write(7, 1);
    assert_ne!(port, other);
}

#[test]
fn clocks_are_equal_if_their_states_are() {
    let with_alarm = |armed| Pl031 { armed, ..Pl031::new() };
    assert_eq!(with_alarm(1), with_alarm(2));
    assert_ne!(with_alarm(1), Pl031::new());
}

/// C shows the places of the ring, and a new port has nothing there.
#[test]
fn a_new_port_has_zeros_in_its_places() {
    let ArrayFifo { head, len, bytes } = Uart::new().in_buffer;
    assert_eq!((head, len, bytes), (0, 0, [0; 64]));
}

/// The five fields of vm-superio make a state without an alarm, and only such a state gives them back.
#[test]
fn a_state_with_an_alarm_is_not_five_fields() {
    let state = RtcState::from_five(1, -2, 3, 4, 5);
    assert_eq!(state, RtcState { lr: 1, offset: -2, mr: 3, imsc: 4, ris: 5, ..RtcState::default() });
    assert_eq!(state.to_five(), Some((1, -2, 3, 4, 5)));
    assert_eq!(RtcState { armed: true, ..state }.to_five(), None);
}

fn bytes_of(digits: &str) -> Vec<u8> {
    (0..digits.len() / 2).map(|at| u8::from_str_radix(&digits[2 * at..][..2], 16).unwrap()).collect()
}

/// Each is refused by the first check that it fails.
#[test]
fn bytes_that_are_no_saved_device_are_refused() {
    let check = |list: &[(&str, &str)], load: fn(&[u8]) -> Option<SavedStateError>| {
        assert!(list.len() > 8);
        for (case, digits) in list {
            let error = format!("{:?}", load(&bytes_of(digits)).expect(digits));
            assert_eq!(error.split('(').next(), Some(*case), "{digits}");
        }
    };
    check(refused::PORTS, |bytes| Uart::from_bytes(bytes).err());
    check(refused::CLOCKS, |bytes| RtcState::from_bytes(bytes).err());
    check(refused::CONSOLES, |bytes| Console::from_bytes(bytes).err());
}

#[test]
fn consoles_are_equal_if_their_states_are_and_print_no_places() {
    let (console, mut other) = (Console::new(true), Console::new(true));
    let _ = other.write(0, b'x');
    assert_ne!(console, other);
    assert!(format!("{other:?}").contains("output: OutputRing { head: 0, len: 1, .. }"));
    other.consume(1);
    assert_ne!(console.output.head, other.output.head);
    assert_eq!(console, other);
    assert_ne!(console, Console::new(false));
}

/// A THR write outside loopback sends its byte, and no other write does. To ask changes nothing.
#[test]
fn a_port_says_before_a_write_whether_it_sends() {
    for (lcr, mcr) in [(0x03, 0x08), (0x83, 0x08), (0x03, 0x18), (0x83, 0x18)] {
        for offset in 0..=255 {
            let mut port = Uart::new();
            let _ = port.write(3, lcr);
            let _ = port.write(4, mcr);
            let (before, sends) = (port.clone(), offset == 0 && lcr & 0x80 == 0 && mcr & 0x10 == 0);
            assert_eq!((port.sends(offset), &port), (sends, &before), "{lcr:#x} {mcr:#x} {offset}");
            assert_eq!(port.write(offset, 0x41).sends, sends, "{lcr:#x} {mcr:#x} {offset}");
        }
    }
}
