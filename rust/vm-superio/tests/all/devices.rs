// SPDX-License-Identifier: Apache-2.0 OR BSD-3-Clause
//! What a monitor in Rust alone sees of the devices: their writers and objects, the host's time, long input, texts,
//! conversions and what threads may do. What any monitor sees is in the lines of tests/data/calls and
//! tests/c/shared.txt of the repository.
use std::error::Error as StdError;
use std::io;
use std::panic::{RefUnwindSafe, UnwindSafe};
use std::sync::atomic::{AtomicU32, Ordering};
use std::sync::{Arc, Mutex};
use std::time::{SystemTime, UNIX_EPOCH};

use vm_superio::rtc_pl031::{self, AlarmIsSet, RtcEvents, RtcSnapshot};
use vm_superio::saved::SavedStateError;
use vm_superio::serial::{self, Error, NoEvents, SerialEvents};
use vm_superio::{I8042Device, Rtc, RtcState, Serial, SerialState, Trigger};

/// A trigger that counts its calls from any thread.
#[derive(Debug, Default)]
struct Line(AtomicU32);

impl Trigger for Line {
    type E = &'static str;

    fn trigger(&self) -> Result<(), &'static str> {
        self.0.fetch_add(1, Ordering::SeqCst);
        Ok(())
    }
}

/// Code over any trigger, as the original lets one write it: an error of any trigger can be shown.
fn write_over_any<T: Trigger>(trigger: T) -> (Result<(), String>, String) {
    let mut port = Serial::new(trigger, Vec::new());
    port.write(1, 0x02).unwrap();
    let refused: Option<Error<T::E>> = port.enqueue_raw_bytes(b"").err();
    let shown = refused.map_or(Ok(()), |error| Err(format!("{error:?}")));
    let error: Result<(), T::E> = port.interrupt_evt().trigger();
    (shown, format!("{error:?}"))
}

#[test]
fn code_over_any_trigger_shows_its_errors() {
    assert_eq!(write_over_any(Line::default()), (Ok(()), "Ok(())".to_string()));
}

#[test]
fn output_goes_to_the_writer_which_comes_back() {
    let mut serial = Serial::new(Line::default(), Vec::new());
    serial.write(0, b'a').unwrap();
    serial.writer_mut().push(b'-');
    serial.write(0, b'b').unwrap();
    assert_eq!(serial.writer(), b"a-b");
    assert_eq!(serial.interrupt_evt().0.load(Ordering::SeqCst), 0);
    assert_eq!(serial.into_writer(), b"a-b");
}

/// An events object that keeps the names of what it is told.
#[derive(Default)]
struct Told(Mutex<Vec<&'static str>>);

impl Told {
    fn tell(&self, name: &'static str) {
        self.0.lock().unwrap().push(name);
    }
}

impl SerialEvents for Told {
    fn buffer_read(&self) {
        self.tell("buffer_read");
    }

    fn out_byte(&self) {
        self.tell("out_byte");
    }

    fn tx_lost_byte(&self) {
        self.tell("tx_lost_byte");
    }

    fn in_buffer_empty(&self) {
        self.tell("in_buffer_empty");
    }
}

impl RtcEvents for Told {
    fn invalid_read(&self) {
        self.tell("invalid_read");
    }

    fn invalid_write(&self) {
        self.tell("invalid_write");
    }
}

/// Tells an object of each event once.
fn tell_each<EV: SerialEvents + RtcEvents>(events: &EV) {
    events.buffer_read();
    events.out_byte();
    events.tx_lost_byte();
    events.in_buffer_empty();
    events.invalid_read();
    events.invalid_write();
}

#[test]
fn an_events_object_in_an_arc_is_told_the_same() {
    let shared = Arc::new(Told::default());
    tell_each(&shared);
    let names = ["buffer_read", "out_byte", "tx_lost_byte", "in_buffer_empty", "invalid_read", "invalid_write"];
    assert_eq!(*shared.0.lock().unwrap(), names);
}

#[test]
fn an_enqueue_of_any_length_accepts_the_first_bytes_that_fit() {
    for power in [8, 16, 20] {
        for length in [(1 << power) - 1, 1 << power, (1 << power) + 1] {
            let mut port = Serial::new(Line::default(), io::sink());
            let input: Vec<u8> = (0..length).map(|number| number as u8).collect();
            assert_eq!(port.enqueue_raw_bytes(&input).unwrap(), 64);
            assert_eq!(port.state().in_buffer, input[..64]);
            assert!(matches!(port.enqueue_raw_bytes(&input), Err(Error::FullFifo)));
        }
    }
}

fn read_clock(clock: &mut Rtc<rtc_pl031::NoEvents>, offset: u16) -> u32 {
    let mut data = [0; 4];
    clock.read(offset, &mut data);
    u32::from_le_bytes(data)
}

#[test]
fn a_clock_shows_the_hosts_time_until_another_is_set() {
    let seconds = || SystemTime::now().duration_since(UNIX_EPOCH).unwrap().as_secs() as u32;
    let mut clock = Rtc::new();
    let before = seconds();
    let shown = read_clock(&mut clock, 0);
    assert!((before..=seconds()).contains(&shown));

    let before = seconds();
    clock.write(8, &1_000u32.to_le_bytes());
    let shown = read_clock(&mut clock, 0);
    let mut restored = Rtc::from_state(&clock.state(), rtc_pl031::NoEvents);
    let range = 1_000..=1_000 + seconds() - before;
    assert!(range.contains(&shown) && range.contains(&read_clock(&mut restored, 0)));
}

#[test]
fn at_a_moment_of_the_monitor_the_hosts_time_plays_no_part() {
    let mut clock = Rtc::new();
    let read = |clock: &mut Rtc<_>, offset, now| {
        let mut data = [0; 4];
        clock.read_at(offset, &mut data, now);
        u32::from_le_bytes(data)
    };
    clock.write_at(8, &1_000u32.to_le_bytes(), 70_000);
    assert_eq!(read(&mut clock, 0, 70_007), 1_007);
    clock.write_at(4, &1_100u32.to_le_bytes(), 70_010); // RTCMR: an alarm in 90 seconds
    assert_eq!([70_000, 70_099, 70_100].map(|now| read(&mut clock, 0x14, now)), [0, 0, 1]);
    assert_eq!(clock.alarm_due(70_100), None);
}

#[test]
fn a_state_of_more_bytes_than_a_port_holds_has_no_encoding_and_makes_no_port() {
    for count in [65, 255, 256, 320] {
        let state = SerialState {
            interrupt_enable: 0x03,
            interrupt_identification: 0x06,
            in_buffer: vec![0; count],
            ..SerialState::default()
        };
        assert_eq!((state.to_bytes(), state.is_coherent()), (Err(SavedStateError::TooManyBytes), false));
        let refused = Serial::from_state(&state, Line::default(), NoEvents, io::sink());
        assert_eq!(refused.unwrap_err().to_string(), "No space left in FIFO");
    }
}

#[test]
fn five_fields_are_made_only_without_an_alarm() {
    let state = RtcState { lr: 1, offset: -2, mr: 3, imsc: 4, ris: 5 };
    let snapshot = RtcSnapshot::from_five(state);
    assert_eq!((snapshot.state, snapshot.armed), (state, false));
    assert_eq!(snapshot.to_five(), Ok(state));
    assert_eq!(RtcSnapshot { armed: true, ..snapshot }.to_five(), Err(AlarmIsSet));
    let error: Box<dyn StdError> = AlarmIsSet.into();
    assert_eq!(error.to_string(), "an alarm is set, and the five fields of RtcState cannot hold it");
}

/// A port that holds `!`, and whose guest has read a password.
fn port_with_a_read_password() -> Serial<Line, NoEvents, Vec<u8>> {
    let mut serial = Serial::new(Line::default(), Vec::new());
    serial.enqueue_raw_bytes(b"swordfish!").unwrap();
    for byte in *b"swordfish" {
        assert_eq!(serial.read(0), byte);
    }
    serial
}

#[test]
fn devices_print_their_registers_and_no_byte_that_the_guest_has_read() {
    let registers = "baud_divisor_low: 12, baud_divisor_high: 0, interrupt_enable: 0, interrupt_identification: 1, \
         line_control: 3, line_status: 97, modem_control: 8, modem_status: 176, scratch: 0, in_buffer: [33]";
    let serial = port_with_a_read_password();
    let objects = "interrupt_evt: Line(0), events: NoEvents, out: []";
    assert_eq!(format!("{serial:?}"), format!("Serial {{ {registers}, {objects} }}"));
    assert_eq!(format!("{:?}", serial.state()), format!("SerialState {{ {registers} }}"));
    let state = SerialState { interrupt_enable: 0x03, interrupt_identification: 0x04, scratch: 9, ..serial.state() };
    let restored = Serial::from_state(&state, Line::default(), NoEvents, Vec::<u8>::new()).unwrap();
    let objects = objects.replace('0', "1"); // one interrupt was due
    let shown = format!("{state:?}").replace("State {", " {").replace(" }", &format!(", {objects} }}"));
    assert_eq!(format!("{restored:?}"), shown);
    let clock = "lr: 1, offset: 2, mr: 3, imsc: 4, ris: 5";
    let state = RtcState { lr: 1, offset: 2, mr: 3, imsc: 4, ris: 5 };
    let restored = Rtc::from_state(&state, rtc_pl031::NoEvents);
    assert_eq!(format!("{restored:?}"), format!("Rtc {{ {clock}, events: NoEvents }}"));
    assert_eq!(format!("{state:?}"), format!("RtcState {{ {clock} }}"));
    assert_eq!(format!("{:?}", I8042Device::new(Line::default())), "I8042Device { reset_evt: Line(0) }");
    assert_eq!(format!("{:?}", serial::Error::<u8>::Trigger(1)), "Trigger(1)");
}

fn is_sent_and_shared<T: Send + Sync>() {}

fn goes_to_another_thread<T: Send + Sync + Unpin + UnwindSafe + RefUnwindSafe>() {}

fn are_values<T: Clone + Default + Eq>() {}

fn are_copied<T: Copy>() {}

#[test]
fn types_have_the_traits_and_errors_the_texts_of_vm_superio() {
    are_values::<(SerialState, RtcState)>();
    are_copied::<(RtcState, NoEvents, rtc_pl031::NoEvents)>();
    assert_eq!(Rtc::default().state(), RtcState::default());
    assert_eq!(Rtc::new().snapshot(), RtcSnapshot::default());
    assert_eq!(Serial::new(Line::default(), io::sink()).state(), SerialState::default());
    let failed = Serial::new(Line::default(), &mut [][..]).write(0, b'a').unwrap_err().to_string();
    assert_eq!(failed, "Couldn't write/flush to the given destination: failed to write whole buffer");
    let refused: Box<dyn StdError> = Error::Trigger(io::Error::from(io::ErrorKind::WouldBlock)).into();
    assert_eq!(refused.to_string(), "Failed to trigger interrupt: operation would block");
    assert!(refused.source().is_none());
    let told = [Error::Trigger(" why\n"), Error::IOError(io::Error::new(io::ErrorKind::Other, " why\n"))];
    let texts = ["Failed to trigger interrupt:  why\n", "Couldn't write/flush to the given destination:  why\n"];
    assert_eq!(told.map(|error| error.to_string()), texts);
}

#[test]
fn what_threads_may_do_with_its_objects_they_may_do_with_a_device() {
    goes_to_another_thread::<Serial<Line, NoEvents, Vec<u8>>>();
    goes_to_another_thread::<Rtc<rtc_pl031::NoEvents>>();
    goes_to_another_thread::<I8042Device<Line>>();
    goes_to_another_thread::<(SerialState, RtcState, RtcSnapshot, AlarmIsSet, SavedStateError)>();
    is_sent_and_shared::<Error<&'static str>>(); // an `io::Error` in it may not be used after a panic
}

#[test]
fn each_error_is_one_of_std() {
    // So that `?` takes it into any box of errors.
    fn is_error<E: StdError + Send + Sync + 'static>() {}
    is_error::<SavedStateError>();
    is_error::<vm_superio::sansio::saved::SavedStateError>();
    is_error::<AlarmIsSet>();
    is_error::<Error<io::Error>>();
}
