// SPDX-License-Identifier: Apache-2.0 OR BSD-3-Clause
//! A console's calls by themselves: from any contents, beyond what is wanted or waits, and its saved form.
use std::mem::{size_of, swap};

use superio::console::output_ring::{OutputRing, OUTPUT_SIZE};
use superio::console::saved::CONSOLE_SAVED_MAX;
use superio::console::{Console, Wants, Work};
use superio::saved::SavedStateError::{self, *};
use superio::serial::{ArrayFifo, Registers};
use superio::Uart;

const DATA: u8 = 0;
const IER: u8 = 1;
const IIR: u8 = 2;
const LSR: u8 = 5;

/// Where the saved form has its parts, and its size without output and received bytes.
const FLAGS: usize = 8;
const DROPPED: usize = 9;
const COUNT: usize = 17;
const OUTPUT: usize = 19;
const PORT: usize = 17;

/// Numbers by a generator of Knuth's.
struct Random(u64);

impl Random {
    fn below(&mut self, bound: u64) -> u64 {
        self.0 = self.0.wrapping_mul(6_364_136_223_846_793_005).wrapping_add(1);
        (self.0 >> 33) % bound
    }

    fn byte(&mut self) -> u8 {
        self.below(256) as u8
    }

    fn bytes<const N: usize>(&mut self) -> [u8; N] {
        [(); N].map(|()| self.byte())
    }

    /// Any contents, among which the limits are as likely as all others.
    fn console(&mut self) -> Console {
        let [dll, dlm, ier, iir, lcr, lsr, mcr, msr, scr] = self.bytes();
        let mut fifo = ArrayFifo { head: self.byte(), len: self.byte(), bytes: self.bytes() };
        let mut output =
            OutputRing { head: self.below(1 << 16) as u16, len: self.below(1 << 16) as u16, bytes: [0; 4096] };
        output.bytes = self.bytes();
        if self.below(2) == 0 {
            fifo.len %= 66;
            output.len = (self.below(3) * 2048) as u16 + self.below(2) as u16;
        }
        let flag = |byte: u8| if byte & 1 == 0 { 0 } else { byte };
        Console {
            port: Uart {
                registers: Registers {
                    baud_divisor_low: dll,
                    baud_divisor_high: dlm,
                    interrupt_enable: ier,
                    interrupt_identification: iir,
                    line_control: lcr,
                    line_status: lsr,
                    modem_control: mcr,
                    modem_status: msr,
                    scratch: scr,
                },
                in_buffer: fifo,
            },
            output,
            dropped: if self.below(2) == 0 { u64::MAX } else { self.below(9) },
            is_polled: flag(self.byte()),
            is_ready: flag(self.byte()),
            is_asleep: flag(self.byte()),
            is_refused: flag(self.byte()),
        }
    }
}

fn saved(console: &Console) -> Vec<u8> {
    let mut bytes = [0; CONSOLE_SAVED_MAX];
    let count = console.save(&mut bytes);
    bytes[..count].to_vec()
}

/// A driver that is ready.
fn ready() -> Console {
    let mut console = Console::new(false);
    let _ = console.write(IER, 0x01);
    console
}

/// Makes the call of this number, and returns its work.
fn call(console: &mut Console, random: &mut Random) -> Option<Work> {
    let (first, second) = (random.byte(), random.byte());
    let bytes: [u8; 200] = random.bytes();
    Some(match random.below(12) {
        0..=2 => console.read(first % 9).work,
        3..=5 => console.write(second % 9, first),
        6 => {
            let (wants, received) = (console.wants(), console.receive(&bytes[..first.min(200).into()]));
            assert_eq!(received.accepted, wants.input.min(first.min(200).into()));
            received.work
        }
        7 => {
            console.consume(usize::from(first) * usize::from(second));
            return None;
        }
        8 => console.turn(),
        9 => console.refuse(),
        10 if first < 16 => console.reset(),
        11 if first < 16 => {
            console.suspend();
            return None;
        }
        _ => console.set_polled(first % 2 == 0),
    })
}

#[test]
fn any_contents_are_a_console() {
    let mut random = Random(1);
    for _ in 0..200 {
        let (mut console, mut other) = (random.console(), random.console());
        for _ in 0..40 {
            let before = console.wants();
            let work = call(&mut console, &mut random);
            let Wants { input, output, turn } = console.wants();
            assert!(input <= 64);
            assert!(console.output().len() <= OUTPUT_SIZE);
            assert_eq!(console.output().is_empty(), !output);
            let names_more = before.input == 0 && input > 0 || !before.output && output || !before.turn && turn;
            assert_eq!(work.map_or(false, |work| work.wakes), names_more);
            assert!(work.map_or(0, |work| work.interrupts) <= 2);
            if let Some(work) = work {
                assert_eq!(work.is_up, console.port.interrupt_line());
            }
            // Its saved form is that of a console which goes on alike.
            let bytes = saved(&console);
            assert_eq!(other.load(&bytes), Ok(()));
            assert_eq!(saved(&other), bytes);
            assert_eq!(
                (other.wants(), other.is_full(), other.dropped()),
                (console.wants(), console.is_full(), console.dropped())
            );
            swap(&mut console, &mut other);
        }
    }
}

#[test]
fn receive_takes_what_is_wanted() {
    let mut closed = Console::new(false);
    assert_eq!(closed.receive(b"early").accepted, 0);
    let mut console = ready();
    assert_eq!(console.wants().input, 64);
    let bytes: Vec<u8> = (0..100).collect();
    let received = console.receive(&bytes);
    assert_eq!(received.accepted, 64);
    assert_eq!(received.work, Work { interrupts: 1, is_up: true, wakes: true }); // for a turn
    assert_eq!(console.receive(&bytes[64..]).accepted, 0);
    assert_eq!(console.read(DATA).byte, 0);
    assert_eq!(console.receive(&bytes[64..]).accepted, 1);
    for byte in 1..65 {
        assert_eq!(console.read(DATA).byte, byte);
    }
    assert_eq!(console.receive(&[]).accepted, 0);
}

#[test]
fn consume_takes_what_waits() {
    let mut console = ready();
    console.consume(5);
    for byte in b"hello" {
        let _ = console.write(DATA, *byte);
    }
    console.consume(2);
    assert_eq!(console.output(), b"llo");
    console.consume(usize::MAX);
    assert_eq!(console.output(), b"");
    assert!(!console.wants().output);
    let _ = console.write(DATA, b'!');
    assert_eq!(console.output(), b"!");
}

#[test]
fn output_beyond_its_room_is_dropped_and_counted() {
    let mut console = ready();
    for place in 0..OUTPUT_SIZE {
        assert!(!console.is_full());
        let _ = console.write(DATA, (place % 251) as u8);
    }
    assert!(console.is_full());
    assert!(!console.write(DATA, b'x').wakes);
    assert_eq!(console.dropped(), 1);
    console.consume(1);
    assert!(!console.is_full());
    let _ = console.write(DATA, b'y');
    assert_eq!(console.dropped(), 1);
    assert_eq!(console.output().len(), OUTPUT_SIZE - 1); // as many as lie together
    assert!(console.output().iter().zip(1..).all(|(byte, place): (_, usize)| usize::from(*byte) == place % 251));
    console.consume(OUTPUT_SIZE - 1);
    assert_eq!(console.output(), b"y");
    console.dropped = u64::MAX - 1;
    for _ in 0..OUTPUT_SIZE + 2 {
        let _ = console.write(DATA, b'z');
    }
    assert_eq!(console.dropped(), u64::MAX);
}

#[test]
fn layout_and_sizes() {
    assert_eq!(size_of::<Console>(), 4192);
    assert_eq!(CONSOLE_SAVED_MAX, 4196);
}

#[test]
fn a_reset_keeps_what_is_the_monitors() {
    let mut console = Console::new(true);
    let _ = (console.write(IER, 0x01), console.write(DATA, b'o'), console.receive(b"in"), console.refuse());
    console.suspend();
    assert_eq!([console.is_ready, console.is_asleep], [0, 1]); // and so it is saved
    console.dropped = 3;
    let work = console.reset();
    assert_eq!(work, Work { interrupts: 0, is_up: false, wakes: true }); // for input
    let flags = [console.is_polled, console.is_ready, console.is_asleep, console.is_refused];
    assert_eq!((flags, console.output(), console.dropped()), ([1, 0, 0, 0], &b"o"[..], 3));
    assert_eq!(console.port.to_bytes().as_bytes(), Uart::new().to_bytes().as_bytes());
}

/// A console in each part of whose saved form something differs from a new one.
fn example() -> Console {
    let mut console = ready();
    let _ = console.receive(b"in");
    for byte in b"out" {
        let _ = console.write(DATA, *byte);
    }
    let _ = console.refuse();
    console.dropped = 0x0102_0304_0506_0708;
    console
}

/// The version of the encoding, which `tools/generate` writes here.
const VERSION: u8 = 1;

#[rustfmt::skip] // a part a line
const EXAMPLE: &[u8] = &[
    b'S', b'I', b'O', b'S', 3, VERSION, 33, 0,
    2 | 8,
    8, 7, 6, 5, 4, 3, 2, 1,
    3, 0,
    b'o', b'u', b't',
    b'S', b'I', b'O', b'S', 1, VERSION, 11, 0,
    12, 0, 1, 4, 3, 0x61, 8, 0xB0, 0,
    b'i', b'n',
];

#[test]
fn saved_form() {
    assert_eq!(saved(&example()), EXAMPLE);
    let mut loaded = Console::from_bytes(EXAMPLE).unwrap();
    assert_eq!(saved(&loaded), EXAMPLE);
    assert_eq!(loaded.turn(), Work { interrupts: 1, is_up: true, wakes: false });
    assert_eq!((loaded.read(IIR).byte, loaded.read(DATA).byte, loaded.read(LSR).byte), (0xC4, b'i', 0x61));
    // Output that goes past the last place of the ring.
    let mut console = ready();
    for place in 0..OUTPUT_SIZE + 96 {
        let _ = console.write(DATA, (place % 251) as u8);
        console.consume(if place % 4096 == 4000 { 4000 } else { 0 });
    }
    let bytes = saved(&console);
    assert!(bytes[OUTPUT..OUTPUT + 192].iter().zip(4000..).all(|(byte, place)| usize::from(*byte) == place % 251));
    assert_eq!(Console::from_bytes(&bytes).unwrap().output(), &bytes[OUTPUT..OUTPUT + 192]);
    // The longest.
    let mut console = Random(2).console();
    console.output.len = u16::MAX;
    console.port.in_buffer.len = u8::MAX;
    assert_eq!(saved(&console).len(), CONSOLE_SAVED_MAX);
    assert!(Console::from_bytes(&saved(&console)).is_ok());
}

#[test]
fn each_flag_is_saved() {
    for flags in 0..16 {
        let bytes = with(FLAGS, flags);
        let console = Console::from_bytes(&bytes).unwrap();
        let found = [console.is_polled, console.is_ready, console.is_asleep, console.is_refused].map(|flag| flag != 0);
        assert_eq!(found, [1, 2, 4, 8].map(|bit| flags & bit != 0));
        assert_eq!(saved(&console), bytes);
    }
}

/// The example with another byte.
fn with(place: usize, byte: u8) -> Vec<u8> {
    let mut bytes = EXAMPLE.to_vec();
    bytes[place] = byte;
    bytes
}

/// Contents with their header.
fn framed(contents: &[u8]) -> Vec<u8> {
    [&EXAMPLE[..6], &(contents.len() as u16).to_le_bytes(), contents].concat()
}

/// The example whose port has other bytes.
fn with_port(port: &[u8]) -> Vec<u8> {
    framed(&[&EXAMPLE[FLAGS..OUTPUT + 3], port].concat())
}

/// So many bytes of output, of which as many are there.
fn with_output(count: u16, there: usize) -> Vec<u8> {
    let port = &EXAMPLE[OUTPUT + 3..];
    framed(&[&EXAMPLE[FLAGS..COUNT], &count.to_le_bytes(), &vec![b'x'; there], port].concat())
}

/// The port of the example, with so many received bytes.
fn port(held: usize) -> Vec<u8> {
    let start = &EXAMPLE[OUTPUT + 3..OUTPUT + 3 + PORT];
    [&start[..6], &(9 + held as u16).to_le_bytes(), &start[8..], &vec![b'x'; held]].concat()
}

/// Bytes that are no saved console, and why.
fn refused() -> Vec<(Vec<u8>, SavedStateError)> {
    let mut list = Vec::new();
    list.extend((0..8).map(|count| (EXAMPLE[..count].to_vec(), TooShort)));
    list.extend((0..4).map(|place| (with(place, b'?'), NotASavedState)));
    list.extend([0, 1, 2, 4].map(|kind| (with(4, kind), OtherDevice)));
    list.extend([0, VERSION + 1, 255].map(|version| (with(5, version), UnknownVersion(version))));
    // The length in the header.
    list.extend([0, 32, 34].map(|length| (with(6, length), WrongLength)));
    list.push((with(7, 1), WrongLength));
    list.push(([EXAMPLE, &[0]].concat(), WrongLength));
    // Too little for the flags and the counts, or for the output. A header alone is in refused.rs.
    list.extend((1..11).map(|count| (framed(&EXAMPLE[FLAGS..FLAGS + count]), WrongLength)));
    list.push((framed(&[&EXAMPLE[FLAGS..COUNT], &[4, 0], b"out"].concat()), WrongLength));
    // More output than a console has, though it is there.
    list.push((with_output(4097, 4097), WrongLength));
    list.push((with_output(u16::MAX, 5000), WrongLength));
    // The flags come after the counts, and before the port.
    list.extend([16, 0x80, 0xFF].map(|flags| (with(FLAGS, flags), InvalidFlags)));
    list.push((framed(&[&[0x10], &EXAMPLE[DROPPED..COUNT], &[99, 0]].concat()), WrongLength));
    list.push((framed(&[&[0x10], &EXAMPLE[DROPPED..COUNT], &[0, 0]].concat()), InvalidFlags));
    // The port, as when it is saved by itself.
    let whole = port(2);
    list.extend((0..8).map(|count| (with_port(&whole[..count]), TooShort)));
    list.push((with_port(&[b"?", &whole[1..]].concat()), NotASavedState));
    list.push((with_port(&EXAMPLE[..8]), OtherDevice));
    list.push((with_port(&[&whole[..5], &[VERSION + 1], &whole[6..]].concat()), UnknownVersion(VERSION + 1)));
    list.push((with_port(&whole[..18]), WrongLength));
    list.push((with_port(&[&whole[..6], &[8, 0], &whole[8..16]].concat()), WrongLength));
    list.push((with_port(&port(65)), TooManyBytes));
    list
}

#[test]
fn other_bytes_are_refused_and_change_nothing() {
    assert!(Console::from_bytes(&with_port(&port(64))).is_ok());
    assert!(Console::from_bytes(&with_output(4096, 4096)).is_ok());
    let mut console = example();
    for (bytes, error) in refused() {
        assert_eq!(Console::from_bytes(&bytes).err(), Some(error), "{bytes:?}");
        assert_eq!(console.load(&bytes), Err(error), "{bytes:?}");
        assert_eq!(saved(&console), EXAMPLE, "{bytes:?}");
    }
    assert_eq!(InvalidFlags.to_string(), "A flag that no console has");
}

#[test]
fn what_is_read_as_a_console_is_its_saved_form() {
    let mut random = Random(3);
    let mut read = 0;
    for _ in 0..20_000 {
        let mut bytes = EXAMPLE.to_vec();
        for _ in 0..random.below(3) {
            let place = random.below(bytes.len() as u64) as usize;
            bytes[place] = random.byte();
        }
        if let Ok(console) = Console::from_bytes(&bytes) {
            assert_eq!(saved(&console), bytes);
            read += 1;
        }
    }
    assert!(read > 5_000, "{read}");
}
