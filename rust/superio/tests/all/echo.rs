// SPDX-License-Identifier: Apache-2.0 OR BSD-3-Clause
//! The machine of examples/echo.rs: its guest, readers of all sorts, and two machines that a socket connects.
use std::io;
#[cfg(unix)]
use std::{io::Read, os::unix::net::UnixStream};

use example::Machine;

#[allow(dead_code)] // its main
#[path = "../../examples/echo.rs"]
mod example;

const DATA: u8 = 0;
const IER: u8 = 1;
#[cfg(unix)]
const IIR: u8 = 2;
#[cfg(unix)]
const LSR: u8 = 5;

fn ready() -> Machine {
    let mut machine = Machine::fresh();
    machine.write(IER, 1);
    machine
}

#[test]
fn what_is_typed_comes_back_in_capitals() {
    let typed = "hi there, ".repeat(7000) + "\n"; // more than 16 bits count
    let (mut machine, mut seen, mut place) = (ready(), Vec::new(), 0);
    while place < typed.len() {
        let accepted = machine.turn(&typed.as_bytes()[place..]);
        assert_eq!(accepted, 64.min(typed.len() - place));
        place += accepted;
        assert!(machine.is_interrupted);
        while std::mem::take(&mut machine.is_interrupted) {
            machine.handle_interrupt();
            machine.drain(&mut seen).unwrap();
        }
        assert!(!machine.console.wants().turn);
    }
    assert_eq!(String::from_utf8_lossy(&seen), typed.to_uppercase());
    assert_eq!(machine.console.dropped(), 0);
    assert_eq!(machine.turn(b""), 0);
    assert!(!machine.is_interrupted);
}

#[test]
fn a_driver_that_is_not_ready_gets_nothing() {
    let mut machine = Machine::fresh();
    assert_eq!(machine.turn(b"early"), 0);
    assert!(!machine.is_interrupted);
    machine.write(IER, 1);
    assert_eq!(machine.turn(b"early"), 5);
}

/// A reader that does with each write what its list says, and keeps what it takes.
struct Reader(Vec<io::Result<usize>>, Vec<u8>);

impl io::Write for Reader {
    fn write(&mut self, bytes: &[u8]) -> io::Result<usize> {
        let taken = if self.0.is_empty() { Ok(bytes.len()) } else { self.0.remove(0) }?;
        self.1.extend(&bytes[..taken]);
        Ok(taken)
    }

    fn flush(&mut self) -> io::Result<()> {
        Ok(())
    }
}

#[test]
fn output_waits_for_its_reader_and_what_has_no_room_is_counted() {
    let mut machine = ready();
    let sent: Vec<u8> = (0..4100u32).map(|number| (number % 251) as u8).collect();
    sent[..10].iter().for_each(|byte| machine.write(DATA, *byte));
    let answers = vec![Err(io::ErrorKind::Interrupted.into()), Ok(3), Err(io::ErrorKind::WouldBlock.into())];
    let mut reader = Reader(answers, Vec::new());
    machine.drain(&mut reader).unwrap();
    assert_eq!(reader.1, sent[..3]);
    sent[10..].iter().for_each(|byte| machine.write(DATA, *byte)); // 7 wait, so there is room for 4,089 of 4,090
    assert_eq!(machine.console.dropped(), 1);
    machine.drain(&mut reader).unwrap();
    assert_eq!(reader.1, sent[..4099]);
    machine.write(DATA, b'!');
    assert_eq!(machine.drain(&mut Reader(vec![Ok(0)], Vec::new())).unwrap_err().kind(), io::ErrorKind::WriteZero);
    let broken = Err(io::ErrorKind::BrokenPipe.into());
    assert_eq!(machine.drain(&mut Reader(vec![broken], Vec::new())).unwrap_err().kind(), io::ErrorKind::BrokenPipe);
    machine.drain(&mut reader).unwrap();
    assert_eq!(reader.1[4099..], *b"!");
}

/// A monitor with one end of a socket, whose guest sends, and keeps what it receives.
#[cfg(unix)]
struct Side {
    machine: Machine,
    socket: UnixStream,
    sent: Vec<u8>,
    received: Vec<u8>,
}

#[cfg(unix)]
impl Side {
    fn new(socket: UnixStream) -> Side {
        socket.set_nonblocking(true).unwrap();
        Side { machine: ready(), socket, sent: Vec::new(), received: Vec::new() }
    }

    /// The guest sends so many bytes, by a generator of Knuth's.
    fn send(&mut self, count: usize) {
        for _ in 0..count {
            let byte = (self.sent.len() as u64).wrapping_mul(6_364_136_223_846_793_005) >> 56;
            self.sent.push(byte as u8);
            self.machine.write(DATA, byte as u8);
        }
    }

    /// A turn of the event loop, and the guest's handler.
    fn turn(&mut self, input: &[u8]) {
        assert_eq!(self.machine.turn(input), input.len());
        self.machine.drain(&mut &self.socket).unwrap();
        while std::mem::take(&mut self.machine.is_interrupted) {
            while self.machine.read(IIR) & 1 == 0 {
                while self.machine.read(LSR) & 1 != 0 {
                    self.received.push(self.machine.read(DATA));
                }
            }
        }
    }

    /// A turn for what the socket has, as far as it is wanted. Returns how much that was.
    fn turn_with_socket(&mut self) -> usize {
        let mut bytes = [0; 64];
        let wanted = self.machine.console.wants().input;
        let count = (&self.socket).read(&mut bytes[..wanted]).unwrap_or(0); // 0 if it has none now
        self.turn(&bytes[..count]);
        count
    }
}

#[cfg(unix)]
#[test]
fn two_monitors_go_on_while_the_socket_between_them_takes_nothing() {
    let (left, right) = UnixStream::pair().unwrap();
    let mut sides = [Side::new(left), Side::new(right)];
    // Both guests send more than the socket takes, which nobody reads. What their users type still reaches them.
    while sides.iter().any(|side| side.machine.console.dropped() == 0) {
        for side in &mut sides {
            side.send(1000);
            side.turn(b"typed");
            assert_eq!(side.received.split_off(0), b"typed");
        }
    }
    // The socket is read again. Each guest gets what the other has sent, in order, less what was dropped.
    while sides.iter_mut().map(Side::turn_with_socket).sum::<usize>() > 0 {}
    let [left, right] = sides;
    for (from, to) in [(&left, &right), (&right, &left)] {
        let mut rest = from.sent.iter();
        assert!(to.received.iter().all(|byte| rest.any(|sent| sent == byte)));
        assert_eq!(to.received.len() as u64 + from.machine.console.dropped(), from.sent.len() as u64);
        assert!(to.received.len() > 4096);
    }
}
