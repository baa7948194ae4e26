// SPDX-License-Identifier: Apache-2.0 OR BSD-3-Clause
// The rules of the turn in the README of rust/superio, below its functions and in place of its calls. Here stand a
// guest, a source that always has more than fits, and a sink that takes less than it is given.

/// What is given counts up. Of three reads one finds nothing, and one is interrupted.
struct Source {
    given: usize,
    reads: usize,
    error: Option<ErrorKind>,
}

impl Read for Source {
    fn read(&mut self, bytes: &mut [u8]) -> io::Result<usize> {
        self.reads += 1;
        match (self.error, self.reads % 3) {
            (Some(kind), _) => Err(kind.into()),
            (None, 1) => Err(ErrorKind::WouldBlock.into()),
            (None, 2) => Err(ErrorKind::Interrupted.into()),
            _ => {
                bytes.iter_mut().for_each(|byte| {
                    *byte = self.given as u8;
                    self.given += 1;
                });
                Ok(bytes.len())
            }
        }
    }
}

/// It takes three bytes at most, and nothing of every other write.
struct Sink {
    taken: Vec<u8>,
    writes: usize,
    error: Option<ErrorKind>,
}

impl Write for Sink {
    fn write(&mut self, bytes: &[u8]) -> io::Result<usize> {
        self.writes += 1;
        if let Some(kind) = self.error {
            return Err(kind.into());
        }
        if self.writes % 2 == 0 {
            return Err(ErrorKind::WouldBlock.into());
        }
        let count = bytes.len().min(3);
        self.taken.extend(&bytes[..count]);
        Ok(count)
    }

    fn flush(&mut self) -> io::Result<()> {
        Ok(())
    }
}

fn main() {
    let mut source = Source { given: 0, reads: 0, error: None };
    let mut sink = Sink { taken: Vec::new(), writes: 0, error: None };
    let mut console = Console::new(false);
    make_turn(&mut console, &mut source, &mut sink).unwrap();
    assert_eq!(source.reads, 0, "read before the guest is ready");
    carry_out(console.write(1, 0x01));

    let mut echoed = 0;
    for round in 0..3_000 {
        make_turn(&mut console, &mut source, &mut sink).unwrap();
        for _ in 0..round % 4 {
            if console.read(5).byte & 0x01 != 0 {
                let byte = console.read(0).byte;
                assert_eq!(byte, echoed as u8, "input is lost, or out of order, after {echoed} bytes");
                echoed += 1;
                carry_out(console.write(0, byte));
            }
        }
    }
    assert!(source.given > echoed && source.given <= echoed + 64 && echoed > 4_000, "{} {echoed}", source.given);
    assert!(sink.taken.len() > 3_000 && sink.taken.iter().enumerate().all(|(place, byte)| *byte == place as u8));
    make_turn(&mut console, &mut source, &mut sink).unwrap();
    assert_eq!(console.read(2).byte & 0x0F, 0x04, "a turn leaves bytes without an interrupt");

    source.error = Some(ErrorKind::Other);
    while console.wants().input == 0 {
        carry_out(console.read(0).work);
    }
    assert!(make_turn(&mut console, &mut source, &mut sink).is_err(), "a read failed");
    (source.error, sink.error) = (None, Some(ErrorKind::BrokenPipe));
    carry_out(console.write(0, b'a'));
    assert!((0..3).any(|_| make_turn(&mut console, &mut source, &mut sink).is_err()), "a write failed");
    println!("each rule is kept");
}
