// SPDX-License-Identifier: Apache-2.0 OR BSD-3-Clause
// The rules of the whole monitor of docs/RUST.md, below its program and in place of its `main`. Here stand the guest,
// the source of input and the reader of output, so that each may come at the worst moment.
use std::os::unix::net::UnixStream;
use std::sync::atomic::AtomicUsize;
use std::thread::{sleep, JoinHandle};
use std::time::Instant;

const LONG: Duration = Duration::from_secs(30);
const SHORT: Duration = Duration::from_millis(50);
const MOMENT: Duration = Duration::from_millis(1);
const MANY: usize = 200_000;
/// With this counter, an eventfd refuses to add 1.
const FULL: u64 = u64::MAX - 1;

/// A file of the event loop. Its first reads and writes end with these errors, and a write takes 100 bytes at most. It
/// counts how often it is polled, and how often it is read or written.
struct Watched {
    stream: UnixStream,
    errors: Vec<ErrorKind>,
    polls: Arc<AtomicUsize>,
    calls: Arc<AtomicUsize>,
}

impl Watched {
    fn next_error(&mut self) -> io::Result<()> {
        self.calls.fetch_add(1, Relaxed);
        self.errors.pop().map_or(Ok(()), |kind| Err(kind.into()))
    }
}

impl AsRawFd for Watched {
    fn as_raw_fd(&self) -> RawFd {
        self.polls.fetch_add(1, Relaxed);
        self.stream.as_raw_fd()
    }
}

impl Read for Watched {
    fn read(&mut self, bytes: &mut [u8]) -> io::Result<usize> {
        self.next_error()?;
        self.stream.read(bytes)
    }
}

impl Write for Watched {
    fn write(&mut self, bytes: &[u8]) -> io::Result<usize> {
        self.next_error()?;
        self.stream.write(&bytes[..bytes.len().min(100)])
    }

    fn flush(&mut self) -> io::Result<()> {
        Ok(())
    }
}

/// The other end of a file of the event loop.
struct End {
    stream: UnixStream,
    polls: Arc<AtomicUsize>,
    calls: Arc<AtomicUsize>,
}

impl End {
    /// How often the file has been polled, and read or written.
    fn uses(&self) -> (usize, usize) {
        (self.polls.load(Relaxed), self.calls.load(Relaxed))
    }
}

fn file(errors: &[ErrorKind]) -> (Watched, End) {
    let (stream, other) = UnixStream::pair().unwrap();
    stream.set_nonblocking(true).unwrap();
    other.set_read_timeout(Some(LONG)).unwrap();
    let (polls, calls) = <(Arc<AtomicUsize>, Arc<AtomicUsize>)>::default();
    let end = End { stream: other, polls: Arc::clone(&polls), calls: Arc::clone(&calls) };
    (Watched { stream, errors: errors.to_vec(), polls, calls }, end)
}

struct Trial {
    monitor: Arc<Monitor>,
    source: End,
    reader: End,
    looping: JoinHandle<()>,
    /// How many bytes the reader finds before the output: nothing else fits until it takes them.
    ahead: usize,
}

impl Trial {
    fn new(errors: &[ErrorKind], is_full: bool) -> Trial {
        let ((input, source), (output, reader)) = (file(errors), file(errors));
        let mut ahead = 0;
        while is_full {
            match (&output.stream).write(&[0; 4096]) {
                Ok(count) => ahead += count,
                Err(_) => break,
            }
        }
        let monitor = Arc::new(Monitor {
            console: Mutex::new(Console::new(false)),
            has_room: Condvar::new(),
            is_stuck: AtomicBool::new(false),
            is_off: AtomicBool::new(false),
            irq: eventfd(),
            wake_up: eventfd(),
        });
        let own = Arc::clone(&monitor);
        let looping = spawn(move || own.event_loop(input, output));
        Trial { monitor, source, reader, looping, ahead }
    }

    fn put(&self, offset: u8, value: u8) {
        self.monitor.write_access(offset, value);
    }

    fn is_held(&self) -> bool {
        self.monitor.read_access(5) & 0x01 != 0
    }

    fn wait_for(&self, what: &str, is_so: impl Fn(&Trial) -> bool) {
        let start = Instant::now();
        while !is_so(self) {
            assert!(start.elapsed() < LONG, "{what}");
            sleep(MOMENT);
        }
    }

    /// The next bytes of the output.
    fn taken(&mut self, count: usize) -> Vec<u8> {
        let mut bytes = vec![0; std::mem::take(&mut self.ahead) + count];
        self.reader.stream.read_exact(&mut bytes).expect("output that waits is not written");
        bytes.split_off(bytes.len() - count)
    }

    /// Nothing polls a file again and again: soon nothing happens for a while, three times in a row.
    fn sleeps(&self, when: &str) {
        let uses = || (self.source.uses(), self.reader.uses());
        let (mut before, mut quiet) = (uses(), 0);
        for _ in 0..60 {
            sleep(SHORT);
            let now = uses();
            quiet = if now == before { quiet + 1 } else { 0 };
            if quiet == 3 {
                return;
            }
            before = now;
        }
        panic!("the loop does not sleep {when}");
    }

    /// The loop ends with the guest.
    fn end(self) {
        self.monitor.is_off.store(true, Relaxed);
        signal(&self.monitor.wake_up).unwrap();
        self.looping.join().unwrap();
    }
}

fn input_waits_for_the_driver_and_ends_once() {
    let mut trial = Trial::new(&[], false);
    trial.source.stream.write_all(b"a").unwrap();
    trial.sleeps("before the driver is ready");
    assert_eq!(trial.source.uses().1, 0, "input is read before the driver is ready");
    trial.put(1, 0x01);
    trial.wait_for("no input goes in", Trial::is_held);
    assert_eq!(trial.monitor.read_access(0), b'a');
    trial.sleeps("while nothing is typed");
    trial.source.stream.shutdown(std::net::Shutdown::Both).unwrap();
    trial.sleeps("after the end of the input");
    trial.end();
}

/// More is typed than fits, and the guest takes bytes while the loop passes on the others. Each comes once and in order.
fn input_that_does_not_fit_comes_later() {
    let trial = Trial::new(&[], false);
    let mut source = trial.source.stream.try_clone().unwrap();
    spawn(move || source.write_all(&(0..MANY).map(|number| number as u8).collect::<Vec<u8>>()).unwrap());
    trial.put(1, 0x01);
    for number in 0..MANY {
        let mut polls = 0;
        while !trial.is_held() {
            polls += 1;
            if polls % 20 == 0 {
                sleep(MOMENT / 1000); // otherwise the guest takes the processor, and the lock, from the loop
            }
        }
        assert_eq!(trial.monitor.read_access(0), number as u8, "input of {number} bytes before");
    }
    trial.end();
}

/// The guest enters loopback when its input is ready and the loop has yet to read it: no input is read until it leaves.
fn a_loop_asks_again_before_it_reads() {
    let trial = Trial::new(&[], false);
    trial.put(1, 0x01);
    trial.sleeps("while nothing is typed");
    let mut console = trial.monitor.console.lock().unwrap();
    (&trial.source.stream).write_all(b"a").unwrap();
    sleep(SHORT);
    assert!(!console.write(4, 0x10).wakes);
    drop(console);
    trial.sleeps("while the guest is in loopback");
    assert_eq!(trial.source.uses().1, 0, "input is read that is no longer wanted");
    trial.put(4, 0x08);
    trial.wait_for("no input goes in after loopback", Trial::is_held);
    trial.end();
}

/// No other call of the guest or of the source brings it back.
fn a_refused_interrupt_comes_again() {
    let mut trial = Trial::new(&[], false);
    trial.put(1, 0x01);
    (&trial.monitor.irq).write(&FULL.to_ne_bytes()).unwrap();
    trial.source.stream.write_all(b"a").unwrap();
    trial.wait_for("no input goes in", Trial::is_held);
    sleep(SHORT);
    (&trial.monitor.irq).read(&mut [0; 8]).unwrap();
    let limit = LONG.as_millis() as i32;
    assert_eq!(poll([(Some(trial.monitor.irq.as_raw_fd()), libc::POLLIN)], limit), [true], "a refusal is forgotten");
    trial.end();
}

/// A guest that is held goes on as soon as the reader takes some, and loses nothing.
fn output_finds_room() {
    let (mut trial, start) = (Trial::new(&[], true), Instant::now());
    let monitor = Arc::clone(&trial.monitor);
    let guest = spawn(move || (0..MANY).for_each(|number| monitor.write_access(0, number as u8)));
    for number in 0..MANY {
        assert_eq!(trial.taken(1), [number as u8], "output of {number} bytes before");
    }
    guest.join().unwrap();
    assert!(start.elapsed() < LONG, "a guest that is held goes on only after a second");
    assert_eq!(trial.monitor.console.lock().unwrap().dropped(), 0, "output was dropped while the guest could be held");
    trial.sleeps("after the output");
    trial.end();
}

/// The guest is held for a second, and not again until the reader takes some. Meanwhile the lock is free. The loop
/// writes what is left before it ends.
fn a_guest_is_held_once_by_a_reader_that_takes_nothing() {
    let mut trial = Trial::new(&[], true);
    let monitor = Arc::clone(&trial.monitor);
    let (start, written) = (Instant::now(), Arc::new(AtomicUsize::new(0)));
    let counted = Arc::clone(&written);
    let guest = spawn(move || {
        for _ in 0..6_000 {
            monitor.write_access(0, b'x');
            counted.fetch_add(1, Relaxed);
        }
    });
    trial.wait_for("the output is never full", |trial| trial.monitor.console.lock().unwrap().is_full());
    assert_eq!(written.load(Relaxed), 4_095, "the lock is not free while the guest is held");
    guest.join().unwrap();
    assert!(start.elapsed() >= Duration::from_secs(1), "the guest is not held");
    assert!(start.elapsed() < LONG, "the guest is held for each byte");
    trial.monitor.is_off.store(true, Relaxed);
    signal(&trial.monitor.wake_up).unwrap();
    sleep(SHORT);
    assert_eq!(trial.taken(4_096), [b'x'; 4_096]);
    assert!(!trial.monitor.is_stuck.load(Relaxed), "the guest is not held again after the reader took some");
    trial.looping.join().unwrap();
}

/// A file that is not ready loses nothing. An input that fails has ended, and the output without a reader is dropped.
fn files_may_fail() {
    let mut trial = Trial::new(&[ErrorKind::WouldBlock, ErrorKind::Interrupted, ErrorKind::WouldBlock], false);
    trial.put(1, 0x01);
    trial.put(0, b'o');
    trial.source.stream.write_all(b"i").unwrap();
    assert_eq!(trial.taken(1), b"o", "output after a file that was not ready");
    trial.wait_for("a file that was not ready is read no more", Trial::is_held);
    trial.end();

    let trial = Trial::new(&[ErrorKind::Other], false);
    trial.put(1, 0x01);
    (&trial.source.stream).write_all(b"i").unwrap();
    trial.reader.stream.shutdown(std::net::Shutdown::Both).unwrap();
    (0..3).for_each(|_| trial.put(0, b'o'));
    trial.wait_for("output waits that nobody takes", |trial| !trial.monitor.console.lock().unwrap().wants().output);
    trial.sleeps("after its files have failed");
    assert_eq!(trial.source.uses().1, 1, "input is read after it has failed");
    trial.end();
}

fn main() {
    files_may_fail();
    input_waits_for_the_driver_and_ends_once();
    input_that_does_not_fit_comes_later();
    a_loop_asks_again_before_it_reads();
    a_refused_interrupt_comes_again();
    output_finds_room();
    a_guest_is_held_once_by_a_reader_that_takes_nothing();
    println!("each rule is kept");
}
