// SPDX-License-Identifier: Apache-2.0 OR BSD-3-Clause
//! Random calls of the devices with random objects, which all borrow what they log to. The writer fails with errors of
//! every kind, the trigger refuses with errors that borrow, and the devices begin in any state. The devices without I/O
//! say what has to come.
use std::cell::{Cell, RefCell};
use std::collections::HashSet;
use std::error::Error as StdError;
use std::fmt;
use std::io::{self, ErrorKind, Write};
use std::time::{SystemTime, UNIX_EPOCH};

use vm_superio::rtc_pl031::{RtcEvents, RtcSnapshot};
use vm_superio::sansio::rtc_pl031::encoding::SAVED_SIZE;
use vm_superio::sansio::{is_reset_command, Pl031, Uart};
use vm_superio::serial::line::InterruptLine;
use vm_superio::serial::timeout::CharacterTimeout;
use vm_superio::serial::{Error, SerialEvents};
use vm_superio::{I8042Device, Rtc, RtcState, Serial, SerialState, Trigger};

const ROUNDS: u64 = 20_000;
const THRE: u8 = 0x02;
const OFFSETS: u64 = 9; // one more than there are registers

/// Random numbers, by the generator splitmix64.
struct Random(u64);

impl Random {
    /// Those of a test. `TEST_SEED` gives others, as each commit does.
    fn of(test: u64) -> Random {
        let seed: u64 = std::env::var("TEST_SEED").map_or(0, |it| it.parse().unwrap());
        Random(seed << 8 | test)
    }

    fn word(&mut self) -> u64 {
        self.0 = self.0.wrapping_add(0x9E37_79B9_7F4A_7C15);
        let mixed = (self.0 ^ (self.0 >> 30)).wrapping_mul(0xBF58_476D_1CE4_E5B9);
        let mixed = (mixed ^ (mixed >> 27)).wrapping_mul(0x94D0_49BB_1331_11EB);
        mixed ^ (mixed >> 31)
    }

    fn below(&mut self, bound: u64) -> u64 {
        self.word() % bound
    }

    fn is_one_of(&mut self, bound: u64) -> bool {
        self.below(bound) == 0
    }

    fn bytes(&mut self, most: u64) -> Vec<u8> {
        (0..self.below(most + 1)).map(|_| self.word() as u8).collect()
    }

    /// A moment or an offset: a few, or any.
    fn moment(&mut self) -> u64 {
        match self.below(4) {
            0 => self.word(),
            _ => self.below(2_000),
        }
    }

    fn port(&mut self) -> SerialState {
        SerialState {
            baud_divisor_low: self.word() as u8,
            baud_divisor_high: self.word() as u8,
            interrupt_enable: self.word() as u8,
            interrupt_identification: self.word() as u8,
            line_control: self.word() as u8 & if self.is_one_of(2) { 0xFF } else { 0x7F },
            line_status: self.word() as u8,
            modem_control: self.word() as u8,
            modem_status: self.word() as u8,
            scratch: self.word() as u8,
            in_buffer: self.bytes(64),
        }
    }

    fn clock(&mut self) -> RtcSnapshot {
        let state = RtcState {
            lr: self.moment() as u32,
            offset: self.moment() as i64,
            mr: self.moment() as u32,
            imsc: self.word() as u32,
            ris: self.word() as u32,
        };
        RtcSnapshot { armed: self.is_one_of(2), ..RtcSnapshot::from_five(state) }
    }
}

/// The kinds of errors that std makes of the system's, and those that code makes by itself.
const KINDS: [ErrorKind; 20] = [
    ErrorKind::Interrupted, // which a write repeats, and a flush does not
    ErrorKind::NotFound,
    ErrorKind::PermissionDenied,
    ErrorKind::ConnectionRefused,
    ErrorKind::ConnectionReset,
    ErrorKind::ConnectionAborted,
    ErrorKind::NotConnected,
    ErrorKind::AddrInUse,
    ErrorKind::AddrNotAvailable,
    ErrorKind::BrokenPipe,
    ErrorKind::AlreadyExists,
    ErrorKind::WouldBlock,
    ErrorKind::InvalidInput,
    ErrorKind::InvalidData,
    ErrorKind::TimedOut,
    ErrorKind::UnexpectedEof,
    ErrorKind::Unsupported,
    ErrorKind::Other,
    ErrorKind::WriteZero,
    ErrorKind::OutOfMemory,
];

/// An error of a writer's own, which has another one as its source.
#[derive(Debug)]
struct Own(u64, Option<Box<Own>>);

impl fmt::Display for Own {
    fn fmt(&self, f: &mut fmt::Formatter) -> fmt::Result {
        write!(f, "fault {}", self.0)
    }
}

impl StdError for Own {
    fn source(&self) -> Option<&(dyn StdError + 'static)> {
        self.1.as_deref().map(|source| source as &(dyn StdError + 'static))
    }
}

/// A number of the system's errors, or any other one, but 4, which is an interrupted call.
fn random_code(random: &mut Random) -> i32 {
    match random.is_one_of(3) {
        true => random.word() as i32 | 1 << 8,
        false => 5 + random.below(200) as i32,
    }
}

/// An error by its kind alone, by a number of the system's, or with an error of the writer's own.
fn random_fault(random: &mut Random, kinds: &[ErrorKind]) -> io::Error {
    let kind = kinds[random.below(kinds.len() as u64) as usize];
    match random.below(4) {
        0 => kind.into(),
        1 => io::Error::from_raw_os_error(random_code(random)),
        2 => io::Error::new(kind, random.word().to_string()),
        _ => io::Error::new(kind, Own(random.word(), Some(Box::new(Own(random.word(), None))))),
    }
}

/// All that an error shows.
fn facts(error: &io::Error) -> String {
    let source = error.source().map(|source| (source.to_string(), source.source().map(|it| it.to_string())));
    let own = error.get_ref().and_then(|inner| inner.downcast_ref::<Own>()).map(|own| own.0);
    format!("{:?} {:?} {own:?} {error} {error:?} {source:?}", error.kind(), error.raw_os_error())
}

/// What the writer does in a call.
#[derive(Debug, Default)]
enum Plan {
    #[default]
    Takes,
    TakesNothing,
    IsInterrupted,
    WriteFails(io::Error),
    FlushFails(io::Error),
}

/// What the objects of a device do, and what was asked of them. Each object borrows it.
#[derive(Default)]
struct World {
    plan: RefCell<Plan>,
    /// How often a byte is written, whether it is flushed, and what the error shows.
    wanted: RefCell<(usize, bool, Option<String>)>,
    /// Bit k: in this call of the device, the trigger refuses its call k.
    refused: Cell<u64>,
    asked: Cell<u64>,
    /// The kinds with which writes and flushes failed so far.
    faults: RefCell<HashSet<(&'static str, ErrorKind)>>,
    log: RefCell<Vec<String>>,
    name: String,
}

impl World {
    fn note(&self, what: String) {
        self.log.borrow_mut().push(what);
    }

    /// Draws how the objects behave in the next call.
    fn begin(&self, random: &mut Random) {
        let plan = match random.below(10) {
            0 => Plan::TakesNothing,
            1 => Plan::IsInterrupted,
            2..=4 => Plan::WriteFails(random_fault(random, &KINDS[1..])),
            5..=7 => Plan::FlushFails(random_fault(random, &KINDS)),
            _ => Plan::Takes,
        };
        self.wanted.replace(match &plan {
            Plan::Takes => (1, true, None),
            Plan::TakesNothing => (1, false, Some(facts(&(&mut [][..]).write_all(&[0]).unwrap_err()))), // std's own
            Plan::IsInterrupted => (2, true, None),
            Plan::WriteFails(error) => (1, false, Some(facts(error))),
            Plan::FlushFails(error) => (1, true, Some(facts(error))),
        });
        self.plan.replace(plan);
        self.refused.set(if random.is_one_of(2) { random.below(4) } else { 0 });
        self.asked.set(0);
        self.log.borrow_mut().clear();
    }
}

/// The trigger, the events object and the writer. It says when it is dropped.
struct Object<'a>(&'a World);

impl Drop for Object<'_> {
    fn drop(&mut self) {
        self.0.note("drop".into());
    }
}

/// Why a trigger refused. It borrows, as an error may.
#[derive(Debug, PartialEq)]
struct Refusal<'a>(&'a str, u64);

impl<'a> Trigger for Object<'a> {
    type E = Refusal<'a>;

    fn trigger(&self) -> Result<(), Refusal<'a>> {
        let World { refused, asked, name, .. } = self.0;
        let number = asked.replace(asked.get() + 1);
        let is_refused = refused.get() >> number & 1 == 1;
        self.0.note(if is_refused { "refused" } else { "trigger" }.into());
        match is_refused {
            true => Err(Refusal(name, number)),
            false => Ok(()),
        }
    }
}

impl SerialEvents for Object<'_> {
    fn buffer_read(&self) {
        self.0.note("buffer_read".into());
    }

    fn out_byte(&self) {
        self.0.note("out_byte".into());
    }

    fn tx_lost_byte(&self) {
        self.0.note("tx_lost_byte".into());
    }

    fn in_buffer_empty(&self) {
        self.0.note("in_buffer_empty".into());
    }
}

impl RtcEvents for Object<'_> {
    fn invalid_read(&self) {
        self.0.note("invalid_read".into());
    }

    fn invalid_write(&self) {
        self.0.note("invalid_write".into());
    }
}

impl Write for Object<'_> {
    fn write(&mut self, bytes: &[u8]) -> io::Result<usize> {
        self.0.note(format!("write {bytes:02x?}"));
        let plan = self.0.plan.take();
        match plan {
            Plan::TakesNothing => Ok(0),
            Plan::IsInterrupted => Err(ErrorKind::Interrupted.into()),
            Plan::WriteFails(error) => {
                self.0.faults.borrow_mut().insert(("write", error.kind()));
                Err(error)
            }
            _ => {
                self.0.plan.replace(plan);
                Ok(bytes.len())
            }
        }
    }

    fn flush(&mut self) -> io::Result<()> {
        self.0.note("flush".into());
        match self.0.plan.take() {
            Plan::FlushFails(error) => {
                self.0.faults.borrow_mut().insert(("flush", error.kind()));
                Err(error)
            }
            _ => Ok(()),
        }
    }
}

type Port<'a> = Serial<Object<'a>, Object<'a>, Object<'a>>;

fn port<'a>(state: &SerialState, world: &'a World) -> Result<Port<'a>, Error<Refusal<'a>>> {
    Serial::from_state(state, Object(world), Object(world), Object(world))
}

/// All that a call of a port gave.
fn shown<T: fmt::Debug>(result: Result<T, Error<Refusal>>) -> String {
    match result {
        Ok(value) => format!("{value:?}"),
        Err(Error::Trigger(refusal)) => format!("refused {refusal:?}"),
        Err(Error::IOError(error)) => facts(&error),
        Err(Error::FullFifo) => "full".into(),
    }
}

/// The device without I/O of a state, what it leaves its caller to do, and how the objects take that.
struct Model<'a> {
    device: Uart,
    log: Vec<String>,
    world: &'a World,
}

impl Model<'_> {
    fn of<'a>(state: &SerialState, world: &'a World) -> Model<'a> {
        Model { device: Uart::from_bytes(&state.to_bytes().unwrap()).unwrap(), log: vec![], world }
    }

    /// Asks for the interrupt up to a refusal. Gives the number of the call that was refused.
    fn ask(&mut self, times: u8) -> Option<u64> {
        let refused = (0..u64::from(times)).find(|number| self.world.refused.get() >> number & 1 == 1);
        self.log.extend((0..refused.unwrap_or(times.into())).map(|_| "trigger".to_string()));
        self.log.extend(refused.map(|_| "refused".to_string()));
        refused
    }

    /// Sends a byte as the plan says. Gives what the error shows.
    fn send(&mut self, value: u8) -> Option<String> {
        let write = format!("write {:02x?}", [value]);
        let (tries, is_flushed, error) = self.world.wanted.borrow().clone();
        self.log.extend((0..tries).map(|_| write.clone()));
        self.log.extend(is_flushed.then(|| "flush".to_string()));
        self.log.push(if error.is_some() { "tx_lost_byte" } else { "out_byte" }.into());
        error
    }

    fn refusal(&self, number: u64) -> String {
        format!("refused {:?}", Refusal(&self.world.name, number))
    }

    /// What a write gives. If the first of two interrupts is refused, the second condition is not raised.
    fn write(&mut self, offset: u8, value: u8) -> String {
        let effects = self.device.write(offset, value);
        let lost = if effects.sends { self.send(value) } else { None };
        let refused = self.ask(effects.interrupts);
        if effects.interrupts == 2 && refused == Some(0) {
            self.device.registers.interrupt_identification &= !THRE;
        }
        refused.map(|number| self.refusal(number)).or(lost).unwrap_or_else(|| "()".into())
    }

    fn read(&mut self, offset: u8) -> String {
        let effects = self.device.read(offset);
        self.log.extend(effects.in_buffer_empty.then(|| "in_buffer_empty".into()));
        self.log.extend(effects.buffer_read.then(|| "buffer_read".into()));
        effects.byte.to_string()
    }

    fn enqueue(&mut self, input: &[u8]) -> String {
        let effects = self.device.enqueue_raw_bytes(input);
        let refused = self.ask(effects.interrupts).map(|number| self.refusal(number));
        let given = if effects.fifo_full { "full".into() } else { effects.accepted.to_string() };
        refused.unwrap_or(given)
    }

    fn asks(&mut self, times: u8) -> String {
        self.ask(times).map_or("()".into(), |number| self.refusal(number))
    }
}

/// Makes a random call of a port, and says what has to come of it. Gives what came.
fn call(random: &mut Random, port: &mut Port, model: &mut Model) -> (String, String) {
    let offset = if random.is_one_of(2) { 0 } else { random.below(OFFSETS) as u8 };
    let value = random.word() as u8;
    match random.below(8) {
        0 | 1 => (shown(port.write(offset, value)), model.write(offset, value)),
        2 | 3 => (port.read(offset).to_string(), model.read(offset)),
        4 => {
            let input = random.bytes(70);
            (shown(port.enqueue_raw_bytes(&input)), model.enqueue(&input))
        }
        5 => {
            let times = model.device.character_timeout();
            (shown(port.character_timeout()), model.asks(times))
        }
        6 => {
            let times = model.device.interrupts_due();
            (shown(port.retry_interrupts().map_err(Error::Trigger)), model.asks(times))
        }
        _ => {
            let seen = (port.fifo_capacity(), port.interrupt_line(), port.state());
            let state = SerialState::from_bytes(model.device.to_bytes().as_bytes()).unwrap();
            let wanted = (model.device.fifo_capacity(), model.device.interrupt_line(), state);
            (format!("{seen:?}"), format!("{wanted:?}"))
        }
    }
}

#[test]
fn a_port_calls_its_objects_as_the_device_without_io_says_and_returns_their_errors() {
    let mut random = Random::of(1);
    let world = World { name: "a line that is borrowed".into(), ..World::default() };
    for _ in 0..ROUNDS / 5 {
        let state = random.port();
        world.begin(&mut random);
        let mut model = Model::of(&state, &world);
        let due = model.device.interrupts_due();
        let refusal = model.ask(due);
        let mut port = match port(&state, &world) {
            Ok(port) => port,
            error => {
                model.log.extend(["drop"; 3].map(String::from)); // its objects, each once
                assert_eq!(shown(error.map(drop)), model.refusal(refusal.unwrap()));
                assert_eq!(world.log.take(), model.log);
                continue;
            }
        };
        assert_eq!((refusal, world.log.take()), (None, model.log.split_off(0)));
        for _ in 0..10 {
            world.begin(&mut random);
            model.log.clear();
            let plan = format!("{:?}", world.plan.borrow());
            let (given, wanted) = call(&mut random, &mut port, &mut model);
            assert_eq!((given, &*world.log.borrow()), (wanted, &model.log), "{plan}");
        }
        assert_eq!(port.state().to_bytes().unwrap(), model.device.to_bytes().as_bytes());
        world.log.take();
        match random.is_one_of(2) {
            true => drop(port),
            false => drop(port.into_writer()),
        }
        assert_eq!(world.log.take(), ["drop"; 3], "a port that ends calls no object");
    }
    let faults = world.faults.take();
    for kind in KINDS {
        assert!(faults.contains(&("flush", kind)), "no flush failed with {kind:?}");
        assert!(faults.contains(&("write", kind)) || kind == ErrorKind::Interrupted, "no write failed with {kind:?}");
    }
}

#[test]
fn a_clock_reports_invalid_accesses_and_nothing_else() {
    let mut random = Random::of(2);
    let world = World::default();
    for _ in 0..ROUNDS {
        let snapshot = random.clock();
        let mut clock = Rtc::from_snapshot(&snapshot, Object(&world));
        let mut model = Pl031::from_state(&vm_superio::sansio::RtcState::from_bytes(&snapshot.to_bytes()).unwrap());
        let offset = if random.is_one_of(2) { 4 * random.below(8) as u16 } else { random.word() as u16 };
        let (now, data) = (random.moment(), (random.word() as u32).to_le_bytes());
        let mut read = data;
        clock.read_at(offset, &mut read, now);
        let wanted = model.read(offset, now);
        assert_eq!(read, wanted.map_or(data, u32::to_le_bytes));
        clock.write_at(offset, &data, now);
        let is_taken = model.write(offset, u32::from_le_bytes(data), now);
        let events = [wanted.is_none().then_some("invalid_read"), (!is_taken).then_some("invalid_write")];
        assert_eq!(world.log.take(), events.into_iter().flatten().collect::<Vec<_>>());
        let seen = (clock.snapshot().to_bytes(), clock.interrupt_line(), clock.alarm_due(now), clock.is_armed());
        let wanted =
            (model.state().to_bytes().to_vec(), model.interrupt_line(), model.alarm_due(now), model.armed != 0);
        assert_eq!((seen, clock.state()), (wanted, clock.snapshot().state));
        assert!(world.log.take().is_empty(), "a call that only looks reports nothing");
        drop(clock);
        assert_eq!(world.log.take(), ["drop"]);
    }
}

/// The seconds since 1970.
fn moment() -> u64 {
    SystemTime::now().duration_since(UNIX_EPOCH).unwrap().as_secs()
}

#[test]
fn a_clock_takes_the_hosts_time_in_each_call_that_needs_it() {
    let mut random = Random::of(3);
    let world = World::default();
    for _ in 0..ROUNDS / 4 {
        let mut snapshot = random.clock();
        let before = moment();
        // Guest times that are near the match, and alarms that are due or not yet.
        snapshot.state.offset = random.below(9) as i64;
        snapshot.state.mr = (before + random.below(9)) as u32;
        let (mut clock, mut model) =
            (Rtc::from_snapshot(&snapshot, Object(&world)), Rtc::from_snapshot(&snapshot, Object(&world)));
        let (offset, data) = (4 * random.below(8) as u16, (before as u32 + random.below(9) as u32).to_le_bytes());
        let (mut read, mut wanted) = (data, data);
        let is_read = random.is_one_of(2);
        if is_read {
            clock.read(offset, &mut read)
        } else {
            clock.write(offset, &data)
        }
        if is_read {
            model.read_at(offset, &mut wanted, before)
        } else {
            model.write_at(offset, &data, before)
        }
        if moment() == before {
            assert_eq!((read, clock.snapshot()), (wanted, model.snapshot()), "{offset}, {is_read}");
        }
    }
}

#[test]
fn a_controller_resets_once_for_the_reset_command_and_returns_a_refusal() {
    let mut random = Random::of(4);
    let world = World { name: "reset".into(), ..World::default() };
    for _ in 0..ROUNDS {
        world.begin(&mut random);
        let mut controller = I8042Device::new(Object(&world));
        let (offset, value) = (random.below(8) as u8, 0xFE - random.below(2) as u8);
        assert_eq!((controller.read(offset), world.log.take()), (0, vec![]));
        let (is_reset, is_refused) = (is_reset_command(offset, value), world.refused.get() & 1 == 1);
        let wanted = if is_reset && is_refused { Err(Refusal("reset", 0)) } else { Ok(()) };
        assert_eq!(controller.write(offset, value), wanted);
        assert_eq!(
            world.log.take(),
            if is_reset { vec![if is_refused { "refused" } else { "trigger" }] } else { vec![] }
        );
    }
}

#[test]
fn any_state_goes_there_and_back() {
    let mut random = Random::of(5);
    for _ in 0..ROUNDS {
        let (state, snapshot) = (random.port(), random.clock());
        let (bytes, of_clock) = (state.to_bytes().unwrap(), snapshot.to_bytes());
        assert_eq!((bytes.len(), of_clock.len()), (17 + state.in_buffer.len(), SAVED_SIZE));
        assert_eq!(SerialState::from_bytes(&bytes).as_ref(), Ok(&state));
        assert_eq!(RtcSnapshot::from_bytes(&of_clock), Ok(snapshot));
        assert_eq!(snapshot.to_five().ok(), if snapshot.armed { None } else { Some(snapshot.state) });
        assert_eq!(RtcSnapshot::from_five(snapshot.state), RtcSnapshot { armed: false, ..snapshot });
        let world = World::default();
        let five = Rtc::from_state(&snapshot.state, Object(&world));
        assert_eq!((five.state(), five.is_armed()), (snapshot.state, false));
        let held = !state.in_buffer.is_empty();
        let is_coherent = (state.line_status & 1 == 1) == held
            && [1, 2, 4, 6].contains(&state.interrupt_identification)
            && (held || state.interrupt_identification & 4 == 0);
        assert_eq!(state.is_coherent(), is_coherent);
    }
}

#[test]
fn damaged_bytes_are_refused_or_are_another_state() {
    let mut random = Random::of(6);
    for _ in 0..50 {
        let saved = [random.port().to_bytes().unwrap(), random.clock().to_bytes()];
        for bytes in saved {
            let flipped = (0..8 * bytes.len()).map(|bit| {
                let mut damaged = bytes.clone();
                damaged[bit / 8] ^= 1 << (bit % 8);
                damaged
            });
            let longer = (1..9).map(|more| [&bytes[..], &vec![0; more * more * more][..]].concat());
            for damaged in flipped.chain((0..bytes.len()).map(|count| bytes[..count].to_vec())).chain(longer) {
                let of_port = SerialState::from_bytes(&damaged).map(|state| state.to_bytes().unwrap());
                let of_clock = RtcSnapshot::from_bytes(&damaged).map(|snapshot| snapshot.to_bytes());
                let taken: Vec<_> = of_port.into_iter().chain(of_clock).collect();
                let is_of_header = damaged.len() != bytes.len() || damaged[..8] != bytes[..8];
                assert!(taken.iter().all(|again| *again == damaged) && taken.len() <= usize::from(!is_of_header));
            }
        }
    }
}

#[test]
fn an_enqueue_of_any_length_accepts_the_first_64_bytes() {
    for power in 6..if usize::BITS == 64 { 33 } else { 25 } {
        for length in [(1 << power) - 1, 1 << power, (1_usize << power) + 1] {
            let world = World::default();
            let mut port = port(&SerialState::default(), &world).unwrap();
            let mut input = vec![0; length]; // pages that nobody reads take no memory
            (0..63).for_each(|place| input[place] = place as u8);
            assert_eq!(port.enqueue_raw_bytes(&input).unwrap(), length.min(64));
            assert_eq!(port.state().in_buffer, input[..length.min(64)]);
        }
    }
}
