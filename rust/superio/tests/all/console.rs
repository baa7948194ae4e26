// SPDX-License-Identifier: Apache-2.0 OR BSD-3-Clause
//! Worlds of guests, event loops and interrupt controllers around consoles: nothing stalls, nothing is lost, and each
//! call answers what it should, whatever comes between.
//!
//! There are three parts, which other languages can have too: all numbers come from 32 bits.
//!
//! - [`Model`] is a console by its rules, with lists in place of rings. [`Checked`] makes each call of both, and compares.
//! - [`Setting`] is all in which worlds differ: the interrupt controller, the guest's driver, the readers and the monitor.
//! - [`World`] makes steps at random, then lets all come to rest. It holds:
//!   1. At rest all input is read that a driver wants, all is sent that the guest has, and all output is taken.
//!   2. An event loop sleeps on what `wants` said last, until its poll returns or `wakes` ends its sleep. No call that
//!      the loop makes itself ends it.
//!   3. A driver that reads IIR until nothing is pending leaves no byte when it is idle, unless an interrupt was refused:
//!      no turn has to come first.
//!   4. Bytes that another driver leaves interrupt it before the limit of the poll is over.
//!   5. A guest that is held while `is_full` loses no output.
//!   6. No input goes in before the driver is ready, unless the guest polls, and none while it sleeps in memory.
//!
//! `CONSOLE_WORLDS=200000` in the environment makes so many.
use std::collections::VecDeque;
use std::env;

use superio::console::saved::CONSOLE_SAVED_MAX;
use superio::console::{Console, Wants, Work};

const DATA: u8 = 0;
const IER: u8 = 1;
const IIR: u8 = 2;
const LCR: u8 = 3;
const MCR: u8 = 4;
const LSR: u8 = 5;
const MSR: u8 = 6;
const SCR: u8 = 7;

/// The bits of IER, which also stand for the two conditions here.
const RDA: u8 = 0x01;
const THRE: u8 = 0x02;
const IIR_NONE: u8 = 0x01;
const LSR_READY: u8 = 0x01;
const LCR_DLAB: u8 = 0x80;
const MCR_LOOPBACK: u8 = 0x10;

const FIFO_SIZE: usize = 64;
const OUTPUT_SIZE: usize = 4096;

/// The limit of a poll while a turn is wanted: so many steps of the clock.
const LIMIT: u32 = 100;
/// How often a driver reads IIR in one run at most. Linux gives up so.
const PASSES: u32 = 40;
/// The steps in which a world has to come to rest.
const MOST_STEPS: u32 = 100_000;

/// Marsaglia's xorshift generator of 32 bits.
struct Random(u32);

impl Random {
    fn next(&mut self) -> u32 {
        self.0 ^= self.0 << 13;
        self.0 ^= self.0 >> 17;
        self.0 ^= self.0 << 5;
        self.0
    }

    /// A number below `bound`.
    fn below(&mut self, bound: u32) -> u32 {
        self.next() % bound
    }

    /// True once in so many times.
    fn once_in(&mut self, times: u32) -> bool {
        self.below(times) == 0
    }

    /// One of these.
    fn choose<T: Copy>(&mut self, list: &[T]) -> T {
        list[self.below(list.len() as u32) as usize]
    }
}

// ---- a console by its rules

/// A console by its rules, from the calls alone.
#[derive(Default)]
struct Model {
    /// Received, and not read by the guest.
    held: VecDeque<u8>,
    /// Sent by the guest, and not taken by the reader.
    output: VecDeque<u8>,
    dropped: u64,
    enabled: u8,
    /// The conditions that are pending, by the bits of IER.
    pending: u8,
    shows_divisor: bool,
    is_loopback: bool,
    is_polled: bool,
    is_ready: bool,
    is_asleep: bool,
    is_refused: bool,
}

impl Model {
    fn wants(&self) -> Wants {
        let is_open = (self.is_ready || self.is_polled) && !self.is_asleep && !self.is_loopback;
        Wants {
            input: if is_open { FIFO_SIZE - self.held.len() } else { 0 },
            output: !self.output.is_empty(),
            turn: !self.held.is_empty() && self.enabled & RDA != 0 || self.is_refused && self.is_up(),
        }
    }

    fn is_up(&self) -> bool {
        self.pending & self.enabled != 0
    }

    /// Raises a condition. Returns how often to interrupt.
    fn raise(&mut self, condition: u8) -> u8 {
        let is_new = condition & self.enabled & !self.pending != 0;
        self.pending |= if is_new { condition } else { 0 };
        is_new.into()
    }

    /// Bytes that are held interrupt the guest again.
    fn time_out(&mut self) -> u8 {
        if self.held.is_empty() {
            return 0;
        }
        self.raise(RDA)
    }

    /// After a refusal each condition that is pending and enabled is asked for again.
    fn retry(&mut self, interrupts: u8) -> u8 {
        if !self.is_refused {
            return interrupts;
        }
        let due = (self.pending & self.enabled).count_ones() as u8;
        self.is_refused = due == 0;
        due
    }

    fn work(&self, before: Wants, interrupts: u8) -> Work {
        let now = self.wants();
        let wakes = before.input == 0 && now.input > 0 || !before.output && now.output || !before.turn && now.turn;
        Work { interrupts, is_up: self.is_up(), wakes }
    }

    /// Returns the byte, if it is one of those that are known here.
    fn read(&mut self, offset: u8) -> (Option<u8>, Work) {
        let before = self.wants();
        let mut interrupts = 0;
        let byte = match offset {
            DATA if self.shows_divisor => None,
            DATA => {
                self.pending &= !RDA;
                Some(self.held.pop_front().unwrap_or(0))
            }
            IER if self.shows_divisor => None,
            IER => Some(self.enabled),
            IIR => {
                let shown = match self.pending {
                    RDA => 0xC4,
                    THRE => 0xC2,
                    0 => 0xC1,
                    _ => 0xC6,
                };
                self.pending = 0;
                self.is_refused = false;
                if shown & IIR_NONE != 0 {
                    interrupts = self.time_out();
                }
                Some(shown)
            }
            LSR => Some(0x60 | if self.held.is_empty() { 0 } else { LSR_READY }),
            _ => None,
        };
        (byte, self.work(before, interrupts))
    }

    fn write(&mut self, offset: u8, value: u8) -> Work {
        let before = self.wants();
        let mut interrupts = 0;
        match offset {
            DATA if self.shows_divisor => {}
            DATA if self.is_loopback && self.held.len() == FIFO_SIZE => {}
            DATA if self.is_loopback => {
                self.held.push_back(value);
                interrupts = self.raise(RDA);
            }
            DATA => {
                if self.output.len() < OUTPUT_SIZE {
                    self.output.push_back(value);
                } else {
                    self.dropped += 1;
                }
                interrupts = self.raise(THRE);
            }
            IER => {
                if !self.shows_divisor {
                    self.enabled = value & 0x0F;
                    interrupts = self.time_out() + self.raise(THRE);
                }
                if self.enabled & (RDA | THRE) == RDA {
                    self.is_ready = true;
                    self.is_asleep = false;
                }
                interrupts = self.retry(interrupts);
            }
            LCR => self.shows_divisor = value & LCR_DLAB != 0,
            MCR => self.is_loopback = value & MCR_LOOPBACK != 0,
            _ => {}
        }
        self.work(before, interrupts)
    }

    fn receive(&mut self, bytes: &[u8]) -> (usize, Work) {
        let before = self.wants();
        let accepted = bytes.len().min(before.input);
        self.held.extend(&bytes[..accepted]);
        let interrupts = if accepted > 0 { self.raise(RDA) } else { 0 };
        (accepted, self.work(before, interrupts))
    }

    fn consume(&mut self, count: usize) {
        self.output.drain(..count.min(self.output.len()));
    }

    fn turn(&mut self) -> Work {
        let before = self.wants();
        let raised = self.time_out();
        let interrupts = self.retry(raised);
        self.work(before, interrupts)
    }

    fn refuse(&mut self) -> Work {
        let before = self.wants();
        self.is_refused = true;
        self.work(before, 0)
    }

    fn reset(&mut self) -> Work {
        let before = self.wants();
        *self = Model {
            output: self.output.split_off(0),
            dropped: self.dropped,
            is_polled: self.is_polled,
            ..Model::default()
        };
        self.work(before, 0)
    }

    fn suspend(&mut self) {
        self.is_ready = false;
        self.is_asleep = true;
    }

    fn set_polled(&mut self, is_polled: bool) -> Work {
        let before = self.wants();
        self.is_polled = is_polled;
        self.work(before, 0)
    }
}

/// A console beside its model. Each call is made of both, and has to answer the same.
struct Checked {
    console: Console,
    model: Model,
}

impl Checked {
    fn new(is_polled: bool) -> Checked {
        Checked { console: Console::new(is_polled), model: Model { is_polled, ..Model::default() } }
    }

    /// What is asked of a console changes nothing, and is what the model says.
    fn check(&self) {
        assert_eq!(self.console.wants(), self.model.wants());
        assert_eq!(self.console.is_full(), self.model.output.len() == OUTPUT_SIZE);
        assert_eq!(self.console.dropped(), self.model.dropped);
    }

    fn checked<T: PartialEq + std::fmt::Debug>(&self, said: T, expected: T) -> T {
        assert_eq!(said, expected);
        self.check();
        said
    }

    fn read(&mut self, offset: u8) -> (u8, Work) {
        let said = self.console.read(offset);
        let (byte, work) = self.model.read(offset);
        self.checked((said.byte, said.work), (byte.unwrap_or(said.byte), work))
    }

    fn write(&mut self, offset: u8, value: u8) -> Work {
        let said = self.console.write(offset, value);
        let expected = self.model.write(offset, value);
        self.checked(said, expected)
    }

    fn receive(&mut self, bytes: &[u8]) -> (usize, Work) {
        let said = self.console.receive(bytes);
        let expected = self.model.receive(bytes);
        self.checked((said.accepted, said.work), expected)
    }

    /// The reader takes the oldest bytes, as many as lie together and at most so many.
    fn take_output(&mut self, most: usize) -> Vec<u8> {
        let together = self.console.output();
        assert_eq!(together.is_empty(), self.model.output.is_empty());
        let taken = together[..most.min(together.len())].to_vec();
        assert!(taken.iter().eq(self.model.output.iter().take(taken.len())));
        self.console.consume(taken.len());
        self.model.consume(taken.len());
        self.check();
        taken
    }

    fn turn(&mut self) -> Work {
        let said = self.console.turn();
        let expected = self.model.turn();
        self.checked(said, expected)
    }

    fn refuse(&mut self) -> Work {
        let said = self.console.refuse();
        let expected = self.model.refuse();
        self.checked(said, expected)
    }

    fn reset(&mut self) -> Work {
        let said = self.console.reset();
        let expected = self.model.reset();
        self.checked(said, expected)
    }

    fn suspend(&mut self) {
        self.console.suspend();
        self.model.suspend();
        self.check();
    }

    fn set_polled(&mut self, is_polled: bool) -> Work {
        let said = self.console.set_polled(is_polled);
        let expected = self.model.set_polled(is_polled);
        self.checked(said, expected)
    }

    /// Another console, with other contents, takes the place of the one that was saved.
    fn save_and_load(&mut self) {
        let mut saved = [0xA5; CONSOLE_SAVED_MAX];
        let count = self.console.save(&mut saved);
        assert!(saved[count..].iter().all(|byte| *byte == 0xA5));
        let mut other = Console::new(!self.model.is_polled);
        let _ = (other.write(IER, RDA), other.write(DATA, 0x55), other.receive(b"other"), other.refuse());
        other.load(&saved[..count]).unwrap();
        let mut again = [0; CONSOLE_SAVED_MAX];
        assert_eq!(other.save(&mut again), count);
        assert_eq!(again[..count], saved[..count]);
        self.console = other;
        self.check();
    }
}

// ---- worlds

/// How the guest's driver serves an interrupt.
#[derive(Clone, Copy, Debug, PartialEq)]
enum Handler {
    /// It reads IIR until it shows that nothing is pending.
    UntilNone,
    /// It reads IIR once.
    Once,
    /// There is none: the guest polls.
    Never,
}

/// In what worlds differ. Of numbers that are chances, 8 means once in eight times.
#[derive(Clone, Copy, Debug)]
struct Setting {
    /// The interrupt controller takes levels, or else edges.
    is_level: bool,
    handler: Handler,
    /// How many bytes the driver takes in one pass.
    takes: u32,
    /// How many bytes it sends in one pass.
    sends: u32,
    /// The driver tests the port before it enables the interrupt of received bytes.
    tests_port: bool,
    /// After a reset the guest polls for a while, as a boot loader does.
    has_loader: bool,
    /// How many edges may be refused. Levels are not.
    refusals: u32,
    /// A monitor that loads a console has an interrupt controller that knows nothing.
    loses_controller: bool,
    /// The event loop offers as many bytes as it polled for, even if fewer are wanted now.
    offers_stale: bool,
    /// The chance that the event loop runs between two accesses.
    loop_runs: u32,
    /// The chance that the machine is saved, suspended or reset between two accesses, and how often it may be.
    machine: u32,
    events: u32,
    /// The bytes that are typed, and that the guest sends.
    typed: u32,
    sent: u32,
    /// The chance that a reader of output begins to rest, or goes on.
    reader_turns: u32,
    /// How many bytes fit between an event loop and its reader.
    pipe: u32,
    /// There are two machines, and each reads what the other sends.
    is_joined: bool,
    /// The monitor of the first machine holds the guest while the output has no room. The others drop. If both held
    /// theirs, neither might read what the other sends.
    holds: bool,
}

impl Setting {
    fn new(random: &mut Random) -> Setting {
        let is_level = random.once_in(2);
        let is_flood = random.once_in(60);
        Setting {
            is_level,
            handler: random.choose(&[
                Handler::UntilNone,
                Handler::UntilNone,
                Handler::Once,
                Handler::Once,
                Handler::Never,
            ]),
            takes: random.choose(&[1, 4, 16, 256]),
            sends: random.choose(&[1, 16]),
            tests_port: !random.once_in(4),
            has_loader: random.once_in(4),
            refusals: if is_level { 0 } else { random.choose(&[0, 0, 5, 20]) },
            loses_controller: random.once_in(2),
            offers_stale: random.once_in(2),
            loop_runs: random.choose(&[2, 8, 64]),
            machine: random.choose(&[20, 100, 500]),
            events: random.choose(&[0, 0, 1, 4]),
            typed: random.choose(&[0, 20, 200]),
            sent: if is_flood { 6000 } else { random.choose(&[0, 20, 200]) },
            reader_turns: if is_flood { 400 } else { random.choose(&[4, 40]) },
            pipe: random.choose(&[1, 50, 500]),
            is_joined: random.once_in(4),
            holds: random.once_in(2),
        }
    }
}

/// What a guest does.
#[derive(Clone, Copy, PartialEq)]
enum Phase {
    /// It is off, and starts next.
    Off,
    /// It polls.
    Polls,
    /// Its driver takes interrupts.
    Drives,
    /// It sleeps in memory until this moment.
    Sleeps(u32),
}

/// The guest does not come to its next access: it is reset, or sleeps.
struct Stopped;

type Guest<T> = Result<T, Stopped>;

/// The thread that makes a call. Only the guest's has to wake the event loop.
#[derive(Clone, Copy, PartialEq)]
enum Thread {
    Guest,
    Loop,
}

/// A machine with its monitor.
struct Machine {
    console: Checked,
    /// The line's level, or an edge that waits.
    is_interrupted: bool,
    /// What the event loop sleeps on, since when, and whether it was woken.
    polled_for: Wants,
    slept_at: u32,
    is_woken: bool,
    phase: Phase,
    /// What the guest has not yet sent.
    to_send: VecDeque<u8>,
    /// The driver has last read IIR when nothing was pending.
    has_read_none: bool,
    /// Since when bytes are left to a driver that is idle.
    left_at: Option<u32>,
}

/// Bytes between two machines, or a machine and its terminal.
#[derive(Default)]
struct Pipe {
    bytes: VecDeque<u8>,
}

struct World {
    setting: Setting,
    random: Random,
    clock: u32,
    /// One, or two that are joined.
    machines: Vec<Machine>,
    /// Machine 0 reads the first and writes to the second. Another does the reverse.
    pipes: [Pipe; 2],
    /// The terminal of a machine that is alone rests.
    is_resting: bool,
    refusals: u32,
    events: u32,
    typed: u32,
    /// By machine: how much it may still send.
    sends: [u32; 2],
}

impl World {
    fn new(seed: u32) -> World {
        let mut random = Random(seed.wrapping_mul(0x9E37_79B9) | 1);
        let setting = Setting::new(&mut random);
        let mut machines = Vec::new();
        for _ in 0..1 + u32::from(setting.is_joined) {
            let is_polled = random.once_in(2);
            let console = Checked::new(is_polled);
            machines.push(Machine {
                polled_for: console.console.wants(),
                console,
                is_interrupted: false,
                slept_at: 0,
                is_woken: true,
                phase: Phase::Off,
                to_send: VecDeque::new(),
                has_read_none: true,
                left_at: None,
            });
        }
        World {
            setting,
            random,
            clock: 0,
            machines,
            pipes: Default::default(),
            is_resting: false,
            refusals: setting.refusals,
            events: setting.events,
            typed: if setting.is_joined { 0 } else { setting.typed },
            sends: [setting.sent; 2],
        }
    }

    // ---- the monitor

    /// Carries out what a call has left.
    fn carry_out(&mut self, at: usize, work: Work, thread: Thread) {
        let machine = &mut self.machines[at];
        if work.wakes && thread == Thread::Guest {
            machine.is_woken = true;
        }
        if self.setting.is_level {
            machine.is_interrupted = work.is_up;
            return;
        }
        for _ in 0..work.interrupts {
            if self.refusals > 0 && self.random.once_in(2) {
                self.refusals -= 1;
                let work = machine.console.refuse();
                return self.carry_out(at, work, thread);
            }
            machine.is_interrupted = true;
        }
    }

    /// The event loop of a machine goes on if its poll returns: it takes input, passes output on, and makes a turn.
    fn run_loop(&mut self, at: usize) {
        let machine = &mut self.machines[at];
        let (wants, room) = (machine.polled_for, self.setting.pipe as usize - self.pipes[1 - at].bytes.len());
        let is_due = wants.turn && self.clock - machine.slept_at >= LIMIT;
        let has_input = wants.input > 0 && !self.pipes[at].bytes.is_empty();
        if !(machine.is_woken || has_input || wants.output && room > 0 || is_due) {
            return;
        }
        machine.is_woken = false;
        let wanted = if self.setting.offers_stale { wants.input } else { machine.console.console.wants().input };
        if wanted > 0 && !self.pipes[at].bytes.is_empty() {
            let most = 1 + self.random.below(wanted as u32) as usize;
            let offered: Vec<u8> = self.pipes[at].bytes.iter().take(most).copied().collect();
            let (accepted, work) = machine.console.receive(&offered);
            self.pipes[at].bytes.drain(..accepted);
            let may_go_in = match machine.phase {
                Phase::Off => machine.console.model.is_polled,
                Phase::Polls | Phase::Drives => true,
                Phase::Sleeps(_) => false,
            };
            assert!(accepted == 0 || may_go_in, "input goes in early");
            self.carry_out(at, work, Thread::Loop);
        }
        if room > 0 {
            let most = 1 + self.random.below(room as u32) as usize;
            let taken = self.machines[at].console.take_output(most);
            self.pipes[1 - at].bytes.extend(taken);
        }
        let work = self.machines[at].console.turn();
        self.carry_out(at, work, Thread::Loop);
        let machine = &mut self.machines[at];
        machine.polled_for = machine.console.console.wants();
        machine.slept_at = self.clock;
    }

    /// Time passes, in which each event loop may run, and the terminal may read and type.
    fn pass_time(&mut self) {
        self.clock += 1;
        for at in 0..self.machines.len() {
            self.run_loop(at);
        }
        if self.setting.is_joined {
            return;
        }
        if self.random.once_in(self.setting.reader_turns) {
            self.is_resting = !self.is_resting;
        }
        if !self.is_resting {
            let count = self.random.below(100).min(self.pipes[1].bytes.len() as u32) as usize;
            self.pipes[1].bytes.drain(..count);
        }
        if self.typed > 0 && self.random.once_in(8) {
            let count = (1 + self.random.below(80)).min(self.typed);
            self.typed -= count;
            for _ in 0..count {
                let byte = self.random.next() as u8;
                self.pipes[0].bytes.push_back(byte);
            }
        }
    }

    /// Between two accesses of a guest anything may happen.
    fn between(&mut self, at: usize) -> Guest<()> {
        if self.random.once_in(self.setting.loop_runs) {
            self.pass_time();
        }
        if self.events == 0 || !self.random.once_in(self.setting.machine) {
            return Ok(());
        }
        self.events -= 1;
        match self.random.below(4) {
            0 => {
                self.reset(at);
                Err(Stopped)
            }
            1 => {
                self.machines[at].console.suspend();
                self.machines[at].phase = Phase::Sleeps(self.clock + self.random.below(3 * LIMIT));
                Err(Stopped)
            }
            _ => {
                self.save_and_load(at);
                Ok(())
            }
        }
    }

    fn reset(&mut self, at: usize) {
        let machine = &mut self.machines[at];
        machine.phase = Phase::Off;
        machine.is_interrupted = false;
        machine.to_send.clear();
        let work = machine.console.reset();
        self.carry_out(at, work, Thread::Guest);
    }

    /// Another monitor goes on with the machine.
    fn save_and_load(&mut self, at: usize) {
        let machine = &mut self.machines[at];
        machine.console.save_and_load();
        machine.is_woken = true;
        if self.setting.loses_controller {
            machine.is_interrupted = false;
            let work = machine.console.refuse();
            self.carry_out(at, work, Thread::Guest);
        }
        let work = self.machines[at].console.turn();
        self.carry_out(at, work, Thread::Guest);
    }

    fn set_polled(&mut self, at: usize, is_polled: bool) {
        let work = self.machines[at].console.set_polled(is_polled);
        self.carry_out(at, work, Thread::Guest);
    }

    // ---- the guest

    fn read(&mut self, at: usize, offset: u8) -> Guest<u8> {
        let (byte, work) = self.machines[at].console.read(offset);
        self.carry_out(at, work, Thread::Guest);
        self.between(at)?;
        Ok(byte)
    }

    fn write(&mut self, at: usize, offset: u8, value: u8) -> Guest<()> {
        let work = self.machines[at].console.write(offset, value);
        self.carry_out(at, work, Thread::Guest);
        if self.setting.holds && at == 0 {
            self.hold();
        }
        self.between(at)
    }

    /// The guest of the first machine is held until its output has room.
    fn hold(&mut self) {
        for _ in 0..MOST_STEPS {
            if !self.machines[0].console.console.is_full() {
                return;
            }
            self.pass_time();
            if self.setting.is_joined {
                self.step(1);
            }
        }
        panic!("the output never has room");
    }

    /// The guest starts.
    fn start(&mut self, at: usize) -> Guest<()> {
        let polls = self.setting.handler == Handler::Never;
        if polls || self.setting.has_loader {
            self.machines[at].phase = Phase::Polls;
            self.set_polled(at, true);
            return Ok(());
        }
        self.start_driver(at)
    }

    /// The driver throws away what it finds in the FIFO, and then enables the interrupt.
    fn start_driver(&mut self, at: usize) -> Guest<()> {
        if self.setting.tests_port {
            self.test_port(at)?;
        }
        while self.read(at, LSR)? & LSR_READY != 0 {
            self.read(at, DATA)?;
        }
        self.machines[at].phase = Phase::Drives;
        self.machines[at].has_read_none = true;
        self.write(at, IER, RDA)?;
        if self.machines[at].to_send.is_empty() {
            return Ok(());
        }
        self.write(at, IER, RDA | THRE)
    }

    /// The driver tests its port, much as Linux does.
    fn test_port(&mut self, at: usize) -> Guest<()> {
        self.write(at, IER, 0)?;
        self.write(at, LCR, LCR_DLAB | 3)?;
        self.write(at, DATA, 1)?;
        self.write(at, IER, 0)?;
        self.write(at, LCR, 3)?;
        self.write(at, MCR, 0x0A | MCR_LOOPBACK)?;
        self.read(at, MSR)?;
        self.write(at, DATA, 0xAE)?;
        self.write(at, MCR, 0x0B)?;
        self.write(at, IER, 0x0F)?;
        self.write(at, IER, 0)?;
        self.write(at, SCR, 0x5A)?;
        self.read(at, IIR)?;
        Ok(())
    }

    /// The driver takes as many bytes as it does in one pass.
    fn take(&mut self, at: usize) -> Guest<()> {
        for _ in 0..self.setting.takes {
            if self.read(at, LSR)? & LSR_READY == 0 {
                break;
            }
            self.read(at, DATA)?;
        }
        Ok(())
    }

    /// The driver sends as many bytes as it does in one pass, and disables the interrupt after the last.
    fn transmit(&mut self, at: usize) -> Guest<()> {
        for _ in 0..self.setting.sends {
            if let Some(byte) = self.machines[at].to_send.pop_front() {
                self.write(at, DATA, byte)?;
            }
        }
        if self.machines[at].to_send.is_empty() && self.setting.handler != Handler::Never {
            let enabled = self.read(at, IER)?;
            self.write(at, IER, enabled & !THRE)?;
        }
        Ok(())
    }

    /// The driver serves an interrupt.
    fn handle_interrupt(&mut self, at: usize) -> Guest<()> {
        self.machines[at].has_read_none = false;
        self.machines[at].left_at = None;
        for _ in 0..PASSES {
            if self.read(at, IIR)? & IIR_NONE != 0 {
                self.machines[at].has_read_none = true;
                break;
            }
            self.take(at)?;
            if self.machines[at].console.model.enabled & THRE != 0 {
                self.transmit(at)?;
            }
            if self.setting.handler == Handler::Once {
                break;
            }
        }
        Ok(())
    }

    /// A process of the guest writes some bytes: the driver enables the interrupt that asks for them.
    fn start_to_send(&mut self, at: usize) -> Guest<()> {
        let count = (1 + self.random.below(300)).min(self.sends[at]);
        self.sends[at] -= count;
        for _ in 0..count {
            let byte = self.random.next() as u8;
            self.machines[at].to_send.push_back(byte);
        }
        if self.machines[at].phase == Phase::Polls {
            return Ok(());
        }
        let enabled = self.read(at, IER)?;
        self.write(at, IER, enabled | THRE)
    }

    /// The guest's kernel prints a line while it disables all interrupts of the port.
    fn print(&mut self, at: usize) -> Guest<()> {
        let enabled = self.read(at, IER)?;
        self.write(at, IER, 0)?;
        for byte in b"line\n" {
            self.read(at, LSR)?;
            self.write(at, DATA, *byte)?;
        }
        self.write(at, IER, enabled)
    }

    /// The guest goes on by one of the things that it does.
    fn go_on(&mut self, at: usize) -> Guest<()> {
        match self.machines[at].phase {
            Phase::Off => self.start(at),
            Phase::Sleeps(end) if self.clock < end => Ok(()),
            Phase::Sleeps(_) => {
                // A guest that polls has to be reset: it never writes IER.
                if self.setting.handler == Handler::Never || self.random.once_in(2) {
                    self.reset(at);
                    return Ok(());
                }
                self.machines[at].phase = Phase::Off;
                self.start_driver(at)
            }
            Phase::Polls => {
                if self.setting.handler != Handler::Never && self.random.once_in(8) {
                    self.set_polled(at, false);
                    return self.start_driver(at);
                }
                self.take(at)?;
                self.transmit(at)
            }
            Phase::Drives => {
                if self.machines[at].is_interrupted {
                    if !self.setting.is_level {
                        self.machines[at].is_interrupted = false;
                    }
                    return self.handle_interrupt(at);
                }
                if self.random.once_in(50) && self.events > 0 {
                    return self.print(at);
                }
                Ok(())
            }
        }
    }

    /// A step of a guest, after which it may be idle.
    fn step(&mut self, at: usize) {
        let sends = self.sends[at] > 0 && matches!(self.machines[at].phase, Phase::Polls | Phase::Drives);
        let _ = if sends && self.random.once_in(8) { self.start_to_send(at) } else { self.go_on(at) };
        let is_idle = self.machines[at].phase == Phase::Drives && !self.machines[at].is_interrupted;
        let model = &self.machines[at].console.model;
        let is_left = is_idle && !model.held.is_empty() && model.enabled & RDA != 0;
        if is_left && self.refusals == 0 {
            let is_until_none = self.setting.handler == Handler::UntilNone && self.machines[at].has_read_none;
            assert!(!is_until_none || self.setting.refusals > 0, "bytes are left to an idle driver");
            let since = *self.machines[at].left_at.get_or_insert(self.clock);
            assert!(self.clock - since <= LIMIT + 1, "bytes are left for long");
        } else {
            self.machines[at].left_at = None;
        }
    }

    /// Whether a machine is at rest.
    fn is_at_rest(&self, at: usize) -> bool {
        let machine = &self.machines[at];
        self.pipes[at].bytes.is_empty()
            && machine.console.model.held.is_empty()
            && machine.console.model.output.is_empty()
            && machine.to_send.is_empty()
            && self.sends[at] == 0
            && !machine.is_interrupted
            && matches!(machine.phase, Phase::Polls | Phase::Drives)
    }

    /// Makes steps until all is at rest.
    fn run(&mut self) {
        let machines = self.machines.len();
        for _ in 0..MOST_STEPS {
            let at = self.random.below(machines as u32) as usize;
            self.step(at);
            self.pass_time();
            let is_typed = self.typed == 0 && (self.setting.is_joined || self.pipes[1].bytes.is_empty());
            if is_typed && (0..machines).all(|at| self.is_at_rest(at)) {
                return;
            }
        }
        panic!("it does not come to rest");
    }
}

/// So many worlds, each with all that happens in it.
fn run_worlds(count: u32) {
    for seed in 1..=count {
        let mut world = World::new(seed);
        let setting = world.setting;
        let ran = std::panic::catch_unwind(std::panic::AssertUnwindSafe(|| world.run()));
        assert!(ran.is_ok(), "world {seed}: {setting:?}");
        if setting.holds {
            assert_eq!(world.machines[0].console.console.dropped(), 0, "world {seed}");
        }
    }
}

#[test]
fn worlds_come_to_rest_with_nothing_lost() {
    let count = env::var("CONSOLE_WORLDS").map_or(1_500, |count| count.parse().expect("a number"));
    run_worlds(count);
}
