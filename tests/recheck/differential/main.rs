// SPDX-License-Identifier: Apache-2.0 OR BSD-3-Clause
//! Makes random calls of every public function, and prints how many, and a sum of all that they return and leave.
//! Differential.v does the same with the translation: the same numbers, in the same order.
#[path = "../../../rust/superio/src/console/mod.rs"]
mod console;
#[path = "../../../rust/superio/src/devices/mod.rs"]
#[allow(dead_code, unused_imports)]
mod devices;
#[path = "../../../rust/superio/src/printed.rs"]
mod printed;

use console::saved::CONSOLE_SAVED_MAX;
use console::{Console, Work};
use devices::{fifo, saved, serial};
use devices::saved::SavedStateError;
use devices::serial::registers::{Condition, Register, Registers};
use devices::serial::{Asked, EnqueueEffects, ReadEffects, WriteEffects};
use devices::{is_reset_command, Pl031, RtcState, Uart};

/// Coq computes fast with numbers of 63 bits.
const WORD: u64 = u64::MAX >> 1;

/// Numbers from a seed, the sum so far, and the number of calls.
struct Run {
    seed: u64,
    sum: u64,
    calls: u64,
}

impl Run {
    fn next(&mut self, below: u64) -> u64 {
        self.seed = self.seed.wrapping_mul(6364136223846793005).wrapping_add(1442695040888963407) & WORD;
        (self.seed >> 32) % below
    }

    fn bytes(&mut self, count: u64) -> Vec<u8> {
        (0..count).map(|_| self.next(256) as u8).collect()
    }

    fn add(&mut self, number: u64) {
        self.sum = (self.sum.wrapping_mul(33) ^ number) & WORD;
    }

    fn add_all(&mut self, bytes: &[u8]) {
        self.add(bytes.len() as u64);
        bytes.iter().for_each(|&byte| self.add(byte.into()));
    }

    fn call(&mut self) {
        self.calls += 1;
    }

    fn registers(&mut self, registers: &Registers) {
        let found = [registers.baud_divisor_low, registers.baud_divisor_high, registers.interrupt_enable,
            registers.interrupt_identification, registers.line_control, registers.line_status,
            registers.modem_control, registers.modem_status, registers.scratch];
        self.add_all(&found);
    }

    fn port(&mut self, port: &Uart) {
        self.registers(&port.registers);
        self.add(port.in_buffer.head.into());
        self.add(port.in_buffer.len.into());
        if self.next(16) == 0 {
            self.add_all(&port.in_buffer.bytes);
        }
    }

    fn clock(&mut self, clock: &Pl031) {
        [clock.lr, clock.mr, clock.imsc, clock.ris].iter().for_each(|&number| self.add(number.into()));
        self.add(clock.offset as u64 >> 32);
        self.add(clock.offset as u64 & u64::from(u32::MAX));
        self.add(clock.armed);
    }

    fn console(&mut self, console: &Console) {
        self.port(&console.port);
        self.add(console.output.head.into());
        self.add(console.output.len.into());
        self.add(console.dropped);
        self.add_all(&[console.is_polled, console.is_ready, console.is_asleep, console.is_refused]);
    }

    fn work(&mut self, work: Work) {
        self.add(u64::from(work.interrupts) * 4 + u64::from(work.is_up) * 2 + u64::from(work.wakes));
    }

    fn option(&mut self, found: Option<u64>) {
        self.add(found.is_some().into());
        self.add(found.unwrap_or(0));
    }

    fn error(&mut self, error: SavedStateError) {
        // tools/generate writes these rows, and those of Differential.v.
        let number = match error {
            SavedStateError::TooShort => 1,
            SavedStateError::NotASavedState => 2,
            SavedStateError::OtherDevice => 3,
            SavedStateError::UnknownVersion(value) => 4 + 100 * u64::from(value),
            SavedStateError::WrongLength => 5,
            SavedStateError::TooManyBytes => 6,
            SavedStateError::InvalidArmed => 7,
            SavedStateError::InvalidFlags => 8,
        };
        self.add(1000 + number);
    }

    fn read_effects(&mut self, effects: ReadEffects) {
        self.add(u64::from(effects.byte) * 4 + u64::from(effects.buffer_read) * 2 + u64::from(effects.in_buffer_empty));
    }

    fn write_effects(&mut self, effects: WriteEffects) {
        self.add(u64::from(effects.sends) * 256 + u64::from(effects.interrupts));
    }

    fn enqueue_effects(&mut self, effects: EnqueueEffects) {
        self.add(effects.accepted as u64 * 512 + u64::from(effects.fifo_full) * 256 + u64::from(effects.interrupts));
    }

    /// Bytes of a saved state, of which some are changed, left out or added.
    fn damaged(&mut self, mut bytes: Vec<u8>) -> Vec<u8> {
        match self.next(4) {
            0 => {
                let at = self.next(1000.min(bytes.len() as u64)) as usize;
                bytes[at] = self.next(256) as u8;
            }
            1 => bytes.truncate(self.next(40) as usize),
            2 => bytes.push(7),
            _ => {}
        }
        bytes
    }

    fn input(&mut self) -> Vec<u8> {
        let most = if self.next(4) == 0 { 80 } else { 6 };
        let count = self.next(most);
        self.bytes(count)
    }
}

/// The register of a number.
fn register(number: u64) -> Register {
    use Register::*;
    [Dll, Dlm, Data, Ier, Iir, Lcr, Mcr, Lsr, Msr, Scr, Unassigned][number as usize]
}

fn uart_calls(run: &mut Run, port: &mut Uart) {
    match run.next(12) {
        0..=2 => { let offset = run.next(10) as u8; let found = port.read(offset); run.read_effects(found); }
        3..=5 => {
            let (offset, value) = (run.next(10) as u8, run.next(256) as u8);
            let found = port.write(offset, value);
            run.write_effects(found);
        }
        6 => { let input = run.input(); let found = port.enqueue_raw_bytes(&input); run.enqueue_effects(found); }
        7 => { let found = port.character_timeout(); run.add(found.into()); }
        8 => { run.add(port.interrupts_due().into()); run.call(); run.add(port.interrupt_line().into()); }
        9 => { run.add(port.fifo_capacity() as u64); run.call(); run.add(port.is_coherent().into()); }
        10 => {
            let saved = port.to_bytes();
            run.call();
            run.add_all(saved.as_bytes());
            let bytes = run.damaged(saved.as_bytes().to_vec());
            run.call();
            match Uart::from_bytes(&bytes) {
                Ok(loaded) => *port = loaded,
                Err(error) => run.error(error),
            }
        }
        _ => *port = Uart::new(),
    }
    run.call();
    run.port(port);
}

fn registers_calls(run: &mut Run, port: &mut Uart) {
    let Uart { registers, in_buffer } = port;
    match run.next(12) {
        0 => { let register = register(run.next(11)); let found = registers.read(in_buffer, register); run.read_effects(found); }
        1 => {
            let (register, value) = (register(run.next(11)), run.next(256) as u8);
            let found = registers.write(in_buffer, register, value);
            run.write_effects(found);
        }
        2 => { let input = run.input(); let found = registers.enqueue(in_buffer, &input); run.enqueue_effects(found); }
        3 => {
            let input = run.input();
            let (count, due) = registers.rx_push(in_buffer, &input);
            run.add(count as u64 * 2 + u64::from(due));
        }
        4 => { let found = registers.character_timeout(in_buffer); run.add(found.into()); }
        5 => { run.add(registers.interrupts_due().into()); run.call(); run.add(registers.interrupt_line().into()); }
        6 => { run.add(registers.is_loopback().into()); run.call(); run.add(registers.is_coherent(true).into()); }
        7 => { run.add(registers.is_coherent(false).into()); }
        8 => {
            let offset = run.next(10) as u8;
            run.add(registers.decode(offset) as u64);
            run.call();
            run.add(registers.enables(Condition::Rda).into());
            run.call();
            run.add(registers.enables(Condition::Thre).into());
        }
        9 => {
            let (due, asked) = (run.next(4) as u8, run.next(5));
            let asked = [Asked::Nothing, Asked::Took, Asked::Refused, Asked::TookTook, Asked::TookRefused][asked as usize];
            registers.cancel_thre(due, asked);
        }
        10 => *registers = Registers::new(),
        _ => {
            // any struct, coherent or not
            let bytes = run.bytes(11);
            *registers = Registers {
                baud_divisor_low: bytes[0], baud_divisor_high: bytes[1], interrupt_enable: bytes[2],
                interrupt_identification: bytes[3], line_control: bytes[4], line_status: bytes[5],
                modem_control: bytes[6], modem_status: bytes[7], scratch: bytes[8],
            };
            in_buffer.head = bytes[9];
            in_buffer.len = bytes[10];
        }
    }
    run.call();
    run.port(port);
}

fn clock_calls(run: &mut Run, clock: &mut Pl031) {
    const OFFSETS: [u16; 14] = [0, 4, 8, 12, 16, 20, 24, 28, 0xFE0, 0xFE5, 0xFFC, 0xFFF, 0x1000, 3];
    const VALUES: [u32; 8] = [0, 1, 2, 3, 100, 500, 4294967290, 4294967295];
    let now = 4294967000 + run.next(600);
    match run.next(10) {
        0..=2 => { let offset = OFFSETS[run.next(14) as usize]; let found = clock.read(offset, now); run.option(found.map(u64::from)); }
        3..=5 => {
            let (offset, value) = (OFFSETS[run.next(14) as usize], VALUES[run.next(8) as usize]);
            run.add(clock.write(offset, value, now).into());
        }
        6 => { run.add(clock.interrupt_line().into()); run.call(); run.option(clock.alarm_due(now)); }
        7 => {
            let state = clock.state();
            run.call();
            let bytes = state.to_bytes();
            run.call();
            run.add_all(&bytes);
            let bytes = run.damaged(bytes.to_vec());
            run.call();
            match RtcState::from_bytes(&bytes) {
                Ok(state) => *clock = Pl031::from_state(&state),
                Err(error) => run.error(error),
            }
        }
        8 => {
            let five = clock.state().to_five();
            run.call();
            run.add(five.is_some().into());
            if let Some((lr, offset, mr, imsc, ris)) = five {
                *clock = Pl031::from_state(&RtcState::from_five(mr, offset, lr, ris, imsc));
            }
        }
        _ => *clock = Pl031::new(),
    }
    run.call();
    run.clock(clock);
}

fn console_calls(run: &mut Run, console: &mut Console) {
    match run.next(20) {
        0..=3 => {
            let offset = run.next(6) as u8;
            let found = console.read(offset);
            run.add(found.byte.into());
            run.work(found.work);
        }
        4..=8 => {
            let (offset, value) = (run.next(6) as u8, run.next(256) as u8);
            let found = console.write(offset, value);
            run.work(found);
        }
        9 => {
            let input = run.input();
            let found = console.receive(&input);
            run.add(found.accepted as u64);
            run.work(found.work);
        }
        10 => { let found = console.turn(); run.work(found); }
        11 => { let found = console.refuse(); run.work(found); }
        12 => {
            let wants = console.wants();
            run.add(wants.input as u64 * 4 + u64::from(wants.output) * 2 + u64::from(wants.turn));
            run.call();
            run.add(console.is_full().into());
            run.call();
            run.add(console.dropped());
        }
        13 => {
            run.add_all(console.output());
            run.call();
            let count = run.next(1000) as usize;
            console.consume(count);
        }
        14 => { let is_polled = run.next(2) == 1; let found = console.set_polled(is_polled); run.work(found); }
        15 => console.suspend(),
        16 => { let found = console.reset(); run.work(found); }
        17 => {
            let mut bytes = [7; CONSOLE_SAVED_MAX];
            let count = console.save(&mut bytes);
            run.call();
            run.add_all(&bytes[..count]);
            run.add(bytes[CONSOLE_SAVED_MAX - 1].into());
            let bytes = run.damaged(bytes[..count].to_vec());
            match console.load(&bytes) {
                Ok(()) => run.add(1),
                Err(error) => run.error(error),
            }
            let kind = run.next(4) as u8;
            run.call();
            run.add_all(&saved::header(kind, count as u16));
            run.call();
            match saved::decode_header(kind, &bytes) {
                Ok(contents) => run.add(contents.len() as u64),
                Err(error) => run.error(error),
            }
        }
        18 => {
            // any contents
            let bytes = run.bytes(9);
            console.output.head = u16::from(bytes[0]) * 256 + u16::from(bytes[1]);
            console.output.len = u16::from(bytes[2]) * 32 + u16::from(bytes[3]);
            console.dropped = u64::MAX - u64::from(bytes[4] % 4);
            console.is_polled = bytes[5] % 2;
            console.is_ready = bytes[6];
            console.is_asleep = bytes[7] % 2;
            console.is_refused = bytes[8];
        }
        _ => { let is_polled = run.next(2) == 1; *console = Console::new(is_polled); }
    }
    run.call();
    run.console(console);
}

fn main() {
    let mut arguments = std::env::args().skip(1).map(|it| it.parse().expect("a number"));
    let (turns, seed): (u64, u64) = (arguments.next().expect("turns"), arguments.next().expect("a seed"));
    let mut run = Run { seed, sum: 5381, calls: 0 };
    let (mut port, mut clock, mut console) = (Uart::new(), Pl031::new(), Console::new(true));
    for _ in 0..turns {
        match run.next(8) {
            0..=2 => uart_calls(&mut run, &mut port),
            3 => console_calls(&mut run, &mut console),
            4..=5 => registers_calls(&mut run, &mut port),
            6 => clock_calls(&mut run, &mut clock),
            _ => {
                let (offset, value) = (run.next(8) as u8, 250 + run.next(6) as u8);
                run.add(is_reset_command(offset, value).into());
                run.call();
            }
        }
    }
    println!("{} {}", run.calls, run.sum);
}
