// SPDX-License-Identifier: Apache-2.0 OR BSD-3-Clause
//! A guest and an event loop around the `Machine` of docs/PORT.md, as bare_port.c has them for its functions in C. The
//! line refuses one interrupt in four. Input goes in at once while the guest polls, and otherwise once its driver is
//! ready, also after a sleep and after a reset. Output waits over a reset.
use std::cell::Cell;
use std::rc::Rc;

use hi::Machine;
use vm_superio::Trigger;

/// Edges that the guest has not taken, and numbers that look random.
#[derive(Clone, Default)]
struct Line(Rc<Cell<u32>>, Rc<Cell<u32>>);

impl Line {
    fn next(&self) -> u32 {
        self.1.set(self.1.get().wrapping_mul(1_103_515_245).wrapping_add(12_345));
        self.1.get() >> 16
    }
}

impl Trigger for Line {
    type E = ();

    fn trigger(&self) -> Result<(), ()> {
        if self.next() % 4 == 0 {
            return Err(());
        }
        self.0.set(self.0.get() + 1);
        Ok(())
    }
}

/// The guest reads a register, and the event loop may make a turn before.
fn look(machine: &mut Machine<Line>, line: &Line, offset: u8) -> u8 {
    if line.next() % 20 == 0 {
        machine.turn();
    }
    machine.read_access(offset)
}

/// Takes at most so many bytes, and sends them back.
fn handle(machine: &mut Machine<Line>, line: &Line, most: usize, is_until_none: bool) {
    loop {
        if look(machine, line, 2) & 0x01 != 0 && is_until_none {
            return;
        }
        for _ in 0..most {
            if look(machine, line, 5) & 0x01 == 0 {
                break;
            }
            let byte = look(machine, line, 0);
            machine.write_access(0, byte);
        }
        if !is_until_none {
            return;
        }
    }
}

/// The guest prints a message as Linux does, with IER clear meanwhile. The event loop finds nothing enabled then, so it
/// has nothing to come back for.
fn message(machine: &mut Machine<Line>) {
    machine.write_access(1, 0x00);
    assert!(!machine.wants_turn(), "the event loop comes back for nothing");
    machine.turn();
    assert!(!machine.wants_turn(), "the event loop comes back for nothing again");
    machine.write_access(1, 0x01);
}

fn exchange(seed: u32, most: usize, is_until_none: bool) {
    let line = Line::default();
    line.1.set(seed);
    let typed: Vec<u8> = (0..2000_u32).map(|number| number as u8).collect();
    let mut machine = Machine::new(line.clone(), false);
    machine.input.extend(&typed[..100]);
    machine.turn();
    machine.write_access(1, 0x03); // the driver tests the port,
    machine.write_access(1, 0x00);
    while look(&mut machine, &line, 5) & 0x01 != 0 {
        look(&mut machine, &line, 0); // and throws away what it finds
    }
    machine.reset(line.clone());
    machine.write_access(1, 0x01); // it is ready
    machine.input.extend(&typed[100..]);
    machine.turn();
    let mut received = Vec::new();
    for _ in 0..1_000_000 {
        if line.next() % 8 == 0 {
            message(&mut machine);
        }
        if line.0.get() > 0 {
            line.0.set(line.0.get() - 1);
            handle(&mut machine, &line, most, is_until_none);
            received.extend(machine.port.writer_mut().waiting.drain(..));
        } else if machine.wants_turn() {
            machine.turn();
        } else {
            break;
        }
    }
    assert!(received == typed, "seed {}: {} bytes", seed, received.len());
    machine.suspend();
    machine.input.extend(&typed[..100]);
    machine.turn();
    assert!(machine.input.len() == 100, "seed {}: a guest that sleeps gets input", seed);
}

/// Whether what is typed now goes in, by a turn. Nothing is left of it.
fn goes_in(machine: &mut Machine<Line>) -> bool {
    machine.input.push_back(b'x');
    machine.turn();
    let went_in = machine.input.is_empty();
    machine.input.clear();
    while machine.read_access(5) & 0x01 != 0 {
        machine.read_access(0);
    }
    went_in
}

fn input_goes_in_when_it_may(is_polled: bool) {
    let line = Line::default();
    let mut machine = Machine::new(line.clone(), is_polled);
    for start in ["new", "reset", "woken"] {
        assert!(goes_in(&mut machine) == is_polled, "it is {}: polled {}", start, is_polled);
        machine.write_access(1, 0x01);
        assert!(goes_in(&mut machine), "its driver is ready: polled {}", is_polled);
        if start == "reset" {
            machine.suspend();
            assert!(!goes_in(&mut machine), "it sleeps: polled {}", is_polled);
        }
        machine.input.push_back(b'x');
        machine.is_refused = true;
        machine.reset(line.clone());
        assert!(machine.input.is_empty() == is_polled, "input that waits at a reset: polled {}", is_polled);
        assert!(!machine.wants_turn() && !machine.is_refused, "a refusal is of the port before the reset");
        machine.input.clear();
        machine.read_access(0);
    }
}

/// The same, whatever the guest writes to IER, in any order with sleeps and resets: once ready it stays so.
fn input_goes_in_by_rule(is_polled: bool) {
    let line = Line::default();
    let (mut machine, mut is_ready) = (Machine::new(line.clone(), is_polled), is_polled);
    for step in 0..2_000 {
        let value = line.next() as u8 % 16;
        if step % 11 == 7 {
            machine.reset(line.clone());
            is_ready = is_polled;
        } else if step % 13 == 9 {
            machine.suspend();
            is_ready = false;
        } else {
            machine.write_access(1, value);
            is_ready |= value & 0x03 == 0x01;
        }
        assert!(goes_in(&mut machine) == is_ready, "step {}, IER {:x}: polled {}", step, value, is_polled);
    }
}

fn output_that_waits_stays() {
    let line = Line::default();
    let mut machine = Machine::new(line.clone(), false);
    (0..5_000_u32).for_each(|number| machine.write_access(0, number as u8));
    assert!(!machine.is_refused && !machine.wants_turn(), "a full output is no interrupt that was refused");
    machine.reset(line);
    let output = machine.port.writer();
    assert!(output.waiting.iter().copied().eq((0..4_096_u32).map(|number| number as u8)), "other output waits");
    assert!(output.dropped == 904, "{} bytes were dropped", output.dropped);
}

fn main() {
    for is_polled in [false, true] {
        input_goes_in_when_it_may(is_polled);
        input_goes_in_by_rule(is_polled);
    }
    output_that_waits_stays();
    for seed in 0..400 {
        exchange(seed, [1, 7, 64, 256][seed as usize / 2 % 4], seed % 2 == 1);
    }
    println!("all came back");
}
