// SPDX-License-Identifier: Apache-2.0 OR BSD-3-Clause
// The accesses of a guest by the monitor of docs/RUST.md, below its program and in place of its `main`, as accesses.c has
// them for the program in C. LEVELS or STOPS_POLLING is true if the lines for this are there. Beside each access, the
// calls that docs/USING.md tells of are made on a copy of the console, and the line and the event loop get the same.

/// With this counter, an eventfd refuses to add 1. A line of levels gets one thing if it goes down, and two if it goes up.
const FULL: u64 = u64::MAX - 1;

struct Copied {
    console: Console,
    /// How many edges the line takes. It refuses the next one.
    room: u64,
    raised: u64,
    is_up: bool,
    wakes: bool,
}

impl Copied {
    fn carry_out(&mut self, work: Work) {
        self.wakes |= work.wakes;
        if LEVELS {
            self.raised += if work.is_up == self.is_up { 0 } else { 1 + u64::from(work.is_up) };
            self.is_up = work.is_up;
        } else if u64::from(work.interrupts) <= self.room {
            self.raised += u64::from(work.interrupts);
        } else {
            self.raised = self.room;
            self.wakes |= self.console.refuse().wakes;
        }
    }

    fn write(&mut self, offset: u8, value: u8) {
        let work = self.console.write(offset, value);
        self.carry_out(work);
        if STOPS_POLLING && offset == 1 && self.console.port.registers.interrupt_enable & 0x01 != 0 {
            let wakes = self.wakes;
            let work = self.console.set_polled(false);
            self.carry_out(work);
            self.wakes = wakes;
        }
    }

    fn read(&mut self, offset: u8) -> u8 {
        let read = self.console.read(offset);
        self.carry_out(read.work);
        read.byte
    }
}

/// A number below `end` that looks random.
fn drawn(state: &mut u32, end: u32) -> u8 {
    *state = state.wrapping_mul(1_103_515_245).wrapping_add(12_345);
    ((*state >> 16) % end) as u8
}

/// What the event loop may have done before an access: it brings input, takes output, and makes a turn.
fn prepare(monitor: &Monitor, state: &mut u32) {
    let mut console = monitor.console.lock().unwrap();
    let work = console.receive(&[b'x'; 16][..drawn(state, 16).into()]).work;
    monitor.carry_out(&mut console, work);
    console.consume(drawn(state, 16).into());
    if drawn(state, 4) > 0 {
        let work = console.turn();
        monitor.carry_out(&mut console, work);
    }
}

/// The counter of an eventfd, which is 0 then.
fn taken(mut eventfd: &File) -> u64 {
    let mut bytes = [0; 8];
    eventfd.read(&mut bytes).map_or(0, |_| u64::from_ne_bytes(bytes))
}

fn accesses(is_polled: bool, state: &mut u32) {
    let monitor = made(Console::new(is_polled));
    for _ in 0..200 {
        prepare(&monitor, state);
        taken(&monitor.irq);
        let console = monitor.console.lock().unwrap().clone();
        let (is_up, room) = (console.port.interrupt_line(), drawn(state, 3).into());
        let mut copy = Copied { console, room, raised: 0, is_up, wakes: false };
        let before = if LEVELS { 0 } else { FULL - room };
        (&monitor.irq).write(&before.to_ne_bytes()).unwrap();
        let offset = drawn(state, 8);
        let value = if drawn(state, 4) > 0 { drawn(state, 4) } else { drawn(state, 256) };
        if drawn(state, 2) > 0 {
            copy.write(offset, value);
            monitor.write_access(offset, value);
        } else {
            assert_eq!(copy.read(offset), monitor.read_access(offset), "another byte is read");
        }
        assert_eq!(taken(&monitor.irq) - before, copy.raised, "the line gets something else");
        assert_eq!(taken(&monitor.wake_up) > 0, copy.wakes, "the event loop is woken for nothing, or is not woken");
        assert!(*monitor.console.lock().unwrap() == copy.console, "the console is another");
    }
}

fn main() {
    let mut state = 1;
    for round in 0..100 {
        accesses(round % 2 == 0, &mut state);
    }
    println!("each access is right");
}
