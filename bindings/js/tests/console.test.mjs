// SPDX-License-Identifier: Apache-2.0 OR BSD-3-Clause
/**
 * The console: what a monitor reads off its work, and small worlds of guests with drivers of several kinds, event loops
 * that sleep on what `wants` said last, interrupt controllers that take edges or levels and may refuse, sources and
 * slow readers. Whatever the order, each world comes to rest with every byte delivered.
 */
import assert from "node:assert/strict";
import process from "node:process";
import test from "node:test";
import { Console } from "../superio.mjs";

const [WORLDS, STEPS, MOST_STEPS] = [200, 600, 30_000];
const [IDLE, UP] = [false, true].map((isUp) => ({ interrupts: 0, isUp, wakes: false }));
const WAKES = { ...IDLE, wakes: true };
const bytes = (text) => new TextEncoder().encode(text);

/** A console whose guest's driver is ready. */
function ready(isPolled = false) {
  const made = new Console(isPolled);
  made.write("IER", 0x01);
  return made;
}

test("input waits for the driver", () => {
  const made = new Console();
  assert.deepEqual(made.wants(), { input: 0, output: false, turn: false });
  assert.deepEqual(made.receive(bytes("a")), { accepted: 0, work: IDLE });
  assert.deepEqual(made.write("IER", 0x0f), { interrupts: 1, isUp: true, wakes: false }); // a test of the port
  assert.deepEqual(made.write("IER", 0), IDLE);
  assert.equal(made.wants().input, 0);
  assert.deepEqual(made.write("IER", 0x01), WAKES);
  assert.deepEqual(made.wants(), { input: 64, output: false, turn: false });
  assert.deepEqual(made.write("MCR", 0x1b), IDLE); // loopback
  assert.equal(made.wants().input, 0);
  assert.deepEqual(made.write("MCR", 0x0b), WAKES);
});

test("bytes that are left interrupt again", () => {
  const made = ready();
  assert.deepEqual(made.receive(bytes("hi")), { accepted: 2, work: { interrupts: 1, isUp: true, wakes: true } });
  assert.deepEqual(made.wants(), { input: 62, output: false, turn: true });
  assert.deepEqual(made.read("RBR"), { byte: 0x68, work: IDLE });
  assert.deepEqual(made.read("IIR"), { byte: 0xc1, work: { interrupts: 1, isUp: true, wakes: false } });
  assert.deepEqual([made.read("IIR").byte, made.turn()], [0xc4, { interrupts: 1, isUp: true, wakes: false }]);
});

test("what was refused is asked for again", () => {
  const made = ready();
  made.receive(bytes("a"));
  made.write("IER", 0);
  assert.deepEqual([made.refuse(), made.turn()], [IDLE, IDLE]);
  assert.deepEqual(made.write("IER", 0x01), { interrupts: 1, isUp: true, wakes: true });
  assert.deepEqual([made.refuse(), made.turn(), made.turn()], [UP, { ...UP, interrupts: 1 }, UP]);
});

test("output that has no room is dropped and counted", () => {
  const made = new Console();
  for (let number = 0; number < 4096; number += 1) {
    assert.equal(made.isFull(), false);
    assert.deepEqual(made.write("THR", number & 0xff), number ? IDLE : WAKES);
  }
  made.write("THR", 0xff);
  assert.deepEqual([made.isFull(), made.dropped()], [true, 1n]);
  made.consume(4095);
  for (const byte of [1, 2]) made.write("THR", byte); // behind the ring's last place
  assert.deepEqual(made.output(), Uint8Array.of(0xff, 1, 2));
  made.consume(5000);
  assert.deepEqual([made.output(), made.dropped()], [new Uint8Array(), 1n]);
  const largest = Console.fromState({ ...made.state, output: new Uint8Array(4096), dropped: 2n ** 64n - 1n });
  largest.write("THR", 1);
  assert.deepEqual([largest.dropped(), largest.toBytes().length], [2n ** 64n - 1n, 4132]);
});

test("a reset, a suspend, and a guest that polls at first", () => {
  const made = ready();
  made.receive(bytes("abc"));
  made.write("THR", 0x78);
  assert.equal(made.suspend(), undefined);
  assert.deepEqual(made.wants(), { input: 0, output: true, turn: true });
  assert.deepEqual([made.reset(), made.state], [IDLE, { ...new Console().state, output: bytes("x") }]);
  assert.deepEqual([made.setPolled(true), made.wants().input], [WAKES, 64]);
  made.suspend();
  assert.deepEqual([made.wants().input, made.reset(), made.wants().input], [0, WAKES, 64]);
  assert.deepEqual([made.setPolled(false), made.wants().input], [IDLE, 0]);
});

// Worlds

const [IER, IIR, MCR, LSR] = [1, 2, 4, 5];
const [RDA, THRE] = [0x01, 0x02]; // of IER
const [NONE, READY] = [0x01, 0x01]; // of IIR and of LSR
// How often a driver reads IIR at an interrupt, or that it has none.
const KINDS = ["once", "until none", "never", "polls"];

/** Numbers below a bound, by the generator mulberry32. TEST_SEED gives others, as each commit does. */
function randomNumbers(world) {
  let state = Number(process.env.TEST_SEED ?? 0) + world;
  return (bound) => {
    state = (state + 0x6d2b79f5) | 0;
    let mixed = Math.imul(state ^ (state >>> 15), state | 1);
    mixed ^= mixed + Math.imul(mixed ^ (mixed >>> 7), mixed | 61);
    return Math.floor((((mixed ^ (mixed >>> 14)) >>> 0) / 2 ** 32) * bound);
  };
}

/** A machine with a console, and the monitor of it. Its guest makes an access and then waits to be called again. */
class Machine {
  constructor(below, waiting) {
    const any = (...values) => values[below(values.length)];
    this.below = below;
    [this.kind, this.isLevel] = [any(...KINDS), any(true, false)];
    [this.most, this.patience] = [any(1, 4, 16, 64), any(0, 50)];
    const output = Uint8Array.from({ length: waiting }, () => below(256));
    this.console = Console.fromState({ ...new Console(this.kind === "polls").state, output });
    // What is in the source; accepted, and not read; sent and not dropped; taken by the reader; and to be sent.
    Object.assign(this, { input: [], held: [], sent: [...output], taken: [], toSend: [] });
    Object.assign(this, { got: 0, lost: 0, dropped: 0n, line: false, isOn: true, mayRefuse: true });
    Object.assign(this, { connected: null, isBlocked: any(true, false), isWoken: true, polled: null });
    this.boot();
  }

  boot() {
    [this.guest, this.isIdle] = [this.driver(), false];
  }

  // The monitor

  hasRoom() {
    return this.connected ? this.connected.input.length < 100 : !this.isBlocked;
  }

  carryOut({ interrupts, isUp, wakes }) {
    if (this.isLevel) this.line = isUp;
    for (let left = this.isLevel ? 0 : interrupts; left > 0; left -= 1) {
      if (this.mayRefuse && this.below(5) === 0) {
        this.refuse();
        break;
      }
      this.line = true;
    }
    if (wakes) this.isWoken = true;
  }

  refuse() {
    this.carryOut(this.console.refuse());
  }

  turn() {
    this.carryOut(this.console.turn());
  }

  /** Whether the poll of the event loop returns. */
  isReady() {
    const { input, output, turn } = this.polled ?? {};
    return this.isWoken || turn || (output && this.hasRoom()) || (input > 0 && this.input.length > 0);
  }

  isAtRest() {
    const isCalled = this.kind === "polls" ? this.held.length > 0 : this.line;
    return this.isIdle && !isCalled && this.toSend.length === 0 && !this.isReady();
  }

  /** A turn of the event loop, up to its next poll. What its own calls wake it for, that poll is for. */
  makeTurn() {
    const data = this.input.splice(0, this.below(this.console.wants().input + 1));
    const { accepted, work } = this.console.receive(Uint8Array.from(data));
    assert.equal(accepted, data.length);
    assert(this.isOn || accepted === 0);
    this.held.push(...data);
    this.carryOut(work);
    if (this.console.wants().output && this.hasRoom()) {
      const some = this.console.output().subarray(0, 1 + this.below(999));
      this.taken.push(...some);
      this.connected?.input.push(...some);
      this.console.consume(some.length);
    }
    this.turn();
    [this.isWoken, this.polled] = [false, this.console.wants()];
  }

  /** The bytes that the port holds are lost, and nothing else. */
  reset() {
    this.carryOut(this.console.reset());
    this.lost += this.held.splice(0).length;
    [this.isOn, this.line] = [true, false];
    this.boot();
  }

  suspend() {
    this.console.suspend();
    this.isOn = false;
  }

  /** To another monitor, with the interrupt controller's state or without. */
  migrate() {
    [this.console, this.isWoken] = [Console.fromBytes(this.console.toBytes()), true];
    if (this.below(2)) {
      this.line = false;
      this.refuse();
    }
    this.turn();
  }

  // The guest

  read(offset) {
    const { byte, work } = this.console.read(offset);
    this.carryOut(work);
    return byte;
  }

  write(offset, value) {
    this.carryOut(this.console.write(offset, value));
  }

  /** Sends, and is held after it for some time while there is no room. */
  * sendByte() {
    const byte = this.toSend.shift();
    if (this.console.isFull()) this.dropped += 1n;
    else this.sent.push(byte);
    this.write(0, byte);
    for (let left = this.patience; left > 0 && this.console.isFull(); left -= 1) yield;
  }

  * receiveSome() {
    for (let left = this.most; left > 0; left -= 1) {
      const isThere = this.read(LSR) & READY;
      yield;
      if (!isThere) break;
      assert.equal(this.read(0), this.held.shift());
      this.got += 1;
      yield;
    }
  }

  /** Tests the port in loopback, enables interrupts, and then serves them for ever. */
  * driver() {
    if (this.kind !== "polls") {
      for (const [offset, value] of [[MCR, 0x1b], [IER, 0x0f], [IER, 0], [MCR, 0x0b]]) {
        this.write(offset, value);
        yield;
      }
      yield* this.receiveSome(); // what comes already if the monitor takes it for a guest that polls
      this.write(IER, RDA);
      yield;
    }
    for (;;) {
      this.isIdle = false;
      if (this.kind === "polls" || this.line) {
        this.line &&= this.isLevel;
        yield* this.handler();
      } else if (this.toSend.length > 0 && this.kind === "never") {
        yield* this.sendByte();
      } else if (this.toSend.length > 0 && !(this.read(IER) & THRE)) {
        this.write(IER, RDA | THRE);
      }
      this.isIdle = true;
      yield;
    }
  }

  * handler() {
    for (let left = this.kind === "until none" ? 512 : 1; left > 0; left -= 1) {
      if (this.kind === "once" || this.kind === "until none") {
        const isNone = this.read(IIR) & NONE;
        yield;
        if (isNone) break;
      }
      yield* this.receiveSome();
      if (this.kind === "polls" && this.toSend.length > 0) {
        yield* this.sendByte();
      } else if (this.read(IER) & THRE) {
        for (let count = Math.min(16, this.toSend.length); count > 0; count -= 1) yield* this.sendByte();
        if (this.toSend.length === 0) {
          this.write(IER, RDA);
          yield;
        }
      }
    }
  }
}

/** A machine with a source and a reader, or two that are each other's. */
class World {
  constructor(below, kind) {
    this.below = below;
    this.given = 0;
    const waiting = below(3) ? 0 : 4090; // nearly as much as may wait
    this.machines = below(5) < 2 ? [new kind(below, 0), new kind(below, 0)] : [new kind(below, waiting)];
    const [one, other] = this.machines;
    if (other) [one.connected, other.connected] = [other, one];
  }

  some(most) {
    return Array.from({ length: this.below(most) }, () => this.below(256));
  }

  /** What may happen at any time. */
  disturb(machine) {
    const chance = this.below(1000);
    if (chance < 20) {
      machine.toSend.push(...this.some(40));
    } else if (chance < 40 && !machine.connected) {
      const data = this.some(100);
      machine.input.push(...data);
      this.given += data.length;
    } else if (chance < 45) machine.isBlocked = !machine.isBlocked;
    else if (chance < 47) machine.reset();
    else if (chance < 48 && machine.isOn) machine.suspend();
    else if (chance < 53) machine.migrate();
    else if (chance < 55 && machine.kind !== "polls") machine.carryOut(machine.console.setPolled(this.below(2) === 1));
  }

  /** So many steps with disturbances, and then as many as it takes to come to rest. */
  run(steps) {
    for (let step = 0; step < MOST_STEPS; step += 1) {
      const machine = this.machines[this.below(this.machines.length)];
      if (step < steps) this.disturb(machine);
      else if (step === steps) this.calmDown();
      else if (this.machines.every((it) => it.isAtRest())) return this.check();
      if (machine.isOn && this.below(5)) machine.guest.next();
      else if (machine.isReady()) machine.makeTurn();
    }
    return assert.fail("it does not come to rest");
  }

  calmDown() {
    for (const machine of this.machines) {
      machine.isBlocked = machine.mayRefuse = false;
      if (!machine.isOn) machine.reset();
    }
  }

  /** All that was given was read or lost at a reset, and all that was sent and not dropped was taken, in order. */
  check() {
    for (const { input, held, toSend, sent, taken, dropped, console } of this.machines) {
      assert.deepEqual([input, held, toSend, console.output().length], [[], [], [], 0]);
      assert.deepEqual([taken, console.dropped()], [sent, dropped]);
    }
    const sum = (numbers) => numbers.reduce((one, other) => one + other, 0);
    const sent = sum(this.machines.filter((it) => it.connected).map((it) => it.sent.length));
    assert.equal(sum(this.machines.map((it) => it.got + it.lost)), this.given + sent);
  }
}

function runWorlds(kind) {
  for (let world = 0; world < WORLDS; world += 1) new World(randomNumbers(world), kind).run(STEPS);
}

test("each world comes to rest with every byte delivered", () => runWorlds(Machine));

const NEGLECTS = {
  "to wake the loop": class extends Machine {
    carryOut(work) {
      super.carryOut({ ...work, wakes: false });
    }
  },
  "to poll with a limit": class extends Machine {
    makeTurn() {
      super.makeTurn();
      this.polled.turn = false;
    }
  },
  "to tell of a refusal": class extends Machine {
    refuse() {}
  },
  "to make turns": class extends Machine {
    turn() {}
  },
};
for (const [duty, kind] of Object.entries(NEGLECTS)) {
  test(`a monitor that neglects ${duty} is found`, () => {
    assert.throws(() => runWorlds(kind), { code: "ERR_ASSERTION" });
  });
}
