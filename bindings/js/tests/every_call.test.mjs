// SPDX-License-Identifier: Apache-2.0 OR BSD-3-Clause
/**
 * What holds of every call, whatever it is for: it changes nothing that it is passed, what it gives stays as it is and
 * is the caller's own, and devices that take turns do what each does alone. States go there and back, and saved bytes
 * that are damaged are refused or are another state.
 */
import assert from "node:assert/strict";
import process from "node:process";
import test from "node:test";
import { Console, Rtc, SavedStateError, Serial } from "../superio.mjs";
import { DEVICES, contentsOf, kindOfField, made as call, membersOf, onlyLooks, parametersOf } from "./members.mjs";

const ROUNDS = 10_000;

/** Numbers below a bound, by the generator mulberry32. TEST_SEED gives others, as each commit does. */
function randomNumbers(test) {
  let state = Number(process.env.TEST_SEED ?? 0) + test;
  return (bound) => {
    state = (state + 0x6d2b79f5) | 0;
    let mixed = Math.imul(state ^ (state >>> 15), state | 1);
    mixed ^= mixed + Math.imul(mixed ^ (mixed >>> 7), mixed | 61);
    return Math.floor((((mixed ^ (mixed >>> 14)) >>> 0) / 2 ** 32) * bound);
  };
}

/** So many bytes. A plain loop, since some states have thousands of them. */
function bytesOf(below, count) {
  const bytes = new Uint8Array(count);
  for (let place = 0; place < count; place += 1) bytes[place] = below(256);
  return bytes;
}

const anyBytes = (below, most) => bytesOf(below, below(most + 1));
const anyWord = (below) => below(2) ? below(2000) : below(2 ** 32);
const anyMoment = (below) => below(2) ? below(2000) : BigInt(anyWord(below)) << 32n | BigInt(anyWord(below));
const anyFlag = (below) => below(2) === 1;

// What is drawn for a field or a parameter, by its kind in C.
const OF_KIND = {
  uint8_t: (below) => below(256), uint16_t: (below) => below(2) ? below(32) : below(0x10000), uint32_t: anyWord,
  uint64_t: anyMoment, int64_t: (below) => BigInt.asIntN(64, BigInt(anyMoment(below))),
  size_t: (below) => below(2) ? below(9) : below(2 ** 53), bool: anyFlag, bytes: (below) => anyBytes(below, 70),
};
const MOST_OF = { uint64_t: 2n ** 64n - 1n, int64_t: 2n ** 63n - 1n };
// How many bytes a field of a state has at most.
const MOST = { inBuffer: 64, output: 4096 };

/** A state like a sample, with numbers of the kinds of a device's struct. A third has nearly as many bytes as fit. */
function anyState(below, kind, sample = new kind().state) {
  const anyOf = (name, value) => {
    if (value instanceof Uint8Array) {
      return bytesOf(below, [below(9), below(65), MOST[name] - below(9)][below(3)]);
    }
    if (typeof value === "object") return anyState(below, Serial, value);
    if (typeof value === "boolean") return anyFlag(below);
    const ofField = kindOfField(kind, name);
    const drawn = OF_KIND[ofField](below);
    return typeof value === "bigint" ? below(4) ? BigInt(drawn) : MOST_OF[ofField] - BigInt(below(9)) : drawn;
  };
  return Object.fromEntries(Object.entries(sample).map(([name, value]) => [name, anyOf(name, value)]));
}

const STATED = DEVICES.filter((kind) => kind.fromState);
// What is drawn otherwise: most are where there is a register, or near the reset command.
const SPECIAL = {
  "Console.offset": (below) => below(9), "Serial.offset": (below) => below(9),
  "Rtc.offset": (below) => below(4) ? 4 * below(8) : below(0x10000),
  "I8042.offset": (below) => below(2) ? below(8) : below(256), "I8042.value": (below) => 0xfe - below(2),
};

/** A member of a device, or the one that is given, and arguments for it. */
function drawn(kind, below, only) {
  const names = membersOf(kind);
  const name = only ?? names[below(names.length)];
  const any = (one) => (SPECIAL[`${kind.name}.${one.name}`] ?? OF_KIND[one.kind])(below);
  return [name, parametersOf(kind, name).map(any)];
}

/** What a call gives. A device is what it shows. */
function made(device, [name, parameters]) {
  const given = call(device, name, parameters);
  return given instanceof device.constructor ? contentsOf(given) : given;
}

/** A device in any state that it may be given, or else in one that some calls bring it to. */
function anyDevice(kind, below) {
  if (kind.fromState) return kind.fromState(anyState(below, kind));
  const device = new kind();
  for (let count = below(9); count > 0; count -= 1) made(device, drawn(kind, below));
  return device;
}

test("what a call gives and what it is passed is the same after all later calls", () => {
  const below = randomNumbers(1);
  const devices = [...DEVICES.map((kind) => new kind()), ...DEVICES.map((kind) => anyDevice(kind, below))];
  const kept = [];
  for (let round = 0; round < ROUNDS; round += 1) {
    const device = devices[below(devices.length)];
    const one = drawn(device.constructor, below);
    const passed = structuredClone(one);
    const given = made(device, one);
    kept.push([given, structuredClone(given), one, passed]);
  }
  for (const [given, before, one, passed] of kept) {
    assert.deepEqual([given, one], [before, passed]);
  }
});

/** Overwrites what an object and the arrays in it hold. */
function spoil(value) {
  if (value instanceof Uint8Array) value.fill(0xee);
  else if (typeof value === "object" && value !== null) {
    for (const name of Object.keys(value)) {
      spoil(value[name]);
      value[name] = undefined;
    }
  }
}

test("a device keeps nothing that is the caller's", () => {
  const below = randomNumbers(2);
  for (const kind of STATED) {
    for (let round = 0; round < ROUNDS / 10; round += 1) {
      const given = anyState(below, kind);
      const device = kind.fromState(given);
      const saved = device.toBytes();
      const other = kind.fromBytes(saved);
      spoil(given);
      assert.deepEqual(device.toBytes(), saved);
      const before = other.state;
      saved.fill(0xee);
      assert.deepEqual(other.state, before);
      const one = drawn(kind, below);
      const result = made(device, one);
      const after = device.state;
      spoil(result);
      spoil(one[1]);
      spoil(device.state);
      assert.deepEqual(device.state, after, one[0]);
    }
  }
});

test("devices that take turns do what each does alone, whatever becomes of what they give", () => {
  const kinds = [...DEVICES, ...DEVICES];
  const below = randomNumbers(3);
  const calls = Array.from({ length: ROUNDS }, () => {
    const which = below(kinds.length);
    return [which, drawn(kinds[which], below)];
  });
  const turns = kinds.map((kind) => new kind());
  const inTurns = calls.map(([which, one]) => {
    const [own, given] = [structuredClone(one), {}];
    given.first = made(turns[which], own);
    const kept = structuredClone(given.first);
    spoil(given);
    spoil(own[1]);
    return kept;
  });
  kinds.forEach((kind, own) => {
    const device = new kind();
    calls.forEach(([which, one], place) => {
      if (which === own) assert.deepEqual(made(device, one), inTurns[place], one[0]);
    });
  });
});

test("a copy does what the device does, and is another one", () => {
  const below = randomNumbers(9);
  for (const kind of DEVICES.filter(({ prototype }) => prototype.clone)) {
    for (let round = 0; round < ROUNDS / 50; round += 1) {
      const device = anyDevice(kind, below);
      const copy = device.clone();
      const calls = Array.from({ length: 9 }, () => drawn(kind, below));
      // The copy comes first, and the device notices none of its calls.
      const [ofCopy, ofDevice] = [copy, device].map((each) => calls.map((one) => made(each, one)));
      assert.deepEqual([ofCopy, contentsOf(copy)], [ofDevice, contentsOf(device)]);
    }
  }
});

test("calls that only look leave a device as it is", () => {
  const below = randomNumbers(4);
  for (const kind of DEVICES) {
    const looks = membersOf(kind).filter((name) => onlyLooks(kind, name));
    for (let round = 0; round < ROUNDS / 10; round += 1) {
      const device = anyDevice(kind, below);
      const before = contentsOf(device);
      for (const name of looks) {
        made(device, drawn(kind, below, name));
        assert.deepEqual(contentsOf(device), before, name);
      }
    }
  }
});

/** How many conditions are set: RDA, 0x04, and THRE, 0x02. */
const conditions = (bits) => ((bits >> 2) & 1) + ((bits >> 1) & 1);
/** Those that IER enables, in the places of IIR. */
const enabled = ({ interruptEnable }) => ((interruptEnable & 1) << 2) | (interruptEnable & 2);

test("the effects of a port's calls are what its states before and after show", () => {
  const below = randomNumbers(7);
  for (let round = 0; round < ROUNDS; round += 1) {
    const before = anyState(below, Serial);
    const port = Serial.fromState(before);
    const pending = before.interruptIdentification;
    assert.equal(port.fifoCapacity(), 64 - before.inBuffer.length);
    assert.equal(port.interruptsDue(), conditions(pending & enabled(before)));
    assert.equal(port.interruptLine(), (pending & enabled(before)) !== 0);
    const [isData, isOutside] = [(before.lineControl & 0x80) === 0, (before.modemControl & 0x10) === 0];
    const raised = () => conditions(port.state.interruptIdentification & ~pending);
    const [name, parameters] = drawn(Serial, below);
    const [first] = parameters;
    const given = made(port, [name, parameters]);
    const after = port.state;
    if (name === "read") {
      const bufferRead = first === 0 && isData;
      const inBufferEmpty = bufferRead && after.inBuffer.length === 0;
      assert.deepEqual(given, { byte: given.byte, bufferRead, inBufferEmpty });
      if (first === 7) assert.equal(given.byte, before.scratch);
      if (bufferRead) assert.equal(given.byte, before.inBuffer[0] ?? 0);
    } else if (name === "write") {
      assert.deepEqual(given, { sends: first === 0 && isData && isOutside, interrupts: raised() });
    } else if (name === "enqueue") {
      const fifoFull = isOutside && first.length > 0 && before.inBuffer.length === 64;
      const accepted = isOutside ? Math.min(first.length, 64 - before.inBuffer.length) : 0;
      assert.deepEqual(given, { accepted, fifoFull, interrupts: raised() });
      assert.deepEqual(after.inBuffer, Uint8Array.from([...before.inBuffer, ...first.slice(0, accepted)]));
    } else if (name === "characterTimeout") {
      assert.equal(given, raised());
    }
  }
});

test("a clock's registers read as its state has them", () => {
  const below = randomNumbers(8);
  for (let round = 0; round < ROUNDS / 10; round += 1) {
    const clock = Rtc.fromState(anyState(below, Rtc));
    const now = anyMoment(below);
    for (const [offset, name] of [[0x04, "mr"], [0x08, "lr"], [0x10, "imsc"], [0x14, "ris"]]) {
      assert.deepEqual(clock.read(offset, now), { value: clock.state[name], invalidRead: false });
    }
    const { ris, imsc } = clock.state;
    assert.equal(clock.read(0x18, now).value, (ris & imsc) >>> 0);
    assert.equal(clock.interruptLine(), (ris & imsc & 1) !== 0);
    assert.deepEqual(clock.read(0x21, now), { value: 0, invalidRead: true });
    assert.deepEqual(clock.write(0x14, 1, now), { invalidWrite: true });
    const value = anyWord(below);
    assert.deepEqual([clock.write(0x08, value, now), clock.read(0, now).value], [{ invalidWrite: false }, value]);
  }
});

test("any state goes there and back", () => {
  const below = randomNumbers(5);
  for (const kind of STATED) {
    for (let round = 0; round < ROUNDS / 10; round += 1) {
      const one = anyState(below, kind);
      const device = kind.fromState(one);
      const other = kind.fromBytes(device.toBytes());
      assert.deepEqual([device.state, other.state, device.clone().state], [one, one, one]);
      assert.deepEqual(other.toBytes(), device.toBytes());
      for (const name of Object.keys(one)) {
        const { [name]: _, ...rest } = one;
        assert.throws(() => kind.fromState(rest), { name: "TypeError", message: new RegExp(`^${name}`) });
      }
      assert.deepEqual(kind.fromState({ ...one, further: 1 }).state, one);
    }
  }
});

/** What a load gives, or if it refuses the bytes, an object that is saved as these. */
function loadedOr(bytes, load) {
  try {
    return load();
  } catch (error) {
    if (!(error instanceof SavedStateError)) throw error;
    return { toBytes: () => bytes };
  }
}

test("saved bytes that are cut, longer or changed in a bit are refused, or are another state", () => {
  const below = randomNumbers(6);
  for (const kind of STATED) {
    const some = anyState(below, kind);
    if (some.output) some.output = Uint8Array.of(1, 2, 3);
    const saved = kind.fromState(some).toBytes();
    const flipped = Array.from(saved, (_, place) => Array.from({ length: 8 }, (_, bit) =>
      saved.map((one, at) => at === place ? one ^ (1 << bit) : one))).flat();
    const longer = [1, 9, 0x10000].map((count) => Uint8Array.from([...saved, ...new Uint8Array(count)]));
    const lengths = [...Array.from(saved, (_, count) => saved.slice(0, count)), ...longer];
    for (const [place, damaged] of [...flipped, ...lengths].entries()) {
      const load = () => kind.fromBytes(damaged);
      const isOfHeader = place < 64 || place >= flipped.length;
      if (isOfHeader) assert.throws(load, SavedStateError);
      else assert.deepEqual(loadedOr(damaged, load).toBytes(), damaged);
    }
  }
});

test("the longest bytes whose header has their length hold too many, and longer ones have another length", () => {
  const header = [...new Serial().toBytes().subarray(0, 6), 0xff, 0xff];
  for (const [count, reason] of [[0xfffe, "wrong length"], [0xffff, "too many bytes"], [0x10000, "wrong length"],
    [0x1ffff, "wrong length"]]) {
    const bytes = Uint8Array.from([...header, ...new Uint8Array(count)]);
    assert.throws(() => Serial.fromBytes(bytes), { name: "SavedStateError", reason });
  }
});

test("an enqueue or a receive takes the first 64 bytes of any number", () => {
  for (const count of [63, 64, 65, 2 ** 16, 2 ** 24 + 1, 2 ** 32]) {
    const [port, polled] = [new Serial(), new Console(true)];
    const input = new Uint8Array(count); // pages that nobody reads take no memory
    input.set(Uint8Array.from({ length: 63 }, (_, place) => place));
    const fits = Math.min(count, 64);
    assert.deepEqual([port.enqueue(input).accepted, port.state.inBuffer], [fits, input.slice(0, fits)]);
    assert.deepEqual([polled.receive(input).accepted, polled.state.port.inBuffer], [fits, input.slice(0, fits)]);
  }
});
