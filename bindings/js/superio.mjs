// SPDX-License-Identifier: Apache-2.0 OR BSD-3-Clause
/**
 * Emulated legacy devices for virtual machine monitors, over proved code. Among them are a 16550 serial port, with the
 * monitor's part of its work (`Console`) or without (`Serial`), and a PL031 real-time clock (`Rtc`).
 *
 * superio.d.ts documents each call. A call runs the function of superio.h with its name, compiled to WebAssembly, on a
 * copy of the device's struct. A wrong argument throws an error that names it, and changes nothing.
 */
import text, {
  ABI, CLOCK_SAVED_SIZE, CLOCK_SIZE, CLOCK_STRUCT, CONSOLE_SIZE, CONSOLE_STRUCT, OUTPUT_BYTES, OUTPUT_COUNT,
  OUTPUT_SIZE, PORT_FIELDS, SAVED_STATE_ERRORS,
} from "./module.mjs";
import { RegisterError, clockOffset, serialOffset } from "./registers.mjs";

export { RegisterError };

const FIFO_SIZE = 64;
// A port's struct has its registers, the place of the oldest byte, how many bytes it holds, and the ring. A console's
// begins with one.
const LINE_CONTROL = PORT_FIELDS.indexOf("lineControl");
const [HEAD, COUNT, RING] = [0, 1, 2].map((place) => PORT_FIELDS.length + place);
const PORT_SIZE = RING + FIFO_SIZE;

const bytesOfModule = Uint8Array.from(atob(text), (character) => character.charCodeAt(0));
const { instance } = await WebAssembly.instantiate(bytesOfModule);
const calls = instance.exports;
if (calls.superio_abi() !== ABI) {
  throw new Error(`the module has the binary interface ${calls.superio_abi()}, and this package is for ${ABI}`);
}
const memory = new Uint8Array(calls.memory.buffer);
const view = new DataView(calls.memory.buffer);
// Where a device is during its call, the struct that the call returns, and the bytes that it is passed or writes. A
// clock and a console have numbers of eight bytes.
const DEVICE = calls.__heap_base.value;
const EFFECTS = DEVICE + CONSOLE_SIZE;
const PASSED = EFFECTS + 16;
// As many bytes as the memory has room for. Of a longer array only these are passed. The answer is the same, because
// the length in a header has 16 bits.
const LONGEST = memory.length - PASSED;

/** Makes a call of the module with the bytes of a device at DEVICE, which the call may change. */
function onDevice(bytes, call, ...parameters) {
  memory.set(bytes, DEVICE);
  const result = call(...parameters);
  bytes.set(memory.subarray(DEVICE, DEVICE + bytes.length));
  return result;
}

function shown(value) {
  if (typeof value === "string") return JSON.stringify(value);
  if (typeof value === "object" && value !== null) return `of class ${value.constructor?.name}`;
  return typeof value === "bigint" ? `${value}n` : String(value);
}

function refuse(Kind, name, value, wanted) {
  throw new Kind(`${name} is ${shown(value)}, and ${wanted}`);
}

/** The number, if it is whole and in range. If the range is of big integers, it may be one, and is made one. */
function whole(name, value, least, most) {
  const wanted = `a whole number from ${least} to ${most} is wanted`;
  const [isBig, isNumber] = [typeof least === "bigint", typeof value === "number"];
  if (!isNumber && typeof value !== typeof least) refuse(TypeError, name, value, wanted);
  if (isBig && isNumber && !Number.isSafeInteger(value)) {
    refuse(RangeError, name, value, `${wanted}, above 2 ** 53 as a BigInt`);
  }
  if ((isNumber && !Number.isInteger(value)) || value < least || value > most) refuse(RangeError, name, value, wanted);
  return isBig ? BigInt(value) : value;
}

const byte = (name, value) => whole(name, value, 0, 0xff);
const word = (name, value) => whole(name, value, 0, 0xffffffff);
const moment = (value) => whole("now", value, 0n, 2n ** 64n - 1n);

const flag = (name, value) =>
  typeof value === "boolean" ? value : refuse(TypeError, name, value, "true or false is wanted");

/** What a field of a struct may be set to, by its kind, which DataView names. */
const OF_KIND = {
  Uint32: word,
  BigInt64: (name, value) => whole(name, value, -(2n ** 63n), 2n ** 63n - 1n),
  BigUint64: (name, value) => whole(name, value, 0n, 2n ** 64n - 1n),
};

/** The fields of a struct, by their rows in module.mjs. */
function fieldsOf(struct, rows) {
  const valueOf = (place, kind) => struct[`get${kind}`](place, true);
  return Object.fromEntries(rows.map(([name, place, kind, isFlag]) =>
    [name, isFlag ? Boolean(valueOf(place, kind)) : valueOf(place, kind)]));
}

/** Sets the fields of a struct to the fields of a state. */
function setFields(struct, rows, state) {
  const values = rows.map(([name, , kind, isFlag]) => (isFlag ? flag : OF_KIND[kind])(name, state[name]));
  rows.forEach(([, place, kind], index) =>
    struct[`set${kind}`](place, kind.startsWith("Big") ? BigInt(values[index]) : values[index], true));
}

function byteArray(name, value) {
  return value instanceof Uint8Array ? value : refuse(TypeError, name, value, "a Uint8Array is wanted");
}

/** A Uint8Array that has at most `most` bytes. */
function atMost(most, name, value) {
  whole(`${name}.length`, byteArray(name, value).length, 0, most);
  return value;
}

function checkState(name, value) {
  if (typeof value !== "object" || value === null) refuse(TypeError, name, value, "an object is wanted");
}

/** Puts bytes where a call reads them. Returns the count to pass with them. */
function pass(bytes) {
  const some = byteArray("bytes", bytes).subarray(0, LONGEST);
  memory.set(some, PASSED);
  return some.length;
}

/** Bytes are not the saved state of this device. `reason` is the reason, as a script replies it. */
export class SavedStateError extends Error {
  name = "SavedStateError";

  constructor(reason) {
    super(SAVED_STATE_ERRORS[reason]);
    this.reason = reason;
  }
}

function load(device, call, bytes) {
  const error = onDevice(device, call, DEVICE, PASSED, pass(bytes));
  if (error) throw new SavedStateError(Object.keys(SAVED_STATE_ERRORS)[error - 1]);
}

/** The state of the port whose struct is at the start of these bytes. */
function portState(bytes) {
  const count = Math.min(bytes[COUNT], FIFO_SIZE);
  const registers = Object.fromEntries(PORT_FIELDS.map((name, place) => [name, bytes[place]]));
  const held = (_, distance) => bytes[RING + ((bytes[HEAD] + distance) % FIFO_SIZE)];
  return { ...registers, inBuffer: Uint8Array.from({ length: count }, held) };
}

function setPort(bytes, state) {
  const held = atMost(FIFO_SIZE, "inBuffer", state.inBuffer);
  PORT_FIELDS.forEach((name, place) => (bytes[place] = byte(name, state[name])));
  bytes.set([0, held.length, ...held], HEAD);
}

/** The offset of an access to the port at the start of these bytes, which may be given by a register's name. */
function offsetOfPort(bytes, offset, isWrite) {
  return typeof offset === "string" ? serialOffset(offset, bytes[LINE_CONTROL], isWrite) : byte("offset", offset);
}

/** What a console's call left to do, at its place in the memory. */
function workAt(place) {
  const [interrupts, isUp, wakes] = memory.subarray(place);
  return { interrupts, isUp: isUp !== 0, wakes: wakes !== 0 };
}

/** A serial port with the monitor's end of its line. */
export class Console {
  #bytes = new Uint8Array(CONSOLE_SIZE);

  constructor(isPolled = false) {
    onDevice(this.#bytes, calls.superio_console_new, DEVICE, flag("isPolled", isPolled));
  }

  read(offset) {
    const place = offsetOfPort(this.#bytes, offset, false);
    onDevice(this.#bytes, calls.superio_console_read, EFFECTS, DEVICE, place);
    return { byte: memory[EFFECTS], work: workAt(EFFECTS + 1) };
  }

  write(offset, value) {
    return this.#work(calls.superio_console_write, offsetOfPort(this.#bytes, offset, true), byte("value", value));
  }

  wants() {
    onDevice(this.#bytes, calls.superio_console_wants, EFFECTS, DEVICE);
    const [output, turn] = memory.subarray(EFFECTS + 4);
    return { input: view.getUint32(EFFECTS, true), output: output !== 0, turn: turn !== 0 };
  }

  receive(bytes) {
    onDevice(this.#bytes, calls.superio_console_receive, EFFECTS, DEVICE, PASSED, pass(bytes));
    return { accepted: view.getUint32(EFFECTS, true), work: workAt(EFFECTS + 4) };
  }

  output() {
    // The copy in the memory gives its output away, part by part.
    memory.set(this.#bytes, DEVICE);
    let end = PASSED;
    for (let count = 1; count > 0; end += count) {
      count = calls.superio_console_output(DEVICE, end, OUTPUT_SIZE);
      calls.superio_console_consume(DEVICE, count);
    }
    return memory.slice(PASSED, end);
  }

  consume(count) {
    const taken = Math.min(whole("count", count, 0, Number.MAX_SAFE_INTEGER), OUTPUT_SIZE);
    onDevice(this.#bytes, calls.superio_console_consume, DEVICE, taken);
  }

  isFull() {
    return onDevice(this.#bytes, calls.superio_console_is_full, DEVICE) !== 0;
  }

  dropped() {
    return BigInt.asUintN(64, onDevice(this.#bytes, calls.superio_console_dropped, DEVICE));
  }

  turn() {
    return this.#work(calls.superio_console_turn);
  }

  refuse() {
    return this.#work(calls.superio_console_refuse);
  }

  reset() {
    return this.#work(calls.superio_console_reset);
  }

  suspend() {
    onDevice(this.#bytes, calls.superio_console_suspend, DEVICE);
  }

  setPolled(isPolled) {
    return this.#work(calls.superio_console_set_polled, flag("isPolled", isPolled));
  }

  toBytes() {
    const count = onDevice(this.#bytes, calls.superio_console_save, DEVICE, PASSED);
    return memory.slice(PASSED, PASSED + count);
  }

  static fromBytes(bytes) {
    const made = new Console();
    load(made.#bytes, calls.superio_console_load, bytes);
    return made;
  }

  get state() {
    const fields = fieldsOf(new DataView(this.#bytes.buffer), CONSOLE_STRUCT);
    return { port: portState(this.#bytes), output: this.output(), ...fields };
  }

  static fromState(state) {
    checkState("state", state);
    checkState("port", state.port);
    const made = new Console();
    const struct = new DataView(made.#bytes.buffer);
    const waiting = atMost(OUTPUT_SIZE, "output", state.output);
    setPort(made.#bytes, state.port);
    setFields(struct, CONSOLE_STRUCT, state);
    struct.setUint16(OUTPUT_COUNT, waiting.length, true);
    made.#bytes.set(waiting, OUTPUT_BYTES);
    return made;
  }

  clone() {
    const made = new Console();
    made.#bytes.set(this.#bytes);
    return made;
  }

  #work(call, ...parameters) {
    onDevice(this.#bytes, call, EFFECTS, DEVICE, ...parameters);
    return workAt(EFFECTS);
  }
}

/** A 16550 serial port with a receive FIFO of 64 bytes. */
export class Serial {
  #bytes = new Uint8Array(PORT_SIZE);

  constructor() {
    this.#call(calls.superio_serial_new);
  }

  read(offset) {
    onDevice(this.#bytes, calls.superio_serial_read, EFFECTS, DEVICE, offsetOfPort(this.#bytes, offset, false));
    const [value, bufferRead, inBufferEmpty] = memory.subarray(EFFECTS);
    return { byte: value, bufferRead: bufferRead !== 0, inBufferEmpty: inBufferEmpty !== 0 };
  }

  write(offset, value) {
    const [place, written] = [offsetOfPort(this.#bytes, offset, true), byte("value", value)];
    onDevice(this.#bytes, calls.superio_serial_write, EFFECTS, DEVICE, place, written);
    const [sends, interrupts] = memory.subarray(EFFECTS);
    return { sends: sends !== 0, interrupts };
  }

  enqueue(bytes) {
    onDevice(this.#bytes, calls.superio_serial_enqueue, EFFECTS, DEVICE, PASSED, pass(bytes));
    const [fifoFull, interrupts] = memory.subarray(EFFECTS + 4);
    return { accepted: view.getUint32(EFFECTS, true), fifoFull: fifoFull !== 0, interrupts };
  }

  characterTimeout() {
    return this.#call(calls.superio_serial_character_timeout);
  }

  fifoCapacity() {
    return this.#call(calls.superio_serial_fifo_capacity);
  }

  interruptsDue() {
    return this.#call(calls.superio_serial_interrupts_due);
  }

  interruptLine() {
    return this.#call(calls.superio_serial_interrupt_line) !== 0;
  }

  isCoherent() {
    return this.#call(calls.superio_serial_is_coherent) !== 0;
  }

  toBytes() {
    const count = onDevice(this.#bytes, calls.superio_serial_save, DEVICE, PASSED);
    return memory.slice(PASSED, PASSED + count);
  }

  static fromBytes(bytes) {
    const port = new Serial();
    load(port.#bytes, calls.superio_serial_load, bytes);
    return port;
  }

  get state() {
    return portState(this.#bytes);
  }

  static fromState(state) {
    checkState("state", state);
    const port = new Serial();
    setPort(port.#bytes, state);
    return port;
  }

  clone() {
    const port = new Serial();
    port.#bytes.set(this.#bytes);
    return port;
  }

  #call(call) {
    return onDevice(this.#bytes, call, DEVICE);
  }
}

const offsetOfClock = (offset) =>
  typeof offset === "string" ? clockOffset(offset) : whole("offset", offset, 0, 0xffff);

/** A PL031 real-time clock, which counts seconds. It reads no clock of the host: you pass each access its moment. */
export class Rtc {
  #bytes = new Uint8Array(CLOCK_SIZE);

  constructor() {
    onDevice(this.#bytes, calls.superio_rtc_new, DEVICE);
  }

  read(offset, now) {
    onDevice(this.#bytes, calls.superio_rtc_read, EFFECTS, DEVICE, offsetOfClock(offset), moment(now));
    return { value: view.getUint32(EFFECTS, true), invalidRead: memory[EFFECTS + 4] !== 0 };
  }

  write(offset, value, now) {
    const parameters = [offsetOfClock(offset), word("value", value), moment(now)];
    return { invalidWrite: onDevice(this.#bytes, calls.superio_rtc_write, DEVICE, ...parameters) !== 0 };
  }

  interruptLine() {
    return onDevice(this.#bytes, calls.superio_rtc_interrupt_line, DEVICE) !== 0;
  }

  alarmDue(now) {
    // The largest number of 64 bits, never, is -1 here.
    const seconds = onDevice(this.#bytes, calls.superio_rtc_alarm_due, DEVICE, moment(now));
    return seconds < 0n ? null : Number(seconds);
  }

  toBytes() {
    onDevice(this.#bytes, calls.superio_rtc_save, DEVICE, PASSED);
    return memory.slice(PASSED, PASSED + CLOCK_SAVED_SIZE);
  }

  static fromBytes(bytes) {
    const clock = new Rtc();
    load(clock.#bytes, calls.superio_rtc_load, bytes);
    return clock;
  }

  get state() {
    return fieldsOf(new DataView(this.#bytes.buffer), CLOCK_STRUCT);
  }

  static fromState(state) {
    checkState("state", state);
    const clock = new Rtc();
    setFields(new DataView(clock.#bytes.buffer), CLOCK_STRUCT, state);
    return clock;
  }

  clone() {
    const clock = new Rtc();
    clock.#bytes.set(this.#bytes);
    return clock;
  }
}

/** An i8042 keyboard controller that knows one command: 0xFE at offset 4 resets the machine. It has no state. */
export class I8042 {
  read(offset) {
    return calls.superio_i8042_read(byte("offset", offset));
  }

  write(offset, value) {
    return { resets: calls.superio_i8042_write(byte("offset", offset), byte("value", value)) !== 0 };
  }
}
