// SPDX-License-Identifier: Apache-2.0 OR BSD-3-Clause
/**
 * What the package does by itself: layouts, copies, refused arguments, names, and what superio.d.ts and package.json
 * say of it. tests/js makes recorded calls with it too, over the board of the page.
 */
import assert from "node:assert/strict";
import { readFileSync, readdirSync } from "node:fs";
import { createRequire } from "node:module";
import test from "node:test";
import { ABI, SAVED_STATE_ERRORS } from "../module.mjs";
import * as registers from "../registers.mjs";
import * as superio from "../superio.mjs";
import { DEVICES, PARAMETERS, contentsOf } from "./members.mjs";

const { Console, I8042, Rtc, SavedStateError, Serial } = superio;

/** The same bytes in the middle of a buffer, so that what is passed is seldom a whole one. */
function within(array) {
  const larger = new Uint8Array(array.length + 5).fill(0xee);
  larger.set(array, 2);
  return larger.subarray(2, 2 + array.length);
}

const bytes = (text) => within(new TextEncoder().encode(text));
const fromHex = (digits) => within(Uint8Array.from(digits.match(/../g) ?? [], (two) => parseInt(two, 16)));
// Each field has a value of its own, so that two that are swapped are found.
const PORT = {
  baudDivisorLow: 0x11, baudDivisorHigh: 0x22, interruptEnable: 0x03, interruptIdentification: 0x06, lineControl: 0x44,
  lineStatus: 0x61, modemControl: 0x08, modemStatus: 0xb5, scratch: 0x77, inBuffer: Uint8Array.of(0xa1, 0xa2, 0xa3),
};
const REGISTERS = Object.keys(PORT).filter((name) => name !== "inBuffer");
// Saved states whose bytes differ, with the headers of those of docs/SAVED-STATES.md, and the fields in the order of
// its tables.
const DOCUMENT = readFileSync(new URL("../../../docs/SAVED-STATES.md", import.meta.url), "utf8");
const [PORT_TEXT, CLOCK_TEXT, CONSOLE_TEXT] = ["A serial port", "A clock", "A console"].map((heading) =>
  DOCUMENT.split(`\n## ${heading}\n`)[1].split("\n## ")[0]);
const [, PORT_HEADER] = PORT_TEXT.match(/^(\w{12})0b00\w+6162$/m);
const PORT_FIELDS = Array.from(PORT_TEXT.matchAll(/^\| \d+ \| 1 \| `(\w+)`/gm), ([, name]) =>
  name.replace(/_(.)/g, (_, letter) => letter.toUpperCase()));
const PORT_SAVED = `${PORT_HEADER}0c00${Buffer.from(PORT_FIELDS.map((name) => PORT[name])).toString("hex")}a1a2a3`;
const [, CLOCK_HEADER, CLOCK_CONTENTS] = CLOCK_TEXT.match(/^(\w{16})(\w{40,})$/m);
const CLOCK_SAVED = CLOCK_HEADER + Array.from(CLOCK_CONTENTS.match(/../g).slice(1), (_, place) =>
  (0x81 + place).toString(16)).join("") + "01";
const CLOCK = Object.fromEntries(Array.from(CLOCK_TEXT.matchAll(/^\| (\d+) \| (\d) \| `(\w+)`/gm), ([, ...row]) => {
  const [place, size] = row.map(Number);
  const value = BigInt(`0x${CLOCK_SAVED.slice(2 * place, 2 * (place + size)).match(/../g).reverse().join("")}`);
  return [row[2], { 1: value === 1n, 4: Number(value), 8: BigInt.asIntN(64, value) }[size]];
}));
// That of the document, whose driver is ready, which has sent `ok` and holds `x`; and one with two of its flags, and
// with the two others.
const [, CONSOLE_SHOWN] = CONSOLE_TEXT.match(/^(\w{30,})$/m);
const CONSOLE = { port: PORT, output: Uint8Array.of(0xb1, 0xb2), dropped: 0x0102030405060708n, isPolled: true,
  isReady: false, isAsleep: true, isRefused: false };
const CONSOLE_HEADER = CONSOLE_SHOWN.slice(0, 12);
const savedConsole = (flags) => `${CONSOLE_HEADER}2100${flags}08070605040302010200b1b2${PORT_SAVED}`;

test("each field of a state has its place", () => {
  for (const [flags, isPolled] of [["05", true], ["0a", false]]) {
    const state = { ...CONSOLE, isPolled, isReady: !isPolled, isAsleep: isPolled, isRefused: !isPolled };
    const made = Console.fromState(state);
    assert.deepEqual(made.state, state);
    assert.deepEqual(made.toBytes(), fromHex(savedConsole(flags)));
    assert.deepEqual(Console.fromBytes(fromHex(savedConsole(flags))).state, state);
  }
  const made = new Console();
  made.write("IER", 0x01);
  for (const byte of bytes("ok")) made.write("THR", byte);
  made.receive(bytes("x"));
  assert.deepEqual(made.toBytes(), fromHex(CONSOLE_SHOWN));
  const port = Serial.fromState(PORT);
  assert.deepEqual(port.state, PORT);
  assert.deepEqual(port.toBytes(), fromHex(PORT_SAVED));
  assert.deepEqual(Serial.fromBytes(fromHex(PORT_SAVED)).state, PORT);
  assert.equal(port.isCoherent(), true);
  assert.equal(Serial.fromState({ ...PORT, inBuffer: new Uint8Array() }).isCoherent(), false);
  const clock = Rtc.fromState(CLOCK);
  assert.deepEqual(clock.state, CLOCK);
  assert.deepEqual(clock.toBytes(), fromHex(CLOCK_SAVED));
  assert.deepEqual(Rtc.fromBytes(fromHex(CLOCK_SAVED)).state, CLOCK);
});

test("new devices", () => {
  assert.deepEqual(new Serial().state, {
    baudDivisorLow: 0x0c, baudDivisorHigh: 0, interruptEnable: 0, interruptIdentification: 0x01, lineControl: 0x03,
    lineStatus: 0x60, modemControl: 0x08, modemStatus: 0xb0, scratch: 0, inBuffer: new Uint8Array(),
  });
  assert.deepEqual(Object.values(new Rtc().state).filter(Number), []);
  const fresh = { port: new Serial().state, output: new Uint8Array(), dropped: 0n, isPolled: false, isReady: false,
    isAsleep: false, isRefused: false };
  for (const isPolled of [false, true]) assert.deepEqual(new Console(isPolled).state, { ...fresh, isPolled });
  assert.deepEqual(new Console().state, fresh);
});

test("one command resets the machine", () => {
  const resets = (offset, value) => new I8042().write(offset, value).resets;
  assert.deepEqual([resets(4, 0xfe), resets(4, 0xff), resets(0, 0xfe)], [true, false, false]);
});

test("a clock's alarm", () => {
  const clock = new Rtc();
  clock.write("MR", 1005, 1000);
  clock.write("RTCIMSC", 1, 1000n);
  assert.deepEqual([clock.alarmDue(1000), clock.interruptLine()], [5, false]);
  assert.equal(clock.alarmDue(1005), 0);
  clock.read("MIS", 1005);
  assert.deepEqual([clock.alarmDue(1005), clock.interruptLine()], [null, true]);
});

test("devices share nothing", () => {
  for (const [device, name] of [[Console, "SCR"], [Serial, "SCR"], [Rtc, "LR"]]) {
    const [one, other] = [new device(), new device()];
    one.write(name, 1, 0);
    const copy = one.clone();
    copy.write(name, 2, 0);
    const valueOf = ({ state }) => state.port?.scratch ?? state.scratch ?? state.lr;
    assert.deepEqual([one, other, copy].map(valueOf), [1, 0, 2]);
  }
});

test("what a call gives is the caller's own, and what it takes stays as it was", () => {
  const [port, clock, made] = [Serial.fromState(PORT), Rtc.fromState(CLOCK), Console.fromState(CONSOLE)];
  // Each gives the same again.
  for (const call of [() => made.read(5), () => made.write(7, 0x77), () => made.receive(bytes("")), () => made.wants(),
    () => made.output(), () => made.turn(), () => made.toBytes(), () => made.state, () => port.read(5),
    () => port.write(7, 0x77), () => port.enqueue(bytes("")),
    () => port.toBytes(), () => port.state, () => clock.read(4, 9), () => clock.write(16, 1, 9), () => clock.toBytes(),
    () => clock.state, () => new I8042().write(4, 0xfe)]) {
    const [first, second] = [call(), call()];
    const before = structuredClone(first);
    for (const name of Object.keys(second)) {
      if (second[name] instanceof Uint8Array) second[name].fill(0xee);
      second[name] = 0xee;
    }
    assert.deepEqual([first, call()], [before, before], `${call}`);
  }
  for (const [device, state, saved] of [[Console, CONSOLE, savedConsole("05")], [Serial, PORT, PORT_SAVED],
    [Rtc, CLOCK, CLOCK_SAVED]]) {
    const [encoding, given] = [fromHex(saved), structuredClone(state)];
    device.fromBytes(encoding);
    device.fromState(given);
    new Serial().enqueue(encoding);
    new Console(true).receive(encoding);
    assert.deepEqual([encoding, given], [fromHex(saved), state]);
  }
});

test("saved bytes that are refused say why", () => {
  const [magic, rest] = [PORT_SAVED.slice(0, 8), PORT_SAVED.slice(12)];
  const refusals = [[PORT_SAVED.slice(0, 14), "too short"], [`54${PORT_SAVED.slice(2)}`, "not a saved state"],
    [CLOCK_SAVED, "other device"], [`${magic}01ff${rest}`, "unknown version"],
    [`${PORT_SAVED}00`, "wrong length"], [`${PORT_HEADER}ffff${"00".repeat(0x1ffff)}`, "wrong length"],
    [`${PORT_HEADER}4a00${"00".repeat(74)}`, "too many bytes"]];
  for (const [encoding, reason] of refusals) {
    const message = SAVED_STATE_ERRORS[reason];
    assert.throws(() => Serial.fromBytes(fromHex(encoding)), { name: "SavedStateError", reason, message });
  }
  assert.throws(() => Rtc.fromBytes(fromHex(CLOCK_SAVED.replace(/01$/, "02"))), { reason: "invalid armed" });
  const whole = savedConsole("05");
  const withLength = (contents) => `${CONSOLE_HEADER}${Buffer.of(contents.length / 2, 0).toString("hex")}${contents}`;
  for (const [encoding, reason] of [
    [whole.slice(0, 14), "too short"], [`54${whole.slice(2)}`, "not a saved state"], [PORT_SAVED, "other device"],
    [`${whole.slice(0, 10)}fe${whole.slice(12)}`, "unknown version"], [`${whole}00`, "wrong length"],
    [whole.slice(0, -2), "wrong length"], [withLength("00".repeat(10)), "wrong length"],
    [withLength(`${"00".repeat(9)}0300b1b2`), "wrong length"],               // fewer bytes than wait
    [`${CONSOLE_HEADER}0c10${"00".repeat(9)}0110${"00".repeat(4097)}`, "wrong length"], // more than may wait
    [savedConsole("10"), "invalid flags"], [savedConsole("85"), "invalid flags"],
    [withLength("00".repeat(11)), "too short"],                               // and from here on the port in it
    [withLength(`${"00".repeat(11)}${PORT_SAVED}00`), "wrong length"],
    [withLength(`${"00".repeat(11)}${CLOCK_SAVED}`), "other device"],
    [withLength(`${"00".repeat(11)}${PORT_HEADER}4a00${"00".repeat(74)}`), "too many bytes"]]) {
    const message = SAVED_STATE_ERRORS[reason];
    assert.throws(() => Console.fromBytes(fromHex(encoding)), { name: "SavedStateError", reason, message });
  }
  assert.throws(() => Rtc.fromBytes(fromHex(PORT_SAVED)), SavedStateError);
});

/** A call that has to be refused, with the error and a text that its message has. */
function refused(call, name, text) {
  assert.throws(call, (error) => error.name === name && error.message.includes(text), `${call}: ${name}, ${text}`);
}

// Objects that JavaScript would make a number or a text of, and what it cannot make a text of.
const OF_OTHER_KINDS = [undefined, null, true, [7], {}, new Number(7), () => 7, Symbol("seven"), Object.create(null)];

/** The call with a value for a parameter, of a new device. A call that is refused leaves the device as it was. */
const ofNewDevice = ({ device: Kind, call }) => (value) => {
  const device = new Kind();
  const before = contentsOf(device);
  try {
    call(device, value);
  } catch (error) {
    assert.deepEqual(contentsOf(device), before, `${Kind.name} after a refused argument`);
    throw error;
  }
};

test("any Uint8Array is taken as bytes, and nothing else is", () => {
  const encoding = fromHex(PORT_SAVED);
  const others = ["53", encoding.buffer, new DataView(encoding.buffer), new Int8Array(8), new Uint8ClampedArray(8)];
  for (const call of [...PARAMETERS.filter(({ kind }) => kind === "bytes").map(ofNewDevice),
    ...DEVICES.filter((kind) => kind.fromBytes).map((kind) => (it) => kind.fromBytes(it)),
    (it) => Serial.fromState({ ...PORT, inBuffer: it }), (it) => Console.fromState({ ...CONSOLE, output: it })]) {
    for (const other of [...OF_OTHER_KINDS, ...others]) refused(() => call(other), "TypeError", "a Uint8Array");
  }
  refused(() => new Serial().enqueue([65]), "TypeError", "bytes is of class Array, and a Uint8Array is wanted");
  refused(() => Serial.fromBytes("53"), "TypeError", 'bytes is "53", and a Uint8Array is wanted');
  assert.deepEqual(new Serial().enqueue(new Uint8Array(200_000)), { accepted: 64, fifoFull: false, interrupts: 0 });
  const shared = new Uint8Array(new SharedArrayBuffer(encoding.length));
  shared.set(encoding);
  for (const taken of [Buffer.from(encoding), shared]) {
    const port = Serial.fromState({ ...PORT, inBuffer: taken.subarray(17) });
    assert.deepEqual(Serial.fromBytes(taken).state, port.state);
    assert.equal(port.enqueue(taken).accepted, taken.length);
  }
});

// Each argument that is a number: its name, the range, and a call with it.
const [OF_BYTE, OF_WORD, OF_64_BITS] = [[0, 0xff], [0, 2 ** 32 - 1], [0n, 2n ** 64n - 1n]];
const NUMBERS = [
  ...PARAMETERS.filter(({ range }) => range).map((one) => [one.name, one.range, ofNewDevice(one)]),
  ["dropped", OF_64_BITS, (it) => Console.fromState({ ...CONSOLE, dropped: it })],
  ["offset", [-(2n ** 63n), 2n ** 63n - 1n], (it) => Rtc.fromState({ ...CLOCK, offset: it })],
  ...REGISTERS.map((name) => [name, OF_BYTE, (it) => Serial.fromState({ ...PORT, [name]: it })]),
  ...Object.keys(CLOCK).filter((name) => typeof CLOCK[name] === "number").map((name) =>
    [name, OF_WORD, (it) => Rtc.fromState({ ...CLOCK, [name]: it })]),
];

test("each call of each device is among those of numbers, bytes and flags", () => {
  const known = PARAMETERS.filter(({ kind, range }) => range || ["bytes", "bool"].includes(kind));
  assert.deepEqual(PARAMETERS, known);
  assert.ok(known.length >= 20, `${known.length}`);
});

test("each number is taken at its edges, and refused beyond them by its name, its value and the range", () => {
  for (const [name, [least, most], call] of NUMBERS) {
    const isBig = typeof most === "bigint";
    const [one, sign] = isBig ? [1n, "n"] : [1, ""];
    const wanted = `a whole number from ${least} to ${most} is wanted`;
    for (const taken of [least, most, ...(isBig ? [0, Number.MAX_SAFE_INTEGER] : [])]) call(taken);
    for (const beyond of [least - one, most + one]) {
      refused(() => call(beyond), "RangeError", `${name} is ${beyond}${sign}, and ${wanted}`);
    }
    for (const part of [0.5, NaN]) refused(() => call(part), "RangeError", `${name} is ${part}, and ${wanted}`);
    // A Number beyond 2 ** 53 of which nobody knows whether it was rounded: within the range too, on each side of 0.
    for (const unsafe of isBig ? [2 ** 53, 2 ** 60, -(2 ** 53), -(2 ** 60)] : []) {
      refused(() => call(unsafe), "RangeError", `${wanted}, above 2 ** 53 as a BigInt`);
    }
    if (isBig) call(BigInt(Number.MAX_SAFE_INTEGER) + 1n);
    else refused(() => call(65n), "TypeError", `${name} is 65n, and ${wanted}`);
    for (const other of OF_OTHER_KINDS) refused(() => call(other), "TypeError", `, and ${wanted}`);
    refused(() => call(true), "TypeError", `${name} is true`);
  }
  refused(() => new Serial().write(7, "A"), "TypeError", 'value is "A"');
});

test("a refused argument changes nothing", () => {
  const [port, clock, made] = [Serial.fromState(PORT), Rtc.fromState(CLOCK), Console.fromState(CONSOLE)];
  for (const call of [() => port.write(7, 256), () => port.read(-1), () => port.enqueue([65]), () => clock.read(0, -1),
    () => clock.write(8, 2 ** 32, 0), () => clock.write(8, 0), () => made.read(256), () => made.write(0, -1),
    () => made.write("THR"), () => made.write("DLL", 1), () => made.receive("a"), () => made.consume(-1),
    () => made.consume(1n), () => made.consume(), () => made.setPolled()]) assert.throws(call);
  assert.deepEqual([port.state, clock.state, made.state], [PORT, CLOCK, CONSOLE]);
});

test("a flag is true or false", () => {
  for (const other of [0, 1, "true", new Boolean(true), ...OF_OTHER_KINDS.filter((it) => it !== true)]) {
    const names = ["isPolled", "isReady", "isAsleep", "isRefused"];
    const ofCalls = PARAMETERS.filter(({ kind, member }) =>
      kind === "bool" && (member !== "constructor" || other !== undefined)).map((one) => () => ofNewDevice(one)(other));
    for (const call of [...names.map((name) => () => Console.fromState({ ...CONSOLE, [name]: other })), ...ofCalls]) {
      refused(call, "TypeError", "true or false is wanted");
    }
  }
});

test("a state is refused if it is none, or if one of its fields is", () => {
  refused(() => Serial.fromState({ ...PORT, inBuffer: new Uint8Array(65) }), "RangeError", "inBuffer.length is 65");
  for (const other of [0, 1, "true", new Boolean(true), ...OF_OTHER_KINDS.filter((it) => it !== true)]) {
    refused(() => Rtc.fromState({ ...CLOCK, armed: other }), "TypeError", "true or false is wanted");
  }
  refused(() => Console.fromState({ ...CONSOLE, output: new Uint8Array(4097) }), "RangeError", "output.length is 4097");
  refused(() => Console.fromState({ ...CONSOLE, port: 5 }), "TypeError", "port is 5, and an object is wanted");
  refused(() => Console.fromState({ ...CONSOLE, port: { ...PORT, scratch: -1 } }), "RangeError", "scratch is -1");
  for (const [device, state] of [[Console, CONSOLE], [Serial, PORT], [Rtc, CLOCK]]) {
    for (const other of OF_OTHER_KINDS.filter((it) => typeof it !== "object" || it === null)) {
      refused(() => device.fromState(other), "TypeError", `state is ${String(other)}, and an object is wanted`);
    }
    for (const name of Object.keys(state)) {
      refused(() => device.fromState({ ...state, [name]: undefined }), "TypeError", `${name} is undefined`);
    }
  }
});

/** A name in upper and lower case, with a capital, and with a capital at its end. */
const spellings = (name) => [name, name.toLowerCase(), ...[1, name.length - 1].map((place) =>
  name.slice(0, place)[place > 1 ? "toLowerCase" : "toUpperCase"]() +
  name.slice(place)[place > 1 ? "toUpperCase" : "toLowerCase"]())];

test("a name in any case is the register that is there", () => {
  for (const [name, { offset, access, latched }] of Object.entries(registers.SERIAL)) {
    for (const isWrite of [false, true]) {
      const lineControl = latched ? 0x83 : 0x03;
      const [named, numbered] = [1, 2].map(() => Serial.fromState({ ...PORT, lineControl }));
      const made = (port, place) => (isWrite ? port.write(place, 0x9a) : port.read(place));
      const isReached = access.includes(isWrite ? "w" : "r");
      assert.equal(registers.serialRegister(offset, lineControl, isWrite)?.name === name, isReached);
      const inConsole = { ...CONSOLE, port: { ...PORT, lineControl } };
      const [namedOne, numberedOne] = [1, 2].map(() => Console.fromState(inConsole));
      for (const written of spellings(name)) {
        if (isReached) assert.deepEqual(made(namedOne, written), made(numberedOne, offset));
        else refused(() => made(namedOne, written), "RegisterError", name);
        assert.deepEqual(namedOne.state, numberedOne.state);
        if (!isReached) refused(() => made(named, written), "RegisterError", name);
        else assert.deepEqual([made(named, written), named.state], [made(numbered, offset), numbered.state]);
      }
    }
  }
  for (const [name, { offset }] of Object.entries(registers.CLOCK)) {
    for (const written of [...spellings(name), ...spellings(`RTC${name}`)]) {
      assert.deepEqual(Rtc.fromState(CLOCK).read(written, 9), Rtc.fromState(CLOCK).read(offset, 9));
      assert.deepEqual(Rtc.fromState(CLOCK).write(written, 9, 9), Rtc.fromState(CLOCK).write(offset, 9, 9));
    }
  }
  for (let offset = 0; offset <= 0xffff; offset += 1) {
    const access = registers.clockRegister(offset)?.access ?? "";
    assert.equal(new Rtc().read(offset, 0).invalidRead, !access.includes("r"), offset);
    assert.equal(new Rtc().write(offset, 0, 0).invalidWrite, !access.includes("w"), offset);
  }
});

test("a register's name reaches that register, or nothing", () => {
  const [port, latched, clock] = [new Serial(), new Serial(), new Rtc()];
  latched.write("LCR", 0x83);
  for (const [call, text] of [
    [() => port.read("THR"), "THR can only be written: a read at its offset reaches RBR"],
    [() => port.write("iir", 0), "IIR can only be read: a write at its offset reaches FCR"],
    [() => port.read("DLL"), "DLL is out of reach while DLAB is clear"],
    [() => latched.read("RBR"), "RBR is out of reach while DLAB is set"],
    ...["toString", "", "RBR ", "RTCSCR", "SC"].map((name) => [() => port.read(name), "no register has this name"]),
    [() => clock.read("constructor", 0), "no register has this name"],
  ]) refused(call, "RegisterError", text);
});

// What superio.d.ts and package.json say.

const read = (name) => readFileSync(new URL(`../${name}`, import.meta.url), "utf8");
const { exports, files, main, types } = JSON.parse(read("package.json"));
const declarations = read(types).replace(/^ *\/\*\*[^]*?\*\/\n/gm, "");

/** The declared members of a class, each as its kind, its name and its parameters' names. */
const declared = (body) => Array.from(body.matchAll(/^  (static |readonly )?(\w+)(?:\((.*)\))?(?:: .*)?;$/gm),
  ([, kind = "", name, parameters = ""]) =>
    `${kind}${name} ${Array.from(parameters.matchAll(/(\w+):/g), ([, word]) => word)}`);

/** The members that a class has, written the same way. */
function membersOf(made) {
  const parametersOf = (call) => /\((.*?)\)/.exec(call.toString())[1].replaceAll(" ", "");
  const ofDevices = Object.entries(Object.getOwnPropertyDescriptors(made.prototype)).map(([name, { get, value }]) =>
    name === "constructor" ? "constructor " : get ? `readonly ${name} ` : `${name} ${parametersOf(value)}`);
  const ofClass = Object.getOwnPropertyNames(made).filter((name) => typeof made[name] === "function")
    .map((name) => `static ${name} ${parametersOf(made[name])}`);
  return [...ofDevices, ...ofClass];
}

/** What is declared of a plain object: each field with its type, and the same of an object. */
const fieldsOf = (name) => new RegExp(`interface ${name} \\{(.*?)\\n\\}`, "s").exec(declarations)[1]
  .match(/\w+: \w+(?=;)/g).map((field) => field.replace(/: (Work|SerialState)$/, ": object"));
const typed = ([field, value]) => `${field}: ${value instanceof Uint8Array ? "Uint8Array" : typeof value}`;

const CLASS = /export class (\w+)(?: extends (\w+))? \{(?:\}|(.*?)\n\})/gs;
const classes = Array.from(declarations.matchAll(CLASS));
test("superio.d.ts declares the classes that there are", () => {
  assert.deepEqual(classes.map(([, name]) => name).sort(), Object.keys(superio).sort());
});
for (const [, name, base = "", body = ""] of classes) {
  test(`superio.d.ts declares what ${name} has`, () => {
    assert.equal(Object.getPrototypeOf(superio[name]).name, base);
    const members = [...new Set([...declared(body), "constructor "])].filter((one) => one !== "readonly reason ");
    assert.deepEqual(members.sort(), membersOf(superio[name]).sort());
  });
}

test("superio.d.ts declares the fields of what calls give", () => {
  const [port, clock, made] = [new Serial(), new Rtc(), new Console()];
  const given = { ReadEffects: port.read(0), WriteEffects: port.write(7, 0), SerialState: port.state,
    EnqueueEffects: port.enqueue(port.toBytes()), RtcState: clock.state, ConsoleState: made.state, Work: made.turn(),
    Wants: made.wants(), ConsoleRead: made.read(0), ConsoleReceived: made.receive(port.toBytes()) };
  for (const [name, value] of Object.entries(given)) {
    assert.deepEqual(Object.entries(value).map(typed).sort(), fieldsOf(name).sort());
  }
});

test("superio.d.ts declares each reason why bytes are no saved state", () => {
  const [union] = /readonly reason:[^;]*/.exec(declarations);
  assert.deepEqual(Array.from(union.matchAll(/"(.*?)"/g), ([, reason]) => reason), Object.keys(SAVED_STATE_ERRORS));
});

test("package.json names the files that the package has, and those that a release puts beside them", () => {
  const isOwn = (name) => !["package.json", "tests"].includes(name);
  const there = readdirSync(new URL("..", import.meta.url)).filter(isOwn);
  assert.deepEqual(new Set(files), new Set([...there, "LICENSE", "LICENSES"]));
  const named = [main, types, ...Object.values(exports["."]).flatMap((one) => Object.values(one))];
  assert.deepEqual(named.filter((name) => !files.includes(name.slice(2))), []);
  assert.deepEqual(createRequire(import.meta.url)("superio/package.json"), JSON.parse(read("package.json")));
});

test("require gives what import does", () => {
  const required = createRequire(import.meta.url)("superio");
  assert.deepEqual(Object.keys(required), Object.keys(superio));
  assert.deepEqual(Object.values(required).map(membersOf), Object.values(superio).map(membersOf));
});

test("a module of another binary interface is refused", async () => {
  const here = (_, name) => `"${new URL(`..${name}`, import.meta.url)}"`;
  const source = read("superio.mjs").replace(/"\.(\/\w+\.mjs)"/g, here);
  const changed = Buffer.from(`const ABI = ${ABI + 1};${source.replace("ABI, ", "")}`).toString("base64");
  const message = `the module has the binary interface ${ABI}, and this package is for ${ABI + 1}`;
  await assert.rejects(import(`data:text/javascript;base64,${changed}`), { message });
});
