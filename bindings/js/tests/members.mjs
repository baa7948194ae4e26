// SPDX-License-Identifier: Apache-2.0 OR BSD-3-Clause
/**
 * What each class of a device has, and what its members take, by superio.mjs and by the table of functions that the
 * packages share. So tests of every call need no list of the calls.
 */
import { readFileSync } from "node:fs";
import * as superio from "../superio.mjs";

const TABLE = readFileSync(new URL("../../python/superio/superio.abi", import.meta.url), "utf8");
// The members that have another name in C.
const IN_C = { constructor: "new", toBytes: "save", fromBytes: "load" };
// The least and the most of each kind of number. A count may be any that a Number holds.
const RANGES = { uint8_t: [0, 0xff], uint16_t: [0, 0xffff], uint32_t: [0, 2 ** 32 - 1], uint64_t: [0n, 2n ** 64n - 1n],
  size_t: [0, Number.MAX_SAFE_INTEGER] };

/** The classes of devices. The others are errors. */
export const DEVICES = Object.values(superio).filter((one) => !(one.prototype instanceof Error));
const MEMBERS = new Map(DEVICES.map((kind) =>
  [kind, Object.getOwnPropertyNames(kind.prototype).filter((name) => name !== "constructor")]));
/** What a device has: calls, and values. */
export const membersOf = (kind) => MEMBERS.get(kind);

/** A function of a class and a name that finds each result once. */
function cached(find) {
  const known = new Map(DEVICES.map((kind) => [kind, new Map()]));
  return (kind, name) => {
    const results = known.get(kind);
    if (!results.has(name)) results.set(name, find(kind, name));
    return results.get(name);
  };
}

const snake = (name) => name.replace(/[A-Z]/g, (letter) => `_${letter.toLowerCase()}`);
const nameOf = (kind) => `superio_${kind.name.toLowerCase()}`;

/** What the C function of a member takes, in words, or nothing if it has none. */
const inC = (kind, member) => new RegExp(`^function \\w+ ${nameOf(kind)}_${IN_C[member] ?? snake(member)}\\((.*)\\)$`,
  "m").exec(TABLE)?.[1] ?? "";

/** The kind of a field of a device's struct, as C names it. */
export const kindOfField = cached((kind, field) =>
  new RegExp(`^field ${nameOf(kind)}\\.${snake(field)} (\\w+) `, "m").exec(TABLE)[1]);

/** Whether a member leaves the device as it is: C takes it as a constant, or not at all. */
export const onlyLooks = cached((kind, member) => !/^superio_\w+ \*/.test(inC(kind, member)));

/** The names of the parameters of a member. */
function namesOf(kind, member) {
  const { get, value = kind[member] } = Object.getOwnPropertyDescriptor(kind.prototype, member) ?? {};
  if (get) return [];
  const [, words = ""] = (member === "constructor" ? /constructor\((.*?)\)/ : /\((.*?)\)/).exec(value.toString()) ?? [];
  return words.split(", ").filter(Boolean).map((word) => word.split(" ")[0]);
}

/**
 * The parameters of a member: the name of each, its kind as C names it or "bytes", and the range of a number. In C the
 * device stands before them, and what is written behind.
 */
export const parametersOf = cached((kind, member) => {
  const words = inC(kind, member).replace("const uint8_t *, size_t", "bytes")
    .replace(/(?:const )?superio_\w+ \*|uint8_t (?:\*, size_t|\[\w+\])|void/g, "");
  const [kinds, names] = [words.split(", ").filter(Boolean), namesOf(kind, member)];
  if (kinds.length !== names.length) throw new Error(`${kind.name}.${member} takes ${names}, and in C ${kinds}`);
  return names.map((name, place) => ({ name, kind: kinds[place], range: RANGES[kinds[place]] }));
});

/** Each parameter of each call of each device, with its call for a device and a value. The other values are plain. */
export const PARAMETERS = DEVICES.flatMap((kind) => ["constructor", ...membersOf(kind)].flatMap((member) => {
  const values = plainValues(kind, member);
  return parametersOf(kind, member).map((parameter, place) => ({ ...parameter, device: kind, member,
    call: (device, value) => made(device, member, Object.assign([...values], { [place]: value })) }));
}));

/** Arguments that a member takes: at the offset 4 are MCR, MR and the command port. */
export function plainValues(kind, member) {
  const plain = { bytes: new Uint8Array(1), bool: true };
  return parametersOf(kind, member).map((one) => plain[one.kind] ?? 4);
}

/** Calls a member of a device or of its class, makes another device, or gives a value. */
export function made(device, member, values = []) {
  if (member === "constructor") return new device.constructor(...values);
  const owner = member in device ? device : device.constructor;
  return typeof owner[member] === "function" ? owner[member](...values) : owner[member];
}

/** What a device shows of itself: its saved state, or else all that it tells without an argument. */
export const contentsOf = (device) => device.toBytes?.() ?? membersOf(device.constructor)
  .filter((name) => name !== "clone" && onlyLooks(device.constructor, name) &&
    !parametersOf(device.constructor, name).length).map((name) => made(device, name));
