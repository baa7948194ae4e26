// SPDX-License-Identifier: Apache-2.0 OR BSD-3-Clause
/**
 * Numbers at the edges of their types, and that superio.d.ts declares the types of what each call takes and gives.
 */
import assert from "node:assert/strict";
import { readFileSync } from "node:fs";
import test from "node:test";
import { CLOCK, SERIAL } from "../registers.mjs";
import * as superio from "../superio.mjs";
import { DEVICES, made, membersOf, plainValues } from "./members.mjs";

const { Console, Rtc } = superio;

const DAY = 24 * 60 * 60;
const [MOST_16, MOST_31, MOST_32] = [16, 31, 32].map((bits) => 2 ** bits - 1);
const [MOST_63, MOST_64] = [63n, 64n].map((bits) => 2n ** bits - 1n);
// Seconds of 32 bits: the edges of a day, and of 16, 31 and 32 bits.
const SECONDS = [0, 1, DAY - 1, DAY, DAY + 1, MOST_16, MOST_16 + 1, MOST_31 - 1, MOST_31, MOST_31 + 1, MOST_32 - DAY,
  MOST_32 - 1, MOST_32];
// Moments, of which the low 32 bits count, as numbers and as big integers.
const MOMENTS = [...SECONDS, MOST_32 + 1, MOST_32 + 1 + DAY, Number.MAX_SAFE_INTEGER, ...SECONDS.map(BigInt),
  2n ** 32n, 2n ** 53n, MOST_63, 2n ** 63n, MOST_64];
const hostOf = (now) => Number(BigInt.asUintN(32, BigInt(now)));

test("in how many seconds an alarm is due, at any moment after which the host's 32 bits last until then", () => {
  let number = 0;
  for (const now of MOMENTS) {
    for (const due of SECONDS.slice(1).filter((it) => hostOf(now) + it <= MOST_32)) {
      for (const guestTime of [0, MOST_32 - due]) {
        const clock = new Rtc();
        assert.equal(clock.alarmDue(now), null);
        clock.write("LR", guestTime, now);
        clock.write("MR", guestTime + due, now);
        for (const passed of [0, 1, due - 1, due]) {
          const later = typeof now === "bigint" ? now + BigInt(passed) : now + passed;
          if (Number.isSafeInteger(later) || typeof later === "bigint") {
            assert.equal(clock.alarmDue(later), due - passed, `${now}, ${due}, ${passed}`);
            number += 1;
          }
        }
      }
    }
  }
  assert.ok(number > 1000, `${number}`);
});

test("an alarm over the end of the host's 32 bits", () => {
  for (const [now, match, due] of [[MOST_32, 1, 2], [MOST_32, 2, 3], [1, MOST_32, null],
    [MOST_31 + 1, MOST_31, MOST_31], [MOST_31 + 1, MOST_31 + 1, null]]) {
    const clock = new Rtc();
    clock.write("LR", 0, now);
    clock.write("MR", match, now);
    assert.equal(clock.alarmDue(now), due, `${now}, ${match}`);
  }
});

test("a reader takes what waits and no more, however many bytes it says", () => {
  const waiting = Uint8Array.from({ length: 2000 }, (_, place) => place);
  for (const count of [1999, 2000, 2001, 4095, 4096, 4097, ...SECONDS, MOST_32 + 1, MOST_32 + 2, MOST_32 + 2000, 2 ** 40,
    Number.MAX_SAFE_INTEGER]) {
    const made = Console.fromState({ ...new Console().state, output: waiting });
    made.consume(count);
    assert.deepEqual(made.output(), waiting.slice(count), `${count}`);
    assert.equal(made.dropped(), 0n);
  }
});

test("a clock shows each value of 32 bits, and the low 32 bits of any moment", () => {
  for (const now of MOMENTS) assert.deepEqual(new Rtc().read("DR", now), { value: hostOf(now), invalidRead: false });
  for (const value of SECONDS) {
    const clock = new Rtc();
    clock.write("LR", value, 5);
    clock.write("MR", value, 5);
    assert.deepEqual(["LR", "MR", "DR"].map((name) => clock.read(name, 5).value), [value, value, value]);
    const numbers = { lr: value, mr: MOST_32 - value, imsc: value, ris: MOST_32 - value };
    const state = { ...new Rtc().state, ...numbers, armed: true };
    for (const offset of [-(2n ** 63n), -(2n ** 32n), -1n, 0n, 2n ** 31n, 2n ** 32n, MOST_63]) {
      assert.deepEqual(Rtc.fromState({ ...state, offset }).state, { ...state, offset });
    }
  }
});

test("a console shows each number of bytes that were dropped", () => {
  for (const dropped of [0n, 1n, 2n ** 31n, 2n ** 32n, 2n ** 53n, MOST_63, 2n ** 63n, MOST_64]) {
    const made = Console.fromState({ ...new Console().state, dropped });
    assert.deepEqual([made.dropped(), made.state.dropped], [dropped, dropped]);
  }
});

// What superio.d.ts declares, by what calls take and give.

const DECLARATIONS = readFileSync(new URL("../superio.d.ts", import.meta.url), "utf8").replace(/\/\*\*[^]*?\*\//g, "");
const aliases = Object.fromEntries(Array.from(DECLARATIONS.matchAll(/^export type (\w+) =([^;]*);/gm),
  ([, name, text]) => [name, text]));
const objects = new Set(Array.from(DECLARATIONS.matchAll(/^export (?:class|interface) (\w+)/gm), ([, name]) => name));

/** The kinds of values of a type, as `kindOf` names them. */
function kindsOf(type) {
  const parts = type.trim().startsWith("{") ? [type.trim()] : type.split("|").map((one) => one.trim()).filter(Boolean);
  return [...new Set(parts.flatMap((one) => {
    if (aliases[one]) return kindsOf(aliases[one]);
    if (one.startsWith("{") || objects.has(one)) return ["object"];
    if (/^["`]|^Lowercase<|\}`>?$/.test(one)) return ["string"];
    return one === "void" ? ["undefined"] : [one];
  }))].sort();
}

const kindOf = (value) => value === null ? "null" : value instanceof Uint8Array ? "Uint8Array" : typeof value;

/** The declared members of a class: each with its parameters' types, where one may be left out, and its result's. */
function declaredOf(name) {
  const [, body] = new RegExp(`^export class ${name} \\{\\n(.*?)\\n\\}`, "ms").exec(DECLARATIONS);
  const typesOf = (takes) => takes.split(", ").filter(Boolean).map((one) => {
    const [, mark, type] = /^\w+(\??): (.*)$/.exec(one);
    return { type, kinds: [...kindsOf(type), ...mark ? ["undefined"] : []].sort() };
  });
  const members = body.matchAll(/^  (?:static |readonly )?(\w+)(?:\((.*)\))?(?:: (.*))?;$/gm);
  return Array.from(members, ([, member, takes = "", gives]) => ({ member, gives, takes: typesOf(takes) }));
}

/** The fields of an interface, each with its declared type. */
const fieldsOf = (name) => Array.from(new RegExp(`^export interface ${name} \\{(.*?)^\\}`, "ms").exec(DECLARATIONS)[1]
  .matchAll(/(\w+): ([^;]+);/g), ([, field, type]) => [field, type]);

/** Checks that a value is of a declared class, or has the fields of an interface, with their types, and no other. */
function checkType(value, type, what) {
  if (Object.hasOwn(superio, type)) {
    assert.ok(value instanceof superio[type], `${what} is no ${type}`);
  } else if (objects.has(type)) {
    const fields = fieldsOf(type);
    assert.deepEqual(Object.keys(value).sort(), fields.map(([field]) => field).sort(), `${what}: ${type}`);
    for (const [field, inner] of fields) checkType(value[field], inner, `${what}.${field}`);
  } else {
    assert.ok(kindsOf(type).includes(kindOf(value)), `${what}: ${type}`);
  }
}

const alarm = (due) => {
  const clock = new Rtc();
  clock.write("MR", 5 + due, 5);
  return clock;
};
// Devices of a class of which a new one does not give all that it can, and a name of a register.
const OTHERS = { Rtc: [() => alarm(9), () => alarm(MOST_32 - 5)] };
const NAMES = { Rtc: "MR" };

/** Arguments that each member of a class takes. */
const valuesOf = (kind) => ({
  ...Object.fromEntries(["constructor", ...membersOf(kind)].map((member) => [member, plainValues(kind, member)])),
  ...kind.fromBytes ? { fromBytes: [new kind().toBytes()] } : {},
  ...kind.fromState ? { fromState: [new kind().state] } : {},
});
const SAMPLES = { number: 1, bigint: 1n, string: "MR", boolean: true, null: null, undefined, object: {},
  Uint8Array: new Uint8Array(1) };

for (const kind of DEVICES) {
  const [name, values, makers] = [kind.name, valuesOf(kind), [() => new kind(), ...OTHERS[kind.name] ?? []]];
  test(`each member of ${name} gives values of the types that are declared, and of no other`, () => {
    for (const { member, gives } of declaredOf(name).filter((one) => one.member !== "constructor")) {
      const given = makers.map((maker) => made(maker(), member, values[member]));
      assert.deepEqual([...new Set(given.map(kindOf))].sort(), kindsOf(gives), `${member}: ${gives}`);
      const fields = /^\{ (.*) \}$/.exec(gives)?.[1].split("; ");
      if (fields) assert.deepEqual(fields, Object.entries(given[0]).map(([field, it]) => `${field}: ${kindOf(it)}`));
      else if (objects.has(gives)) for (const value of given) checkType(value, gives, `${name}.${member}`);
    }
  });

  test(`each parameter of ${name} takes values of the types that are declared, and of no other`, () => {
    for (const { member, takes } of declaredOf(name)) {
      for (const [place, { type, kinds }] of takes.entries()) {
        if (objects.has(type)) checkType(values[member][place], type, `${member}, parameter ${place + 1}`);
        const samples = { ...SAMPLES, string: NAMES[name] ?? "SCR",
          object: member === "fromState" ? values[member][0] : {} };
        const taken = Object.keys(samples).filter((one) => {
          try {
            made(makers[0](), member, Object.assign([...values[member]], { [place]: samples[one] }));
          } catch (error) {
            return !(error instanceof TypeError);
          }
          return true;
        });
        assert.deepEqual(taken.sort(), kinds, `${member}, parameter ${place + 1}`);
      }
    }
  });
}

test("the declared names of registers are those that an access can reach", () => {
  const declared = (name) => Array.from(aliases[name].matchAll(/"(\w+)"/g), ([, one]) => one);
  const reached = (letter) =>
    Object.values(SERIAL).filter(({ access }) => access.includes(letter)).map(({ name }) => name);
  assert.deepEqual(declared("ReadableRegister"), reached("r"));
  assert.deepEqual(declared("WritableRegister"), reached("w"));
  assert.deepEqual(declared("ClockRegister"), Object.keys(CLOCK));
});
