// SPDX-License-Identifier: Apache-2.0 OR BSD-3-Clause
/**
 * Makes calls of consoles, which come on standard input in the form of tests/c/console.txt, and compares the replies.
 * Nothing is shown of a struct, and all output that waits rather than what lies together in its ring.
 *
 * Prints the first ten lines that differ, and how many calls did the same. Exits 1 if one differs or there is none.
 */
import assert from "node:assert/strict";
import process from "node:process";
import { text } from "node:stream/consumers";
import { bytesOf, hex, hexOf } from "../../../web/board.mjs";
import { Console, SavedStateError, Serial } from "../superio.mjs";

const [FIFO_SIZE, OUTPUT_SIZE] = [64, 4096];
const REGISTERS = Object.keys(new Serial().state).filter((name) => name !== "inBuffer");
const FLAGS = ["isPolled", "isReady", "isAsleep", "isRefused"];
let made = new Console();

const number = (digits) => parseInt(digits, 16);
const given = (digits) => bytesOf(digits === "-" ? "" : digits);
const flag = (value) => (value ? "01" : "00");

/** The bytes of a ring, the oldest first. */
const inRing = (ring, head, count, size) =>
  Uint8Array.from({ length: Math.min(count, size) }, (_, place) => ring[(head + place) % size] ?? 0);

/** What a call replies, and the work that it leaves. */
const CALLS = {
  ln(polled) {
    made = new Console(polled !== undefined);
    return ["ok"];
  },
  lr(offset) {
    const { byte, work } = made.read(number(offset));
    return [hex(byte, 2), work];
  },
  lw: (offset, value) => ["ok", made.write(number(offset), number(value))],
  la() {
    const { input, output, turn } = made.wants();
    return [`${hex(input, 2)}${output ? " output" : ""}${turn ? " turn" : ""}`];
  },
  lq(digits) {
    const { accepted, work } = made.receive(given(digits));
    return [hex(accepted, 2), work];
  },
  lo: (count) => [hexOf(made.output().subarray(0, number(count))) || "-"],
  lc(count) {
    made.consume(number(count));
    return ["ok"];
  },
  li: () => [`${flag(made.isFull())} ${made.dropped().toString(16)}`],
  lt: () => ["ok", made.turn()],
  lf: () => ["ok", made.refuse()],
  lz: () => ["ok", made.reset()],
  ls() {
    made.suspend();
    return ["ok"];
  },
  lp: (polled) => ["ok", made.setPolled(polled !== "00")],
  lb() {
    const [saved, output] = [made.toBytes(), made.output()];
    assert.deepEqual(saved.slice(19, 19 + saved[17] + 256 * saved[18]), output);
    return [hexOf(saved)];
  },
  ll(digits) {
    try {
      made = Console.fromBytes(given(digits));
    } catch (error) {
      if (!(error instanceof SavedStateError)) throw error;
      return [error.reason];
    }
    return ["ok"];
  },
  lx(port, head, count, output, dropped, flags) {
    const [struct, set] = [given(port), given(flags)];
    const registers = Object.fromEntries(REGISTERS.map((name, place) => [name, struct[place] ?? 0]));
    const [first, held] = struct.subarray(REGISTERS.length);
    const inBuffer = inRing(struct.subarray(REGISTERS.length + 2), first ?? 0, held ?? 0, FIFO_SIZE);
    made = Console.fromState({ port: { ...registers, inBuffer },
      output: inRing(given(output), number(head), number(count), OUTPUT_SIZE), dropped: BigInt(`0x${dropped}`),
      ...Object.fromEntries(FLAGS.map((name, place) => [name, set[place] !== 0])) });
    return [""];
  },
};

/** What stands after ` = ` in a line. A refused interrupt is told. */
function make(call) {
  const [name, ...fields] = call.split(" ");
  const refused = fields.filter((field) => ["1", "2"].includes(field)).map(Number);
  const [reply, work] = CALLS[name](...fields.filter((field) => !["1", "2"].includes(field)));
  if (!work) return reply;
  const answers = [];
  while (answers.length < work.interrupts && answers.at(-1) !== " R") {
    answers.push(refused.includes(answers.length + 1) ? " R" : " T");
  }
  const wakes = (answers.at(-1) === " R" && made.refuse().wakes) || work.wakes;
  return `${reply}${answers.join("")}${work.isUp ? " up" : ""}${wakes ? " wake" : ""}`;
}

function isSame(call, expected, got) {
  if (call.startsWith("lx")) return true;
  return call.startsWith("lo") ? got.startsWith(expected) && (expected !== "-" || got === "-") : got === expected;
}

const rows = (await text(process.stdin)).split("\n").filter((line) => line.includes(" = ") && !line.startsWith("#"));
const different = rows.flatMap((row) => {
  const [call, expected] = row.split(" = ");
  const got = make(call);
  return isSame(call, expected, got) ? [] : [`${row}\ngot: ${got}\n`];
});
const same = rows.length - different.length;
console.log(`${different.slice(0, 10).join("")}${same} calls did the same, ${different.length} did not`);
process.exitCode = different.length || !same ? 1 : 0;
