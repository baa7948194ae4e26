// SPDX-License-Identifier: Apache-2.0 OR BSD-3-Clause
/**
 * Makes the recorded calls of tests/data/calls, which come on standard input, over the board of the page and so over
 * the JavaScript package, and compares them. The board has the trigger and the events, which the devices leave to their
 * caller. What becomes of a byte that goes out is not compared.
 *
 * Prints the first ten lines that differ, and how many calls did the same. Exits 1 if one differs or there is none.
 */
import process from "node:process";
import { text } from "node:stream/consumers";
import { Board, bytesOf, hex, hexOf } from "../../../web/board.mjs";
import { Rtc, Serial } from "../superio.mjs";

const FIFO_SIZE = 64;
const REGISTERS = Object.keys(new Serial().state).filter((name) => name !== "inBuffer");
const board = new Board();

const number = (digits) => parseInt(digits, 16);
const answer = (isTaken) => (isTaken ? "ok" : "trigger");

function port(reply) {
  const { inBuffer, ...registers } = board.serial.state;
  const state = `${hexOf(Object.values(registers))} ${hexOf(inBuffer) || "-"} ${hex(board.serial.fifoCapacity(), 2)}`;
  return reply === "ok" ? state : reply;
}

/** The calls that no line of a script makes, and those that it makes or shows otherwise. */
const OWN = {
  sq: (digits) => board.reply({ name: "sq", values: [bytesOf(digits)] }),
  sp: () => answer(board.ask(board.serial.interruptsDue())),
  sh: () => hex(Number(board.serial.interruptLine()), 2),
  ss: () => port(board.reply({ name: "ss", values: [] })),
  sl(registers, digits) {
    const state = Object.fromEntries(Array.from(bytesOf(registers), (value, place) => [REGISTERS[place], value]));
    const inBuffer = bytesOf(digits);
    return inBuffer.length > FIFO_SIZE ? "full" : port(board.restore(Serial.fromState({ ...state, inBuffer })));
  },
  cs() {
    const { lr, mr, imsc, ris, offset, armed } = board.clock.state;
    return `${hex(lr, 8)} ${offset} ${hex(mr, 8)} ${hex(imsc, 8)} ${hex(ris, 8)}${armed ? " armed" : ""}`;
  },
  cl(first, offset, ...others) {
    const [lr, mr, imsc, ris] = [first, ...others].map(number);
    const fresh = new Rtc().state;
    board.clock = Rtc.fromState({ ...fresh, lr, mr, imsc, ris, offset: BigInt(offset), armed: others.length > 3 });
    return OWN.cs();
  },
};

/** The reply of a call, and the calls of objects in it. The words `1` and `2` after it refuse those of the trigger. */
function make(call) {
  const [, line, words] = call.match(/^(.*?)((?: [12nfiu])*)$/);
  const [name, ...fields] = line.split(" ");
  const values = fields.map((field, place) => (name[0] === "c" && place === 0 ? BigInt(`0x${field}`) : number(field)));
  const counts = { bufferRead: 0, outByte: 0, txLostByte: 0, inBufferEmpty: 0 };
  const mask = BigInt(words.includes("1") + 2 * words.includes("2"));
  Object.assign(board, { mask, counts, asked: 0, answers: [], output: "" });
  let reply = OWN[name] ? OWN[name](...fields) : board.reply({ name, values });
  if (reply === "reset") reply = answer(board.ask(1));
  if (reply === "invalid") reply = { cr: "a5a5a5a5 i", cw: "ok j" }[name];
  const events = (counts.inBufferEmpty ? " e" : "") + (counts.bufferRead ? " b" : "");
  const answers = board.answers.map((isTaken) => (isTaken ? " T" : " R")).join("");
  return `${reply}${events}${board.output && ` W${fields[1]}`}${answers}`;
}

const rows = (await text(process.stdin)).split("\n").filter((line) => line.includes(" = "));
const different = rows.flatMap((row) => {
  const [call, reply] = row.split(" = ");
  const [expected, got] = [reply.replace(/ W\w\w(?= W)| [Flo]\b/g, "").replace("io", "ok"), make(call)];
  return got === expected ? [] : [`recorded: ${row}\ngot:      ${call} = ${got}\n`];
});
const same = rows.length - different.length;
console.log(`${different.slice(0, 10).join("")}${same} calls did the same, ${different.length} did not`);
process.exitCode = different.length || !same ? 1 : 0;
