// SPDX-License-Identifier: Apache-2.0 OR BSD-3-Clause
/** What a call did and by which rule, in sentences. docs/DEVICES.md has the rules, and a sentence names its part. */
import { DLAB, SERIAL, clockRegister, serialRegister } from "../bindings/js/registers.mjs";
import { Serial } from "../bindings/js/superio.mjs";
import { LINES, hex } from "./board.mjs";

const bitOf = (register, name) => SERIAL[register].bits.find(([, one]) => one === name)[0];
const LOOP = bitOf("MCR", "LOOP");
// Each condition with its bit of IIR, its bit of IER, and what acknowledges it.
export const CONDITIONS = Object.entries({
  RDA: "A read of IIR or of RBR acknowledges it.", THRE: "A read of IIR acknowledges it.",
}).map(([name, ended]) => [name, bitOf("IIR", name), bitOf("IER", name), ended]);

export const plural = (count, noun) => `${count.toLocaleString("en")} ${noun}${count === 1 ? "" : "s"}`;

/** A byte as a character in quotes, or its number. */
export const quoted = (byte) => byte > 31 && byte < 127 ? `"${String.fromCharCode(byte)}"` : `0x${hex(byte, 2)}`;

/** A second of 1970 to 2106 as a date and time of UTC. */
export const dateOf = (seconds) => new Date(seconds * 1000).toISOString().replace("T", " ").slice(0, 19);

/** The names of the bits that are set. LCR begins with the character format, as 8N1. */
function bitNames(register, value) {
  const names = register.bits.filter(([bit]) => value & bit).map(([, name]) => name);
  if (register.name === "LCR") names.unshift(lineFormat(value));
  if (register.name === "IIR" && !names.length && value & 0x01) names.push("none");
  return names;
}

export function lineFormat(value) {
  return `${5 + (value & 3)}${value & 0x08 ? "OEMS"[(value >> 4) & 3] : "N"}${value & 0x04 ? 2 : 1}`;
}

const isPending = (board, bit) => (board.serial.state.interruptIdentification & bit) !== 0;

/**
 * For what a call asked the interrupt line, in the order of the answers: the conditions that it raised or, in a restore,
 * all that are pending and enabled in the new port. If the line refuses a call, the board has the old one.
 */
function askedFor({ command: { name, values }, before, after }) {
  const port = name === "sl" ? Serial.fromBytes(values[0]) : after.serial;
  const { interruptIdentification, interruptEnable } = port.state;
  const isAsked = name === "sl" || name === "ss" ? (_, enable) => interruptEnable & enable :
    (bit) => !isPending(before, bit);
  return CONDITIONS.filter(([, bit, enable]) => interruptIdentification & bit && isAsked(bit, enable))
    .map(([condition]) => condition);
}

/** What the interrupt line answered, as the end of a sentence. */
function asked(call) {
  const { answers } = call.after;
  if (!answers.length) return "";
  const names = askedFor(call);
  return `; interrupt for ${answers.map((isTaken, place) => names[place] + (isTaken ? "" : " refused")).join(", ")}`;
}

const readRules = {
  RBR: ["RBR gives the oldest byte, or 0 if none is held. The read acknowledges RDA, even if bytes are left: they " +
    "wait until another byte arrives, IER is written, or the monitor makes a character timeout.",
  "reading-and-writing-data"],
  IIR: ["IIR has a bit for each pending condition, and the read acknowledges both.", "interrupts"],
  LSR: ["Bit 0x01 says that a byte is held. 0x20 and 0x40 are always set: each byte is sent at once.", "registers"],
  MSR: ["No access changes MSR. In loopback it shows the outputs of MCR.", "registers"],
  MCR: ["MCR keeps what was written. Bit 0x10 is loopback.", "registers"],
};
const writeRules = {
  THR: ["A byte for THR goes to the writer at once. Then THRE is raised, whatever becomes of the byte.",
    "reading-and-writing-data"],
  IER: ["A write to IER raises each condition that holds and is enabled: RDA if bytes are held, and THRE always. It " +
    "never withdraws one that is pending.", "interrupts"],
  LCR: ["LCR keeps what was written. Bit 0x80, DLAB, puts the divisor at offsets 0 and 1.", "registers"],
  MCR: ["MCR keeps what was written. Bit 0x10 is loopback: bytes for THR then come back into the FIFO.",
    "reading-and-writing-data"],
  DLL: ["The divisor is kept. It has no effect: a byte takes no time.", "registers"],
  DLM: ["The divisor is kept. It has no effect: a byte takes no time.", "registers"],
  SCR: ["The scratch register keeps what was written. Drivers find the port by it.", "registers"],
};
const IGNORED = ["This write is ignored: it succeeds, and changes nothing.", "registers"];
const LOOPED = ["In loopback a byte for THR is received: it goes into the FIFO, and raises RDA.",
  "reading-and-writing-data"];
const KEPT = ["The register shows what was written last.", "registers"];
const NOWHERE = ["No register is at this offset: it reads as 0.", "registers"];
const alarmRule = "Any access first finds an alarm that is due, and raises bit 0 of RIS.";
const clockRules = {
  DR: ["Guest time is the host's time plus the clock's offset.", "the-clock"],
  MR: ["A match after guest time sets the alarm. A match of guest time itself raises the interrupt at once.",
    "the-alarm"],
  LR: ["A load makes guest time the value: the offset becomes the value less the host's time.", "the-clock"],
  CR: ["The clock always runs. A write of 1 resets it, and guest time is the host's again.", "the-clock"],
  IMSC: ["The mask keeps bit 0. The interrupt line is up while RIS and the mask have it.", "the-alarm"],
  RIS: [`Raw interrupt status. ${alarmRule}`, "the-alarm"],
  MIS: [`RIS under the mask, as the interrupt line shows. ${alarmRule}`, "the-alarm"],
  ICR: ["The write clears in RIS the bits that the value has.", "the-clock"],
};

/** The rule of a call as a sentence, and the heading of docs/DEVICES.md where it stands. */
export function ruleOf({ command: { name, values }, before }) {
  const { lineControl, modemControl } = before.serial.state;
  if (name === "sr") {
    const register = serialRegister(values[0], lineControl, false);
    return register ? readRules[register.name] ?? KEPT : NOWHERE;
  }
  if (name === "sw") {
    const register = serialRegister(values[0], lineControl, true);
    return register?.name === "THR" && modemControl & LOOP ? LOOPED : writeRules[register?.name] ?? IGNORED;
  }
  if (name === "cr" || name === "cw") {
    const register = clockRegister(values[1]);
    if (!register) return ["Nothing is here: the access is invalid.", "the-clock"];
    return clockRules[register.name] ?? ["It names the chip: a driver looks for it.", "the-clock"];
  }
  return LINES[name].rule ?? ["The board tells what it counted.", "the-serial-port"];
}

function toldOfAccess({ command: { name, values }, reply, before, after }) {
  const isClock = name.startsWith("c");
  const [offset, value] = isClock ? values.slice(1) : values;
  const { lineControl, inBuffer } = before.serial.state;
  const isWrite = value !== undefined;
  const register = isClock ? clockRegister(offset) : serialRegister(offset, lineControl, isWrite);
  const place = register?.name ?? `offset 0x${hex(offset, isClock ? 4 : 2)}`;
  if (reply === "invalid") return `invalid: nothing can be ${isWrite ? "written" : "read"} at ${place}`;
  if (isWrite) return after.isLost ? `${quoted(value)} is lost` : `${place} gets 0x${hex(value, isClock ? 8 : 2)}`;
  const read = parseInt(reply, 16);
  const note = { RBR: inBuffer.length ? quoted(read) : "no byte was held", DR: `${dateOf(read)} UTC` }[place] ??
    (register ? bitNames(register, read).join(" ") : "");
  return `${place} = 0x${reply}  ${note}`.trim();
}

/** What a call did, in words. */
export function told(call) {
  const { command: { name, values: [bytes] }, reply, before, after } = call;
  const [held, now] = [before, after].map(({ serial }) => serial.state.inBuffer.length);
  const words = /^[sc][rw]$/.test(name) ? toldOfAccess(call) : {
    sq: `${now - held} of ${plural(call.waiting ?? bytes?.length ?? 0, "byte")} received`,
    si: `${plural(held, "byte")} held`,
  }[name] ?? reply;
  return words + asked(call);
}

/** Why a condition is pending or not, in a sentence or two, by the calls until now: the newest that changed it. */
export function storyOf([name, bit, enable, how], calls, board) {
  const { interruptEnable, inBuffer } = board.serial.state;
  const isEnabled = (interruptEnable & enable) !== 0;
  const place = calls.findLastIndex(({ before, after }) => isPending(after, bit) !== isPending(before, bit));
  const by = place < 0 ? "" : `call ${place + 1}, ${short(calls[place].line, 24)},`;
  if (isPending(board, bit)) {
    if (place < 0) return `${name} is pending: it was at the start.`;
    const isTaken = calls[place].after.answers[askedFor(calls[place]).indexOf(name)];
    const answer = isTaken === undefined ? "" : `, and the line ${isTaken ? "took" : "refused"} the interrupt`;
    return `${name} is pending: ${by} raised it${answer}. ${isEnabled ? how : "IER does not enable it now."}`;
  }
  const reason = place < 0 ? "no call has raised it" : `${by} acknowledged it`;
  if (!isEnabled) return `${name} is not pending: ${reason}. IER does not enable it.`;
  const held = `${plural(inBuffer.length, "byte")} held: a timeout, the next byte or a write to IER raises it.`;
  const next = name === "THRE" ? "The next byte that goes out raises it, or a write to IER." :
    inBuffer.length ? held : "The next byte raises it.";
  return `${name} is not pending: ${reason}. ${next}`;
}

/** A line, cut so that at most `most` characters are shown. */
export const short = (line, most) => line.length <= most ? line : `${line.slice(0, most - 2)}..`;

/** The registers of a board as a guest would read them, by name, whatever DLAB is, without changing it. */
export function shownRegisters(board) {
  const shown = Object.values(SERIAL).filter(({ access }) => access.includes("r")).map(({ name, offset, latched }) => {
    const port = board.serial.clone();
    if (latched !== null) port.write(SERIAL.LCR.offset, latched ? DLAB : 0);
    return [name, port.read(offset).byte];
  });
  return Object.fromEntries(shown);
}
