// SPDX-License-Identifier: Apache-2.0 OR BSD-3-Clause
/**
 * The lines of a script, and the board that they drive: the devices, an interrupt line and an output of 256 bytes. It
 * replies to each line of a script as the program `superio` does, and knows further lines. docs/SCRIPT.md has
 * their syntax.
 */
import { I8042, Rtc, SavedStateError, Serial } from "../bindings/js/superio.mjs";
import { FURTHER_LINES, PROGRAM_LINES } from "./lines.mjs";

const OUTPUT_SIZE = 256;
const LONGEST_SCRIPT = 65_536;
// The bit of IIR by which THRE is pending, and how many calls a mask has bits for.
const THRE = 0x02;
const MASKED_CALLS = 64;

export const hex = (value, digits) => value.toString(16).padStart(digits, "0");
export const hexOf = (bytes) => Array.from(bytes, (one) => hex(one, 2)).join("");
export const bytesOf = (digits) => Uint8Array.from(digits.match(/../g) ?? [], (two) => parseInt(two, 16));

const controller = new I8042();
// For each line, what a board replies to the values of its fields. If no register has the line's rule, also the rule,
// and the heading of docs/DEVICES.md below which it stands.
export const LINES = {
  refuse: { reply: (board, mask) => { board.mask = mask; return null; } },
  sr: { reply: (board, offset) => hex(board.read(offset), 2) },
  sw: { reply: (board, offset, value) => board.write(offset, value) },
  sq: { reply: (board, bytes) => board.enqueue(bytes),
    rule: ["Bytes arrive for the guest: as many of the first as fit, and in loopback none. They raise RDA.",
      "reading-and-writing-data"] },
  sc: { reply: (board) => hex(board.serial.fifoCapacity(), 2) },
  sd: { reply: (board) => board.drain(),
    rule: ["The guest's driver reads RBR while LSR shows data ready.", "reading-and-writing-data"] },
  ss: { reply: (board) => board.restore(Serial.fromState(board.serial.state)),
    rule: ["A restore asks for the interrupt once for each condition that is pending and enabled. If that is " +
      "refused, the old port stays.", "saving-and-restoring"] },
  so: { reply: (board) => hexOf(Array.from(board.output, (one) => one.charCodeAt(0))) },
  st: { reply: (board) => hex(board.asked, 16) },
  se: { reply: (board) => Object.values(board.counts).map((count) => hex(count, 16)).join(" ") },
  cr: { reply: (board, now, offset) => board.readClock(now, offset) },
  cw: { reply: (board, now, offset, value) => board.clock.write(offset, value, now).invalidWrite ? "invalid" : "ok" },
  kr: { reply: (_, offset) => hex(controller.read(offset), 2),
    rule: ["Every read of the controller gives 0.", "the-reset-controller"] },
  kw: { reply: (_, offset, value) => controller.write(offset, value).resets ? "reset" : "ok",
    rule: ["0xFE at offset 4 resets the machine. Any other write has no effect.", "the-reset-controller"] },
  si: { reply: (board) => board.ask(board.serial.characterTimeout()) ? "ok" : "trigger",
    rule: ["A character timeout raises RDA again for bytes that are held, if IER enables it and it is not pending.",
      "the-character-timeout"] },
  sb: { reply: (board) => hexOf(board.serial.toBytes()),
    rule: ["A port is saved as its nine registers and the held bytes. No byte that the guest has read is in it.",
      "saving-and-restoring"] },
  sl: { reply: (board, bytes) => loaded(Serial, bytes, (port) => board.restore(port)),
    rule: ["A saved state is taken unchanged. The restore then asks for each condition that is pending and enabled.",
      "saving-and-restoring"] },
  cb: { reply: (board) => hexOf(board.clock.toBytes()),
    rule: ["A clock is saved as its registers, its offset and its alarm.", "the-clock"] },
  cl: { reply: (board, bytes) => loaded(Rtc, bytes, (clock) => { board.clock = clock; return "ok"; }),
    rule: ["Any numbers may be restored, and reads show them.", "the-clock"] },
};
// The fields of each line, and what each kind has to match.
const FIELDS_OF = { ...PROGRAM_LINES, ...FURTHER_LINES };
const BYTES = 0;
const PATTERNS = new Map([[BYTES, /^([0-9A-Fa-f]{2}){1,128}$/], ...[2, 4, 8, 16].map((digits) =>
  [digits, new RegExp(`^[0-9A-Fa-f]{${digits}}$`)])]);

function valueOf(digits, text) {
  if (digits === BYTES) return bytesOf(text);
  return digits === 16 ? BigInt(`0x${text}`) : parseInt(text, 16);
}

/**
 * The command of a line, without its LF, or null if it is no line of a script. `refuse` is one as the first line alone,
 * and no further line is one for the program.
 */
export function parse(line, isFirst = false, isForProgram = false) {
  const [name, ...texts] = line.split(" ");
  const lines = isForProgram ? PROGRAM_LINES : FIELDS_OF;
  if (!Object.hasOwn(lines, name) || (name === "refuse" && !isFirst)) return null;
  const fields = lines[name];
  if (fields[0] === BYTES && !texts.length) return { name, values: [new Uint8Array()] };
  if (texts.length !== fields.length || !texts.every((text, at) => PATTERNS.get(fields[at]).test(text))) return null;
  return { name, values: texts.map((text, place) => valueOf(fields[place], text)) };
}

/** The syntax of a line, as a sentence that says why another is none. */
export function syntaxOf(line) {
  const [name] = line.split(" ");
  if (name === "refuse") return "refuse is for the first line, with 16 hexadecimal digits.";
  if (!Object.hasOwn(FIELDS_OF, name)) return `No line of a script begins with "${name}".`;
  const fields = FIELDS_OF[name].map((digits) => digits === BYTES ? "up to 128 bytes of two hexadecimal digits" :
    `${digits} hexadecimal digits`);
  return `${name} takes ${fields.join(", then ") || "nothing"}${fields.length ? ", after one space each" : ""}.`;
}

/** A fresh board. Its parts are plain values, so that a copy of it is another board in the same state. */
export class Board {
  serial = new Serial();
  clock = new Rtc();
  /** Bit k of the mask says that the interrupt line refuses call k. */
  mask = 0n;
  /** While it is set, each call of the line is refused, and its bit of the mask is set. */
  refuses = false;
  /** While it is set, each byte is lost. */
  fails = false;
  asked = 0;
  output = "";
  counts = { bufferRead: 0, outByte: 0, txLostByte: 0, inBufferEmpty: 0 };
  /** The bytes that the guest read out, as characters. */
  readOut = "";
  /** Where the oldest byte is in the FIFO. */
  head = 0;
  /** What the line answered in the last command, whether it lost a byte, and whether the FIFO was read empty. */
  answers = [];
  isLost = false;
  isReadEmpty = false;

  clone() {
    const board = Object.assign(Object.create(Board.prototype), this);
    board.serial = this.serial.clone();
    board.clock = this.clock.clone();
    board.counts = { ...this.counts };
    return board;
  }

  /** Whether calls between this board and another changed nothing that a call shows. */
  isSameAs(board) {
    const [mine, other] = [this, board].map(({ serial, clock, asked, output, counts }) =>
      [hexOf(serial.toBytes()), hexOf(clock.toBytes()), asked, output, ...Object.values(counts)].join());
    return mine === other;
  }

  /** Carries out a command. Returns the line that a script prints for it, or null if none. */
  reply({ name, values }) {
    Object.assign(this, { answers: [], isLost: false, isReadEmpty: false });
    return LINES[name].reply(this, ...values);
  }

  /** Asks for the interrupt `times` times, up to a refusal. Returns whether nothing was refused. */
  ask(times) {
    for (let count = 0; count < times; count += 1) {
      const number = this.asked;
      this.asked += 1;
      if (this.refuses && number < MASKED_CALLS) this.mask |= 1n << BigInt(number);
      const isTaken = ((this.mask >> BigInt(number)) & 1n) === 0n;
      this.answers = [...this.answers, isTaken];
      if (!isTaken) return false;
    }
    return true;
  }

  read(offset) {
    const held = 64 - this.serial.fifoCapacity();
    const done = this.serial.read(offset);
    this.counts.bufferRead += done.bufferRead;
    this.counts.inBufferEmpty += done.inBufferEmpty;
    this.isReadEmpty ||= done.inBufferEmpty;
    if (done.bufferRead && held) {
      this.head = (this.head + 1) % 64;
      this.readOut += String.fromCharCode(done.byte);
    }
    return done.byte;
  }

  write(offset, value) {
    const done = this.serial.write(offset, value);
    if (done.sends) this.send(value);
    const isTaken = this.ask(done.interrupts);
    if (done.interrupts === 2 && !this.answers[0]) this.takeBackThre();
    return isTaken ? (this.isLost ? "io" : "ok") : "trigger";
  }

  /**
   * The device as a value leaves both conditions pending if the first of two calls is refused. The program does not.
   */
  takeBackThre() {
    const state = this.serial.state;
    const interruptIdentification = state.interruptIdentification & ~THRE;
    this.place(Serial.fromState({ ...state, interruptIdentification }));
  }

  place(port) {
    this.serial = port;
    this.head = 0;
  }

  send(value) {
    this.isLost = this.fails || this.output.length === OUTPUT_SIZE;
    if (!this.isLost) this.output += String.fromCharCode(value);
    this.counts[this.isLost ? "txLostByte" : "outByte"] += 1;
  }

  enqueue(bytes) {
    const done = this.serial.enqueue(bytes);
    const isTaken = this.ask(done.interrupts);
    return done.fifoFull ? "full" : isTaken ? hex(done.accepted, 2) : "trigger";
  }

  drain() {
    const drained = [];
    if (!(this.read(3) & 0x80)) while (this.read(5) & 0x01) drained.push(this.read(0));
    return hexOf(drained);
  }

  readClock(now, offset) {
    const done = this.clock.read(offset, now);
    return done.invalidRead ? "invalid" : hex(done.value, 8);
  }

  /** Puts a port in the place of this one, if the line takes its calls. If it does not, they do not count. */
  restore(port) {
    const asked = this.asked;
    if (!this.ask(port.interruptsDue())) {
      this.asked = asked;
      return "trigger";
    }
    this.place(port);
    return "ok";
  }
}

/** What a load replies to bytes: what `use` makes of the device, or why they are no saved state. */
function loaded(device, bytes, use) {
  try {
    return use(device.fromBytes(bytes));
  } catch (error) {
    if (!(error instanceof SavedStateError)) throw error;
    return error.reason === "unknown version" ? `${error.reason} ${hex(bytes[5], 2)}` : error.reason;
  }
}

/**
 * The lines of a script that makes these calls in the program, after the lines `first`, and why there is no such
 * script, as a text that is empty if there is one. A further line that changed nothing is left out. If a further line
 * changed something, or the output refused a byte, no line of the program does the same.
 */
export function programLines(first, calls) {
  const isFurther = ({ command: { name } }) => Object.hasOwn(FURTHER_LINES, name);
  const place = calls.findIndex((call) => call.line.endsWith(" f") ||
    (isFurther(call) && !call.before.isSameAs(call.after)));
  const lines = [...first, ...calls.filter((call) => !isFurther(call)).map(({ line }) => line)];
  const isLong = lines.reduce((sum, line) => sum + line.length + 1, 0) > LONGEST_SCRIPT;
  const fault = place >= 0 ? `call ${place + 1}, ${calls[place].line.slice(0, 24)}, is none of its lines` :
    isLong ? "it takes at most 65,536 bytes" : "";
  return { lines, fault };
}

/**
 * What a board replies to a script of these characters, one for each byte, and how its run ends. `isForProgram` says
 * whether the program runs it, which refuses the further lines.
 */
export function runScript(script, isForProgram = false) {
  if (script.length > LONGEST_SCRIPT) return { replies: [], end: "script too long" };
  const [board, replies] = [new Board(), []];
  const lines = script === "" ? [] : script.replace(/\n$/, "").split("\n");
  for (const [place, line] of lines.entries()) {
    const command = parse(line, place === 0, isForProgram);
    if (!command) return { replies, end: `bad line ${place + 1}` };
    const reply = board.reply(command);
    if (reply !== null) replies.push(reply);
  }
  return { replies, end: "" };
}
