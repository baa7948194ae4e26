// SPDX-License-Identifier: Apache-2.0 OR BSD-3-Clause
/** Recorded boots of a Linux kernel, made again call by call. examples/linux-boot/README.md has their format. */
import { Board, bytesOf, hex, hexOf, parse } from "./board.mjs";

const codesOf = (text) => Array.from(text, (character) => character.charCodeAt(0));
const textOf = (digits) => String.fromCharCode(...bytesOf(digits));

/** The calls that stand for each byte of a text, with their replies. */
const CALLS_OF_BYTES = {
  sent: (byte) => [[`sw 00 ${byte}`, "ok"]],
  polled: (byte) => [["sr 05", "60"], [`sw 00 ${byte}`, "ok"]],
  received: (byte) => [["sr 05", "61"], ["sr 00", byte]],
};

/** The lines that a row stands for, each with its recorded reply. */
function entriesOf(row) {
  const [, kind, quoted, reply] = /^([a-z]+) (".*")(?: {2}(\S+))?$/.exec(row) ?? [];
  if (quoted) {
    const codes = codesOf(JSON.parse(quoted));
    if (kind === "so") return [["so", hexOf(codes)]];
    if (kind === "sq") return [[`sq ${hexOf(codes)}`, reply]];
    return codes.flatMap((code) => CALLS_OF_BYTES[kind](hex(code, 2)));
  }
  const [, count, line, plain] = /^(?:(\d+) )?(\S.*?) {2}(\S.*)$/.exec(row);
  return Array.from({ length: Number(count ?? 1) }, () => [line, plain]);
}

/**
 * What the page says about each recording: before it is played, and from its first call on. The playback stops at the
 * first place of some calls. Each stop has these calls, as lines with or without their replies, what happens there, and
 * the part of docs/GUESTS.md about it.
 */
export const RECORDINGS = {
  boot: {
    calls: 42_839,
    introduction: "An unmodified kernel made 42,839 calls of these devices, recorded on the original. Each is made " +
      "again here, and the replies are compared.",
    beginning: "The kernel prints by polling: it reads LSR, and writes one byte to THR.",
    stops: [
      ["sw 01 0f", "The kernel looks for the port: IER keeps four bits, and the upper two bits of IIR are set. So it " +
        "logs a 16550A.", "the-serial-port"],
      ["kw 04 20", "The kernel looks for a keyboard: it reads the controller's status 10,001 times, and goes on " +
        "without one.", "a-keyboard-that-never-answers"],
      ["sw 01 02", "The kernel opens the port and tests THRE: it enables it twice, and IIR shows it both times. " +
        "From here on one read of LSR serves 16 bytes.", "the-serial-port"],
      ["kw 04 fe", "The recorded kernel has no first program that works. So it panics, as it should, and resets the " +
        "machine through the controller.", "the-controller"],
    ],
  },
  console: {
    calls: 19_299,
    introduction: "An unmodified kernel boots to a shell: typed commands, a paste of 4,096 bytes, an alarm and a " +
      "reset. These 19,299 calls were recorded on the devices here. Each is made again, and the replies are compared.",
    beginning: "The kernel looks for option ROMs in the memory where the clock is, so it reads the clock every 16 " +
      "bytes. Then it prints by polling.",
    stops: [
      ["sw 00 1b", "The shell has printed its prompt. Now it asks the terminal where the cursor is, by ESC [6n, and " +
        "gets no answer.", "the-serial-port"],
      ["sr 00  0a", "The host typed a command. The kernel read its 10 bytes in one interrupt, and its terminal now " +
        "echoes them.", "the-serial-port"],
      ["sq 3031", "The host pastes 4,096 bytes. The FIFO accepted 64 of them and is full, so the monitor keeps the " +
        "others until the guest has read some.", "bytes-that-wait-without-an-interrupt"],
      ["cr 000000006b063b79 0018", "The guest unmasked the alarm, set it, and polled MIS. The alarm is due now: MIS " +
        "reads 1, and the clock's line is up. The guest will clear it.", "the-clock"],
      ["kw 04 fe", "The guest ran reboot: the kernel has read the controller's status, and resets the machine.",
        "the-controller"],
    ],
  },
};

export class Boot {
  /** The lines with their recorded replies. */
  calls = [];
  /** Where each piece begins. A piece begins on a fresh board. */
  starts = [];
  /** What went out before each piece. */
  texts = [];
  /** The bytes that the guest read: how many calls are made after each, and the byte in hexadecimal. */
  reads = [];
  /** The accesses of the clock: how many calls are made after each, and the host's time at it. */
  moments = [];
  /** How many calls were made before each whose reply is not the recorded one. */
  differences = new Set();

  constructor(text, recording) {
    let before = "";
    for (const piece of text.trim().split("\n\n")) {
      this.starts.push(this.calls.length);
      this.texts.push(before);
      const entries = piece.split("\n").flatMap(entriesOf);
      for (const entry of entries) this.add(...entry);
      const output = entries.find(([line]) => line === "so")?.[1] ?? "";
      before += textOf(output);
    }
    this.stops = recording.stops.map(([start, told, heading]) => ({ text: told, heading,
      at: this.calls.findIndex(({ line, reply }) => `${line}  ${reply}`.startsWith(start)) + 1 }));
    this.recording = recording;
    this.begin(0);
  }

  add(line, reply) {
    const at = this.calls.push({ line, reply });
    const [, now] = /^c[rw] (\w+)/.exec(line) ?? [];
    if (now) this.moments.push({ at, now: parseInt(now, 16) });
    if (line !== "sr 00") return;
    const status = this.calls.findLast((call) => call.line === "sr 05")?.reply;
    if (Number(`0x${status}`) & 0x01) this.reads.push({ at, byte: reply });
  }

  /** What went out until now. */
  get text() {
    return this.texts[this.piece] + this.board.output;
  }

  /** What the guest read until now. */
  get readOut() {
    return textOf(this.reads.filter(({ at }) => at <= this.at).map(({ byte }) => byte).join(""));
  }

  /** The host's time at the clock's last access, undefined before the first. */
  get moment() {
    return this.moments.findLast(({ at }) => at <= this.at)?.now;
  }

  /** The last stop until now, undefined before the first. */
  get stop() {
    return this.stops.findLast(({ at }) => at <= this.at);
  }

  begin(piece) {
    this.piece = piece;
    this.board = new Board();
    this.at = this.starts[piece];
    this.last = undefined;
  }

  /** Makes the next call. */
  step() {
    if (this.at === this.starts[this.piece + 1]) this.begin(this.piece + 1);
    const { line, reply: recorded } = this.calls[this.at];
    const before = this.board.clone();
    const command = parse(line);
    const reply = this.board.reply(command);
    if (reply !== recorded) this.differences.add(this.at);
    this.last = { line, command, reply, before, after: this.board };
    this.at += 1;
  }

  /** Goes to the place at which `at` calls are made. */
  seek(at) {
    const piece = Math.max(0, this.starts.findLastIndex((start) => start < at));
    if (at < this.at || piece !== this.piece) this.begin(piece);
    while (this.at < at) this.step();
  }

  /** Makes up to `count` calls. Returns whether it stopped after one that has a caption. */
  play(count) {
    for (let made = 0; made < count && this.at < this.calls.length; made += 1) {
      this.step();
      if (this.stop?.at === this.at) return true;
    }
    return false;
  }

  /** The lines by which a list of calls takes over from here. */
  saved() {
    return [`cl ${hexOf(this.board.clock.toBytes())}`, `sl ${hexOf(this.board.serial.toBytes())}`];
  }
}
