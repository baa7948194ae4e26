// SPDX-License-Identifier: Apache-2.0 OR BSD-3-Clause
/**
 * What the board of the page takes as a line, that its copies are boards of their own, what it makes of calls as a
 * script for the program, where no user can soon get, how a recording is gone through, and what the page writes of
 * calls, of conditions, and of numbers at the edges of their types. tests/page tries the rest.
 */
import assert from "node:assert/strict";
import test from "node:test";
import { Board, LINES, bytesOf, hex, hexOf, parse, programLines, runScript, syntaxOf } from "../../../web/board.mjs";
import { Boot } from "../../../web/boot.mjs";
import { CLOCK, DLAB, SERIAL } from "../registers.mjs";
import { Rtc, Serial } from "../superio.mjs";
import { DEVICES, contentsOf } from "./members.mjs";
import {
  CONDITIONS, dateOf, lineFormat, plural, quoted, ruleOf, short, shownRegisters, storyOf, told,
} from "../../../web/why.mjs";
import { FURTHER_LINES as FURTHER, PROGRAM_LINES } from "../../../web/lines.mjs";

// How many digits each field of a line has, or BYTES for up to 128 bytes, which may be left out. tests/python compares
// what this is made from with what a model of a board takes.
const BYTES = 0;
const SYNTAX = { ...PROGRAM_LINES, ...FURTHER };
const DIGITS = "0123456789abcdefABCDEF";
const MOST = hexOf(Array.from({ length: 128 }, (_, place) => 255 - place));
// All that is no digit: the other bytes, and digits of other scripts.
const OTHERS = [...Array.from({ length: 256 }, (_, code) => String.fromCharCode(code)), "\u0660", "\uff11", "\uff21"]
  .filter((one) => !DIGITS.includes(one));

/** What a field may be, each with its value: at the edges, and with each digit at each place. */
function fieldsOf(digits) {
  if (digits === BYTES) return ["00", "ff", "7F80", MOST.slice(2), MOST].map((text) => [text, bytesOf(text)]);
  const turned = Array.from(DIGITS, (_, place) => (DIGITS + DIGITS).slice(place, place + digits));
  return ["0".repeat(digits), "f".repeat(digits), ...turned]
    .map((text) => [text, digits === 16 ? BigInt(`0x${text}`) : Number(`0x${text}`)]);
}

/** The list with another one at a place. */
const put = (list, place, one) => [...list.slice(0, place), one, ...list.slice(place + 1)];

test("a line is its name and its fields, and nothing else is one", () => {
  assert.deepEqual(Object.keys(LINES).sort(), Object.keys(SYNTAX).sort());
  for (const [name, sizes] of Object.entries(SYNTAX)) {
    const take = (texts, values) => assert.deepEqual(parse([name, ...texts].join(" "), true), { name, values });
    const refuse = (...words) => assert.equal(parse(words.join(" "), true), null, words.join(" "));
    const [texts, values] = [0, 1].map((part) => sizes.map((digits) => fieldsOf(digits)[2][part]));
    take(texts, values);
    if (sizes[0] === BYTES) take([], [new Uint8Array()]);
    else if (sizes.length) refuse(name, ...texts.slice(1));
    for (const wrong of [["", ...texts], [...texts, ""], [...texts, "00"]]) refuse(name, ...wrong);
    for (const wrong of [name.toUpperCase(), ` ${name}`, `${name}\t`, `${name}s`, name.slice(1), "", "constructor"]) {
      refuse(wrong, ...texts);
    }
    for (const [place, digits] of sizes.entries()) {
      for (const [text, value] of fieldsOf(digits)) {
        take(put(texts, place, text), put(values, place, value));
        const long = digits === BYTES ? MOST : text;
        for (const wrong of ["", text.slice(1), `${text}0`, `${long}00`, `0x${text.slice(2)}`, `-${text.slice(1)}`]) {
          refuse(name, ...put(texts, place, wrong));
        }
      }
      for (const [at] of Array.from(texts[place]).entries()) {
        for (const one of OTHERS) refuse(name, ...put(texts, place, put(Array.from(texts[place]), at, one).join("")));
      }
    }
  }
});

test("refuse is for the first line, and the further lines are not for the program", () => {
  for (const [name, sizes] of Object.entries(SYNTAX)) {
    const line = [name, ...sizes.map((digits) => fieldsOf(digits)[0][0])].join(" ");
    const isTaken = (...flags) => parse(line, ...flags) !== null;
    const [isLate, isForProgram] = [name !== "refuse", !(name in FURTHER)];
    assert.deepEqual([[], [false], [false, false], [true], [true, false], [false, true], [true, true]].map(
      (flags) => isTaken(...flags)), [isLate, isLate, isLate, true, true, isLate && isForProgram, isForProgram]);
    const script = `sc\n${line}\n`;
    const ends = [runScript(script), runScript(script, false), runScript(script, true)].map(({ end }) => end);
    assert.deepEqual(ends, [isLate, isLate, isLate && isForProgram].map((isGood) => isGood ? "" : "bad line 2"));
  }
});

test("the syntax of each line in words", () => {
  const digits = (...counts) => counts.map((count) => `${count} hexadecimal digits`).join(", then ");
  const words = new Map([["", "takes nothing."],
    ["2", `takes ${digits(2)}, after one space each.`], ["2,2", `takes ${digits(2, 2)}, after one space each.`],
    ["16,4", `takes ${digits(16, 4)}, after one space each.`],
    ["16,4,8", `takes ${digits(16, 4, 8)}, after one space each.`],
    [`${BYTES}`, "takes up to 128 bytes of two hexadecimal digits, after one space each."],
    ["16", `is for the first line, with ${digits(16)}.`]]);
  const told = Object.entries(SYNTAX).map(([name, sizes]) => [name, `${name} ${words.get(String(sizes))}`]);
  assert.deepEqual(new Set(Object.values(SYNTAX).map(String)), new Set(words.keys()));
  const others = ["", "SR", "s", "srr", "constructor"];
  for (const [name, text] of [...told, ...others.map((it) => [it, `No line of a script begins with "${it}".`])]) {
    for (const rest of ["", " ", " x", " 00 00 00 00"]) assert.equal(syntaxOf(name + rest), text);
  }
});

test("a value of another type is an error, and none that is told as a reply", () => {
  for (const [name, sizes] of Object.entries(SYNTAX).filter(([name]) => name !== "refuse")) {
    const values = sizes.map((digits) => fieldsOf(digits)[0][1]);
    for (const place of values.keys()) {
      assert.throws(() => new Board().reply({ name, values: put(values, place, null) }), TypeError, name);
    }
  }
});

/** What each device of a board shows, and all else that the board has, as plain values. */
function valuesOf(board) {
  const isDevice = ([, value]) => DEVICES.includes(value?.constructor);
  const devices = Object.entries(board).filter(isDevice).map(([name, device]) => [name, contentsOf(device)]);
  return [devices, Object.entries(board).filter((one) => !isDevice(one))].map((rows) =>
    structuredClone(Object.fromEntries(rows)));
}

test("a new board has new devices, has called nothing, and has sent and received nothing", () => {
  const [devices, others] = valuesOf(new Board());
  const fresh = Object.keys(devices).map((name) => [name, contentsOf(new (new Board())[name].constructor())]);
  assert.deepEqual(Object.entries(devices), fresh);
  assert.ok("serial" in devices && "clock" in devices);
  assert.deepEqual(others, {
    mask: 0n, refuses: false, fails: false,
    asked: 0, output: "", counts: { bufferRead: 0, outByte: 0, txLostByte: 0, inBufferEmpty: 0 },
    readOut: "", head: 0, answers: [], isLost: false, isReadEmpty: false,
  });
});

test("what is noted of the last call, and of no earlier one", () => {
  const board = new Board();
  Object.assign(board, { mask: 2n, output: "A".repeat(255) });
  // What the line answered, whether a byte was lost, and whether the FIFO was read empty, or again while it was.
  for (const [line, ...noted] of [["sw 01 03", [true], false, false], ["sr 02", [], false, false],
    ["sw 00 41", [false], false, false], ["sr 00", [], false, true], ["sq 6162", [true], false, false],
    ["sr 00", [], false, false], ["sr 00", [], false, true], ["sw 00 41", [], true, false], ["sr 05", [], false, false],
    ["sq 6162", [true], false, false], ["sd", [], false, true], ["sc", [], false, false]]) {
    board.reply(parse(line));
    assert.deepEqual([board.answers, board.isLost, board.isReadEmpty], noted, line);
  }
});

test("a copy of a board is another one: what is done to either changes nothing of the other", () => {
  const lines = ["sw 01 03", "sq 6162636465", "sr 00", "sw 00 41", "sr 02", "cw 0000000000000005 0008 00000064",
    "cw 0000000000000005 0004 00000066", "sw 07 42", "sw 00 43"];
  const more = { refuse: "ffffffffffffffff", sr: "00", sw: "00 5a", sq: "7a", sl: hexOf(new Board().serial.toBytes()),
    cr: "0000000000000007 0000", cw: "0000000000000009 000c 00000001", kr: "04", kw: "04 fe",
    cl: hexOf(new Board().clock.toBytes()) };
  const made = new Board();
  for (const line of lines) made.reply(parse(line));
  Object.assign(made, { refuses: true, fails: true });
  const kept = valuesOf(made);
  const changed = Object.entries(SYNTAX).filter(([name, sizes]) => {
    const original = made.clone();
    const copy = original.clone();
    const further = copy.clone();
    const texts = sizes.map((digits) => fieldsOf(digits)[1][0]);
    copy.reply(parse([name, more[name] ?? texts].flat().join(" "), true));
    Object.assign(copy, { refuses: false, fails: false });
    for (const board of [original, further]) {
      assert.deepEqual(valuesOf(board), kept);
      assert.ok(board instanceof Board && board.isSameAs(made));
    }
    if (copy.isSameAs(made)) assert.deepEqual(valuesOf(copy)[0], kept[0], name);
    return copy.mask !== made.mask || !copy.isSameAs(made);
  });
  // Of the port, of the clock and of the line. What the lines of other devices change is among their parts.
  const known = changed.map(([name]) => name).filter((name) => /^[scr]/.test(name));
  assert.equal(known.join(" "), "sr sw sq sd ss cr cw refuse si sl cl");
});

test("the place of the oldest byte, and what was read, go on with each byte that the guest reads, and no other", () => {
  const board = new Board();
  const reply = (line) => board.reply(parse(line));
  const isAt = (head, text) => assert.deepEqual([board.head, board.readOut], [head, text]);
  let text = "";
  for (const count of [0, 1, 50, 0, 64, 13, 64]) {
    const bytes = Array.from({ length: count }, (_, place) => (place * 7 + count) & 0xff);
    reply(`sq ${hexOf(bytes)}`.trim());
    for (const offset of [1, 2, 3, 4, 5, 6, 7]) reply(`sr ${hex(offset, 2)}`);
    for (const byte of bytes) {
      isAt(text.length % 64, text);
      assert.equal(reply("sr 00"), hex(byte, 2));
      text += String.fromCharCode(byte);
    }
    // Nothing is held any more, and with DLAB set the divisor is there.
    for (const line of ["sr 00", "sr 00", "sd", "sw 03 80", "sr 00", "sw 03 00"]) {
      reply(line);
      isAt(text.length % 64, text);
    }
  }
  // A new port begins at the first place, and so does one that is left as after one of two calls.
  const saved = hexOf(board.serial.toBytes());
  for (const lines of [["ss"], [`sl ${saved}`], ["sw 01 03"]]) {
    const later = board.clone();
    for (const line of ["sw 01 01", "sq 616263", "sr 00", "sw 01 00", "sr 02"]) later.reply(parse(line));
    assert.deepEqual([later.head, later.readOut], [(text.length + 1) % 64, `${text}a`]);
    later.refuses = true;
    for (const line of lines) later.reply(parse(line));
    assert.deepEqual([later.head, later.readOut], [0, `${text}a`]);
  }
});

test("a script for the program has at most 65,536 bytes", () => {
  const board = new Board();
  const sameOf = (line) => ({ line, command: parse(line), before: board, after: board });
  const mask = "refuse 0000000000000001";
  const calls = [...Array(10_913).fill("kr 04"), "sb", "cw 00000000000003e8 0008 00000064"].map(sameOf);
  const { lines, fault } = programLines([mask], calls);
  const script = lines.map((line) => `${line}\n`).join("");
  assert.deepEqual([fault, lines.length, script.length], ["", 10_915, 65_536]);
  assert.equal(runScript(script, true).end, "");
  assert.equal(programLines([mask, ""], calls).fault, "it takes at most 65,536 bytes");
});

/** A call of a line on a board, as the page makes it. */
function callOf(board, line, isFirst = false) {
  const [before, after, command] = [board, board.clone(), parse(line, isFirst)];
  return { line, command, reply: after.reply(command), before, after };
}

test("the line refuses the first 64 calls, or those of the mask, and no later one", () => {
  const raise = (board) => [board.reply(parse("sr 02")), board.reply(parse("sw 00 41"))][1];
  const single = [0n, 1n, 31n, 32n, 53n, 61n, 62n, 63n].map((bit) => [1n << bit, false]);
  for (const [bits, isRefusing] of [[0n, true], ...single]) {
    const board = new Board();
    Object.assign(board, { mask: bits, refuses: isRefusing });
    board.reply(parse("sw 07 00"));
    const first = board.reply(parse("sw 01 02"));
    const replies = [first, ...Array.from({ length: 130 }, () => raise(board))];
    const refused = replies.flatMap((reply, number) => reply === "trigger" ? [BigInt(number)] : []);
    const mask = isRefusing ? 2n ** 64n - 1n : bits;
    assert.deepEqual(refused, Array.from({ length: 64 }, (_, bit) => BigInt(bit)).filter((bit) => mask >> bit & 1n));
    assert.deepEqual([board.mask, board.asked, board.reply(parse("st"))], [mask, 131, hex(131, 16)]);
    assert.equal(parse(`refuse ${hex(mask, 16)}`, true).values[0], mask);
  }
});

test("each format of characters", () => {
  // By the data sheet: 0x03 is the number of bits less 5, 0x04 two stop bits, 0x08 a parity, and 0x30 which.
  const parities = new Map([[0x08, "O"], [0x18, "E"], [0x28, "M"], [0x38, "S"]]);
  for (let value = 0; value < 256; value += 1) {
    const parity = value & 0x08 ? parities.get(value & 0x38) : "N";
    const format = `${(value & 0x03) + 5}${parity}${value & 0x04 ? "2" : "1"}`;
    assert.equal(lineFormat(value), format);
    const names = [...value & 0x40 ? ["BREAK"] : [], ...value & 0x80 ? ["DLAB"] : []];
    const board = callOf(new Board(), `sw 03 ${hex(value, 2)}`).after;
    assert.equal(told(callOf(board, "sr 03")), `LCR = 0x${hex(value, 2)}  ${[format, ...names].join(" ")}`);
  }
});

test("dates, counts, bytes and lines as the page writes them", () => {
  for (const [seconds, date] of [[0, "1970-01-01 00:00:00"], [951_782_400, "2000-02-29 00:00:00"],
    [2 ** 31 - 1, "2038-01-19 03:14:07"], [2 ** 31, "2038-01-19 03:14:08"], [4_107_542_400, "2100-03-01 00:00:00"],
    [2 ** 32 - 1, "2106-02-07 06:28:15"]]) {
    assert.equal(dateOf(seconds), date);
    const line = `cr ${hex(seconds, 16)} 0000`;
    assert.equal(told(callOf(new Board(), line)), `DR = 0x${hex(seconds, 8)}  ${date} UTC`);
  }
  for (const [count, text] of [[0, "0 bytes"], [1, "1 byte"], [2, "2 bytes"], [999, "999 bytes"],
    [1_000, "1,000 bytes"], [65_536, "65,536 bytes"], [2 ** 31, "2,147,483,648 bytes"],
    [2 ** 32 - 1, "4,294,967,295 bytes"]]) {
    assert.equal(plural(count, "byte"), text);
  }
  for (let byte = 0; byte < 256; byte += 1) {
    assert.equal(quoted(byte), byte > 31 && byte < 127 ? `"${String.fromCharCode(byte)}"` : `0x${hex(byte, 2)}`);
    assert.deepEqual(bytesOf(hexOf(Uint8Array.of(byte, 255 - byte))), Uint8Array.of(byte, 255 - byte));
  }
  for (const [value, digits, text] of [[0, 2, "00"], [255, 2, "ff"], [2 ** 31, 8, "80000000"],
    [2 ** 32 - 1, 8, "ffffffff"], [2n ** 63n, 16, "8000000000000000"], [2n ** 64n - 1n, 16, "f".repeat(16)],
    [2 ** 53 - 1, 16, "001fffffffffffff"]]) {
    assert.equal(hex(value, digits), text);
  }
  assert.deepEqual([short("a".repeat(24), 24), short("a".repeat(25), 24)], ["a".repeat(24), `${"a".repeat(22)}..`]);
});

test("values of the clock and counts of a script, at their edges", () => {
  for (const value of ["00000000", "7fffffff", "80000000", "ffffffff"]) {
    const board = callOf(new Board(), `cw 0000000000000005 0008 ${value}`).after;
    const read = callOf(board, "cr 0000000000000005 0008");
    assert.deepEqual([read.reply, told(read)], [value, `LR = 0x${value}`]);
    assert.equal(callOf(board, "cr 0000000000000005 0000").reply, value);
  }
  for (const [moment, low] of [["00000000ffffffff", "ffffffff"], ["0000000100000000", "00000000"],
    ["7fffffffffffffff", "ffffffff"], ["8000000000000001", "00000001"], ["f".repeat(16), "ffffffff"]]) {
    assert.equal(callOf(new Board(), `cr ${moment} 0000`).reply, low);
  }
  for (const count of [0, 1, 2 ** 31, 2 ** 32 - 1, 2 ** 32, 2 ** 53 - 1]) {
    const board = new Board();
    board.asked = count;
    board.counts = { bufferRead: count, outByte: 1, txLostByte: count, inBufferEmpty: 0 };
    const [text, one, none] = [count, 1, 0].map((it) => hex(it, 16));
    assert.deepEqual(["st", "se"].map((line) => board.reply(parse(line))), [text, [text, one, text, none].join(" ")]);
  }
});

/** The calls of some lines on a board. */
function callsOf(lines, start = new Board()) {
  const calls = [];
  for (const line of lines) calls.push(callOf(calls.at(-1)?.after ?? start, line, !calls.length));
  return calls;
}

/** What some lines lead to: the words for the last of them, its rule, and the heading of that. */
function toldOf(...lines) {
  const call = callsOf(lines).pop();
  return [told(call), ...ruleOf(call)];
}

/** A load of a port that holds a byte, and has these bits of IER and of IIR, whether they fit together or not. */
const savedPort = (interruptEnable, interruptIdentification) => `sl ${hexOf(Serial.fromState({
  ...new Serial().state, interruptEnable, interruptIdentification, lineStatus: 0x61, inBuffer: Uint8Array.of(0x61),
}).toBytes())}`;

test("each access in words, and its rule", () => {
  const kept = "The register shows what was written last.";
  const ignored = "This write is ignored: it succeeds, and changes nothing.";
  const rows = [
    ["sr 00", "RBR = 0x00  no byte was held", "RBR gives the oldest byte, ", "reading-and-writing-data"],
    ["sr 01", "IER = 0x00", kept, "registers"],
    ["sr 02", "IIR = 0xc1  none", "IIR has a bit for each pending condition, ", "interrupts"],
    ["sr 03", "LCR = 0x03  8N1", kept, "registers"],
    ["sr 04", "MCR = 0x08  OUT2", "MCR keeps what was written. Bit 0x10 is loopback.", "registers"],
    ["sr 05", "LSR = 0x60  THRE TEMT", "Bit 0x01 says that a byte is held. ", "registers"],
    ["sr 06", "MSR = 0xb0  CTS DSR DCD", "No access changes MSR. ", "registers"],
    ["sr 07", "SCR = 0x00", kept, "registers"],
    ["sr 08", "offset 0x08 = 0x00", "No register is at this offset: it reads as 0.", "registers"],
    ["sr ff", "offset 0xff = 0x00", "No register is at this offset: it reads as 0.", "registers"],
    ["sw 00 5a", "THR gets 0x5a", "A byte for THR goes to the writer at once. ", "reading-and-writing-data"],
    ["sw 01 05", "IER gets 0x05", "A write to IER raises each condition that holds ", "interrupts"],
    ["sw 02 07", "FCR gets 0x07", ignored, "registers"],
    ["sw 03 01", "LCR gets 0x01", "LCR keeps what was written. ", "registers"],
    ["sw 04 0b", "MCR gets 0x0b", "MCR keeps what was written. Bit 0x10 is loopback: b", "reading-and-writing-data"],
    ["sw 05 61", "LSR gets 0x61", ignored, "registers"],
    ["sw 06 00", "MSR gets 0x00", ignored, "registers"],
    ["sw 07 5a", "SCR gets 0x5a", "The scratch register ", "registers"],
    ["sw 08 5a", "offset 0x08 gets 0x5a", ignored, "registers"],
    ["sw 03 80;sr 00", "DLL = 0x0c", kept, "registers"],
    ["sw 03 80;sr 01", "DLM = 0x00", kept, "registers"],
    ["sw 03 80;sw 00 12", "DLL gets 0x12", "The divisor is kept. ", "registers"],
    ["sw 03 80;sw 01 12", "DLM gets 0x12", "The divisor is kept. ", "registers"],
    ["sw 03 80;sr 02", "IIR = 0xc1  none", "IIR has a bit for each pending condition, ", "interrupts"],
    ["sw 04 18;sw 00 41", "THR gets 0x41", "In loopback a byte for THR is received: ", "reading-and-writing-data"],
    ["sw 04 18;sw 07 41", "SCR gets 0x41", "The scratch register ", "registers"],
    ["sw 04 0f;sw 00 41", "THR gets 0x41", "A byte for THR goes to the writer at once. ", "reading-and-writing-data"],
    ["cr 0000000000000005 0000", "DR = 0x00000005  1970-01-01 00:00:05 UTC", "Guest time is ", "the-clock"],
    ["cr 0000000000000005 0004", "MR = 0x00000000", "A match after guest time sets the alarm. ", "the-alarm"],
    ["cr 0000000000000005 0008", "LR = 0x00000000", "A load makes guest time the value: ", "the-clock"],
    ["cr 0000000000000005 000c", "CR = 0x00000001", "The clock always runs. ", "the-clock"],
    ["cr 0000000000000005 0010", "IMSC = 0x00000000", "The mask keeps bit 0. ", "the-alarm"],
    ["cr 0000000000000005 0014", "RIS = 0x00000000", "Raw interrupt status. Any access first ", "the-alarm"],
    ["cr 0000000000000005 0018", "MIS = 0x00000000", "RIS under the mask, ", "the-alarm"],
    ["cr 0000000000000005 001c", "invalid: nothing can be read at ICR", "The write clears in RIS ", "the-clock"],
    ["cr 0000000000000005 0fe0", "ID0 = 0x00000031", "It names the chip: ", "the-clock"],
    ["cr 0000000000000005 0ffc", "ID7 = 0x000000b1", "It names the chip: ", "the-clock"],
    ["cr 0000000000000005 0021", "invalid: nothing can be read at offset 0x0021", "Nothing is here: ", "the-clock"],
    ["cw 0000000000000005 1000 00000000", "invalid: nothing can be written at offset 0x1000", "Nothing is here: ",
      "the-clock"],
    ["cw 0000000000000005 0000 00000001", "invalid: nothing can be written at DR", "Guest time is ", "the-clock"],
    ["cw 0000000000000005 0008 00000064", "LR gets 0x00000064", "A load makes guest time the value: ", "the-clock"],
    ["cw 0000000000000005 0010 00000001;cr 0000000000000005 0010", "IMSC = 0x00000001  ALARM", "The mask keeps ",
      "the-alarm"],
  ];
  for (const [lines, words, sentence, heading] of rows) {
    const [text, rule, place] = toldOf(...lines.split(";"));
    assert.deepEqual([text, rule.slice(0, sentence.length), place], [words, sentence, heading], lines);
  }
});

/** The bits of a number, the lowest first. */
const bitsOf = (value) => Array.from({ length: 32 }, (_, place) => 2 ** place).filter((bit) => (value & bit) !== 0);

/** The numbers that the rule of the last of some lines says, by what the devices do. Other rules have none. */
function numbersOf() {
  const bit = (register, name) => SERIAL[register].bits.find(([, one]) => one === name)[0];
  const last = (lines) => callsOf(lines.split(";")).pop();
  const LSR = ["sr 05", "sq 61;sr 05", "sw 05 00;sr 05", "sw 00 41;sr 05", "sw 04 10;sw 00 41;sr 05"];
  const shown = LSR.map((lines) => parseInt(last(lines).reply, 16));
  const all = Array.from({ length: 256 }, (_, value) => value);
  const moment = "0000000000000005";
  const loaded = (value) => last(`cw ${moment} 0008 00000064;cw ${moment} 000c ${hex(value, 8)}`).after.clock.state;
  const masked = last(`cw ${moment} 0010 ffffffff`).after.clock.state.imsc;
  const { ris } = last(`cw ${moment} 0004 00000005`).after.clock.state;
  const resets = all.flatMap((offset) => all.map((value) => [value, offset]))
    .filter(([value, offset]) => LINES.kw.reply(null, offset, value) === "reset");
  return new Map([
    ["sr 00", [parseInt(last("sr 00").reply, 16)]], ["sr 08", [parseInt(last("sr 08").reply, 16)]],
    ["sr 05", [bit("LSR", "DR"), ...bitsOf(shown.reduce((first, other) => first & other))]],
    ["sr 04", [bit("MCR", "LOOP")]], ["sw 04 00", [bit("MCR", "LOOP")]],
    ["sw 03 00", [DLAB, SERIAL.DLL.offset, SERIAL.DLM.offset]],
    ["cr 0000000000000005 000c", all.filter((value) => loaded(value).lr === 0)],
    ["cr 0000000000000005 0010", bitsOf(masked).map(Math.log2)],
    ["cr 0000000000000005 0014", bitsOf(ris).map(Math.log2)], ["cr 0000000000000005 0018", bitsOf(ris).map(Math.log2)],
    ["kr 04", [...new Set(all.map((offset) => parseInt(LINES.kr.reply(null, offset), 16)))]],
    ["kw 04 fe", resets.flat()],
  ]);
}

test("the numbers in a rule are those of what the devices do", () => {
  const known = numbersOf();
  const offsets = Array.from({ length: 9 }, (_, offset) => hex(offset, 2));
  const others = Object.entries(SYNTAX).filter(([name]) => !/^[sck][rw]$|^refuse$/.test(name)).map(([name, sizes]) =>
    [name, ...sizes.filter((digits) => digits !== BYTES).map((digits) => "0".repeat(digits))].join(" "));
  const lines = [...known.keys(), ...others, ...offsets.flatMap((offset) => [`sr ${offset}`, `sw ${offset} 00`]),
    "sw 03 80;sw 00 00", "sw 03 80;sw 01 00", "sw 04 10;sw 00 41",
    ...Object.values(CLOCK).map(({ offset }) => `cr 0000000000000005 ${hex(offset, 4)}`)];
  for (const one of lines) {
    const rule = toldOf(...one.split(";"))[1];
    const numbers = Array.from(rule.matchAll(/\b(?:0x[0-9A-Fa-f]+|\d+)\b/g), ([number]) => Number(number));
    assert.deepEqual(numbers, known.get(one) ?? [], `${one}: ${rule}`);
  }
});

test("a rule says which condition a call raises or acknowledges", () => {
  const pending = ({ serial }) => CONDITIONS.filter(([, bit]) => serial.state.interruptIdentification & bit)
    .map(([name]) => name);
  const both = savedPort(3, 6);
  for (const lines of ["sw 01 03;sr 02;sw 00 41", "sw 01 03;sr 02;sw 04 10;sw 00 41", "sw 01 03;sr 02;sq 61",
    "sw 01 01;sq 6161;sr 02;si", `${both};sr 00`, `${both};sr 02`, `${both};sr 05`, `${both};sr 06`, `${both};sr 07`]) {
    const { before, after } = callsOf(lines.split(";")).pop();
    const [is, was] = [pending(after), pending(before)];
    const rule = toldOf(...lines.split(";"))[1];
    const raised = Array.from(rule.matchAll(/raises? (RDA|THRE)|(RDA|THRE) is raised/g), ([, ...one]) => one.join(""));
    const ended = /acknowledges (RDA|THRE|both)/.exec(rule)?.[1] ?? "";
    assert.deepEqual(raised, is.filter((name) => !was.includes(name)), rule);
    assert.deepEqual(ended === "both" ? was : [ended].filter(Boolean), was.filter((name) => !is.includes(name)), rule);
  }
});

test("each bit of a register by its name, and other lines in words", () => {
  for (const [lines, words] of [
    ["sw 01 0f;sr 01", "IER = 0x0f  RDA THRE RLS MS"], ["sw 01 01;sr 01", "IER = 0x01  RDA"],
    ["sw 04 1f;sr 04", "MCR = 0x1f  DTR RTS OUT1 OUT2 LOOP"], ["sw 04 1f;sr 06", "MSR = 0xf0  CTS DSR RI DCD"],
    ["sw 01 03;sq 61;sr 02", "IIR = 0xc6  THRE RDA"], ["sw 01 01;sq 61;sr 02", "IIR = 0xc4  RDA"],
    ["sw 01 02;sr 02", "IIR = 0xc2  THRE"], [`${savedPort(0, 0)};sr 02`, "IIR = 0xc0"],
    ["sq 61;sr 05", "LSR = 0x61  DR THRE TEMT"], ["sw 07 ff;sr 07", "SCR = 0xff"], ["sq 41;sr 00", 'RBR = 0x41  "A"'],
    ["sq 0041;sr 00", "RBR = 0x00  0x00"], ["sq 7f;sr 00", "RBR = 0x7f  0x7f"],
    ["sq 616263", "3 of 3 bytes received"], ["sq", "0 of 0 bytes received"], ["sq 61", "1 of 1 byte received"],
    [`sq ${"61".repeat(63)};sq 6263`, "1 of 2 bytes received"], ["sq 6162;si", "2 bytes held"], ["si", "0 bytes held"],
    ["sq 6162;sd", "6162"], ["sc", "40"], ["kw 04 fe", "reset"], ["kr 04", "00"], ["ss", "ok"], ["sl 00", "too short"],
  ]) {
    assert.equal(toldOf(...lines.split(";"))[0], words, lines);
  }
  const full = Array(257).fill("sw 00 41");
  assert.deepEqual([toldOf(...full.slice(1))[0], toldOf(...full)[0]], ["THR gets 0x41", '"A" is lost']);
});

test("for what a call asked the interrupt line", () => {
  for (const [lines, words] of [["sw 01 01;sq 61", "RDA"], ["sw 01 02", "THRE"], ["sq 61;sw 01 03", "RDA, THRE"],
    ["sw 01 02;sr 02;sw 00 41", "THRE"], ["sw 01 01;sq 61;sr 02;si", "RDA"], ["sw 01 01;sq 61;ss", "RDA"],
    ["sq 61;sw 01 03;ss", "RDA, THRE"], ["sq 61;sw 01 03;sw 01 02;ss", "THRE"], ["sq 61;sw 01 03;sw 01 01;ss", "RDA"],
    [savedPort(3, 6), "RDA, THRE"], [savedPort(2, 6), "THRE"], [savedPort(1, 4), "RDA"],
    [`sw 01 02;sw 01 00;${savedPort(1, 4)}`, "RDA"], [`sw 01 02;${savedPort(3, 6)}`, "RDA, THRE"]]) {
    const ends = (text) => /; interrupt for .*$/.exec(text)?.[0] ?? "";
    assert.equal(ends(toldOf(...lines.split(";"))[0]), `; interrupt for ${words}`, lines);
    // The line takes the calls before, and refuses the first of this line, which then asks for no more, or the last.
    const calls = callsOf(lines.split(";"));
    const { asked } = calls.at(-1).before;
    const all = words.split(", ");
    for (const number of all.keys()) {
      const mask = `refuse ${hex(1n << BigInt(asked + number), 16)}`;
      const seen = [...all.slice(0, number), `${all[number]} refused`].join(", ");
      assert.equal(ends(toldOf(mask, ...lines.split(";"))[0]), `; interrupt for ${seen}`, lines);
    }
  }
  for (const lines of ["sq 61", "sw 01 01", "sw 01 01;sq 61;sq 62", "sw 01 02;sw 00 41", "sw 01 02;sw 01 00;ss", "si",
    savedPort(0, 6), savedPort(3, 1)]) {
    assert.doesNotMatch(toldOf(...lines.split(";"))[0], /interrupt/, lines);
  }
});

test("why a condition is pending or not", () => {
  const takes = "A read of IIR acknowledges it.";
  const waits = "1 byte held: a timeout, the next byte or a write to IER raises it.";
  const sends = "The next byte that goes out raises it, or a write to IER.";
  const rows = [
    ["sr 05", "THRE is not pending: no call has raised it. IER does not enable it."],
    ["sw 01 02", "RDA is not pending: no call has raised it. IER does not enable it."],
    ["sw 01 01", "RDA is not pending: no call has raised it. The next byte raises it."],
    ["sw 01 02", `THRE is pending: call 1, sw 01 02, raised it, and the line took the interrupt. ${takes}`],
    ["refuse 0000000000000001;sw 01 02",
      `THRE is pending: call 2, sw 01 02, raised it, and the line refused the interrupt. ${takes}`],
    ["sw 01 02;sw 01 01",
      "THRE is pending: call 1, sw 01 02, raised it, and the line took the interrupt. IER does not enable it now."],
    ["sw 01 01;sq 61;sr 05", "RDA is pending: call 2, sq 61, raised it, and the line took the interrupt. " +
      "A read of IIR or of RBR acknowledges it."],
    [savedPort(0, 4),
      `RDA is pending: call 1, ${savedPort(0, 4).slice(0, 22)}.., raised it. IER does not enable it now.`],
    ["sw 01 02;sr 02;sr 05", `THRE is not pending: call 2, sr 02, acknowledged it. ${sends}`],
    ["sw 01 02;sr 02;sw 01 00", "THRE is not pending: call 2, sr 02, acknowledged it. IER does not enable it."],
    ["sw 01 01;sq 6162;sr 00", `RDA is not pending: call 3, sr 00, acknowledged it. ${waits}`],
    ["sw 01 01;sq 61;sr 00", "RDA is not pending: call 3, sr 00, acknowledged it. The next byte raises it."],
  ];
  // A list may begin with any board.
  const [{ after: begun }] = callsOf([savedPort(3, 6)]);
  const later = [
    ["", "RDA is pending: it was at the start."], ["sr 05", "THRE is pending: it was at the start."],
    ["sr 02", `RDA is not pending: call 1, sr 02, acknowledged it. ${waits}`],
    ["sr 02", `THRE is not pending: call 1, sr 02, acknowledged it. ${sends}`],
  ].map((row) => [...row, begun]);
  for (const [lines, text, start = new Board()] of [...rows, ...later]) {
    const calls = callsOf(lines.split(";").filter(Boolean), start);
    const stories = CONDITIONS.map((one) => storyOf(one, calls, calls.at(-1)?.after ?? start));
    assert.equal(stories.find((story) => story.startsWith(text.split(" ")[0])), text, lines);
  }
});

test("the registers are shown as the guest would read them, whatever DLAB is, and none is changed by it", () => {
  const lines = ["sw 03 80", "sw 00 34", "sw 01 12", "sw 03 03", "sw 01 05", "sw 07 5a", "sq 6162"];
  const board = callsOf(lines).pop().after;
  const shown = {
    RBR: 0x61, DLL: 0x34, IER: 0x05, DLM: 0x12, IIR: 0xc4, LCR: 0x03, MCR: 0x08, LSR: 0x61, MSR: 0xb0, SCR: 0x5a,
  };
  for (const latch of [0x00, 0x80]) {
    const { after } = callOf(board, `sw 03 ${hex(latch | 0x03, 2)}`);
    const before = valuesOf(after);
    assert.deepEqual(shownRegisters(after), { ...shown, LCR: latch | 0x03 });
    assert.deepEqual(valuesOf(after), before);
  }
});

// A recording, as examples/linux-boot/README.md has its format: two pieces, each row with the calls that it stands for.
const PIECES = [[
  ["sw 01 01  ok", "sw 01 01  ok"],
  ['polled "H\\n"', "sr 05  60", "sw 00 48  ok", "sr 05  60", "sw 00 0a  ok"],
  ["3 sr 05  60", "sr 05  60", "sr 05  60", "sr 05  60"],
  ["cr 0000000065432105 0000  65432105", "cr 0000000065432105 0000  65432105"],
  ['sq "ab\\u00ff\\u00ff\\u0000c"  06', "sq 6162ffff0063  06"],
  ['received "ab"', "sr 05  61", "sr 00  61", "sr 05  61", "sr 00  62"],
  ["sr 05  61", "sr 05  61"],
  ["2 sr 00  ff", "sr 00  ff", "sr 00  ff"],
  ["sr 02  c1", "sr 02  c1"],
  ["sr 00  00", "sr 00  00"],
  ['so "H\\n"', "so  480a"],
], [
  ["sw 07 05  ok", "sw 07 05  ok"],
  ["sr 05  60", "sr 05  60"],
  ["2 sr 00  00", "sr 00  00", "sr 00  00"],
  ["sq 41  01", "sq 41  01"],
  ["cw 000000006543210a 0004 00000064  ok", "cw 000000006543210a 0004 00000064  ok"],
  ['sent "\\u00ff\\"\\\\"', "sw 00 ff  ok", "sw 00 22  ok", "sw 00 5c  ok"],
  ["kw 04 fe  reset", "kw 04 fe  reset"],
  ['so "\\u00ff\\"\\\\"', "so  ff225c"],
  ["st  0000000000000000", "st  0000000000000000"],
]];
const RECORDED = PIECES.map((rows) => rows.map(([row]) => `${row}\n`).join("")).join("\n");
// What is seen of it from a call on: what went out, what the guest read after LSR showed a byte, the host's time at the
// last access of the clock, and the last of the places where the playback stops.
const SHOWN = {
  text: [[0, ""], [3, "H"], [5, "H\n"], [27, "H\n\xff"], [28, 'H\n\xff"'], [29, 'H\n\xff"\\']],
  readOut: [[0, ""], [12, "a"], [14, "ab"], [16, "ab\xff"], [17, "ab\xff\xff"], [19, "ab\xff\xff\0"]],
  moment: [[0, undefined], [9, 0x65432105], [26, 0x6543210a]],
  stop: [[0, undefined], [2, "ready"], [16, "read"], [30, "reset"]],
};
const STOPS = { stops: [["sr 05", "ready", "one"], ["sr 00  ff", "read", "two"], ["kw", "reset", "three"]] };

test("a recording is gone through call by call, to any place", () => {
  const pieces = PIECES.map((rows) => rows.flatMap(([, ...calls]) => calls.map((call) => call.split("  "))));
  const calls = pieces.flat();
  const boot = new Boot(RECORDED, STOPS);
  assert.deepEqual(boot.calls, calls.map(([line, reply]) => ({ line, reply })));
  const check = (at) => {
    const begin = at > pieces[0].length ? pieces[0].length : 0;
    const boards = [new Board(), new Board()];
    for (const [place, board] of boards.entries()) {
      for (const [line] of calls.slice(begin, at - 1 + place)) board.reply(parse(line));
    }
    const { last, stop } = boot;
    assert.deepEqual([boot.at, boot.differences.size, valuesOf(boot.board)], [at, 0, valuesOf(boards[1])]);
    for (const [name, rows] of Object.entries(SHOWN)) {
      const [, shown] = rows.filter(([from]) => from <= at).pop();
      assert.equal(name === "stop" ? stop?.text : boot[name], shown, `${name} after ${at} calls`);
    }
    const [line, reply] = calls[at - 1] ?? [];
    assert.deepEqual(last && [last.line, last.reply, last.command, last.after, valuesOf(last.before)],
      at ? [line, reply, parse(line), boot.board, valuesOf(boards[0])] : undefined);
    const saved = boot.saved().map((it) => parse(it));
    assert.deepEqual(saved.map(({ name }) => name), ["cl", "sl"]);
    const made = new Board();
    for (const it of saved) made.reply(it);
    assert.deepEqual([made.clock.state, made.serial.state], [boot.board.clock.state, boot.board.serial.state]);
  };
  check(0);
  for (const [number] of calls.entries()) {
    boot.step();
    check(number + 1);
  }
  for (let at = calls.length; at >= 0; at -= 1) {
    for (const other of [at, 25, at, 10, at, calls.length, at, 0, at]) {
      boot.seek(other);
      assert.equal(boot.at, other);
    }
    check(at);
  }
});

test("a place is reached from where the recording is, or from the begin of its piece", () => {
  class Counted extends Boot {
    made = 0;

    step() {
      this.made += 1;
      super.step();
    }
  }
  const boot = new Counted(RECORDED, STOPS);
  const made = [0, 3, 3, 9, 20, 20, 21, 30, 26, 32, 5, 25, 0].map((at) => {
    const before = boot.made;
    boot.seek(at);
    return boot.made - before;
  });
  assert.deepEqual(made, [0, 3, 0, 6, 11, 0, 1, 9, 6, 6, 5, 5, 0]);
});

test("a playback stops where something happens, and counts each reply that differs once", () => {
  const boot = new Boot(RECORDED, STOPS);
  const played = [0, 1, 99, 13, 99, 5, 8, 1, 99, 99].map((count) => [boot.play(count), boot.at, boot.stop?.heading]);
  assert.deepEqual(played, [[false, 0, undefined], [false, 1, undefined], [true, 2, "one"], [false, 15, "one"],
    [true, 16, "two"], [false, 21, "two"], [false, 29, "two"], [true, 30, "three"], [false, 32, "three"],
    [false, 32, "three"]]);
  for (const [row, wrong, number] of [["2 sr 00  ff", "2 sr 00  fe", 2], ["kw 04 fe  reset", "kw 04 fe  ok", 1]]) {
    const other = new Boot(RECORDED.replace(row, wrong), STOPS);
    for (const again of [0, 1, 17]) {
      other.seek(again);
      while (other.at < other.calls.length) other.play(99);
      assert.equal(other.differences.size, number);
    }
  }
});
