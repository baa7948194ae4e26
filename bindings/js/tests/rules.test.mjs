// SPDX-License-Identifier: Apache-2.0 OR BSD-3-Clause
/**
 * Each rule that the page shows of a call is true in each of its sentences. FORMS has those that can be tried on the
 * devices, with words left open, and what judges these words: mostly calls for values with each bit alone. WHOLE has
 * the others, in which no word may change. No sentence is outside of both.
 */
import assert from "node:assert/strict";
import { readFileSync } from "node:fs";
import test from "node:test";
import { Board, LINES, bytesOf, hex, hexOf, parse } from "../../../web/board.mjs";
import { FURTHER_LINES, PROGRAM_LINES } from "../../../web/lines.mjs";
import { CONDITIONS, ruleOf, shownRegisters } from "../../../web/why.mjs";
import { CLOCK, DLAB, SERIAL, clockRegister, serialRegister } from "../registers.mjs";
import { Rtc, Serial } from "../superio.mjs";

// Sentences that say why, or name what no device shows.
const WHOLE = ["Drivers find the port by it.", "It names the chip: a driver looks for it.", "Raw interrupt status.",
  "The board tells what it counted."];

const NOW = 2 ** 31;
const LOOP = 0x10;
const BITS = Array.from({ length: 32 }, (_, place) => 2 ** place);
const BYTES = BITS.slice(0, 8);
const ALL = Array.from({ length: 256 }, (_, value) => value);
const OFFSETS = ALL.slice(0, 9);
const NAMES = CONDITIONS.map(([name]) => name);
const [IIR_BITS, IER_BITS] = [1, 2].map((part) => Object.fromEntries(CONDITIONS.map((one) => [one[0], one[part]])));
const SUBSETS = [[], ["RDA"], ["THRE"], ["RDA", "THRE"]];
// The registers by their fields in a state.
const FIELDS = {
  DLL: "baudDivisorLow", DLM: "baudDivisorHigh", IER: "interruptEnable", IIR: "interruptIdentification",
  LCR: "lineControl", LSR: "lineStatus", MCR: "modemControl", MSR: "modemStatus", SCR: "scratch",
  LR: "lr", MR: "mr", IMSC: "imsc", RIS: "ris",
};
// What becomes of a register's value at a write, by the verb of a sentence.
const [toWritten, toBoth, toCleared] = [(_, value) => value, (was, value) => was | value, (was, value) => was & ~value];
const BECOMES = { keeps: toWritten, kept: toWritten, shows: toWritten, sets: toBoth, set: toBoth, raises: toBoth,
  clears: toCleared, cleared: toCleared };
const ACKNOWLEDGED = { RDA: ["RDA"], THRE: ["THRE"], both: NAMES };

/** A call of a line on a copy of a board. */
function call(before, line) {
  const after = before.clone();
  return { before, after, reply: after.reply(parse(line)) };
}

const afterLines = (lines, board = new Board()) => lines.reduce((one, line) => call(one, line).after, board);

/** The board with another port or clock, of which some fields have these values. */
function boardOf(fields, board = new Board()) {
  const made = board.clone();
  const hasPort = Object.keys(fields).some((name) => name in made.serial.state);
  if (hasPort) made.place(Serial.fromState({ ...made.serial.state, ...fields }));
  else made.clock = Rtc.fromState({ ...made.clock.state, ...fields });
  return made;
}

const sumOf = (bits, names) => names.reduce((sum, name) => sum + bits[name], 0);

/** A board whose port has conditions enabled and pending, and holds bytes. */
const portOf = (enabled, waiting, held = "") => boardOf({
  interruptEnable: sumOf(IER_BITS, enabled), interruptIdentification: sumOf(IIR_BITS, waiting) || 0x01,
  lineStatus: held ? 0x61 : 0x60, inBuffer: bytesOf(held),
});

/** Each port of those that a guest can lead to, by what matters to interrupts. */
const PORTS = SUBSETS.flatMap((enabled) => SUBSETS.flatMap((waiting) => ["", "61", "5a6162"].flatMap((held) =>
  waiting.includes("RDA") && !held ? [] : [{ enabled, waiting, held, board: portOf(enabled, waiting, held) }])));

const pending = ({ serial }) => NAMES.filter((name) => serial.state.interruptIdentification & IIR_BITS[name]);
const raised = ({ before, after }) => pending(after).filter((name) => !pending(before).includes(name));
const ended = ({ before, after }) => pending(before).filter((name) => !pending(after).includes(name));
const clockLine = (name, offset, ...value) => [name, hex(NOW, 16), hex(offset, 4), ...value].join(" ");

/** A write to a register by its name, which leaves DLAB as it lets the register be reached. */
function write(board, name, value) {
  if (name in CLOCK) return call(board, clockLine("cw", CLOCK[name].offset, hex(value >>> 0, 8)));
  const { offset, latched, access } = SERIAL[name];
  assert.match(access, /w/, `nothing is written to ${name}`);
  const latch = latched === null ? board : afterLines([`sw 03 ${latched ? "83" : "03"}`], board);
  return call(latch, `sw ${hex(offset, 2)} ${hex(value & 0xff, 2)}`);
}

/** What a guest reads of a register. */
function shown(board, name) {
  if (!(name in CLOCK)) return shownRegisters(board)[name];
  return parseInt(call(board, clockLine("cr", CLOCK[name].offset)).reply, 16);
}

/** Where a byte went that a guest wrote. */
function wayOf({ before, after }, byte) {
  const [isOut, isHeld] = [after.output === before.output + String.fromCharCode(byte),
    hexOf(after.serial.state.inBuffer) === hexOf(before.serial.state.inBuffer) + hex(byte, 2)];
  return [isOut && "writer", isHeld && "FIFO"].filter(Boolean).join();
}

const registersOf = (places) => [...new Set(places.map(({ register }) => register?.name))];

/** Judges what registers have after a write, by a verb, if they keep these bits. */
function judgeWrites(names, verb, kept = () => 0xff) {
  for (const name of names) {
    for (const was of [0, -1]) {
      const { after: before } = write(new Board(), name, was);
      for (const value of BITS.flatMap((bit) => [bit, ~bit])) {
        const becomes = BECOMES[verb](shown(before, name), value) & kept(name);
        assert.equal(shown(write(before, name, value).after, name), becomes >>> 0, `${name} after ${value}`);
      }
    }
  }
}

// Of IER there are only the bits that have names.
const bitsKept = (name) => name === "IER" ? SERIAL.IER.bits.reduce((sum, [bit]) => sum | bit, 0) : 0xff;

const OF_WRITES = [
  [/^([A-Z]{3}|The scratch register) (keeps|sets|clears) what was written\.$/, ([object, verb], { places }) => {
    assert.deepEqual(registersOf(places), [object.length === 3 ? object : "SCR"]);
    judgeWrites(registersOf(places), verb);
  }],
  [/^The divisor is (kept|set|cleared)\.$/, ([verb], { places }) => {
    assert.ok(registersOf(places).every((name) => ["DLL", "DLM"].includes(name)));
    judgeWrites(registersOf(places), verb);
  }],
  [/^The register (shows|sets|clears) what was written last\.$/, ([verb], { places }) =>
    judgeWrites(registersOf(places), verb, bitsKept)],
  [/^The mask (keeps|sets|clears) bit (\d+)\.$/, ([verb, bit], { places }) => {
    assert.deepEqual(registersOf(places), ["IMSC"]);
    judgeWrites(["IMSC"], verb, () => 2 ** bit);
  }],
  [/^The write (sets|clears) in ([A-Z]+) the bits that the value has( not)?\.$/, ([verb, object, not], { places }) => {
    for (const name of registersOf(places)) {
      for (const was of [0, 2 ** 32 - 1]) {
        const before = boardOf({ lr: was, mr: was, imsc: was, ris: was });
        for (const value of BITS.flatMap((bit) => [bit, ~bit >>> 0])) {
          const becomes = BECOMES[verb](was, not ? ~value : value) >>> 0;
          const { state } = write(before, name, value).after.clock;
          assert.deepEqual(state, { ...before.clock.state, [FIELDS[object]]: becomes });
        }
      }
    }
  }],
  [/^This write is ignored: it succeeds, and changes nothing\.$/, (_, { places }) => {
    for (const { begun, values: [offset] } of places) {
      for (const value of BYTES) {
        const made = call(begun, `sw ${hex(offset, 2)} ${hex(value, 2)}`);
        assert.ok(made.reply === "ok" && made.after.isSameAs(begun), `offset ${offset}`);
      }
    }
  }],
  [/^It has no effect: a byte takes no time\.$/, (_, { places }) => {
    for (const name of registersOf(places)) {
      for (const value of BYTES) {
        const { before, after } = write(new Board(), name, value);
        assert.deepEqual(after.serial.state, { ...before.serial.state, [FIELDS[name]]: value });
        assert.equal(wayOf(write(after, "THR", value), value), "writer");
      }
    }
  }],
  [/^No access changes ([A-Z]{3})\.$/, ([object], { places }) => {
    assert.deepEqual(registersOf(places), [object]);
    const boards = [0, LOOP].flatMap((loop) => [0, DLAB].map((latch) => boardOf({ modemControl: loop,
      lineControl: latch, interruptEnable: 3, lineStatus: 0x61, inBuffer: Uint8Array.of(0x61) })));
    for (const board of boards) {
      for (const offset of OFFSETS) {
        for (const line of [`sr ${hex(offset, 2)}`, ...BYTES.map((bit) => `sw ${hex(offset, 2)} ${hex(bit, 2)}`)]) {
          assert.equal(call(board, line).after.serial.state[FIELDS[object]], board.serial.state[FIELDS[object]], line);
        }
      }
    }
  }],
  [/^In loopback it shows the outputs of ([A-Z]{3})\.$/, ([object], { places }) => {
    const inputs = { DTR: "DSR", RTS: "CTS", OUT1: "RI", OUT2: "DCD" };
    const namesOf = (name, value) => SERIAL[name].bits.filter(([bit]) => value & bit).map(([, one]) => one).sort();
    for (const name of registersOf(places)) {
      const seen = BYTES.flatMap((value) => {
        const { after } = write(afterLines([`sw 04 ${hex(LOOP, 2)}`]), object, value | LOOP);
        const outputs = namesOf(object, value).flatMap((one) => inputs[one] ?? []);
        assert.deepEqual(namesOf(name, shown(after, name)), outputs);
        return outputs;
      });
      assert.deepEqual(seen.sort(), Object.values(inputs).sort());
    }
  }],
  [/^No register is at this offset: it reads as (\d+)\.$/, ([number], { places }) => {
    for (const { begun, values: [offset] } of places) {
      const lines = BYTES.map((bit) => `sw ${hex(offset, 2)} ${hex(bit, 2)}`);
      assert.equal(parseInt(call(afterLines(lines, begun), `sr ${hex(offset, 2)}`).reply, 16), Number(number));
    }
  }],
];

/** Judges that a byte that is written to a register takes a way, and which conditions it raises. */
function judgeByte(object, way, conditions, board) {
  for (const value of BYTES) {
    const made = write(board, object, value);
    assert.deepEqual([wayOf(made, value), raised(made)], [way, conditions]);
  }
}

// What lets bytes that wait be noticed, as a call.
const NOTICED = { "another byte arrives": "sq 61", "IER is written": "sw 01 03",
  "the monitor makes a character timeout": "si" };
const looped = (board) => boardOf({ modemControl: LOOP }, board);

const OF_BYTES = [
  [/^RBR gives the (oldest|newest) byte, or (\d+) if none is held\.$/, ([which, none]) => {
    for (const place of BYTES.keys()) {
      const bytes = [...BYTES.slice(place), ...BYTES.slice(0, place)];
      const { reply } = call(afterLines([`sq ${hexOf(bytes)}`]), "sr 00");
      assert.equal(parseInt(reply, 16), which === "oldest" ? bytes[0] : bytes.at(-1));
    }
    assert.equal(parseInt(call(new Board(), "sr 00").reply, 16), Number(none));
  }],
  [/^The read acknowledges (RDA|THRE|both), even if bytes are left: they wait until (.*)\.$/, ([name, until]) => {
    const made = call(portOf(NAMES, NAMES, "6162"), "sr 00");
    assert.deepEqual(ended(made), ACKNOWLEDGED[name]);
    const lines = ["sq 61", "si", "kr 04", ...OFFSETS.flatMap((offset) => [`sr ${hex(offset, 2)}`,
      `sw ${hex(offset, 2)} 03`])];
    const raising = lines.filter((line) => raised(call(made.after, line)).includes("RDA"));
    assert.deepEqual(until.split(/, (?:or )?/).map((event) => NOTICED[event]).sort(), raising.sort());
  }],
  [/^Bit (0x\w\w) says that a byte is held\.$/, ([bit], { places }) => {
    for (const name of registersOf(places)) {
      for (const count of ALL.slice(0, 65)) {
        const isSet = (shown(afterLines([`sq ${"00".repeat(count)}`.trim()]), name) & bit) !== 0;
        assert.equal(isSet, count > 0);
      }
    }
  }],
  [/^(0x\w\w) and (0x\w\w) are always (set|clear): each byte is sent at once\.$/, ([one, other, state], { places }) => {
    const writable = Object.keys(SERIAL).filter((name) => SERIAL[name].access.includes("w"));
    const boards = [...PORTS.map(({ board }) => board),
      ...writable.flatMap((name) => BYTES.map((bit) => write(new Board(), name, bit).after))];
    const values = boards.map((board) => shown(board, registersOf(places)[0]));
    const always = state === "set" ? values.reduce((all, value) => all & value) :
      ~values.reduce((all, value) => all | value) & 0xff;
    assert.equal(always, one | other);
    judgeByte("THR", "writer", [], new Board());
  }],
  [/^Bit (0x\w\w) is loopback(?:: bytes for ([A-Z]{3}) then come back into the (FIFO|writer))?\.$/,
    ([bit, object = "THR", way = "FIFO"], { places }) => {
      for (const value of BYTES) {
        const { after } = write(new Board(), registersOf(places)[0], value);
        judgeByte(object, value === Number(bit) ? way : "writer", [], after);
      }
    }],
  [/^A byte for ([A-Z]{3}) goes to the (writer|FIFO) at once\.$/, ([object, way], { places }) => {
    assert.deepEqual(registersOf(places), [object]);
    judgeByte(object, way, [], new Board());
  }],
  [/^In loopback a byte for ([A-Z]{3}) is received: it goes into the (FIFO|writer), and raises (RDA|THRE)\.$/,
    ([object, way, condition], { places }) => {
      assert.deepEqual(registersOf(places), [object]);
      judgeByte(object, way, [condition], looped(portOf(NAMES, [])));
    }],
  [/^Bit (0x\w\w), ([A-Z]+), puts the divisor at offsets (\d) and (\d)\.$/, ([bit, name, ...offsets], { places }) => {
    const [register] = registersOf(places);
    const divisor = ({ after: { serial: { state } } }) => [state.baudDivisorLow, state.baudDivisorHigh].join();
    const reached = BYTES.flatMap((value) => OFFSETS.filter((offset) => {
      const { after } = write(new Board(), register, value);
      return divisor({ after }) !== divisor(call(after, `sw ${hex(offset, 2)} 55`));
    }).map((offset) => [value, offset]));
    assert.deepEqual(reached, offsets.map((offset) => [Number(bit), Number(offset)]));
    assert.deepEqual(SERIAL[register].bits.find(([, one]) => one === name)?.[0], Number(bit));
  }],
];

/** Judges for what the restore of each port asks. */
function judgeRestore(restore) {
  for (const { enabled, waiting, board } of PORTS) {
    const { before, after } = restore(board);
    const due = waiting.filter((name) => enabled.includes(name)).length;
    assert.deepEqual([after.asked - before.asked, after.answers.length], [due, due]);
  }
}

const saved = (board) => hexOf(board.serial.toBytes());

const OF_INTERRUPTS = [
  [/^IIR has a bit for each pending condition, and the read acknowledges (RDA|THRE|both)\.$/, ([name], { places }) => {
    for (const { begun: { serial: { state: { modemControl, lineControl } } } } of places) {
      for (const { enabled, held } of PORTS) {
        const lines = [`sq ${held}`.trim(), `sw 01 ${hex(sumOf(IER_BITS, enabled), 2)}`];
        const now = enabled.filter((one) => one === "THRE" || held);
        const made = call(boardOf({ modemControl, lineControl }, afterLines(lines)), "sr 02");
        assert.equal(parseInt(made.reply, 16) & ~0xc0, sumOf(IIR_BITS, now) || 0x01);
        assert.deepEqual(ended(made), now.filter((one) => ACKNOWLEDGED[name].includes(one)));
      }
    }
  }],
  [/^Then (RDA|THRE) is raised, whatever becomes of the byte\.$/, ([name]) => {
    for (const changes of [{}, { fails: true }, { output: "A".repeat(256) }]) {
      const board = Object.assign(portOf(NAMES, []), changes);
      for (const value of BYTES) assert.deepEqual(raised(write(board, "THR", value)), [name]);
    }
  }],
  [/^A write to (\w+) raises each condition that holds and is enabled: (\w+) if bytes are held, and (\w+) always\.$/,
    ([object, ifHeld, always]) => {
      for (const { held } of PORTS) {
        for (const value of ALL.slice(0, 16)) {
          const holding = [...held ? [ifHeld] : [], always].filter((name) => value & IER_BITS[name]);
          assert.deepEqual(raised(write(portOf([], [], held), object, value)).sort(), holding.sort());
        }
      }
    }],
  [/^It (never|always) withdraws one that is pending\.$/, ([when], { places }) => {
    for (const { board } of PORTS) {
      for (const value of [0, ...BYTES]) {
        const made = write(board, registersOf(places)[0], value);
        assert.deepEqual(ended(made), when === "never" ? [] : pending(board));
      }
    }
  }],
  [/^Bytes arrive for the guest: as many of the (first|last) as fit, and in loopback none\.$/, ([which]) => {
    for (const held of ALL.slice(0, 65)) {
      for (const count of [1, 2, 63, 64, 65, 128]) {
        const [board, bytes] = [afterLines([`sq ${"00".repeat(held)}`.trim()]), hexOf(ALL.slice(1, count + 1))];
        const room = 2 * Math.min(count, 64 - held);
        const taken = which === "first" ? bytes.slice(0, room) : bytes.slice(bytes.length - room);
        const { after } = call(board, `sq ${bytes}`);
        assert.equal(hexOf(after.serial.state.inBuffer), "00".repeat(held) + taken);
        assert.ok(call(looped(board), `sq ${bytes}`).after.isSameAs(looped(board)));
      }
    }
  }],
  [/^They raise (RDA|THRE)\.$/, ([name]) => {
    for (const bit of BYTES) assert.deepEqual(raised(call(portOf(NAMES, []), `sq ${hex(bit, 2)}`)), [name]);
  }],
  [/^The guest's driver reads ([A-Z]{3}) while ([A-Z]{3}) shows data ready\.$/, ([data, status]) => {
    assert.match(SERIAL[data].access, /r/);
    for (const { board } of PORTS) {
      let guest = board;
      const bytes = [];
      while (shown(guest, status) & 0x01 && bytes.length < 99) {
        const read = call(guest, `sr ${hex(SERIAL[data].offset, 2)}`);
        bytes.push(read.reply);
        guest = read.after;
      }
      const made = call(board, "sd");
      assert.ok(made.reply === bytes.join("") && made.after.isSameAs(guest));
    }
  }],
  [/^A character timeout raises (RDA|THRE) again for bytes that are held, if IER enables it and it is not pending\.$/,
    ([name]) => {
      for (const { enabled, waiting, held, board } of PORTS) {
        const isRaised = held && enabled.includes(name) && !waiting.includes(name);
        const made = call(board, "si");
        assert.deepEqual([raised(made), made.after.asked], isRaised ? [[name], 1] : [[], 0]);
      }
    }],
  [/^A restore asks for the interrupt once for each condition that is pending and enabled\.$/, () =>
    judgeRestore((board) => call(board, "ss"))],
  [/^The restore then asks for each condition that is pending and enabled\.$/, () =>
    judgeRestore((board) => call(new Board(), `sl ${saved(board)}`))],
  [/^If that is refused, the (old|new) port stays\.$/, ([which]) => {
    for (const { board } of PORTS) {
      const other = portOf(NAMES, NAMES, "7a");
      const refusing = Object.assign(board.clone(), { refuses: true });
      const { after, reply } = call(refusing, `sl ${saved(other)}`);
      assert.deepEqual([reply, saved(after)], ["trigger", saved(which === "old" ? board : other)]);
    }
  }],
];

/** The fields of a new device's state, each with values that differ from its own in one bit. */
const changesOf = (state) => Object.entries(state).flatMap(([field, value]) => ArrayBuffer.isView(value) ?
  [[field, Uint8Array.of(0x5a)]] : typeof value === "boolean" ? [[field, !value]] :
    typeof value === "bigint" ? BITS.map((bit) => [field, value ^ BigInt(bit)]) :
      BITS.map((bit) => [field, (value ^ bit) >>> 0]));
const changesOfPort = changesOf(new Serial().state).filter(([, value]) => !(value > 0xff));
// The parts of a clock as a sentence names them, with their fields.
const PARTS = { "its registers": ["lr", "mr", "imsc", "ris"], "its offset": ["offset"], "its alarm": ["armed"] };

const OF_STATES = [
  [/^A port is saved as its (nine|eight|ten) registers and the held bytes\.$/, ([count]) => {
    const fresh = call(new Board(), "sb").reply;
    const changed = changesOfPort.filter(([field, value]) => call(boardOf({ [field]: value }), "sb").reply !== fresh);
    const fields = new Set(changed.map(([field]) => field));
    assert.deepEqual([changed.length, fields.delete("inBuffer")], [changesOfPort.length, true]);
    assert.equal(fields.size, { eight: 8, nine: 9, ten: 10 }[count]);
  }],
  [/^No byte that the guest has read is in it\.$/, () => {
    for (const bit of BYTES) {
      const { after } = call(afterLines([`sq ${hex(bit, 2)}5a`]), "sr 00");
      assert.equal(call(after, "sb").reply, call(afterLines(["sq 5a"]), "sb").reply);
    }
  }],
  [/^A saved state is taken unchanged\.$/, () => {
    for (const [field, value] of changesOfPort) {
      const board = boardOf({ [field]: value });
      assert.deepEqual(afterLines([`sl ${saved(board)}`]).serial.state, board.serial.state);
    }
  }],
  [/^A clock is saved as (.*)\.$/, ([parts]) => {
    const [fresh, changes] = [call(new Board(), "cb").reply, changesOf(new Rtc().state)];
    const kept = changes.filter(([field, value]) => call(boardOf({ [field]: value }), "cb").reply !== fresh);
    assert.equal(kept.length, changes.length);
    const said = parts.split(/, | and /).flatMap((part) => PARTS[part] ?? part);
    assert.deepEqual([...new Set(kept.map(([field]) => field))].sort(), said.sort());
  }],
  [/^Any numbers may be restored, and reads show them\.$/, () => {
    for (const [field, value] of changesOf(new Rtc().state)) {
      const after = afterLines([`cl ${hexOf(boardOf({ [field]: value }).clock.toBytes())}`]);
      assert.deepEqual(after.clock.state[field], value);
      const name = Object.keys(CLOCK).find((one) => FIELDS[one] === field);
      if (name) assert.equal(shown(after, name), value);
    }
  }],
  [/^Every read of the controller gives (\d+)\.$/, ([number]) => {
    for (const offset of ALL) {
      assert.equal(parseInt(call(new Board(), `kr ${hex(offset, 2)}`).reply, 16), Number(number));
    }
  }],
  [/^(0x\w\w) at offset (\d) resets the machine\.$/, ([value, offset]) => {
    const resets = ALL.flatMap((place) => ALL.map((one) => [one, place]))
      .filter(([one, place]) => LINES.kw.reply(null, place, one) === "reset");
    assert.deepEqual(resets, [[Number(value), Number(offset)]]);
  }],
  [/^Any other write has no effect\.$/, () => {
    for (const bit of [0, ...BYTES]) {
      for (const offset of ALL) {
        const made = call(new Board(), `kw ${hex(offset, 2)} ${hex(bit, 2)}`);
        assert.ok(made.reply === "ok" && made.after.isSameAs(made.before));
      }
    }
  }],
];

const readAt = (board, now) => parseInt(call(board, `cr ${hex(now, 16)} 0000`).reply, 16);
// Whether a match that is so many seconds after guest time is as a sentence says.
const MATCHES = { after: (seconds) => seconds > 0, before: (seconds) => seconds < 0, of: (seconds) => seconds === 0 };
const DISTANCES = [0, ...BITS.slice(0, 31).flatMap((bit) => [bit, -bit])];

const OF_CLOCK = [
  [/^Any access first finds an alarm that is due, and (raises|clears) bit (\d+) of ([A-Z]+)\.$/,
    ([verb, place, object]) => {
      const field = FIELDS[object];
      for (const was of [0, 2 ** 32 - 1]) {
        for (const [match, isDue] of [[NOW, true], [NOW - 1, true], [NOW + 1, false]]) {
          const board = boardOf({ armed: true, mr: match, ris: was });
          const becomes = isDue ? BECOMES[verb](was, 2 ** place) >>> 0 : was;
          for (const offset of [...Object.values(CLOCK).map((one) => one.offset), 0x20, 0xffff]) {
            for (const line of [clockLine("cr", offset), clockLine("cw", offset, "00000000")]) {
              assert.equal(call(board, line).after.clock.state[field], becomes, line);
            }
          }
          // First: a write that clears it does so after that.
          const { after } = write(board, "ICR", 2 ** place);
          assert.equal(after.clock.state.ris, (was & ~(2 ** place)) >>> 0);
        }
      }
    }],
  [/^Guest time is the host's time (plus|less) the clock's offset\.$/, ([sign]) => {
    for (const seconds of DISTANCES) {
      assert.equal(readAt(boardOf({ offset: BigInt(seconds) }), NOW), sign === "plus" ? NOW + seconds : NOW - seconds);
    }
  }],
  [/^A match (after|before|of) guest time(?: itself)? (sets the alarm|raises the interrupt at once)\.$/,
    ([when, effect], { places }) => {
      for (const seconds of DISTANCES) {
        const { state } = write(new Board(), registersOf(places)[0], NOW + seconds).after.clock;
        const isSo = effect === "sets the alarm" ? state.armed : state.ris === 1;
        assert.equal(isSo, MATCHES[when](seconds), `${seconds}`);
      }
    }],
  [/^A load makes guest time the value: the offset becomes the value (less|plus) the host's time\.$/,
    ([sign], { places }) => {
      for (const value of [0, ...BITS]) {
        const { after } = write(new Board(), registersOf(places)[0], value);
        assert.equal(readAt(after, NOW), value);
        assert.equal(after.clock.state.offset, BigInt(sign === "less" ? value - NOW : value + NOW));
      }
    }],
  [/^The clock always runs\.$/, (_, { places }) => {
    for (const value of [0, ...BITS]) {
      const { after } = write(boardOf({ offset: -5n }), registersOf(places)[0], value);
      for (const bit of BITS.slice(0, 31)) assert.equal(readAt(after, NOW + bit) - readAt(after, NOW), bit);
      assert.equal(shown(after, registersOf(places)[0]), 1);
    }
  }],
  [/^A write of (\d+) resets it, and guest time is the host's again\.$/, ([number], { places }) => {
    for (const value of [0, ...BITS]) {
      const before = boardOf({ offset: -5n, lr: 7 });
      const { after } = write(before, registersOf(places)[0], value);
      const { offset, lr } = value === Number(number) ? new Rtc().state : before.clock.state;
      assert.deepEqual(after.clock.state, { ...before.clock.state, offset, lr });
      assert.equal(readAt(after, NOW) === NOW, value === Number(number));
    }
  }],
  [/^The interrupt line is up while ([A-Z]+) and the mask have it\.$/, ([object], { rule }) => {
    const [, place] = /bit (\d+)/.exec(rule);
    for (const one of BITS) {
      for (const imsc of BITS) {
        const isUp = one === 2 ** place && imsc === one;
        assert.equal(boardOf({ [FIELDS[object]]: one, imsc }).clock.interruptLine(), isUp);
      }
    }
  }],
  [/^([A-Z]+) under the mask, as the interrupt line shows\.$/, ([object], { places }) => {
    for (const one of BITS) {
      for (const imsc of BITS.flatMap((bit) => [bit, ~bit >>> 0])) {
        const board = boardOf({ [FIELDS[object]]: one, imsc });
        const value = shown(board, registersOf(places)[0]);
        assert.deepEqual([value, board.clock.interruptLine()], [(one & imsc) >>> 0, (value & 1) !== 0]);
      }
    }
  }],
  [/^Nothing is here: the access is invalid\.$/, (_, { places }) => {
    for (const { name, values } of places) {
      const made = call(new Board(), [name, hex(values[0], 16), hex(values[1], 4),
        ...values.slice(2).map((value) => hex(value, 8))].join(" "));
      assert.ok(made.reply === "invalid" && made.after.isSameAs(made.before), `${values[1]}`);
    }
  }],
];

const FORMS = [...OF_WRITES, ...OF_BYTES, ...OF_INTERRUPTS, ...OF_STATES, ...OF_CLOCK];

/** The calls at which the page can show a rule, each with the board before it and the register that it reaches. */
function* placesOf() {
  const begun = [0, LOOP].flatMap((loop) => [0x03, DLAB | 0x03].map((lcr) =>
    boardOf({ modemControl: loop, lineControl: lcr })));
  for (const board of begun) {
    for (const offset of ALL) {
      const register = (isWrite) => serialRegister(offset, board.serial.state.lineControl, isWrite);
      yield { name: "sr", values: [offset], begun: board, register: register(false) };
      yield { name: "sw", values: [offset, 0], begun: board, register: register(true) };
    }
  }
  for (const offset of [...Array(0x1100).keys(), 0x2000, 0x4000, 0x8000, 0xffff]) {
    const register = clockRegister(offset);
    yield { name: "cr", values: [NOW, offset], begun: begun[0], register };
    yield { name: "cw", values: [NOW, offset, 0], begun: begun[0], register };
  }
  for (const [name, sizes] of Object.entries({ ...PROGRAM_LINES, ...FURTHER_LINES })) {
    if (!/^[sc][rw]$/.test(name)) yield { name, values: sizes.map(() => 0), begun: begun[0] };
  }
}

/** Each rule that the page shows, with its places. */
function shownRules() {
  const rules = new Map();
  for (const { name, values, ...place } of placesOf()) {
    const [rule] = ruleOf({ command: { name, values }, before: place.begun });
    if (!rules.has(rule)) rules.set(rule, []);
    rules.get(rule).push({ name, values, ...place });
  }
  return rules;
}

/** The rules as the sources have them: a text, of pieces and of sentences that several rules share, and a heading. */
function writtenRules() {
  const source = ["why", "board"].map((name) =>
    readFileSync(new URL(`../../../web/${name}.mjs`, import.meta.url), "utf8")).join("");
  const shared = Object.fromEntries(Array.from(source.matchAll(/^const (\w+) = "([^"]*)";$/gm), ([, ...one]) => one));
  const rules = source.matchAll(/\[((?:"[^"]*"|`[^`]*`)(?: \+\s+"[^"]*")*),\s+"[a-z0-9-]+"\]/g);
  return new Set(Array.from(rules, ([, text]) => Array.from(text.matchAll(/["`]([^"`]*)["`]/g), ([, piece]) => piece)
    .join("").replace(/\$\{(\w+)\}/g, (_, name) => shared[name])));
}

const RULES = shownRules();
const sentencesOf = (rule) => rule.split(/(?<=\.) (?=[A-Z0-9])/);

test("each rule of the sources is shown at a call, and no other", () => {
  assert.deepEqual([...RULES.keys()].sort(), [...writtenRules()].sort());
});

test("each sentence of a rule has what judges it, or stands here as a whole", () => {
  const used = new Set();
  for (const sentence of Array.from(RULES.keys(), sentencesOf).flat()) {
    const judges = [...FORMS.filter(([form]) => form.test(sentence)), ...WHOLE.filter((one) => one === sentence)];
    assert.equal(judges.length, 1, `nothing, or more than one, judges this sentence: ${sentence}`);
    used.add(judges[0]);
  }
  assert.equal(used.size, FORMS.length + WHOLE.length, "a form or a sentence here is in no rule");
});

for (const [rule, places] of RULES) {
  for (const sentence of sentencesOf(rule)) {
    for (const [form, judge] of FORMS.filter(([one]) => one.test(sentence))) {
      test(`the devices do what a rule says: ${sentence}`, () => judge(form.exec(sentence).slice(1), { rule, places }));
    }
  }
}
