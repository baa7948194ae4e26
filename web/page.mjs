// SPDX-License-Identifier: Apache-2.0 OR BSD-3-Clause
/** The page: what it shows of a board, and which call each control makes. */
import { CLOCK, DLAB, SERIAL, isThere, serialRegister } from "../bindings/js/registers.mjs";
import { Board, LINES, hex, hexOf, parse, programLines, runScript, syntaxOf } from "./board.mjs";
import { Boot, RECORDINGS } from "./boot.mjs";
import {
  CONDITIONS, dateOf, lineFormat, plural, quoted, ruleOf, short, shownRegisters, storyOf, told,
} from "./why.mjs";

const id = (name) => document.getElementById(name);

/** An element with attributes and contents. */
function element(name, attributes = {}, ...contents) {
  const made = document.createElement(name);
  for (const [key, value] of Object.entries(attributes)) made.setAttribute(key, value);
  made.append(...contents);
  return made;
}

/** Sets a text, if it is another: what a screen reader follows is told once. */
function say(name, text) {
  if (id(name).textContent !== text) id(name).textContent = text;
}

/** The calls that a user made. A board is a value, so the board after each call is kept, and time goes both ways. */
class List {
  calls = [];
  at = 0;
  start = new Board();

  get last() { return this.calls[this.at - 1]; }
  get board() { return this.last?.after ?? this.start; }
  seek(at) { this.at = at; }
}

const state = {};
begin();

/** What is shown: the boot that is played, or the list. */
const tape = () => state.boot ?? state.list;

/** Begins a list on a fresh board. The queue has the input that waits, and the log what the terminal had before. */
function begin() {
  Object.assign(state, { list: new List(), queue: new Uint8Array(), log: "", boot: null, isPlaying: false });
}

/**
 * Makes a call and puts it behind the present one. Later calls of the list are dropped. A line that ends in ` f` has a
 * writer that fails. Returns the call, or null if the line is no line of a script. Whether the interrupt line refuses
 * is up to the user, unless the caller says.
 */
function make(line, refuses = id("refuses").checked) {
  if (state.boot) takeOver();
  const { list } = state;
  const plain = line.replace(/ f$/, "");
  const command = parse(plain, list.at === 0 && list.start.mask === 0n);
  if (!command) return null;
  if (command.name === "refuse") {
    list.calls = [];
    list.start.reply(command);
    clearFaults();
    return { command };
  }
  const before = list.board;
  const after = before.clone();
  Object.assign(after, { refuses, fails: plain !== line || id("fails").checked });
  const reply = after.reply(command);
  const isLost = after.isLost && after.fails;
  const call = { line: isLost ? `${plain} f` : plain, command, reply, before, after, queue: state.queue };
  list.calls.splice(list.at, Infinity, call);
  list.at += 1;
  clearFaults();
  return call;
}

/** Takes back what was said of an earlier call or of a wrong value. */
function clearFaults() {
  say("said", "");
  say("fault", "");
  for (const field of document.querySelectorAll("[aria-invalid]")) field.removeAttribute("aria-invalid");
}

/** Says that a field has no value that can be used. */
function refuseField(field, text) {
  field.setAttribute("aria-invalid", "true");
  field.setAttribute("aria-describedby", "fault");
  say("fault", text);
}

/** Whether a read shows bit 0x01: in IIR that nothing is pending, and in LSR that a byte is held. */
const hasBit0 = ({ reply }) => (Number(`0x${reply}`) & 0x01) !== 0;

/**
 * Makes a call. As a monitor does, it then offers input that waits, if there may be room again, and makes a character
 * timeout after a read of IIR that shows none pending.
 */
function act(line) {
  const call = make(line);
  if (!call) return null;
  const { name, values: [offset] } = call.command;
  if (state.queue.length && (call.after.isReadEmpty || (name === "sw" && offset === 4))) offer();
  const isIdle = name === "sr" && offset === 2 && hasBit0(call);
  if (isIdle && id("makes-timeouts").checked) make("si");
  return call;
}

/** Makes a call, and shows what it did. */
function perform(line) {
  const call = act(line);
  if (call) show();
  return call;
}

/** How many bytes a line of a script takes. */
const LONGEST_INPUT = 128;

/** Offers the input that waits. */
function offer() {
  const room = state.list.board.serial.fifoCapacity();
  const call = make(`sq ${hexOf(state.queue.subarray(0, LONGEST_INPUT))}`);
  call.waiting = state.queue.length;
  state.queue = state.queue.slice(room - call.after.serial.fifoCapacity());
  call.queue = state.queue;
}

function type(text) {
  if (state.boot) takeOver();
  state.queue = Uint8Array.of(...state.queue, ...new TextEncoder().encode(text));
  offer();
  show();
}

/** Goes to the place at which `at` calls are made. */
function go(at) {
  const shown = tape();
  state.isPlaying = false;
  shown.seek(Math.max(0, Math.min(at, shown.calls.length)));
  if (state.boot) caption();
  else state.queue = shown.last?.queue ?? new Uint8Array();
  show();
}

/**
 * What a guest's driver does: it enables RDA when it opens the port. In an interrupt it reads IIR until none is
 * pending, and RBR while LSR shows data ready. The character timeout after the last read may interrupt it again.
 */
function serve() {
  if (state.boot) takeOver();
  const { lineControl, interruptEnable } = state.list.board.serial.state;
  if (lineControl & DLAB) act(`sw 03 ${hex(lineControl & ~DLAB, 2)}`);
  if (!(interruptEnable & 1)) act(`sw 01 ${hex(interruptEnable | 1, 2)}`);
  for (let turns = 0; turns < 2_000; turns += 1) {
    const isNone = hasBit0(act("sr 02"));
    if (isNone && !state.list.board.answers.includes(true)) return;
    while (!isNone && hasBit0(act("sr 05"))) act("sr 00");
  }
}

/** The first line of a script whose interrupts are refused. */
const refusing = ({ mask }) => mask ? [`refuse ${hex(mask, 16)}`] : [];

/** The calls up to the present one. */
const made = () => state.list.calls.slice(0, state.list.at);

/** Runs a script on fresh devices. A reply after two spaces is left out. Returns why it stopped, or an empty text. */
function load(text) {
  begin();
  id("refuses").checked = id("fails").checked = false;
  const lines = text.split("\n").map((row) => row.trim().split(/ {2,}/)[0]);
  const bad = lines.filter((line) => line && !line.startsWith("#")).find((line) => make(line) === null);
  show();
  return bad === undefined ? "" : `"${bad}": ${syntaxOf(bad)}`;
}

// What is shown.

/** A row of a register, between the elements before and after. `turn` is called with a bit that is clicked. */
function rowOf({ name, bits }, label, before, after, turn) {
  const signs = [...bits].reverse().map(([bit, text]) => {
    const kind = turn ? "button" : "span";
    const sign = element(kind, { class: "bit", title: `0x${hex(bit, 2)}`, ...turn ? {} : { role: "img" } }, text);
    if (turn) sign.onclick = () => turn(bit);
    return [bit, sign];
  });
  const [value, note] = [element("code"), element("span", { class: "quiet" })];
  const shownBits = element("span", { class: "bits" }, ...signs.map(([, sign]) => sign), note);
  const row = element("div", { class: "register", role: "group", "aria-label": label }, ...before,
    element("b", {}, label), value, shownBits, ...after);
  const update = (now, old, digits, text = "") => {
    value.textContent = `0x${hex(now, digits)}`;
    note.textContent = text;
    row.classList.toggle("changed", now !== old);
    for (const [bit, sign] of signs) {
      const isSet = (now & bit) !== 0;
      sign.classList.toggle("set", isSet);
      sign.classList.toggle("flipped", ((now ^ old) & bit) !== 0);
      if (turn) sign.setAttribute("aria-pressed", String(isSet));
      else sign.setAttribute("aria-label", `${sign.textContent} ${isSet ? "set" : "clear"}`);
    }
  };
  return { name, row, update };
}

/** A row of the serial port, with what reads and writes the register. */
function serialRow(register) {
  const { name, offset, latched, access } = register;
  const place = hex(offset, 2);
  const { name: written, ignored: isIgnored } = serialRegister(offset, latched ? DLAB : 0, true);
  const read = element("button", { type: "button", title: `sr ${place}`, "aria-label": `Read ${name}` }, "Read");
  const input = element("input", { placeholder: "value", autocomplete: "off", autocapitalize: "none", spellcheck: "false",
    "aria-label": `Value for ${written}` });
  const write = element("button", isIgnored ?
    { title: `sw ${place} ..: ignored`, "aria-label": `Write ${written}, which is ignored`, class: "ignored" } :
    { title: `sw ${place} ..`, "aria-label": `Write ${written}` }, "Write");
  const form = element("form", { class: "act" }, read, input, write);
  read.onclick = () => perform(`sr ${place}`);
  onSubmit(form, () => withNumber(input, 0xff, (number) => perform(`sw ${place} ${hex(number, 2)}`)));
  const turn = (bit) => perform(`sw ${place} ${hex(shownRegisters(tape().board)[name] ^ bit, 2)}`);
  const label = written === name ? name : `${name}/${written}`;
  const row = rowOf(register, label, [element("span", { class: "offset" }, String(offset))], [form],
    access === "rw" && !isIgnored && turn);
  return { ...row, input, register };
}

const rows = Object.values(SERIAL).filter(({ access }) => access.includes("r")).map(serialRow);
id("registers").append(...rows.map(({ row }) => row));

/** Makes a call with the number that a person typed into a field, or says that it is none. */
function withNumber(field, most, call) {
  const text = field.value.trim();
  const number = /^'.'$/.test(text) ? text.charCodeAt(1) : /^(0x\w+|\d+)$/i.test(text) ? Number(text) : NaN;
  if (number <= most) call(number);
  else refuseField(field, `A value is 0 to ${most.toLocaleString("en")}, as 0x41, 65 or 'A'.`);
}

/** Makes a call when a form is submitted, in place of what browsers do then. */
function onSubmit(form, call) {
  form.onsubmit = (event) => { event.preventDefault(); call(); };
}

function noteOf(name, value, now, isEmpty) {
  if (name === "RBR") return isEmpty ? "no byte held" : `oldest byte ${quoted(value)}`;
  if (name === "LCR") return lineFormat(value);
  if (name === "DLL" || name === "DLM") return `divisor ${now.DLM << 8 | now.DLL}`;
  return name === "IIR" && value & 1 ? "none pending" : "";
}

function showRegisters(board, before) {
  const [now, old] = [board, before].map(shownRegisters);
  const { lineControl, inBuffer } = board.serial.state;
  for (const { name, row, register, update } of rows) {
    row.hidden = !isThere(register, lineControl);
    update(now[name], old[name], 2, noteOf(name, now[name], now, !inBuffer.length));
  }
}

/** The FIFO as a ring of 64 places. */
const PLACE = "M0-96A96 96 0 0 1 7.35-95.72L5.36-69.8A70 70 0 0 0 0-70z";
id("fifo").innerHTML = `<svg viewBox="-100 -100 200 200" role="img">${Array.from({ length: 64 }, (_, place) =>
  `<path d="${PLACE}" transform="rotate(${place * 360 / 64})"/>`).join("")}<text y="2"></text>
  <text class="small" y="20">of 64 bytes held</text><text class="small" y="36"></text></svg>`;

function showRing({ serial, head }) {
  const { inBuffer } = serial.state;
  id("fifo").querySelectorAll("path").forEach((path, place) => {
    const distance = (place - head + 64) % 64;
    path.setAttribute("class", distance >= inBuffer.length ? "" : distance ? "held" : "oldest");
  });
  const printed = (one) => one > 31 && one < 127 ? String.fromCharCode(one) : "·";
  const [count, , start] = id("fifo").querySelectorAll("text");
  count.textContent = String(inBuffer.length);
  start.textContent = Array.from(inBuffer.slice(0, 8), printed).join("") + (inBuffer.length > 8 ? "…" : "");
  id("fifo").firstChild.setAttribute("aria-label", `The receive FIFO holds ${plural(inBuffer.length, "byte")}`);
}

function showLine({ serial, answers, asked }) {
  const pending = serial.state.interruptIdentification;
  const lamps = [
    ["rda", pending & 0x04, "RDA pending", "RDA not pending"],
    ["thre", pending & 0x02, "THRE pending", "THRE not pending"],
    ["line", serial.interruptLine(), "interrupt due", "no interrupt due"],
  ];
  for (const [name, isLit, lit, unlit] of lamps) {
    id(name).classList.toggle("lit", Boolean(isLit));
    id(name).textContent = isLit ? lit : unlit;
  }
  const refused = answers.includes(false) ? ", and refused the last call" : "";
  say("asked", `The line was called ${plural(asked, "time")}${refused}.`);
}

/** A text with its control characters shown as ^[ and the like, except ends of lines and tabs. */
const printable = (text) => text.replace(/[\0-\x08\x0b\x0c\x0e-\x1f]/g, (one) =>
  `^${String.fromCharCode(0x40 + one.charCodeAt(0))}`);

function showOutput({ output, counts, readOut }) {
  const [sent, read] = state.boot ? [state.boot.text, state.boot.readOut] : [state.log + output, readOut];
  say("output", printable(sent) || "Nothing was sent yet.");
  const waits = state.queue.length ? `; ${plural(state.queue.length, "byte")} of input wait` : "";
  say("counts", `${plural(sent.length, "byte")} sent, ${counts.txLostByte} lost${waits}`);
  say("read-out-heading", `What the guest read: ${plural(read.length, "byte")}`);
  say("read-out", printable(read));
  for (const name of ["output", "read-out"]) id(name).scrollTop = id(name).scrollHeight;
}

function showWhy({ calls, at, board, last }) {
  const begin = ["Write IER to enable an interrupt, then type to the guest.", "interrupts"];
  const [sentence, heading] = last ? ruleOf(last) : begin;
  say("told", last ? `${short(last.line, 62)} → ${told(last)}` : "Fresh devices.");
  say("resets", last?.reply === "reset" ? "The monitor has to reset the machine." : "");
  const link = element("a", { href: `DEVICES.md#${heading}` }, "The rule: DEVICES.md, a text file");
  id("rule").replaceChildren(`${sentence} `, link);
  const stories = state.boot ? [] : CONDITIONS.map((one) => storyOf(one, calls.slice(0, at), board));
  id("stories").replaceChildren(...stories.map((text) => element("li", {}, text)));
}

/** How many calls the list shows around the present one. */
const AROUND = 60;

function showCalls({ calls, at, board }) {
  const item = (number, line, reply, kind) => element("li", { class: kind },
    element("span", { class: "number" }, number), element("span", {}, line), element("span", {}, reply));
  const first = Math.max(0, at - AROUND);
  const some = calls.slice(first, at + AROUND).map(({ line, reply }, place) => {
    const number = first + place + 1;
    const made = item(String(number), line, reply, number < at ? "" : number === at ? "now" : "later");
    if (number === at) made.setAttribute("aria-current", "true");
    made.onclick = () => go(number);
    return made;
  });
  const head = state.boot ? [] : refusing(board).map((line) => item("", line, "", ""));
  id("list").replaceChildren(...head, ...some);
  const now = id("list").querySelector(".now");
  if (now) id("list").scrollTop = now.offsetTop - id("list").offsetTop - id("list").clientHeight / 2;
  Object.assign(id("at"), { max: calls.length, value: at });
  say("place", `${at.toLocaleString("en")} of ${calls.length.toLocaleString("en")}`);
  id("at").setAttribute("aria-valuetext", `call ${id("place").textContent}`);
  id("back").disabled = at === 0;
  id("forward").disabled = at === calls.length;
}

const hostTime = () => Math.max(0, Math.floor(Date.now() / 1000));
const kept = Object.keys(new Board().clock.state);
const clockRows = Object.values(CLOCK).filter(({ name }) => name === "MIS" || kept.includes(name.toLowerCase()))
  .map((register) => rowOf(register, register.name, [], []));
id("clock-registers").append(...clockRows.map(({ row }) => row));

function showClock(board, before) {
  const now = state.boot?.moment ?? hostTime();
  const clock = board.clock.clone();
  const valuesOf = ({ ris, imsc, ...others }) => ({ ris, imsc, mis: (ris & imsc) >>> 0, ...others });
  const [values, old] = [board, before].map((one) => valuesOf(one.clock.state));
  const due = clock.alarmDue(now);
  const set = due === null ? `set for ${dateOf(values.mr)}, never due` : `in ${plural(due, "second")}`;
  const guestTime = clock.read("DR", now).value;
  const facts = [["Host", `${dateOf(now)} UTC`], ["Guest", `${dateOf(guestTime)} UTC`],
    ["Alarm", values.armed ? set : "none is set"], ["Interrupt line", board.clock.interruptLine() ? "up" : "down"]];
  id("times").replaceChildren(...facts.flatMap(([name, text]) => [element("dt", {}, name), element("dd", {}, text)]));
  for (const { name, update } of clockRows) update(values[name.toLowerCase()], old[name.toLowerCase()], 8);
}

function showBoot({ boot, isPlaying }) {
  id("take-over").hidden = !boot;
  const begun = boot?.at === boot?.calls.length ? "Play again" : "Play on";
  id("play").textContent = isPlaying ? "Pause" : boot?.at ? begun : "Play the boot";
  if (!boot) return;
  Object.assign(id("boot-at"), { max: boot.calls.length, value: boot.at });
  say("boot-count", `${boot.at.toLocaleString("en")} of ${boot.calls.length.toLocaleString("en")}`);
}

function show() {
  const shown = tape();
  const before = shown.last?.before ?? shown.board;
  // A screen reader is told where the playback stops, and not of each picture before.
  id("main").setAttribute("aria-busy", String(state.isPlaying));
  showRegisters(shown.board, before);
  showRing(shown.board);
  showLine(shown.board);
  showOutput(shown.board);
  showWhy(shown);
  showCalls(shown);
  showClock(shown.board, before);
  showBoot(state);
}

// The boots.

/** The texts of the recordings, by their names. */
const texts = Object.fromEntries(await Promise.all(Object.keys(RECORDINGS).map(async (name) =>
  [name, await window.unpacked(`${name}-recording`)])));

/** The recordings that were opened, by their names. */
const opened = {};

function openBoot() {
  const name = id("choice").value;
  opened[name] ??= new Boot(texts[name], RECORDINGS[name]);
  state.boot ??= opened[name];
}

/** Shows the chosen recording, before its first call. */
function introduce() {
  const { calls, introduction } = RECORDINGS[id("choice").value];
  opened[id("choice").value]?.seek(0);
  Object.assign(id("boot-at"), { max: calls, value: 0 });
  say("boot-count", "");
  say("caption", introduction);
}

/** Goes on by hand from where the boot is, on a list that begins with the devices' saved states. */
function takeOver() {
  const { boot } = state;
  begin();
  state.log = boot.text;
  for (const line of boot.saved()) make(line, false); // a port whose load is refused would stay new
  say("caption", `You have the devices as they were after call ${boot.at.toLocaleString("en")} of the boot. The ` +
    "kernel has stopped: you, or a driver that you let serve, act for it.");
}

/** How many milliseconds between two pictures the playback makes up for, at most. */
const LONGEST_FRAME = 1000;

/** Makes the calls for the time since the last picture. Part of a call is left for the next one. */
function turn(now) {
  if (!state.isPlaying || !state.boot) return;
  state.due += Number(id("speed").value) * Math.max(0, Math.min(now - state.turned, LONGEST_FRAME)) / 1000;
  state.turned = now;
  const isStop = state.boot.play(Math.floor(state.due));
  state.due %= 1;
  if (isStop || state.boot.at === state.boot.calls.length) {
    state.isPlaying = false;
    caption();
  }
  show();
  if (state.isPlaying) requestAnimationFrame(turn);
}

/** Says what happens where the boot is. */
function caption() {
  const { differences, at, calls, stop, recording } = state.boot;
  const compared = `${differences.size} of ${calls.length.toLocaleString("en")} replies differed`;
  const end = at === calls.length ? ` The boot is over: ${compared} from the recorded ones.` : "";
  id("caption").replaceChildren(stop ? `${stop.text} ` : recording.beginning, ...(stop ?
    [element("a", { href: `GUESTS.md#${stop.heading}` }, "More: GUESTS.md, a text file")] : []), end);
}

// What the controls do.

const moment = () => hex(hostTime(), 16);
const clockOffset = () => hex(CLOCK[id("clock-register").value].offset, 4);
const inTenSeconds = () => hex((tape().board.clock.clone().read("DR", hostTime()).value + 10) % 2 ** 32, 8);
for (const button of document.querySelectorAll("[data-line]")) {
  button.onclick = () => perform(button.dataset.line.replace("NOW", moment).replace("REGISTER", clockOffset)
    .replace("SOON", inTenSeconds));
}

onSubmit(id("typing"), () => { type(`${id("input").value}\n`); id("input").value = ""; });
onSubmit(id("adding"), () => {
  const line = id("one").value.trim();
  if (perform(line)) id("one").value = "";
  else refuseField(id("one"), syntaxOf(line));
});
onSubmit(id("clock-form"), () => withNumber(id("clock-value"), 0xffffffff, (number) =>
  perform(`cw ${moment()} ${clockOffset()} ${hex(number, 8)}`)));

async function toClipboard(text, what) {
  try {
    await navigator.clipboard.writeText(text);
    say("said", `${what} is copied.`);
  } catch {
    id("script").value = text;
    id("script").closest("details").open = true;
    say("said", `${what} is in the field below.`);
  }
}

/** What a saved port has to be, and the replies that say that one is too short or too long. */
const LEAST_SAVED = new Board().serial.toBytes().length;
const SAVED_PORT = `A saved port is ${LEAST_SAVED} to ${LEAST_SAVED + 64} bytes, of two hexadecimal digits each.`;
const OF_LENGTH = ["too short", "wrong length", "too many bytes"];

const CLICKS = {
  play() {
    openBoot();
    if (state.boot.at === state.boot.calls.length) state.boot.seek(0);
    Object.assign(state, { isPlaying: !state.isPlaying, due: 0, turned: performance.now() });
    if (state.isPlaying) caption();
    show();
    if (state.isPlaying) requestAnimationFrame(turn);
  },
  "as-guest"() { takeOver(); show(); rows.find(({ name }) => name === "IER").input.focus(); },
  "as-host"() { takeOver(); show(); id("input").focus(); },
  save() { id("saved").value = perform("sb").reply; },
  load() {
    const call = perform(`sl ${id("saved").value.replace(/\s+/g, "")}`);
    const reason = call ? `${call.reply}: ` : "";
    if (!call || OF_LENGTH.includes(call.reply)) refuseField(id("saved"), `${reason}${SAVED_PORT}`);
  },
  serve() { serve(); show(); },
  "paste-many"() {
    type(Array.from({ length: 20 }, (_, line) =>
      `${String(line + 1).padStart(2, "0")} ${"abcdefghijklmnopqrstuvwxyz0123456789ABCDEFGHIJ"}\n`).join(""));
  },
  back() { go(tape().at - 1); },
  forward() { go(tape().at + 1); },
  reset() {
    begin();
    introduce();
    clearFaults();
    say("said", "Fresh devices.");
    history.replaceState(null, "", "#");
    show();
  },
  run() { say("said", load(id("script").value) || `${plural(state.list.calls.length, "call")} made.`); },
  copy() {
    const { lines, fault } = programLines(refusing(state.list.board), made());
    return fault ? say("said", `The program superio has no script of these calls: ${fault}. A link has them all.`) :
      toClipboard(lines.map((line) => `${line}\n`).join(""), "The script for the program superio");
  },
  share() {
    const lines = [...refusing(state.list.board), ...made().map(({ line }) => line)];
    history.replaceState(null, "", `#${lines.join(";").replaceAll(" ", "+")}`);
    return toClipboard(location.href, "The link");
  },
};
for (const [name, call] of Object.entries(CLICKS)) id(name).onclick = call;

id("at").oninput = () => go(Number(id("at").value));
id("boot-at").oninput = () => { openBoot(); go(Number(id("boot-at").value)); };
id("choice").onchange = () => {
  if (state.boot) begin();
  introduce();
  show();
};
id("list").onkeydown = (event) => {
  const { at, calls } = tape();
  const to = { ArrowUp: at - 1, ArrowLeft: at - 1, ArrowDown: at + 1, ArrowRight: at + 1, Home: 0, End: calls.length };
  const isAlone = !(event.altKey || event.ctrlKey || event.metaKey || event.shiftKey); // Alt+Left is the browser's
  if (isAlone && event.key in to) { event.preventDefault(); go(to[event.key]); }
};

/** Runs the script that the address has. */
function followLink() {
  const fragment = location.hash.slice(1);
  const isLine = /[;+]/.test(fragment) || Object.hasOwn(LINES, fragment);   // `main` is a place of the page
  if (!isLine || !/^[a-z]{2}[0-9A-Za-z+;]*(;|$)/.test(fragment)) return;
  say("said", load(fragment.replaceAll(";", "\n").replaceAll("+", " ")) || "The calls of the link are made.");
}
window.addEventListener("hashchange", followLink);

/**
 * Each second the times go on. If the alarm is due, the monitor makes an access, since a guest that sleeps makes
 * none.
 */
setInterval(() => {
  const { board, last, at, calls } = tape();
  const isDue = !state.boot && at === calls.length && board.clock.state.armed && board.clock.alarmDue(hostTime()) === 0;
  if (isDue) perform(`cr ${moment()} 0018`);
  else showClock(board, last?.before ?? board);
}, 1000);

for (const name of Object.keys(CLOCK)) id("clock-register").append(element("option", {}, name));
introduce();
show();
followLink();

// For the console of the browser: the board, and how many milliseconds after its start the page was there.
window.superio = { Board, parse, runScript, shownAfter: performance.now() };
