// SPDX-License-Identifier: Apache-2.0 OR BSD-3-Clause
/**
 * Tries the page docs/try.html in frames of this one, which test_page.py opens in a browser, with what is to be tried
 * in the element `tried`. Tells on the console, as JSON, the kind and the name of each thing, how many, and what is wrong.
 */
const { address, shown, features, looks, pictures, scripts } = JSON.parse(document.getElementById("tried").textContent);
const [HEIGHT, WIDTH, SCHEME] = [860, 1280, "light"];

const tell = (kind, name, wrong, number = 1) =>
  console.log(JSON.stringify({ kind, name, number, wrong: wrong.join("\n  ") }));
/** Waits for a test. The page runs between the turns of this loop, so on a busy machine each takes longer, too. */
async function until(test, turns = 5_000) {
  for (; !test(); turns--) {
    if (turns === 0) throw new Error(`waits in vain until ${test}`);
    await new Promise((done) => setTimeout(done, 4)); // milliseconds
  }
}

/** The window of the page. */
let page = null;

/** Whether the page has opened each time. One that has not is not waited for again. */
let opens = true;

/** Makes the page that of a user who writes other digits: they are in each text that does not name its language. */
function speakPersian({ Number, BigInt, Date }) {
  for (const { prototype } of [Number, BigInt, Date]) {
    for (const name of Object.getOwnPropertyNames(prototype).filter((one) => one.startsWith("toLocale"))) {
      const call = prototype[name];
      prototype[name] = function (language = "fa", ...more) { return call.call(this, language, ...more); };
    }
  }
}

/** Opens the page anew, with a fragment of its address. */
async function open(fragment, width = WIDTH, scheme = SCHEME) {
  if (!opens) throw new Error("the page has not opened before");
  const frame = document.createElement("iframe");
  Object.assign(frame, { src: address + fragment, width, height: HEIGHT });
  // Beside the window, where it is laid out as in it, but not painted: nothing here looks at its picture.
  Object.assign(frame.style, { colorScheme: scheme, position: "fixed", left: "-10000px" });
  document.body.replaceChildren(frame);
  opens = false;
  await until(() => frame.contentWindow.superio, 20_000);
  opens = true;
  page = frame.contentWindow;
  speakPersian(page);
}

const by = (id) => page.document.getElementById(id);
const all = (selector, within = page.document) => Array.from(within.querySelectorAll(selector));
const texts = (selector, within) => all(selector, within).map((one) => one.textContent);
const labels = (selector) => all(selector).map((one) => one.getAttribute("aria-label") ?? one.id).join(", ");
/** The shown registers, by their offsets. */
const register = (offset) => all("#registers .register:not([hidden])")[offset];
const set = (id, value, event) => { by(id).value = value; by(id).dispatchEvent(new Event(event)); };
/** Where the playback stopped. */
let stops = [];
/** What was copied, and the keys that do in the list what the page says and not what browsers do. */
let [copied, taken] = ["", ""];
/** The playback by hand: what the page asked for, the time, and what is seen of the button. */
let [turn, now, plays] = [null, 0, []];

const isAtEnd = (one) => one.scrollHeight > one.clientHeight &&
  Math.abs(one.scrollHeight - one.clientHeight - one.scrollTop) < 2;

/** What a user does, by the first word of a step. */
const STEPS = {
  click: (...ids) => ids.forEach((id) => by(id).click()),
  read: (offset) => register(offset).querySelector("button[type=button]").click(),
  put: (offset, value) => {
    register(offset).querySelector("input").value = value;
    register(offset).querySelector(".act button:last-child").click();
  },
  /** Puts each number with each character before it, and after it. */
  around: (offset, ...numbers) => {
    const printed = Array.from({ length: 94 }, (_, place) => String.fromCharCode(33 + place));
    const values = numbers.flatMap((number) => printed.flatMap((one) => [one + number, number + one]));
    for (const value of values) STEPS.put(offset, value);
  },
  bit: (offset, name) => all(".bit", register(offset)).find((one) => one.textContent === name).click(),
  fill: (id, ...words) => set(id, words.join(" "), "input"),
  enter: (id, ...words) => { STEPS.fill(id, ...words); by(id).form.requestSubmit(); },
  choose: (id, value) => set(id, value, "change"),
  keys: (...keys) => keys.forEach((key) => STEPS.key(key)),
  hash: async (hash) => {
    by("said").textContent = "";
    page.location.hash = hash;
    await until(() => by("said").textContent);
  },
  /** Begins the playback, whose pictures are asked for by hand. */
  begin: () => {
    now = page.performance.now();
    page.requestAnimationFrame = (call) => { turn = call; };
    page.performance.now = () => now;
    by("play").click();
    plays = [`${by("play").textContent} ${SEEN.busy()}`];
  },
  /** Pictures of the playback at a speed, each so many milliseconds after the one before, and a pause. A picture that was
   * asked for before the pause comes after it. */
  picture: (speed, ...milliseconds) => {
    by("speed").value = speed;
    STEPS.begin();
    for (const passed of milliseconds) turn(now += Number(passed));
    by("play").click();
    plays.push(`${by("play").textContent} ${SEEN.busy()}`);
    turn(now + 500);
  },
  /** Waits until the page has told the time again, as it does each second. */
  second: () => new Promise((done) => page.setTimeout(done, 1100)),
  /** A key goes to what has the focus, which the list takes. Another may be held, as Alt in `Alt+End`. */
  key: (keys) => {
    const [key, ...held] = keys.split("+").reverse();
    by("list").focus();
    const pressed = new KeyboardEvent("keydown", { key, cancelable: true, bubbles: true,
      ...Object.fromEntries(held.map((one) => [`${one.toLowerCase()}Key`, true])) });
    if (!page.document.activeElement.dispatchEvent(pressed)) taken += `${keys} `;
  },
  /** Runs a pasted script: lines, then others so many times, with a semicolon after each. */
  script: (...words) => {
    const [, first, times, others] = /^(.*) (\d+) times (.*)$/.exec(words.join(" "));
    by("script").value = (first + others.repeat(times)).replaceAll(";", "\n");
    by("run").click();
  },
  line: (number) => by("list").children[number - 1].click(),
  copy: () => STEPS.through({ writeText: async (text) => { copied = text; } }, "copy"),
  // A browser that gives no page its clipboard, and one that has none for a page that came over HTTP.
  denied: (id) => STEPS.through({ writeText: async () => { throw new Error("denied"); } }, id),
  lacking: (id) => STEPS.through(undefined, id),
  through: async (value, id) => {
    by("said").textContent = copied = "";
    Object.defineProperty(page.navigator, "clipboard", { value, configurable: true });
    by(id).click();
    await until(() => by("said").textContent);
  },
  /** The host's time is this from now on, in seconds. */
  time: (seconds) => { page.Date.now = () => Number(seconds) * 1000; },
  wait: (start) => until(() => SEEN.lines().includes(`${start} `)),
  /** Until the times of the clock, which go on by themselves, have a text. */
  times: (...words) => until(() => by("times").textContent.includes(words.join(" "))),
  play: async (times) => {
    for (by("speed").value = "60000"; stops.length < times; stops.push(by("boot-at").value)) {
      by("play").click();
      await until(() => by("play").textContent !== "Pause");
    }
  },
};

/** What is seen. An access of the clock by hand has the host's time. */
const SEEN = {
  lines: () => Array.from(by("list").children, ({ children: [, line, reply] }) =>
    `${line.textContent}=${reply.textContent}`).join(" ").replace(/(c[rw]) (?!0{15}1)\w{16}/g, "$1 NOW"),
  now: () => texts("#list .now").join(),
  values: () => texts("#registers .register:not([hidden]) code").join(" "),
  notes: () => texts("#registers .register:not([hidden]) .bits .quiet").filter(Boolean).join(", "),
  names: () => texts("#registers .register:not([hidden]) b").join(" "),
  bits: () =>
    all(".register:not([hidden])").map((row) => texts(".bit", row).join(" ")).filter(Boolean).join(", "),
  changed: () => texts(".changed b").join(" "),
  flipped: () => texts(".flipped").join(" "),
  ignored: () => labels("#registers [aria-label$=ignored]"),
  invalid: () => labels("[aria-invalid=true]"),
  lit: () => texts("#port .lit").join(", "),
  held: () => by("fifo").querySelector("text").textContent,
  ring: () => all("#fifo path").map((path) => path.getAttribute("class") || "-").join(" "),
  "rule-link": () => by("rule").querySelector("a").getAttribute("href"),
  focus: () => labels(":focus"),
  // No other element has such a role. Each that is asked for makes the browser find the roles of the whole page.
  regions: () => all("body [role], body output").filter((one) => /^(alert|log|status)$/.test(one.computedRole))
    .map((one) => `${one.id} ${one.computedRole}`).join(", "),
  hash: () => page.location.hash,
  taking: () => String(!by("take-over").hidden),
  stops: () => stops.join(" "),
  plays: () => plays.join(", "),
  busy: () => by("main").getAttribute("aria-busy"),
  numbers: () => texts("#list .number").join(" "),
  later: () => texts("#list .later .number").join(" "),
  most: () => ["at", "boot-at"].map((id) => by(id).max).join(" "),
  current: () => texts("#list [aria-current=true] .number").join(" "),
  "at-text": () => by("at").getAttribute("aria-valuetext"),
  // How far the present call is below the middle of the list, in half its height.
  below: () => {
    const [top, middle] = [".now", "#list"].map((selector) => all(selector)[0].getBoundingClientRect().top);
    return ((top - middle) / by("list").clientHeight * 2 - 1).toFixed(1);
  },
  // What has more than it shows, and shows its end.
  ends: () => labels("pre").split(", ").filter((_, place) => isAtEnd(all("pre")[place])).join(", "),
  disabled: () => labels("button:disabled"),
  checked: () => labels("input:checked"),
  described: () => all("[aria-invalid=true]").map((one) => one.getAttribute("aria-describedby")).join(", "),
  start: () => texts("#fifo text")[2],
  opened: () => texts("details[open] summary").join(", "),
  copied: () => copied,
  taken: () => taken.trim(),
  stories: () => texts("#stories li").join(" "),
};

/** The start of an element as a text. */
const start = (one) => one.outerHTML.slice(0, 90);

/**
 * Tries a feature, of a name, steps and what is seen. What is hidden may not be seen, and only a step `hash`, by which
 * the user changes the address, adds to the browser's history.
 */
async function tryFeature(feature) {
  const [name, ...lines] = feature.split("\n");
  const wrong = [];
  [stops, taken] = [[], ""];
  await open(lines[0].startsWith("#") ? lines.shift() : "");
  // How often the last step has marked a field as wrong, also one that was so before.
  let marked = 0;
  new page.MutationObserver((changes) => {
    marked += changes.filter(({ target }) => target.hasAttribute("aria-invalid")).length;
  }).observe(page.document, { attributeFilter: ["aria-invalid"], subtree: true });
  const entries = page.history.length + lines.filter((line) => line.startsWith("hash #")).length;
  for (const line of lines) {
    const [, what, sign, wanted] = /^([\w-]+) ([=~]) ?(.*)$/.exec(line) ?? [];
    if (what) {
      const seen = SEEN[what]?.() ?? (by(what).value || by(what).textContent);
      const isGood = sign === "~" ? new RegExp(wanted).test(seen) : seen === wanted.replaceAll("\\n", "\n");
      if (!isGood) wrong.push(`${what} is ${seen}, and not ${wanted}`);
      if (["invalid", "described", "fault"].includes(what) && seen && !marked) wrong.push(`${what} is ${seen} by an earlier step`);
    } else {
      const [step, ...words] = line.replaceAll("\\n", "\n").split(" ");
      marked = 0;
      await STEPS[step](...words);
    }
  }
  if (page.history.length !== entries) wrong.push(`the history has ${page.history.length} entries, and not ${entries}`);
  wrong.push(...all("[hidden]").filter((one) => one.checkVisibility()).map((one) => `this is seen: ${start(one)}`));
  tell("feature", name, wrong);
}

/** How much a text stands out from what is behind it, from 1 to 21, by the formula of WCAG. */
function contrast(one) {
  const colours = (colour) => colour.match(/[\d.]+/g).map(Number);
  const shade = (parts) => parts.slice(0, 3).map((part) => part / 255)
    .map((part) => part <= 0.03928 ? part / 12.92 : ((part + 0.055) / 1.055) ** 2.4)
    .reduce((sum, part, place) => sum + part * [0.2126, 0.7152, 0.0722][place], 0);
  const behind = (element) => {
    const colour = colours(page.getComputedStyle(element).backgroundColor);
    return colour.length === 3 || colour[3] > 0 || !element.parentElement ? colour : behind(element.parentElement);
  };
  const [light, dark] = [colours(page.getComputedStyle(one).color), behind(one)].map(shade).sort((a, b) => b - a);
  return (light + 0.05) / (dark + 0.05);
}

/** The ids that an element names: of what it is for, of what it is called by, and of where it leads. */
const named = (one) => [...["for", "aria-labelledby", "aria-describedby"].map((name) => one.getAttribute(name) ?? ""),
  /^#(.*)/.exec(one.getAttribute("href"))?.[1] ?? ""].join(" ").split(" ").filter(Boolean);

/** What labels an element by its text: what a user sees, and says to a browser that listens. */
const seenName = (one) => (one.matches("a, button") ? [one] : Array.from(one.labels ?? []))
  .flatMap((label) => Array.from(label.childNodes)).filter((node) => !node.contains(one))
  .map((node) => node.textContent.trim().replace(/\s+/g, " ")).filter((text) => /[a-z]/i.test(text));

/** Whether an element shows that it has the focus, which a user of a keyboard has given it. */
function showsFocus(one) {
  const style = page.getComputedStyle(one);
  const hasOutline = () => style.outlineStyle !== "none" && parseFloat(style.outlineWidth) > 0;
  const marks = () => [hasOutline() && style.outline, style.borderColor, style.boxShadow, style.backgroundColor].join();
  const before = marks();
  one.focus();
  const { width, height } = one.getBoundingClientRect();
  const isShown = page.document.activeElement === one && marks() !== before && width > 4 && height > 4;
  one.blur();
  return isShown;
}

/** The controls whose text hardly stands out under a pointer. Rules for that are those of a class meanwhile. */
function faintUnderPointer(controls) {
  const style = page.document.querySelector("style");
  const turn = (from, to) => {
    style.textContent = style.textContent.replaceAll(from, to);
    for (const one of controls) one.classList.toggle("pointed-at");
  };
  turn(":hover", ".pointed-at");
  const faint = controls.filter((one) => one.textContent.trim() && !one.disabled && contrast(one) < 4.5);
  turn(".pointed-at", ":hover");
  for (const one of controls) if (!one.className) one.removeAttribute("class");
  return faint;
}

/** Whether an element moves by itself, or what it has does: this user has asked for less motion. */
function moves(one) {
  const { transitionDuration, animationName, scrollBehavior } = page.getComputedStyle(one);
  return /[1-9]/.test(transitionDuration) || animationName !== "none" || scrollBehavior === "smooth";
}

/** How an element looks. */
function look(one) {
  const style = page.getComputedStyle(one);
  return Array.from(style, (name) => style.getPropertyValue(name)).join();
}

/**
 * Whether an element, what is in it and what follows it look as before once it has got or lost a class or an attribute,
 * which is then taken back. They are looked at one by one, until one is changed: mostly that is the element itself.
 */
function looksAsBefore(one, turn) {
  return [one, ...one.children, one.nextElementSibling].filter(Boolean).every((each) => {
    const before = look(each);
    turn();
    const after = look(each);
    turn();
    return before === after;
  });
}

/**
 * What is wrong with the marks of what a call has changed, and with all else that has a class: one that nobody sees on
 * the first element with these classes, and one in the styles that no element has. Nor may a field look alike with a
 * right value and with a wrong one, or a button that does something and one that does not.
 */
function wrongMarks() {
  STEPS.click("timeout", "timeout", "back"); // the first one raises RDA, and the second is a later call
  const firsts = new Map(all("body [class]").reverse().map((one) => [one.getAttribute("class"), one]));
  const unseen = Array.from(firsts.values()).flatMap((one) => Array.from(one.classList)
    .filter((name) => looksAsBefore(one, () => one.classList.toggle(name))));
  const styles = page.document.querySelector("style").textContent.matchAll(/\.([a-z][\w-]*)(?=[^{}]*\{)/g);
  const unused = Array.from(styles, ([, name]) => name).filter((name) => !all(`.${name}`).length);
  const states = { "aria-invalid": "input:not([type=range], [type=checkbox]), textarea", disabled: "button" };
  const alike = Object.entries(states).flatMap(([name, of]) => all(of)
    .filter((one) => looksAsBefore(one, () => one.toggleAttribute(name)))
    .map((one) => `${name} changes nothing about ${start(one)}`));
  return [...unseen.map((name) => `nobody sees the class ${name}`),
    ...unused.map((name) => `nothing has the class ${name}`), ...alike];
}

/**
 * Tries whether the page fits its window, each text that is in use stands out, each control has a name of its own with
 * the words that are seen of it, and shows the focus, what is typed stays as it is, what names another element finds it,
 * nothing moves, and each class is seen.
 */
async function tryLooks(width, scheme) {
  await open(shown, width, scheme);
  const visible = all("body *").filter((one) => one.checkVisibility());
  const hasText = (one) => Array.from(one.childNodes).some((node) => node.nodeType === 3 && node.textContent.trim());
  const unused = "svg, script, .hidden, .skip, :disabled, .later";
  const controls = visible.filter((one) => one.matches("a, button, input, select, textarea"));
  const names = [...controls, ...visible.filter((one) => one.matches("section, ol, [role=log], [role=group]"))]
    .map((one) => [one, one.computedName]).filter(([, name]) => name);
  const faults = {
    "hardly stands out": visible.filter((one) => hasText(one) && !one.closest(unused) && contrast(one) < 4.5),
    "hardly stands out under a pointer": faintUnderPointer(controls),
    "moves": [page.document.documentElement, ...visible].filter(moves),
    "is cut": visible.filter((one) => one.matches("button, label, .bit, .register b") && one.clientWidth &&
      one.scrollWidth > one.clientWidth + 1),
    "has no name": controls.filter((one) => !one.computedName),
    "has a name that differs from what is seen": controls.filter((one) =>
      seenName(one).some((text) => !one.computedName.includes(text))),
    "has the name of another": names.filter(([one, name]) =>
      names.some(([other, same]) => other !== one && same === name)).map(([one]) => one),
    "shows no focus": controls.filter((one) => !one.disabled && !showsFocus(one)),
    "is reached by Tab out of turn": all("*").filter((one) => one.tabIndex > 0),
    "is not reached by Tab": visible.filter((one) => one.tabIndex < 0 && !one.disabled && (controls.includes(one) ||
      /auto|scroll/.test(page.getComputedStyle(one).overflowY) && one.scrollHeight > one.clientHeight + 1)),
    "is changed by a phone that helps to type": all("input, textarea").filter((one) =>
      /^text/.test(one.type) && (one.autocapitalize !== "none" || one.spellcheck)),
    "is too wide": [page.document.scrollingElement].filter((one) => one.scrollWidth > width),
    "has no language": [page.document.documentElement].filter((one) => !one.lang),
    "names what is not there": all("*").filter((one) => named(one).some((id) => !by(id))),
    "has the id of another": all("[id]").filter((one) => by(one.id) !== one),
  };
  const wrong = Object.entries(faults).flatMap(([what, elements]) =>
    elements.map((one) => `this ${what}: ${start(one)}`));
  tell("looks", `${width} ${scheme}`, [...wrong, ...wrongMarks()], controls.length);
}

/**
 * Tells a picture: parts of the page, and only what is seen of them, as XML with the styles that they have at this
 * width, and the height. It has no control, since none would do anything.
 */
async function take([name, fragment, width, wanted]) {
  await open(fragment, width);
  const controls = "button:not(.bit), input, label, form, .row";
  all(`body > :not(main), section:not(${wanted}), .hidden, [hidden], ${controls}`).forEach((one) => one.remove());
  const isUsed = (selector) => !/:(hover|focus|disabled)/.test(selector) &&
    all(selector.replaceAll(/::[a-z]+/g, "") || "*").length;
  const styles = page.document.querySelector("style").textContent
    .replace(/@media \((?:max-width: (\d+)px|prefers-reduced-motion: .*)\) \{\n((?:  .*\n)*)\}\n/g,
      (rule, most, rules) => width <= most ? rules.replaceAll(/^  /gm, "") : "")
    .replace(/^([^@\s}][^{]*) \{[^}]*\}\n/gm, (rule, selector) => isUsed(selector) ? rule : "");
  const elements = new XMLSerializer().serializeToString(page.document.querySelector("main"));
  const parts = [width, page.document.body.offsetHeight, styles, elements];
  console.log(JSON.stringify({ kind: "picture", name, parts, wrong: "" }));
}

/** Tries whether the page replies to scripts as it should, and each ends so. */
async function tryScripts() {
  await open("");
  const different = scripts.map(([place, script, isForProgram, replies, end]) =>
    [place, script, JSON.stringify({ replies, end }), JSON.stringify(page.superio.runScript(script, isForProgram))])
    .filter(([, , expected, got]) => got !== expected).slice(0, 10);
  tell("scripts", "all", different.map((one) => one.join("\n  ")), scripts.length);
}

/** Waits for what is tried, and tells if it cannot be. */
const end = (kind, name, trying) => trying.catch((error) => tell(kind, name, [`${error}`]));

for (const feature of features) await end("feature", feature.split("\n")[0], tryFeature(feature));
for (const [width, scheme] of looks) await end("looks", `${width} ${scheme}`, tryLooks(width, scheme));
for (const picture of pictures) await end("picture", picture[0], take(picture));
if (scripts.length) await end("scripts", "all", tryScripts());
console.log(JSON.stringify({ end: true }));
