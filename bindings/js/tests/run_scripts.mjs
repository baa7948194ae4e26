// SPDX-License-Identifier: Apache-2.0 OR BSD-3-Clause
/**
 * Runs scripts, which come on standard input as JSON, on the board of the page and so over the JavaScript package. A
 * script has its place, its text, whether the board is to refuse the further lines as the program does, the replies and
 * what is wrong at the end.
 *
 * Prints the first ten scripts that differ, and how many did the same. Exits 1 if one differs or there is none.
 */
import process from "node:process";
import { json } from "node:stream/consumers";
import { runScript } from "../../../web/board.mjs";

const scripts = await json(process.stdin);
const different = scripts.flatMap(([place, script, isForProgram, replies, end]) => {
  const [expected, got] = [{ replies, end }, runScript(script, isForProgram)].map((one) => JSON.stringify(one));
  return got === expected ? [] : [`${place}: ${JSON.stringify(script)}\nexpected: ${expected}\ngot:      ${got}\n`];
});
const same = scripts.length - different.length;
console.log(`${different.slice(0, 10).join("")}${same} scripts did the same, ${different.length} did not`);
process.exitCode = different.length || !same ? 1 : 0;
