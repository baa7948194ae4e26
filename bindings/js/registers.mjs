// SPDX-License-Identifier: Apache-2.0 OR BSD-3-Clause
/** The registers of the serial port and of the clock: names, offsets and bits, as the Python package has them. */
import { CLOCK_ROWS, SERIAL_ROWS } from "./module.mjs";

/** The bit of LCR that puts the divisor at the offsets 0 and 1. */
export const DLAB = 0x80;

/** No register has this name, or an access would reach another one. */
export class RegisterError extends RangeError {
  name = "RegisterError";
}

const byName = (registers) => Object.fromEntries(registers.map((one) => [one.name, one]));

/**
 * The registers of the serial port by name. If `latched` is true, an access reaches the register while DLAB is set; if
 * it is false, while DLAB is clear; if it is null, always. `access` has r if a read reaches it, and w if a write does.
 */
export const SERIAL = byName(SERIAL_ROWS);

/** The registers of the clock by name, each without the `RTC` that the data sheet begins it with. */
export const CLOCK = byName(CLOCK_ROWS);

function named(registers, name) {
  if (!Object.hasOwn(registers, name)) {
    const names = Object.keys(registers).join(" ");
    throw new RegisterError(`offset is "${name}", and no register has this name: there are ${names}`);
  }
  return registers[name];
}

const isReached = (one, isWrite) => one.access.includes(isWrite ? "w" : "r");

/** Whether a register of the serial port is at its offset while LCR has this value. */
export const isThere = ({ latched }, lineControl) => [null, (lineControl & DLAB) !== 0].includes(latched);

/** The register that an access of the serial port reaches, or undefined if there is none at the offset. */
export function serialRegister(offset, lineControl, isWrite) {
  return SERIAL_ROWS.find((one) => one.offset === offset && isThere(one, lineControl) && isReached(one, isWrite));
}

/** The register at an offset of the clock, or undefined if there is none. An identification is at four offsets. */
export function clockRegister(offset) {
  return CLOCK_ROWS.find((one) => one.offset === (offset >= 0xfe0 ? offset & ~3 : offset));
}

/**
 * The offset of the serial port's register of this name. Throws a RegisterError if there is none, or if an access
 * there would reach another register: because of DLAB, or because the register is read-only or write-only.
 */
export function serialOffset(name, lineControl, isWrite) {
  const wanted = named(SERIAL, name.toUpperCase());
  if (!isThere(wanted, lineControl)) {
    const [state, change] = wanted.latched ? ["clear", "set"] : ["set", "clear"];
    throw new RegisterError(`${wanted.name} is out of reach while DLAB is ${state}: ${change} bit 0x80 of LCR first`);
  }
  if (!isReached(wanted, isWrite)) {
    const [done, tried] = isWrite ? ["read", "write"] : ["written", "read"];
    const other = serialRegister(wanted.offset, lineControl, isWrite);
    const reached = other ? `: a ${tried} at its offset reaches ${other.name}` : "";
    throw new RegisterError(`${wanted.name} can only be ${done}${reached}`);
  }
  return wanted.offset;
}

/**
 * The offset of the clock's register of this name, which may begin with RTC. Throws a RegisterError if there is none.
 */
export function clockOffset(name) {
  const plain = name.toUpperCase();
  return named(CLOCK, plain.startsWith("RTC") ? plain.slice(3) : plain).offset;
}
