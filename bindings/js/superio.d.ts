// SPDX-License-Identifier: Apache-2.0 OR BSD-3-Clause
/**
 * Emulated legacy devices for virtual machine monitors, over proved code. For a monitor, `Console` is a serial port
 * that also does the monitor's part. `Serial` is the bare port. A call returns its effects: what is left for you to do.
 * There are no callbacks. A wrong argument throws a TypeError or a RangeError that names it, and changes nothing. Each
 * access of a port and of the clock may take the name of a register in place of its offset, and then throws a
 * RegisterError if it would reach another one.
 */

/** The registers of a port that a read can reach. DLAB decides whether it does. */
export type ReadableRegister =
  "RBR" | "DLL" | "IER" | "DLM" | "IIR" | "LCR" | "MCR" | "LSR" | "MSR" | "SCR";
/** The registers of a port that a write can reach. DLAB decides whether it does. */
export type WritableRegister =
  "THR" | "DLL" | "IER" | "DLM" | "FCR" | "LCR" | "MCR" | "LSR" | "MSR" | "SCR";
/** The registers of the clock. A name may also begin with RTC. */
export type ClockRegister =
  "DR" | "MR" | "LR" | "CR" | "IMSC" | "RIS" | "MIS" | "ICR" | "ID0" | "ID1" | "ID2" | "ID3" | "ID4" | "ID5" |
  "ID6" | "ID7";
/** Where a guest reads a port: an offset, 0 to 255, or the name of a register, in upper or lower case. */
export type ReadOffset = number | ReadableRegister | Lowercase<ReadableRegister>;
/** Where a guest writes to a port: an offset, 0 to 255, or the name of a register, in upper or lower case. */
export type WriteOffset = number | WritableRegister | Lowercase<WritableRegister>;
/** Where a guest accesses the clock: an offset, 0 to 0xFFFF, or the name of a register, in upper or lower case. */
export type ClockOffset =
  number | ClockRegister | `RTC${ClockRegister}` | Lowercase<ClockRegister | `RTC${ClockRegister}`>;

/** What a call of a console leaves to you. */
export interface Work {
  /**
   * Raise the interrupt this many times, 0 to 2, if your interrupt controller is edge-triggered. If one of them is
   * refused, raise no more, and call `refuse`.
   */
  interrupts: number;
  /** Set the line to this level, if your interrupt controller is level-triggered. */
  isUp: boolean;
  /** Wake your event loop, unless it made the call: `wants` names something that it did not name before. */
  wakes: boolean;
}

/** What your event loop polls, and whether it has to come back soon. */
export interface Wants {
  /** How many bytes of input may go in, 0 to 64. While it is 0, do not read from the source of input. */
  input: number;
  /** Output waits: the loop waits until its reader has room. */
  output: boolean;
  /** The loop comes back after some milliseconds at most, and then calls `turn`, even if nothing else happened. */
  turn: boolean;
}

/** What a guest's read of a console did. */
export interface ConsoleRead {
  /** What the guest reads. */
  byte: number;
  /** What is left to you. */
  work: Work;
}

/** What a `receive` did. */
export interface ConsoleReceived {
  /** How many of the bytes were accepted, from the first on. */
  accepted: number;
  /** What is left to you. */
  work: Work;
}

/** What a read of the serial port did. */
export interface ReadEffects {
  /** What the guest reads. */
  byte: number;
  /** Event: the guest read the data register. */
  bufferRead: boolean;
  /** Event: it did, and no byte is held now. */
  inBufferEmpty: boolean;
}

/** What a write to the serial port leaves to you: first send, then ask for the interrupt. */
export interface WriteEffects {
  /** The written value goes out. */
  sends: boolean;
  /** How often to ask for the interrupt, up to the first refusal: 0 to 2 times. */
  interrupts: number;
}

/** What an enqueue did, and leaves to you. */
export interface EnqueueEffects {
  /** How many of the bytes were accepted, first ones first: as many as there is room for, and in loopback none. */
  accepted: number;
  /** There were bytes, outside loopback, and 64 were held already. */
  fifoFull: boolean;
  /** How often to ask for the interrupt: 0 or 1 times. */
  interrupts: number;
}

/** The state of a serial port: its registers, of one byte each, and what it holds. */
export interface SerialState {
  /** DLL. */
  baudDivisorLow: number;
  /** DLM. */
  baudDivisorHigh: number;
  /** IER: 0x01 enables RDA, 0x02 THRE. */
  interruptEnable: number;
  /** IIR without 0xC0: 0x04 RDA, 0x02 THRE, 0x01 nothing pending. */
  interruptIdentification: number;
  /** LCR: 0x80 is DLAB. */
  lineControl: number;
  /** LSR: 0x01 is data ready. */
  lineStatus: number;
  /** MCR: 0x10 is loopback. */
  modemControl: number;
  /** MSR. */
  modemStatus: number;
  /** SCR. */
  scratch: number;
  /** The received bytes, oldest first: at most 64. */
  inBuffer: Uint8Array;
}

/** The state of a clock. */
export interface RtcState {
  /** RTCLR, the last loaded value, or 0. */
  lr: number;
  /** RTCMR, the guest time that an alarm waits for. */
  mr: number;
  /** RTCIMSC, the interrupt mask. */
  imsc: number;
  /** RTCRIS, the raw interrupt status. */
  ris: number;
  /** How far guest time is ahead of the host's, in seconds. */
  offset: bigint;
  /** Whether an alarm is set. */
  armed: boolean;
}

/** The state of a console. */
export interface ConsoleState {
  /** The port. */
  port: SerialState;
  /** The output that waits for its reader, oldest first: at most 4,096 bytes. */
  output: Uint8Array;
  /** How many bytes of output were dropped. */
  dropped: bigint;
  /** Whether the guest polls, so that input goes in before a driver is ready. */
  isPolled: boolean;
  /** Whether a driver has shown that it is ready. */
  isReady: boolean;
  /** Whether the guest sleeps in memory. */
  isAsleep: boolean;
  /** Whether an interrupt was refused, and none was asked for since. */
  isRefused: boolean;
}

/**
 * A serial port with the monitor's end of its line: the port, at most 4,096 bytes of the guest's output that wait for
 * their reader, and what it has to know of the guest. It has no timer, and opens and calls nothing: you carry out the
 * `Work` of each call, and your event loop waits for what `wants` says.
 */
export class Console {
  /**
   * Makes a console with a new port and no output. If `isPolled` is true, input goes in at once, for a guest that polls
   * the port, such as a boot loader. Otherwise, and by default, input waits until the guest's driver is ready: until a
   * write at offset 1 leaves IER with RDA and without THRE.
   */
  constructor(isPolled?: boolean);
  /** The guest reads at an offset. */
  read(offset: ReadOffset): ConsoleRead;
  /**
   * The guest writes a value, 0 to 255, at an offset. A byte that it sends waits for its reader, or is dropped and
   * counted if 4,096 bytes wait. To lose none, hold the guest while `isFull` is true after this call.
   */
  write(offset: WriteOffset, value: number): Work;
  /** What your event loop waits for now. */
  wants(): Wants;
  /**
   * Input arrives for the guest. The console accepts the first bytes, as many as `wants().input` says. Keep the others,
   * and offer them again when it wants more.
   */
  receive(bytes: Uint8Array): ConsoleReceived;
  /**
   * All output that waits, oldest first: at most 4,096 bytes. Pass it to the reader, and then how many bytes the reader
   * took to `consume`.
   */
  output(): Uint8Array;
  /** The reader has taken the first `count` bytes of the output that waits, or all of it if fewer wait. */
  consume(count: number): void;
  /**
   * Whether 4,096 bytes of output wait, so that the next byte that the guest sends is dropped. To lose none, hold the
   * guest now, after its access, until the reader has taken some.
   */
  isFull(): boolean;
  /** How many bytes of output were dropped, up to 2 ** 64 - 1. */
  dropped(): bigint;
  /**
   * Your event loop makes a turn: it came back, for whatever reason. Bytes that the guest has left interrupt it again,
   * and a refused interrupt is asked for again.
   */
  turn(): Work;
  /**
   * An interrupt that a call asked for was refused, or may be lost. Turns and writes of IER then ask once for each
   * condition that is pending and enabled, until one of them finds such a condition or the guest reads IIR.
   */
  refuse(): Work;
  /**
   * The guest's machine is reset: the port is a new one, the bytes that it held are lost, and input waits again unless
   * the guest polls. Waiting output is kept.
   */
  reset(): Work;
  /**
   * The guest's machine sleeps in memory. It is reset when it wakes, so input waits from now on, even if the guest
   * polls, until a reset or until a write at offset 1 leaves IER with RDA and without THRE (a write of DLM with such an
   * IER counts too). This leaves no work.
   */
  suspend(): void;
  /** Says whether the guest polls from now on. One guest may do both: its loader polls, and its kernel does not. */
  setPolled(isPolled: boolean): Work;
  /** The console as a saved state, which `fromBytes` and the other languages read on any machine. */
  toBytes(): Uint8Array;
  /**
   * The console of a saved state. Afterwards, if its interrupt controller was not restored too, call `refuse`; then
   * make a `turn` in any case. Throws a SavedStateError if the bytes are not the saved state of a console.
   */
  static fromBytes(bytes: Uint8Array): Console;
  /** The port's registers and held bytes, the output that waits and all else, as a plain object. */
  readonly state: ConsoleState;
  /**
   * A console of this state. Afterwards do what `fromBytes` says. `Serial.fromState(state.port).isCoherent()` tells
   * whether its port is coherent.
   */
  static fromState(state: ConsoleState): Console;
  /** Another console in the same state. */
  clone(): Console;
}

/**
 * A 16550 serial port with a receive FIFO of 64 bytes, and nothing else: docs/PORT.md says what your monitor then has
 * to do. A `Console` does all of that for you.
 */
export class Serial {
  /** A new port: divisor 12, 8 bits a character, OUT2 set, and nothing enabled, pending or held. */
  constructor();
  /** The guest reads at an offset. */
  read(offset: ReadOffset): ReadEffects;
  /** The guest writes a value, 0 to 255, at an offset. */
  write(offset: WriteOffset, value: number): WriteEffects;
  /** Bytes arrive for the guest. Keep those that are not accepted. */
  enqueue(bytes: Uint8Array): EnqueueEffects;
  /**
   * Raises RDA again if bytes are held, IER enables RDA and RDA is not pending. Otherwise nothing changes. Returns how
   * often to ask for the interrupt: 0 or 1 times. A read of IIR or RBR ends RDA even if bytes are left, which then wait
   * without an interrupt.
   */
  characterTimeout(): number;
  /** How many bytes fit: 64 less those that are held. */
  fifoCapacity(): number;
  /**
   * How often to ask for the interrupt now: once for each condition that is pending and enabled, 0 to 2 times. What IER
   * disables does not count.
   */
  interruptsDue(): number;
  /**
   * Whether the interrupt line is up. It is up while a condition is pending that IER enables. If your interrupt
   * controller is level-triggered, set your line to this level after every call, including reads.
   */
  interruptLine(): boolean;
  /**
   * Whether the port is coherent: LSR shows data ready exactly while bytes are held, IIR is 1, 2, 4 or 6, and RDA is
   * pending only while bytes are held. A new port is coherent, and stays so. A restored one need not be, and is safe
   * all the same.
   */
  isCoherent(): boolean;
  /** The port as a saved state, which `fromBytes` and the other languages read on any machine. */
  toBytes(): Uint8Array;
  /** The port of a saved state. Throws a SavedStateError if the bytes are not the saved state of a serial port. */
  static fromBytes(bytes: Uint8Array): Serial;
  /** The registers and the held bytes, as a plain object. */
  readonly state: SerialState;
  /** A port of this state. */
  static fromState(state: SerialState): Serial;
  /** Another port in the same state. */
  clone(): Serial;
}

/**
 * A PL031 real-time clock, which counts seconds. It reads no clock of the host: you pass each access its moment `now`,
 * in seconds since 1970, from 0 to 2 ** 64 - 1.
 */
export class Rtc {
  /** A new clock: guest time is the host's, and no alarm is set. */
  constructor();
  /**
   * The guest reads four bytes at an offset. `value` is their number, lowest byte first. If there is nothing to read at
   * this offset, `invalidRead` is true and `value` is 0.
   */
  read(offset: ClockOffset, now: number | bigint): { value: number; invalidRead: boolean };
  /** The guest writes a value of 32 bits at an offset. `invalidWrite`: this offset takes no write. */
  write(offset: ClockOffset, value: number, now: number | bigint): { invalidWrite: boolean };
  /** Whether the clock's interrupt line is up: bit 0 of `ris & imsc`. Set your line to it after each access. */
  interruptLine(): boolean;
  /**
   * In how many seconds an access finds the alarm reached, if the guest makes none before: less than 2 ** 32. Null if
   * no alarm is set, or if guest time never reaches the match. Set a timer, and make an access when it goes off.
   */
  alarmDue(now: number | bigint): number | null;
  /** The clock as a saved state, which `fromBytes` and the other languages read on any machine. */
  toBytes(): Uint8Array;
  /** The clock of a saved state. Throws a SavedStateError if the bytes are not the saved state of a clock. */
  static fromBytes(bytes: Uint8Array): Rtc;
  /** The registers, the offset and the alarm, as a plain object. */
  readonly state: RtcState;
  /** A clock of this state. */
  static fromState(state: RtcState): Rtc;
  /** Another clock in the same state. */
  clone(): Rtc;
}

/** An i8042 keyboard controller that knows one command: 0xFE at offset 4 resets the machine. It has no state. */
export class I8042 {
  /** What the guest reads at an offset, 0 to 255: 0. */
  read(offset: number): number;
  /** The guest writes a value, 0 to 255, at an offset, 0 to 255. Reset the machine if `resets` is true. */
  write(offset: number, value: number): { resets: boolean };
}

/** No register has this name, or an access would reach another one. */
export class RegisterError extends RangeError {}

/** Bytes are not the saved state of this device. The message gives the reason, with the same text in every language. */
export class SavedStateError extends Error {
  /** Why, in the words of a script. */
  readonly reason:
    | "too short"
    | "not a saved state"
    | "other device"
    | "unknown version"
    | "wrong length"
    | "too many bytes"
    | "invalid armed"
    | "invalid flags";
}
