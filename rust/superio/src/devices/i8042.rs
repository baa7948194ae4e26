// SPDX-License-Identifier: Apache-2.0 OR BSD-3-Clause
// Made by the command tools/erase from crates/superio_core/src/i8042.rt.
// These are the lines that the prover checks, without their contracts. Change them there.
//! The i8042 controller's reset command.

/// The command register, port 0x64: offset 4 from the controller's base at 0x60.
const COMMAND_OFFSET: u8 = 4;

/// The command that pulses the CPU's reset line.
const CMD_RESET_CPU: u8 = 0xFE;

/// Whether a write of `value` at `offset` from the controller's base is the reset command: 0xFE at offset 4. Use this
/// if your monitor resets the machine without a trigger.
#[must_use = "if it is, the machine has to be reset"]
#[inline(always)]
// Clauses in crates/superio_core/src/i8042.rt: returns.
pub fn is_reset_command(offset: u8, value: u8) -> bool {
    offset == COMMAND_OFFSET && value == CMD_RESET_CPU
}
