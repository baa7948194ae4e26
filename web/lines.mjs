// SPDX-License-Identifier: Apache-2.0 OR BSD-3-Clause
// Made by tools/generate from board.py of bindings/python/superio.
// How many digits each field of a line has, or 0 for 0 to 128 bytes of two digits each.
export const PROGRAM_LINES = {
  sr: [2],
  sw: [2, 2],
  sq: [0],
  sc: [],
  sd: [],
  ss: [],
  so: [],
  st: [],
  se: [],
  cr: [16, 4],
  cw: [16, 4, 8],
  kr: [2],
  kw: [2, 2],
  refuse: [16],
};
export const FURTHER_LINES = {
  si: [],
  sb: [],
  sl: [0],
  cb: [],
  cl: [0],
};
