# SPDX-License-Identifier: Apache-2.0 OR BSD-3-Clause
"""The C functions that Cargo builds, as one more file of the crate that they use, without what is `unsafe` in them."""
import re
from typing import Iterable

from parse_items import Parser
from rust_crate import MORE
from rust_tokens import Refused

# What is translated in place of a text. A pointer to a struct is the struct; one to bytes, with their count, is the bytes;
# one to write bytes at is the memory from there on. The crate superio has the items of its devices.
STANDS_FOR = {
    "port: *mut Uart": "port: &mut Uart",
    "clock: *mut Pl031": "clock: &mut Pl031",
    "console: *mut Console": "console: &mut Console",
    "unsafe { console.write(Console::new(is_polled)) }": "*console = Console::new(is_polled)",
    "bytes: *const u8, count: usize": "bytes: &[u8]",
    "bytes: *const u8,\n    count: usize": "bytes: &[u8]\n",
    "bytes: *mut u8": "bytes: &mut [u8]",
    "unsafe { bytes_at(bytes, count) }": "bytes",
    "unsafe { bytes.copy_from_nonoverlapping(saved.as_ptr(), saved.len()) }": "bytes[0..saved.len()].copy_from_slice(saved)",
    "unsafe { bytes.copy_from_nonoverlapping(saved.as_ptr(), SAVED_SIZE) }": "bytes[0..SAVED_SIZE].copy_from_slice(&saved)",
    "unsafe { bytes.copy_from_nonoverlapping(saved.as_ptr(), count) }": "bytes[0..count].copy_from_slice(&saved[..count])",
    "unsafe { bytes.copy_from_nonoverlapping(oldest.as_ptr(), copied) }":
        "bytes[0..copied].copy_from_slice(&oldest[..copied])",
    "unsafe { store(console, Console::from_bytes(bytes_at(bytes, count))) }":
        "match Console::from_bytes(bytes) { Ok(loaded) => { *console = loaded; LOADED } Err(error) => load_status(error) }",
    "unsafe { store(port, Uart::from_bytes(bytes_at(bytes, count))) }":
        "match Uart::from_bytes(bytes) { Ok(loaded) => { *port = loaded; LOADED } Err(error) => load_status(error) }",
    "unsafe { store(clock, RtcState::from_bytes(bytes_at(bytes, count)).map(|state| Pl031::from_state(&state))) }":
        "match RtcState::from_bytes(bytes) { Ok(state) => { *clock = Pl031::from_state(&state); LOADED } "
        "Err(error) => load_status(error) }",
    "use superio::": "use crate::",
    "u64::MAX": str(2 ** 64 - 1),
}


EXPORTED = re.compile(r'^#\[no_mangle\]\npub (?:unsafe )?extern "C" fn (\w+)', re.M)


def safe_part(text: str, left_out: Iterable[list[str]] = ()) -> str:
    """What is translated of lib.rs. The lines keep their numbers. What else is `unsafe`, or exported in another way, stays,
    and the parser refuses it."""
    if re.search(r"^\s*pub(?: const)? fn", text, re.M):
        raise Refused(f"{MORE}: a public function that is not exported")
    text = without(text, left_out)
    for old, new in STANDS_FOR.items():
        text = text.replace(old, new)
    text = re.sub(r"^#!\[deny\(unsafe_op_in_unsafe_fn\)\]$", "", text, flags=re.M)
    return EXPORTED.sub(r"\npub fn \1", text)


def without(text: str, left_out: Iterable[list[str]]) -> str:
    """The text without these items, of which each has lines of its own."""
    parser, left, lines = Parser(text, MORE), list(left_out), text.split("\n")
    while parser.next == "#" and parser.peek(1) == "!":
        parser.at += 2
        while not parser.has("]"):
            parser.at += 1
    while parser.next:
        words, end = parser.item_ahead()
        found = [token.line for token in parser.tokens[parser.at:end]]
        if words in left:
            left.remove(words)
            if found[0] <= parser.tokens[parser.at - 1].line or found[-1] == parser.tokens[end].line:
                raise Refused(f"{MORE}:{found[0]}: two items in a line")
            lines[found[0] - 1:found[-1]] = [""] * (found[-1] - found[0] + 1)
        parser.at = end
    if left:
        raise Refused(f"{MORE}: it has not what is left out: {' '.join(left[0])}")
    return "\n".join(lines)
