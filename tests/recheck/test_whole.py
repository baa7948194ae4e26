# SPDX-License-Identifier: Apache-2.0 OR BSD-3-Clause
"""The run reads all that Cargo compiles: what it neither translates nor lists is refused, and so is another layout, header
or manifest."""
import os
import re
import shutil
import subprocess
from functools import cache
from pathlib import Path

import pytest
from harness import at_least, run
from test_plants import C_FUNCTIONS, DEVICES, ROOT, SHELL, copy_sources

import expanded
import rerun
import rust2coq
import rust_tokens
from around import MANIFESTS
from c_functions import safe_part
from c_header import check_header

CORE = "rust/superio/src/"
QUICK = "pub(crate) fn guest_time(_offset: i64, time: u32) -> u32 {\n    time\n}\n"
INHERENT = """impl<T: crate::Trigger, EV: crate::serial::SerialEvents, W: std::io::Write> crate::Serial<T, EV, W> {
    pub fn character_timeout(&mut self) -> Result<(), crate::serial::Error<T::E>> { Ok(()) }
}
"""
# What is changed: files, each with what stands there ("" is the end) and what is put in its place; and why it is refused,
# where LINE is the number of a line.
CHANGES = {
    "a macro of a known name": ([(CORE + "lib.rs", "#[rustfmt::skip]", "macro_rules! matches { ($e:expr, $p:pat) => { match $e { $p => false, _ => true } } }\n#[rustfmt::skip]")],
                                "'$e:expr"),
    "a module at another path": ([(CORE + "lib.rs", "mod devices;", '#[path = "devices/mod.rs"]\nmod devices;')], 'the attribute path="devices/mod.rs"'),
    "an item beside a glob": ([(CORE + "lib.rs", "", "pub fn is_reset_command(_offset: u8, _value: u8) -> bool { false }\n")],
                              "two items are named is_reset_command"),
    "an inherent method": ([(CORE + "printed.rs", "", "impl ArrayFifo { pub fn is_empty(&self) -> bool { false } }\n")],
                           "two items are named ArrayFifo::is_empty"),
    "a module in a file": ([(CORE + "lib.rs", "mod printed;", "mod printed;\nmod quick { }")], "; expected: { }"),
    "a file with an item of a known name": (
        [(CORE + "lib.rs", "mod printed;", "mod printed;\nmod quick;"), (CORE + "quick.rs", None, QUICK),
         (DEVICES + "rtc_pl031.rs", "use alarm::{guest_time, seconds_until};", "use crate::quick::guest_time;\nuse alarm::seconds_until;")],
        "two items are named guest_time"),
    "an import from elsewhere": ([(DEVICES + "rtc_pl031.rs", "use alarm::{guest_time", "use encoding::{guest_time")], "a use of encoding::guest_time"),
    "an import of the shell from elsewhere": ([(SHELL + "serial.rs", "use crate::sansio::Uart;", "use crate::sansio::saved::Uart;")],
                                              "a use of crate::sansio::saved::Uart"),
    "an implementation in a body": ([(DEVICES + "fifo.rs", "", "fn note() { impl ArrayFifo { pub fn len(&self) -> usize { 0 } } }\n")],
                                    "a statement: impl ArrayFifo"),
    "an item in what is left out": ([(SHELL + "serial.rs", "        let state = self.state();\n        f.debug_struct", INHERENT + "        f.debug_struct")],
                                    "serial.rs"),
    "a body that is left out": ([(SHELL + "serial/events.rs", "self.as_ref().out_byte();", "self.as_ref().tx_lost_byte();")],
                                "serial/events.rs"),
    "a module of tests": ([(SHELL + "serial.rs", "mod state;\n", "mod state;\n#[cfg(test)]\nmod tests;\n" + INHERENT)], "the attribute cfg(test)"),
    "a method of tests": ([(SHELL + "lib.rs", "\n    fn trigger", "\n    #[cfg(test)]\n    fn never(&self);\n    fn trigger")], "the attribute cfg(test)"),
    "cfg": ([(DEVICES + "i8042.rs", "#[inline(always)]", '#[cfg(feature = "std")]')], 'the attribute cfg(feature="std")'),
    "writer_mut": ([(SHELL + "serial.rs", "&mut self.out\n", "self.port = Uart::new(); &mut self.out\n")], "serial.rs:LINE: a mutable reference outside a parameter"),
    "store": ([(C_FUNCTIONS, "Err(error) => load_status(error),\n    }\n}\n\n#", "Err(_) => LOADED,\n    }\n}\n\n#")], "it has not what is left out: unsafe fn store"),
    "bytes_at": ([(C_FUNCTIONS, "if count == 0", "if count <= 1")], "it has not what is left out: unsafe fn bytes_at"),
    "an item after a comment": ([(C_FUNCTIONS, "use superio::{is_reset_command, ", "// *const\nuse superio::is_reset_command as unused;\nuse superio::{")],
                                "a use of crate::is_reset_command as unused"),
    "a function that C cannot call": ([(C_FUNCTIONS, 'pub extern "C" fn superio_abi', "pub fn superio_abi")], "a public function that is not exported"),
    "a function under another name": ([(C_FUNCTIONS, '#[no_mangle]\npub extern "C" fn superio_abi', 'pub extern "C" fn superio_abi')], "an item: extern"),
    "a layout of Rust": ([(DEVICES + "rtc_pl031.rs", "#[repr(C)]\n", "")], "Pl031 has not the layout of C"),
    "fields in another order": ([(C_FUNCTIONS, "    pub value: u32,\n    pub invalid_read: bool,", "    pub invalid_read: bool,\n    pub value: u32,")],
                                "superio.h: superio_rtc_read_effects"),
    "another binary interface": ([(C_FUNCTIONS, "ABI: u32 = ", "ABI: u32 = 1")], "SUPERIO_ABI is not ABI"),
    "parameters in another order": ([(C_FUNCTIONS, "superio_i8042_write(offset: u8, value: u8)", "superio_i8042_write(value: u8, offset: u8)")],
                                    "superio.h: superio_i8042_write"),
    "another crate superio": ([("rust/vm-superio/Cargo.toml", '"../superio"', '"../other"')], "rust/vm-superio/Cargo.toml: dependencies: superio: path: ../other"),
    "a patch": ([("rust/vm-superio/Cargo.toml", "", '[patch.crates-io]\nsuperio = { path = "../other" }\n')], "rust/vm-superio/Cargo.toml: patch"),
    "another root": ([("rust/vm-superio/Cargo.toml", "[lib]\n", '[lib]\npath = "src/other.rs"\n')], "rust/vm-superio/Cargo.toml: lib: path"),
    "a build script": ([("rust/superio/build.rs", None, "fn main() {}\n")], "rust/superio/build.rs"),
    "a carriage return": ([(DEVICES + "i8042.rs", "    offset ==", "    // \r    return true;\n    offset ==")], "a carriage return"),
    "a workspace above": ([("bindings/Cargo.toml", None, "[workspace]\n")], "has settings of Cargo"),
    "an implementation of Clone": ([(DEVICES + "fifo.rs", "", "impl Clone for ArrayFifo { fn clone(&self) -> ArrayFifo { ArrayFifo::new() } }\n")],
                                   "an implementation of Clone"),
    "a type of a known name": ([(SHELL + "serial/state.rs", "", "pub struct Vec { n: u32 }\n")], "an item named Vec"),
    "a type of C with another meaning": ([("bindings/c/superio.h", "#include <stdint.h>\n", "#include <stdint.h>\n#define uint32_t uint16_t\n"),
                                          ("bindings/c/from-source/superio.h", "#include <stdint.h>\n", "#include <stdint.h>\n#define uint32_t uint16_t\n")],
                                         "superio.h: #define uint32_t uint16_t"),
    "a further bound": ([(SHELL + "serial.rs", "impl<T: Trigger, EV: SerialEvents, W: Write> Serial", "impl<T: Trigger, EV: SerialEvents + Copy, W: Write> Serial")],
                        "a bound of EV"),
    "a smaller maximum in C": ([(f"bindings/c/{folder}superio.h", "SUPERIO_SERIAL_SAVED_MAX 81", "SUPERIO_SERIAL_SAVED_MAX 17") for folder in ("", "from-source/")],
                               "SUPERIO_SERIAL_SAVED_MAX is not SAVED_MAX"),
    "another number of a fault in C": ([(f"bindings/c/{folder}superio.h", "TOO_SHORT = 1", "TOO_SHORT = 9") for folder in ("", "from-source/")],
                                       "superio.h: tooshort: 9, and in Rust 1"),
    "settings of Cargo": ([("rust/superio/.cargo/config.toml", None, "")], "rust/superio/.cargo"),
}

HEADERS = ("bindings/c/superio.h", "bindings/c/from-source/superio.h")
RESULT = "use std::fmt;\n"
BLANKET = "trait Quick {\n    fn trigger(&self) -> bool;\n}\n\nimpl<T: Trigger> Quick for T {\n    fn trigger(&self) -> bool {\n        true\n    }\n}\n"


def in_header(old, new):
    return [(header, old, new) for header in HEADERS]


CAPACITY = "superio_serial_fifo_capacity(const superio_serial "
CHANGES |= {f"a parameter of C that is {of}": (in_header(f"{CAPACITY}*port)", f"{CAPACITY}{parameter})"),
                                              f"superio.h: the parameter const superio_serial {parameter}")
            for of, parameter in {"a pointer to a pointer": "**port", "an array of pointers": "*port[2]",
                                  "an array of arrays": "port[2][3]", "constant itself": "*const port"}.items()}

# Changes of text that nobody reads, of what stands around the text, and of names that then mean something else.
CHANGES |= {
    "a condition of a whole crate": ([(CORE + "lib.rs", "#![no_std]", "#![no_std]\n#![cfg(any())]")], "lib.rs:LINE: the attribute cfg(any())"),
    "a condition of a field": ([(C_FUNCTIONS, "    pub invalid_read: bool,\n", "    #[cfg(any())]\n    pub extra: u8,\n    pub invalid_read: bool,\n")],
                               "lib.rs:LINE: the attribute cfg(any())"),
    "a condition of an arm": ([(C_FUNCTIONS, "        SavedStateError::TooShort => 1,", "        #[cfg(any())]\n        SavedStateError::TooShort => 9,\n        SavedStateError::TooShort => 1,")],
                              "lib.rs:LINE: a name expected: # [ cfg"),
    "a path of a module by a condition": ([(SHELL + "serial.rs", "mod state;", '#[cfg_attr(all(), path = "other.rs")]\nmod state;')],
                                          'serial.rs:LINE: the attribute cfg_attr(all(), path="other.rs")'),
    "a file that is pasted": ([(CORE + "lib.rs", "", 'include!("other.txt");\n')], "lib.rs:LINE: an item: include !"),
    "a raw string": ([(SHELL + "lib.rs", "", 'const TEXT: &str = r#"}"#;\n')], "lib.rs:LINE: ; expected: #"),
    "a raw identifier": ([(DEVICES + "i8042.rs", "    offset ==", "    r#offset ==")], "i8042.rs:LINE: ; expected: # offset"),
    "a block comment": ([(DEVICES + "i8042.rs", "    offset ==", "    /* false && */ offset ==")], "i8042.rs:LINE: '/* false && */"),
    "a mark at the start of a file": ([(DEVICES + "i8042.rs", "// SPDX", "\ufeff// SPDX")], "i8042.rs:LINE: '\\ufeff//"),
    "a first line for a shell": ([(DEVICES + "i8042.rs", "// SPDX", "#!/bin/sh pub fn quick() {}\n// SPDX")], "i8042.rs:LINE: [ expected: / bin"),
    "a letter of another alphabet": ([(DEVICES + "i8042.rs", "    offset ==", "    \u043effset ==")], "i8042.rs:LINE: '\u043effset"),
    "a label": ([(DEVICES + "fifo.rs", "let held = self.count();", "let held = 'a: { self.count() };")], "fifo.rs:LINE: a name expected: 'a :"),
    "a constant in a body": ([(DEVICES + "fifo.rs", "        let held = self.count();", "        const FIFO_SIZE: usize = 63;\n        let held = self.count();")],
                             "fifo.rs:LINE: a statement: const FIFO_SIZE"),
    "an import in a body": ([(DEVICES + "fifo.rs", "        let held = self.count();", "        use super::saved::HEADER_SIZE as FIFO_SIZE;\n        let held = self.count();")],
                            "fifo.rs:LINE: a statement: use super"),
    "another name of a type": ([(DEVICES + "fifo.rs", "", "type Ring = ArrayFifo;\n")], "fifo.rs:LINE: an item: type Ring"),
    "a union": ([(DEVICES + "fifo.rs", "", "pub union Ring {\n    pub byte: u8,\n}\n")], "fifo.rs:LINE: an item: union Ring"),
    "a foreign function": ([(C_FUNCTIONS, "", 'extern "C" {\n    fn quick();\n}\n')], "an item: extern \"C\" { fn quick"),
    "an export of the devices": ([(DEVICES + "i8042.rs", "#[inline(always)]", "#[no_mangle]")], "i8042.rs:LINE: the attribute no_mangle"),
    "an export under another name": ([(C_FUNCTIONS, '#[no_mangle]\npub extern "C" fn superio_abi', '#[export_name = "superio_rtc_new"]\npub extern "C" fn superio_abi')],
                                     'the attribute export_name="superio_rtc_new"'),
    "another way to call": ([(C_FUNCTIONS, 'pub extern "C" fn superio_abi', 'pub extern "C-unwind" fn superio_abi')], "the attribute no_mangle: pub extern \"C-unwind\""),
    "a packed layout": ([(DEVICES + "rtc_pl031.rs", "#[repr(C)]", "#[repr(C, packed)]")], "the attribute repr(C, packed)"),
    "what looks derived": ([(DEVICES + "fifo.rs", "impl RxFifo for", "#[automatically_derived]\nimpl RxFifo for")], "the attribute automatically_derived: impl RxFifo"),
    "a derive of another macro": ([(C_FUNCTIONS, "#[repr(C)]", "#[derive(Hash)]\n#[repr(C)]")], "the attribute derive(Hash)"),
    "a module std": ([(SHELL + "lib.rs", "pub mod i8042;", "mod std;\npub mod i8042;"), (SHELL + "std.rs", None, "pub mod mem;\n"),
                      (SHELL + "std/mem.rs", None, "pub fn replace(place: &mut u8, value: u8) -> u8 {\n    value\n}\n")], "lib.rs: a module std"),
    "a module sansio": ([(SHELL + "rtc_pl031.rs", "use crate::sansio::{self, Pl031};", "use crate::sansio::Pl031;\nmod sansio;"),
                         (SHELL + "rtc_pl031/sansio.rs", None, "pub use crate::sansio::RtcState;\n")], "rtc_pl031.rs: a module sansio"),
    "a module io": ([(SHELL + "serial.rs", "use std::io::{self, Write};", "use std::io::Write;\nmod io;"),
                     (SHELL + "serial/io.rs", None, "pub enum Error {\n    Other,\n}\n")], "serial.rs: a module io"),
    "no import of io": ([(SHELL + "serial.rs", "use std::io::{self, Write};", "use std::io::Write;")], "serial.rs: the type io::Error"),
    "a method of every object": ([(SHELL + "serial/line.rs", "", BLANKET)], "an item Trigger::trigger"),
    "an implementation for a reference": ([(DEVICES + "fifo.rs", "impl RxFifo for ArrayFifo", "impl RxFifo for &ArrayFifo")], "an implementation: & ArrayFifo"),
    "an inherent method of the shell": (
        [(SHELL + "serial/line.rs", "", "impl<T: Trigger, EV: SerialEvents, W: Write> Serial<T, EV, W> {\n    pub fn interrupt_line(&self) -> bool {\n        false\n    }\n}\n")],
        "two items are named VmSerial::interrupt_line"),
    "a trait above a trait": ([(SHELL + "lib.rs", "pub trait Trigger {", "pub trait Trigger: Clone {")], "{ expected: : Clone"),
    "a where clause": ([(SHELL + "serial/line.rs", "Serial<T, EV, W> {", "Serial<T, EV, W> where T: Clone {")], "line.rs:LINE: { expected: where T"),
    "another Result": ([(SHELL + "serial.rs", RESULT, RESULT + "use std::io::Result;\n")], "serial.rs: a use of std::io::Result"),
    "an import of the shell under another name": ([(SHELL + "serial.rs", "use crate::sansio::Uart;", "use crate::sansio::Uart as Port;")],
                                                  "serial.rs: a use of crate::sansio::Uart as Port"),
    "unsafe in the shell": ([(SHELL + "i8042.rs", "        I8042Device { reset_evt }", "        unsafe { I8042Device { reset_evt } }")], "a statement: unsafe"),
    "a closure that changes a device": (
        [(SHELL + "serial/state.rs", "        SerialState {\n", "        let mut other = ArrayFifo::new();\n        SerialState {\n"),
         (SHELL + "serial/state.rs", "places.map(|place| held.bytes[place])", "places.map(|place| { other.push(1); held.bytes[place] })")],
        "a closure that changes something"),
    "a private function of no known form": ([(SHELL + "i8042.rs", "", "fn quick() {\n    for _turn in 0..3 {}\n}\n")], "a loop"),
    "a build script that sets a condition": ([("bindings/c/from-source/build.rs", "fn main() {", 'fn main() {\n    println!("cargo:rustc-cfg=quick");')],
                                             "bindings/c/from-source/build.rs"),
    "another edition": ([("rust/superio/Cargo.toml", 'edition = "2021"', 'edition = "2018"')], "rust/superio/Cargo.toml: package: edition: 2018"),
    "checks that are off": ([("bindings/c/from-source/Cargo.toml", "opt-level = 2", "opt-level = 2\noverflow-checks = false")],
                            "bindings/c/from-source/Cargo.toml: profile: release: overflow-checks"),
    "a build script under another name": ([("rust/vm-superio/Cargo.toml", 'edition = "2021"', 'edition = "2021"\nbuild = "other.rs"')],
                                          "rust/vm-superio/Cargo.toml: package: build"),
    "another compiler": ([("rust/rust-toolchain.toml", None, '[toolchain]\npath = "other"\n')], "rust has settings of Cargo"),
    "another compiler of a crate": ([("rust/superio/rust-toolchain", None, "other\n")], "rust/superio/rust-toolchain"),
    "an aligned field of C": (in_header("    uint8_t scratch; ", "    _Alignas(16) uint8_t scratch; "), "superio.h: _Alignas"),
    "a field of some bits": (in_header("    uint8_t scratch; ", "    uint8_t scratch : 4; "), "superio.h: superio_serial: "),
    "a packed struct of C": (in_header("} superio_serial;", "} __attribute__((packed)) superio_serial;"), "superio.h: packed"),
    "another symbol": (in_header("uint32_t superio_abi(void);", 'uint32_t superio_abi(void) __asm__("superio_i8042_write");'), "superio.h: __asm__"),
    "a number that changes": (in_header("} superio_serial;", "} superio_serial;\n#undef SUPERIO_SERIAL_FIFO_SIZE\n#define SUPERIO_SERIAL_FIFO_SIZE 64"),
                              "superio.h: SUPERIO_SERIAL_FIFO_SIZE twice"),
    "a function of C's own": (in_header("uint32_t superio_abi(void);", "uint32_t superio_abi(void);\nstatic int quick(void) { return 0; }"), "superio.h: static int quick"),
    "another count of copied bytes": ([(C_FUNCTIONS, "saved.as_ptr(), saved.len())", "saved.as_ptr(), saved.len() - 1)")], "a statement: unsafe"),
    "an item behind another": ([(C_FUNCTIONS, "        Err(error) => load_status(error),\n    }\n}\n", "        Err(error) => load_status(error),\n    }\n} const QUICK: u8 = 0;\n")],
                               "two items in a line"),
    "two files of a module": ([(DEVICES + "fifo/mod.rs", None, "")], "devices/fifo.rs: a file without its `mod`"),
    # What is lacking.
    **{f"{folder} without an edition": ([(f"{folder}/Cargo.toml", 'edition = "2021"\n', "")], f"{folder}/Cargo.toml: package: no edition")
       for folder in ("rust/superio", "rust/vm-superio", "bindings/c/from-source")},
    **{f"the C crate without {line}": ([("bindings/c/from-source/Cargo.toml", f"{line}\n", "")], f"bindings/c/from-source/Cargo.toml: {why}")
       for line, why in {'crate-type = ["staticlib", "cdylib"]': "lib: no crate-type", "lto = true": "profile: release: no lto",
                         "opt-level = 2": "profile: release: no opt-level", "[workspace]": "no workspace"}.items()},
    "a function that the header lacks": (
        in_header("bool superio_serial_is_coherent(const superio_serial *port)\n"
                  "    SUPERIO_MUST_USE SUPERIO_NONNULL SUPERIO_ACCESS(read_only, 1);\n", ""), "superio.h: superio_serial_is_coherent: None"),
    "an error that the header lacks": (in_header("    SUPERIO_LOAD_TOO_SHORT = 1, ", "    "), "superio.h: tooshort: None"),
    "a struct that Rust lacks": (in_header("uint32_t superio_abi(void);", "uint32_t superio_abi(void);\ntypedef struct superio_more {\n    uint8_t one;\n} superio_more;"),
                                 "superio.h: superio_more: [('one', 'uint8_t', 0)], and in Rust None"),
    "two structs of one name in C": ([(C_FUNCTIONS, "", "\n#[repr(C)]\npub struct Rtc {\n    pub lr: u32,\n}\n")], "superio.h: superio_rtc twice"),
    "a field that the header lacks": (in_header("    uint8_t scratch; ", "    "), "superio.h: superio_serial: "),
}


@pytest.fixture(scope="module", autouse=True)
def tokens_once():
    """Each case changes a file or two. The tokens of the others are made once: no reader changes a token."""
    with pytest.MonkeyPatch.context() as patch:
        patch.setattr(rust_tokens, "tokens", cache(rust_tokens.tokens))
        yield


@pytest.fixture(scope="module")
def sources(tmp_path_factory):
    folder = tmp_path_factory.mktemp("sources")
    copy_sources(folder)
    return folder


def changed(sources, root, changes):
    """The sources at `root` with these changes. A file that is not changed is that of `sources`, under another name."""
    shutil.copytree(sources, root, copy_function=os.link)
    for file, old, new in changes:
        (root / file).parent.mkdir(parents=True, exist_ok=True)
        text = "" if old is None else (root / file).read_text()
        assert old is None or old in text, f"{file} has no {old!r}"
        (root / file).unlink(missing_ok=True)
        (root / file).write_bytes((text.replace(old, new, 1) if old else text + new).encode())


@pytest.mark.parametrize("name", CHANGES)
def test_refused(name, sources, tmp_path):
    changes, why = CHANGES[name]
    root = tmp_path / "root"
    changed(sources, root, changes)
    with pytest.raises(rust2coq.Refused, match=re.escape(why).replace("LINE", r"\d+")):
        rerun.translated(root)


# What else the preprocessor could be told: to read another file, to pass over lines, to lay structs out in another way,
# or to take a word for another.
DIRECTIVES = ["#include <string.h>", "#include <stdint>", '#include "stdint.h"', "#include <sys/stdint.h>", "#if 1",
              "#ifdef OTHER", "#ifndef OTHER", "#pragma pack(1)", "#define other 1", "#undef uint8_t", "#line 1",
              "#error no", "# define other 1"]


@pytest.mark.parametrize("directive", DIRECTIVES)
def test_no_other_directive(directive, sources, tmp_path):
    changed(sources, tmp_path / "root", in_header("#include <stdint.h>\n", f"#include <stdint.h>\n{directive}\n"))
    with pytest.raises(rust2coq.Refused, match=rf"superio\.h: {re.escape(directive)}$"):
        rerun.translated(tmp_path / "root")


# The numbers of the header, except those that tell a monitor where a device is, and its version.
NUMBERS = {name: number for name, number in re.findall(
    r"^#define (SUPERIO_\w+) (\d+)$", (ROOT / HEADERS[0]).read_text("ascii"), re.M)
    if not re.match("SUPERIO_(VERSION|SERIAL_PORTS)", name)}


@pytest.mark.parametrize("name", at_least(6, NUMBERS))
def test_each_number_of_the_header_is_compared(name, sources, tmp_path):
    line = f"#define {name} {NUMBERS[name]}\n"
    changed(sources, tmp_path / "root", in_header(line, line.replace(NUMBERS[name], f"{int(NUMBERS[name]) + 1}")))
    with pytest.raises(rust2coq.Refused, match=rf"superio\.h: {name} is not |superio\.h: superio_\w+: "):
        rerun.translated(tmp_path / "root")


# Each number of the header, with lines that give it another value: C takes the last one. A line may cut a name in two.
AGAIN = ["#define {0} (7)", "#define {0} 7", "#define {0} 0x7", "#define {0}() 7", "#undef {0}",
         "#undef {0}\n#define {0} (7)", "#define {1}\\\n{2} 7", "#undef {1}\\\n{2}"]
NAMED = at_least(18, re.findall(r"^(?:#define| +) *(SUPERIO_\w+)(?: =)? \d+\b",
                                (ROOT / HEADERS[0]).read_text("ascii"), re.M))
LINES_AGAIN = [(name, again.format(name, name[:9], name[9:])) for name in NAMED
               for again in (AGAIN if name in ("SUPERIO_ABI", "SUPERIO_LOAD_OK") else AGAIN[:1])]
ENDS = "#ifdef __cplusplus\n}\n"   # which stands below all that the header declares


@pytest.fixture(scope="module")
def devices(sources):
    """The crate of the devices, with the C functions."""
    left = rerun.left_out()[0]
    functions = safe_part(rust_tokens.source(sources / C_FUNCTIONS), left["c"][Path("lib.rs")])
    return rust2coq.Crate(sources / CORE, functions, left["core"])


def test_no_number_of_the_header_gets_another_value(devices, sources, tmp_path):
    """Neither a size nor what a load returns."""
    shutil.copytree(sources / "bindings/c", tmp_path / "bindings/c")
    text = (sources / HEADERS[0]).read_text("ascii")
    check_header(tmp_path, devices)
    for name, lines in LINES_AGAIN:
        for header in HEADERS:
            (tmp_path / header).write_text(text.replace(ENDS, f"{lines}\n{ENDS}"), "ascii")
        with pytest.raises(rust2coq.Refused, match=rf"superio\.h: ({name} twice|a word may go on in the next line: )"):
            check_header(tmp_path, devices)


# What Cargo and rustup read in a folder, for all that is built below it: in each folder from the root to the three crates,
# and in these, where a build script counts too.
SETTINGS = [".cargo", "rust-toolchain", "rust-toolchain.toml"]
BESIDE = [*((folder, name) for folder in (".", "rust", "bindings", "bindings/c") for name in ["Cargo.toml", *SETTINGS]),
          *((crate, name) for crate in ("rust/superio", "rust/vm-superio", "bindings/c/from-source") for name in SETTINGS),
          ("rust/superio", "build.rs"), ("rust/vm-superio", "build.rs")]


@pytest.mark.parametrize("folder, name", BESIDE)
def test_no_other_settings(folder, name, sources, tmp_path):
    changed(sources, tmp_path / "root", [(f"{folder}/{name}", None, "")])
    with pytest.raises(rust2coq.Refused, match=f"^{folder}/{name}$|has settings of Cargo$"):
        rerun.translated(tmp_path / "root")


@pytest.mark.parametrize("name", ["main.rs", "bin/other.rs", "bin/other/main.rs"])
@pytest.mark.parametrize("crate", at_least(3, MANIFESTS))
def test_no_program_beside_a_library(crate, name, sources, tmp_path):
    """Cargo would compile it, too, by its name alone."""
    changed(sources, tmp_path / "root", [(f"{crate}/src/{name}", None, "fn main() {}\n")])
    with pytest.raises(rust2coq.Refused, match=f"^{crate}/src/(main.rs|bin)$"):
        rerun.translated(tmp_path / "root")


@pytest.mark.parametrize("name", ["other.rs", "other/mod.rs", "lib/other.rs", "table"])
def test_the_c_functions_are_in_one_file(name, sources, tmp_path):
    """No other one is read, so there is none that rustc could read."""
    changed(sources, tmp_path / "root", [(f"{rerun.CRATES['c']}/{name}", None, "")])
    with pytest.raises(rust2coq.Refused, match=f"^{rerun.CRATES['c']}: more than lib.rs$"):
        rerun.translated(tmp_path / "root")


# What rustc reads in another way than it stands there.
HIDDEN = {
    "a macro of a known name": CHANGES["a macro of a known name"][0],
    "a module at another path": [(CORE + "lib.rs", "mod printed;", '#[path = "other.rs"]\nmod extra;\nmod printed;'),
                                 (CORE + "other.rs", None, QUICK), (CORE + "extra.rs", None, QUICK.replace("time\n", "time + 1\n"))],
    "cfg": [(DEVICES + "i8042.rs", "pub fn is", '#[cfg(any())]\npub fn is_reset_command(_: u8, _: u8) -> bool {\n    true\n}\n\npub fn is')],
    "an attribute of a statement": [(DEVICES + "i8042.rs", "    offset ==", "    #[cfg(any())]\n    return true;\n    offset ==")],
}


def compared(root, folder, rustc="rustc"):
    return [*expanded.compare(root, rustc, rerun.CRATES, rerun.left_out()[0], folder)]


@pytest.mark.needs("debian-rust")
def test_rustc_reads_the_same(tmp_path):
    """Debian's rustc does."""
    found = compared(ROOT, tmp_path, "/usr/bin/rustc")
    assert [folder.name for folder, count in found if count > 900] == ["superio", "from-source", "vm-superio"]


@pytest.mark.needs("cargo")
def test_the_tool_asks_rustc(tmp_path):
    """That of PATH. Coq is a stand-in that proves nothing, which is what the run says next."""
    (tmp_path / "coqc").write_text("#!/bin/sh\necho no >&2\nexit 1\n")
    (tmp_path / "coqc").chmod(0o755)
    environment = os.environ | {"PATH": f"{tmp_path}:{os.environ['PATH']}"}
    command = [ROOT / "tools/recheck", "--no-install", "--rustc", "rustc"]
    ended = run(command, env=environment, stderr=subprocess.PIPE)
    assert re.fullmatch(r"(rustc reads the same \d{4,} tokens of [\w/-]+\n){3}", ended.stdout), ended.stdout
    assert (ended.returncode, ended.stderr) == (1, "recheck: Prelude.v is not proved:\nno\n\n")


@pytest.mark.needs("cargo")
@pytest.mark.parametrize("name", HIDDEN)
def test_rustc_reads_something_else(name, sources, tmp_path):
    changed(sources, tmp_path / "root", HIDDEN[name])
    with pytest.raises(rust2coq.Refused, match="rustc reads|'\\$e:expr"):
        compared(tmp_path / "root", tmp_path)


def test_nothing_else_is_left_out():
    """The lists name files that are there; each item of them is left out, or the run fails."""
    assert [path for path in rerun.left_out_items((ROOT / "recheck/left-out.rs").read_text()) if not (ROOT / path).exists()] == []
