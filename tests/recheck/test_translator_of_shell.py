# SPDX-License-Identifier: Apache-2.0 OR BSD-3-Clause
"""The translator of the shell refuses what it does not know, and is right about the calls and results of what it knows."""
import re

import pytest
from harness import at_least, check
from shell_cases import REFUSED, RIGHT
from shell_crate import STD

import rust2coq
import shell2coq

pytestmark = pytest.mark.needs("cargo")

ALLOWED = "#![allow(dead_code, unused, non_snake_case, clippy::all, unconditional_panic, arithmetic_overflow)]\n"
# Objects that answer their call number i by bit i of a script: 0 takes, 1 refuses. `record` counts and notes each call.
OBJECTS = """
use std::cell::RefCell;
use std::rc::Rc;
#[derive(Clone)]
pub struct Script(Rc<RefCell<(u32, Vec<u32>)>>);
impl Script {
    fn record(&self, call: u32) -> bool {
        let mut script = self.0.borrow_mut();
        let refuses = script.0 >> script.1.len() & 1 == 1;
        script.1.push(call);
        refuses
    }
}
impl Trigger for Script {
    type E = u32;
    fn trigger(&self) -> Result<(), u32> { if self.record(1) { Err(5) } else { Ok(()) } }
}
impl SerialEvents for Script {
    fn out_byte(&self) { self.record(2); }
    fn tx_lost_byte(&self) { self.record(3); }
    fn received(&self, first: u8, others: u32) { self.record(u32::from(first) * 1000 + others); }
}
impl Write for Script {
    fn write(&mut self, _: &[u8]) -> io::Result<usize> { unreachable!() }
    fn write_all(&mut self, bytes: &[u8]) -> io::Result<()> {
        let number = bytes.iter().fold(4, |number, &byte| number * 256 + u32::from(byte));
        if self.record(number) { Err(io::ErrorKind::Other.into()) } else { Ok(()) }
    }
    fn flush(&mut self) -> io::Result<()> { if self.record(9) { Err(io::ErrorKind::Other.into()) } else { Ok(()) } }
}
pub fn show(answers: u32) {
    let script = Script(Rc::new(RefCell::new((answers, vec![]))));
    let mut device = Device { n: 7, trigger: script.clone(), events: script.clone(), out: script.clone() };
    let found = std::panic::catch_unwind(std::panic::AssertUnwindSafe(|| device.case()));
    let calls = script.0.borrow().1.iter().map(u32::to_string).collect::<Vec<_>>().join("; ");
    println!("([{calls}], {})", found.map_or("None".to_string(), |number| format!("Some {number}")));
}
"""
COQ = """
Definition number (call : Call unit unit unit) : N :=
  match call with
  | Trigger_trigger _ => 1 | SerialEvents_out_byte _ => 2 | SerialEvents_tx_lost_byte _ => 3 | Write_flush _ => 9
  | SerialEvents_received _ first others => first * 1000 + others
  | Write_write_all _ bytes => fold_left (fun number byte => number * 256 + byte) bytes 4 | SystemTime_now => 0
  end.
Definition objects (script : N) (past : list (Happened (Answer := @Answer unit unit unit N N))) (call : Call unit unit unit) : Answer N N call :=
  let answer := if N.testbit script (length past) then Err 5 else Ok tt in
  match call with
  | Trigger_trigger _ | Write_write_all _ _ | Write_flush _ => answer
  | SystemTime_now => 2000
  | _ => tt
  end.
Definition show script := let '(calls, outcome) := run (objects script) [] (vm_Device_case (mk_VmDevice 7 tt tt tt)) in
  (flat_map (fun had => match had with happened SystemTime_now _ => [] | happened call _ => [number call] end) calls, option_map fst outcome).
"""
SCRIPTS = range(8)


def shell_of(folder, source):
    """The crate of a source, with nothing below it"""
    for name, text in (("core", ""), ("shell", source)):
        (folder / name).mkdir(parents=True, exist_ok=True)
        (folder / name / "lib.rs").write_text(text)
    return shell2coq.ShellCrate(folder / "shell", rust2coq.Crate(folder / "core"))


def translated(folder, source):
    return shell2coq.translate(shell_of(folder, source), ["VmDevice::case"], "")


@pytest.mark.parametrize("path", at_least(6, STD))
def test_name_of_the_library(path, tmp_path):
    """What is brought in of std has the one name by which it is known. By another's it would be taken for that."""
    for name in {*STD.values(), path.rpartition("::")[2]}:
        source = f"use {path} as {name};"
        if name == STD[path]:
            shell_of(tmp_path, source)
        else:
            with pytest.raises(rust2coq.Refused, match=f": a use of {path}$"):
                shell_of(tmp_path, source)


@pytest.mark.parametrize("name", REFUSED)
def test_refused(name, tmp_path):
    why, source = REFUSED[name]
    with pytest.raises(rust2coq.Refused, match=re.escape(why)):
        translated(tmp_path, source)


def test_refused_are_rust(tmp_path):
    """Each is a program that rustc takes: what is refused is the form, and no slip."""
    modules = "".join(f"mod case_{i} {{ {source} }}\n" for i, (_, source) in enumerate(REFUSED.values()))
    (tmp_path / "lib.rs").write_text(ALLOWED + modules)
    check(["rustc", "--edition", "2021", "--crate-type", "lib", "--emit", "metadata", "-o", tmp_path / "out", tmp_path / "lib.rs"])


def test_what_is_not_asked_for_may_be_unknown(tmp_path):
    """A function that is not asked for may have a form that is not known."""
    source = RIGHT["an answer"].replace("pub fn case", "pub fn other(&mut self) { for _i in 0..3 { self.n += 1; } }\npub fn case")
    assert "vm_Device_case" in translated(tmp_path, source)


@pytest.mark.needs("coq", "cargo")
def test_right(computed, tmp_path):
    """For eight scripts of answers, both make the same calls and return the same number, or panic."""
    modules = "".join(f"mod case_{i} {{ {source} {OBJECTS} }}\n" for i, source in enumerate(RIGHT.values()))
    calls = "".join(f"    for answers in 0..{len(SCRIPTS)} {{ case_{i}::show(answers); }}\n" for i in range(len(RIGHT)))
    (tmp_path / "main.rs").write_text(f"{ALLOWED}{modules}fn main() {{ std::panic::set_hook(Box::new(|_| {{}}));\n{calls}}}\n")
    check(["rustc", "--edition", "2021", "-C", "debug-assertions=on", "-o", tmp_path / "main", tmp_path / "main.rs"])
    expected = check([tmp_path / "main"]).splitlines()

    text = ""
    for i, source in enumerate(RIGHT.values()):
        body = "\n".join(line for line in translated(tmp_path / str(i), source).splitlines() if not line.startswith("Require"))
        shows = "".join(f"Compute show {script}.\n" for script in SCRIPTS)
        text += f"Module Case{i}.\n{body}\n{COQ}{shows}End Case{i}.\n"
    printed = computed(text, ("Prelude", "Machine", "Acts"))
    found = [re.sub(r"\s+", " ", part) for part in re.findall(r"^ +=\s+(\(.*?\))\s+:", printed, re.M | re.S)]
    names = [f"{name}, {script}" for name in RIGHT for script in SCRIPTS]
    assert dict(zip(names, found)) == dict(zip(names, expected))
