# SPDX-License-Identifier: Apache-2.0 OR BSD-3-Clause
"""Functions of a device that owns objects, which a translator may get wrong. Each `case` returns a number.

REFUSED has those that shell2coq does not know, and why it refuses each. RIGHT has those that it translates: for each
answers of the objects, what Coq computes has to have the calls and the result of rustc's code.
"""

HEAD = """
use std::io::{self, Write};
pub trait Trigger { type E: core::fmt::Debug; fn trigger(&self) -> Result<(), Self::E>; }
pub trait SerialEvents { fn out_byte(&self); fn tx_lost_byte(&self); fn received(&self, first: u8, others: u32); }
pub enum Error<E> { Trigger(E), IOError(io::Error), FullFifo }
pub struct Pair { pub a: u32, pub b: u32 }
pub struct Nothing;
pub struct Device<T: Trigger, EV: SerialEvents, W: Write> { n: u32, trigger: T, events: EV, out: W }
const SEVEN: u32 = 7;
fn set(x: &mut u32, y: u32) { *x = y; }
"""
IMPL = "impl<T: Trigger, EV: SerialEvents, W: Write> Device<T, EV, W> {"


def device(body, more="", items=""):
    """A crate whose device has this `case`"""
    return f"{HEAD}{items}\n{IMPL}\npub fn case(&mut self) -> u32 {{ {body} }}\n{more}\n}}\n"


BOTH = """fn both(&mut self) -> Result<u32, Error<T::E>> { self.trigger.trigger().map_err(Error::Trigger)?;
    self.out.flush().map_err(Error::IOError)?; Ok(9) }"""
SOME = "fn some(&self) -> Option<u32> { if self.n == 7 { Some(self.n) } else { None } }"

MORE = "fn more(&mut self) -> Result<(), T::E> { self.n = 5; self.trigger.trigger() }"

TIME = """use std::time::{SystemTime, UNIX_EPOCH};
fn moment_of(time: SystemTime) -> u64 { time.duration_since(UNIX_EPOCH).map_or(0, |since| since.as_secs()) }
fn moment() -> u64 { moment_of(SystemTime::now()) }"""

RIGHT = {
    "an answer": device("match self.trigger.trigger() { Ok(()) => 1, Err(_) => 2 }"),
    "calls in order": device("self.events.out_byte(); let _sent = self.out.write_all(&[7, 8]); self.events.tx_lost_byte(); self.n"),
    "an event with numbers": device("self.events.received(7, self.n * 2); self.n"),
    "and_then": device("match self.out.write_all(&[1]).and_then(|()| self.out.flush()) { Ok(()) => 1, Err(_) => 2 }"),
    "map_err and ?": device("match self.both() { Ok(n) => n, Err(_) => 3 }", BOTH),
    "which error": device("match self.both() { Ok(n) => n, Err(e) => self.which(e) }",
                          BOTH + "fn which(&self, e: Error<T::E>) -> u32 { match e { Error::Trigger(_) => 4, Error::IOError(_) => 5, _ => 6 } }"),
    "ok_or": device("match self.found() { Ok(n) => n, Err(_) => 3 }", SOME + BOTH + """fn found(&mut self) -> Result<u32, Error<T::E>>
        { let n = self.some().ok_or(Error::FullFifo)?; self.n = 1; let m = self.both()?; Ok(n + m) }"""),
    "a refusal leaves what was done": device("let r = self.part(); match r { Ok(()) => self.n, Err(_) => self.n + 100 }",
        "fn part(&mut self) -> Result<(), T::E> { self.n = 1; self.trigger.trigger()?; self.n = 2; self.trigger.trigger() }"),
    "try_for_each": device("let n: u8 = 3; match (0..n).try_for_each(|_| self.trigger.trigger()) { Ok(()) => 1, Err(_) => 2 }"),
    "try_for_each of none": device("let n: u8 = 0; match (0..n).try_for_each(|_| self.trigger.trigger()) { Ok(()) => 1, Err(_) => 2 }"),
    "replace": device("let old = std::mem::replace(&mut self.n, 5); self.events.out_byte(); old * 10 + self.n"),
    "map of a range": device("let twice = (1..4).map(|i| i * 2); let all: Vec<usize> = twice.collect(); all[2] as u32 * 10 + all.len() as u32"),
    "map that panics": device("let all: Vec<usize> = (0..4).map(|i| 6 / i).collect(); all.len() as u32"),
    "map of a result": device("match self.both().map(|n| n + 1) { Ok(n) => n, Err(_) => 3 }", BOTH),
    "a method of and_then's closure that changes": device(
        "match self.trigger.trigger().and_then(|()| self.more()) { Ok(()) => self.n, Err(_) => self.n + 100 }", MORE),
    "a method of map's closure that changes": device(
        "match self.more().map(|()| self.counted()) { Ok(n) => n * 10 + self.n, Err(_) => self.n + 100 }",
        MORE + "fn counted(&mut self) -> u32 { set(&mut self.n, 4); self.n }"),
    "a method of map_or's closure that changes": device(
        "if self.some().map_or(false, |n| self.is_more(n)) { self.n } else { self.n + 100 }", SOME + MORE
        + "fn is_more(&mut self, n: u32) -> bool { match self.more() { Ok(()) => n == 7, Err(_) => false } }"),
    "map_or": device("if self.some().map_or(false, |n| n == 7) { self.n = 8; } if self.some().map_or(true, |n| n == 7) { self.n } else { 2 }", SOME),
    "map_or of none": device("self.n = 8; if self.some().map_or(false, |n| n == 7) { 1 } else { 2 }", SOME),
    "the host's time": device("if moment() > 1000 { self.events.out_byte(); 1 } else { 2 }", items=TIME),
    "get_mut": device("self.part(3).unwrap_or(50) + self.part(5).unwrap_or(60)", """fn part(&self, count: usize) -> Option<u32> {
        let bytes: &[u8] = &[1, 2, 3, 4, 5]; let mut a = [9u8; 4]; a.get_mut(..count)?.copy_from_slice(&bytes[..count]); Some(u32::from(a[2])) }"""),
    "get_mut of another length": device("self.part(3).unwrap_or(50)", """fn part(&self, count: usize) -> Option<u32> {
        let mut a = [9u8; 4]; a.get_mut(..count)?.copy_from_slice(&[1, 2]); Some(u32::from(a[2])) }"""),
    "the fields of a struct": device("let Pair { b, a } = Pair { a: 1, b: 2 }; a * 10 + b"),
    "a parameter that is set": device("set(&mut self.n, 4); self.n"),
    "a constant as an arm": device("match self.n { SEVEN => 1, _ => 2 }"),
    "a type without fields": device("let nothing: Option<Nothing> = Some(Nothing); if nothing.is_some() { 1 } else { 2 }"),
    "overflow": device("self.events.out_byte(); let n: u32 = 4294967295; n + self.n"),
    "an early return": device("let r = self.trigger.trigger(); if r.is_ok() { return 5; } self.events.out_byte(); 6".replace(
        "let r = self.trigger.trigger(); if r.is_ok() { return 5; }", "match self.trigger.trigger() { Ok(()) => return 5, Err(_) => {} }")),
    "a call in a condition": device("if self.n == 8 && self.asks() { 1 } else if self.n == 7 || self.asks() { 2 } else { 3 }",
        "fn asks(&self) -> bool { match self.trigger.trigger() { Ok(()) => true, Err(_) => false } }"),
}

REFUSED = {
    "a ? in a closure": ("a closure", device(
        "match self.out.write_all(&[1]).and_then(|()| { self.out.flush()?; Ok(()) }) { Ok(()) => 1, Err(_) => 2 }")),
    "a closure that changes": ("a closure", device(
        "let n: u8 = 3; match (0..n).try_for_each(|_| { self.n += 1; Ok::<(), u8>(()) }) { Ok(()) => 1, Err(_) => 2 }".replace(
            "Ok::<(), u8>(())", "self.trigger.trigger()"))),
    "a call in a map": ("a closure that calls the shell", device(
        "let all: Vec<usize> = (0..3).map(|i| { self.events.out_byte(); i }).collect(); all.len() as u32")),
    "a method of a map's closure": ("a closure that calls the shell", device(
        "let all: Vec<usize> = (0..3).map(|i| { self.tell(); i }).collect(); all.len() as u32", "fn tell(&self) { self.events.out_byte(); }")),
    "another method of Write": ("the method write of Write", device("match self.out.write(&[1]) { Ok(_) => 1, Err(_) => 2 }")),
    "a format": ("the macro write", device('match write!(self.out, "a") { Ok(()) => 1, Err(_) => 2 }')),
    "a mutable reference that is returned": ("a mutable reference outside a parameter", device(
        "let _out = self.out(); 1", "pub fn out(&mut self) -> &mut W { &mut self.out }")),
    "two objects of one trait": ("the type variable U", device("1", items="pub struct Two<T: Trigger, U: Trigger> { pub a: T, pub b: U }")),
    "a device of another writer": ("the type ('of', 'VmDevice'", device(
        "1", "pub fn other(device: Device<T, EV, Vec<u8>>) -> u32 { device.n } pub fn again(&self) -> u32 { 1 }").replace(
            "-> u32 { 1 }\n", "-> u32 { Self::case_of(self) }\n").replace("pub fn case(&mut self) -> u32 { 1 }",
            "pub fn case(device: Device<T, EV, Vec<u8>>) -> u32 { device.n }")),
    "a loop": ("a loop", device("for _i in 0..3 { self.n += 1; } self.n")),
    "a match of a tuple": ("a match of a tuple", device("match (self.n == 7, true) { (true, _) => 1, _ => 2 }")),
    "the pattern of a list": ("the pattern of a list", device("let [a, b] = [1u32, 2]; a + b")),
    "a range from another number": ("the range of try_for_each", device(
        "let n: u8 = 3; match (1..n).try_for_each(|_| self.trigger.trigger()) { Ok(()) => 1, Err(_) => 2 }")),
    "a method of try_for_each's closure that changes": ("try_for_each of", device(
        "let n: u8 = 3; match (0..n).try_for_each(|_| self.more()) { Ok(()) => self.n, Err(_) => 2 }", MORE)),
    "map_err with a closure": ("map_err", device("match self.both() { Ok(n) => n, Err(_) => 3 }",
        "fn both(&mut self) -> Result<u32, Error<T::E>> { self.trigger.trigger().map_err(|e| Error::Trigger(e))?; Ok(9) }")),
    "a default that calls": ("ok_or", device("match self.found() { Ok(n) => n, Err(_) => 3 }", SOME
        + "fn found(&mut self) -> Result<u32, u32> { self.some().ok_or(self.n + 1) }")),
    "? of an option": ("a ? of", device("self.next().unwrap_or(1)", SOME + "fn next(&self) -> Option<u32> { let n = self.some()?; Some(n) }")),
    "another trait of the library": ("a use of std::fmt::Display", device("1", items="use std::fmt::Display;")),
    "what is done at the end": ("the implementations of Drop", device(
        "1", items="impl<T: Trigger, EV: SerialEvents, W: Write> Drop for Device<T, EV, W> { fn drop(&mut self) { self.events.out_byte(); } }")),
    "a trait with a body": ("the trait More has a body", device("1", items="pub trait More { fn more(&self) -> u32 { 1 } }")),
    "an event that changes its argument": ("the method lost of a trait", device("1", items="pub trait RtcEvents { fn lost(&self, n: &mut u32); }")),
    "an event that changes its object": ("the method lost of a trait", device("1", items="pub trait RtcEvents { fn lost(&mut self); }")),
    "a trait for two": ("the implementations of More", device("1", items="""pub trait More { fn more(&self) -> u32; }
        impl More for Pair { fn more(&self) -> u32 { 1 } } impl More for Nothing { fn more(&self) -> u32 { 2 } }""")),
    "another time": ("vm_moment is another function", device("1", items="fn moment() -> u64 { 5 }")),
    "some of the fields": ("a name expected", device("let Pair { b, .. } = Pair { a: 1, b: 2 }; b")),
    "a field under another name": (", expected", device("let Pair { b, a: c } = Pair { a: 1, b: 2 }; b + c")),
    "an object that is replaced": ("a mutable reference to Write in a variable", device(
        "let out = &mut self.out; match out.flush() { Ok(()) => 1, Err(_) => 2 }")),
    "a macro of its own": ("'$", device("one!()", items="macro_rules! one { ($($more:tt)*) => { 1 } }")),
    "a condition of the build": ("cfg(test)", device("1", items="#[cfg(test)] fn two() -> u32 { 2 }")),
}
REFUSED["a device of another writer"] = ("the type ('of', 'VmDevice'", f"""{HEAD}
{IMPL} pub fn case(&mut self, device: Device<T, EV, Vec<u8>>) -> u32 {{ device.n }} }}""")
