# SPDX-License-Identifier: Apache-2.0 OR BSD-3-Clause
"""Functions of Rust that a translator may get wrong. Each `case` has no parameter and returns a number.

REFUSED has those that rust2coq does not know, and why it refuses each. RIGHT has those that it translates: what Coq
computes has to be what rustc's code returns, or a panic in both.
"""
from itertools import product

PAIR = """
#[derive(Clone, Copy)]
pub struct Pair { pub a: u32, pub b: u32 }
pub fn bump(x: &mut u32) -> u32 { *x = *x + 1; *x }
"""
QUEUE = """
pub struct Queue { pub n: u32 }
impl Queue {
    pub fn more(&mut self) -> u32 { self.n += 1; self.n }
    pub fn get(&self) -> u32 { self.n }
    pub fn take(&mut self) -> Option<u32> { if self.n == 0 { return None; } self.n -= 1; Some(self.n) }
}
"""
COLOR = """
#[derive(Clone, Copy)]
pub enum Color { Red, Green, Value(u32) }
"""

REFUSED = {
    "return in for": ("a return in a loop",
        "pub fn case() -> u32 { let mut n = 0; for i in 0..3 { if i == 1 { return 7; } n += 1; } n }"),
    "? in for": ("a ? in a loop",
        """fn odd(n: u32) -> Result<u32, u32> { if n % 2 == 1 { Err(n) } else { Ok(n) } } fn all() -> Result<u32,
        u32> { let mut n = 0; for i in 0..4 { n += odd(3)?; } Ok(n) } pub fn case() -> u32 { match all() { Ok(n)
        => n, Err(e) => e + 100 } }"""),
    "break": ("a statement",
        "pub fn case() -> u32 { let mut n = 0; for _i in 0..9 { if n == 2 { break; } n += 1; } n }"),
    "continue": ("a statement",
        "pub fn case() -> u32 { let mut n = 0; for _i in 0..9 { if n == 2 { continue; } n += 1; } n }"),
    "loop": ("a statement", "pub fn case() -> u32 { let mut n = 0; loop { n += 1; if n == 3 { return n; } } }"),
    "while let None": ("a loop",
        QUEUE + "pub fn case() -> u32 { let mut q = Queue { n: 0 }; while let None = q.take() { q.n += 2; } q.n }"),
    "while let Ok": ("a loop",
        """fn small(n: u32) -> Result<u32, u32> { if n < 3 { Ok(n + 1) } else { Err(n) } } pub fn case() -> u32 { let
        mut n = 0; while let Ok(m) = small(n) { n = m; } n }"""),
    "while let of a variant": ("a loop",
        COLOR + """fn less(n: u32) -> Color { if n == 0 { Color::Red } else { Color::Value(n - 1) } } pub fn case() ->
        u32 { let mut n = 3; while let Color::Value(m) = less(n) { n = m; } n }"""),
    "while": ("let expected", "pub fn case() -> u32 { let mut n = 0; while n < 3 { n += 1; } n }"),
    "literal in Some": ("a pattern in a pattern",
        "pub fn case() -> u32 { let x: Option<u32> = Some(5); match x { Some(0) => 1, Some(_) => 2, None => 3 } }"),
    "alternatives in Some": (") expected",
        "pub fn case() -> u32 { let x: Option<u32> = Some(5); match x { Some(1 | 2) => 1, _ => 2 } }"),
    "nested patterns": ("a pattern in a pattern",
        "pub fn case() -> u32 { let x: Option<Option<u32> > = Some(None); match x { Some(None) => 1, _ => 2 } }"),
    "bare variant": ("a use of self::Color::Red",
        COLOR + "use self::Color::Red; pub fn case() -> u32 { let c = Color::Green; match c { Red => 1, _ => 2 } }"),
    "glob use": ("a use of Color::*",
        COLOR + "use Color::*; pub fn case() -> u32 { match Color::Green { Color::Red => 1, _ => 2 } }"),
    "use as": ("a call of a value", "use core::cmp::min as least; pub fn case() -> u32 { least(1, 2) }"),
    "a function under another name": ("a use of self::n as other",
        "fn n() -> u32 { 1 } use self::n as other; pub fn case() -> u32 { n() }"),
    "another name as a pattern": ("a name expected",
        "const FIVE: u32 = 5; use self::FIVE as NUMBER; pub fn case() -> u32 { let x: u32 = 5; match x { NUMBER => 1, _ => 2 } }"),
    "another name in a path": ("; expected",
        "pub mod one { pub const FIVE: u32 = 5; } use self::one::FIVE as NUMBER; pub fn case() -> u32 { NUMBER }"),
    "use core": ("a use of core::cmp::max", "use core::cmp::max; pub fn case() -> u32 { max(1, 2) }"),
    "variable as arm": ("the variable all as an arm",
        "pub fn case() -> u32 { let x: u32 = 5; match x { 1 => 2, all if all > 3 => all, _ => 0 } }"),
    "last arm a variable": ("the variable other as an arm",
        "pub fn case() -> u32 { let x: u32 = 5; match x { 1 => 2, other => other } }"),
    "alias as an argument": ("a mutable reference",
        PAIR + "pub fn case() -> u32 { let mut q = Pair { a: 1, b: 2 }; let r = &mut q.a; bump(r) }"),
    "alias of an alias": ("the reference r as a value",
        PAIR + "pub fn case() -> u32 { let mut q = Pair { a: 1, b: 2 }; let r = &mut q.a; let s = r; *s = 5; q.a }"),
    "alias of an item": ("a place that is changed",
        "pub fn case() -> u32 { let mut q = [1u32, 2]; let r = &mut q[1]; *r = 5; q[1] }"),
    "alias that may be changed": ("a mutable reference in a variable",
        """pub fn case() -> u32 { let mut a = 1u32; let mut b = 2u32; let mut r = &mut a; *r = 3; r = &mut b; *r = 4;
        a + b }"""),
    "alias of all": ("a mutable reference to Pair in a variable",
        PAIR + "pub fn case() -> u32 { let mut q = Pair { a: 1, b: 2 }; let r = &mut q; r.a = 5; q.a }"),
    "reference as a value": ("the reference q as a value",
        PAIR + """fn set(q: &mut Pair) { let r = q; r.a = 9; } pub fn case() -> u32 { let mut q = Pair { a: 1, b: 2 };
        set(&mut q); q.a }"""),
    "reference in a tuple": ("the reference q as a value",
        PAIR + """fn set(q: &mut Pair) { let (r, _) = (q, 1u32); r.a = 9; } pub fn case() -> u32 { let mut q = Pair { a:
        1, b: 2 }; set(&mut q); q.a }"""),
    "reference returned": ("a mutable reference outside a parameter",
        """fn part(q: &mut [u32; 2]) -> &mut u32 { &mut q[0] } pub fn case() -> u32 { let mut q = [1, 2];
        *part(&mut q) = 5; q[0] }"""),
    "mutable binding": ("a mutable reference outside an argument",
        """pub fn case() -> u32 { let mut x: Option<u32> = Some(1); match &mut x { Some(n) => *n = 5, None => {} }
        x.unwrap_or(0) }"""),
    "ref mut": ("a name expected",
        """pub fn case() -> u32 { let mut x: Option<u32> = Some(1); if let Some(ref mut n) = x { *n = 5; }
        x.unwrap_or(0) }"""),
    "+= of a call that changes": ("+= of what changes something",
        QUEUE + "pub fn case() -> u32 { let mut q = Queue { n: 1 }; let mut x = 10; x += q.more(); x + q.n }"),
    "+= at an index": ("+= at an index",
        "pub fn case() -> u32 { let mut p = [1u32, 2]; let i = 1; p[i] += 5; p[1] }"),
    "index that changes": ("an index that changes something",
        QUEUE + """pub fn case() -> u32 { let mut p = [0u32; 9]; let mut q = Queue { n: 1 }; p[q.more() as usize] = 5; p[2]
        + q.n }"""),
    "guard that changes": ("a guard that changes something",
        QUEUE + """pub fn case() -> u32 { let mut q = Queue { n: 1 }; let x: u32 = 5; match x { 5 if q.more() == 3 => 1, _
        => q.n } }"""),
    "method on a call's result": ("a mutable reference outside a parameter",
        QUEUE + """impl Queue { pub fn it(&mut self) -> &mut Queue { self.n += 1; self } } pub fn case() -> u32 { let mut q
        = Queue { n: 1 }; q.it().get() }"""),
    "comparison of arrays by order": ("< of ('list', 'u8')",
        "pub fn case() -> u32 { let (x, y) = ([1u8, 2], [1u8, 3]); if x < y { 1 } else { 2 } }"),
    "comparison of structs": ("== of Single",
        """#[derive(Clone, Copy, PartialEq)] pub struct Single { pub a: u32 } pub fn case() -> u32 { if (Single {
        a: 1 }) == (Single { a: 1 }) { 1 } else { 2 } }"""),
    "comparison of variants": ("== of Kind",
        """#[derive(Clone, Copy, PartialEq)] pub enum Kind { A, B } pub fn case() -> u32 { if Kind::A == Kind::B {
        1 } else { 2 } }"""),
    "a usize that not every machine has": ("4294967296 is no usize",
        "pub fn case() -> u32 { let x: usize = 4294967296; (x / 2) as u32 }"),
    "rest in the middle": ("a rest without a name",
        """pub fn case() -> u32 { let x = [1u8, 2, 3]; let [first, .., last] = x; u32::from(first) +
        u32::from(last) }"""),
    "named rest in the middle": ("a rest that is not last",
        """pub fn case() -> u32 { let x: &[u8] = &[1u8, 2, 3]; match x { [f, _mid @ .., l] => u32::from(*f) +
        u32::from(*l), _ => 0 } }"""),
    "cfg": ("the attribute cfg(debug_assertions)",
        """#[cfg(debug_assertions)] pub fn n() -> u32 { 1 } #[cfg(not(debug_assertions))] pub fn n() -> u32 { 2 }
        pub fn case() -> u32 { n() }"""),
    "cfg in a body": ("a name expected",
        "pub fn case() -> u32 { #[cfg(debug_assertions)] let x = 1; #[cfg(not(debug_assertions))] let x = 2; x }"),
    "tuple struct": ("{ expected", "pub struct Holder(pub u32); pub fn case() -> u32 { let t = Holder(5); t.0 }"),
    "equal names in modules": ("; expected",
        "mod a { pub fn n() -> u32 { 1 } } fn n() -> u32 { 2 } pub fn case() -> u32 { n() + a::n() }"),
    "local function": ("a statement", "pub fn case() -> u32 { fn n() -> u32 { 4 } n() }"),
    "closure": ("an expression", "pub fn case() -> u32 { let f = |x: u32| x + 1; f(4) }"),
    "call of a variable": ("the name two",
        "fn one() -> u32 { 1 } fn two() -> u32 { 2 } pub fn case() -> u32 { let one = two; one() }"),
    "negative": ("an expression", "pub fn case() -> u32 { let x: i64 = -5; if x < 0 { 1 } else { 2 } }"),
    "part of three": (".0 of", "pub fn case() -> u32 { let p = (1u32, 2u32, 3u32); p.0 }"),
    "part that is changed": ("a place that is changed", "pub fn case() -> u32 { let mut p = (1u32, 2u32); p.0 = 5; p.0 }"),
    "product of i64": ("* of i64", "pub fn case() -> u32 { let x: i64 = 7; let y = x * x; y as u32 }"),
    "division of i64": ("/ of i64",
        "pub fn case() -> u32 { let x: i64 = 0 - 7; let y: i64 = x / 2; (y + 100) as u32 }"),
    "remainder of i64": ("% of i64",
        "pub fn case() -> u32 { let x: i64 = 0 - 7; let y: i64 = x % 4; (y + 100) as u32 }"),
    "cast to i64": ("u64 as i64",
        "pub fn case() -> u32 { let x: u64 = 18446744073709551615; let y = x as i64; if y < 0 { 1 } else { 2 } }"),
    "cast of a bool": ("bool as u32", "pub fn case() -> u32 { let x = true; x as u32 }"),
    "other integers": ("the type u128", "pub fn case() -> u32 { let x: u128 = 5; x as u32 }"),
    "number without a type": ("a type that is not known", "pub fn case() -> u32 { let x = 5; let _y = x; 1 }"),
    "shift": ("a shift", "pub fn case() -> u32 { let x: u8 = 200; let y = x << 1; u32::from(y) }"),
    "shift right": ("a shift", "pub fn case() -> u32 { let x: u32 = 200; x >> 3 }"),
    "shift of a number of its own type": ("a shift",
        "pub fn case() -> u32 { let x = 1u64 << 31; (x * 4 / 8) as u32 }"),
    "shift by a number of its own type": ("a shift", "pub fn case() -> u32 { let x: u8 = 1 << 3u64; u32::from(x) }"),
    "shift of a number by a name": ("a shift", "pub fn case() -> u32 { let n = 3; let x: u8 = 1 << n; u32::from(x) }"),
    "shift by a name": ("a shift", "pub fn case() -> u32 { let n: u32 = 40; let one: u64 = 1; (one << n) as u32 }"),
    "escape": ("\\\\x01",
        r"""const X: [u8; 2] = *b"\x01\x02"; pub fn case() -> u32 { u32::from(X[0]) + u32::from(X[1]) }"""),
    "escaped quote": ("pub fn c", r"""const X: [u8; 1] = *b"\""; pub fn case() -> u32 { u32::from(X[0]) }"""),
    "byte": ("'a'", "pub fn case() -> u32 { u32::from(b'a') }"),
    "let else": ("; expected",
        "pub fn case() -> u32 { let x: Option<u32> = Some(3); let Some(n) = x else { return 0; }; n }"),
    "struct base": ("a name expected",
        PAIR + "pub fn case() -> u32 { let q = Pair { a: 1, b: 2 }; let r = Pair { a: 5, ..q }; r.a + r.b }"),
    "default method": ("the trait T has a body or more than methods",
        """pub trait T { fn n(&self) -> u32 { 5 } } pub struct Single { pub a: u32 } impl T for Single { } pub fn
        case() -> u32 { let s = Single { a: 1 }; s.n() + s.a }"""),
    "two implementations": ("T has more than one implementation",
        """pub trait T { fn n(&self) -> u32; } pub struct Single { pub a: u32 } pub struct Round { pub a: u32 }
        impl T for Single { fn n(&self) -> u32 { self.a } } impl T for Round { fn n(&self) -> u32 { self.a + 1 }
        } fn get<X: T>(x: &X) -> u32 { x.n() } pub fn case() -> u32 { get(&Single { a: 1 }) + get(&Round { a: 1
        }) }"""),
    "operator of a trait": ("an item",
        """#[derive(Clone, Copy)] pub struct Single { pub a: u32 } impl Not for Single { type Output = u32; fn
        not(self) -> u32 { self.a } } use core::ops::Not; pub fn case() -> u32 { !Single { a: 5 } }"""),
    "drop": ("an implementation of Drop",
        """pub struct Single { pub a: u32 } impl Drop for Single { fn drop(&mut self) { self.a = 0; } } pub fn
        case() -> u32 { let s = Single { a: 5 }; s.a }"""),
    "static": ("an item", "static X: u32 = 5; pub fn case() -> u32 { X }"),
    "unsafe": ("a statement", "pub fn case() -> u32 { unsafe { 5 } }"),
    "macro": ("an item", "macro_rules! five { () => { 5 } } pub fn case() -> u32 { five!() }"),
    "assert": ("the macro assert", "pub fn case() -> u32 { assert!(1 == 2); 5 }"),
    "panic": ("the macro panic", "pub fn case() -> u32 { panic!() }"),
    "block comment": ("/* + 1", "pub fn case() -> u32 { 1 /* + 1 */ + 2 }"),
    "wrapping": ("the method wrapping_mul of u32",
        "pub fn case() -> u32 { let x: u32 = 4294967295; x.wrapping_mul(6) }"),
    "iterator": ("the method iter of ('list', 'u32')", "pub fn case() -> u32 { [1u32, 2].iter().sum() }"),
    "inclusive range": (".. expected", "pub fn case() -> u32 { let mut n = 0; for _i in 0..=3 { n += 1; } n }"),
    "half-open pattern": ("a pattern", "pub fn case() -> u32 { let x: u32 = 7; match x { 5.. => 1, _ => 2 } }"),
    "binding with @": ("a pattern", "pub fn case() -> u32 { let x: u32 = 7; match x { n @ 5..=9 => n, _ => 2 } }"),
    "hidden Some": ("two items are named Some", "fn Some(x: u32) -> u32 { x + 1 } pub fn case() -> u32 { Some(4) }"),
    "trait for a number": ("an implementation for u8",
        """pub trait T { fn min(&self) -> u32; } impl T for u8 { fn min(&self) -> u32 { 9 } } pub fn case() -> u32
        { let x: u8 = 5; T::min(&x) }"""),
    "const of a call": ("a name expected",
        "const fn five() -> u32 { 5 } const X: u32 = five(); pub fn case() -> u32 { X }"),
    "discriminant": (", expected",
        """#[derive(Clone, Copy)] pub enum Kind { A = 5, B = 7 } pub fn case() -> u32 { let _b = Kind::B; Kind::A
        as u32 }"""),
    "two values in a variant": (") expected",
        "pub enum Kind { A(u32, u32) } pub fn case() -> u32 { match Kind::A(1, 2) { Kind::A(x, y) => x + y } }"),
    "recursion": ("down calls itself",
        "fn down(n: u32) -> u32 { if n == 0 { 5 } else { down(n - 1) } } pub fn case() -> u32 { down(3) }"),
    "array of arrays": ("a number is ('list', 'u8')",
        "pub fn case() -> u32 { let x = [[1u8, 2], [3, 4]]; u32::from(x[1][0]) }"),
    "question mark of an option": ("a ? of ('option', ",
        """fn f() -> Option<u32> { let x: Option<u32> = None; let y = x?; Some(y) } pub fn case() -> u32 {
        f().unwrap_or(5) }"""),
    "index that changes its array": ("an index that changes something",
        "pub fn case() -> u32 { let mut p = [1u32, 2]; p[{ p = [7, 8]; 1 }] }"),
    "part that changes": ("an index that changes something",
        QUEUE + """pub fn case() -> u32 { let p = [1u8; 9]; let mut q = Queue { n: 1 }; let r = &p[..q.more() as usize];
        r.len() as u32 }"""),
    "type of one letter": ("the type N",
        "pub struct N { pub a: u32 } pub fn case() -> u32 { let n = N { a: 5 }; n.a }"),
    "type of Coq's": ("the type Forall",
        "pub struct Forall { pub a: u32 } pub fn case() -> u32 { let n = Forall { a: 5 }; n.a }"),
    "two that become one": ("two items are named Ab::c",
        """pub struct Ab { pub a: u32 } impl Ab { pub fn c(&self) -> u32 { self.a } } fn Ab_c() -> u32 { 1 } pub fn
        case() -> u32 { Ab_c() + Ab { a: 5 }.c() }"""),
    "inline module": ("; expected", "mod inner { pub fn n() -> u32 { 1 } } pub fn case() -> u32 { inner::n() }"),
    "chain of blocks": ("a call on a block",
        "pub fn case() -> u32 { let x: u32 = 1; match x { 1 => Some(5), _ => None }.unwrap_or(9) }"),
    "split of a part": ("a is changed",
        """pub fn case() -> u32 { let mut x = [0u8; 4]; let (a, b) = x.split_at_mut(2); a.copy_from_slice(&[1, 2]);
        b.copy_from_slice(&[3, 4]); let (c, _d) = a.split_at_mut(1); c.copy_from_slice(&[9]); u32::from(x[0]) }"""),
}

# Loops, and statements that may leave a function. One in a loop is refused, whatever other loop is within or around it.
LOOPS = {"for": "for _i in 0..3 {{ {} n += 1; }}", "while": "while let Some(m) = q.take() {{ {} n += m; }}"}
LEAVING = {"return": "if n > 5 { return Ok(n * 10); }", "?": "n += even(n)?;"}


def with_loops(statements):
    return QUEUE + f"""fn even(n: u32) -> Result<u32, u32> {{ if n % 2 == 1 {{ Err(n) }} else {{ Ok(n) }} }}
        fn all(q: &mut Queue) -> Result<u32, u32> {{ let mut n = 0; {statements} Ok(n) }} pub fn case() -> u32 {{
        let mut q = Queue {{ n: 3 }}; match all(&mut q) {{ Ok(n) => n * 10 + q.n, Err(e) => e * 10 + q.n + 1000 }} }}"""


for (outer, inner), name in product(product(LOOPS, repeat=2), LEAVING):
    places = {"before": LEAVING[name] + LOOPS[inner].format(""), "in": LOOPS[inner].format(LEAVING[name]),
              "after": LOOPS[inner].format("") + LEAVING[name]}
    REFUSED |= {f"{name} in {outer}, {place} {inner}": (f"a {name} in a loop", with_loops(LOOPS[outer].format(body)))
                for place, body in places.items()}

# A constant is an arm of its own, and no part of one: there, a name that is no constant would be a variable, which any
# value fits.
WITHIN = {"[FIVE, _rest @ ..]": "let x: &[u8] = &[4, 5];", "[_, FIVE]": "let x: &[u8] = &[4, 6];",
          "[_first, FIVE, _rest @ ..]": "let x: &[u8] = &[4, 6, 7];", "Some(FIVE)": "let x: Option<u8> = Some(4);",
          "Ok(FIVE)": "let x: Result<u8, u8> = Ok(4);", "Err(FIVE)": "let x: Result<u8, u8> = Err(4);",
          "Color::Value(SIX)": "let x = Color::Value(5);"}
REFUSED |= {f"a constant in {pattern}": ("a constant as a pattern", COLOR + f"""pub const FIVE: u8 = 5;
        pub const SIX: u32 = 6; pub fn case() -> u32 {{ {made} match x {{ {pattern} => 1, _ => 2 }} }}""")
            for pattern, made in WITHIN.items()}

RIGHT = {
    **{f"{name} behind {outer} and {inner}": with_loops(LOOPS[outer].format(LOOPS[inner].format("")) + LEAVING[name])
       for (outer, inner), name in product(product(LOOPS, repeat=2), LEAVING)},
    "alias": PAIR + """pub fn case() -> u32 { let mut q = Pair { a: 1, b: 2 }; let r = &mut q.a; *r = 5; *r += *r + r.wrapping_add(2);
        q.a * 10 + q.b }""",
    "alias of what is hidden": "pub fn case() -> u32 { let mut n = 1u32; let r = &mut n; let n = 5u32; *r = 7; n * 10 + *r }",
    "alias of what another hides": """pub fn case() -> u32 { let mut n = 1u32; let r = &mut n; { let mut n = 5u32; n += 1; *r += n; }
        n }""",
    "alias in a loop": "pub fn case() -> u32 { let mut n = 1u32; let r = &mut n; for _i in 0..3 { *r = *r * 2; } n }",
    "alias of a parameter's field": PAIR + """fn set(q: &mut Pair) { let r = &mut q.b; if *r == 2 { *r = r.saturating_add(7); } }
        pub fn case() -> u32 { let mut q = Pair { a: 1, b: 2 }; set(&mut q); q.a * 100 + q.b }""",
    "another name": "const FIVE: u32 = 5; use self::FIVE as NUMBER; const MORE: u32 = NUMBER + 1; pub fn case() -> u32 { NUMBER * MORE }",
    "parts": """fn both(n: u32) -> (u32, (u32, u32)) { (n, (n + 1, n + 2)) } pub fn case() -> u32 { let p = both(3); p.0 * 100 +
        p.1.0 * 10 + both(4).1.1 }""",
    "saturating_add": """pub fn case() -> u32 { let a: u8 = 250; let b: u64 = 18446744073709551615; u32::from(a.saturating_add(4)) * 1000 +
        u32::from(a.saturating_add(9)) + (b.saturating_add(5) / 18446744073709551615) as u32 }""",
    "must_use with a text": '#[must_use = "it, counts"] pub fn n() -> u32 { 3 } pub fn case() -> u32 { n() }',
    "assignment through a reference":
        "fn set(x: &mut u32) { *x = 5; } pub fn case() -> u32 { let mut n = 1; set(&mut n); n }",
    "sum through a reference":
        "fn more(x: &mut u32) { *x += 5; *x = *x * 2; } pub fn case() -> u32 { let mut n = 1; more(&mut n); n }",
    "struct through a reference":
        PAIR + """fn swap(q: &mut Pair) -> u32 { let old = q.a; *q = Pair { a: q.b, b: old }; q.a } pub fn case() -> u32 {
        let mut q = Pair { a: 1, b: 2 }; swap(&mut q) * 100 + q.a * 10 + q.b }""",
    "underscore in a number": "const X: u32 = 1_000; pub fn case() -> u32 { X + 16_0 }",
    "small hexadecimal": "pub fn case() -> u32 { let x: u8 = 0xff; u32::from(x) + 0xfF }",
    "octal and binary": "pub fn case() -> u32 { 0o17 + 0b1_01 }",
    "suffix": "pub fn case() -> u32 { let x = 200u8; u32::from(x) + 1_0u32 }",
    "min of a number": "pub fn case() -> u32 { let x: u32 = 5_000; x.min(1_000) }",
    "Some of a number": "pub fn case() -> u32 { let x: Option<u8> = Some(0xff); u32::from(x.unwrap_or(1)) }",
    "letters":
        """const X: [u8; 3] = *b"aZ~"; pub fn case() -> u32 { u32::from(X[0]) * 65536 + u32::from(X[1]) * 256 +
        u32::from(X[2]) }""",
    "left before right":
        QUEUE + "pub fn case() -> u32 { let mut q = Queue { n: 1 }; q.n * 100 + q.more() * 10 + q.n }",
    "arguments in order":
        QUEUE + """fn three(a: u32, b: u32, c: u32) -> u32 { a * 100 + b * 10 + c } pub fn case() -> u32 { let mut q =
        Queue { n: 1 }; three(q.n, q.more(), q.more()) }""",
    "fields in order":
        QUEUE + PAIR + """pub fn case() -> u32 { let mut q = Queue { n: 1 }; let p = Pair { b: q.more(), a: q.more() }; p.a * 10 +
        p.b }""",
    "value before index":
        "pub fn case() -> u32 { let mut i = 0; let mut p = [0u32; 3]; p[i] = { i = 1; 5 }; p[0] * 10 + p[1] }",
    "tuple in order":
        QUEUE + "pub fn case() -> u32 { let mut q = Queue { n: 1 }; let (x, y) = (q.more(), q.more()); x * 10 + y }",
    "call that changes in for":
        QUEUE + "pub fn case() -> u32 { let mut q = Queue { n: 1 }; for _i in 0..4 { q.more(); } q.n }",
    "two that change in for":
        QUEUE + """pub fn case() -> u32 { let mut q = Queue { n: 1 }; let mut s = 0; for i in 0..4 { let m = q.more(); s +=
        m * i as u32; } q.n * 100 + s }""",
    "call that changes in while":
        QUEUE + """pub fn case() -> u32 { let mut q = Queue { n: 3 }; let mut p = Queue { n: 0 }; while let Some(x) =
        q.take() { p.more(); p.n += x; } q.n * 100 + p.n }""",
    "not of a wide number": "pub fn case() -> u32 { let t = [0u32, 1]; !t[0] }",
    "array of wide numbers": "pub fn case() -> u32 { let x: u32 = 70000; let y = 4; let t = [x, y]; t[0] + t[1] }",
    "equal arrays": "pub fn case() -> u32 { let x = [1u8, 2]; if x == [1, 2] { 5 } else { 6 } }",
    "unequal arrays": "pub fn case() -> u32 { let x = [1u8, 2]; if x != [1, 3] { 5 } else { 6 } }",
    "guard not evaluated":
        "pub fn case() -> u32 { let t = [1u8; 2]; let i: usize = 9; match i { 1 if t[i] == 1 => 1, _ => 2 } }",
    "guard evaluated":
        "pub fn case() -> u32 { let t = [1u8; 2]; let i: usize = 9; match i { 9 if t[i] == 1 => 1, _ => 2 } }",
    "guard falls through":
        "pub fn case() -> u32 { let x: u32 = 5; let f = false; match x { 5 if f => 1, 5 => 2, _ => 3 } }",
    "copy of a part":
        """pub fn case() -> u32 { let mut x = [0u8; 6]; x[1..3].copy_from_slice(&[7, 8]); u32::from(x[1]) * 10 +
        u32::from(x[2]) + u32::from(x[3]) }""",
    "copy of a wrong length":
        "pub fn case() -> u32 { let mut x = [0u8; 6]; x[1..4].copy_from_slice(&[7, 8]); u32::from(x[1]) }",
    "copy past a view":
        """pub fn case() -> u32 { let mut x = [0u8; 6]; let (a, b) = x.split_at_mut(2); a[..4].copy_from_slice(&[1,
        2, 3, 4]); b.copy_from_slice(&[0, 0, 0, 0]); u32::from(x[3]) }""",
    "copy of views":
        """pub fn case() -> u32 { let mut x = [0u8; 6]; let (a, b) = x.split_at_mut(2); a.copy_from_slice(&[1, 2]);
        b[1..3].copy_from_slice(&[3, 4]); u32::from(x[1]) * 100 + u32::from(x[3]) * 10 + u32::from(x[4]) }""",
    "view before the copy of all":
        """pub fn case() -> u32 { let mut x = [0u8; 4]; let n = 2; let (_a, b) = x.split_at_mut(n);
        b[..1].copy_from_slice(&[3]); u32::from(x[2]) }""",
    "split past the end":
        """pub fn case() -> u32 { let mut x = [0u8; 4]; let (a, _b) = x.split_at_mut(5); a.copy_from_slice(&[1, 2,
        3, 4, 5]); u32::from(x[0]) }""",
    "split_at":
        """pub fn case() -> u32 { let x = [1u8, 2, 3]; let (a, b) = x.split_at(1); (a.len() * 100 + b.len() * 10)
        as u32 + u32::from(b[0]) }""",
    "parts of slices":
        """pub fn case() -> u32 { let x = [1u8, 2, 3, 4]; let y = &x[1..3]; let z = &x[2..]; let w = &x[..1];
        u32::from(y[1]) * 100 + (z.len() * 10 + w.len()) as u32 }""",
    "part with ends in the wrong order":
        "pub fn case() -> u32 { let x = [1u8, 2, 3, 4]; let n = 1; let y = &x[3..n]; y.len() as u32 }",
    "names with numbers":
        """pub fn case() -> u32 { let n1 = 1u32; let n = 2u32; let n2 = n + n1; let n10 = n2 + 1; n1 + n * 10 + n10
        * 100 }""",
    "names of Coq":
        """pub fn case() -> u32 { let fun = 1u32; let forall = fun + 1; let end = forall + 1; let exists = end;
        exists + fun }""",
    "inner scope": "pub fn case() -> u32 { let x = 1u32; { let x = 5u32; let _y = x; } x }",
    "inner scope changes": "pub fn case() -> u32 { let mut x = 1u32; { x += 3; let x = 9u32; let _y = x; } x }",
    "hidden by itself": "pub fn case() -> u32 { let x = 1u32; let x = x + 1; let x = x * 10; x }",
    "argument that is changed":
        "fn more(mut x: u32) -> u32 { x += 1; x } pub fn case() -> u32 { let x = 5; more(x) * 10 + x }",
    "copy is no alias":
        PAIR + "pub fn case() -> u32 { let mut q = Pair { a: 1, b: 2 }; let r = q; q.a = 5; q.a * 10 + r.a }",
    "two references":
        PAIR + """fn swap(q: &mut Pair, r: &mut Pair) { let a = q.a; q.a = r.a; r.a = a; } pub fn case() -> u32 { let mut
        q = Pair { a: 1, b: 2 }; let mut r = Pair { a: 3, b: 4 }; swap(&mut q, &mut r); q.a * 10 + r.a }""",
    "references of fields":
        """pub struct In { pub a: u32 } pub struct Out { pub x: In, pub y: In } fn set(q: &mut In, r: &mut In) {
        q.a += 1; r.a += 2; } pub fn case() -> u32 { let mut o = Out { x: In { a: 1 }, y: In { a: 1 } };
        set(&mut o.x, &mut o.y); o.x.a * 10 + o.y.a }""",
    "short and":
        QUEUE + """pub fn case() -> u32 { let mut q = Queue { n: 1 }; let f = false; if f && q.more() == 2 { q.n + 100 }
        else { q.n } }""",
    "short or":
        QUEUE + """pub fn case() -> u32 { let mut q = Queue { n: 1 }; let f = true; if f || q.more() == 2 { q.n + 100 }
        else { q.n } }""",
    "both of &":
        QUEUE + """pub fn case() -> u32 { let mut q = Queue { n: 1 }; let f = false; if f & (q.more() == 2) { q.n + 100 }
        else { q.n } }""",
    "early return":
        """fn f(x: u32) -> u32 { if x == 3 { return 9; } let y = x + 1; y } pub fn case() -> u32 { f(3) * 10 + f(4)
        }""",
    "return of a match":
        """fn f(x: Option<u32>) -> u32 { let y = match x { Some(n) => n, None => return 9 }; y + 1 } pub fn case()
        -> u32 { f(None) * 10 + f(Some(3)) }""",
    "? leaves":
        """fn odd(n: u32) -> Result<u32, u32> { if n % 2 == 1 { return Err(n); } Ok(n) } fn all(q: &mut Counter) ->
        Result<u32, u32> { let x = odd(2)?; q.n += 1; let y = odd(3)?; q.n += 10; Ok(x + y) } pub struct Counter
        { pub n: u32 } pub fn case() -> u32 { let mut q = Counter { n: 0 }; let r = all(&mut q); match r { Ok(n)
        => n, Err(e) => e * 100 + q.n } }""",
    "overflow of +": "pub fn case() -> u32 { let x: u8 = 250; let y = x + 6; u32::from(y) }",
    "no overflow of +": "pub fn case() -> u32 { let x: u8 = 250; let y = x + 5; u32::from(y) }",
    "overflow of -": "pub fn case() -> u32 { let x: u32 = 3; let n = 4; x - n }",
    "overflow of *": "pub fn case() -> u32 { let x: u16 = 300; let y = x * 300; u32::from(y) }",
    "overflow of i64":
        "pub fn case() -> u32 { let x: i64 = 9223372036854775807; let y = x + 1; if y < 0 { 1 } else { 2 } }",
    "checked":
        """pub fn case() -> u32 { let x: i64 = 9223372036854775807; match x.checked_add(1) { Some(_) => 1, None =>
        2 } }""",
    "absolute": "pub fn case() -> u32 { let x: i64 = 0 - 7; x.unsigned_abs() as u32 }",
    "i64 to u32": "pub fn case() -> u32 { let x: i64 = 0 - 7; x as u32 }",
    "i64 back from bytes":
        """pub fn case() -> u32 { let x: i64 = 0 - 7; let b = x.to_le_bytes(); let y = i64::from_le_bytes([b[0],
        b[1], b[2], b[3], b[4], b[5], b[6], b[7]]); (y + 100) as u32 }""",
    "division": "pub fn case() -> u32 { let x: u32 = 17; x / 5 * 10 + x % 5 }",
    "division by 0": "pub fn case() -> u32 { let x: u32 = 17; let z: u32 = 0; x / z }",
    "index past the end": "pub fn case() -> u32 { let x = [1u8; 4]; let i: usize = 4; u32::from(x[i]) }",
    "saturating": "pub fn case() -> u32 { let x: u32 = 3; x.saturating_sub(5) * 10 + x.saturating_sub(2) }",
    "truncating cast":
        "pub fn case() -> u32 { let x: u32 = 70000; let y = x as u16; u32::from(y as u8) * 65536 + u32::from(y) }",
    "bits": "pub fn case() -> u32 { let x: u32 = 12; (x & 10) * 10000 + (x | 3) * 100 + (x ^ 10) }",
    "priority": "pub fn case() -> u32 { let x: u32 = 6; x & 4 + 1 | 8 ^ 2 * 3 }",
    "priority of comparison": "pub fn case() -> u32 { let x: u32 = 6; if x & 4 == 4 { 1 } else { 2 } }",
    "constant as an arm":
        "const FIVE: u32 = 5; pub fn case() -> u32 { let x: u32 = 5; match x { FIVE => 1, _ => 2 } }",
    "range as an arm":
        """const LOW: u32 = 5; pub fn case() -> u32 { let x: u32 = 9; match x { LOW..=8 => 1, 9..=9 => 2, _ => 3 }
        }""",
    "alternatives as an arm": "pub fn case() -> u32 { let x: u32 = 9; match x { 1 | 9 => 1, _ => 3 } }",
    "variants":
        COLOR + """fn n(c: Color) -> u32 { match c { Color::Red | Color::Green => 1, Color::Value(n) => n } } pub fn case()
        -> u32 { n(Color::Red) * 100 + n(Color::Value(7)) }""",
    "variant with a guard":
        COLOR + """fn n(c: Color) -> u32 { match c { Color::Value(n) if n > 5 => n, Color::Value(_) => 2, _ => 3 } } pub fn
        case() -> u32 { n(Color::Red) * 100 + n(Color::Value(7)) * 10 + n(Color::Value(1)) }""",
    "if let": "pub fn case() -> u32 { let x: Option<u32> = Some(4); if let Some(n) = x { n } else { 9 } }",
    "matches": "pub fn case() -> u32 { let x: Option<u32> = Some(4); if matches!(x, Some(_)) { 1 } else { 2 } }",
    "lists":
        """fn f(x: &[u8]) -> u32 { match x { [0] => 1, [a, b, rest @ ..] => u32::from(*a) + u32::from(*b) * 10 +
        rest.len() as u32 * 100, _ => 9 } } pub fn case() -> u32 { f(&[0]) + f(&[3, 4, 5, 6]) * 10 + f(&[7]) *
        10000 }""",
    "generic":
        """pub trait T { fn n(&self) -> u32; fn more(&mut self); } pub struct Single { pub a: u32 } impl T for
        Single { fn n(&self) -> u32 { self.a } fn more(&mut self) { self.a += 1; } } fn twice<X: T>(x: &mut X)
        -> u32 { x.more(); x.more(); x.n() } pub fn case() -> u32 { let mut s = Single { a: 1 }; twice(&mut s) *
        10 + s.a }""",
    "width from a later use":
        "fn wide(x: u64) -> u32 { (x % 1000) as u32 } pub fn case() -> u32 { let n = 4294967297; wide(n) }",
    "width of a shift": "pub fn case() -> u32 { let x: u64 = 4294967299; (x % (1 << 32)) as u32 }",
    "from of bool": "pub fn case() -> u32 { u32::from(true) * 10 + u32::from(false) }",
    "documented":
        """/// Has "a quote and (* a comment *) of Coq.
        fn f() -> u32 { 4 }
        /// And "another.
        pub fn case() -> u32 { f() }""",
    "comments":
        """// fn case() -> u32 { 1 }
        pub fn case() -> u32 { 2 // + 1
        }""",
    "wrapping": "pub fn case() -> u32 { let x: u8 = 250; let y: u32 = 4294967295; u32::from(x.wrapping_add(10)) + y.wrapping_add(6) }",
    "two at once": """fn f(a: bool, b: bool) -> u32 { match (a, b) { (true, true) => 1, (true, false) => 2, (false, true) => 3,
        (false, false) => 4 } } pub fn case() -> u32 { f(true, true) * 1000 + f(true, false) * 100 + f(false, true) * 10 + f(false, false) }""",
    "two at once, with calls": QUEUE + """pub fn case() -> u32 { let mut q = Queue { n: 1 };
        match (q.more() == 2, q.more() == 2) { (true, false) => q.n * 10, (_, true) => 1, _ => 2 } }""",
    "a view as an argument": """fn put(x: &mut [u8], y: &[u8]) { let (a, _b) = x.split_at_mut(y.len()); a.copy_from_slice(y); }
        pub fn case() -> u32 { let mut x = [0u8; 6]; let (a, b) = x.split_at_mut(2); put(b, &[3, 4]); put(a, &[1]);
        u32::from(x[0]) * 1000 + u32::from(x[1]) * 100 + u32::from(x[2]) * 10 + u32::from(x[3]) }""",
    "trailing commas": "fn f(a: u32, b: u32,) -> u32 { a + b } pub fn case() -> u32 { f(1, 2,) }",
    "blocks as statements":
        """pub fn case() -> u32 { let mut x = 1u32; if x == 1 { x += 1; } else { x += 5; } { x += 10; } match x {
        12 => x += 100, _ => {} } x }""",
    "the greatest u16": "pub fn case() -> u32 { let x: u16 = 65530; let y = x + 5; u32::from(y) }",
    "overflow of u32": "pub fn case() -> u32 { let x: u32 = 4294967295; let y = 1; x + y }",
    "overflow of u64": "pub fn case() -> u32 { let x: u64 = 18446744073709551615; (x + 1) as u32 }",
    "overflow of usize": "pub fn case() -> u32 { let x = 18446744073709551615u64 as usize; (x + 1) as u32 }",
    "the ends of usize":
        """pub fn case() -> u32 { let x = 18446744073709551615u64 as usize; let y: usize = 4294967295;
        x.wrapping_add(3).min(9) as u32 * 10 + x.saturating_add(1).min(y) as u32 % 10 }""",
    "the fields of a struct": PAIR + "pub fn case() -> u32 { let Pair { b, a } = Pair { a: 1, b: 2 }; a * 10 + b }",
    "a struct without fields": "pub struct Nothing; pub fn case() -> u32 { let x: Option<Nothing> = Some(Nothing); if x.is_some() { 1 } else { 2 } }",
    "overflow of u8": "pub fn case() -> u32 { (255u8 + 1) as u32 }",
    "a cast": "pub fn case() -> u32 { 259u64 as u8 as u32 }",
    "unequal numbers": "pub fn case() -> u32 { let x: u32 = 3; if x == 5 { 1 } else { 2 } }",
    "a change in the right operand": "pub fn case() -> u32 { let mut x = 1u32; x * 10 + { x = 5; x } }",
    "value of a shift": "pub fn case() -> u32 { let x: u64 = 1 << 5; x as u32 }",
    "width from a method": "pub fn case() -> u32 { let n = 4294967297; let x: u64 = 7; (x.max(n) % 1000) as u32 }",
    "length of a repeated array": "pub fn case() -> u32 { let x = [3u8; 4]; x.len() as u32 }",
    "generic beside another type": """pub struct Other { pub a: u32 } impl Other { fn n(&self) -> u32 { 7 } } pub trait T { fn n(&self) -> u32; }
        pub struct Single { pub a: u32 } impl T for Single { fn n(&self) -> u32 { self.a } } fn twice<X: T>(x: &X) -> u32 { x.n() * 2 }
        pub fn case() -> u32 { twice(&Single { a: 4 }) * 10 + Other { a: 1 }.n() }""",
    "parts of a pair": "pub fn case() -> u32 { let p = (3u32, 5u32); p.0 * 10 + p.1 }",
    "variants without values": COLOR + """fn n(c: Color) -> u32 { match c { Color::Red => 1, Color::Green => 2, Color::Value(_) => 3 } }
        pub fn case() -> u32 { n(Color::Green) * 10 + n(Color::Red) }""",
    "bits of Booleans": """fn n(b: bool) -> u32 { if b { 1 } else { 0 } } pub fn case() -> u32 { let (t, f) = (true, false);
        n(t | f) * 1000 + n(t ^ t) * 100 + n(!f) * 10 + n(t & f) }""",
    "comparisons": """fn n(b: bool) -> u32 { if b { 1 } else { 0 } } fn all(a: u32, b: u32) -> u32 { n(a == b) + 2 * n(a != b) + 4 * n(a < b)
        + 8 * n(a > b) + 16 * n(a <= b) + 32 * n(a >= b) } pub fn case() -> u32 { all(3, 5) * 10000 + all(5, 5) * 100 + all(5, 3) }""",
    "comparisons of i64": """fn n(b: bool) -> u32 { if b { 1 } else { 0 } } fn all(a: i64, b: i64) -> u32 { n(a == b) + 2 * n(a != b) + 4 * n(a < b)
        + 8 * n(a > b) + 16 * n(a <= b) + 32 * n(a >= b) } pub fn case() -> u32 { all(0 - 5, 3) * 10000 + all(0 - 5, 0 - 5) * 100 + all(3, 0 - 5) }""",
    "comparisons of Booleans": """fn n(b: bool) -> u32 { if b { 1 } else { 0 } } fn all(a: bool, b: bool) -> u32 { n(a == b) + 2 * n(a != b) }
        pub fn case() -> u32 { all(true, false) * 10 + all(false, false) }""",
    "priority of | and ==": "pub fn case() -> u32 { let x: u32 = 4; if x | 3 == 7 { 1 } else { 2 } }",
    "length of the pattern of a list": "fn f(x: &[u8]) -> u32 { match x { [0] => 1, _ => 2 } } pub fn case() -> u32 { f(&[0, 5]) }",
    "both branches return": "fn f(x: u32) -> u32 { if x == 3 { return 9; } else { return 8; } } pub fn case() -> u32 { f(3) * 10 + f(4) }",
    "? of what changes": QUEUE + """fn odd(q: &mut Queue) -> Result<u32, u32> { q.n += 1; Err(q.n) } fn all(q: &mut Queue) -> Result<u32, u32>
        { let x = odd(q)?; Ok(x) } pub fn case() -> u32 { let mut q = Queue { n: 1 }; match all(&mut q) { Ok(n) => n, Err(e) => e * 100 + q.n } }""",
    "only a split past the end": "pub fn case() -> u32 { let mut x = [0u8; 4]; let (_a, _b) = x.split_at_mut(5); 7 }",
    "copy of all of a view": """pub fn case() -> u32 { let mut x = [0u8; 6]; let (_a, b) = x.split_at_mut(2); b.copy_from_slice(&[1, 2, 3, 4]);
        u32::from(x[2]) * 10 + u32::from(x[5]) }""",
    "a view that is read": """fn first(x: &mut [u8]) -> u32 { let y = x[0]; x[0] = y + 1; u32::from(y) } pub fn case() -> u32 {
        let mut x = [1u8, 2, 3, 4]; let (_a, b) = x.split_at_mut(2); first(b) * 10 + u32::from(x[2]) }""",
    "is_empty": """pub fn case() -> u32 { let x = [1u8, 2]; let (y, z) = (&x[1..1], &x[1..2]); if y.is_empty() && !z.is_empty() { 1 } else { 2 } }""",
    "is_none": "fn n(x: Option<u32>) -> u32 { if x.is_none() { 1 } else { 0 } } pub fn case() -> u32 { n(None) * 10 + n(Some(3)) }",
    "i64 from u32": "pub fn case() -> u32 { let x: u32 = 5; let y = i64::from(x) + 1; y.unsigned_abs() as u32 }",
}
