# SPDX-License-Identifier: Apache-2.0 OR BSD-3-Clause
"""The translator of Rust refuses what it does not know, and is right about what it knows."""
import re
import subprocess

import pytest
from contracts import code_of
from harness import ROOT, at_least
from rerun import CRATES as CRATES_READ
from rust_cases import REFUSED, RIGHT

import rust2coq

pytestmark = pytest.mark.needs("cargo")

ALLOWED = "#![allow(dead_code, unused, non_snake_case, non_camel_case_types, clippy::all)]\n"


def crate_of(folder, source):
    (folder / "src").mkdir(exist_ok=True)
    (folder / "src/lib.rs").write_text(source)
    return rust2coq.Crate(folder / "src")


def compiled(folder, cases):
    """What rustc's code returns: a number, or None if it panics. All cases are modules of one program."""
    modules = "".join(f"mod case_{i} {{ {source} }}\n" for i, source in enumerate(cases))
    calls = "".join(f'    print(std::panic::catch_unwind(case_{i}::case));\n' for i in range(len(cases)))
    (folder / "main.rs").write_text(ALLOWED + "#![allow(unconditional_panic, arithmetic_overflow)]\n" + modules + """
fn print(found: Result<u32, Box<dyn std::any::Any + Send>>) {
    match found { Ok(number) => println!("Some {number}"), Err(_) => println!("None") }
}
fn main() {
    std::panic::set_hook(Box::new(|_| {}));
""" + calls + "}\n")
    run = subprocess.run(["rustc", "--edition", "2021", "-C", "debug-assertions=on", "-o", "main", "main.rs"],
                         cwd=folder, capture_output=True, text=True)
    assert run.returncode == 0, run.stderr
    return subprocess.run([folder / "main"], capture_output=True, text=True, check=True).stdout.split("\n")[:-1]


def translations(folder, cases):
    """What Coq is to compute."""
    text = ""
    for i, source in enumerate(cases):
        types, code = rust2coq.translate(crate_of(folder, source), ["case"])
        body = "\n".join(line for line in (types + code).splitlines() if not line.startswith("Require"))
        text += f"Module Case{i}.\n{body}\nEnd Case{i}.\nCompute Case{i}.rs_case.\n"
    return text


@pytest.mark.parametrize("name", REFUSED)
def test_refused(name, tmp_path):
    why, source = REFUSED[name]
    with pytest.raises(rust2coq.Refused, match=re.escape(why)):
        rust2coq.translate(crate_of(tmp_path, source), ["case"])


# Files of a crate, and why it is refused.
CRATES = {
    "a file that nothing names": ("a file without its `mod`", {"lib.rs": "", "more.rs": "pub fn n() -> u32 { 1 }"}),
    "a module without a file": ("a file without its `mod`", {"lib.rs": "mod more;"}),
    "a module at another path": ("the attribute path", {"lib.rs": '#[path = more] mod other;', "more.rs": ""}),
    "a constant that is not in scope": ("which is not in scope", {
        "lib.rs": "mod more; pub fn case() -> u32 { let x: u32 = 5; match x { FIVE => 1, _ => 2 } }",
        "more.rs": "pub const FIVE: u32 = 4;"}),
    "the own name of what has another": ("which is not in scope", {
        "lib.rs": "mod more; use more::FOUR as NUMBER; pub fn case() -> u32 { let x: u32 = 5; match x { FOUR => 1, _ => NUMBER } }",
        "more.rs": "pub const FOUR: u32 = 4;"}),
    "another name that is brought in": ("a use of more::NUMBER", {
        "lib.rs": "mod more; use more::NUMBER; pub fn case() -> u32 { NUMBER }",
        "more.rs": "pub const FOUR: u32 = 4; pub use self::FOUR as NUMBER;"}),
    "another crate": ("a use of superio::n", {"lib.rs": "use superio::n; pub fn case() -> u32 { n() }"}),
    "equal names in two files": ("two items are named n", {
        "lib.rs": "mod more; fn n() -> u32 { 1 } pub fn case() -> u32 { n() }", "more.rs": "pub fn n() -> u32 { 2 }"}),
    "equal types in two files": ("two items are named Simple", {
        "lib.rs": "mod more; pub struct Simple { pub a: u32 }", "more.rs": "pub struct Simple { pub a: u8 }"}),
}


def names_before_items():
    """What stands before `::` in the code of the crates that are read, apart from their modules: crates, and types. And
    Rust's own crates, also if nothing is taken of one."""
    found, modules = {"std", "core", "alloc"}, {"crate", "self", "super", "Self"}
    for file in [file for folder in CRATES_READ.values() for file in (ROOT / folder).rglob("*.rs")]:
        code = re.sub(r"#!?\[[^]]*\]", "", code_of(file.read_text("utf-8")))
        found.update(re.findall(r"(?<![\w:])([A-Za-z]\w*)::", code))
        modules.update(re.findall(r"\bmod (\w+)", code))
    return sorted(found - modules)


@pytest.mark.parametrize("name", at_least(30, names_before_items()))
def test_a_module_that_hides_a_name(name, tmp_path):
    """Below such a module, rustc would find the module's functions where the name stands."""
    (tmp_path / "lib.rs").write_text(f"mod more; mod {name};")
    (tmp_path / "more.rs").write_text("pub struct Pair { pub a: u32 }")
    (tmp_path / f"{name}.rs").write_text("pub fn from(_: bool) -> u32 { 7 }")
    with pytest.raises(rust2coq.Refused, match=rf"^lib\.rs: a module {name}$"):
        rust2coq.Crate(tmp_path)


@pytest.mark.parametrize("name", CRATES)
def test_refused_crate(name, tmp_path):
    why, files = CRATES[name]
    for file, source in files.items():
        (tmp_path / file).write_text(source)
    with pytest.raises(rust2coq.Refused, match=why):
        rust2coq.translate(rust2coq.Crate(tmp_path), ["case"])


@pytest.mark.needs("coq", "cargo")
def test_refused_are_rust(tmp_path):
    """Each is a program that rustc takes: what is refused is the form, and no slip."""
    compiled(tmp_path, [source for _, source in REFUSED.values()])


@pytest.mark.needs("coq", "cargo")
def test_right(computed, tmp_path):
    expected = compiled(tmp_path, RIGHT.values())
    found = re.findall(r"^ +=\s+(Some \d+|None)$", computed(translations(tmp_path, RIGHT.values())), re.M)
    assert dict(zip(RIGHT, found)) == dict(zip(RIGHT, expected))
