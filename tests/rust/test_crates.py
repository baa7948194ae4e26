# SPDX-License-Identifier: Apache-2.0 OR BSD-3-Clause
"""rust/vm-superio and rust/superio, on which it stands, as those who use them would have them. tools/check runs their
own tests by `cargo test`, with checks of overflow; here they run as released, with Debian's Rust and on other
processors.
"""
import fcntl
import random
import re
import shutil
import sys
from contextlib import nullcontext
from itertools import product
from pathlib import Path

import common.cargo
import kept
import pytest
from common.cargo import DROP_IN, DEVICES, Cargo, add_crate, copied_crate
from common.comparison import ORIGINAL, Comparison
from harness import ROOT, at_least, check
from places import PLACES
from recorded import difference, random_recorded, recordings, rows_of
from sums import number_of_tests
from toolchains import toolchain_for, toolchains

pytestmark = pytest.mark.needs("cargo")

CRATES = pytest.mark.parametrize("crate", [DEVICES, DROP_IN], ids=lambda crate: crate.name)
# Where the two languages might evaluate the same text in another order.
ORDER_LINTS = ["-D", "clippy::mixed_read_write_in_expression", "-D", "clippy::diverging_sub_expression"]
# Where Debian's packages put crates.
DEBIAN = Path("/usr/share/cargo/registry")
# Targets of 32 bits, with the highest byte first, and without an operating system, each with the tool that has it.
# Where the tests run too, the compiler that links them, and the emulator.
TARGETS = {
    "s390x-unknown-linux-gnu": ("s390x", "s390x-linux-gnu-gcc", "qemu-s390x"),
    "armv7-unknown-linux-gnueabihf": ("arm", "arm-linux-gnueabihf-gcc", "qemu-arm"),
    "wasm32-unknown-unknown": ("wasm",),
}
# Those that no package of Debian 12 has are compiled for where a toolchain is there.
FURTHER_TARGETS = [pytest.param(place.removeprefix("Rust for "), marks=pytest.mark.where(place))
                   for place in PLACES if place.startswith("Rust for ")]
RANDOM_RUNS = 25_000   # of 40 calls each


def oldest():
    """The oldest Rust that the crate promises, as Debian 12 has it."""
    [found] = ([toolchain for toolchain in toolchains() if toolchain.version.startswith("1.63.")][:1]
               or pytest.fail("there is no Rust 1.63"))
    return found


def test_erased():
    """The devices are what tools/erase makes of the proved source."""
    check([sys.executable, ROOT / "tools" / "erase", "--check"])


# What a user's own run of Cargo leaves in a crate, of which another would build something else, or nothing.
LEFT_BY_CARGO = ["Cargo.lock", "target/release/deps/made", "target/.rustc_info.json"]


def files_in(folder):
    return {path.relative_to(folder).as_posix() for path in folder.rglob("*") if path.is_file()}


@CRATES
def test_a_copy_of_a_crate(crate, tmp_path, monkeypatch):
    """It has each file of the crate, and of the devices beside it, and nothing that Cargo left there."""
    source, wanted = tmp_path / "source", {}
    for path in (DEVICES, DROP_IN):
        shutil.copytree(path, source / path.name, ignore=shutil.ignore_patterns("target", "Cargo.lock"))
        wanted[path] = files_in(source / path.name)
        for name in LEFT_BY_CARGO:
            (source / path.name / name).parent.mkdir(parents=True, exist_ok=True)
            (source / path.name / name).write_text("a user's", encoding="ascii")
    monkeypatch.setattr(common.cargo, "DEVICES", source / DEVICES.name)
    copied_crate(tmp_path / "copy", crate=source / crate.name)
    shutil.rmtree(tmp_path / "copy" / crate.name / ".cargo")   # the settings of this run
    assert {path: files_in(tmp_path / "copy" / path.name) for path in {crate, DEVICES}} == {
        path: wanted[path] for path in {crate, DEVICES}}


# A crate whose tests pass with the checks that Cargo leaves out of a release.
CHECKED = """#[test]
fn an_overflow_and_an_assertion_are_checked() {
    let most = std::hint::black_box(u8::MAX);
    assert!(std::panic::catch_unwind(|| most + 1).is_err() && cfg!(debug_assertions));
}
"""


def test_checks_of_overflow(tmp_path):
    """Cargo's settings are those of a test, here and in tools/check."""
    add_crate(tmp_path / "checked", CHECKED)
    assert Cargo(tmp_path / "checked").test() == 1


# A crate with a test that nobody asked to leave out.
IGNORED = "#[test]\nfn good() {}\n\n#[test]\n#[ignore]\nfn left_out() {}\n"


def test_no_test_is_ignored(tmp_path):
    add_crate(tmp_path / "ignored", IGNORED)
    with pytest.raises(AssertionError, match="1 passed; 0 failed; 1 ignored"):
        Cargo(tmp_path / "ignored").test()


@pytest.mark.parametrize("ignored", [*product((0, 1, 9, 10, 250), repeat=2)], ids=str)
def test_any_number_is_counted(ignored, tmp_path, monkeypatch):
    """Of tests that passed, in all programs together, and of those that were ignored in any of them."""
    cargo, passed = Cargo(tmp_path), (7, 120)
    lines = [f"running {sum(both)} tests\ntest result: ok. {both[0]} passed; 0 failed; {both[1]} ignored; 0 measured; "
             "0 filtered out; finished in 0.10s\n" for both in zip(passed, ignored)]
    monkeypatch.setattr(cargo, "check", lambda *words: "\n".join(lines))
    with pytest.raises(AssertionError, match="ignored") if any(ignored) else nullcontext():
        assert cargo.test() == sum(passed)


# What would compile without the attributes at the head of a crate, and why it does not: unsafe code, even where it is
# allowed, and what a user of the crate can name and finds no word about, or cannot copy.
REFUSED = {"/// A.\n#[allow(unsafe_code)]\npub fn a() {\n    unsafe {}\n}\n": "allow(unsafe_code) incompatible",
           "pub fn a() {}\n": "missing documentation for a function",
           "/// A.\npub struct A(u8);\n": "type could implement `Copy`"}


@CRATES
def test_what_is_refused(crate, tmp_path):
    """docs/THREATS.md says that the crates forbid `unsafe`."""
    cargo = copied_crate(tmp_path, crate=crate)
    library = cargo.folder / "src" / "lib.rs"
    text = library.read_text(encoding="utf-8")
    for code, why in REFUSED.items():
        library.write_text(text + code, encoding="utf-8")
        ran = cargo.run("check")
        assert ran.returncode and f"error: {why}" in re.sub(r"error\[\w+\]", "error", ran.stdout), ran.stdout


def test_what_the_c_library_refuses(tmp_path):
    """In a function that is unsafe, too, each place that is has a block of its own, whose comment says why it is sound."""
    shutil.copytree(DEVICES, tmp_path / "rust/superio", ignore=shutil.ignore_patterns("target", "Cargo.lock"))
    cargo = copied_crate(tmp_path / "bindings/c", crate=ROOT / "bindings/c/from-source")
    cargo.check("check")
    with open(cargo.folder / "src/lib.rs", "a", encoding="utf-8") as library:
        library.write("pub unsafe fn a(place: *mut u8) {\n    *place = 0;\n}\n")
    assert "is unsafe and requires unsafe" in cargo.run("check").stdout


@CRATES
def test_no_warning(crate, tmp_path):
    copied_crate(tmp_path, crate=crate).check("check", RUSTFLAGS="-D warnings")


@CRATES
@pytest.mark.needs("clippy")
def test_clippy(crate, tmp_path):
    copied_crate(tmp_path, crate=crate).check("clippy", "--all-targets", "--", "-D", "warnings", *ORDER_LINTS)


@CRATES
@pytest.mark.needs("rustfmt")
def test_formatted(crate, tmp_path):
    copied_crate(tmp_path, crate=crate).check("fmt", "--check", "--", "--config-path", str(ROOT))


def programs_of_tests(crate):
    """The words by which Cargo builds the programs that have tests of a crate: that of its library has none in some."""
    return ["--test=*", *["--lib"] * (number_of_tests(crate / "src") > 0)]


@CRATES
def test_as_released(crate, tmp_path):
    """With other random numbers for each commit."""
    settings = {"CARGO_PROFILE_RELEASE_CODEGEN_UNITS": "1"}   # several take longer in all
    ran = copied_crate(tmp_path, crate=crate).test("--release", *programs_of_tests(crate), **settings)
    assert ran == number_of_tests(crate)


@pytest.mark.needs("debian-rust")
@pytest.mark.parametrize("crate, of_documentation", [(DEVICES, 5), (DROP_IN, 9)], ids=["superio", "vm-superio"])
def test_with_the_oldest_rust(crate, of_documentation, tmp_path):
    flags = dict.fromkeys(["RUSTFLAGS", "RUSTDOCFLAGS"], "-C prefer-dynamic")   # else linking the examples takes longer
    assert copied_crate(tmp_path, oldest(), crate).test(**flags) >= number_of_tests(crate) + of_documentation


@pytest.mark.parametrize("target", [*(pytest.param(target, marks=pytest.mark.needs(tools[0]))
                                      for target, tools in TARGETS.items()), *FURTHER_TARGETS])
def test_compiles_for(target, tmp_path):
    """The devices compile without std."""
    copied_crate(tmp_path, toolchain_for(target), DEVICES).check("check", "--target", target)


@CRATES
@pytest.mark.parametrize("target", [pytest.param(target, marks=pytest.mark.needs(tools[0]))
                                    for target, tools in TARGETS.items() if tools[1:]])
def test_on(target, crate, tmp_path):
    """The tests pass in qemu's user mode."""
    _, compiler, emulator = TARGETS[target]
    name = f"CARGO_TARGET_{target.upper().replace('-', '_')}"
    settings = {f"{name}_LINKER": compiler, f"{name}_RUNNER": f"{emulator} -L /usr/{compiler[:-len('-gcc')]}",
                "CARGO_PROFILE_DEV_OPT_LEVEL": "1",   # else the emulator takes long
                "CARGO_PROFILE_DEV_CODEGEN_UNITS": "1"}   # several are optimized twice, each alone and together
    cargo = copied_crate(tmp_path, toolchain_for(target), crate)
    assert cargo.test(*programs_of_tests(crate), "--target", target, **settings) == number_of_tests(crate)


def test_drop_in(tmp_path):
    """The program that makes calls compiles over the crate with the names of vm-superio 0.8.2 alone."""
    built = Comparison(tmp_path, DROP_IN).build(CARGO_PROFILE_RELEASE_OPT_LEVEL="0")   # it does not run
    assert built.returncode == 0, built.stdout


def public_paths(file, before=""):
    """Each path of what a file of a crate makes public, and of what its public modules do."""
    folder = file.parent if file.stem in ("lib", "mod") else file.with_suffix("")
    public = r"^pub (?:(mod)|const(?: fn)?|enum|fn|struct|trait|type|use [\w:]+::\{?) ?([\w, ]+)"
    for module, names in re.findall(public, file.read_text(encoding="utf-8"), re.M):
        for path in (before + name for name in names.strip().split(", ")):
            yield path
            if module:
                inner = next(source for source in (folder / f"{names}.rs", folder / names / "mod.rs")
                             if source.exists())
                yield from public_paths(inner, f"{path}::")


def test_sansio_is_superio(tmp_path):
    """Whoever takes vm-superio has all of superio in its module `sansio`, by the same paths."""
    sources = DEVICES / "src"
    paths = at_least(55, [*public_paths(sources / "lib.rs"), *public_paths(sources / "devices" / "mod.rs")])
    code = "".join(f"pub use vm_superio::sansio::{path} as public_{at};\n" for at, path in enumerate(paths))
    add_crate(tmp_path, code, f'[dependencies]\nvm-superio = {{ path = "{DROP_IN}" }}\n')
    Cargo(tmp_path).check("check")


# What a public type derives, so that a user's own type around it can, too. The types of the table derive more or less:
# devices are no values, and some traits are written by hand.
VALUE = {"Clone", "Copy", "Debug", "Eq", "PartialEq"}
DERIVED = {"ArrayFifo": {"Clone", "Debug"}, "Console": {"Clone", "Debug"}, "Error": {"Debug"}, "I8042Device": {"Debug"},
           "NoEvents": {"Clone", "Copy", "Debug"}, "OutputRing": {"Clone"}, "Pl031": {"Clone", "Debug"}, "Rtc": set(),
           "RtcSnapshot": VALUE | {"Default"}, "RtcState": VALUE | {"Default"}, "Serial": set(),
           "SerialEncoding": {"Clone", "Debug"}, "SerialState": VALUE - {"Copy"}, "Uart": {"Clone", "Debug"}}


@CRATES
def test_derived_traits(crate):
    text = "".join(path.read_text(encoding="utf-8") for path in sorted((crate / "src").rglob("*.rs")))
    found = re.findall(r"^((?:#\[.*\]\n)*)pub (?:struct|enum) (\w+)", text, re.M)
    for attributes, name in at_least(10, found):
        derived = re.findall(r"^#\[derive\((.*)\)\]", attributes, re.M)
        assert {*", ".join(derived).split(", ")} - {""} == DERIVED.get(name, VALUE), name


def test_a_dropped_result_warns(tmp_path):
    """The compiler warns in each line that drops a result which leaves work, and in no other."""
    code = (ROOT / "tests" / "rust" / "dropped.rs").read_text(encoding="utf-8")
    add_crate(tmp_path, code, f'[dependencies]\nsuperio = {{ path = "{DEVICES}" }}\n')
    said = Cargo(tmp_path).check("check", "--message-format=short")
    dropped = [number for number, line in enumerate(code.splitlines(), 1) if re.match(r"    (?!let )", line)]
    assert [*map(int, re.findall(r"^src/lib\.rs:(\d+):\d+: warning: unused ", said, re.M))] == dropped


@pytest.mark.needs("debian-rust", "serde")
def test_states_through_serde():
    """States go through JSON and bincode, with Debian's crates of these and its Rust. Those stay there, since to build
    them takes long, and ours are built anew."""
    folder = kept.FOLDER / "states"
    folder.mkdir(parents=True, exist_ok=True)
    with (folder / "lock").open("w") as lock:
        fcntl.flock(lock, fcntl.LOCK_EX)   # two may run at once
        (folder / "Cargo.lock").unlink(missing_ok=True)   # Debian may have other versions since
        add_crate(folder, (ROOT / "tests" / "rust" / "states.rs").read_text(encoding="utf-8"), f"""
[dependencies]
bincode = "1"
serde = "1"
serde_json = "1"
vm-superio = {{ path = "{DROP_IN}", features = ["serde"] }}
""")
        cargo = Cargo(folder, oldest(), DEBIAN)
        cargo.check("clean", *(f"--package={name}" for name in ("states", "superio", "vm-superio")))
        assert cargo.test("--lib") >= 1


def calls_with_panics():
    """Random calls, in one of eight of which an object panics. None writes a match, an alarm in one crate alone."""
    source, calls = random.Random(1), [call for run in random_recorded(map(str, range(RANDOM_RUNS))) for call in run]
    for call in calls:
        if not re.match(r"cw \w+ 0004", call):
            yield f"{call} p{source.randrange(4)}" if source.randrange(8) == 0 else call


@pytest.mark.where("folder VM_SUPERIO of vm-superio 0.8.2")
def test_comparison(tmp_path):
    """A million random calls, with panics, do what vm-superio 0.8.2 does, and that does what was recorded."""
    ours, its = Comparison(tmp_path / "ours"), Comparison(tmp_path / "original", ORIGINAL)
    for built in (ours.build(), its.build()):
        assert built.returncode == 0, built.stdout
    recorded = rows_of(recordings()["calls.txt.xz"])
    assert not difference(recorded, [line.partition(" = ")[2] for line in its.make([call for call, _ in recorded])])
    made = [line for line in its.make(calls_with_panics()) if not line.endswith(" = no call")]
    assert made and made == ours.make(made)
