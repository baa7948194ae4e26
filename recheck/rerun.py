# SPDX-License-Identifier: Apache-2.0 OR BSD-3-Clause
"""Translates, has Coq check the proofs, and sees that every claim has a theorem that rests on nothing."""
import argparse
import os
import re
import shutil
import subprocess
import sys
import tempfile
from pathlib import Path
from typing import Any

import antt2coq
import expanded
import rust2coq
import shell2coq
import statements
from around import BUILD_SCRIPT, check_manifests
from c_functions import safe_part
from c_header import check_header
from coq import Failed, check, coqc, rests_on
from left_out_items import left_out_items
from rust_tokens import source

HERE = Path(__file__).resolve().parents[1]

# The laws, as superio_laws and superio_core define them, that need a theorem each.
LAWS = [f"superio_laws.Serial.Laws.{name}" for name in """StateLaw HeldBytesLaw CoherenceLaw RetryLaw
    UartRun.UartRunLaw UartRun.UartOutputLaw UartRun.UartBoundLaw Consequences.ReadOutThenHeldLaw
    Consequences.RepliesAreReadOutLaw Consequences.ReadThenHeldLaw Consequences.WaitingBytesLaw Line.NoByteWaitsLaw
    Transmit.IerWriteAsksLaw Transmit.ThrWriteAsksLaw Transmit.RetriedLaw Transmit.RefusedWriteLaw
    Transmit.CalledSinceLaw GuestDriver.InterruptToReadLaw GuestDriver.InterruptToSendLaw GuestDriver.ReadOutInRunsLaw
    GuestDriver.SentInRunsLaw""".split()]
LAWS += [f"superio_core.Saved.{name}" for name in """SerialEncodingLaw ClockEncodingLaw OneSerialStateLaw
    OneClockStateLaw""".split()]
LAWS += [f"superio_laws.Rtc.{name}" for name in ("ClockIsHistory", "RawBitsByHistory", "AlarmDueByHistory")]
LAWS += [f"superio_console.Saved.{name}" for name in ("ConsoleEncodingLaw", "OneConsoleStateLaw")]
LAWS += [f"superio_console.Laws.{name}" for name in """PortLaw WakeLaw NoNeedlessWakeLaw ConsumeLaw CoveredLaw HeldLaw
    RefusedLaw RetryLaw KeptLaw AskedLaw PendingLaw WaitingLaw SendLaw InputLaw GateLaw SleepLaw OpenLaw PolledLaw TakenLaw
    OutputLaw RoomLaw""".split()]
LAWS += [f"superio_console.Driver.{name}" for name in """StartLaw FirstLaw NextLaw ResetLaw TimeoutLaw
    MonitoredLaw EachByteIsThroughLaw""".split()]
# Other definitions that the theorems use.
WORDS = [f"superio_core.{name}" for name in """Serial.CoherentUart Serial.RdaCoversHeldBytes Serial.irq_level
    Serial.fresh_state Serial.Operations.is_first_of_two_refused Saved.serial_encoding Saved.serial_fault
    Saved.clock_encoding Saved.clock_fault Rtc.is_readable Rtc.is_writable Rtc.fresh_clock Rtc.state_of_clock
    Rtc.Step.rtc_irq_level Rtc.Step.IsAlarmDue I8042.is_reset_command Serial.Step.answers_fit Serial.Operations.bytes_sent""".split()]
WORDS += ["vm_superio.Rtc.clock_events", "superio_laws.Serial.History.Interrupts.is_fitting"]
WORDS += [f"superio_console.{name}" for name in """Console.state_of Console.new_console Console.wants_of Console.shown_at
    Console.after Console.work_of Saved.console_encoding Saved.console_fault Saved.IsConsole""".split()]


# The crates that are translated, and where their sources are.
CRATES = {"core": "rust/superio/src", "c": "bindings/c/from-source/src", "shell": "rust/vm-superio/src"}


def left_out() -> tuple[dict[str, dict[Path, Any]], Any]:
    """What is not translated of the files of each crate."""
    listed = left_out_items((HERE / "recheck/left-out.rs").read_text("utf-8"))
    found = {name: {Path(path).relative_to(folder): listed.pop(path) for path in [*listed] if path.startswith(f"{folder}/")}
             for name, folder in CRATES.items()}
    return found, listed.pop(BUILD_SCRIPT)


def translated(root: Path, around: bool = True) -> tuple[dict[str, str], list[str]]:
    """The generated files, with all functions, and the Coq names of the public ones. `around` is whether manifests and
    the header count."""
    left, build_script = left_out()
    if around:
        check_manifests(root, build_script)
    c_functions = safe_part(source(root / CRATES["c"] / "lib.rs"), left["c"][Path("lib.rs")])
    if [*(root / CRATES["c"]).iterdir()] != [root / CRATES["c"] / "lib.rs"]:
        raise rust2coq.Refused(f"{CRATES['c']}: more than lib.rs")
    crate = rust2coq.Crate(root / CRATES["core"], c_functions, left["core"])
    if around:
        check_header(root, crate)
    functions = sorted(name for name, item in crate.functions.items() if item.public)
    types, code = rust2coq.translate(crate, [*functions, *crate.functions])
    shell = shell2coq.ShellCrate(root / CRATES["shell"], crate, left["shell"])
    public = shell.public()
    files = {"Types": types, "Code": code,
             "ShellCode": shell2coq.translate(shell, [*public, *shell.translated()], code),
             "Definitions": antt2coq.translate(root / "crates", crate, LAWS + WORDS)}
    return files, [rust2coq.coq_name(name) for name in functions] + [shell2coq.coq_name(name) for name in public]


def audit(folder: Path, functions: list[str]) -> list[str]:
    """The theorems, if they cover everything and rest on nothing."""
    files = statements.theorems_of(folder)
    theorems = [f"Recheck.{file}.{name}" for name, file in files.items()]
    text = "\n".join((folder / f"{file}.v").read_text("utf-8") for file in dict.fromkeys(files.values()))
    of_law = {law: f"Recheck.{files[name]}.{name}"
              for name, law in re.findall(r"^Theorem (\w+) : (\w+)\.(?: |$)", text, re.M)}
    laws = []
    for path in LAWS:
        module, _, law = path.rpartition(".")
        laws.append(f"{module.rpartition('.')[2]}_{law}" if law in laws else law)  # as antt2coq names the second of a name
    lines = [f"Require Recheck.{file}." for file in ("Definitions", *dict.fromkeys(files.values()))]
    lines += [f"Definition proved_{law} : Recheck.Definitions.{law} := {of_law[law]}." for law in laws if law in of_law]
    lines += [f"Check @{name}." for name in theorems]
    lines += rests_on(theorems)
    (folder / "Audit.v").write_text("\n".join(lines) + "\n", "utf-8")
    answers = coqc(folder, "Audit")
    named = set(re.findall(r"\b(?:rs|vm)_\w+", answers))
    faults = [f"no theorem is {law}" for law in laws if law not in of_law]
    faults += [f"no theorem names {name}" for name in functions if name not in named]
    if not theorems or not answers.endswith("\nClosed under the global context\n"):
        faults.append(f"theorems rest on something:\n{answers[-2000:]}")
    if faults:
        raise Failed("\n".join(faults))
    return theorems


def main(said: str | None) -> None:
    parser = argparse.ArgumentParser(description=said, formatter_class=argparse.RawDescriptionHelpFormatter)
    parser.add_argument("--keep", type=Path, metavar="DIR")
    parser.add_argument("--chk", action="store_true")
    parser.add_argument("--write-statements", action="store_true")
    parser.add_argument("--rustc", metavar="RUSTC")
    parser.add_argument("--jobs", type=int, default=len(os.sched_getaffinity(0)), metavar="N")
    parser.add_argument("root", type=Path, nargs="?", default=HERE, metavar="ROOT")
    arguments = parser.parse_args()
    if not shutil.which("coqc"):
        sys.exit("recheck: there is no coqc: apt-get install coq")
    with tempfile.TemporaryDirectory() as temporary:
        folder = arguments.keep or Path(temporary)
        folder.mkdir(parents=True, exist_ok=True)
        try:
            generated, functions = translated(arguments.root)
            if arguments.rustc:
                for crate, count in expanded.compare(arguments.root, arguments.rustc, CRATES, left_out()[0], temporary):
                    print(f"{arguments.rustc} reads the same {count} tokens of {crate}")
            for name, text in generated.items():
                (folder / f"{name}.v").write_text(text, "utf-8")
            for file in [*HERE.glob("recheck/*.v"), *HERE.glob("recheck/proofs/*.v")]:
                if file.stem in (*generated, "Audit", "Statements"):
                    raise Failed(f"{file} would be in the place of what is made")
                shutil.copy(file, folder)
            check(folder, arguments.jobs)
            theorems = audit(folder, functions)
            statements.compare(folder, arguments.write_statements)
            if arguments.chk:
                subprocess.run(["coqchk", "-silent", "-o", "-Q", ".", "Recheck", "Recheck.Audit", "Recheck.Witnesses"],
                               cwd=folder, check=True)
        except (Failed, rust2coq.Refused, antt2coq.Refused, OSError, subprocess.CalledProcessError) as fault:
            sys.exit(f"recheck: {fault}")
    listed = left_out_items((HERE / "recheck/left-out.rs").read_text("utf-8"))
    print(f"proved again: {len(theorems)} theorems; {sum(map(len, listed.values()))} items of Rust are left out")
