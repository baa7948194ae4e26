# SPDX-License-Identifier: Apache-2.0 OR BSD-3-Clause
"""Wrong bodies and wrong definitions, one at a time: Coq has to refuse each, in the proof about it. And harmless
changes, which have to pass. Each proves a part again, so they run at a release, with RECHECK_PLANTS set."""
import os
import shutil

import pytest
from harness import ROOT

import coq
import rerun
import statements

JOBS = len(os.sched_getaffinity(0))
DEVICES, SHELL, SPECS = "rust/superio/src/devices/", "rust/vm-superio/src/", "crates/"
C_FUNCTIONS = "bindings/c/from-source/src/lib.rs"
FIFO, CODE, SAVED, CLOCK = {"Fifo"}, {"PortCode"}, {"Saved"}, {"Clock"}

# A file, what stands there, what is planted, and the files of proofs of which one has to fail.
WRONG = [(DEVICES + file, old, new, proofs) for file, old, new, proofs in [
    ("fifo.rs", "+ distance) % FIFO_SIZE", "+ distance) % 63", FIFO),
    ("fifo.rs", "self.head.wrapping_add(1)", "self.head.wrapping_add(2)", FIFO),
    ("fifo.rs", "if held == FIFO_SIZE {", "if held == 63 {", FIFO),
    ("fifo.rs", "self.len = (held - 1) as u8", "self.len = held as u8", FIFO),
    ("fifo.rs", "self.len = (held + 1) as u8", "self.len = (held + 2) as u8", FIFO),
    ("fifo.rs", ".min(FIFO_SIZE - held)", ".min(FIFO_SIZE)", FIFO),
    ("fifo.rs", "usize::from(self.len).min(FIFO_SIZE)", "usize::from(self.len)", FIFO | CODE),
    ("serial.rs", "self.line_status = with_bits(self.line_status, LSR_DATA_READY_BIT);", "", CODE),
    ("serial.rs", "buffer_read: true,", "buffer_read: false,", CODE),
    ("serial.rs", "                self.interrupt_identification = IIR_NONE_BIT;\n", "", CODE),
    ("serial.rs", "fifo_full: true,", "fifo_full: false,", CODE),
    ("serial.rs", "if in_buffer_empty {", "if !in_buffer_empty {", CODE),
    ("serial.rs", "if due == 2 && matches!", "if due == 1 && matches!", CODE),
    ("serial.rs", "sends = true;", "sends = false;", CODE),
    ("serial.rs", "self.is_asserted(Condition::Thre) | self", "self.is_asserted(Condition::Thre) & self", CODE),
    ("serial.rs", "Register::Scr => self.scratch = value", "Register::Scr => self.line_control = value", CODE),
    ("serial.rs", "usize::from(self.in_buffer.len) <= FIFO_SIZE", "usize::from(self.in_buffer.len) < FIFO_SIZE", CODE),
    ("serial/registers.rs", "MCR_LOOP_BIT: u8 = 0x10", "MCR_LOOP_BIT: u8 = 0x08", CODE),
    ("serial/registers.rs", "self.loopback_bit(MCR_DTR_BIT, MSR_DSR_BIT)", "self.loopback_bit(MCR_DTR_BIT, MSR_CTS_BIT)", CODE),
    ("serial/registers.rs", "0x04 => holds_bytes", "0x04 => true", CODE),
    ("serial/registers.rs", "LCR_OFFSET => Register::Lcr", "LCR_OFFSET => Register::Mcr", CODE),
    ("serial/registers.rs", "DEFAULT_MODEM_STATUS: u8 = 0xB0", "DEFAULT_MODEM_STATUS: u8 = 0xF0", CODE),
    ("serial/encoding.rs", "in_buffer.len() > FIFO_SIZE", "in_buffer.len() >= FIFO_SIZE", SAVED),
    ("serial/encoding.rs", "self.modem_control,\n            self.modem_status,", "self.modem_status,\n            self.modem_control,", SAVED),
    ("saved.rs", "*its_kind != kind", "*its_kind != VERSION", SAVED),
    ("saved.rs", "const VERSION: u8 = 1", "const VERSION: u8 = 2", SAVED),
    ("rtc_pl031/encoding.rs", "[1] => true,", "[2] => true,", SAVED),
    ("rtc_pl031/encoding.rs", "let (ris, rest) = split_number(rest);",
     "let (ris, rest) = split_number(rest);\n        let ris = imsc;", SAVED),
    ("rtc_pl031/alarm.rs", "counter < 1 << 32 =>", "counter <= 1 << 32 =>", CLOCK),
    ("rtc_pl031/alarm.rs", "if from < by_counter { by_counter } else { value }", "if from < by_counter { by_counter } else { from }", CLOCK),
    ("rtc_pl031/alarm.rs", "(1 << 32) - u64::from(time)", "(1 << 31) - u64::from(time)", CLOCK),
    ("rtc_pl031.rs", ">= self.mr", "> self.mr", CLOCK),
    ("rtc_pl031.rs", "value & 1,", "value & 3,", CLOCK),
    ("rtc_pl031.rs", "from(guest_time < value)", "from(guest_time <= value)", CLOCK),
    ("rtc_pl031.rs", "i64::from(value) - i64::from(time)", "i64::from(time) - i64::from(value)", CLOCK),
    ("rtc_pl031.rs", "self.ris & self.imsc & 1 == 1", "self.ris & 1 == 1", CLOCK),
    ("rtc_pl031.rs", "- AMBA_ID_LOW) / 4", "- AMBA_ID_LOW) / 2", CLOCK),
    ("i8042.rs", "CMD_RESET_CPU: u8 = 0xFE", "CMD_RESET_CPU: u8 = 0xFF", {"Controller"}),
]]
WRONG += [(SPECS + file, old, new, proofs) for file, old, new, proofs in [
    ("superio_core/specs/Serial/Step.antt", "if others == 0 then iir_none_bit", "if others == 0 then 0", {"PortHistory"}),
    ("superio_core/specs/Rtc.antt", "imsc = value % 2", "imsc = value % 4", CLOCK),
    ("superio_core/specs/Saved.antt", "length state.in_buffer ≤ fifo_size → serial_fault", "length state.in_buffer ≤ 0 → serial_fault", SAVED),
    ("superio_core/specs/Serial/RegisterMap.antt", "iir_bit Thre = 0x02", "iir_bit Thre = 0x08", {"PortHistory"}),
    ("superio_laws/specs/Serial/History/Registers.antt", "take (fifo_size - length held) bytes", "take (63 - length held) bytes", {"PortHistory"}),
    ("superio_laws/specs/Serial/History/Interrupts.antt", "acknowledges Rda kind = is_iir_read kind || is_rbr_read kind",
     "acknowledges Rda kind = is_iir_read kind", {"PortHistory"}),
    ("superio_laws/specs/Serial/Laws/UartRun.antt", "≤ 2 + 2 *", "≤ 1 + 2 *", {"PortLaws"}),
    ("superio_laws/specs/Rtc/History.antt", "if at == offset then Some value else None", "None", CLOCK),
    ("superio_laws/specs/Serial/Laws/GuestDriver.antt", "take (length runs) (held_bytes", "take (1 + length runs) (held_bytes", {"PortLaws"}),
]]
WRONG += [(C_FUNCTIONS, old, new, {"Saved", "CFunctions"}) for old, new in [
    ("invalid_read: value.is_none()", "invalid_read: value.is_some()"),
    ("invalid_write: !is_taken", "invalid_write: is_taken"),
    ("SavedStateError::OtherDevice => 3", "SavedStateError::OtherDevice => 2"),
    ("_ => port.read(offset)", "_ => port.read(1)"),
    ("const LOADED: u32 = 0", "const LOADED: u32 = 1"),
    ("const NEVER: u64 = u64::MAX", "const NEVER: u64 = 0"),
]]
CONSOLE, RING, CALLS, SAVED_CONSOLE = "rust/superio/src/console/", {"OutputRing"}, {"ConsoleCode"}, {"ConsoleSaved"}
WRONG += [(CONSOLE + file, old, new, proofs) for file, old, new, proofs in [
    ("output_ring.rs", "+ distance) % OUTPUT_SIZE", "+ distance) % 4095", RING),
    ("output_ring.rs", "if waiting == OUTPUT_SIZE {", "if waiting == 4095 {", RING),
    ("output_ring.rs", "self.len = (waiting + 1) as u16", "self.len = (waiting + 2) as u16", RING),
    ("output_ring.rs", "self.head.wrapping_add(taken as u16)", "self.head.wrapping_add(1)", RING),
    ("output_ring.rs", "self.len = (waiting - taken) as u16", "self.len = waiting as u16", RING),
    ("output_ring.rs", "(&to_end[..older], &from_start[..waiting - older])", "(&from_start[..waiting - older], &to_end[..older])", RING),
    ("mod.rs", "&& self.is_asleep == 0;", "&& self.is_asleep != 0;", CALLS),
    ("mod.rs", "|| self.is_refused != 0 && self", "|| self.is_refused == 0 && self", CALLS),
    ("mod.rs", "        self.is_refused = 0;\n        if byte", "        if byte", CALLS),
    ("mod.rs", "(byte, self.port.character_timeout())", "(byte, 0)", CALLS),
    ("mod.rs", "dropped.saturating_add(1)", "dropped.saturating_add(2)", CALLS),
    ("mod.rs", "            && !registers.enables(Condition::Thre)\n", "", CALLS),
    ("mod.rs", "        if due > 0 {\n            self.is_refused = 0;\n        }\n", "", CALLS),
    ("mod.rs", "            || !before.turn && after.turn;", "            || before.turn && after.turn;", CALLS),
    ("mod.rs", "DATA_OFFSET | IER_OFFSET | MCR_OFFSET)", "DATA_OFFSET | IER_OFFSET)", CALLS),
    ("mod.rs", "offset == DATA_OFFSET && self", "offset == IER_OFFSET && self", CALLS),
    ("mod.rs", "self.retry(true, raised)", "self.retry(false, raised)", CALLS),
    ("mod.rs", "        self.is_asleep = 0;\n        self.is_refused = 0;\n        self.work", "        self.is_refused = 0;\n        self.work", CALLS),
    ("saved.rs", "waiting > rest.len()", "waiting >= rest.len()", SAVED_CONSOLE),
    ("saved.rs", "ALL_BITS: u8 = 0x0F", "ALL_BITS: u8 = 0x1F", SAVED_CONSOLE),
    ("mod.rs", "is_ready: flags & READY_BIT", "is_ready: flags & POLLED_BIT", SAVED_CONSOLE),
    ("mod.rs", "append(bytes, count, older);\n        let count = append(bytes, count, newer)",
     "append(bytes, count, newer);\n        let count = append(bytes, count, older)", SAVED_CONSOLE),
]]
WRONG += [(SPECS + "superio_console/specs/" + file, old, new, proofs) for file, old, new, proofs in [
    ("Console.antt", "(c.is_ready || c.is_polled) && not c.is_asleep", "(c.is_ready || c.is_polled)", CALLS),
    ("Console.antt", "retries Turns = true", "retries Turns = false", CALLS),
    ("OutputRing.antt", "drop (head % output_size) bytes ++ take (head % output_size) bytes", "drop (head % 64) bytes ++ take (head % 64) bytes", RING),
    ("Saved.antt", "if nat_lt 15 (slice_index contents 0)", "if nat_lt 31 (slice_index contents 0)", SAVED_CONSOLE),
]]
# Definitions and laws of a console that the laws' proofs refuse.
WRONG += [(SPECS + "superio_console/specs/" + file, old, new, {"ConsoleLaws"}) for file, old, new in [
    ("Console.antt", "owes_turn c = has_waiting_input c.port || (c.is_refused && irq_level c.port)", "owes_turn c = has_waiting_input c.port"),
    ("Console.antt", " || (not old.turn && new.turn)", ""),
    ("Console.antt", "port_calls Turns c = CharacterTimeout ∷ []", "port_calls Turns c = []"),
    ("Console.antt", "(if answers_none offset (shown_at offset c.port) then CharacterTimeout ∷ [] else [])", "[]"),
    ("Console.antt", "if c.is_refused && retries call then length (conditions_due (port_after call c))", "if c.is_refused && retries call then 0"),
    ("Console.antt", "refused_after (Reads offset) c = if offset == 2 then false else c.is_refused", "refused_after (Reads offset) c = false"),
    ("Console.antt", "ready_after Resets c = false", "ready_after Resets c = c.is_ready"),
    ("Console.antt", "asleep_after Suspends c = true", "asleep_after Suspends c = c.is_asleep"),
    ("Console.antt", "if nat_lt (length output) output_size then output ++ byte ∷ [] else output", "output"),
    ("Laws.antt", "take (length runs) c.port.in_buffer", "take (1 + length runs) c.port.in_buffer"),
]]
WRONG += [(C_FUNCTIONS, old, new, {"CFunctions"}) for old, new in [
    ("oldest.len().min(count)", "oldest.len()"),
    ("console.set_polled(is_polled)", "console.set_polled(!is_polled)"),
]]
# Conditions of laws that no call meets.
WRONG += [(SPECS + "superio_laws/specs/Serial/Laws/GuestDriver.antt", old, old + "  pub never : IsTrue false\n", {"PortLaws", "Witnesses"})
          for old in ("  pub asks : AsksWhenGiven driver start before run\n", "  pub unread : NoIirRead start pass before\n")]
EMPTY = "        if effects.in_buffer_empty {\n            self.events.in_buffer_empty();\n        }\n"
READ = "        if effects.buffer_read {\n            self.events.buffer_read();\n        }\n"
WRONG += [(SHELL + file, old, new, {"Shell", "Controller"}) for file, old, new in [
    ("serial.rs", "self.out.write_all(&[value]).and_then(|()| self.out.flush())", "self.out.flush().and_then(|()| self.out.write_all(&[value]))"),
    ("serial.rs", "self.out.write_all(&[value]).and_then(|()| self.out.flush())", "self.out.write_all(&[value])"),
    ("serial.rs", "Ok(()) => self.events.out_byte()", "Ok(()) => self.events.tx_lost_byte()"),
    ("serial.rs", "        self.port.registers.interrupt_identification = pending;\n", ""),
    ("serial.rs", "both_pending & !THRE;", "both_pending & !(THRE | 0x04);"),
    ("serial.rs", "1 => self.interrupt_evt.trigger().map_err(Error::Trigger)?,", "1 => self.trigger_twice().map_err(Error::Trigger)?,"),
    ("serial.rs", "        sent\n    }", "        Ok(())\n    }"),
    ("serial.rs", "            _ => self.trigger_twice().map_err(Error::Trigger)?,\n        }\n        sent\n",
     "            _ => self.trigger_twice().map_err(Error::Trigger)?,\n        }\n        sent?;\n        self.interrupt_evt.trigger().map_err(Error::Trigger)\n"),
    ("serial.rs", EMPTY + READ, READ + EMPTY),
    ("serial.rs", "if effects.interrupts > 0 {", "if effects.interrupts > 1 {"),
    ("serial.rs", "self.port.interrupts_due()", "2u8"),
    ("serial.rs", "serial.retry_interrupts().map_err(Error::Trigger)?;", ""),
    ("serial/state.rs", "% FIFO_SIZE", "% 63"),
    ("serial/state.rs", "modem_control: self.modem_control", "modem_control: self.modem_status"),
    ("serial/timeout.rs", "0 => Ok(()),", "1 => Ok(()),"),
    ("rtc_pl031.rs", "} else if self.is_armed() {", "} else if self.interrupt_line() {"),
    ("rtc_pl031.rs", "if !is_valid {", "if is_valid {"),
    ("rtc_pl031.rs", "if offset > RTCLR && !self.is_armed() {", "if offset > RTCMR && !self.is_armed() {"),
    ("rtc_pl031.rs", "_ if clock.armed != 0 =>", "_ if clock.ris != 0 =>"),
    ("i8042.rs", "if is_reset_command(offset, value) {", "if !is_reset_command(offset, value) {"),
]]
HARMLESS = [(DEVICES + file, old, new) for file, old, new in [
    ("fifo.rs", "if held == 0 {", "if held < 1 {"),
    ("serial.rs", "Register::Ier => self.interrupt_enable,\n", "Register::Ier => {\n                let enable = self.interrupt_enable;\n                enable\n            }\n"),
    ("serial.rs", "if self.is_loopback() || input.is_empty() {", "if self.is_loopback() | input.is_empty() {"),
    ("rtc_pl031.rs", "self.lr = 0;\n                    self.offset = 0;",
     "self.offset = 0;\n                    self.lr = 0;"),
    ("serial/registers.rs", "byte & bits == bits", "bits == byte & bits"),
]]
HARMLESS += [(SHELL + file, old, new) for file, old, new in [
    ("i8042.rs", "self.reset_evt.trigger()?;", "return self.reset_evt.trigger();"),
]]
# Definitions that say less, with which all is proved: Coq says other things of them.
WEAKER = [
    (SPECS + "superio_laws/specs/Serial/Laws/Transmit.antt", "  pub due : IsTrue (is_call_due condition start (earlier ++ before) entry)\n",
     "  pub due : later ≡ later\n", "-    CallsFor_due : IsTrue"),
    ("recheck/proofs/PortCode.v", "inhabited (IsUartRead offset effects (state_of_uart port) (state_of_uart after)).\n",
     "inhabited (IsUartRead offset effects (state_of_uart port) (state_of_uart after)) \\/ False.\n", "\\/ False"),
    ("recheck/proofs/Witnesses.v", "Definition used_retried := retried Condition_Thre fresh [took (Write 1 2)] eq_refl eq_refl.",
     "Definition used_retried := eq_refl 0.", "used_retried"),
    ("recheck/Calls.v", "  | Read offset => offset < 256\n", "  | Read offset => offset < 3\n", "+| Read offset => offset < 3"),
]


def copy_sources(folder):
    """What the run reads of the repository, except recheck."""
    for source in ("rust/superio", "rust/vm-superio", "bindings/c"):
        shutil.copytree(ROOT / source, folder / source, ignore=shutil.ignore_patterns("target"))
    for crate in ("superio_core", "superio_laws", "superio_console", "vm_superio"):
        shutil.copytree(ROOT / SPECS / crate / "specs", folder / SPECS / crate / "specs")


def planted(checked, folder, file, old, new):
    """A copy of what is checked, with one change of a source, and the names of the files to check again."""
    proofs = folder / "proofs"
    shutil.copytree(checked[0], proofs)
    if file.startswith("recheck/"):
        changed = {replaced(proofs / file.rpartition("/")[2], old, new).stem}
        return proofs, with_requiring(proofs, changed)
    copy_sources(folder)
    replaced(folder / file, old, new)
    changed = set()
    for name, translation in rerun.translated(folder, around=False)[0].items():
        if (proofs / f"{name}.v").read_text() != translation:
            (proofs / f"{name}.v").write_text(translation)
            changed.add(name)
    return proofs, with_requiring(proofs, changed)


def replaced(file, old, new):
    text = file.read_text(encoding="utf-8")
    assert old in text, f"{file} has no {old!r}"
    file.write_text(text.replace(old, new, 1), encoding="utf-8")
    return file


def with_requiring(folder, changed):
    """These files, and all that require them."""
    needs = coq.requirements(folder)
    while more := {name for name, required in needs.items() if required & changed} - changed:
        changed = changed | more
    return changed - {"Audit", "Statements"}


def with_required(folder, names):
    """These files, and all that they require."""
    needs = coq.requirements(folder)
    while more := set().union(*(needs[name] for name in names)) - names:
        names = names | more
    return names


def short(value):
    return value[:30] if isinstance(value, str) else ",".join(sorted(value))


@pytest.mark.where("variable RECHECK_PLANTS")
@pytest.mark.needs("coq")
@pytest.mark.parametrize("file, old, new, proofs", WRONG, ids=short)
def test_wrong(file, old, new, proofs, checked, tmp_path):
    folder, changed = planted(checked, tmp_path, file, old, new)
    with pytest.raises(coq.Failed) as failed:
        coq.check(folder, JOBS, changed & with_required(folder, proofs))
    assert str(failed.value).partition(".v is not proved")[0] in proofs, failed.value


@pytest.mark.parametrize("file, old", [plant[:2] for plant in [*WRONG, *HARMLESS, *WEAKER]], ids=short)
def test_is_there(file, old):
    """What a plant changes is in its file, also where no plant is tried."""
    assert old in (ROOT / file).read_text(encoding="utf-8")


@pytest.mark.where("variable RECHECK_PLANTS")
@pytest.mark.needs("coq")
@pytest.mark.parametrize("file, old, new", HARMLESS, ids=short)
def test_harmless(file, old, new, checked, tmp_path):
    folder, changed = planted(checked, tmp_path, file, old, new)
    assert "Witnesses" in changed
    coq.check(folder, JOBS, changed)


@pytest.mark.where("variable RECHECK_PLANTS")
@pytest.mark.needs("coq")
@pytest.mark.parametrize("file, old, new, line", WEAKER, ids=short)
def test_weaker(file, old, new, line, checked, tmp_path):
    folder, changed = planted(checked, tmp_path, file, old, new)
    coq.check(folder, JOBS, changed)
    with pytest.raises(coq.Failed) as failed:
        statements.compare(folder)
    assert line in str(failed.value), failed.value
