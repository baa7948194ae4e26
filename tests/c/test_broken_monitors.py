# SPDX-License-Identifier: Apache-2.0 OR BSD-3-Clause
"""rules.c refuses each monitor that breaks a rule of superio.h, and names the rule. Each is an edit of monitor.c, so a
change of monitor.c may need another edit here."""
import re

import pytest
from builds import run_rules
from harness import ROOT, at_least

pytestmark = pytest.mark.needs("cc")

TURN = "        carry_out(machine, superio_console_turn(&machine->console));\n"
ASKS = "        wanted = superio_console_wants(&machine->console);\n"
# What the checker says of a monitor that breaks a rule, and an edit that makes one of monitor.c. The world decides where
# a signal interrupts the last monitor, so that either may be said.
BROKEN = at_least(21, {
    "a console is called without its lock": (TURN + ASKS + "        pthread_mutex_unlock(&machine->lock);\n",
                                             "        pthread_mutex_unlock(&machine->lock);\n" + TURN + ASKS),
    "it may wait under its lock": ("            || fcntl(machine->wakes[1], F_SETFL, O_NONBLOCK) != 0\n", ""),
    "a thread polls that has its lock": ("        pthread_mutex_unlock(&machine->lock);\n        struct pollfd",
                                         "        struct pollfd"),
    "an edge is not raised": ("i < work.interrupts", "i + 1 < work.interrupts"),
    "an edge is raised that nobody asks for": ("i < work.interrupts", "i < work.is_up"),
    "a refusal is not told": ("if (!put(machine->interrupts[1]))", "if (!put(machine->interrupts[1]) && i > 0)"),
    "a refusal is told that there was not": ("if (!put(machine->interrupts[1]))",
                                             "if (!put(machine->interrupts[1]) || !machine->console.is_ready)"),
    "the loop is not woken": ("return work.wakes | superio_console_refuse(&machine->console).wakes;",
                              "return superio_console_refuse(&machine->console).wakes;"),
    "the loop is woken for nothing": ("if (carry_out(machine, work))", "if (carry_out(machine, work) || work.is_up)"),
    "more input is read than is wanted": ("bytes, wanted.input);", "bytes, 64);"),
    "input is read and does not go in": ("        if (count > 0)\n            carry_out",
                                         "        if (count > 0 && wanted.input < 64)\n            carry_out"),
    "other input goes in": ("bytes, (size_t)count).work", "bytes, (size_t)count / 2 + 1).work"),
    "other output is written": ("superio_console_output(&machine->console, bytes, sizeof bytes));",
                                "superio_console_output(&machine->console, bytes, sizeof bytes) | 1);"),
    "other output is consumed": ("consume(&machine->console, (size_t)count)", "consume(&machine->console, 4096)"),
    "there is a turn too many": (TURN, TURN + TURN),
    "it polls without a turn after the last poll": (TURN, "        if (count > 0)\n    " + TURN),
    "it polls and has not asked what is wanted": (TURN + ASKS, ASKS + TURN),
    "it polls the line for something else than is wanted": ("wanted.output ? machine->line : -1", "machine->line"),
    "it polls a file for nothing, and so for its end": (
        "{.fd = wanted.output ? machine->line : -1, .events = POLLOUT}",
        "{.fd = machine->line, .events = wanted.output ? POLLOUT : 0}"),
    "its poll ends at another time": ("wanted.turn ? 5 : -1", "5"),
    "what has woken it wakes it again": ("files[2].revents &&", "files[2].revents && wanted.turn &&"),
    "all wait for ever": ("guest_writes(machine, 1, 0x01)", "guest_writes(machine, 1, 0x00)"),
    "it (?:prints something else|does not end)": (" || errno == EINTR", ""),
}.items())


@pytest.mark.parametrize("said, edit", BROKEN, ids=lambda value: value if isinstance(value, str) else "")
def test_a_monitor_that_breaks_a_rule(said, edit, tmp_path):
    text = (ROOT / "examples/c/monitor.c").read_text(encoding="utf-8")
    assert text.count(edit[0]) == 1
    (tmp_path / "monitor.c").write_text(text.replace(*edit), encoding="utf-8")
    ran = run_rules(tmp_path / "monitor.c", tmp_path, "-O0")
    assert ran.returncode == 1 and re.fullmatch(rf"world \d+: {said}\n", ran.stdout), ran.stdout
