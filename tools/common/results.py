# SPDX-License-Identifier: Apache-2.0 OR BSD-3-Clause
"""What each part of tools/check passed, failed and skipped, and how a part is run."""
import re
import subprocess

from common.commands import ROOT

OF_CARGO = r"^test result: .*"   # the lines of `cargo test` that count


def run(*words, at_its_end=False, **options):
    """Runs a command and shows what it prints, at its end if it runs beside another. Returns its status, 127 if it is
    not there, and what it printed."""
    lines, head = [], " ".join(["==", *words])
    if not at_its_end:
        print(head, flush=True)
    process = subprocess.Popen(["env", *words], stdin=subprocess.DEVNULL, stdout=subprocess.PIPE, encoding="utf-8",
                               stderr=subprocess.STDOUT, errors="replace", **{"cwd": ROOT, **options})
    for line in process.stdout:
        lines.append(line)
        if not at_its_end:
            print(line, end="", flush=True)
    printed = "".join(lines)
    if at_its_end:
        print("", head, printed, sep="\n", end="", flush=True)
    return process.wait(), printed.rstrip("\n")


def counted(status, printed, sums=r".*\Z"):
    """What a part passed, failed and skipped, by the lines that a pattern finds: the last one, if none is given. An
    error or an ignored test has failed. So has a part that passed nothing, or whose status is not 0."""
    lines = "\n".join(re.findall(sums, printed, re.M))
    passed, failed, skipped = (sum(map(int, re.findall(rf"(\d+) (?:{word})", lines)))
                               for word in ("passed", "failed|error|ignored", "skipped"))
    return passed, failed or int(status != 0 or not passed), skipped


def of_gate(status, printed, edits, tests):
    """The same of `rt ci`, which has also failed if it tried other must-fail edits or tests than there are. Some kits print
    a line for each edit that was refused, and others their number."""
    passed, failed, _ = counted(status, printed)
    refused = len({*re.findall(r"^rt: must-fail (\S+): refused, as it must be\b", printed, re.M)})
    refused = refused or sum(map(int, re.findall(r"must-fail edits: (\d+) refused(?!.*[1-9]\d* bad)", printed)))
    tested = counted(0, printed, r"^test result: ok\..*")[0]
    if (refused, tested) != (edits, tests):
        print(f"rt ci tried {refused} of {edits} must-fail edits, and {tested} of {tests} tests")
    return passed + tested, failed or int((refused, tested) != (edits, tests)), 0
