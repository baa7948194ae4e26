# SPDX-License-Identifier: Apache-2.0 OR BSD-3-Clause
"""Where the repository is, and how a command is run."""
import subprocess
from pathlib import Path

ROOT = Path(__file__).resolve().parents[2]
# Seconds, after which a command counts as one that does not end: more than any takes on a busy machine.
LIMIT = 1800


def run(command, timeout=LIMIT, **options):
    """Runs a command. Its result has all that it printed as text, errors too if they do not go elsewhere."""
    options = {"stdout": subprocess.PIPE, "stderr": subprocess.STDOUT, "stdin": subprocess.DEVNULL, **options}
    if "input" in options:
        del options["stdin"]
    return subprocess.run([*map(str, command)], encoding="utf-8", errors="replace", timeout=timeout, **options)


def check(command, printed=None, **options):
    """Asserts that a command succeeds and, if a text is given, prints just that. Returns what it printed."""
    done = run(command, **options)
    assert done.returncode == 0, f"{' '.join(map(str, command))} ended with {done.returncode}:\n{done.stdout}"
    assert printed in (None, done.stdout), f"{' '.join(map(str, command))} printed:\n{done.stdout}"
    return done.stdout
