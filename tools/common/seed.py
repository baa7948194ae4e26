# SPDX-License-Identifier: Apache-2.0 OR BSD-3-Clause
"""Where random searches begin: at a number that each commit has of its own, or that TEST_SEED names. Programs of tests
in other languages read TEST_SEED too, and begin at 0 without it."""
import os
import subprocess

from common.commands import ROOT

VARIABLE = "TEST_SEED"


def seed():
    """The number, which is put into the environment. Without a commit, as in a release, it is 0."""
    if VARIABLE not in os.environ:
        try:
            words = ["git", "rev-parse", "--verify", "--quiet", "HEAD"]
            said = subprocess.run(words, cwd=ROOT, capture_output=True, encoding="utf-8").stdout
        except OSError:
            said = ""
        os.environ[VARIABLE] = str(int(said[:8] or "0", 16))
    return int(os.environ[VARIABLE])
