# SPDX-License-Identifier: Apache-2.0 OR BSD-3-Clause
"""What tests of every kind use: where the repository is, how a command is run, and how many cases there have to be."""
from common.commands import LIMIT, ROOT, check, run

__all__ = ["LIMIT", "ROOT", "at_least", "check", "run"]


def at_least(number, cases):
    """The cases, of which there have to be so many: a search that finds fewer has gone blind."""
    cases = list(cases)
    assert len(cases) >= number, f"{len(cases)} cases, and there have to be {number}"
    return cases
