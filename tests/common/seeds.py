# SPDX-License-Identifier: Apache-2.0 OR BSD-3-Clause
"""What random searches are made of. A test that fails says at which number they began."""
import random

from common.seed import seed


def seeds(what, number):
    """So many seeds, others with each commit. More of them leave the first as they are."""
    return [f"{what} {place} of {seed()}" for place in range(number)]


def random_source(what):
    """Random values, for what is searched."""
    return random.Random(f"{what} of {seed()}")
