# SPDX-License-Identifier: Apache-2.0 OR BSD-3-Clause
"""What the docstrings of the Python package show."""
import doctest

import pytest
from superio import Board, board, devices, parse


@pytest.mark.parametrize("module, names", [(devices, {}), (board, {"Board": Board, "parse": parse})],
                         ids=["devices", "board"])
def test_module(module, names):
    done = doctest.testmod(module, extraglobs=names)
    assert done.attempted > 0 and done.failed == 0
