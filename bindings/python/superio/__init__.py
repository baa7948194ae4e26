# SPDX-License-Identifier: Apache-2.0 OR BSD-3-Clause
"""Emulated legacy devices for virtual machine monitors, over a proved library.

They include a 16550 serial port, with the monitor's part of its work (`Console`) or without it (`Serial`), and a PL031
real-time clock (`Rtc`). Each function of the prebuilt library is proved to do what its specification says. This package
around the library is tested.

`python3 -m superio` is a shell for a board with the devices, and `Board` is that board.
"""
from . import devices
from .board import Board, Call
from .devices import *  # noqa: F403, all that `__all__` of the module names
from .library import LibraryError
from .registers import AlarmIsSetError, ConsoleState, RegisterError, RtcState, SerialState
from .saved import SavedStateError
from .script import Command, ScriptError, parse

__all__ = [*devices.__all__, "AlarmIsSetError", "Board", "Call", "Command", "ConsoleState", "LibraryError",
           "RegisterError", "RtcState", "SavedStateError", "ScriptError", "SerialState", "parse", "__version__"]

__version__ = "0.2.0"
