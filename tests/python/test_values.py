# SPDX-License-Identifier: Apache-2.0 OR BSD-3-Clause
"""Single values of the Python package: any state goes there and back, in every form, and any argument of a wrong type
or out of range is refused and changes nothing."""
import copy
import importlib
import json
import pickle
from dataclasses import replace
from pkgutil import iter_modules
from types import ModuleType

import pytest
from harness import at_least
from hypothesis import given, strategies as st
from support import DEVICES

import superio
from superio import Console, ConsoleState, Rtc, RtcState, SavedStateError, Serial, SerialState

BYTE, WORD = st.integers(0, 255), st.integers(0, 2**32 - 1)
SERIAL = st.builds(lambda held, *registers: SerialState(*registers, held), st.binary(max_size=64), *[BYTE] * 9)
CLOCK = st.builds(RtcState, lr=WORD, mr=WORD, imsc=WORD, ris=WORD, offset=st.integers(-2**63, 2**63 - 1),
                  armed=st.booleans())
CONSOLE = st.builds(ConsoleState, SERIAL, st.binary(max_size=4096), st.integers(0, 2**64 - 1),
                    *[st.booleans()] * 4)
NO_BYTE = st.integers(max_value=-1) | st.integers(min_value=256)
OTHER = st.none() | st.floats() | st.text() | st.binary() | st.lists(st.integers(), max_size=2)


def ways(device):
    """A device that went through each form."""
    return [copy.copy(device), copy.deepcopy(device), pickle.loads(pickle.dumps(device)),
            type(device).from_bytes(device.to_bytes()), type(device).from_state(device.state)]


@given(state=SERIAL)
def test_port_there_and_back(state):
    port = Serial.from_state(state)
    assert [device.state for device in ways(port)] == [state] * 5
    moved = json.loads(json.dumps(state.to_vm_superio()))
    assert SerialState.from_vm_superio(moved) == state


@given(state=CLOCK)
def test_clock_there_and_back(state):
    clock, five = Rtc.from_state(state), replace(state, armed=False)
    assert [device.state for device in ways(clock)] == [state] * 5
    assert RtcState.from_vm_superio(json.loads(json.dumps(five.to_vm_superio()))) == five


@given(state=CONSOLE)
def test_console_there_and_back(state):
    assert [device.state for device in ways(Console.from_state(state))] == [state] * 5


@pytest.mark.parametrize("device", at_least(3, [kind for kind in DEVICES if hasattr(kind, "from_bytes")]))
@given(data=st.binary(max_size=100))
def test_any_bytes(device, data):
    """They are a saved state that is saved the same again, or are refused."""
    try:
        assert device.from_bytes(data).to_bytes() == data
    except SavedStateError as error:
        assert error.reason


PORTS = pytest.mark.parametrize("make", [Serial.from_state, lambda state: Console.from_state(ConsoleState(state))])


@PORTS
@given(state=SERIAL, offset=BYTE | NO_BYTE, value=BYTE | NO_BYTE)
def test_numbers_out_of_range(make, state, offset, value):
    port = make(state)
    before = port.state
    for number, call in (offset, lambda: port.read(offset)), (value, lambda: port.write(0, value)):
        if not 0 <= number < 256:
            with pytest.raises(ValueError):
                call()
    assert port.state == before


@PORTS
@given(state=SERIAL, value=OTHER)
def test_other_types(make, state, value):
    port = make(state)
    before = port.state
    with pytest.raises(TypeError):
        port.write(0, value)
    assert port.state == before


MODULES = at_least(14, [importlib.import_module(module.name) for module in iter_modules(superio.__path__, "superio.")])


def test_names_that_are_for_callers():
    """Those that the package takes from its modules, and the functions and classes of a module that lists its names."""
    taken = {name for name, value in vars(superio).items() if name[0] != "_" and not isinstance(value, ModuleType)}
    assert sorted(superio.__all__) == sorted(taken | {"__version__"})
    for module in at_least(2, [module for module in MODULES if hasattr(module, "__all__")]):
        own = {name for name, value in vars(module).items()
               if name[0] != "_" and getattr(value, "__module__", "") == module.__name__}
        assert own <= {*module.__all__} <= {*vars(module)}, module


def caches():
    """The functions of the package that keep their results, each with how many at most."""
    for names in map(vars, MODULES):
        classes = [one for one in names.values() if isinstance(one, type)]
        for name, one in [*names.items(), *(item for each in classes for item in vars(each).items())]:
            one = getattr(one, "__func__", one)
            if hasattr(one, "cache_parameters"):
                yield name, one.cache_parameters()["maxsize"]


def test_a_cache_has_an_end():
    """Unless the package itself has all that it may be asked for: the library, and a class of states."""
    found = {*at_least(5, caches())}
    assert {name for name, most in found if most is None} == {"load", "kinds"}
    assert max(most for _, most in found if most) <= 4096
