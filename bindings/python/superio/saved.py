# SPDX-License-Identifier: Apache-2.0 OR BSD-3-Clause
"""The states of the devices as saved states, and why bytes are none."""
from ctypes import byref, c_uint8
from typing import Any, Callable, Tuple, Type, TypeVar

from . import _facts
from .library import load
from .registers import byte_string

_Device = TypeVar("_Device", bound="Saved")


SAVED_STATE_ERRORS = _facts.SAVED_STATE_ERRORS
"""Why bytes are no saved state, in the words of a script, each with its text in every language. The order is that of
the checks, and so of `enum superio_saved_state_error`, which begins with 1."""


class SavedStateError(ValueError):
    """Bytes are not the saved state of this device. `reason` is the reason, as a script replies it: one of those in
    `superio.saved.SAVED_STATE_ERRORS`.
    """

    def __init__(self, reason: str) -> None:
        super().__init__(SAVED_STATE_ERRORS[reason])
        self.reason = reason

    def __reduce__(self) -> Tuple[Any, ...]:
        return type(self), (self.reason,)


class Saved:
    """A device whose `copy` and `pickle` use its saved state, so that equal states make the same pickle everywhere.

    A saved state leaves out where a ring begins, and the bytes that a guest or a reader has taken.
    """

    __slots__ = ("_library", "_struct", "_pointer")
    _name: str
    _saved_max: int

    def __init__(self) -> None:
        self._library = load()
        self._struct = self._new()
        self._pointer = byref(self._struct)

    def _new(self) -> Any:
        return self._function("new")()

    def _function(self, name: str) -> Callable[..., Any]:
        return getattr(self._library, f"superio_{self._name}_{name}")

    def to_bytes(self) -> bytes:
        """The device as a saved state, which `from_bytes` and the other languages read on any machine."""
        room = (c_uint8 * self._saved_max)()
        count = self._function("save")(self._pointer, room)
        return bytes(room)[:count]

    @classmethod
    def from_bytes(cls: Type[_Device], data: bytes) -> _Device:
        """The device of a saved state.

        If a console's interrupt controller was not restored too, call the console's `refuse`. In any case, make a
        `turn` then.

        Raises `SavedStateError` if the bytes are no saved state of this device.
        """
        device, data = cls(), byte_string("data", data)
        device._load(data)
        return device

    def _load(self, data: bytes) -> None:
        error = self._function("load")(self._pointer, data, len(data))
        if error:
            raise SavedStateError([*SAVED_STATE_ERRORS][error - 1])

    def __reduce__(self) -> Tuple[Any, ...]:
        """How `pickle` and `copy` make the device again, with the attributes of a subclass."""
        return _restored, (type(self), self.to_bytes()), getattr(self, "__dict__", None)


def _restored(kind: Type[Saved], data: bytes) -> Saved:
    """A device of this class, whose own constructor may want arguments."""
    device = kind.__new__(kind)
    Saved.__init__(device)
    device._load(data)
    return device
