# SPDX-License-Identifier: Apache-2.0 OR BSD-3-Clause
"""The registers of the serial port and of the clock, by names, offsets and bits, the states of the devices, and how
numbers and bytes for them are checked."""
import reprlib
from ctypes import c_int64, sizeof
from dataclasses import dataclass, fields
from functools import lru_cache
from operator import index
from typing import Any, Dict, List, Mapping, NamedTuple, Optional, Tuple, Type, TypeVar

from . import _facts

FIFO_SIZE = _facts.FIFO_SIZE
"""How many received bytes a serial port holds at most."""

OUTPUT_SIZE = _facts.OUTPUT_SIZE
"""How many bytes of output wait in a console at most."""

DLAB = _facts.DLAB
"""The bit of LCR that puts the divisor at the offsets 0 and 1."""

LOOPBACK = _facts.LOOPBACK
"""The bit of MCR that connects the port's output with its input."""

FIFO_BITS = _facts.FIFO_BITS
"""The bits of IIR that a read shows beside the conditions: FIFOs are enabled."""

IDENTIFICATION = _facts.IDENTIFICATION
"""The bytes of the clock's registers ID0 to ID7."""


class RegisterError(ValueError):
    """No register has this name, or an access would reach another one."""


def _refusal(name: str, value: Any, wanted: str) -> str:
    """Why an argument is refused. A long value is cut."""
    try:
        shown = reprlib.repr(value)
    except ValueError:  # a number of more digits than Python converts
        shown = "too large to show"
    return f"{name} is {shown}, of type {type(value).__name__}: {wanted} is wanted"


def number(name: str, value: Any, bits: int, is_signed: bool = False, instead: str = "") -> int:
    """A number of this many bits. `instead` is what may stand in its place, in the words of the errors' message."""
    try:
        whole = int(index(value))  # a Boolean is its own index
        if not (whole + (1 << bits - 1) if is_signed else whole) >> bits:
            return whole
        kind = ValueError
    except TypeError:
        kind = TypeError
    most = str((1 << bits) - 1) if bits < 32 else f"2**{bits} - 1"
    span = f"from -2**{bits - 1} to 2**{bits - 1} - 1" if is_signed else f"from 0 to {most}"
    raise kind(_refusal(name, value, f"an int {span}{instead}"))


def byte_string(name: str, value: Any) -> bytes:
    """The bytes of an object that has its contents in memory. A number has none: `bytes` would make zeros of it."""
    if isinstance(value, bytes):
        return value
    try:
        return bytes(memoryview(value))
    except TypeError:
        raise TypeError(_refusal(name, value, "a bytes-like object")) from None


def check_kind(name: str, value: Any, kind: type) -> None:
    """Raises `TypeError` if an argument is no object of this class."""
    if not isinstance(value, kind):
        raise TypeError(_refusal(name, value, kind.__name__))


class Register(NamedTuple):
    """A register, as a data sheet names it."""

    name: str
    offset: int
    about: str
    bits: Tuple[Tuple[int, str], ...] = ()
    latched: Optional[bool] = None
    """Whether it is reached while DLAB is set (`True`), while it is clear (`False`), or always (`None`)."""
    access: str = "rw"
    """`r`: only a read reaches it, `w`: only a write does, `rw`: both do."""
    ignored: bool = False
    """Whether a write that reaches it is ignored: it succeeds, and changes nothing."""


SERIAL: Dict[str, Register] = {row[0]: Register(*row) for row in _facts.SERIAL}
"""The registers of the serial port by name."""

CLOCK: Dict[str, Register] = {row[0]: Register(*row) for row in _facts.CLOCK}
"""The registers of the clock by name, each without the `RTC` that the data sheet begins it with."""


def _named(registers: Dict[str, Register], name: str, plain: str) -> Register:
    if plain not in registers:
        raise RegisterError(f"no register is called {ascii(name)[1:-1]}: there are {' '.join(registers)}")
    return registers[plain]


def serial_offset(name: str, line_control: int, is_write: bool) -> int:
    """The offset of the serial port's register of this name, if such an access reaches it and no other register."""
    register = _named(SERIAL, name, name.upper())
    is_latched = bool(line_control & DLAB)
    if register.latched not in (None, is_latched):
        state, change = ("set", "clear") if is_latched else ("clear", "set")
        raise RegisterError(f"{register.name} is out of reach while DLAB is {state}: {change} bit 0x80 of LCR first")
    if "rw"[is_write] not in register.access:
        done, tried = ("read", "write") if is_write else ("written", "read")
        other = serial_register(register.offset, line_control, is_write)
        reached = f": a {tried} at its offset reaches {other.name}" if other else ""
        raise RegisterError(f"{register.name} can only be {done}{reached}")
    return register.offset


def clock_offset(name: str) -> int:
    """The offset of the clock's register of this name, which may begin with RTC."""
    plain = name.upper()
    return _named(CLOCK, name, plain[3:] if plain.startswith("RTC") else plain).offset


def serial_register(offset: int, line_control: int, is_write: bool) -> Optional[Register]:
    """The register that an access of the serial port reaches, `None` if there is none at the offset."""
    return next((register for register in SERIAL.values()
                 if register.offset == offset and register.latched in (None, bool(line_control & DLAB))
                 and "rw"[is_write] in register.access), None)


def clock_register(offset: int) -> Optional[Register]:
    """The register at an offset of the clock, `None` if there is none."""
    return next((register for register in CLOCK.values()
                 if register.offset == (offset & ~3 if register.name.startswith("ID") else offset)), None)


def bits_by_name(register: Register) -> Dict[str, int]:
    """The bits of a register by their names."""
    return {name: bit for bit, name in register.bits}


def character_format(line_control: int) -> str:
    """The format of characters that a value of LCR sets, as `8N1`."""
    parity = "OEMS"[line_control >> 4 & 3] if line_control & 0x08 else "N"
    return f"{5 + (line_control & 3)}{parity}{2 if line_control & 0x04 else 1}"


FORMATS = {character_format(value): value for value in reversed(range(0x40))}
"""The formats of characters, each with the least value of LCR that sets it."""


def bit_names(register: Register, value: int) -> List[str]:
    """The names of the bits that are set in a register's value. LCR begins with the character format, as `8N1`."""
    names = [name for bit, name in register.bits if value & bit]
    if register.name == "LCR":
        names.insert(0, character_format(value))
    if register.name == "IIR" and not names and value & 0x01:
        names = ["none"]
    return names


class AlarmIsSetError(ValueError):
    """An alarm is set, which the five fields of vm-superio's state of a clock cannot hold."""


class State:
    """The state of a device, whose fields are checked."""

    def __post_init__(self) -> None:
        for name, kind in self.kinds().items():
            value = getattr(self, name)
            is_flag = isinstance(getattr(type(self), name), bool)
            checked = bool(value) if is_flag else number(name, value, 8 * sizeof(kind), kind is c_int64)
            object.__setattr__(self, name, checked)

    @classmethod
    @lru_cache(maxsize=None)
    def kinds(cls) -> Dict[str, Any]:
        """The fields that the struct of superio.h has under the same names, each with its kind there."""
        return {one.name: one.metadata["kind"] for one in fields(cls) if one.metadata}


_State = TypeVar("_State", bound="MovableState")


class MovableState(State):
    """The state of a device that vm-superio has too. Its fields convert to and from those there."""

    @classmethod
    def _moved(cls) -> List[str]:
        """The fields that vm-superio has, in its order: ten of a port, five of a clock."""
        return [one.name for one in fields(cls)]

    def to_vm_superio(self) -> Dict[str, Any]:
        """The fields as a dictionary, with the names of serde's JSON. `json.dumps` makes the text.

        Raises `AlarmIsSetError` if a clock has an alarm set. `dataclasses.replace(state, armed=False)` gives it up.
        """
        moved = self._moved()
        if any(getattr(self, one.name) != one.default for one in fields(self) if one.name not in moved):
            raise AlarmIsSetError("an alarm is set, and the five fields of vm-superio's RtcState cannot hold it")
        values = {name: getattr(self, name) for name in moved}
        return {name: list(value) if isinstance(value, bytes) else value for name, value in values.items()}

    @classmethod
    def from_vm_superio(cls: Type[_State], named: Mapping[str, Any]) -> _State:
        """The state with these fields, as `json.loads` returns them. In a clock no alarm is then set.

        Raises `ValueError` if a name is missing or unknown or a value is out of range, and `TypeError` if one is no
        number.
        """
        wanted = cls._moved()
        if set(named) != set(wanted):
            raise ValueError(f"the fields are {', '.join(map(str, named))}: {', '.join(wanted)} are wanted")
        return cls(**{name: bytes(list(value)) if name == "in_buffer" else value for name, value in named.items()})


@dataclass(frozen=True)
class SerialState(MovableState, _facts.SerialFields):
    """The state of a serial port: nine registers, and the bytes that it received and the guest has not read.

    The defaults are those of a new port. `dataclasses.replace` makes a changed copy. `docs/SAVED-STATES.md` has the
    meaning of each field.
    """

    def __post_init__(self) -> None:
        super().__post_init__()
        object.__setattr__(self, "in_buffer", byte_string("in_buffer", self.in_buffer))
        if len(self.in_buffer) > FIFO_SIZE:
            raise ValueError(f"in_buffer has {len(self.in_buffer)} bytes, and a port holds at most {FIFO_SIZE}")


FIELDS = _facts.FIELDS
"""The registers that a serial port keeps, in the order of its saved state, each with its field there."""


@dataclass(frozen=True)
class RtcState(MovableState, _facts.RtcFields):
    """The state of a clock.

    The defaults are those of a new one. `docs/SAVED-STATES.md` has the meaning of each field.
    """

    @classmethod
    def _moved(cls) -> List[str]:
        return ["lr", "offset", "mr", "imsc", "ris"]


CLOCK_KEPT = tuple(name for name in CLOCK if name.lower() in RtcState.kinds())
"""The registers of the clock that are fields of its state."""


@dataclass(frozen=True)
class ConsoleState(State, _facts.ConsoleFields):
    """The state of a console: its port, the output that waits, and what it knows of its guest.

    The defaults are those of a new one. `docs/SAVED-STATES.md` has the meaning of each field.
    """

    port: SerialState = SerialState()

    def __post_init__(self) -> None:
        check_kind("port", self.port, SerialState)
        object.__setattr__(self, "output", byte_string("output", self.output))
        if len(self.output) > OUTPUT_SIZE:
            raise ValueError(f"output has {len(self.output)} bytes, and in a console at most {OUTPUT_SIZE} wait")
        super().__post_init__()
