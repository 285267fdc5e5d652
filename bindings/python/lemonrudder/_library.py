"""The shared library: where it is, its functions with their types, and how they are called."""
from __future__ import annotations

import ctypes
import ctypes.util
import operator
import os
import time
import weakref
from typing import Any, Callable, Dict, Optional, Tuple, Union

from ._table import FUNCTIONS, STRUCTS, VERSION, Error

Octets = Union[bytes, bytearray, memoryview]
Text = Union[str, bytes, bytearray, memoryview]

LIMIT = 1048576
"""How many octets a message may have where nothing else is said, its header among them: 4096 to 16777216 may be."""
PARTIALS = 4
"""How many messages of a stream may be partial at a time where nothing else is said: 1 to 16 may be."""


class _Number:
    """A parameter that is an integer. ctypes would cut off what its type does not hold; this refuses it."""

    def __init__(self, ctype: Any) -> None:
        bits, is_signed = 8 * ctypes.sizeof(ctype), ctype(-1).value < 0
        self.ctype = ctype
        self.least = -(1 << bits - 1) if is_signed else 0
        self.greatest = self.least + (1 << bits) - 1

    def from_param(self, value: Any) -> Any:
        number = operator.index(value)
        if not self.least <= number <= self.greatest:
            raise ValueError(f"{number} is not within {self.least} and {self.greatest}")
        return self.ctype(number)


# types of C, as parameters and as results
_TYPES: Dict[str, Any] = {
    "size_t": ctypes.c_size_t, "const char *": ctypes.c_char_p, "void": None,
    **{f"{sign}int{bits}_t": getattr(ctypes, f"c_{sign}int{bits}") for sign in ("", "u") for bits in (8, 16, 32, 64)},
}
_POINTERS: Dict[str, Any] = {
    # octets, or room
    "void *": ctypes.c_void_p, "const void *": ctypes.c_void_p, "const uint8_t *": ctypes.c_void_p,
    **{name + " *": ctypes.POINTER(ctype) for name, ctype in _TYPES.items() if name.endswith("_t")},
}


def _struct(name: str) -> Any:
    """A struct of the header."""
    fields = [(field, _TYPES.get(ctype) or _POINTERS[ctype]) for field, ctype in STRUCTS[name]]
    return type(name, (ctypes.Structure,), {"__doc__": f"The struct {name}.", "_fields_": fields})


# (slots of all kinds are laid out alike)
Slot: Any = _struct("lr_server")
_SLOTS = ("lr_catalogue", "lr_server", "lr_client", "lr_assembler", "lr_ior")
structs: Dict[str, Any] = {name: Slot if name in _SLOTS else _struct(name) for name in STRUCTS}
_POINTERS.update((name + " *", ctypes.POINTER(struct)) for name, struct in structs.items())


def _parameter(name: str, is_checked: bool) -> Any:
    """A type of a parameter. Functions (of lr_set_heap) are pointers."""
    if name in _TYPES:
        return _Number(_TYPES[name]) if is_checked and name != "size_t" else _TYPES[name]
    return _POINTERS.get(name, ctypes.c_void_p)


def _path() -> str:
    """Where the shared library is."""
    given = os.environ.get("LEMONRUDDER_LIBRARY")
    if given:
        return given
    here = os.path.dirname(os.path.abspath(__file__))
    for name in ("liblemonrudder.so", "liblemonrudder.dylib", "lemonrudder.dll"):
        if os.path.exists(os.path.join(here, name)):
            return os.path.join(here, name)
    found = ctypes.util.find_library("lemonrudder")
    if found is None:
        raise ImportError(f"no liblemonrudder in {here}, nor on the system: set LEMONRUDDER_LIBRARY to its path")
    return found


def serves(version: Tuple[int, ...], built: Tuple[int, ...]) -> bool:
    """Whether a library of a version serves what was built for another: one of the same series that is not newer.

    A series is the versions of one major number; before 1.0, those of one minor number.
    """
    same = 2 if built[0] == 0 else 1
    return version[:same] == built[:same] and version >= built


def _loaded() -> ctypes.PyDLL:
    """The shared library, with the types of its functions. Its calls are short and keep the interpreter's lock."""
    path = _path()
    try:
        loaded = ctypes.PyDLL(path)
        # (its version is looked at first: another one has other functions)
        number = loaded.lr_version
    except (OSError, AttributeError) as error:
        raise ImportError(f"{path} can't be loaded: {error}") from error
    number.argtypes, number.restype = (), ctypes.c_uint32
    version = (number() >> 16, number() >> 8 & 0xff, number() & 0xff)
    if not serves(version, VERSION):
        found, wanted = (".".join(map(str, each)) for each in (version, VERSION))
        raise ImportError(f"{path} is liblemonrudder {found}, and none for {wanted}")
    try:
        for name, (answer, parameters) in FUNCTIONS.items():
            function = getattr(loaded, name)
            # (values that are put were looked at before)
            is_checked = not name.startswith("lr_put_")
            function.argtypes = tuple(_parameter(one, is_checked) for one in parameters)
            function.restype = _TYPES[answer]
    except AttributeError as error:
        raise ImportError(f"{path} is no liblemonrudder: {error}") from error
    return loaded


library = _loaded()
library.lr_close.argtypes = (ctypes.POINTER(Slot),)


def named(names: Any, number: int) -> Any:
    """The member of an enumeration that has a number, or the number."""
    try:
        return names(number)
    except ValueError:
        return number


class LemonrudderError(Exception):
    """An error that the library answers.

    number: a member of `Error`, or a number. name: as LR_E_RANGE. text: what it means.
    """

    def __init__(self, number: int, text: Optional[str] = None) -> None:
        self.number = named(Error, number)
        self.name: str = library.lr_error_name(number).decode("ascii")
        self.text: str = text if text is not None else library.lr_strerror(number).decode("ascii")
        super().__init__(self.number, self.text)

    def __str__(self) -> str:
        return f"{self.text} ({self.number if self.name == 'LR_E_UNKNOWN' else self.name})"


def checked(answer: int) -> int:
    """What a function answered, if it is no error."""
    if answer < 0:
        raise LemonrudderError(answer)
    return answer


def call(function: Any, *arguments: Any) -> int:
    """What a function answers, if it is no error.

    Raises LemonrudderError; ValueError for a number that its parameter does not hold.
    """
    try:
        answer: int = function(*arguments)
    except ctypes.ArgumentError as error:
        raise ValueError(f"{function.__name__}: {error}") from None
    return answer if answer >= 0 else checked(answer)


def octets_of(octets: Text) -> bytes:
    """Octets as bytes. A str has one octet a character."""
    if isinstance(octets, bytes):
        return octets
    if isinstance(octets, str):
        return octets.encode("latin-1")
    if isinstance(octets, (bytearray, memoryview)):
        return bytes(octets)
    raise TypeError(f"no octets: {octets!r}")


def lent(octets: Text) -> Tuple[bytes, int]:
    """A pointer and a size, as a function takes octets."""
    octets = octets_of(octets)
    return octets, len(octets)


def address_of(octets: bytes) -> int:
    """The address of the first octet. It counts as long as the octets are kept."""
    return ctypes.cast(ctypes.c_char_p(octets), ctypes.c_void_p).value or 0


def copied(room: Any, function: Any, *arguments: Any) -> bytes:
    """What a function copies: into this room, or into a larger one."""
    while True:
        needed = call(function, *arguments, room, len(room))
        if needed <= len(room):
            return ctypes.string_at(room, needed)
        room = ctypes.create_string_buffer(needed)


def written(size: int, write: Callable[[Any, int], int]) -> bytes:
    """What is written into a room of a size: it has about so many octets."""
    while True:
        room = ctypes.create_string_buffer(size)
        try:
            return ctypes.string_at(room, write(room, size))
        except LemonrudderError as error:
            if error.number != Error.ROOM:
                raise
        size *= 2


class Held:
    """An object of the library, in a slot."""

    def __init__(self) -> None:
        self._slot = Slot()
        self._closing = weakref.finalize(self, library.lr_close, self._slot)

    def close(self) -> None:
        """Frees what it holds. Calls afterwards raise LemonrudderError (EMPTY); a second close does nothing."""
        self._closing()

    def __enter__(self) -> Any:
        return self

    def __exit__(self, *error: Any) -> None:
        self.close()


def moment_of(nanoseconds: int) -> int:
    """The moment of a time in nanoseconds since 1970-01-01 00:00 UTC, as time.time_ns() gives it: 100 ns since 1582.

    Raises ValueError: a time before 1970.
    """
    seconds, rest = divmod(nanoseconds, 10**9)
    if not 0 <= seconds < 1 << 64:
        raise ValueError(f"no time since 1970: {nanoseconds}")
    return int(library.lr_moment(seconds, rest))


def now() -> int:
    """The present moment by the system's clock."""
    return moment_of(time.time_ns())
