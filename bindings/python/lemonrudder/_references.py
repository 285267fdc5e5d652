"""References to objects."""
from __future__ import annotations

import ctypes
from dataclasses import dataclass
from typing import Any, List, NamedTuple, Optional, Tuple

from ._cdr import BIG, Reader, pack
from ._library import Held, LemonrudderError, Text, call, copied, lent, library, octets_of, structs, written
from ._table import Error, IorPart


REFERENCE = "(s[(Lo)])"
"""The format of a reference among arguments or results, whose value is Ior.value."""
# the tag of a component that names another host and port of a profile (9.7.3)
_ALTERNATE = 3
# how much of a text that is no reference its error shows
_SHOWN = 60


class Address(NamedTuple):
    """Where an object is asked for: a host and port, its key there, and the minor version of IIOP 1."""

    host: str
    port: int
    key: bytes
    minor: int = 2


class Profile(NamedTuple):
    """A profile of a reference: its tag and its data, and what only a valid one of IIOP has, else None.

    minor: the minor version of IIOP 1. host, port and key: where the object is. components: tags and data.
    """

    tag: int
    data: bytes
    minor: Optional[int] = None
    host: Optional[str] = None
    port: Optional[int] = None
    key: Optional[bytes] = None
    components: Tuple[Tuple[int, bytes], ...] = ()

    @property
    def is_iiop(self) -> bool:
        return self.key is not None

    @property
    def addresses(self) -> Tuple[Address, ...]:
        """Its address and those of its components TAG_ALTERNATE_IIOP_ADDRESS (9.7.3); none of another than IIOP."""
        if self.host is None or self.port is None or self.key is None:
            return ()
        found = [(self.host, self.port)]
        for tag, data in self.components:
            try:
                if tag == _ALTERNATE and data:
                    _, host, port = Reader(data, data[0]).read("BsH")
                    found.append((host, port))
            except (LemonrudderError, ValueError):
                pass  # (it says nothing that can be read)
        return tuple(Address(host, port, self.key, min(self.minor or 0, 2)) for host, port in found)


@dataclass(frozen=True)
class Ior:
    """A reference to an object (7.6). str() gives its stringified form, `IOR:` and hexadecimal digits.

    type_id: the repository id of its type. profiles: where the object is.
    """

    text: str
    type_id: str
    profiles: Tuple[Profile, ...]

    def __str__(self) -> str:
        return self.text

    @property
    def value(self) -> Tuple[str, List[Tuple[int, bytes]]]:
        """Its value of the format REFERENCE, as an operation that returns a reference returns one."""
        return self.type_id, [(profile.tag, profile.data) for profile in self.profiles]

    @property
    def addresses(self) -> Tuple[Address, ...]:
        """Those of its profiles of IIOP, in order."""
        return tuple(address for profile in self.profiles for address in profile.addresses)

    @classmethod
    def of_value(cls, value: Tuple[str, List[Tuple[int, bytes]]]) -> Ior:
        """The reference of a value of the format REFERENCE. Raises LemonrudderError (REFERENCE)."""
        type_id, profiles = value
        return cls.parse("IOR:" + pack("Bs[(Lo)]", BIG, type_id, profiles).hex())

    @classmethod
    def parse(cls, text: Text) -> Ior:
        """Reads a stringified reference, `IOR:` or a URL, as the library does; white space around it is left out.

        Raises LemonrudderError (REFERENCE).
        """
        with Held() as held:
            try:
                octets = octets_of(text).strip()
                call(library.lr_ior_parse, held._slot, octets, len(octets))
            except UnicodeEncodeError:
                raise LemonrudderError(Error.REFERENCE) from None
            except LemonrudderError as error:
                left = f" and {len(octets) - _SHOWN} characters more" if len(octets) > _SHOWN else ""
                shown = octets[:_SHOWN].decode("latin-1")
                raise LemonrudderError(error.number, f"{error.text}: {shown!r}{left}") from None
            return cls._of(held._slot)

    @classmethod
    def iiop(cls, type_id: Text, host: Text, port: int, key: Text, minor: int = 2) -> Ior:
        """A reference of a type to the object of a key, at an address of IIOP 1.minor.

        Raises LemonrudderError (RANGE: of minor, TEXT: a NUL in the type's id or the host).
        """
        with Held() as held:
            call(library.lr_ior_iiop, held._slot, *lent(type_id), minor, *lent(host), port, *lent(key))
            return cls._of(held._slot)

    @classmethod
    def read(cls, reader: Reader) -> Ior:
        """Reads a reference from octets, as the body of a reply that forwards has one. Errors as of Reader.read."""
        return cls.of_value(reader.read(REFERENCE)[0])

    @classmethod
    def _of(cls, slot: Any) -> Ior:
        room = ctypes.create_string_buffer(512)
        type_id = copied(room, library.lr_ior_type_id, slot).decode("latin-1")
        profiles = tuple(cls._profile(slot, index, room) for index in range(call(library.lr_ior_profiles, slot)))
        printed = written(512, lambda room, size: call(library.lr_ior_print, slot, room, size))
        return cls(printed.decode("ascii"), type_id, profiles)

    @staticmethod
    def _profile(slot: Any, index: int, room: Any) -> Profile:
        def part(which: int) -> bytes:
            return copied(room, library.lr_ior_part, slot, index, which)

        head = structs["lr_profile"]()
        call(library.lr_ior_profile, slot, index, head, ctypes.sizeof(head))
        data = part(IorPart.DATA)
        if not head.is_iiop:
            return Profile(head.tag, data)
        host = part(IorPart.HOST).decode("latin-1")
        key = part(IorPart.KEY)
        components: List[Tuple[int, bytes]] = []
        if head.components:
            # lr_ior_component reads the whole profile for each; this reads all of them once
            components, = Reader(data, data[0]).read("BBBsHo[(Lo)]")[-1:]
        return Profile(head.tag, data, head.minor, host, head.port, key, tuple(components))
