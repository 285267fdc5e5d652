"""CDR: values as octets, written and read (CORBA 3.3 Part 2, 9.3)."""
from __future__ import annotations

import struct
from typing import Union

BIG, LITTLE = ">", "<"


class Octets:
    """Octets that are written in an order, each value aligned by its place; the first stands at `begin`."""

    def __init__(self, begin: int = 0, order: str = BIG) -> None:
        self.begin, self.order, self.all = begin, order, b""

    def align(self, size: int) -> None:
        self.all += bytes(-(self.begin + len(self.all)) % size)

    def number(self, size: int, form: str, number: int) -> None:
        """A number of so many octets, whose form is one of `struct`."""
        self.align(size)
        self.all += struct.pack(self.order + form, number)

    def octet(self, number: int) -> None:
        self.all += bytes([number])

    def short(self, number: int) -> None:
        self.number(2, "h", number)

    def ushort(self, number: int) -> None:
        self.number(2, "H", number)

    def long(self, number: int) -> None:
        self.number(4, "i", number)

    def ulong(self, number: int) -> None:
        self.number(4, "I", number)

    def longlong(self, number: int) -> None:
        self.number(8, "q", number)

    def ulonglong(self, number: int) -> None:
        self.number(8, "Q", number)

    def octets(self, octets: bytes) -> None:
        """A sequence of octets (CDR 9.3.2.5)."""
        self.ulong(len(octets))
        self.all += octets

    def string(self, text: Union[bytes, str]) -> None:
        """A string, whose octets end with a NUL (CDR 9.3.2.7)."""
        self.octets((text.encode("latin-1") if isinstance(text, str) else text) + b"\0")


class Reading:
    """Octets that are read in an order, each value aligned by its place. `gaps` has what was passed over."""

    def __init__(self, octets: bytes, order: str = BIG, at: int = 0, begin: int = 0) -> None:
        self.all, self.order, self.at, self.begin = octets, order, at, begin
        self.gaps: list[range] = []

    def take(self, count: int) -> bytes:
        if len(self.all) < self.at + count:
            raise ValueError(f"short at {self.at} in {self.all.hex()}")
        self.at += count
        return self.all[self.at - count:self.at]

    def pass_over(self, count: int) -> None:
        """Passes over octets that mean nothing."""
        self.gaps.append(range(self.at, self.at + count))
        self.take(count)

    def align(self, size: int) -> None:
        self.pass_over(-(self.begin + self.at) % size)

    def number(self, size: int, form: str) -> int:
        self.align(size)
        return struct.unpack(self.order + form, self.take(size))[0]

    def octet(self) -> int:
        return self.take(1)[0]

    def short(self) -> int:
        return self.number(2, "h")

    def ushort(self) -> int:
        return self.number(2, "H")

    def long(self) -> int:
        return self.number(4, "i")

    def ulong(self) -> int:
        return self.number(4, "I")

    def ulonglong(self) -> int:
        return self.number(8, "Q")

    def octets(self) -> bytes:
        return self.take(self.ulong())

    def string(self) -> bytes:
        """A string without its NUL; one of no octets, which some ORBs write, is empty."""
        octets = self.octets()
        if octets and octets.find(b"\0") != len(octets) - 1:
            raise ValueError(f"no string before {self.at} in {self.all.hex()}")
        return octets[:-1]


def encapsulation(order: str = BIG) -> Octets:
    """The beginning of an encapsulation: its order (CDR 9.3.3)."""
    out = Octets(0, order)
    out.octet(0 if order == BIG else 1)
    return out


def encapsulated(octets: bytes) -> Reading:
    """What an encapsulation holds after its order."""
    if octets[:1] not in (b"\0", b"\1"):
        raise ValueError(f"no encapsulation: {octets.hex()}")
    return Reading(octets, LITTLE if octets[:1] == b"\1" else BIG, 1)
