"""Random types of IDL, and random values of them as the mapping to Python has them."""
from __future__ import annotations

import random
import struct
from dataclasses import dataclass, field
from typing import Any, Callable, List, Tuple

BITS = {"octet": (0, 8), "short": (-1 << 15, 16), "unsigned short": (0, 16), "long": (-1 << 31, 32),
        "unsigned long": (0, 32), "long long": (-1 << 63, 64), "unsigned long long": (0, 64)}


@dataclass
class Kind:
    """A type: its name in IDL, and a value of it, which is made by the classes of a module."""

    idl: str
    value: Callable[[random.Random, Any], Any]
    # of one that may discriminate a union its labels in IDL, each with its value
    labels: Callable[[Any], List[Tuple[str, Any]]] = field(default=lambda module: [])
    # how many types are nested in it, and whether it is an enum
    depth: int = 0
    is_enum: bool = False


def integer(name: str) -> Kind:
    least, bits = BITS[name]

    def value(dice: random.Random, module: Any) -> int:
        ends = [least, least + (1 << bits) - 1, 0, 1]
        return dice.choice(ends) if dice.random() < 0.3 else least + dice.getrandbits(bits)

    return Kind(name, value, lambda module: [(str(n), n) for n in (0, 1, 3, 7, 100)])


def real(name: str, letter: str) -> Kind:
    def value(dice: random.Random, module: Any) -> float:
        while True:
            found: float = struct.unpack(letter, dice.getrandbits(8 * struct.calcsize(letter)).to_bytes(
                struct.calcsize(letter), "little"))[0]
            if found == found:
                return found

    return Kind(name, value)


def text(bound: int) -> Kind:
    def value(dice: random.Random, module: Any) -> str:
        sizes = [0, dice.randint(0, min(8, bound or 8)), bound or 30]
        return "".join(chr(dice.randint(1, 255)) for _ in range(dice.choice(sizes)))

    return Kind(f"string<{bound}>" if bound else "string", value)


BASICS = [
    *map(integer, BITS),
    Kind("boolean", lambda dice, module: dice.random() < 0.5, lambda module: [("FALSE", False), ("TRUE", True)]),
    Kind("char", lambda dice, module: chr(dice.getrandbits(8)), lambda module: [(f"'{c}'", c) for c in "xyz"]),
    real("float", "<f"), real("double", "<d"), text(0), text(12),
]
SWITCHES = ("short", "unsigned short", "long", "unsigned long", "long long", "unsigned long long", "boolean", "char")


def many(dice: random.Random, module: Any, of: Kind, count: int) -> Any:
    """So many values as the mapping has them."""
    values = [of.value(dice, module) for _ in range(count)]
    return bytes(values) if of.idl == "octet" else "".join(values) if of.idl == "char" else values


def sequence(name: str, of: Kind, bound: int) -> Tuple[Kind, str]:
    def value(dice: random.Random, module: Any) -> Any:
        return many(dice, module, of, dice.choice([0, 1, bound or 6, dice.randrange(bound or 6)]))

    inner = f"{of.idl}, {bound}" if bound else of.idl
    return Kind(name, value), f"typedef sequence<{inner} > {name};"


def array(name: str, of: Kind, size: int) -> Tuple[Kind, str]:
    return Kind(name, lambda dice, module: many(dice, module, of, size)), f"typedef {of.idl} {name}[{size}];"


def enum(name: str, count: int) -> Tuple[Kind, str]:
    items = [f"{name}_{number}" for number in range(count)]
    kind = Kind(name, lambda dice, module: dice.choice(list(getattr(module, name))),
                lambda module: [(item, getattr(module, name)[item]) for item in items] if module else
                [(item, None) for item in items], is_enum=True)
    return kind, f"enum {name} {{ {', '.join(items)} }};"


def structure(name: str, members: List[Kind]) -> Tuple[Kind, str]:
    def value(dice: random.Random, module: Any) -> Any:
        return getattr(module, name)(*(one.value(dice, module) for one in members))

    inner = " ".join(f"{one.idl} m_{index};" for index, one in enumerate(members))
    return Kind(name, value), f"struct {name} {{ {inner} }};"


def union(name: str, switch: Kind, members: List[Kind], has_default: bool) -> Tuple[Kind, str]:
    """A union, the last of whose members is the default one, if it has one."""
    labels = switch.labels(None)
    members = members[:len(labels) - 1]
    cases = list(zip(labels, members))
    words = [f"{'default' if has_default and index == len(cases) - 1 else f'case {label}'}: {one.idl} m_{index};"
             for index, ((label, _), one) in enumerate(cases)]

    def value(dice: random.Random, module: Any) -> Any:
        found = switch.labels(module)
        index = dice.randrange(len(found))
        if index < len(members) - has_default:
            return getattr(module, name)(found[index][1], members[index].value(dice, module))
        return getattr(module, name)(found[index][1], members[-1].value(dice, module) if has_default else None)

    return Kind(name, value), f"union {name} switch ({switch.idl}) {{ {' '.join(words)} }};"


def declared(dice: random.Random, name: str, kinds: List[Kind]) -> Tuple[Kind, str]:
    """A new type of this name, over types of before."""
    inner = [one for one in kinds if one.depth < 3]
    some = [dice.choice(inner) for _ in range(dice.randint(1, 5))]
    how = dice.randrange(6)
    if how == 0:
        made = sequence(name, some[0], dice.choice([0, 0, 4]))
    elif how == 1:
        made = array(name, some[0], dice.choice([1, 3, 255, 256]) if some[0].depth == 0 else dice.choice([1, 2]))
    elif how == 2:
        made = enum(name, dice.choice([1, 2, 6, 255, 256]))
    elif how == 3:
        # (a union has fewer members than its discriminator has labels)
        switches = [one for one in kinds if (one.idl in SWITCHES or one.is_enum) and len(one.labels(None)) > 1]
        made = union(name, dice.choice(switches), some + [dice.choice(inner)], dice.random() < 0.5)
    else:
        made = structure(name, some)
    made[0].depth = 0 if made[0].is_enum else 1 + max(one.depth for one in some)
    return made


def random_types(seed: int, count: int) -> Tuple[List[Kind], List[str]]:
    """So many types, and their lines of IDL."""
    dice, kinds, lines = random.Random(seed), list(BASICS), []
    for index in range(count):
        kind, line = declared(dice, f"T{index}", kinds)
        kinds.append(kind)
        lines.append(line)
    return kinds[len(BASICS):], lines
