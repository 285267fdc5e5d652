"""Random files of IDL: interfaces that inherit, types of all kinds, and names that are words of each language."""
from __future__ import annotations

import keyword
import os
import random
from dataclasses import dataclass, field
from typing import Dict, List, Set

from tests.embed import idl_c_test, idl_rust_test

# of Python, and of what is made in each language
OF_PYTHON = """int str bytes float list tuple dict object type property super print abc dataclasses typing builtins mro
args add_note with_traceback name value real imag numerator denominator conjugate bit_length to_bytes from_bytes self
cls register fields items keys values result body idl lemonrudder enum""".split()
OF_CPP = """std errno assert call caller key in out value label one two done loop asking SIGTERM POLLIN SO_ERROR
HUGE_VAL st_mtime ops into from new clone reader writer""".split()
WORDS = sorted({word.lower(): word for word in (
    *keyword.kwlist, *OF_PYTHON, *OF_CPP, *idl_c_test.WORDS, *idl_rust_test.WORDS)}.values())
# words that no language keeps for itself
TAME = ["alpha", "betaGamma", "Delta_Epsilon", "ZETA"]
BASICS = ["boolean", "char", "octet", "short", "unsigned short", "long", "unsigned long", "long long",
          "unsigned long long", "float", "double", "string", "string<7>", "Object", "any"]
# what can't be made but as octets
ODD = ["wchar", "wstring", "wstring<4>", "Money", "long double", "CORBA::TypeCode", "Boxed", "Own", "Vague"]
SWITCHES = ["short", "unsigned short", "long", "unsigned long", "long long", "unsigned long long", "boolean", "char"]
CONSTANTS = {"boolean": "TRUE", "char": "'c'", "octet": "255", "short": "-32768", "unsigned short": "65535",
             "long": "-2147483647", "unsigned long": "4294967295", "long long": "-9223372036854775807",
             "unsigned long long": "18446744073709551615", "float": "1.5", "double": "-2.25e300",
             "string": '"a\\"?\\n"'}


def folded(name: str) -> str:
    """A name as it may stand once in a scope: IDL and the backend hold these alike."""
    return name.replace("_", "").lower()


@dataclass
class Interface:
    """An interface: its name from outside, and how many stand above it."""

    name: str
    level: int
    bases: List["Interface"] = field(default_factory=list)


@dataclass
class File:
    """A file: its name, its text, and what another one may name of it: types, by whether these can be made."""

    name: str
    text: str
    types: Dict[str, bool]
    interfaces: List[Interface]
    exceptions: Dict[str, bool]
    included: List["File"]

    def whole(self) -> List["File"]:
        """It, and all that it includes."""
        return list({file.name: file for one in self.included for file in one.whole()}.values()) + [self]


class Maker:
    """Makes one file of a number, which all its names outside of modules have. is_tame: of names that are no words of a
    language, and without what can't be made. size: how many declarations each of its modules has
    at most."""

    def __init__(self, dice: random.Random, number: int, others: List[File], inherited: Set[str], size: int,
                 is_tame: bool) -> None:
        self.dice, self.number, self.lines, self.size, self.is_tame = dice, number, [], size, is_tame
        self.included = dice.sample(others, min(len(others), dice.choice([0, 0, 1, 2])))
        self.types: Dict[str, bool] = {name: can for file in self.included for name, can in file.types.items()}
        self.interfaces = [one for file in self.included for one in file.interfaces]
        self.exceptions = {name: can for file in self.included for name, can in file.exceptions.items()}
        self.enums: Dict[str, List[str]] = {}
        # the names of each scope; those of interfaces are in one, since they inherit
        self.names: Dict[str, Set[str]] = {"interfaces": inherited}

    def word(self, scope: str) -> str:
        """A new name in a scope. Outside of modules it has the number."""
        # (nothing has the name of what it is in)
        taken = self.names.setdefault(scope, {folded(scope.rpartition("::")[2])})
        while True:
            word = f"{self.dice.choice(TAME)}{len(self.names)}" if self.is_tame else self.dice.choice(WORDS)
            if self.is_tame or scope == "" or len(taken) > len(WORDS) // 2:
                word = f"{word}_{self.number}n{len(taken)}"
            if folded(word) not in taken:
                taken.add(folded(word))
                return "_" + word

    def named(self, scope: str, name: str) -> str:
        """A name of a scope as it is written anywhere."""
        return f"{scope}::{name}"

    def type(self, can: bool = True) -> str:
        """A type that can be made, or any."""
        if not can and self.dice.random() < 0.2 and not self.is_tame:
            return self.odd()
        known = [name for name, is_whole in self.types.items() if is_whole or not can]
        return self.dice.choice(known) if known and self.dice.random() < 0.5 else self.dice.choice(BASICS)

    def odd(self) -> str:
        name = self.dice.choice(ODD)
        return f"::odd_{self.number}::{name}" if name in ("Boxed", "Own", "Vague", "Money") else name

    def anonymous(self, can: bool) -> str:
        """A type of a member, which may be a sequence without a name."""
        inner = self.type(can)
        if self.dice.random() < 0.7:
            return inner
        bound = self.dice.choice(["", "", ", 3"])
        one = f"sequence<{inner}{bound} >"
        return f"sequence<{one} >" if self.dice.random() < 0.3 else one

    def is_whole(self, *types: str) -> bool:
        """Whether all of types can be made."""
        return all(not any(odd in type for odd in ODD) and all(
            can for name, can in self.types.items() if name in type) for type in types)

    # ---- declarations, each in a scope ----

    def alias(self, scope: str) -> None:
        type, name = self.anonymous(self.dice.random() < 0.9), self.word(scope)
        size = self.dice.choice(["", "", "[2]", "[2][3]"])
        self.lines.append(f"typedef {type} {name}{size};")
        self.types[self.named(scope, name)] = self.is_whole(type)

    def enum(self, scope: str) -> None:
        name, names = self.word(scope), [self.word(scope) for _ in range(self.dice.randint(1, 5))]
        self.lines.append(f"enum {name} {{ {', '.join(names)} }};")
        self.types[self.named(scope, name)] = True
        self.enums[self.named(scope, name)] = [self.named(scope, one) for one in names]

    def members(self, own: str, count: int) -> List[str]:
        """The types and names of members."""
        found = []
        for _ in range(count):
            inner = self.word(own)
            found.append((self.anonymous(self.dice.random() < 0.95), inner, self.dice.choice(["", "", "", "[2]"])))
        return found

    def struct(self, scope: str) -> None:
        name = self.word(scope)
        members = self.members(f"{scope}::{name}", self.dice.randint(1, 5))
        inner = " ".join(f"{type} {member}{size};" for type, member, size in members)
        self.lines.append(f"struct {name} {{ {inner} }};")
        self.types[self.named(scope, name)] = self.is_whole(*(type for type, _, _ in members))

    def nested(self, scope: str) -> None:
        """A struct, a union and an enum in a struct."""
        name = self.word(scope)
        own = f"{scope}::{name}"
        inner, kind = self.word(own), self.word(own)
        one, two = f"one_{self.number}", f"two_{self.number}"
        self.lines.append(f"struct {name} {{ struct {inner} {{ long x; }} {one}; union {kind} switch (enum {kind}k {{ "
                          f"{kind}a, {kind}b }}) {{ case {kind}a: octet y; default: string z; }} {two}[2]; }};")
        self.types[self.named(scope, name)] = True

    def union(self, scope: str) -> None:
        switch = self.dice.choice([*SWITCHES, *self.enums])
        labels = {"boolean": ["TRUE", "FALSE"], "char": ["'a'", "'\\''", "'\\377'"]}.get(
            switch, self.enums.get(switch, ["0", "1", "5", "77"]))
        labels = self.dice.sample(labels, self.dice.randint(1, len(labels)))
        has_default = self.dice.random() < 0.5 and switch != "boolean" and switch not in self.enums
        name = self.word(scope)
        members = self.members(f"{scope}::{name}", len(labels) + has_default)
        cases = [*(f"case {label}:" for label in labels), *(["default:"] if has_default else [])]
        inner = " ".join(f"{case} {type} {member}{size};" for case, (type, member, size) in zip(cases, members))
        self.lines.append(f"union {name} switch ({switch}) {{ {inner} }};")
        self.types[self.named(scope, name)] = self.is_whole(*(type for type, _, _ in members))

    def tree(self, scope: str) -> None:
        """A struct and a union that hold themselves, one directly and one by a part of it."""
        struct, some, union, two = (self.word(scope) for _ in range(4))
        inner = self.word(f"{scope}::{struct}")
        switch, member = self.dice.choice(["long", "char"]), self.word(f"{scope}::{struct}")
        label = "1" if switch == "long" else "'x'"
        type = self.type(self.dice.random() < 0.9)
        node, trees = self.named(scope, struct), self.named(scope, union)
        self.lines += [f"struct {struct}; union {union};", f"typedef sequence<{node}> {some};",
                       f"typedef sequence<{trees}, 2> {two};",
                       f"union {union} switch ({switch}) {{ case {label}: {self.named(scope, two)} some_{self.number}; "
                       f"default: {type} {self.word(f'{scope}::{union}')}; }};",
                       f"struct {struct} {{ {trees} {member}; sequence<{node}> more_{self.number}[2]; "
                       f"struct {inner} {{ {self.named(scope, some)} few; }} part_{self.number}; }};"]
        for name in (struct, some, union, two):
            self.types[self.named(scope, name)] = self.is_whole(type)

    def constant(self, scope: str) -> None:
        if self.enums and self.dice.random() < 0.3:
            type, names = self.dice.choice(list(self.enums.items()))
            self.lines.append(f"const {type} {self.word(scope)} = {self.dice.choice(names)};")
        else:
            type, value = self.dice.choice(list(CONSTANTS.items()))
            self.lines.append(f"const {type} {self.word(scope)} = {value};")

    def exception(self, scope: str) -> None:
        name = self.word(scope)
        members = self.members(f"{scope}::{name}", self.dice.randint(0, 3))
        inner = " ".join(f"{type} {member}{size};" for type, member, size in members)
        self.lines.append(f"exception {name} {{ {inner} }};")
        self.exceptions[self.named(scope, name)] = self.is_whole(*(type for type, _, _ in members))

    def operation(self) -> None:
        name = self.word("interfaces")
        can, own = self.dice.random() < 0.85, f"parameters of {name}"
        ways = ["in"] if self.dice.random() < 0.15 else ["in", "in", "out", "inout"]
        is_oneway = ways == ["in"]
        types = [self.type(can) for _ in range(self.dice.randrange(5))]
        words = ", ".join(f"{self.dice.choice(ways)} {type} {self.word(own)}" for type in types)
        result = "void" if is_oneway or self.dice.random() < 0.3 else self.type(can)
        some = self.dice.sample(list(self.exceptions), min(len(self.exceptions), self.dice.randrange(3)))
        raises = f" raises ({', '.join(some)})" if some and not is_oneway else ""
        context = ' context ("a")' if self.dice.random() < 0.02 and not is_oneway and not self.is_tame else ""
        self.lines.append(f"{'oneway ' if is_oneway else ''}{result} {name}({words}){raises}{context};")

    def attribute(self) -> None:
        readonly = self.dice.choice(["readonly ", ""])
        self.lines.append(f"{readonly}attribute {self.type(self.dice.random() < 0.9)} {self.word('interfaces')};")

    def interface(self, scope: str) -> None:
        name = self.word(scope)
        while folded(name) in self.names["interfaces"]:
            name = self.word(scope)
        self.names["interfaces"].add(folded(name))
        known = [one for one in self.interfaces if one.level < 5]
        bases = self.dice.sample(known, min(len(known), self.dice.choice([0, 1, 1, 2, 3])))
        made = Interface(self.named(scope, name), 1 + max((one.level for one in bases), default=0), bases)
        heads = f" : {', '.join(one.name for one in bases)}" if bases else ""
        self.lines.append(f"interface {name}{heads} {{")
        for _ in range(self.dice.randrange(3)):
            self.dice.choice([self.inner_struct, self.inner_enum, self.inner_constant])(f"{scope}::{name}")
        for _ in range(self.dice.randrange(6)):
            self.dice.choice([self.operation, self.operation, self.attribute])()
        self.lines.append("};")
        self.interfaces.append(made)

    def inner_struct(self, scope: str) -> None:
        name = self.word("interfaces")
        self.lines.append(f"struct {name} {{ {self.type()} {self.word(f'{scope}::{name}')}; }};")
        self.types[self.named(scope, name)] = True

    def inner_enum(self, scope: str) -> None:
        name, names = self.word("interfaces"), [self.word("interfaces") for _ in range(2)]
        self.lines.append(f"enum {name} {{ {', '.join(names)} }};")
        self.types[self.named(scope, name)] = True

    def inner_constant(self, scope: str) -> None:
        self.lines.append(f"const long {self.word('interfaces')} = 3;")

    def declare(self, scope: str, count: int) -> None:
        """So many declarations in a scope."""
        ways = [self.alias, self.enum, self.struct, self.struct, self.nested, self.union, self.tree, self.constant,
                self.exception, self.interface, self.interface, self.interface]
        for _ in range(count):
            self.dice.choice(ways)(scope)

    def made(self) -> File:
        name = f"{self.dice.choice(['random', 'Random', 'RandomFile'])}{self.number}"
        before = len(self.interfaces), set(self.types), set(self.exceptions)
        self.lines += [f"#ifndef FILE_{self.number}", f"#define FILE_{self.number}",
                       *(f'#include "{file.name}.idl"' for file in self.included)]
        self.lines += [] if self.is_tame else [
            "#include <orb.idl>", f"module odd_{self.number} {{",
            "native Handle; valuetype Boxed wstring; typedef fixed<5, 2> Money;",
            "valuetype Own { public long x; }; local interface Nearby { enum Inner { a, b }; void f(); };",
            "abstract interface Vague { void g(in Handle x); long h(); };", "};"]
        self.declare("", self.dice.randint(0, self.size // 2))
        self.lines.append(f"module m_{self.number} {{")
        self.declare(f"::m_{self.number}", self.dice.randint(1, self.size))
        inner = self.word(f"::m_{self.number}")
        self.lines.append(f"module {inner} {{")
        self.declare(f"::m_{self.number}::{inner}", self.dice.randint(1, self.size))
        vague = [] if self.is_tame else [f"interface from_{self.number} : ::odd_{self.number}::Vague {{}};"]
        self.lines += ["};", "};", *vague, "#endif", ""]
        return File(name, "\n".join(self.lines), {one: can for one, can in self.types.items() if one not in before[1]},
                    self.interfaces[before[0]:],
                    {one: can for one, can in self.exceptions.items() if one not in before[2]}, self.included)


def random_files(seed: int, count: int, size: int = 8, is_tame: bool = False) -> List[File]:
    """So many files of about this size, some of which include others of them."""
    dice, files, inherited = random.Random(seed), [], set()
    for number in range(count):
        files.append(Maker(dice, number, files[-3:], inherited, size, is_tame).made())
    return files


def written(files: List[File], folder: str) -> List[str]:
    """Writes files into a folder, and answers their paths."""
    paths = [os.path.join(folder, f"{file.name}.idl") for file in files]
    for file, path in zip(files, paths):
        with open(path, "w", encoding="ascii") as opened:
            opened.write(file.text)
    return paths
