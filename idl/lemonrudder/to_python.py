"""Python: FILE_idl.py, which has all, and for each module of the file a package that names what is in it.

Names are those of the OMG's mapping to Python 1.2: the interface M::I is the stub M.I and the servant M__POA.I, and
what stands in no module is in _GlobalIDL and _GlobalIDL__POA. In FILE_idl.py each has the names of its scopes before
its own, with _ between.
"""
import itertools
import keyword
import os
import re
from typing import Dict, List, Tuple

from . import model

BASICS = {"boolean": "bool", "char": "str", "float": "float", "double": "float"}
RUNTIME = {"float": "float_"}
HEAD = '''"""Made of {file} by omniidl -blemonrudder -Wbpython. Not to be changed by hand."""
from __future__ import annotations

import abc as _abc
import builtins as _builtins
import dataclasses as _dataclasses
import typing as _typing

from lemonrudder import idl as _idl

_idl.made_for({version})
'''
# what each exception of Python has, each class, and each number
EXCEPTIONS = ("args", "add_note", "with_traceback")
CLASSES = ("mro",)
NUMBERS = ("as_integer_ratio", "bit_count", "bit_length", "conjugate", "denominator", "from_bytes", "imag",
           "is_integer", "name", "numerator", "real", "to_bytes", "value", *CLASSES)
IGNORED = "  # type: ignore[no-any-return]"
PACKAGE = '"""Made by omniidl -blemonrudder -Wbpython. Not to be changed by hand."""\n'


def identifier(name: str, *others: str) -> str:
    """A name of IDL in Python: behind `_` where it is a keyword, or has another meaning there."""
    return f"_{name}" if keyword.iskeyword(name) or name in others else name


def flat(scope: Tuple[str, ...]) -> str:
    """The name of a declaration in FILE_idl.py."""
    return identifier("_".join(scope))


def member(name: str) -> str:
    return identifier(name, "self", *EXCEPTIONS, *CLASSES)


def enumerator(name: str) -> str:
    return identifier(name, *NUMBERS)


def hint(type: object) -> str:
    """The annotation of a type."""
    if isinstance(type, model.Declared):
        return flat(type.scope)
    if isinstance(type, model.Basic):
        return f"_builtins.{BASICS.get(type.name, 'int')}"
    if isinstance(type, model.String):
        return "_builtins.str"
    if isinstance(type, model.Reference):
        return "_typing.Optional[_idl.Ior]"
    if isinstance(type, model.Any):
        return "_idl.Any"
    inner = model.resolved(type.member)
    if inner in (model.Basic("octet"), model.Basic("char")):
        return "_builtins.bytes" if inner.name == "octet" else "_builtins.str"
    return f"_typing.List[{hint(type.member)}]"


def type_of(type: object) -> str:
    """The expression for a type's reader and writer."""
    if isinstance(type, model.Declared):
        return f"_t_{flat(type.scope)}"
    if isinstance(type, model.Basic):
        return f"_idl.{RUNTIME.get(type.name, type.name)}"
    if isinstance(type, model.String):
        return f"_idl.string({type.bound or ''})"
    if isinstance(type, model.Reference):
        return "_idl.reference()"
    if isinstance(type, model.Any):
        return "_idl.any_"
    if isinstance(type, model.Sequence):
        return f"_idl.sequence({type_of(type.member)}{f', {type.bound}' if type.bound else ''})"
    return f"_idl.array({type_of(type.member)}, {type.size})"


def named(types: List[Tuple[str, object]]) -> str:
    """Names with their types, as a tuple."""
    found = [f'("{name}", {type_of(type)})' for name, type in types]
    return f"({', '.join(found)}{',' if len(found) == 1 else ''})"


def value_of(value: object, type: object) -> str:
    """A value of a constant or a label."""
    if isinstance(value, tuple):
        made = model.resolved(type)
        return f"{flat(made.scope)}.{enumerator(value[-1])}"
    if model.resolved(type) == model.Basic("boolean"):
        return str(bool(value))
    return repr(value)


def class_of(one: model.Declared, base: str, members: List[Tuple[str, object]], is_exception: bool) -> List[str]:
    """The class of a struct or an exception."""
    name = flat(one.scope)
    lines = [f"@_dataclasses.dataclass{'(eq=False, repr=False)' if is_exception else ''}", f"class {name}({base}):",
             f'    """{one.idl}"""', ""]
    if is_exception:
        lines.append(f'    _id = "{one.id}"')
    lines += [f"    {member(inner)}: {hint(type)}" for inner, type in members]
    return lines


def structure(one: model.Declared) -> List[str]:
    """What stands between the brackets of a structure."""
    return [f"    {flat(one.scope)},", *(f'    ("{member(name)}", {type_of(type)}),' for name, type in one.members)]


def const(one: model.Const) -> List[str]:
    return [f"{flat(one.scope)}: {hint(one.type)} = {value_of(one.value, one.type)}"]


def alias(one: model.Alias) -> List[str]:
    """A name for a type. (One that is not whole yet is named by a text.)"""
    name, named = flat(one.scope), hint(one.type)
    for other in model.named_in(one.type):
        if other.has_forward and other is not one.type:
            named = re.sub(rf"\b{flat(other.scope)}\b", f'"{flat(other.scope)}"', named)
    return [f"{name} = {named}", f"_t_{name} = {type_of(one.type)}"]


def forward(one: model.Forward) -> List[str]:
    return [f"_t_{flat(one.scope)} = _idl.recursive()"]


def type_made(one: model.Declared, words: str) -> str:
    """The line that begins the type of a struct or a union, which others may name already."""
    return f"_t_{flat(one.scope)}{'.of' if one.has_forward else ''} = _idl.{words}("


def enum(one: model.Enum) -> List[str]:
    name, prefix = flat(one.scope), one.scope[:-1]
    items = [enumerator(item) for item in one.names]
    lines = [f"class {name}(_idl.Enum):", f'    """{one.idl}"""', ""]
    lines += [f"    {item} = {number}" for number, item in enumerate(items)]
    lines += ["", "", f"_t_{name} = _idl.enumeration({name})"]
    # (an enumerator stands in the scope around its enum)
    return lines + [f"{flat((*prefix, item))} = {name}.{enumerator(item)}" for item in one.names]


def struct(one: model.Struct) -> List[str]:
    return [*class_of(one, "_idl.Struct", one.members, False), "", "",
            type_made(one, "structure"), *structure(one), ")"]


def exception(one: model.Exceptional) -> List[str]:
    name = flat(one.scope)
    lines = class_of(one, "_idl.UserException", one.members, True)
    return [*lines, "", "", f"{name}._type = _idl.structure(", *structure(one), ")"]


def union(one: model.Union) -> List[str]:
    name = flat(one.scope)
    lines = [f"class {name}(_idl.Union):", f'    """{one.idl}"""', ""]
    lines += [f"    {member(case.name)}: {hint(case.type)}" for case in one.cases]
    lines += ["", "", type_made(one, "union"), f"    {name}, {type_of(one.switch)},"]
    for case in one.cases:
        labels = ["None" if label is None else value_of(label, one.switch) for label in case.labels]
        one_label = "," if len(labels) == 1 else ""
        lines.append(f'    (({", ".join(labels)}{one_label}), "{member(case.name)}", {type_of(case.type)}),')
    return [*lines, ")"]


def method_of(operation: model.Operation) -> str:
    return identifier(operation.name)


def result_hint(operation: model.Operation) -> str:
    if operation.is_octets:
        return "None" if operation.is_oneway else "_idl.Body"
    hints = [hint(type) for _, type in operation.results]
    return "None" if not hints else hints[0] if len(hints) == 1 else f"_typing.Tuple[{', '.join(hints)}]"


def operation_of(operation: model.Operation) -> str:
    """The expression for an operation."""
    if operation.is_octets:
        oneway = ", True" if operation.is_oneway else ""
        return f'_idl.OfOctets("{operation.name}", "{method_of(operation)}"{oneway})'
    parts = [f'"{operation.name}"', f'"{method_of(operation)}"', named(operation.arguments), named(operation.results)]
    raises = [flat(one.scope) for one in operation.raises]
    if raises or operation.is_oneway:
        parts.append(f"({', '.join(raises)}{',' if len(raises) == 1 else ''})")
    if operation.is_oneway:
        parts.append("True")
    return f"_idl.Operation({', '.join(parts)})"


def parameters(operation: model.Operation) -> str:
    if operation.is_octets:
        return ", body: _typing.Union[_idl.Body, _builtins.bytes]"
    return "".join(f", {member(name)}: {hint(type)}" for name, type in operation.arguments)


def document(operation: model.Operation) -> str:
    raises = ", ".join(one.idl for one in operation.raises)
    return f'        """Raises {raises}."""' if raises else ""


def names_in(one: model.Interface, unit: model.Unit) -> Dict[str, str]:
    """The names in the scope of an interface, by which those of FILE_idl.py are members of its class."""
    found: Dict[str, str] = {}
    for other in unit.whole:
        if other.scope[:-1] == one.scope:
            found[identifier(other.name)] = flat(other.scope)
            if isinstance(other, model.Enum):
                found.update({identifier(item): flat((*one.scope, item)) for item in other.names})
    return found


def are_apart(one: model.Interface, two: model.Interface) -> bool:
    """Whether neither of two interfaces inherits from the other."""
    return one not in two.all_bases and two not in one.all_bases


def inner_of(one: model.Interface, unit: model.Unit) -> List[str]:
    """What stands in the scope of an interface, as members of its class; and what several of its bases have by one
    name, which mypy would hold against each other."""
    own = names_in(one, unit)
    having: Dict[str, List[model.Interface]] = {}
    for base in one.all_bases if len(one.own_bases) > 1 else ():
        for name in names_in(base, unit):
            having.setdefault(name, []).append(base)
    lines = [f"    {name} = {named}" for name, named in own.items()]
    for name, bases in having.items():
        if name not in own and any(are_apart(*two) for two in itertools.combinations(bases, 2)):
            base = next(base for base in one.own_bases if any(each in (base, *base.all_bases) for each in bases))
            lines.append(f"    {name}: _typing.Any = {flat(base.scope)}.{name}")
    return lines


def interface(one: model.Interface, unit: model.Unit) -> List[str]:
    """The descriptor of an interface, its stub, and its servant."""
    name = flat(one.scope)
    bases = [flat(base.scope) for base in one.own_bases]
    listed = ", ".join(f"_i_{base}" for base in bases) + ("," if len(bases) == 1 else "")
    lines = [f'_i_{name} = _idl.Interface("{one.id}", ({listed}), (']
    lines += [f"    {operation_of(operation)}," for operation in one.operations]
    lines += ["))", "", "", f"class {name}({', '.join(bases) or '_idl.Stub'}):",
              f'    """Calls an object of {one.idl}."""', "", f"    _interface = _i_{name}", *inner_of(one, unit)]
    for operation in one.operations:
        values = ", body" if operation.is_octets else "".join(f", {member(inner)}" for inner, _ in operation.arguments)
        lines += ["", f"    async def {method_of(operation)}(self{parameters(operation)}) -> {result_hint(operation)}:"]
        lines += [text for text in [document(operation)] if text]
        back = "" if result_hint(operation) == "None" else "return "
        found = f'self._interface.operations["{operation.name}"]'
        call = "_call_octets" if operation.is_octets else "_call"
        lines.append(f"        {back}await self.{call}({found}{values})" + (IGNORED if back else ""))
    lines += ["", "", f"class _POA_{name}({', '.join(f'_POA_{base}' for base in bases) or '_idl.Servant'}):",
              f'    """A servant of {one.idl}, whose methods are plain or async."""', "", f"    _interface = _i_{name}"]
    for operation in one.operations:
        returns = "_idl.RawReply" if result_hint(operation) == "_idl.Body" else result_hint(operation)
        either = f"_typing.Union[{returns}, _typing.Awaitable[{returns}]]"
        lines += ["", "    @_abc.abstractmethod"]
        given = ", body: _idl.Body" if operation.is_octets else parameters(operation)
        lines.append(f"    def {method_of(operation)}(self{given}) -> {either}:")
        lines.append(document(operation) or "        ...")
    return lines


def body_of(one: model.Declared, unit: model.Unit) -> List[str]:
    """The lines of a declaration."""
    if isinstance(one, model.Interface):
        return interface(one, unit)
    makers = {model.Const: const, model.Alias: alias, model.Enum: enum, model.Struct: struct,
              model.Exceptional: exception, model.Union: union, model.Forward: forward}
    return makers[type(one)](one)


def names_of(one: model.Declared) -> List[Tuple[Tuple[str, ...], str]]:
    """The names that a declaration has in FILE_idl.py, by its scopes."""
    found = [(one.scope, flat(one.scope))]
    if isinstance(one, model.Enum):
        found += [((*one.scope[:-1], item), flat((*one.scope[:-1], item))) for item in one.names]
    return found


def imports_of(unit: model.Unit) -> List[str]:
    """The lines that import what stands in files that are included."""
    files: Dict[str, List[str]] = {}
    for one in unit.used:
        name = flat(one.scope)
        found = files.setdefault(model.base_of(one.file), [])
        found.append(name)
        if isinstance(one, model.Interface):
            found += [f"_i_{name}", f"_POA_{name}"]
        elif not isinstance(one, model.Exceptional):
            found.append(f"_t_{name}")
    lines = []
    for file, names in files.items():
        lines += [f"from {module_name(file)} import (", *(f"    {name}," for name in names), ")"]
    return lines


def module_name(base: str) -> str:
    """The module for a file."""
    return re.sub(r"\W", "_", base) + "_idl"


def module_of(unit: model.Unit) -> str:
    """FILE_idl.py."""
    names = model.Names("Python")
    head = HEAD.format(file=os.path.basename(unit.file), version=", ".join(map(str, model.VERSION))).rstrip()
    lines = [head[:head.rindex("\n\n")], *imports_of(unit), head[head.rindex("\n\n") + 1:]]
    for one in unit.declarations:
        for _, name in names_of(one) if not isinstance(one, model.Forward) else ():
            names.take(name, one)
        if one.is_here:
            spaced = not isinstance(one, (model.Const, model.Alias, model.Forward))
            lines += ["", "", *body_of(one, unit)] if spaced else ["", *body_of(one, unit)]
    return re.sub(r"\n\n\n\n+", "\n\n\n", "\n".join(lines) + "\n")


def package_of(scope: Tuple[str, ...], is_poa: bool) -> str:
    """The folder of the package for a module."""
    first, *rest = scope or ("_GlobalIDL",)
    return os.path.join(identifier(first) + ("__POA" if is_poa else ""), *map(identifier, rest))


def package(name: str, module: str, lines: List[str]) -> Tuple[str, str]:
    """The __init__.py of a package: what other files put there stays."""
    path = os.path.join(name, "__init__.py")
    before: List[str] = []
    if os.path.exists(path):
        with open(path, encoding="utf-8") as file:
            text = file.read()
        if not text.startswith(PACKAGE):
            raise model.Refused([f"{path}: it is there, and was not made by omniidl -blemonrudder"])
        mine = f"from {module} import "
        before = [line for line in text.splitlines() if line.startswith("from ") and not line.startswith(mine)]
    lines = list(dict.fromkeys(before + lines))
    # (its last word is the name in the package)
    names = [f'    "{name}",' for name in dict.fromkeys(line.split()[-1] for line in lines)]
    return path, "\n".join([PACKAGE + "\n".join(lines), *(["", "__all__ = [", *names, "]"] if names else []), ""])


def packages_of(unit: model.Unit) -> Dict[str, str]:
    """The packages for the modules of a file."""
    module = module_name(unit.base)
    lines: Dict[str, List[str]] = {}
    interfaces = {one.scope for one in unit.declarations if isinstance(one, model.Interface)}
    for one in unit.here:
        scope = one.scope[:-1]
        if scope in interfaces or isinstance(one, model.Forward):
            continue
        for names, name in names_of(one):
            lines.setdefault(package_of(scope, False), []).append(
                f"from {module} import {name} as {identifier(names[-1])}")
        if isinstance(one, model.Interface):
            lines.setdefault(package_of(scope, True), []).append(
                f"from {module} import _POA_{flat(one.scope)} as {identifier(one.name)}")
    for scope in unit.modules:
        for is_poa in (False, True):
            here = package_of(scope, is_poa)
            lines.setdefault(here, [])
            if len(scope) > 1:
                lines.setdefault(package_of(scope[:-1], is_poa), []).append(f"from . import {identifier(scope[-1])}")
    # (a struct inside of a struct is named by its flat name alone)
    known = {package_of(scope, is_poa) for scope in [(), *unit.modules] for is_poa in (False, True)}
    return dict(package(name, module, found) for name, found in lines.items() if name in known)


def files_of(unit: model.Unit) -> Dict[str, str]:
    return {f"{module_name(unit.base)}.py": module_of(unit), **packages_of(unit)}
