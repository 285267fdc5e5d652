"""A table of the types of operations, for `giop trace --types`."""
from typing import List

from . import model


def why_not(one: object) -> str:
    """Why the table has no such declaration or operation; nothing where it has."""
    if isinstance(one, model.Operation):
        return "types that hold themselves" if model.is_nested(one) else "any" if model.has_any(one) else ""
    is_nested = any(map(model.holds_itself, model.all_named([one])))
    return "types that hold themselves" if is_nested else "any" if model.has_any(one) else ""


def words(type: object) -> str:
    """A type, what it is made of before it."""
    type = model.resolved(type)
    if isinstance(type, model.Basic):
        return type.name
    if isinstance(type, model.String):
        return f"string:{type.bound}" if type.bound else "string"
    if isinstance(type, model.Reference):
        return "object"
    if isinstance(type, model.Sequence):
        return f"{words(type.member)} sequence" + (f":{type.bound}" if type.bound else "")
    if isinstance(type, model.Array):
        return f"{words(type.member)} array:{type.size}"
    return f"@{type.id}"


def label(value: object, switch: object) -> int:
    """A label of a union as a number."""
    switch = model.resolved(switch)
    if isinstance(switch, model.Enum):
        return switch.names.index(value[-1])
    return ord(value) if isinstance(value, str) else int(value)


def lines_of(one: model.Declared) -> List[str]:
    """The lines of a declaration."""
    if isinstance(one, (model.Struct, model.Exceptional)):
        head = "struct" if isinstance(one, model.Struct) else "exception"
        return [f"{head} {one.id}", *(f"member {name} {words(type)}" for name, type in one.members)]
    if isinstance(one, model.Enum):
        return [f"enum {one.id}", *(f"name {name}" for name in one.names)]
    if isinstance(one, model.Union):
        found = [f"union {one.id} {words(one.switch)}"]
        for case in one.cases:
            for value in case.labels:
                how = "default" if value is None else f"case {label(value, one.switch)}"
                found.append(f"{how} {case.name} {words(case.type)}")
        return found
    if not isinstance(one, model.Interface):
        return []
    found = [f"interface {one.id}", *(f"base {base.id}" for base in one.bases)]
    for operation in one.operations:
        if operation.is_octets or why_not(operation):
            continue
        found.append(f"operation {operation.name}")
        found += ["oneway"] if operation.is_oneway else []
        found += [f"in {name} {words(type)}" for name, type in operation.arguments]
        found += [f"out {name or '-'} {words(type)}" for name, type in operation.results]
        found += [f"raises {raised.id}" for raised in operation.raises]
    return found


def warn_of(one: model.Declared) -> None:
    """Says which operations are left out: the table has no types that hold themselves, and no any."""
    for operation in getattr(one, "operations", ()):
        if not operation.is_octets and why_not(operation):
            model.warn(f"{one.file}:{operation.line}: Warning: {one.idl}::{operation.name}: {why_not(operation)}:"
                       " the table leaves it out")


def files_of(unit: model.Unit) -> dict:
    """FILE.types, which has what is included too."""
    lines = ["giop-types 1", f"# of {unit.base}.idl"]
    left_out = [one for one in unit.whole if why_not(one) and not isinstance(one, model.Interface)]
    for one in unit.whole:
        warn_of(one)
        lines += lines_of(one) if one not in left_out else []
    return {f"{unit.base}.types": "\n".join(lines) + "\n"}
