"""Names in Rust, of what stands in IDL: no two things of a file may have one."""
import re
from typing import Dict, Iterable, List, Tuple

from . import model

KEYWORDS = set("""abstract as async await become box break const continue crate do dyn else enum extern false final fn
for gen if impl in let loop macro match mod move mut override priv pub ref return self static struct super trait true
try type typeof unsafe unsized use virtual where while yield Self""".split())
# .. which can't be r#keyword
ALWAYS = {"crate", "self", "super", "Self"}
PRIMITIVES = set("bool char f32 f64 i8 i16 i32 i64 i128 isize str u8 u16 u32 u64 u128 usize".split())


def words(name: str) -> List[str]:
    """The words of a name: a capital begins one, but within an abbreviation."""
    parts = re.sub(r"([a-z0-9])([A-Z])", r"\1_\2", re.sub(r"([A-Z])([A-Z][a-z])", r"\1_\2", name)).split("_")
    return [part for part in parts if part]


def escaped(name: str) -> str:
    if name in ALWAYS:
        return f"{name}_"
    return f"r#{name}" if name in KEYWORDS else name


def snake(name: str) -> str:
    """A function, member or parameter."""
    return escaped("_".join(words(name)).lower())


def module(name: str) -> str:
    made = snake(name)
    return f"{made}_" if made in PRIMITIVES else made


def camel(name: str) -> str:
    """A type or a variant. Between two digits a `_` stays."""
    made = ""
    for word in words(name):
        made += "_" if made[-1:].isdigit() and word[0].isdigit() else ""
        made += word[0].upper() + (word[1:].lower() if word.isupper() else word[1:])
    return escaped(made)


def upper(name: str) -> str:
    """A constant."""
    return "_".join(words(name)).upper()


def servant_name(one: model.Interface) -> str:
    return camel(f"{one.name}_servant")


def method_of(operation: model.Operation) -> str:
    """The method for an operation: of an attribute its name, and behind `set_` where it is set."""
    if operation.attribute is None:
        return snake(operation.name)
    return snake(f"set_{operation.attribute}" if operation.is_setter else operation.attribute)


def marker_of(operation: model.Operation) -> str:
    """The type that stands for an operation."""
    if operation.attribute is None:
        return camel(operation.name)
    return camel(operation.attribute + ("_setter" if operation.is_setter else "_getter"))


def raised_names(operation: model.Operation) -> List[str]:
    """The variants for the exceptions of an operation: with their scopes, where two have one name."""
    names = [camel(one.name) for one in operation.raises]
    return [camel("_".join(one.scope)) if names.count(name) > 1 else name
            for one, name in zip(operation.raises, names)]


class Names:
    """Sees to it that no two things of a file have one name."""

    def __init__(self) -> None:
        self.names = model.Names("Rust")
        self.scopes: Dict[Tuple[str, ...], model.Declared] = {}

    def modules(self, one: model.Declared) -> None:
        """Those around a declaration, and that of an interface."""
        for size in range(1, len(one.scope) + isinstance(one, model.Interface)):
            scope = one.scope[:size]
            around = self.scopes.setdefault(scope, model.Declared(scope, "", one.file, one.line, True))
            self.names.take("::".join(map(module, scope)), around)

    def declaration(self, one: model.Declared) -> None:
        self.modules(one)
        names = [upper(one.name) if isinstance(one, model.Const) else camel(one.name)]
        if isinstance(one, model.Interface):
            names += [servant_name(one), f"{module(one.name)}::ops"]
        for name in names:
            self.names.take("::".join([*map(module, one.scope[:-1]), name]), one)

    def parts(self, one: model.Declared, parts: Iterable[Tuple[str, str]]) -> None:
        """Parts of a declaration, each by its name and that in Rust."""
        for name, made in parts:
            part = model.Declared((*one.scope, name), "", one.file, one.line, True)
            self.names.take(f"{one.idl}'s {made}", part)

    def parameters(self, one: model.Interface) -> None:
        """Those of the operations of an interface."""
        for operation in one.operations:
            inner = model.Declared((*one.scope, operation.name), "", one.file, operation.line, True)
            self.parts(inner, [(name, snake(name)) for _, name, _ in operation.parameters])


def parts_of(one: model.Declared) -> Iterable[Tuple[str, str]]:
    """The parts of a declaration that have names."""
    if isinstance(one, model.Enum):
        return [(name, camel(name)) for name in one.names]
    if isinstance(one, (model.Struct, model.Exceptional)):
        return [(name, snake(name)) for name, _ in one.members]
    if isinstance(one, model.Union):
        return [("a label of no member", "NoMember"), *((case.name, camel(case.name)) for case in one.cases)]
    if isinstance(one, model.Interface):
        return [(each.name, name) for each in one.all_operations for name in (method_of(each), marker_of(each))]
    return []


def check(unit: model.Unit) -> None:
    """Raises Refused where two names of the file would be one in Rust."""
    names = Names()
    for one in unit.here:
        if isinstance(one, model.Forward):
            continue
        names.declaration(one)
        names.parts(one, parts_of(one))
        if isinstance(one, model.Interface):
            names.parameters(one)
