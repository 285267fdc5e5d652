"""What the backends know of an IDL file: its declarations in order, checked for what is left out.

A type is one of Basic, String, Sequence, Array, Reference, Any, or a declaration (Enum, Struct, Union, Alias).
"""
import os
import sys
from dataclasses import dataclass, field
from typing import Dict, List, Optional, Tuple

from omniidl import idlast, idltype

BASICS = {
    idltype.tk_boolean: "boolean", idltype.tk_char: "char", idltype.tk_octet: "octet", idltype.tk_short: "short",
    idltype.tk_ushort: "ushort", idltype.tk_long: "long", idltype.tk_ulong: "ulong",
    idltype.tk_longlong: "longlong", idltype.tk_ulonglong: "ulonglong", idltype.tk_float: "float",
    idltype.tk_double: "double",
}
LEFT_OUT = {
    idltype.tk_TypeCode: "TypeCode", idltype.tk_Principal: "Principal",
    idltype.tk_longdouble: "long double", idltype.tk_wchar: "wchar", idltype.tk_wstring: "wstring",
    idltype.tk_fixed: "fixed", idltype.tk_value: "a valuetype", idltype.tk_value_box: "a boxed value",
    idltype.tk_native: "a native type", idltype.tk_abstract_interface: "an abstract interface",
    idltype.tk_local_interface: "a local interface",
}
HINT = "it is left out; by -Wbpartial an operation with it is a raw one, which is served and called by its octets"
# the version of the library, on whose headers and packages stands what is made: those of its series serve it
VERSION = (0, 2, 0)
SERIES = 2 if VERSION[0] == 0 else 1
LEAST = VERSION[0] << 16 | VERSION[1] << 8 | VERSION[2]
BITS = 8 * (3 - SERIES)
# .. in C and C++: whether it is that of the headers
IS_VERSION = f"""#if LR_VERSION_NUMBER < {LEAST} || LR_VERSION_NUMBER >> {BITS} != {LEAST >> BITS}
#error "made for lemonrudder {'.'.join(map(str, VERSION))}: make it anew by omniidl"
#endif"""
# the sizes of what the library's types can spell
MEMBERS = NAMES = ELEMENTS = 255


class Refused(Exception):
    """What can't be written, a line each."""

    def __init__(self, lines: List[str]) -> None:
        super().__init__("\n".join(lines))
        self.lines = lines


class Fault(Exception):
    """What a declaration is refused for, and the part of it, if it is for one."""

    def __init__(self, text: str, part: object = None) -> None:
        super().__init__(text)
        self.part = part


@dataclass(frozen=True)
class Basic:
    name: str


@dataclass(frozen=True)
class String:
    bound: int = 0


@dataclass(frozen=True)
class Sequence:
    member: object
    bound: int = 0


@dataclass(frozen=True)
class Array:
    member: object
    size: int


@dataclass(frozen=True)
class Reference:
    """A reference to an object: of any interface, as all are the same on the wire."""


@dataclass(frozen=True)
class Any:
    """A TypeCode and a value of it, which a program passes on by their octets."""


@dataclass(eq=False)
class Declared:
    """A declaration: its name with those of the scopes around it, its repository id, and where it stands. is_here: in
    the file itself, and not in one that it includes."""

    scope: Tuple[str, ...]
    id: str
    file: str
    line: int
    is_here: bool

    # whether a Forward of it stands before
    has_forward = False

    @property
    def name(self) -> str:
        return self.scope[-1]

    @property
    def idl(self) -> str:
        return "::".join(self.scope)


@dataclass(eq=False)
class Const(Declared):
    type: object
    value: object


@dataclass(eq=False)
class Alias(Declared):
    type: object


@dataclass(eq=False)
class Enum(Declared):
    """names: of its enumerators, which stand in the scope around it."""

    names: List[str]


@dataclass(eq=False)
class Struct(Declared):
    members: List[Tuple[str, object]]


@dataclass(eq=False)
class Forward(Declared):
    """Stands before what names a struct or a union that is not whole there, as one that holds itself."""

    of: Declared


@dataclass(eq=False)
class Case:
    """A member of a union: its labels, the default one None."""

    labels: List[object]
    name: str
    type: object


@dataclass(eq=False)
class Union(Declared):
    switch: object
    cases: List[Case]


@dataclass(eq=False)
class Exceptional(Declared):
    members: List[Tuple[str, object]]


@dataclass(eq=False)
class Operation:
    """An operation of the wire. attribute: the name of that whose it is. is_octets: its types can't be made, so that it
    has none here, and is served and called by octets."""

    name: str
    parameters: List[Tuple[str, str, object]]
    result: Optional[object]
    raises: List[Exceptional]
    is_oneway: bool
    line: int
    attribute: Optional[str] = None
    is_octets: bool = False

    @property
    def arguments(self) -> List[Tuple[str, object]]:
        """The in and inout parameters."""
        return [(name, type) for how, name, type in self.parameters if how != "out"]

    @property
    def is_setter(self) -> bool:
        return self.attribute is not None and self.name.startswith("_set_")

    @property
    def outs(self) -> List[Tuple[str, object]]:
        """The inout and out parameters."""
        return [(name, type) for how, name, type in self.parameters if how != "in"]

    @property
    def results(self) -> List[Tuple[str, object]]:
        """What is in the reply: the return value, whose name is empty, and the inout and out parameters."""
        return ([("", self.result)] if self.result is not None else []) + self.outs


@dataclass(eq=False)
class Interface(Declared):
    bases: List["Interface"]
    operations: List[Operation] = field(default_factory=list)

    @property
    def all_bases(self) -> List["Interface"]:
        """Its bases and theirs, each once, nearest first."""
        found: List[Interface] = []
        for base in self.bases:
            found += [one for one in (base, *base.all_bases) if one not in found]
        return found

    @property
    def all_operations(self) -> List[Operation]:
        """Its operations, and those that it inherits."""
        return [one for interface in (*reversed(self.all_bases), self) for one in interface.operations]

    @property
    def constructed(self) -> List["Interface"]:
        """Its bases and theirs, each once, and behind those that it has itself: as C++ constructs virtual bases."""
        found: List[Interface] = []
        for base in self.bases:
            found += [one for one in (*base.constructed, base) if one not in found]
        return found

    @property
    def depth(self) -> int:
        """How many interfaces stand above it, one above the other."""
        return 1 + max((base.depth for base in self.bases), default=0)

    @property
    def own_bases(self) -> List["Interface"]:
        """Its bases but for those that another one has, in an order that all interfaces have: Python wants one."""
        inherited = [one for base in self.bases for one in base.all_bases]
        return sorted((base for base in self.bases if base not in inherited), reverse=True,
                      key=lambda base: (base.depth, base.scope))


@dataclass
class Unit:
    """A file: its declarations, those of files that it includes among them, and its modules."""

    file: str
    declarations: List[Declared]
    modules: List[Tuple[str, ...]]

    @property
    def base(self) -> str:
        """Its name without folder and end."""
        return base_of(self.file)

    @property
    def here(self) -> List[Declared]:
        return [one for one in self.declarations if one.is_here]

    @property
    def whole(self) -> List[Declared]:
        """Its declarations, each once."""
        return [one for one in self.declarations if not isinstance(one, Forward)]

    @property
    def used(self) -> List[Declared]:
        """What is declared in files that it includes, and named in it."""
        names = {one for here in self.here for one in named_by(here)}
        return [one for one in self.whole if not one.is_here and one in names]

    @property
    def used_files(self) -> List[str]:
        return list(dict.fromkeys(base_of(one.file) for one in self.used))


class Names:
    """Sees to it that no two declarations have one name in a language."""

    def __init__(self, language: str) -> None:
        self.language = language
        self.taken: Dict[str, Declared] = {}

    def take(self, name: str, one: Declared) -> None:
        before = self.taken.setdefault(name, one)
        if before is not one:
            raise Refused([f"{one.file}:{one.line}: {one.idl} and {before.idl} are both {name} in {self.language}"])


def quoted(text: str) -> str:
    """A text as a literal of C and C++."""
    return '"' + "".join(char if 32 <= ord(char) < 127 and char not in '"\\?' else f"\\{ord(char):03o}"
                         for char in text) + '"'


def base_of(file: str) -> str:
    """The name of a file without folder and end."""
    return os.path.splitext(os.path.basename(file))[0]


def written(name: str, text: str) -> None:
    """Writes a file, and the folders around it."""
    if os.path.dirname(name):
        os.makedirs(os.path.dirname(name), exist_ok=True)
    with open(name, "w", encoding="utf-8") as file:
        file.write(text)


def warn(line: str) -> None:
    """Says something on standard error."""
    print(line, file=sys.stderr)


def resolved(type: object) -> object:
    """A type without its aliases."""
    while isinstance(type, Alias):
        type = type.type
    return type


def can_spell(type: object, around: Tuple[object, ...] = ()) -> bool:
    """Whether the library's types can spell a type. (A bound they can't; it is checked beside them.) around: what it is
    in."""
    type = resolved(type)
    if isinstance(type, Sequence):
        return can_spell(type.member, around)
    if isinstance(type, Array):
        return type.size <= ELEMENTS and can_spell(type.member, around)
    if isinstance(type, Struct):
        return len(type.members) <= MEMBERS and type not in around and all(
            can_spell(member, (*around, type)) for _, member in type.members)
    if isinstance(type, Enum):
        return len(type.names) <= NAMES
    return not isinstance(type, (Union, Any))


def types_of(one: object) -> List[object]:
    """The types that a declaration or an operation names."""
    if isinstance(one, (Const, Alias)):
        return [one.type]
    if isinstance(one, (Struct, Exceptional)):
        return [type for _, type in one.members]
    if isinstance(one, Union):
        return [one.switch, *(case.type for case in one.cases)]
    if isinstance(one, Operation):
        return [type for _, type in one.arguments + one.results] + list(one.raises)
    return [type for operation in getattr(one, "operations", ()) for type in types_of(operation)]


def whole_of(type: object) -> object:
    """The type of what sequences and arrays hold."""
    while isinstance(type, (Sequence, Array)):
        type = type.member
    return type


def named_in(type: object) -> List[Declared]:
    """The declarations that a type names; of an enum by another name also that of the enum."""
    type = whole_of(type)
    found = [type] if isinstance(type, Declared) else []
    return found + ([resolved(type)] if isinstance(resolved(type), Enum) else [])


def named_by(one: Declared) -> List[Declared]:
    """The declarations that a declaration names."""
    return [*getattr(one, "bases", ()), *(named for type in types_of(one) for named in named_in(type))]


def all_named(due: List[Declared]) -> List[Declared]:
    """Declarations, those that they name, and so on."""
    found: Dict[Declared, bool] = {}
    due = list(due)
    while due:
        one = due.pop()
        if one not in found:
            found[one] = True
            due += named_by(one)
    return list(found)


def holds_itself(one: Declared) -> bool:
    """Whether values of a declaration may hold others of it."""
    return one in all_named(named_by(one))


def is_nested(operation: Operation) -> bool:
    """Whether values of an operation may hold others of their own type."""
    return any(map(holds_itself, all_named([named for type in types_of(operation) for named in named_in(type)])))


def has_any(one: object) -> bool:
    """Whether values of a declaration or an operation may hold anys."""
    due = [one, *all_named([named for type in types_of(one) for named in named_in(type)])]
    return any(isinstance(whole_of(type), Any) for each in due for type in types_of(each))


def is_raw(operation: Operation) -> bool:
    """Whether an operation is raw, since the library's types can't spell all of its types."""
    types = [type for _, type in operation.arguments + operation.results]
    types += [type for one in operation.raises for _, type in one.members]
    return operation.is_octets or not all(map(can_spell, types))


class Reading:
    """Reads declarations of omniidl. is_partial: what can't be made is left out, and an operation with it is one of
    octets; else the file is refused for it."""

    def __init__(self, is_partial: bool = False) -> None:
        self.is_partial = is_partial
        self.found: Dict[str, Declared] = {}
        self.order: List[Declared] = []
        self.modules: Dict[Tuple[str, ...], bool] = {}
        # a line each: for what the file is refused, or what is left out
        self.faults: List[str] = []
        # the scopes of what was refused in a file that is included, or is left out
        self.absent: Dict[Tuple[str, ...], str] = {}
        # what is declared, and not whole yet, by what stands for it in the order
        self.forwards: Dict[Declared, Forward] = {}

    def read(self, declarations: List[object]) -> None:
        """Reads declarations in order."""
        for one in declarations:
            if isinstance(one, idlast.Module):
                self.scope(one)
                self.read(one.definitions())
                continue
            try:
                self.declaration(one)
            except Fault as fault:
                self.refuse(one, fault, "it is left out")

    def scope(self, one: object) -> None:
        """Notes a module, or what is as one since it is left out itself."""
        scope = tuple(one.scopedName())
        self.modules[scope] = self.modules.get(scope, False) or bool(one.mainFile())

    def refuse(self, one: object, fault: Fault, how: str) -> None:
        """Notes that a declaration is refused, or how it is made: in a file that is included that counts only where it
        is used."""
        part = fault.part or one
        if one.mainFile():
            said = f"Warning: {fault}: {how}" if self.is_partial else f"{fault}: {HINT}"
            self.faults.append(f"{part.file()}:{part.line()}: {said}")
        for name in one.declarators() if isinstance(one, idlast.Typedef) else [one]:
            if hasattr(name, "scopedName"):
                self.lose(tuple(name.scopedName()), str(fault))
        is_scope = isinstance(one, (idlast.Interface, idlast.Value, idlast.ValueAbs))
        if self.is_partial and is_scope and one.declarations():
            self.scope(one)
            self.read(one.declarations())

    def lose(self, scope: Tuple[str, ...], text: str) -> None:
        """Leaves a declaration out, and those that named it before it was whole."""
        self.absent[scope] = text
        lost = self.found.pop("::".join(scope), None)
        for one in [one for one in self.order if lost is not None and (one is lost or lost in named_by(one))]:
            self.order.remove(one)
            if one is not lost:
                self.lose(one.scope, f"{'::'.join(scope)}: {text}")
        self.order = [one for one in self.order if lost is None or getattr(one, "of", None) is not lost]

    def part(self, part: object, type: object) -> object:
        """The type of a part of a declaration. Raises Fault, of that part."""
        try:
            return self.type(type)
        except Fault as fault:
            raise Fault(str(fault), part) from None

    def head(self, one: object) -> Tuple[Tuple[str, ...], str, str, int, bool]:
        return tuple(one.scopedName()), one.repoId(), one.file(), one.line(), bool(one.mainFile())

    def keep(self, made: Declared) -> Declared:
        self.found["::".join(made.scope)] = made
        self.order.append(made)
        return made

    def declaration(self, one: object) -> None:
        """Reads a declaration. Raises Fault."""
        if isinstance(one, idlast.Const):
            self.keep(Const(*self.head(one), self.type(one.constType()), self.value(one)))
        elif isinstance(one, idlast.Typedef):
            self.inner(one.constrType(), one.aliasType())
            for name in one.declarators():
                self.keep(Alias(*self.head(name), self.sized(self.type(one.aliasType()), name)))
        elif isinstance(one, idlast.Enum):
            self.keep(Enum(*self.head(one), [name.identifier() for name in one.enumerators()]))
        elif isinstance(one, (idlast.StructForward, idlast.UnionForward)):
            if one.fullDecl() is not None and "::".join(one.scopedName()) not in self.found:
                self.forward(one.fullDecl(), one)
        elif isinstance(one, (idlast.Struct, idlast.Union)):
            self.constructed(one)
        elif isinstance(one, idlast.Exception):
            self.keep(Exceptional(*self.head(one), self.members(one)))
        elif isinstance(one, idlast.Interface):
            self.interface(one)
        elif isinstance(one, idlast.Native):
            raise Fault(LEFT_OUT[idltype.tk_native])
        elif isinstance(one, (idlast.Value, idlast.ValueAbs, idlast.ValueBox)):
            raise Fault(LEFT_OUT[idltype.tk_value])

    def forward(self, full: object, one: object) -> None:
        """A struct or a union that is named before it is whole."""
        made = Struct(*self.head(full), []) if isinstance(full, idlast.Struct) else Union(*self.head(full), None, [])
        self.found["::".join(made.scope)] = made
        self.forwards[made] = Forward(made.scope, made.id, one.file(), one.line(), bool(one.mainFile()), made)
        self.order.append(self.forwards[made])

    def constructed(self, one: object) -> None:
        """Reads a struct or a union. Raises Fault."""
        if "::".join(one.scopedName()) not in self.found:
            self.forward(one, one)
        made = self.found["::".join(one.scopedName())]
        if isinstance(one, idlast.Struct):
            made.members = self.members(one)
        else:
            self.inner(one.constrType(), one.switchType())
            made.switch = self.type(one.switchType())
            made.cases = self.cases(one)
        self.keep(made)

    def inner(self, is_new: object, type: object) -> None:
        """Reads a declaration that stands inside of another one."""
        if is_new and hasattr(type, "decl"):
            try:
                self.declaration(type.decl())
            except Fault as fault:
                self.lose(tuple(type.decl().scopedName()), str(fault))
                raise

    def members(self, one: object) -> List[Tuple[str, object]]:
        found = []
        for member in one.members():
            self.inner(member.constrType(), member.memberType())
            for name in member.declarators():
                found.append((name.identifier(), self.sized(self.part(member, member.memberType()), name)))
        return found

    def cases(self, one: object) -> List[Case]:
        found = []
        for case in one.cases():
            self.inner(case.constrType(), case.caseType())
            labels = [None if label.default() else plain(label.value()) for label in case.labels()]
            type = self.sized(self.part(case, case.caseType()), case.declarator())
            found.append(Case(labels, case.declarator().identifier(), type))
        return found

    def value(self, one: object) -> object:
        return bool(one.value()) if one.constKind() == idltype.tk_boolean else plain(one.value())

    def sized(self, type: object, name: object) -> object:
        for size in reversed(name.sizes()):
            type = Array(type, size)
        return type

    def type(self, one: object) -> object:
        """A type. Raises Fault."""
        kind = one.kind()
        if kind in LEFT_OUT:
            raise Fault(LEFT_OUT[kind])
        if kind in BASICS:
            return Basic(BASICS[kind])
        if kind == idltype.tk_string:
            return String(one.bound())
        if kind == idltype.tk_sequence:
            return Sequence(self.type(one.seqType()), one.bound())
        if kind == idltype.tk_objref:
            return Reference()
        if kind == idltype.tk_any:
            return Any()
        return self.named(one)

    def named(self, one: object) -> Declared:
        """The declaration of a name that was declared before. Raises Fault: it is refused."""
        scope = tuple(one.scopedName())
        if scope in self.absent:
            raise Fault(f"{'::'.join(scope)}: {self.absent[scope]}")
        if "::".join(scope) not in self.found:
            raise Fault(f"{'::'.join(scope)}, which is not whole here")
        return self.found["::".join(scope)]

    def interface(self, one: object) -> None:
        """Reads an interface with what stands in it."""
        if one.local():
            raise Fault(LEFT_OUT[idltype.tk_local_interface])
        if one.abstract() and not self.is_partial:
            raise Fault(LEFT_OUT[idltype.tk_abstract_interface])
        made = Interface(*self.head(one), [self.named(base) for base in one.inherits()])
        self.read(one.declarations())
        for callable in one.callables():
            try:
                made.operations += self.operations(callable)
            except Fault as fault:
                self.refuse(callable, fault, "the operation is a raw one")
                if self.is_partial:
                    made.operations += operations_of_octets(callable)
                else:
                    self.absent[made.scope] = str(fault)
        self.keep(made)

    def operations(self, one: object) -> List[Operation]:
        """An operation, or those of an attribute. Raises Fault."""
        if isinstance(one, idlast.Attribute):
            type, found = self.type(one.attrType()), []
            for name in one.identifiers():
                found.append(Operation(f"_get_{name}", [], type, [], False, one.line(), name))
                if not one.readonly():
                    parameters = [("in", "value", type)]
                    found.append(Operation(f"_set_{name}", parameters, None, [], False, one.line(), name))
            return found
        if one.contexts():
            raise Fault("a context clause")
        result = None if one.returnType().kind() == idltype.tk_void else self.type(one.returnType())
        parameters = [(one.dirtext(), one.identifier(), self.type(one.paramType())) for one in one.parameters()]
        raises = [self.named(raised) for raised in one.raises()]
        return [Operation(one.identifier(), parameters, result, raises, bool(one.oneway()), one.line())]

    def whole(self) -> List[Declared]:
        """The declarations in order, with what stands for those alone that are named before they are whole."""
        found: List[Declared] = []
        for one in self.order:
            if one in self.forwards:
                at = found.index(self.forwards[one])
                one.has_forward = holds_itself(one) or any(one in named_by(other) for other in found[at:])
                if not one.has_forward:
                    del found[at]
            found.append(one)
        return found


def operations_of_octets(one: object) -> List[Operation]:
    """An operation, or those of an attribute, without types."""
    if not isinstance(one, idlast.Attribute):
        return [Operation(one.identifier(), [], None, [], bool(one.oneway()), one.line(), None, True)]
    verbs = ("_get_",) if one.readonly() else ("_get_", "_set_")
    return [Operation(verb + name, [], None, [], False, one.line(), name, True)
            for name in one.identifiers() for verb in verbs]


def plain(value: object) -> object:
    """A value of a constant or a label: of an enumerator its name in its scope."""
    return tuple(value.scopedName()) if isinstance(value, idlast.Enumerator) else value


def unit_of(tree: object, is_partial: bool = False) -> Unit:
    """What a tree of omniidl says. Raises Refused; where it may be partial it says on standard error what it lacks."""
    reading = Reading(is_partial)
    reading.read(tree.declarations())
    if reading.faults and not is_partial:
        raise Refused(reading.faults)
    for line in reading.faults:
        warn(line)
    modules = [scope for scope, is_here in reading.modules.items() if is_here]
    return Unit(tree.file(), reading.whole(), modules)


CODES = {"float": "ULONG", "double": "ULONGLONG"}
OBJECT = "STRING ULONG OCTETS STRUCT 2 SEQUENCE STRUCT 2"


def codes(type: object) -> List[str]:
    """A type as the library's types: the ends of the names LR_TYPE_.., and numbers."""
    type = resolved(type)
    if isinstance(type, Basic):
        return [CODES.get(type.name, type.name.upper())]
    if isinstance(type, String):
        return ["STRING"]
    if isinstance(type, Reference):
        return OBJECT.split()
    if isinstance(type, Sequence):
        return ["OCTETS"] if resolved(type.member) == Basic("octet") else [*codes(type.member), "SEQUENCE"]
    if isinstance(type, Array):
        return [*codes(type.member) * type.size, "STRUCT", str(type.size)]
    if isinstance(type, Enum):
        return ["ENUM", str(len(type.names))]
    return [*(code for _, member in type.members for code in codes(member)), "STRUCT", str(len(type.members))]


def codes_of(types: List[Tuple[str, object]]) -> List[str]:
    """The same of several types, in C."""
    return [code if code.isdigit() else f"LR_TYPE_{code}" for _, type in types for code in codes(type)]


def first_value(union: Union, case: Case) -> object:
    """The discriminator by which a member of a union is set, as of a label: its first label, or the first value that is
    none of another member."""
    for label in case.labels:
        if label is not None:
            return label
    taken = {label for one in union.cases for label in one.labels}
    switch = resolved(union.switch)
    if isinstance(switch, Enum):
        return next((*switch.scope[:-1], name) for name in switch.names if (*switch.scope[:-1], name) not in taken)
    if switch == Basic("char"):
        return next(chr(number) for number in range(256) if chr(number) not in taken)
    return next(number for number in range(1 << 16) if number not in taken)
