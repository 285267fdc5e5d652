"""C11: FILE_idl.h and FILE_idl.c, and lemonrudder_idl.h and lemonrudder_idl.c, on which they stand.

Names are near the OMG's mapping to C: the operation o of the interface M::I is the stub M_I_o, the servant POA_M_I, and
a type of M is M_T. What is made of a name stands behind two underscores: M_T__free. A keyword begins by _c_.
"""
import os
import re
import textwrap
from typing import Dict, Iterable, Iterator, List, Set, Tuple

from . import model, to_cpp, to_types
from .macros import MACROS

KEYWORDS = to_cpp.KEYWORDS | MACROS | {"restrict", "typeof", "typeof_unqual"}
# what the headers declare by themselves that a declaration of no module could be called
TAKEN = to_cpp.NAMESPACES | set("""basename bcmp bcopy bzero ffs ffsl ffsll index locale_t max_align_t memccpy memchr
memcmp memcpy memfrob
memmem memmove mempcpy memrchr memset ptrdiff_t rawmemchr rindex self size_t stpcpy stpncpy strcasecmp strcasestr
strcat strchr strchrnul strcmp strcoll strcpy strcspn strdup strerror strfry strlen strncasecmp strncat strncmp
strncpy strndup strnlen strpbrk strrchr strsep strsignal strspn strstr strtok strverscmp strxfrm swab
wchar_t""".split())
OF_HEADERS = re.compile(r"u?int\w*_t|U?INT\w*_(MAX|MIN|C)|(SIZE|PTRDIFF|W?CHAR|WINT|SIG_ATOMIC)_M\w+|"
                        r"(?i:lr_\w*)|LEMONRUDDER_\w*")
VALUES = {"boolean": "bool", "char": "char", "octet": "uint8_t", "short": "int16_t", "ushort": "uint16_t",
          "long": "int32_t", "ulong": "uint32_t", "longlong": "int64_t", "ulonglong": "uint64_t", "float": "float",
          "double": "double"}
RUNTIME = ("lemonrudder_idl.h", "lemonrudder_idl.c")
HEAD = "/* Made of {file} by omniidl -blemonrudder -Wbc. Not to be changed by hand. */"
Types = List[Tuple[str, object]]
# the names of the file that stand outside of all others, which no parameter may hide
OUTER: Set[str] = set()


# ---- names ----

def identifier(name: str, *types: object) -> str:
    """The name of a member or a parameter, which is none of those of types beside it."""
    name = f"_c_{name}" if name in KEYWORDS or OF_HEADERS.fullmatch(name) else name
    others = names_in(types)
    while name in others:
        name = f"_c_{name}"
    return name


def flat(scope: Tuple[str, ...]) -> str:
    """The name of a declaration."""
    name = identifier("_".join(scope))
    return f"_c_{name}" if name in TAKEN else name


def names_in(types: Iterable[object]) -> Set[str]:
    """The names in C that types have."""
    found = set()
    for type in types:
        while isinstance(type, (model.Sequence, model.Array)):
            type = type.member
        found |= {flat(type.scope)} if isinstance(type, model.Declared) else set()
    return found


def poa(one: model.Interface) -> str:
    return "POA_" + "_".join(one.scope)


def stub_of(one: model.Interface, operation: model.Operation) -> str:
    return flat((*one.scope, operation.name))


def method_of(one: model.Interface, operation: model.Operation) -> str:
    """The name of an operation in the struct of a servant."""
    types = [type for each in one.all_operations for _, type in each.arguments]
    return "_c_self" if operation.name == "self" else identifier(operation.name, *types)


def enumerators(one: model.Enum) -> List[str]:
    """Its names, which stand in the scope around it."""
    return [flat((*one.scope[:-1], name)) for name in one.names]


def names_of(one: model.Declared) -> Iterator[str]:
    """The names that stand for a declaration."""
    ends = ["", "__type", "__get", "__put", "__copy", "__free", "__sequence"]
    if isinstance(one, model.Interface):
        ends = ["", "__id", "__interface"]
        yield from (poa(one), poa(one) + "__offer")
        for operation in one.all_operations:
            yield from (stub_of(one, operation) + end for end in ("", "__operation", "__answer"))
    if isinstance(one, model.Enum):
        yield from enumerators(one)
    if isinstance(one, model.Exceptional):
        ends += ["__id", "__exception", "__raise", "__of"]
    yield from (flat(one.scope) + end for end in (ends if not isinstance(one, model.Const) else [""]))


# ---- types and values ----

def own(type: object) -> str:
    """The name of a type that IDL has itself."""
    names = {model.String: "string", model.Reference: "reference", model.Any: "any"}
    return f"lr_idl_{type.name if isinstance(type, model.Basic) else names[type.__class__]}"


def sequence_of(member: object) -> str:
    """The type of sequences of a type."""
    if isinstance(member, model.Sequence):
        return sequence_of(member.member) + "__sequence"
    if isinstance(member, model.Declared):
        return flat(member.scope) + "__sequence"
    return own(member) + "__sequence"


def held(type: object) -> str:
    """What stands before the name of a variable of a type that is no array."""
    if isinstance(type, model.String):
        return "char *"
    if isinstance(type, model.Declared):
        return flat(type.scope) + " "
    if isinstance(type, model.Basic):
        return VALUES[type.name] + " "
    if isinstance(type, (model.Reference, model.Any)):
        return own(type) + " "
    return sequence_of(type.member) + " "


def declared(type: object, name: str) -> str:
    """A declaration of a variable of a type, or the type where the name is empty."""
    sizes = ""
    while isinstance(type, model.Array):
        type, sizes = type.member, f"{sizes}[{type.size}]"
    return f"{held(type)}{name}{sizes}".rstrip()


def is_array(type: object) -> bool:
    return isinstance(model.resolved(type), model.Array)


def is_plain(type: object) -> bool:
    """Whether values are handed in as they are, and not by a pointer."""
    return isinstance(model.resolved(type), (model.Basic, model.Enum, model.String))


def given(type: object, name: str) -> str:
    """The parameter by which a value is handed in. (Of an array of arrays it is not const: in C nothing else would go
    there without a warning.)"""
    if isinstance(model.resolved(type), model.String):
        return f"const char *{name}"
    if is_plain(type):
        return declared(type, name)
    if is_array(type):
        return ("" if is_array(model.resolved(type).member) else "const ") + declared(type, name)
    return "const " + declared(type, "*" + name)


def pointed(type: object, name: str) -> str:
    """A pointer to a value that was handed in."""
    return f"&{name}" if is_plain(type) else name


def taken(type: object, name: str) -> str:
    """The parameter by which a value is handed out."""
    return declared(type, name if is_array(type) else "*" + name)


def owns(type: object) -> bool:
    """Whether values own memory."""
    type = model.resolved(type)
    if isinstance(type, model.Array):
        return owns(type.member)
    if isinstance(type, (model.Struct, model.Exceptional)):
        return any(owns(member) for _, member in type.members)
    if isinstance(type, model.Union):
        return any(owns(case.type) for case in type.cases)
    return isinstance(type, (model.String, model.Sequence, model.Reference, model.Any))


def is_new(type: object) -> bool:
    """Whether a type is none that has a description by its name."""
    return isinstance(type, (model.Sequence, model.Array)) or isinstance(type, model.String) and type.bound > 0


def description(type: object) -> str:
    """How a type that is new is described, between braces."""
    if isinstance(type, model.String):
        return f"{{.kind = LR_IDL_STRING, .count = {type.bound}, .size = sizeof(char *)}}"
    kind, count = ("SEQUENCE", type.bound) if isinstance(type, model.Sequence) else ("ARRAY", type.size)
    counted = f".count = {count}, " if count else ""
    return (f"{{.kind = LR_IDL_{kind}, {counted}.size = sizeof({declared(type, '')}), "
            f".inner = {described(type.member)}}}")


def described(type: object) -> str:
    """A pointer to the description of a type."""
    if isinstance(type, model.Alias) and not is_new(type.type):
        return described(type.type)
    if is_new(type):
        return f"&(const lr_idl_type){description(type)}"
    if isinstance(type, model.Declared):
        return f"&{flat(type.scope)}__type"
    return f"&{own(type)}__type"


def literal(one: object, type: object) -> str:
    """A value of a constant."""
    type = model.resolved(type)
    if isinstance(one, tuple):
        return flat((*type.scope[:-1], one[-1]))
    if isinstance(type, model.String):
        return model.quoted(one)
    if isinstance(one, float):
        text = repr(one) if abs(one) < float("inf") else f"{'-' if one < 0 else ''}__builtin_huge_val()"
        return f"(float){text}" if type.name == "float" else text
    if type.name == "boolean":
        return "true" if one else "false"
    if type.name == "char":
        return f"(char){ord(one)}"
    if type.name == "longlong":
        return "INT64_MIN" if one == -1 << 63 else f"INT64_C({one})"
    return f"UINT64_C({one})" if type.name == "ulonglong" else f"UINT32_C({one})" if type.name == "ulong" else (
        "INT32_MIN" if one == -1 << 31 else str(one))


def wrapped(text: str, indent: str = "    ") -> List[str]:
    """A long line as several ones."""
    return textwrap.wrap(text, 120, subsequent_indent=indent, break_long_words=False, break_on_hyphens=False)


# ---- the header ----

def nested(type: object) -> List[model.Sequence]:
    """The sequences of sequences without a name in a type, innermost first."""
    if not isinstance(type, (model.Sequence, model.Array)):
        return []
    is_one = isinstance(type, model.Sequence) and isinstance(type.member, model.Sequence)
    return nested(type.member) + ([type] if is_one else [])


def sequences_for(types: Types) -> List[str]:
    """The types of sequences without a name, which more than one file may declare."""
    lines = []
    for type in (inner for _, one in types for inner in nested(one)):
        name = sequence_of(type.member)
        inner = sequence_of(type.member.member)
        lines += [f"#ifndef {name}__is", f"#define {name}__is",
                  f"typedef struct {{ uint32_t _length; {inner} *_buffer; }} {name};", "#endif"]
    return lines


def function(head: str, call: str) -> List[str]:
    """A function of one line, which may be long."""
    return [*wrapped(f"static inline {head} {{", "  " * 6), f"  {call};", "}"]


def sequence_for(name: str) -> List[str]:
    return [f"typedef struct {{ uint32_t _length; {name} *_buffer; }} {name}__sequence;"]


def forward(one: model.Forward) -> List[str]:
    """What is known of a struct or a union that is not whole yet."""
    name = flat(one.scope)
    return [f"typedef struct {name} {name};", *sequence_for(name), f"extern const lr_idl_type {name}__type;"]


def functions_of(one: model.Declared) -> List[str]:
    """What reads, writes, copies and frees values of a type."""
    name, type = flat(one.scope), described(one)
    lines = sequence_for(name) if not isinstance(one, model.Exceptional) and not one.has_forward else []
    if type == f"&{name}__type" and not one.has_forward:
        lines.append(f"extern const lr_idl_type {name}__type;")
    place = "size_t _size, lr_place *_place"
    lines += function(f"int64_t {name}__get(const void *_octets, {place}, {taken(one, '_value')})",
                      f"return lr_idl_get({type}, _octets, _size, _place, _value)")
    lines += function(f"int64_t {name}__put(void *_room, {place}, {given(one, '_value')})",
                      f"return lr_idl_put({type}, _room, _size, _place, {pointed(one, '_value')})")
    if owns(one):
        lines += function(f"int64_t {name}__copy({given(one, '_from')}, {taken(one, '_to')})",
                          f"return lr_idl_copy({type}, {pointed(one, '_from')}, _to)")
        lines += function(f"void {name}__free({taken(one, '_value')})", f"lr_idl_free({type}, _value)")
    return lines


def member(one: model.Declared, name: str) -> str:
    """The name of a member of a struct, an exception or a union."""
    if isinstance(one, model.Union):
        return identifier(name, one.switch, *(case.type for case in one.cases))
    return identifier(name, *(type for _, type in one.members))


def struct_of(name: str, lines: List[str], has_forward: bool = False) -> List[str]:
    before, after = ("", "") if has_forward else ("typedef ", f" {name}")
    return [f"{before}struct {name} {{", *(f"  {line};" for line in lines), f"}}{after};"]


def struct(one: model.Declared) -> List[str]:
    """A struct, or the members of an exception."""
    members = [declared(type, member(one, name)) for name, type in one.members] or ["char _none"]
    return [*sequences_for(one.members), *struct_of(flat(one.scope), members, one.has_forward),
            *functions_of(one)]


def exception(one: model.Exceptional) -> List[str]:
    name = flat(one.scope)
    return [f"#define {name}__id {model.quoted(one.id)}", *struct(one),
            f"extern const lr_idl_exception {name}__exception;",
            "/* Answers a call by it; and the members, if it is what was raised. */",
            *function(f"int64_t {name}__raise(const lr_idl_call *_call, const {name} *_members)",
                      f"return lr_idl_raise(_call, &{name}__exception, _members)"),
            *function(f"const {name} *{name}__of(const lr_idl_raised *_raised)",
                      f"return _raised->exception == &{name}__exception ? (const {name} *)_raised->members : NULL")]


def union(one: model.Union) -> List[str]:
    members = [f"  {declared(case.type, member(one, case.name))};" for case in one.cases]
    inner = "\n".join(["union {", *(f"  {line}" for line in members), "  } _u"])
    cases = [(case.name, case.type) for case in one.cases]
    return [*sequences_for(cases), *struct_of(flat(one.scope), [declared(one.switch, "_d"), inner], one.has_forward),
            *functions_of(one)]


def enum(one: model.Enum) -> List[str]:
    name = flat(one.scope)
    return [*wrapped(f"typedef enum {name} {{ {', '.join(enumerators(one))} }} {name};"), *functions_of(one)]


def alias(one: model.Alias) -> List[str]:
    return [*sequences_for([("", one.type)]), f"typedef {declared(one.type, flat(one.scope))};", *functions_of(one)]


def const(one: model.Const) -> List[str]:
    """A constant: a number that an int can hold may be the size of an array."""
    name, value, type = flat(one.scope), literal(one.value, one.type), model.resolved(one.type)
    if isinstance(type, model.String):
        return [f"static const char {name}[] = {value};"]
    if isinstance(one.value, int) and type != model.Basic("boolean") and abs(one.value) < 1 << 31:
        return [f"enum {{ {name} = {one.value} }};"]
    return [f"static const {declared(one.type, name)} = {value};"]


def parameter(operation: model.Operation, name: str) -> str:
    """The name of a parameter, or of the result, whose name is empty."""
    name = identifier(name)
    while name in OUTER:
        name = f"_c_{name}"
    return name or "_result"


def parameters(operation: model.Operation) -> List[str]:
    """The arguments as a servant is given them."""
    if operation.is_octets:
        return ["const lr_idl_body *_body"]
    return [given(type, parameter(operation, name)) for name, type in operation.arguments]


def stub_head(one: model.Interface, operation: model.Operation) -> str:
    found = [f"{flat(one.scope)} _object"]
    if operation.is_octets:
        found += ["const lr_idl_body *_body", *([] if operation.is_oneway else ["lr_idl_body *_result"])]
    for how, name, type in operation.parameters:
        found.append((given if how == "in" else taken)(type, parameter(operation, name)))
    found += [taken(operation.result, "_result")] if operation.result is not None else []
    return f"int64_t {stub_of(one, operation)}({', '.join([*found, 'lr_idl_raised *_raised'])})"


def has_body(operation: model.Operation) -> bool:
    """Whether the results are octets."""
    return operation.is_octets and not operation.is_oneway


def results(operation: model.Operation) -> List[Tuple[str, object]]:
    """The results by their names in C."""
    return [(parameter(operation, name), type) for name, type in operation.results]


def answer_head(one: model.Interface, operation: model.Operation) -> str:
    found = ["const lr_idl_call *_call", *(given(type, name) for name, type in results(operation))]
    found += ["const lr_idl_body *_result"] if has_body(operation) else []
    return f"int64_t {stub_of(one, operation)}__answer({', '.join(found)})"


def servant_struct(one: model.Interface) -> List[str]:
    lines = ["void *self"]
    for operation in one.all_operations:
        words = ", ".join(["void *_self", "const lr_idl_call *_call", *parameters(operation)])
        lines.append("\n".join(wrapped(f"int64_t (*{method_of(one, operation)})({words})")))
    return struct_of(poa(one), lines)


def interface(one: model.Interface) -> List[str]:
    """The stub and the servant of an interface."""
    name = flat(one.scope)
    lines = [f"#define {name}__id {model.quoted(one.id)}", f"typedef lr_idl_object {name};",
             f"extern const lr_idl_interface {name}__interface;"]
    for operation in one.operations:
        raises = ", ".join(flat(raised.scope) for raised in operation.raises)
        lines += ["", *([f"/* Raises {raises}. */"] if raises else []), *wrapped(stub_head(one, operation) + ";"),
                  *wrapped(answer_head(one, operation) + ";"),
                  f"extern const lr_idl_operation {stub_of(one, operation)}__operation;"]
    for base in reversed(one.all_bases):
        for operation in base.operations:
            lines += [f"#define {stub_of(one, operation)}{end} {stub_of(base, operation)}{end}"
                      for end in ("", "__answer", "__operation")]
    offer = f"lr_idl_offer _offer = {{_key, _key_size, &{name}__interface, _servant, 0}}"
    return [*lines, "", *servant_struct(one), "/* A servant under a key, for lr_idl_add and lr_idl_perform. */",
            *function(f"lr_idl_offer {poa(one)}__offer(const {poa(one)} *_servant, const void *_key, size_t _key_size)",
                      f"{offer};\n  return _offer")]


# ---- the source ----

def member_of(owner: str, path: str, type: object, label: str = "0, false") -> str:
    return f"    {{{described(type)}, offsetof({owner}, {path}), {label}}},"


def struct_description(one: model.Declared) -> List[str]:
    name = flat(one.scope)
    members = [member_of(name, member(one, inner), type) for inner, type in one.members]
    listed = [f"static const lr_idl_member {name}__members[] = {{", *members, "};"] if members else []
    listing = f"{name}__members" if members else "NULL"
    return [*listed, f"const lr_idl_type {name}__type = {{",
            f"    LR_IDL_STRUCT, {len(members)}, sizeof({name}), NULL, {listing}}};"]


def union_description(one: model.Union) -> List[str]:
    name, members = flat(one.scope), []
    for case in one.cases:
        for label in case.labels:
            number = 0 if label is None else to_types.label(label, one.switch) % (1 << 64)
            members.append(member_of(name, f"_u.{member(one, case.name)}", case.type,
                                     f"UINT64_C({number}), {str(label is None).lower()}"))
    return [f"static const lr_idl_member {name}__members[] = {{", *members, "};",
            f"const lr_idl_type {name}__type = {{",
            f"    LR_IDL_UNION, {len(members)}, sizeof({name}), {described(one.switch)}, {name}__members}};"]


def exception_description(one: model.Exceptional) -> List[str]:
    name = flat(one.scope)
    is_spelled = all(model.can_spell(type) for _, type in one.members)
    return [*struct_description(one), f"const lr_idl_exception {name}__exception = {{",
            *wrapped(f"    {name}__id, &{name}__type, {codes(one.members if is_spelled else [])}}};")]


def enum_description(one: model.Enum) -> List[str]:
    name = flat(one.scope)
    return [f'_Static_assert(sizeof({name}) == sizeof(uint32_t), "an enum has 32 bits");',
            f"const lr_idl_type {name}__type = {{LR_IDL_ENUM, {len(one.names)}, sizeof({name}), NULL, NULL}};"]


def codes(types: Types) -> str:
    """Types as the library spells them, and how many octets these are."""
    found = model.codes_of(types)
    return f"(const uint8_t[]){{{', '.join(found)}}}, {len(found)}" if found else "NULL, 0"


def types_of(types: Types, is_raw: bool) -> List[str]:
    found = ", ".join(described(type) for _, type in types)
    listed = f"(const lr_idl_type *const[]){{{found}}}" if found else "NULL"
    return wrapped(f"    {{{len(types)}, {listed}, {codes([] if is_raw else types)}}},")


def types_of_octets(is_there: bool) -> List[str]:
    types = "1, (const lr_idl_type *const[]){&lr_idl_body__type}" if is_there else "0, NULL"
    return [f"    {{{types}, NULL, 0}},"]


def operation_description(name: str, operation: model.Operation) -> List[str]:
    is_raw = model.is_raw(operation)
    raised = ", ".join(f"&{flat(one.scope)}__exception" for one in operation.raises)
    raises = f"(const lr_idl_exception *const[]){{{raised}}}" if raised else "NULL"
    flags = f"{str(is_raw).lower()}, {str(operation.is_oneway).lower()}"
    if operation.is_octets:
        return [f'const lr_idl_operation {name}__operation = {{', f'    "{operation.name}", {flags},',
                *types_of_octets(True), *types_of_octets(has_body(operation)), "    0, NULL};"]
    return [f'const lr_idl_operation {name}__operation = {{', f'    "{operation.name}", {flags},',
            *types_of(operation.arguments, is_raw), *types_of(operation.results, is_raw),
            *wrapped(f"    {len(operation.raises)}, {raises}}};")]


def pointers(how: str, name: str, words: List[str]) -> Tuple[List[str], str]:
    """An array of pointers, and what names it."""
    return (wrapped(f"  {how} {name}[] = {{{', '.join(words)}}};"), name) if words else ([], "NULL")


def stub(one: model.Interface, operation: model.Operation) -> List[str]:
    name = stub_of(one, operation)
    outs = {parameter(operation, inner) for inner, _ in operation.outs}
    ins = [inner if inner in outs else pointed(type, inner)
           for inner, type in ((parameter(operation, name), type) for name, type in operation.arguments)]
    ins, out = (["_body"], ["_result"] * has_body(operation)) if operation.is_octets else (
        ins, [inner for inner, _ in results(operation)])
    lines, arguments = pointers("const void *const", "_in", ins)
    more, places = pointers("void *const", "_out", out)
    return [*wrapped(stub_head(one, operation) + " {"), *lines, *more,
            f"  return lr_idl_invoke(&_object, &{name}__operation, {arguments}, {places}, _raised);", "}", ""]


def answer(one: model.Interface, operation: model.Operation) -> List[str]:
    values = ["_result"] if has_body(operation) else [pointed(type, name) for name, type in results(operation)]
    lines, places = pointers("const void *const", "_out", values)
    return [*wrapped(answer_head(one, operation) + " {"), *lines,
            f"  return lr_idl_answer(_call, &{stub_of(one, operation)}__operation, {places});", "}", ""]


def argument(type: object, index: int) -> str:
    """An argument as a servant is given it."""
    if is_plain(type) or is_array(type):
        return f"*({declared(type, '*')})_in[{index}]"
    return f"({declared(type, '*')})_in[{index}]"


def performer(one: model.Interface, operation: model.Operation) -> List[str]:
    """How a servant's function is called."""
    method, words = method_of(one, operation), ["_own->self", "_call"]
    words += [argument(type, index) for index, (_, type) in enumerate(operation.arguments)]
    words += ["(const lr_idl_body *)_in[0]"] if operation.is_octets else []
    unused = [] if operation.arguments or operation.is_octets else ["  (void)_in;"]
    head = f"static int64_t {poa(one)}__perform_{operation.name}"
    return [*wrapped(f"{head}(const void *_servant, const lr_idl_call *_call, void *const *_in) {{"), *unused,
            f"  const {poa(one)} *_own = (const {poa(one)} *)_servant;",
            f"  if (_own->{method} == NULL) return lr_idl_lacking(_call);",
            *wrapped(f"  return _own->{method}({', '.join(words)});", " " * 6), "}", ""]


def interface_description(one: model.Interface) -> List[str]:
    lines = []
    for operation in one.operations:
        lines += [*operation_description(stub_of(one, operation), operation), "", *stub(one, operation),
                  *answer(one, operation)]
    methods = []
    for operation in one.all_operations:
        lines += performer(one, operation)
        methods.append(f"    {{&{stub_of(one, operation)}__operation, {poa(one)}__perform_{operation.name}}},")
    name, listed = flat(one.scope), f"{poa(one)}__methods" if methods else "NULL"
    lines += [f"static const lr_idl_method {listed}[] = {{", *methods, "};"] if methods else []
    ids = [each.id for each in (one, *one.all_bases)]
    return [*lines, f"const lr_idl_interface {name}__interface = {{",
            "\n".join(f"    {model.quoted(id)} {model.quoted(chr(0))}" for id in ids) + ",",
            f"    {sum(len(id) + 1 for id in ids)}, {listed}, {len(methods)}}};"]


# ---- the files ----

DECLARING = {model.Forward: forward, model.Const: const, model.Alias: alias, model.Enum: enum, model.Struct: struct,
             model.Exceptional: exception, model.Union: union, model.Interface: interface}
DESCRIBING = {model.Enum: enum_description, model.Struct: struct_description, model.Exceptional: exception_description,
              model.Union: union_description, model.Interface: interface_description}


def alias_description(one: model.Alias) -> List[str]:
    return wrapped(f"const lr_idl_type {flat(one.scope)}__type = {description(one.type)};")


def describing(one: model.Declared) -> List[str]:
    """The lines of a declaration in the source."""
    if isinstance(one, model.Alias):
        return alias_description(one) if is_new(one.type) else []
    return DESCRIBING[type(one)](one) if type(one) in DESCRIBING else []


def header_name(base: str) -> str:
    return re.sub(r"\W", "_", base) + "_idl.h"


def header(unit: model.Unit) -> str:
    guard = header_name(unit.base).upper().replace(".", "_")
    lines = [HEAD.format(file=os.path.basename(unit.file)), f"#ifndef {guard}", f"#define {guard}", "",
             '#include "lemonrudder_idl.h"', *(f'#include "{header_name(other)}"' for other in unit.used_files), "",
             model.IS_VERSION, "",
             "#ifdef __cplusplus", 'extern "C" {', "#endif", ""]
    for one in unit.here:
        lines += [f"/* ---- {one.idl} ---- */", *DECLARING[type(one)](one), ""]
    return "\n".join([*lines, "#ifdef __cplusplus", "}", "#endif", "", "#endif", ""])


def source(unit: model.Unit) -> str:
    lines = [HEAD.format(file=os.path.basename(unit.file)), f'#include "{header_name(unit.base)}"', ""]
    for one in unit.here:
        found = describing(one)
        lines += [f"/* ---- {one.idl} ---- */", *found, ""] if found else []
    return "\n".join(lines)


def files_of(unit: model.Unit) -> Dict[str, str]:
    names = model.Names("C")
    for one in unit.whole:
        for name in names_of(one):
            names.take(name, one)
    OUTER.clear()
    OUTER.update(names.taken)
    made = header_name(unit.base)
    found = {made: header(unit), made[:-1] + "c": source(unit)}
    for name in RUNTIME:
        with open(os.path.join(os.path.dirname(__file__), name), encoding="ascii") as file:
            found[name] = file.read()
    return found
