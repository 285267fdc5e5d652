"""C++17: FILE_idl.hpp, and lemonrudder_idl.hpp, on which it stands.

Names are near the OMG's mappings: a module is a namespace, the interface M::I is the stub M::I with the types of its
scope, and its servant POA_M::I; a name that is a keyword begins by _cxx_.
"""
import os
import re
from typing import Dict, List, Tuple

from . import model
from .macros import MACROS

KEYWORDS = set("""alignas alignof and and_eq asm auto bitand bitor bool break case catch char char16_t char32_t char8_t
class co_await co_return co_yield compl concept const const_cast consteval constexpr constinit continue decltype default
delete do double dynamic_cast else enum explicit export extern false float for friend goto if inline int long mutable
namespace new noexcept not not_eq nullptr operator or or_eq private protected public register reinterpret_cast requires
return short signed sizeof static static_assert static_cast struct switch template this thread_local throw true try
typedef typeid typename union unsigned using virtual void volatile wchar_t while xor xor_eq""".split())
VALUES = {"boolean": "bool", "char": "char", "octet": "std::uint8_t", "short": "std::int16_t",
          "ushort": "std::uint16_t", "long": "std::int32_t", "ulong": "std::uint32_t", "longlong": "std::int64_t",
          "ulonglong": "std::uint64_t", "float": "float", "double": "double"}
CODECS = {"boolean": "Boolean", "char": "Char", "octet": "Octet", "short": "Short", "ushort": "UShort", "long": "Long",
          "ulong": "ULong", "longlong": "LongLong", "ulonglong": "ULongLong", "float": "Float", "double": "Double"}
LR, IDL = "::lemonrudder::", "::lemonrudder::idl::"
HEAD = """/* Made of {file} by omniidl -blemonrudder -Wbcpp. Not to be changed by hand. */
#ifndef {guard}
#define {guard}

#include "lemonrudder_idl.hpp"
{includes}
{version}
"""
# what would hide the namespaces that what is made stands on
NAMESPACES = {"std", "lemonrudder"}


def identifier(name: str) -> str:
    is_taken = name in KEYWORDS or name in NAMESPACES or name in MACROS or re.fullmatch(r"LR_\w+|LEMONRUDDER_\w*", name)
    return f"_cxx_{name}" if is_taken else name


def path(scope: Tuple[str, ...]) -> str:
    """The name of a declaration, from the outermost on."""
    return "::" + "::".join(map(identifier, scope))


def value(type: object) -> str:
    """The type of values."""
    if isinstance(type, model.Declared):
        return path(type.scope)
    if isinstance(type, model.Basic):
        return VALUES[type.name]
    if isinstance(type, model.String):
        return "std::string"
    if isinstance(type, model.Reference):
        return f"{IDL}ObjectReference"
    if isinstance(type, model.Any):
        return f"{IDL}Any"
    if isinstance(type, model.Sequence):
        return f"std::vector<{value(type.member)}>"
    return f"std::array<{value(type.member)}, {type.size}>"


def codec(type: object) -> str:
    """What reads and writes values of a type."""
    type = model.resolved(type)
    if isinstance(type, model.Enum):
        return f"{IDL}Enumeration<{path(type.scope)}, {len(type.names)}>"
    if isinstance(type, model.Declared):
        return f"{IDL}Own<{path(type.scope)}>"
    if isinstance(type, model.Basic):
        return f"{IDL}{CODECS[type.name]}"
    if isinstance(type, model.String):
        return f"{IDL}String<{type.bound or ''}>"
    if isinstance(type, model.Reference):
        return f"{IDL}Own<{IDL}ObjectReference>"
    if isinstance(type, model.Any):
        return f"{IDL}Own<{IDL}Any>"
    if isinstance(type, model.Sequence):
        return f"{IDL}Sequence<{codec(type.member)}{f', {type.bound}' if type.bound else ''}>"
    return f"{IDL}Array<{codec(type.member)}, {type.size}>"


def parameter(type: object) -> str:
    """How a value is handed in."""
    plain = isinstance(model.resolved(type), (model.Basic, model.Enum))
    return value(type) if plain else f"const {value(type)}&"


def literal(one: object, type: object) -> str:
    """A value of a constant or a label."""
    type = model.resolved(type)
    if isinstance(one, tuple):
        return f"{path(type.scope)}::{identifier(one[-1])}"
    if isinstance(type, model.String):
        return model.quoted(one)
    if type == model.Basic("char"):
        return f"static_cast<char>({ord(one)})"
    if type == model.Basic("boolean"):
        return "true" if one else "false"
    if isinstance(one, float):
        return repr(one) if abs(one) < float("inf") else f"{'-' if one < 0 else ''}HUGE_VAL"
    if type == model.Basic("longlong"):
        return "INT64_MIN" if one == -1 << 63 else f"INT64_C({one})"
    return f"UINT64_C({one})" if type == model.Basic("ulonglong") else f"static_cast<{VALUES[type.name]}>({one})"


def indented(lines: List[str]) -> List[str]:
    return [f"  {line}" if line else line for line in lines]


def inner_of(one: model.Declared, unit: model.Unit) -> List[str]:
    """What stands in the scope of a declaration."""
    lines: List[str] = []
    for other in unit.declarations:
        if other.scope[:-1] == one.scope:
            lines += body_of(other, unit, True)
    return lines


def members_of(one: model.Declared) -> List[str]:
    """The members of a struct or an exception, and how these are read and written."""
    name, fields = identifier(one.name), [(identifier(member), type) for member, type in one.members]
    lines = [f"{value(type)} {member}{{}};" for member, type in fields]
    if fields and isinstance(one, model.Struct):
        same = " && ".join(f"_one.{member} == _two.{member}" for member, _ in fields)
        lines += ["", f"friend bool operator==(const {name}& _one, const {name}& _two) {{", f"  return {same};", "}"]
    for verb, head in (("read", f"{LR}Reader& _in, {name}& _one"),
                       ("write", f"{LR}GrowingWriter& _out, const {name}& _one")):
        if not fields:
            head = re.sub(r" \w+(,|$)", r"\1", head)
        lines += ["", f"static {LR}Done _{verb}({head}) {{"]
        for index, (member, type) in enumerate(fields):
            call = f"{codec(type)}::{verb}({'_in' if verb == 'read' else '_out'}, _one.{member})"
            if verb == "write":
                call = f'_out.within("{one.members[index][0]}", {call})'
            lines.append(f"  {LR}Done done = {call};" if index == 0 else f"  if (done) done = {call};")
        lines += ["  return done;" if fields else "  return {};", "}"]
    return lines


def struct(one: model.Declared, unit: model.Unit) -> List[str]:
    lines = inner_of(one, unit)
    if isinstance(one, model.Exceptional):
        lines.append(f'static constexpr const char* _id = "{one.id}";')
    return [f"struct {identifier(one.name)} {{", *indented(lines + members_of(one)), "};", ""]


def enum(one: model.Enum) -> List[str]:
    names = ", ".join(map(identifier, one.names))
    return [f"enum class {identifier(one.name)} : std::uint32_t {{ {names} }};", ""]


def index_of(one: model.Union) -> List[str]:
    """Which member a discriminator selects, counted from 1; 0: none."""
    lines, default = [], 0
    for number, case in enumerate(one.cases, 1):
        labels = [label for label in case.labels if label is not None]
        default = number if None in case.labels else default
        if labels and None not in case.labels:
            test = " || ".join(f"label == {literal(label, one.switch)}" for label in labels)
            lines.append(f"  if ({test}) return {number};")
    return [f"static std::size_t _index([[maybe_unused]] {value(one.switch)} label) {{", *lines, f"  return {default};",
            "}"]


def union(one: model.Union, unit: model.Unit) -> List[str]:
    name, switch = identifier(one.name), value(one.switch)
    first = literal(model.first_value(one, one.cases[0]), one.switch)
    lines = [*inner_of(one, unit), f"{name}() {{ _d({first}); }}", "",
             "/* The discriminator; a new one comes with a new value of its member, if it selects another one. */",
             f"{switch} _d() const noexcept {{ return _label; }}", f"void _d({switch} label) {{",
             "  _label = label;", "  if (_value.index() == _index(label)) return;", "  switch (_index(label)) {"]
    lines += [f"    case {number}: _value.emplace<{number}>(); break;" for number in range(1, len(one.cases) + 1)]
    lines += ["    default: _value.emplace<0>();", "  }", "}",
              "/* A member, if it is the one that the discriminator selects; and what sets both. */"]
    for number, case in enumerate(one.cases, 1):
        member, held = identifier(case.name), value(case.type)
        lines += [f"const {held}* {member}() const noexcept {{ return std::get_if<{number}>(&_value); }}",
                  f"void {member}({held} value) {{",
                  f"  _label = {literal(model.first_value(one, case), one.switch)};",
                  f"  _value.emplace<{number}>(std::move(value));", "}"]
    lines += ["", f"friend bool operator==(const {name}& _one, const {name}& _two) {{",
              "  return _one._label == _two._label && _one._value == _two._value;", "}", "",
              f"static {LR}Done _read({LR}Reader& _in, {name}& _one) {{", f"  {switch} label{{}};",
              f"  {LR}Done done = {codec(one.switch)}::read(_in, label);", "  if (!done) return done;",
              "  _one._d(label);", "  switch (_one._value.index()) {"]
    lines += [f"    case {number}: done = {codec(case.type)}::read(_in, *std::get_if<{number}>(&_one._value)); break;"
              for number, case in enumerate(one.cases, 1)]
    lines += ["    default: break;", "  }", "  return done;", "}", "",
              f"static {LR}Done _write({LR}GrowingWriter& _out, const {name}& _one) {{",
              f"  const {LR}Done done = {codec(one.switch)}::write(_out, _one._label);", "  if (!done) return done;",
              "  switch (_one._value.index()) {"]
    lines += [f'    case {number}: return _out.within("{case.name}", {codec(case.type)}::write(_out, '
              f"*std::get_if<{number}>(&_one._value)));" for number, case in enumerate(one.cases, 1)]
    types = ", ".join(["std::monostate", *(value(case.type) for case in one.cases)])
    lines += ["    default: return done;", "  }", "}"]
    hidden = [*index_of(one), "", f"{switch} _label{{}};", f"std::variant<{types}> _value;"]
    return [f"class {name} {{", " public:", *indented(lines), "", " private:", *indented(hidden), "};", ""]


def const(one: model.Const, is_inner: bool) -> List[str]:
    type = "char*" if isinstance(model.resolved(one.type), model.String) else value(one.type)
    const_ = "const " if type == "char*" else ""
    return [f"{'static' if is_inner else 'inline'} constexpr {const_}{type} {identifier(one.name)} = "
            f"{literal(one.value, one.type)};", ""]


def list_of(types: List[Tuple[str, object]]) -> str:
    return ", ".join(codec(type) for _, type in types)


def traits(operation: model.Operation) -> List[str]:
    """What the templates know of an operation."""
    raises = ", ".join(path(one.scope) for one in operation.raises)
    results = ", ".join(value(type) for _, type in operation.results)
    codes = model.codes_of(operation.arguments) if not model.is_raw(operation) else []
    held = f"{IDL}ResultOf<{results}>"
    outcome = f"{IDL}Outcome<{held}::type{f', {raises}' if raises else ''}>"
    return [f"struct {identifier(operation.name)} {{",
            f'  static constexpr const char* _name = "{operation.name}";',
            f"  static constexpr bool _is_raw = {str(model.is_raw(operation)).lower()};",
            f"  static constexpr bool _is_oneway = {str(operation.is_oneway).lower()};",
            f"  using _arguments = {IDL}Codecs<{list_of(operation.arguments)}>;",
            f"  using _results = {IDL}Codecs<{list_of(operation.results)}>;",
            f"  using _raises = {IDL}Raises<{raises}>;",
            f"  using _outcome = {outcome};",
            f"  static constexpr std::array<std::uint8_t, {len(codes)}> _types{{{', '.join(codes)}}};",
            f"  static constexpr std::array<const char*, {len(operation.arguments)}> _parameters{{"
            f"{', '.join(model.quoted(name) for name, _ in operation.arguments)}}};",
            f"  static _outcome _result(_results::Values values) {{ return {{{held}::of(std::move(values))}}; }}", "};"]


def method_of(operation: model.Operation) -> str:
    """The method for an operation: of an attribute its name, but where it has no types."""
    return identifier(operation.name if operation.is_octets else operation.attribute or operation.name)


def parameters(operation: model.Operation) -> List[str]:
    return [f"{parameter(type)} {identifier(name)}" for name, type in operation.arguments]


def stub(one: model.Interface, unit: model.Unit) -> List[str]:
    name = identifier(one.name)
    lines = [f'static constexpr const char* _id = "{one.id}";', *inner_of(one, unit), "struct _ops {"]
    for operation in one.operations:
        lines += indented(traits(operation)) if not operation.is_octets else []
    # (all bases are virtual)
    bases = "".join(f", {path(base.scope)}(caller)" for base in one.constructed)
    keyed = "".join(f", {path(base.scope)}(caller, key)" for base in one.constructed)
    lines += ["};", "", f"explicit {name}({IDL}Caller& caller) : {IDL}Stub(caller){bases} {{}}",
              f"{name}({IDL}Caller& caller, {LR}Octets key) : {IDL}Stub(caller, key){keyed} {{}}"]
    for operation in one.operations:
        if operation.is_octets:
            lines += stub_of_octets(operation)
            continue
        ops, names = f"_ops::{identifier(operation.name)}", [identifier(inner) for inner, _ in operation.arguments]
        lines += [f"{ops}::_outcome {method_of(operation)}({', '.join(parameters(operation))}) const {{",
                  f"  return _call<{ops}>({', '.join(names)});", "}"]
    heads = ", ".join(f"public virtual {path(base.scope)}" for base in one.bases) or f"public virtual {IDL}Stub"
    return [f"class {name} : {heads} {{", " public:", *indented(lines), "};", ""]


def stub_of_octets(operation: model.Operation) -> List[str]:
    """The method for an operation without types."""
    return [f"{LR}Result<{IDL}Reply> {method_of(operation)}(const {LR}GrowingWriter& body) const {{",
            f'  return _call_octets("{operation.name}", {str(operation.is_oneway).lower()}, body);', "}"]


def poa(scope: Tuple[str, ...]) -> str:
    first, *rest = scope
    return "::" + "::".join([f"POA_{first}", *map(identifier, rest)])


def names_of_stub(one: model.Interface, unit: model.Unit) -> List[str]:
    """The names in the scope of an interface: in a servant its own name is that of the servant's class."""
    lines = [f"using _ops = {path(one.scope)}::_ops;"]
    return lines + [f"using {identifier(other.name)} = {path(other.scope)};" for other in unit.whole
                    if other.scope[:-1] == one.scope and not isinstance(other, model.Const)]


def servant(one: model.Interface, unit: model.Unit) -> List[str]:
    """The servant of an interface, and how it is put on offer."""
    whole = poa(one.scope)
    lines = names_of_stub(one, unit)
    for operation in one.operations:
        asked = f"{IDL}Asking<{path(one.scope)}::_ops::{identifier(operation.name)}>"
        asking = f"{LR}Asked& _call" if operation.is_octets else f"{asked}& _call"
        lines.append(f"virtual {LR}Done {method_of(operation)}({', '.join([asking, *parameters(operation)])}) = 0;")
    ids = ", ".join(f"{path(each.scope)}::_id" for each in (one, *one.all_bases))
    lines += ["", "/* Puts it on offer under a key, also while the loop serves; loop.remove(key) takes it away. */",
              f"{LR}Done _offer({LR}Loop& loop, {LR}Octets key) {{", f"  {LR}Done done = loop.object(key, {{{ids}}});",
              f"  return done ? _offer_operations(loop, key, {IDL}always(this)) : done;", "}",
              "/* Puts those on offer whose keys begin so, before the loop is opened: the servant of a key, or null",
              " * where there is no such object. */",
              f"static {LR}Done _offer_family({LR}Loop& loop, {LR}Octets prefix,",
              f"    std::function<{whole}*({LR}Octets)> servant_of) {{",
              f"  {LR}Done done = loop.family(prefix, {{{ids}}},",
              f"      [servant_of]({LR}Octets key) {{ return servant_of(key) != nullptr; }});",
              "  return done ? _offer_operations(loop, prefix, servant_of) : done;", "}", "", "protected:",
              *offering("_offer_own", whole)]
    for operation in one.operations:
        lines += indented(offered(one, operation, whole))
    lines += ["  return done;", "}", "", "private:", *offering("_offer_operations", whole)]
    lines += [f"  if (done) done = {poa(base.scope)}::_offer_own(loop, key, servant_of);" for base in one.constructed]
    lines += ["  if (done) done = _offer_own(loop, key, servant_of);", "  return done;", "}"]
    heads = ", ".join(f"public virtual {poa(base.scope)}" for base in one.bases) or f"public virtual {IDL}Servant"
    return [f"class {whole.rpartition('::')[2]} : {heads} {{", " public:", *indented(lines), "};", ""]


def offering(function: str, name: str) -> List[str]:
    """The head of a function that puts operations of a servant on offer, whose whole name no parameter hides."""
    return [f"static {LR}Done {function}([[maybe_unused]] {LR}Loop& loop, [[maybe_unused]] {LR}Octets key,",
            f"    [[maybe_unused]] const std::function<{name}*({LR}Octets)>& servant_of) {{", f"  {LR}Done done;"]


def offered(interface: model.Interface, operation: model.Operation, name: str) -> List[str]:
    """The lines that put an operation of a servant of this name on offer."""
    lines = []
    if operation.is_octets:
        return [f'if (done) done = loop.raw_operation(key, "{operation.name}", [servant_of]({LR}Asked& call) {{',
                "  auto* const servant = servant_of(call.key());",
                f"  return servant != nullptr ? servant->{method_of(operation)}(call)",
                f"                            : call.refuse({LR}SystemException::object_not_exist);", "});"]
    if not model.is_raw(operation):
        for raised in operation.raises:
            codes = ", ".join(model.codes_of(raised.members))
            lines.append(f"if (done) done = loop.exception({path(raised.scope)}::_id, {{{codes}}});")
    types = "" if model.is_raw(operation) else "".join(
        f", {{{', '.join(model.codes_of(types))}}}" for types in (operation.arguments, operation.results))
    call = "raw_operation" if model.is_raw(operation) else "operation"
    ops = f"{path(interface.scope)}::_ops::{identifier(operation.name)}"
    return [*lines, "if (done)", f'  done = loop.{call}(key, "{operation.name}"{types},',
            f"      {IDL}performer<{ops}, {name}>(servant_of, [](auto& servant, auto& call, const auto&... one) {{",
            f"        return servant.{method_of(operation)}(call, one...);", "      }));"]


def body_of(one: model.Declared, unit: model.Unit, is_inner: bool) -> List[str]:
    """The lines of a declaration, but for a servant."""
    if isinstance(one, model.Const):
        return const(one, is_inner)
    if isinstance(one, model.Alias):
        return [f"using {identifier(one.name)} = {value(one.type)};", ""]
    if isinstance(one, model.Enum):
        return enum(one)
    if isinstance(one, model.Union):
        return union(one, unit)
    if isinstance(one, model.Interface):
        return stub(one, unit)
    if isinstance(one, model.Forward):
        return [f"{'struct' if isinstance(one.of, model.Struct) else 'class'} {identifier(one.name)};", ""]
    return struct(one, unit)


def within(scope: Tuple[str, ...], prefix: str, lines: List[str]) -> List[str]:
    """Lines in the namespaces of a scope."""
    if not scope:
        return lines
    names = [prefix + scope[0] if prefix else identifier(scope[0]), *map(identifier, scope[1:])]
    opened = "::".join(names)
    return [f"namespace {opened} {{", "", *lines, f"}}  // namespace {opened}", ""]


def check(unit: model.Unit) -> None:
    """Raises Refused where two names of the file would be one."""
    names = model.Names("C++")
    for one in unit.whole:
        names.take(path(one.scope), one)
        if isinstance(one, model.Interface):
            names.take(poa(one.scope), one)


def header_name(base: str) -> str:
    return re.sub(r"\W", "_", base) + "_idl.hpp"


def files_of(unit: model.Unit) -> Dict[str, str]:
    check(unit)
    made = header_name(unit.base)
    guard = made.upper().replace(".", "_")
    includes = "".join(f'#include "{header_name(other)}"\n' for other in unit.used_files)
    lines = [HEAD.format(file=os.path.basename(unit.file), guard=guard, includes=includes, version=model.IS_VERSION)]
    types = (model.Interface, model.Struct, model.Union, model.Exceptional)
    holders = {one.scope for one in unit.declarations if isinstance(one, types)}
    for one in unit.here:
        if one.scope[:-1] in holders:
            continue
        lines += within(one.scope[:-1], "", body_of(one, unit, False))
        if isinstance(one, model.Interface):
            lines += within(one.scope[:-1], "POA_", servant(one, unit))
    with open(os.path.join(os.path.dirname(__file__), "lemonrudder_idl.hpp"), encoding="ascii") as file:
        return {made: "\n".join([*lines, f"#endif  // {guard}", ""]), "lemonrudder_idl.hpp": file.read()}
