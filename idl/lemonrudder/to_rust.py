"""Rust: FILE_idl.rs, over the module `idl` of the crate lemonrudder.

What stands in a scope of IDL is in a module: types are CamelCase, functions and modules snake_case, constants upper
case. The interface M::I is the stub m::I and the servant m::IServant, and in m::i stands what is in its scope. A
keyword is r#keyword. The file is formatted by rustfmt, where that is on the path.
"""
import os
import re
import shutil
import subprocess
from typing import Dict, List, Tuple

from . import model
from .rust_names import camel, check, marker_of, method_of, module, raised_names, servant_name, snake, upper, words

VALUES = {"boolean": "bool", "char": "char", "octet": "u8", "short": "i16", "ushort": "u16", "long": "i32",
          "ulong": "u32", "longlong": "i64", "ulonglong": "u64", "float": "f32", "double": "f64"}
CODECS = {"boolean": "Boolean", "char": "Char", "octet": "Octet", "short": "Short", "ushort": "UShort", "long": "Long",
          "ulong": "ULong", "longlong": "LongLong", "ulonglong": "ULongLong", "float": "Float", "double": "Double"}
# how many values a discriminator of these types has
COUNTS = {"boolean": 2, "char": 1 << 8, "short": 1 << 16, "ushort": 1 << 16, "long": 1 << 32, "ulong": 1 << 32,
          "longlong": 1 << 64, "ulonglong": 1 << 64}
# the file's own module, whose name nothing of IDL has; what is allowed in it is up to the IDL
MADE = "_made"
HEAD = """// Made of {file} by omniidl -blemonrudder -Wbrust. Not to be changed by hand.

#[allow(unused_imports)]
pub use {made}::*;

#[allow(
    dead_code,
    unused_imports,
    clippy::approx_constant,
    clippy::enum_variant_names,
    clippy::excessive_precision,
    clippy::large_enum_variant,
    clippy::module_inception,
    clippy::new_ret_no_self,
    clippy::result_large_err,
    clippy::self_named_constructors,
    clippy::should_implement_trait,
    clippy::too_many_arguments,
    clippy::type_complexity,
    clippy::wrong_self_convention
)]
mod {made} {{"""
USES = ["use ::lemonrudder::cdr::{Reader as _Reader, Writer as _Writer};",
        "use ::lemonrudder::{self as _lr, idl as _idl, Error as _Error};", ""]
DERIVES = "#[derive(Clone, Debug, PartialEq)]"
READ = "fn read({reader}: &mut _Reader<'_>) -> _idl::Result<Self, _Error> {{"
WRITE = "fn write({writer}: &mut _Writer, {value}: &Self) -> _idl::Result<(), _Error> {{"


# ---- types ----

class At:
    """Where something is written: the modules around it, below that of the file."""

    def __init__(self, *modules: str) -> None:
        self.modules = modules

    def below(self, name: str) -> "At":
        return At(*self.modules, name)

    def path(self, one: model.Declared, *names: str) -> str:
        """The path of what stands beside a declaration."""
        there = [*map(module, one.scope[:-1]), *names]
        if not one.is_here:
            up = "super::" * (len(self.modules) + 2)
            return f"{up}{file_module(one.file)}::{'::'.join(there)}"
        same = 0
        while same < min(len(self.modules), len(there) - 1) and self.modules[same] == there[same]:
            same += 1
        return "super::" * (len(self.modules) - same) + "::".join(there[same:])

    def type(self, one: model.Declared) -> str:
        return self.path(one, camel(one.name))


def file_module(file: str) -> str:
    """The module for a file, as modules are named."""
    name = "_".join(words(re.sub(r"\W", "_", model.base_of(file)))).lower()
    return f"{'_' if name[:1].isdigit() else ''}{name}_idl"


def is_octet(type: object) -> bool:
    return model.resolved(type) == model.Basic("octet")


def value(type: object, at: At) -> str:
    """The type of values."""
    if isinstance(type, model.Declared):
        return at.type(type)
    if isinstance(type, model.Basic):
        return VALUES[type.name]
    if isinstance(type, model.String):
        return "_idl::String"
    if isinstance(type, model.Reference):
        return "_idl::Reference"
    if isinstance(type, model.Any):
        return "_idl::Any"
    if isinstance(type, model.Sequence):
        return f"_idl::Vec<{value(type.member, at)}>"
    return f"[{value(type.member, at)}; {type.size}]"


def is_plain(type: object) -> bool:
    return isinstance(model.resolved(type), (model.Basic, model.Enum))


def parameter(type: object, at: At) -> str:
    """How a value is handed in to be written."""
    known = model.resolved(type)
    if is_plain(type):
        return value(type, at)
    if isinstance(known, model.String):
        return "&str"
    return f"&[{value(known.member, at)}]" if isinstance(known, model.Sequence) else f"&{value(type, at)}"


def codec(type: object, at: At) -> str:
    """What reads and writes values of a type."""
    type = model.resolved(type)
    if isinstance(type, model.Declared):
        return at.type(type)
    if isinstance(type, model.Basic):
        return f"_idl::{CODECS[type.name]}"
    if isinstance(type, model.String):
        return f"_idl::Text<{type.bound}>" if type.bound else "_idl::Text"
    if isinstance(type, model.Reference):
        return "_idl::Reference"
    if isinstance(type, model.Any):
        return "_idl::Any"
    if isinstance(type, model.Array):
        return f"_idl::Array<{codec(type.member, at)}, {type.size}>"
    if is_octet(type.member):
        return f"_idl::Octets<{type.bound}>" if type.bound else "_idl::Octets"
    return f"_idl::Sequence<{codec(type.member, at)}{f', {type.bound}' if type.bound else ''}>"


def spelled(type: object, at: At) -> str:
    """The same as a `Type` of the crate."""
    type = model.resolved(type)
    if isinstance(type, model.Basic):
        return f"_lr::Type::{CODECS[type.name]}"
    if isinstance(type, model.String):
        return "_lr::Type::String"
    if isinstance(type, model.Enum):
        return f"_lr::Type::Enum({len(type.names)})"
    if isinstance(type, (model.Struct, model.Reference)):
        return f"<{codec(type, at)} as _idl::Typed>::TYPE"
    if isinstance(type, model.Array):
        return f"_lr::Type::Struct(&[{spelled(type.member, at)}; {type.size}])"
    return "_lr::Type::Octets" if is_octet(type.member) else f"_lr::Type::Sequence(&{spelled(type.member, at)})"


def all_spelled(types: List[Tuple[str, object]], at: At) -> str:
    return f"&[{', '.join(spelled(type, at) for _, type in types)}]"


def quoted(text: str, mark: str = '"') -> str:
    """A text as a literal."""
    return mark + "".join(char if 32 <= ord(char) < 127 and char not in mark + "\\" else f"\\u{{{ord(char):x}}}"
                          for char in text) + mark


def literal(one: object, type: object, at: At) -> str:
    """A value of a constant or a label."""
    type = model.resolved(type)
    if isinstance(one, tuple):
        return f"{at.type(type)}::{camel(one[-1])}"
    if isinstance(type, model.String):
        return quoted(one)
    if type == model.Basic("char"):
        return quoted(one, "'")
    if type == model.Basic("boolean"):
        return "true" if one else "false"
    if isinstance(one, float) and abs(one) == float("inf"):
        return f"{VALUES[type.name]}::{'NEG_' if one < 0 else ''}INFINITY"
    return repr(one)


# ---- declarations ----

def indented(lines: List[str]) -> List[str]:
    return [f"    {line}" if line else line for line in lines]


def block(head: str, lines: List[str]) -> List[str]:
    """A head that ends by a brace, with lines in it."""
    return [head, *indented(lines), "}"]


def codec_impl(name: str, read: List[str], write: List[str]) -> List[str]:
    """How values are read and written, by the lines of both."""
    readers = {"reader": "reader" if any("reader" in line for line in read) else "_"}
    writers = {"writer": "writer" if any("writer" in line for line in write) else "_",
               "value": "value" if any("value" in line for line in write) else "_"}
    return [*block(f"impl _idl::Codec for {name} {{", [
        "type Value = Self;", "type Lent = Self;", "", *block(READ.format(**readers), read), "",
        *block(WRITE.format(**writers), write)]), ""]


def const(one: model.Const, at: At) -> List[str]:
    is_text = isinstance(model.resolved(one.type), model.String)
    type = "&str" if is_text else value(one.type, at)
    return [f"/// `{one.idl}`", f"pub const {upper(one.name)}: {type} = {literal(one.value, one.type, at)};", ""]


def alias(one: model.Alias, at: At) -> List[str]:
    return [f"/// `{one.idl}`", f"pub type {camel(one.name)} = {value(one.type, at)};", ""]


def enum(one: model.Enum, at: At) -> List[str]:
    name, names = camel(one.name), list(map(camel, one.names))
    head = [f"/// `{one.idl}`", "#[derive(Clone, Copy, Debug, PartialEq, Eq, PartialOrd, Ord, Hash)]", "#[repr(u32)]"]
    every = ", ".join(f"{name}::{each}" for each in names)
    return [*head, *block(f"pub enum {name} {{", [f"{each}," for each in names]), "",
            *block(f"impl {name} {{", ["/// Each of its values.",
                                       f"pub const ALL: [{name}; {len(names)}] = [{every}];"]), "",
            *codec_impl(name, ["let number = _idl::read::<_idl::ULong>(reader)? as usize;",
                               f"{name}::ALL.get(number).copied().ok_or(_Error::Value)"],
                        ["_idl::write::<_idl::ULong>(writer, &(*value as u32))"])]


def record(one: model.Declared, at: At) -> List[str]:
    """A struct or an exception."""
    name, fields = camel(one.name), [(snake(member), type) for member, type in one.members]
    read = [f"{field}: _idl::read::<{codec(type, at)}>(reader)?," for field, type in fields]
    write = [f"_idl::write_in::<{codec(type, at)}>(writer, {quoted(member)}, &value.{field})?;"
             for (field, type), (member, _) in zip(fields, one.members)]
    return [f"/// `{one.idl}`", DERIVES,
            *block(f"pub struct {name} {{", [f"pub {field}: {value(type, at)}," for field, type in fields]), "",
            *codec_impl(name, [f"Ok({name} {{", *indented(read), "})"], [*write, "Ok(())"])]


def struct(one: model.Struct, at: At) -> List[str]:
    lines = record(one, at)
    if model.can_spell(one):
        types = f"_lr::Type::Struct({all_spelled(one.members, at)})"
        lines += [*block(f"impl _idl::Typed for {camel(one.name)} {{",
                         [f"const TYPE: _lr::Type<'static> = {types};"]), ""]
    return lines


def exception(one: model.Exceptional, at: At) -> List[str]:
    name = camel(one.name)
    show = ["_idl::show(self, out)"]
    return [*record(one, at),
            *block(f"impl _idl::Exception for {name} {{", [f"const ID: &'static str = {quoted(one.id)};"]), "",
            *block(f"impl ::core::fmt::Display for {name} {{", block(
                "fn fmt(&self, out: &mut ::core::fmt::Formatter<'_>) -> ::core::fmt::Result {", show)), "",
            f"impl ::core::error::Error for {name} {{}}", ""]


class Variant:
    """A variant of a union: its name, the pattern of the discriminators that select it, and whether it is of one
    alone. Without a case it is of those that select no member."""

    def __init__(self, name: str, pattern: str, count: int, case: object = None, is_rest: bool = False) -> None:
        self.name, self.pattern, self.count, self.case, self.is_rest = name, pattern, count, case, is_rest


def count_of(switch: object) -> int:
    """How many values a discriminator has."""
    switch = model.resolved(switch)
    return len(switch.names) if isinstance(switch, model.Enum) else COUNTS[switch.name]


def variants(one: model.Union, at: At) -> List[Variant]:
    """The variants of a union; the one of what no label names comes last."""
    total = count_of(one.switch)
    named = [label for case in one.cases for label in case.labels if label is not None and None not in case.labels]
    found, rest = [], Variant("NoMember", "_", total - len(named), None, True)
    for case in one.cases:
        if None in case.labels:
            rest = Variant(camel(case.name), "_", total - len(named), case, True)
            continue
        pattern = " | ".join(literal(label, one.switch, at) for label in case.labels)
        found.append(Variant(camel(case.name), pattern, len(case.labels), case))
    return [*found, rest] if rest.count else found


def read_arm(variant: Variant, name: str, at: At) -> str:
    """What is read where a discriminator selects a variant."""
    if variant.case is None:
        return f"{name}::NoMember(label)"
    read = f"_idl::read::<{codec(variant.case.type, at)}>(reader)?"
    if variant.count == 1:
        return f"{name}::{variant.name}({read})"
    return f"{name}::{variant.name} {{ label, value: {read} }}"


def read_union(one: model.Union, found: List[Variant], at: At) -> List[str]:
    name = camel(one.name)
    arms = [f"{variant.pattern} => {read_arm(variant, name, at)}," for variant in found]
    if not found[-1].is_rest and model.resolved(one.switch) == model.Basic("char"):
        arms.append("_ => return Err(_Error::Value),")
    first = f"let label = _idl::read::<{codec(one.switch, at)}>(reader)?;"
    if len(found) == 1 and found[0].is_rest:
        return [first, f"Ok({read_arm(found[0], name, at)})"]
    return [first, *block("Ok(match label {", arms)[:-1], "})"]


def is_other(one: model.Union, variant: Variant, patterns: List[str]) -> str:
    """Whether a discriminator selects another variant."""
    if not variant.is_rest:
        return f"!matches!(label, {variant.pattern})"
    if model.resolved(one.switch) == model.Basic("boolean"):
        return "*label" if patterns == ["true"] else "!*label"
    return f"matches!(label, {' | '.join(patterns)})"


def write_arm(one: model.Union, variant: Variant, patterns: List[str], at: At) -> List[str]:
    """How a variant is written."""
    lines, put = [], f"_idl::write::<{codec(one.switch, at)}>(writer, "
    held = "" if variant.case is None else (
        f"_idl::write_in::<{codec(variant.case.type, at)}>(writer, {quoted(variant.case.name)}, value)")
    if variant.count == 1 and variant.case is not None:
        label = literal(model.first_value(one, variant.case), one.switch, at)
        return block(f"Self::{variant.name}(value) => {{", [f"{put}&{label})?;", held])
    if variant.count < count_of(one.switch):
        lines = block(f"if {is_other(one, variant, patterns)} {{", ["return Err(_Error::Range);"])
    if variant.case is None:
        return block("Self::NoMember(label) => {", [*lines, f"{put}label)"])
    return block(f"Self::{variant.name} {{ label, value }} => {{", [*lines, f"{put}label)?;", held])


def union(one: model.Union, at: At) -> List[str]:
    name, found, switch = camel(one.name), variants(one, at), value(one.switch, at)
    lines, arms = [], []
    patterns = [variant.pattern for variant in found if not variant.is_rest]
    for variant in found:
        type = None if variant.case is None else value(variant.case.type, at)
        if variant.case is None:
            lines += ["/// A discriminator that selects no member.", f"NoMember({switch}),"]
        elif variant.count == 1:
            lines.append(f"{variant.name}({type}),")
        else:
            lines.append(f"{variant.name} {{ label: {switch}, value: {type} }},")
        arms += write_arm(one, variant, patterns, at)
    return [f"/// `{one.idl}`", DERIVES, *block(f"pub enum {name} {{", lines), "",
            *codec_impl(name, read_union(one, found, at), block("match value {", arms))]


# ---- interfaces ----

def tuple_of(parts: List[str], is_one: bool = False) -> str:
    """A tuple; of one part that part itself, if this is asked for."""
    if len(parts) == 1:
        return parts[0] if is_one else f"({parts[0]},)"
    return f"({', '.join(parts)})"


def arguments_of(operation: model.Operation, at: At) -> List[str]:
    """The parameters of what writes the arguments."""
    return [f"{snake(name)}: {parameter(type, at)}" for name, type in operation.arguments]


def read_all(types: List[Tuple[str, object]], is_one: bool, at: At) -> List[str]:
    parts = [f"_idl::read::<{codec(type, at)}>(_reader)" for _, type in types]
    if is_one and len(parts) == 1:
        return parts
    return [f"Ok({tuple_of([part + '?' for part in parts])})"]


def write_results(operation: model.Operation, at: At) -> List[str]:
    types = [type for _, type in operation.results]
    if len(types) == 1:
        return [f"_idl::write::<{codec(types[0], at)}>(_writer, _results)"]
    return [*(f"_idl::write::<{codec(type, at)}>(_writer, &_results.{index})?;" for index, type in enumerate(types)),
            "Ok(())"]


def signature(operation: model.Operation, at: At) -> str:
    if model.is_raw(operation):
        return "None"
    raises = ", ".join(f"({quoted(one.id)}, {all_spelled(one.members, at)})" for one in operation.raises)
    return (f"Some(_lr::Signature {{ arguments: {all_spelled(operation.arguments, at)}, "
            f"results: {all_spelled(operation.results, at)}, raises: &[{raises}] }})")


def match_raised(operation: model.Operation, pattern: str, arm: str, at: At) -> List[str]:
    """A match of the exceptions of an operation, if it has any; in the arm stands TYPE for the type of each."""
    if not operation.raises:
        return ["match *self {}"]
    return block("match self {", [f"Self::{name}({pattern}) => {arm.replace('TYPE', at.type(one))},"
                                  for one, name in zip(operation.raises, raised_names(operation))])


def read_raised(operation: model.Operation, at: At) -> List[str]:
    lines = []
    for one, name in zip(operation.raises, raised_names(operation)):
        lines += block(f"if _id == <{at.type(one)} as _idl::Exception>::ID.as_bytes() {{",
                       [f"return _idl::read::<{at.type(one)}>(_reader).map(Self::{name}).map(Some);"])
    return [*lines, "Ok(None)"]


def operation_impl(operation: model.Operation, at: At) -> List[str]:
    """What the crate knows of an operation."""
    arguments = tuple_of([value(type, at) for _, type in operation.arguments])
    results = tuple_of([value(type, at) for _, type in operation.results], True)
    own, done = "<Self as _idl::Operation>", "_idl::Result<(), _Error> {"
    return block(f"impl _idl::Operation for {marker_of(operation)} {{", [
        f"const NAME: &'static str = {quoted(operation.name)};",
        f"const SIGNATURE: _idl::Option<_lr::Signature<'static>> = {signature(operation, at)};",
        f"const IS_ONEWAY: bool = {str(operation.is_oneway).lower()};",
        f"type Arguments = {arguments};", f"type Results = {results};", "",
        *block(f"fn read_arguments(_reader: &mut _Reader<'_>) -> _idl::Result<{own}::Arguments, _Error> {{",
               read_all(operation.arguments, False, at)), "",
        *block(f"fn read_results(_reader: &mut _Reader<'_>) -> _idl::Result<{own}::Results, _Error> {{",
               read_all(operation.results, True, at)), "",
        *block(f"fn write_results(_writer: &mut _Writer, _results: &{own}::Results) -> {done}",
               write_results(operation, at)), "",
        *block("fn read_raised(_id: &[u8], _reader: &mut _Reader<'_>) "
               "-> _idl::Result<_idl::Option<Self>, _Error> {", read_raised(operation, at)), "",
        *block("fn id(&self) -> &'static str {", match_raised(operation, "_", "<TYPE as _idl::Exception>::ID", at)), "",
        *block(f"fn write_members(&self, _writer: &mut _Writer) -> {done}",
               match_raised(operation, "_raised", "_idl::write::<TYPE>(_writer, _raised)", at))])


def type_of_octets(operation: model.Operation) -> List[str]:
    """The type that stands for an operation without types: its values are bodies of exceptions."""
    name, body, done = marker_of(operation), "_idl::Body", "_idl::Result<(), _Error> {"
    return [f"/// `{operation.name}`, by octets, and the body of an exception that it raises.",
            DERIVES, f"pub struct {name}(pub {body});", "", *block(f"impl _idl::Operation for {name} {{", [
                f"const NAME: &'static str = {quoted(operation.name)};",
                "const SIGNATURE: _idl::Option<_lr::Signature<'static>> = None;",
                f"const IS_ONEWAY: bool = {str(operation.is_oneway).lower()};",
                f"type Arguments = ({body},);", f"type Results = {body};", "",
                *block(f"fn read_arguments(_reader: &mut _Reader<'_>) -> _idl::Result<({body},), _Error> {{",
                       [f"Ok(({body}::take(_reader),))"]), "",
                *block(f"fn read_results(_reader: &mut _Reader<'_>) -> _idl::Result<{body}, _Error> {{",
                       [f"Ok({body}::take(_reader))"]), "",
                *block(f"fn write_results(_writer: &mut _Writer, _results: &{body}) -> {done}",
                       ["_results.put(_writer)"]), "",
                *block("fn read_raised(_id: &[u8], _reader: &mut _Reader<'_>) "
                       "-> _idl::Result<_idl::Option<Self>, _Error> {", [f"Ok(Some(Self({body}::take(_reader))))"]), "",
                *block("fn id(&self) -> &str {", ["self.0.id()"]), "",
                *block(f"fn write_members(&self, _writer: &mut _Writer) -> {done}", ["self.0.put(_writer)"])]), ""]


def operation_type(operation: model.Operation, at: At) -> List[str]:
    """The type that stands for an operation: its values are the exceptions that it raises."""
    if operation.is_octets:
        return type_of_octets(operation)
    name, raised = marker_of(operation), list(zip(raised_names(operation), operation.raises))
    mut = "mut " if operation.arguments else ""
    write = [f"_idl::argument::<{codec(type, at)}>(&mut _writer, {quoted(operation.name)}, {quoted(inner)}, "
             f"{'&' if is_plain(type) else ''}{snake(inner)})?;" for inner, type in operation.arguments]
    head = f"pub fn arguments({', '.join(arguments_of(operation, at))}) -> _idl::Result<_Writer, _idl::Refused> {{"
    lines = [f"/// `{operation.name}`, and the exceptions that it raises.", DERIVES,
             *block(f"pub enum {name} {{", [f"{variant}({at.type(one)})," for variant, one in raised]), "",
             *block(f"impl {name} {{", [
                 "/// The arguments of a call.", "///", "/// # Errors", "///",
                 "/// `Range` and `Text`: one is none of its type.",
                 *block(head, [f"let {mut}_writer = _Writer::new(_lr::Order::NATIVE);", *write, "Ok(_writer)"])]), "",
             *operation_impl(operation, at), ""]
    for variant, one in raised:
        lines += [*block(f"impl ::core::convert::From<{at.type(one)}> for {name} {{",
                         block(f"fn from(raised: {at.type(one)}) -> Self {{", [f"Self::{variant}(raised)"])), ""]
    return lines


def operations(one: model.Interface, at: At) -> List[str]:
    """The module of the operations of an interface."""
    inner = at.below("ops")
    lines = [line for operation in one.operations for line in operation_type(operation, inner)]
    return ["/// The operations.", *block("pub mod ops {", [*USES, *lines]), ""]


def stub_of_octets(operation: model.Operation, ops: str) -> List[str]:
    """The method for an operation without types."""
    return [f"/// `{operation.name}`, by octets", "///", "/// # Errors", "///", "/// Each `Failure`.",
            *block(f"pub fn {method_of(operation)}(&mut self, body: &::lemonrudder::cdr::Writer) "
                   f"-> _idl::Result<_idl::Body, _idl::Failure<{ops}>> {{", ["self._object.call(body)"]), ""]


def constructor_of(one: model.Interface) -> str:
    """What makes the stub of an object: `new`, or `new_` where an operation has that name."""
    taken = {method_of(operation) for _, operation in all_operations(one)}
    return "new_" if "new" in taken else "new"


def stub(one: model.Interface, at: At) -> List[str]:
    name = camel(one.name)
    methods: List[str] = []
    for interface, operation in all_operations(one):
        ops = at.path(interface, module(interface.name), "ops", marker_of(operation))
        if operation.is_octets:
            methods += stub_of_octets(operation, ops)
            continue
        results = tuple_of([value(type, at) for _, type in operation.results], True)
        head = ", ".join(["&mut self", *arguments_of(operation, at)])
        given = ", ".join(snake(inner) for inner, _ in operation.arguments)
        methods += [f"/// `{operation.name}`", "///", "/// # Errors", "///", "/// Each `Failure`.",
                    *block(f"pub fn {method_of(operation)}({head}) -> _idl::Result<{results}, _idl::Failure<{ops}>> {{",
                           [f"self._object.call(&{ops}::arguments({given})?)"]), ""]
    return [f"/// `{one.idl}`, as a client calls it.", "#[derive(Clone, Debug)]",
            *block(f"pub struct {name}<_C> {{", ["_object: _idl::Object<_C>,"]), "",
            *block(f"impl<_C> {name}<_C> {{", [
                "/// The stub of an object, whose interface is not looked at.", "#[must_use]",
                *block(f"pub const fn {constructor_of(one)}(object: _idl::Object<_C>) -> Self {{",
                       ["Self { _object: object }"])]), "",
            *block(f"impl<_C: _idl::Calls> {name}<_C> {{", methods[:-1]), "",
            *block(f"impl<_C> ::core::convert::From<_idl::Object<_C>> for {name}<_C> {{",
                   block("fn from(object: _idl::Object<_C>) -> Self {", ["Self { _object: object }"])), "",
            *block(f"impl<_C> ::core::convert::From<{name}<_C>> for _idl::Object<_C> {{",
                   block(f"fn from(stub: {name}<_C>) -> Self {{", ["stub._object"])), "",
            *block(f"impl<_C> ::core::convert::AsMut<_idl::Object<_C>> for {name}<_C> {{",
                   block("fn as_mut(&mut self) -> &mut _idl::Object<_C> {", ["&mut self._object"])), ""]


def servant(one: model.Interface, at: At) -> List[str]:
    """The trait of the servants of an interface."""
    methods: List[str] = []
    for operation in one.operations:
        names = [snake(name) for name, _ in operation.arguments]
        call = "_call" if "call" in names else "call"
        asking = f"{call}: _idl::Asking<'_, '_, {at.path(one, module(one.name), 'ops', marker_of(operation))}>"
        given = [f"{name}: {value(type, at)}" for name, (_, type) in zip(names, operation.arguments)]
        given += ["body: _idl::Body"] if operation.is_octets else []
        methods += [f"/// `{operation.name}`", "///", "/// # Errors", "///", "/// What ends the serving.",
                    f"fn {method_of(operation)}({', '.join(['&mut self', asking, *given])}) "
                    "-> _idl::Result<(), _Error>;", ""]
    bases = " + ".join(at.path(base, servant_name(base)) for base in one.bases)
    return [f"/// A servant of `{one.idl}`.",
            *block(f"pub trait {servant_name(one)}{': ' + bases if bases else ''} {{", methods[:-1]), ""]


def all_operations(one: model.Interface) -> List[Tuple[model.Interface, model.Operation]]:
    """The operations of an interface, each with that in which it stands."""
    return [(interface, operation) for interface in (*reversed(one.all_bases), one)
            for operation in interface.operations]


def offered(one: model.Interface, at: At) -> List[str]:
    """How a servant is put on offer, and how a request is performed by it."""
    known = [(interface, operation, at.path(interface, module(interface.name), "ops", marker_of(operation)))
             for interface, operation in all_operations(one)]
    ids = ", ".join(quoted(each.id) for each in (one, *one.all_bases))
    arms = []
    for interface, operation, ops in known:
        names = ["_body"] if operation.is_octets else [snake(name) for name, _ in operation.arguments]
        method = f"{at.path(interface, servant_name(interface))}::{method_of(operation)}"
        arms += block(f'b"{operation.name}" => _idl::perform::<{ops}>(request, |_call, {tuple_of(names)}| {{',
                      [f"{method}({', '.join(['_servant', '_call', *names])})"])
        arms[-1] = "}),"
    refuse = "_idl::otherwise(request)"
    return ["/// Its repository id, and those of the interfaces from which it inherits.", "#[must_use]",
            *block(f"pub const fn ids() -> [&'static str; {1 + len(one.all_bases)}] {{", [f"[{ids}]"]), "",
            "/// Adds an object of it to a catalogue.", "///", "/// # Errors", "///",
            "/// As of `Catalogue::operation`.",
            *block("pub fn offer(catalogue: &mut _lr::Catalogue, key: impl ::core::convert::AsRef<[u8]>) "
                   "-> _idl::Result<(), _Error> {",
                   ["let key = key.as_ref();", "catalogue.object(key)?;", "catalogue.repository_ids(key, &ids())?;",
                    *(f"_idl::offer::<{ops}>(catalogue, key)?;" for _, _, ops in known), "Ok(())"]), "",
            "/// Has a request for an object of it performed by a servant.", "///", "/// # Errors", "///",
            "/// What the servant answers; `Lost`.",
            *block(f"pub fn perform<_S: {at.path(one, servant_name(one))} + ?Sized>(_servant: &mut _S, "
                   "request: &mut _lr::Request<'_>) -> _idl::Result<(), _Error> {",
                   block("match request.operation() {", [*arms, f"_ => {refuse},"]) if arms else [refuse]), ""]


# ---- the file ----

MAKERS = {model.Const: const, model.Alias: alias, model.Enum: enum, model.Struct: struct, model.Union: union,
          model.Exceptional: exception}


class Scope:
    """What stands in a module: lines, and modules in it by their names."""

    def __init__(self) -> None:
        self.lines: List[str] = []
        self.inner: Dict[str, Scope] = {}
        self.of = ""

    def at(self, scope: Tuple[str, ...]) -> "Scope":
        """The module for a scope of IDL."""
        found = self
        for size in range(1, len(scope) + 1):
            found = found.inner.setdefault(module(scope[size - 1]), Scope())
            found.of = "::".join(scope[:size])
        return found

    def written(self) -> List[str]:
        lines = [*USES, *self.lines]
        for name, inner in self.inner.items():
            lines += [f"/// What is in `{inner.of}`.", *block(f"pub mod {name} {{", inner.written()), ""]
        return lines


def scopes_of(unit: model.Unit) -> Scope:
    """All modules of a file, in that which has no name."""
    root = Scope()
    for one in unit.here:
        if isinstance(one, model.Forward):
            continue
        here, at = root.at(one.scope[:-1]), At(*map(module, one.scope[:-1]))
        if not isinstance(one, model.Interface):
            here.lines += MAKERS[type(one)](one, at)
            continue
        inner = at.below(module(one.name))
        here.lines += [*stub(one, at), *servant(one, at)]
        root.at(one.scope).lines += [*offered(one, inner), *operations(one, inner)]
    return root


def formatted(text: str) -> str:
    """A text as rustfmt lays it out, by what is set where the file is written."""
    program = shutil.which("rustfmt")
    if program is None:
        return text
    ran = subprocess.run([program, "--edition", "2021"], input=text, stdout=subprocess.PIPE, encoding="utf-8",
                         check=False)
    return ran.stdout if ran.returncode == 0 and ran.stdout else text


def files_of(unit: model.Unit) -> Dict[str, str]:
    check(unit)
    head = HEAD.format(file=os.path.basename(unit.file), made=MADE)
    lines = [head, *indented(scopes_of(unit).written()), "}", ""]
    return {f"{file_module(unit.file)}.rs": formatted("\n".join(lines))}
