"""A relay by what is made of files in Rust: behind each trait of servants its implementation by tests/embed/idl_relay.rs."""
from __future__ import annotations

import glob
import os
import re
from typing import Dict, List, Tuple

from tests.embed.idl_exchange import Declared, Interface, parts_of
from tests.embed.idl_rust_test import KIT
from tests.embed.idl_test import EMBED

TRAIT = re.compile(r"^( *)pub trait (\w+)Servant\b.*?^\1\}\n", re.M | re.S)
METHOD = re.compile(r"fn ([\w#]+)\(&mut self, (_?call): (_idl::Asking<[^>]*>)(.*)\) -> _idl::Result<\(\), _Error>;")
MAIN = """//! A relay by what is made in Rust.
#![forbid(unsafe_code)]
mod relay;
{modules}
const INTERFACES: &[relay::Interface] = &[
{interfaces}
];

fn main() -> Result<(), Box<dyn std::error::Error>> {{
    relay::serve(INTERFACES)
}}
"""
ONE = """    relay::Interface {{
        id: {path}::ids()[0],
        offer: |catalogue, key| {path}::offer(catalogue, key),
        perform: |relay, request| {path}::perform(relay, request),
    }},"""
# (a program without a handler of SIGTERM is ended by it)
SHELL = """#!/bin/sh
"{program}" "$@" & trap "kill $!" TERM
wait
exit 0
"""


def relayed_in_rust(method: Tuple[str, str, str, str], stub: str, methods: str) -> str:
    """A method that hands its call to another object, of one of a trait, and of the methods of the stub; one by octets is
    refused."""
    name, call, asking, rest = method
    asked, parts = parts_of(re.search(rf"pub fn {re.escape(name)}\(&mut self(.*?)\) -> ", methods)[1]), parts_of(rest)
    words = ", ".join(("&" if ": &" in its else "") + one.partition(":")[0] for its, one in zip(asked, parts))
    body = f"crate::relay::passed({call}, {stub}::new(self.relayed()?).{name}({words}))"
    if parts == ["body: _idl::Body"]:
        parts, body = ["_: _idl::Body"], f"{call}.refuse(_lr::SystemName::NoImplement)"
    given = ", ".join(["&mut self", f"{call}: {asking}", *parts])
    return f"fn {name}({given}) -> _idl::Result<(), _Error> {{ {body} }}"


def with_relays(text: str) -> str:
    """What is made of a file, with relays."""

    def made(found: re.Match[str]) -> str:
        indent, stub = found[1], found[2]
        head = f"\n{indent}impl<_C: _idl::Calls> {stub}<_C> {{\n"
        methods = text[:found.start()].rpartition(head)[2].partition(f"\n{indent}}}")[0]
        lines = [relayed_in_rust(method, stub, methods) for method in METHOD.findall(found[0])]
        return f"{found[0]}\nimpl {stub}Servant for crate::relay::Relay {{\n" + "\n".join(lines) + "\n}\n"

    return TRAIT.sub(made, text)


def path_of(one: Interface, modules: Dict[str, Dict[str, str]]) -> str:
    """The module of an interface, of those of each file by what they are of."""
    file, found = next((file, found) for file, found in modules.items() if one.name in found)
    scopes = one.name.split("::")
    return "::".join([file, *(found["::".join(scopes[:size])] for size in range(1, len(scopes) + 1))])


def in_rust(files: List[Declared], folder: str, name: str) -> str:
    """A relay by what is made of files in Rust in a folder, compiled."""
    texts, modules = {}, {}
    for path in sorted(glob.glob(os.path.join(folder, "*_idl.rs"))):
        with open(path, encoding="utf-8") as file:
            text = file.read()
        texts[os.path.basename(path)] = with_relays(text)
        modules[os.path.basename(path)[:-3]] = dict(re.findall(r"/// What is in `(.*?)`\.\n *pub mod (\S+) \{", text))
    with open(os.path.join(EMBED, "idl_relay.rs"), encoding="utf-8") as file:
        texts["relay.rs"] = file.read()
    interfaces = "\n".join(ONE.format(path=path_of(one, modules)) for file in files for one in file.here)
    package = KIT.package(name, MAIN.format(modules="\n".join(f"mod {one};" for one in modules), interfaces=interfaces))
    for base, text in texts.items():
        with open(os.path.join(package, "src", base), "w", encoding="utf-8") as file:
            file.write(text)
    KIT.cargo(package, "build")
    program = os.path.join(package, name)
    with open(program, "w", encoding="ascii") as file:
        file.write(SHELL.format(program=os.path.join(KIT.target, "debug", name)))
    os.chmod(program, 0o700)
    return program
