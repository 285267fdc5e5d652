"""Values of what a file of IDL declares, and relays: servants of all its interfaces that hand each call to another object.

What a file declares is told by omniidl itself (idl_dump.py). A relay over omniORB stands on what omniidl makes for it in
C++: a call from Python through it to Python is one to omniORB's servant, and one by omniORB's stub.
"""
from __future__ import annotations

import asyncio
import contextlib
import dataclasses
import glob
import importlib
import json
import keyword
import os
import random
import re
import signal
import subprocess
import unittest
from collections.abc import Iterable, Iterator
from typing import Any, Dict, List, Optional, Tuple

from tests.embed import idl_anys, idl_types
from tests.embed.idl_test import EMBED, EXAMPLES, ORB, compiled, lr, run
from tests.programs import tool

BASICS = {one.idl: one for one in idl_types.BASICS}
# how deep types stand in each other, from which on sequences are empty, and how long they are
DEPTH, LONG = 4, 3
# what the library of omniORB has itself, by the header that declares it
IN_OMNIORB = {"Naming": "omniORB4/Naming.hh", "CosNaming": "omniORB4/Naming.hh", "bootstrap": "omniORB4/bootstrap.hh",
              **dict.fromkeys(("corbaidl", "orb", "ir", "boxes", "poa", "pollable", "messaging", "poa_include",
                               "messaging_policy", "compression", "ziop"), "omniORB4/CORBA.h")}
# .. where what it is has none of those names
DECLARED = {"ir": "omniORB4/ir_defs.hh", "poa": "omniORB4/poa_defs.h", "bootstrap": "omniORB4/bootstrap.hh",
            "CosNaming": "omniORB4/Naming.hh", "Naming": "omniORB4/Naming.hh"}
INCLUDE = "/usr/include"
SECONDS = 60
Type = Any


def base_of(path: str) -> str:
    return os.path.splitext(os.path.basename(path))[0]


def flat(scope: str) -> str:
    """The name of a declaration in FILE_idl.py."""
    name = scope.replace("::", "_")
    return f"_{name}" if keyword.iskeyword(name) else name


@dataclasses.dataclass
class Operation:
    """An operation of the wire."""

    name: str
    parameters: List[Tuple[str, Type]]
    result: Optional[Type]
    raises: List[str]
    oneway: bool
    context: bool

    @property
    def method(self) -> str:
        return f"_{self.name}" if keyword.iskeyword(self.name) else self.name

    @property
    def arguments(self) -> List[Type]:
        return [type for way, type in self.parameters if way != "out"]

    @property
    def results(self) -> List[Type]:
        return ([] if self.result is None else [self.result]) + [type for way, type in self.parameters if way != "in"]


@dataclasses.dataclass
class Interface:
    """An interface, by its names in IDL and in C++."""

    name: str
    cpp: List[str]
    id: str
    file: str
    is_here: bool
    abstract: bool
    bases: List[str]
    operations: List[Operation]


def above(one: Interface, interfaces: Dict[str, Interface]) -> List[Interface]:
    """An interface and all that it inherits from, each once."""
    found = {one.name: one}
    for base in one.bases:
        found.update({each.name: each for each in above(interfaces[base], interfaces)})
    return list(found.values())


class Declared:
    """What a file declares, with all that it includes."""

    def __init__(self, line: str) -> None:
        found = json.loads(line)
        self.path, self.types, self.exceptions = found["path"], found["types"], found["exceptions"]
        self.interfaces: Dict[str, Interface] = {}
        for one in found["interfaces"]:
            operations = [Operation(**each) for each in one.pop("operations")]
            self.interfaces[one["name"]] = Interface(**one, operations=operations)

    @property
    def base(self) -> str:
        return base_of(self.path)

    @property
    def here(self) -> List[Interface]:
        """The interfaces of the file itself that have servants, and operations."""
        return [one for one in self.interfaces.values() if one.is_here and not one.abstract and self.operations(one)]

    def operations(self, one: Interface) -> List[Operation]:
        return [each for base in above(one, self.interfaces) for each in base.operations]

    def is_odd(self, type: Type, around: Tuple[str, ...] = ()) -> bool:
        """Whether a type has what is made by octets alone."""
        if isinstance(type, str) or type[0] in ("string", "reference"):
            return False
        if type[0] != "named":
            return type[0] == "odd" or self.is_odd(type[1], around)
        one, around = self.types[type[1]], (*around, type[1])
        inner = [member for _, member in one.get("members", [])] + [case for _, case in one.get("cases", [])]
        return type[1] not in around[:-1] and any(self.is_odd(each, around) for each in inner)

    def is_raw(self, one: Operation) -> bool:
        """Whether an operation is to be by octets."""
        members = [type for name in one.raises for _, type in self.exceptions[name]["members"]]
        return one.context or any(map(self.is_odd, [*one.arguments, *one.results, *members]))


def declared(paths: Iterable[str], *folders: str) -> List[Declared]:
    """What files declare."""
    paths = list(paths)
    words = [tool("omniidl"), *(f"-I{folder}" for folder in folders), "-p", EMBED, "-bidl_dump", *paths]
    return [] if not paths else [Declared(line) for line in run(*words).splitlines()]


# ---- values ----

class Values:
    """Random values of the types of a file, by the classes that are made of them."""

    def __init__(self, file: Declared, dice: random.Random) -> None:
        self.file, self.dice, self.depth = file, dice, 0

    def made(self, path: str, scope: str) -> Any:
        """What is made of a declaration."""
        return getattr(importlib.import_module(re.sub(r"\W", "_", base_of(path)) + "_idl"), flat(scope))

    def of(self, type: Type) -> Any:
        """A value of a type."""
        if type == "any":
            return idl_anys.random_any(self.dice)
        if isinstance(type, str):
            return BASICS[type].value(self.dice, None)
        return {"string": self.string, "sequence": self.sequence, "array": self.many, "reference": self.reference,
                "named": self.named}[type[0]](*type[1:])

    def string(self, bound: int) -> str:
        return idl_types.text(min(bound, 30)).value(self.dice, None)

    def sequence(self, type: Type, bound: int) -> Any:
        most = 0 if self.depth >= DEPTH else min(bound or LONG, LONG)
        return self.many(type, self.dice.randint(0, most))

    def many(self, type: Type, count: int) -> Any:
        self.depth += 1
        values = [self.of(type) for _ in range(count)]
        self.depth -= 1
        return bytes(values) if type == "octet" else "".join(values) if type == "char" else values

    def reference(self, id: str) -> Optional[lr.Ior]:
        """None, or a reference to an object of this repository id."""
        if self.dice.random() < 0.3:
            return None
        key = bytes(self.dice.getrandbits(8) for _ in range(self.dice.randint(1, 20)))
        return lr.Ior.iiop(id, "127.0.0.1", self.dice.randint(1, 65535), key)

    def named(self, scope: str) -> Any:
        one = self.file.types[scope]
        made = self.made(one["file"], scope)
        if "enum" in one:
            return self.dice.choice(list(made))
        self.depth += 1
        value = made(*(self.of(type) for _, type in one["members"])) if "members" in one else self.union(one, made)
        self.depth -= 1
        return value

    def switched(self, one: Dict[str, Any]) -> List[Any]:
        """Some values that may discriminate a union, its labels among them."""
        type, labels = one["switch"], [label for labels, _ in one["cases"] for label in labels if label is not None]
        if type == "boolean":
            return [False, True]
        if isinstance(type, list):
            return list(range(self.file.types[type[1]]["enum"]))
        # (what omniORB makes of a label '\xff' never matches: it compares an unsigned char with -1)
        return [each for each in (*labels, *(self.of(type) for _ in range(3))) if each != "\xff"]

    def union(self, one: Dict[str, Any], made: type) -> Any:
        chosen = self.dice.choice(self.switched(one))
        types = [type for labels, type in one["cases"] if chosen in labels]
        types += [type for labels, type in one["cases"] if None in labels]
        items = list(self.made(self.file.types[one["switch"][1]]["file"], one["switch"][1])) if isinstance(
            one["switch"], list) else None
        return made(chosen if items is None else items[chosen], self.of(types[0]) if types else None)

    def exception(self, scope: str) -> Any:
        one = self.file.exceptions[scope]
        return self.made(one["file"], scope)(*(self.of(type) for _, type in one["members"]))


def plain(value: Any) -> Any:
    """A value that is equal to another one where these are the same to IDL."""
    if isinstance(value, lr.Ior):
        return value.type_id, value.addresses
    if isinstance(value, lr.idl.Any):
        return idl_anys.said(value)
    if isinstance(value, lr.idl.Union):
        return type(value), value._d, plain(value._v)
    if dataclasses.is_dataclass(value):
        return type(value), [plain(getattr(value, one.name)) for one in dataclasses.fields(value)]
    return [plain(one) for one in value] if isinstance(value, (list, tuple)) else value


# ---- relays ----

@contextlib.contextmanager
def relaying(words: List[str], targets: List[str], **options: Any) -> Iterator[List[str]]:
    """A relay, which is given the references of the objects behind it and prints those of its own."""
    path = f"{words[0]}.{len(os.listdir(os.path.dirname(words[0])))}"
    with open(path, "w", encoding="ascii") as file:
        file.writelines(f"{target}\n" for target in targets)
    process = subprocess.Popen([words[0], path, *words[1:]], stdout=subprocess.PIPE, text=True, **options)
    try:
        yield [process.stdout.readline().strip() for _ in targets]
        process.send_signal(signal.SIGTERM)
        if process.wait(30) != 0:
            raise AssertionError(f"{words}: status {process.returncode}")
    finally:
        process.kill()
        process.wait()
        process.stdout.close()


@contextlib.contextmanager
def behind(targets: List[str], *relays: List[str]) -> Iterator[List[str]]:
    """The references of objects behind relays, of which the first stands before the objects themselves."""
    with contextlib.ExitStack() as stack:
        for words in relays:
            targets = stack.enter_context(relaying(words, targets))
        yield targets


RELAY = """
#include <csignal>
#include <fstream>
#include <iostream>
#include <string>
{headers}

struct Target {{ CORBA::Object_var target; virtual ~Target() {{}} }};
static CORBA::ORB_ptr the_orb;
static PortableServer::POA_ptr the_poa;
static std::ifstream behind;

template <class Relay> static void serve() {{
  std::string line;
  std::getline(behind, line);
  Relay* const servant = new Relay;
  servant->target = the_orb->string_to_object(line.c_str());
  PortableServer::ObjectId_var id = the_poa->activate_object(servant);
  CORBA::Object_var object = the_poa->id_to_reference(id);
  CORBA::String_var text = the_orb->object_to_string(object);
  std::cout << text << "\\n";
}}

{relays}

int main(int argc, char** argv) {{
  sigset_t stop;
  sigemptyset(&stop);
  sigaddset(&stop, SIGTERM);
  pthread_sigmask(SIG_BLOCK, &stop, nullptr);
  behind.open(argv[1]);
  CORBA::ORB_var orb = the_orb = CORBA::ORB_init(argc, argv);
  CORBA::Object_var root = orb->resolve_initial_references("RootPOA");
  PortableServer::POA_var poa = the_poa = PortableServer::POA::_narrow(root);
  PortableServer::POAManager_var manager = poa->the_POAManager();
  manager->activate();
{served}
  std::cout << std::flush;
  int number = 0;
  sigwait(&stop, &number);
  orb->destroy();
}}
"""


def parts_of(words: str) -> List[str]:
    """The parameters in C++ of a declaration."""
    found, depth = [""], 0
    for char in words:
        depth += (char in "<(") - (char in ">)")
        if char == "," and depth == 0:
            found.append("")
        else:
            found[-1] += char
    return [one.strip() for one in found if one.strip()]


def relayed(line: str, other: str, names: Dict[str, str]) -> str:
    """A method that hands its call to another object: of what is declared as purely virtual. names: of interfaces, which
    mean their skeletons in a relay, with all that stands before them."""
    whole = re.sub(rf"(?<![\w:])({'|'.join(names)})::", lambda found: f"{names[found[1]]}::", line)
    result, name, words = re.fullmatch(r"\s*virtual (.*?)(\w+)\((.*)\) = 0;", whole).groups()
    parts = [re.sub(r"\w+$", f"a{number}", one) for number, one in enumerate(parts_of(words))]
    given = ", ".join(f"a{number}" for number in range(len(parts)))
    return (f"  {result.strip()} {name}({', '.join(parts)}) override {{ {other}_var other = {other}::_unchecked_narrow("
            f"target); {'' if result.strip() == 'void' else 'return '}other->{name}({given}); }}")


class OmniOrb:
    """A relay over omniORB for all interfaces of files, by what omniidl makes of them and of all that they include."""

    def __init__(self, folder: str, files: List[Declared], *folders: str) -> None:
        self.folder, self.files, self.folders = folder, files, folders
        self.sources = list(dict.fromkeys(base_of(path) for file in files for path in self.included(file)))
        self.paths = [next(path for folder in folders if os.path.exists(path := os.path.join(folder, f"{source}.idl")))
                      for source in self.sources]
        self.interfaces = {name: one for file in files for name, one in file.interfaces.items()}
        os.makedirs(folder, exist_ok=True)
        for name in {*IN_OMNIORB, "COS_sysdep"}:
            self.write(f"{name}.hh" if name in IN_OMNIORB else f"{name}.h",
                       f"#include <{IN_OMNIORB[name]}>\n" if name in IN_OMNIORB else "")

    def write(self, name: str, text: str) -> str:
        path = os.path.join(self.folder, name)
        with open(path, "w", encoding="ascii") as file:
            file.write(text)
        return path

    @staticmethod
    def included(file: Declared) -> List[str]:
        """The files that a file includes, as far as it names what is in them, and itself."""
        found = [one["file"] for one in (*file.types.values(), *file.exceptions.values())]
        return [*found, *(one.file for one in file.interfaces.values()), file.path]

    def stubs(self) -> str:
        """Has omniidl make what is not in omniORB's library, and answers what includes all of it."""
        lines = []
        for number, (base, path) in enumerate(zip(self.sources, self.paths)):
            if base in IN_OMNIORB:
                lines.append(f"#include <{IN_OMNIORB[base]}>")
                continue
            run(tool("omniidl"), *(f"-I{folder}" for folder in self.folders), "-bcxx", f"-C{self.folder}", path)
            lines += [f"#define _0RL_library_version _0RL_library_version_{number}", f'#include "{base}SK.cc"',
                      "#undef _0RL_library_version"]
        return "\n".join(lines)

    def relays(self) -> Tuple[str, Dict[str, str]]:
        """The relays in C++, and their names by the interfaces."""
        classes: Dict[str, str] = {}
        lines: List[str] = []
        bodies = {base: self.bodies(base) for base in {base_of(one.file) for one in self.interfaces.values()}}
        for one in self.interfaces.values():
            if one.abstract:
                continue
            some = bodies[base_of(one.file)]
            at = next((at for at, body in enumerate(some) if re.match(rf" *class _impl_{one.cpp[-1]}\b", body)), None)
            if at is None:
                continue
            body = some.pop(at)
            other, spaces = "::" + "::".join(one.cpp), one.cpp[:-1]
            name = f"Relay_{len(classes)}"
            names = {each.cpp[-1]: "::" + "::".join(each.cpp) for each in reversed(above(one, self.interfaces))}
            bases = [f"public virtual {classes[base]}" for base in one.bases if base in classes]
            skeleton = f"public virtual ::POA_{'::'.join(one.cpp)}"
            lines += [*(f"namespace {space} {{" for space in spaces),
                      f"class {name} : {', '.join([skeleton, *bases, 'public virtual ::Target'])} {{", " public:",
                      *(relayed(line, other, names) for line in re.findall(r"^ *virtual [^;]* = 0;", body, re.M)), "};",
                      "}" * len(spaces)]
            classes[one.name] = "::" + "::".join([*spaces, name])
        return "\n".join(lines), classes

    def bodies(self, base: str) -> List[str]:
        """The classes with purely virtual methods in the header of a file."""
        path = os.path.join(INCLUDE, DECLARED[base]) if base in DECLARED else os.path.join(self.folder, f"{base}.hh")
        with open(path, encoding="ascii") as file:
            return re.findall(r"^ *class _impl_\w+ ?:.*?^ *\};", file.read(), re.M | re.S)

    def program(self) -> str:
        """The relay, compiled."""
        headers = self.stubs()
        relays, classes = self.relays()
        served = "\n".join(f"  serve<{classes[one.name]}>();" for file in self.files for one in file.here)
        source = self.write("relay.cc", RELAY.format(headers=headers, relays=relays, served=served))
        program = os.path.join(self.folder, "relay_omniorb")
        run(tool("g++"), "-w", "-O0", "-DENABLE_CLIENT_IR_SUPPORT", f"-I{self.folder}", source, *ORB, "-o", program)
        return program


CPP = """
// A relay by what is made in C++.
#include <csignal>
#include <cstdio>
#include <fstream>
#include <memory>
{headers}

namespace lr = lemonrudder;

struct Relay {{
  std::string reference;
  std::unique_ptr<lr::idl::Caller> held;
  lr::idl::Caller& relayed() {{
    if (!held) held = std::make_unique<lr::idl::Caller>(*lr::idl::Caller::of(reference));
    return *held;
  }}
}};

template <class Op, class... Results>
lr::Done answered(lr::idl::Asking<Op>& call, const std::tuple<Results...>& results) {{
  return std::apply([&](const auto&... one) {{ return call.answer(one...); }}, results);
}}
template <class Op>
lr::Done answered(lr::idl::Asking<Op>& call, const std::monostate&) {{ return call.answer(); }}
template <class Op, class One>
lr::Done answered(lr::idl::Asking<Op>& call, const One& one) {{ return call.answer(one); }}

template <class Op, class... Raised>
lr::Done raised(lr::idl::Asking<Op>& call, const typename Op::_outcome& outcome, lr::idl::Raises<Raised...>) {{
  std::unique_ptr<lr::Done> done;
  [[maybe_unused]] const auto one = [&](const auto* found) {{
    if (found) done = std::make_unique<lr::Done>(call.raise(*found));
  }};
  (one(outcome.template raised<Raised>()), ...);
  return done ? *done : call.system(lr::SystemException::unknown, lr::Completed::maybe);
}}

template <class Op>
lr::Done passed(lr::idl::Asking<Op>& call, const typename Op::_outcome& outcome) {{
  return outcome ? answered(call, *outcome) : raised(call, outcome, typename Op::_raises());
}}

{relays}

static lr::Loop loop;
static int count = 0;

template <class Made>
static bool serve(std::ifstream& behind) {{
  static Made made;
  std::getline(behind, made.reference);
  return bool(made._offer(loop, "object " + std::to_string(count++)));
}}

int main(int, char** words) {{
  std::ifstream behind(words[1]);
  if (!({served})) return 1;
  if (!loop.open() || loop.listen("127.0.0.1", 0) || loop.stop_at(SIGTERM)) return 1;
  for (int at = 0; at < count; at++) std::puts(loop.reference("object " + std::to_string(at))->c_str());
  std::fflush(stdout);
  return loop.serve() ? 1 : 0;
}}
"""


def relayed_in_cpp(line: str) -> str:
    """A method in C++ that hands its call to another object; one by octets is not relayed."""
    name, asking, words = re.fullmatch(r" *virtual ::lemonrudder::Done (\w+)\((.*?)& _call(.*)\) = 0;", line).groups()
    if not asking.endswith(">"):
        return f"  lr::Done {name}({asking}& call) override {{ return call.refuse(lr::SystemException::no_implement); }}"
    parts = [re.sub(r"\w+$", f"a{number}", one) for number, one in enumerate(parts_of(words))]
    given = ", ".join(f"a{number}" for number in range(len(parts)))
    stub = asking.partition("<")[2].partition("::_ops::")[0]
    return (f"  lr::Done {name}({', '.join([f'{asking}& call', *parts])}) override "
            f"{{ return passed(call, {stub}(relayed()).{name}({given})); }}")


def servants_in(header: str) -> List[str]:
    """The classes of servants in a header of what is made in C++."""
    with open(header, encoding="ascii") as file:
        return re.findall(r"^class \w+ : public virtual (?:::POA_|::lemonrudder::idl::Servant).*?^\};", file.read(),
                          re.M | re.S)


def in_cpp(files: List[Declared], folder: str, name: str) -> str:
    """A relay by what is made of files in C++ in a folder, compiled."""
    headers = sorted(os.path.basename(path) for path in glob.glob(os.path.join(folder, "*_idl.hpp")))
    bodies = {header: servants_in(os.path.join(folder, header)) for header in headers}
    classes: Dict[str, str] = {}
    lines: List[str] = []
    for one in {each: one for file in files for each, one in file.interfaces.items()}.values():
        some = bodies[re.sub(r"\W", "_", base_of(one.file)) + "_idl.hpp"]
        # (POA_ stands before the outermost name)
        own = one.cpp[-1] if len(one.cpp) > 1 else f"POA_{one.cpp[0]}"
        body = some.pop(next(at for at, each in enumerate(some) if each.startswith(f"class {own} ")))
        classes[one.name] = f"Relay_{len(classes)}"
        heads = [f"::POA_{'::'.join(one.cpp)}", *(classes[base] for base in one.bases), "Relay"]
        lines += [f"class {classes[one.name]} : {', '.join(f'public virtual {head}' for head in heads)} {{", " public:",
                  *map(relayed_in_cpp, re.findall(r"^ *virtual [^;]* = 0;", body, re.M)), "};"]
    served = " && ".join(f"serve<{classes[one.name]}>(behind)" for file in files for one in file.here)
    source = os.path.join(folder, "relay.cpp")
    with open(source, "w", encoding="ascii") as file:
        file.write(CPP.format(headers="\n".join(f'#include "{header}"' for header in headers), served=served,
                              relays="\n".join(lines)))
    return compiled("g++", name, source, flags=["-O0", f"-I{folder}"])


C = """
/* A relay by what is made in C. What it is handed out it keeps. */
#define _DEFAULT_SOURCE
#include <stdio.h>
#include <string.h>
#include <unistd.h>
{headers}
#include "loop.h"

enum {{ COUNT = {count} }};
struct relay {{
  char reference[4096];
  lr_idl_caller caller;
  bool is_open;
}};
static struct relay all[COUNT];
static lr_idl_offer offers[COUNT];
static char keys[COUNT][32];

static int64_t opened(struct relay *relay) {{
  if (relay->is_open) return LR_OK;
  relay->caller = (lr_idl_caller)LR_IDL_CALLER;
  int64_t done = lr_idl_caller_of(&relay->caller, relay->reference);
  relay->is_open = done == LR_OK;
  return done;
}}

static int64_t failed(const lr_idl_call *call) {{
  return lr_server_system(call->server, call->ticket, LR_EX_UNKNOWN, 0, LR_COMPLETED_MAYBE);
}}

{relays}

static void perform(lr_server *server, const lr_request *asked) {{
  const lr_idl_offer *offer = lr_idl_find(offers, COUNT, server, asked);
  if (offer != NULL) lr_idl_perform(offer, server, asked);
}}

int main(int count, char **words) {{
  lr_server server = LR_INIT;
  lr_catalogue catalogue = LR_INIT;
  uint16_t port = 0;
  int listener = loop_listen("127.0.0.1", &port);
  FILE *behind = fopen(words[count - 1], "r");
  if (listener < 0 || behind == NULL || lr_catalogue_open(&catalogue) < 0) return 1;
  for (int at = 0; at < COUNT; at++) {{
    if (fgets(all[at].reference, sizeof all[at].reference, behind) == NULL) return 1;
    all[at].reference[strcspn(all[at].reference, "\\n")] = 0;
    snprintf(keys[at], sizeof keys[at], "object %d", at);
  }}
{served}
  for (int at = 0; at < COUNT; at++)
    if (lr_idl_add(&catalogue, &offers[at]) < 0) return 1;
  if (lr_server_open(&server, &catalogue, 1, 2) < 0) return 1;
  for (int at = 0; at < COUNT; at++)
    if (loop_print(LR_TEXT(""), 2, "127.0.0.1", port, keys[at], strlen(keys[at])) < 0) return 1;
  fflush(stdout);
  int served = loop_serve(&server, listener, perform, NULL);
  lr_server_close(&server);
  return served == 0 ? 0 : 1;
}}
"""


def parameters(words: str) -> Dict[str, str]:
    """The parameters in C of a function, by their names."""
    found = (re.fullmatch(r"(.*?)(\w+)", one.strip()) for one in words.split(","))
    return {one[2]: one[1].strip() for one in found if one}


def copied(type: str, name: str) -> str:
    """What makes a variable in C of an argument that comes back."""
    if type.startswith("const char"):
        return f"  v_{name} = strdup({name});"
    inner = type.removeprefix("const ").removesuffix("*").strip()
    return f"  if ({inner}__copy({name}, &v_{name}) < 0) return failed(_call);" if "*" in type else f"  v_{name} = {name};"


def relayed_in_c(name: str, function: str, prototypes: Dict[str, str], given: str, raises: List[str]) -> List[str]:
    """A function in C that hands its call to another object: of a name, of what is made of an operation, and of the
    parameters of a servant."""
    asked, answers, mine = (parameters(one) for one in (prototypes[function], prototypes[f"{function}__answer"], given))
    outs = {each: type[:-1].strip() for each, type in asked.items()
            if type.endswith("*") and not type.startswith("const ") and each != "_raised"}
    passed = ["lr_idl_object_of(&relay->caller)"] + [
        f"&v_{each}" if each in outs else "&raised" if each == "_raised" else each for each in list(asked)[1:]]
    told = ["_call", *(f"&v_{each}" if type.endswith("*") and "char" not in type else f"v_{each}"
                       for each, type in list(answers.items())[1:])]
    lines = [f"static int64_t {name}({given}) {{", "  struct relay *relay = _self;", "  lr_idl_raised raised = LR_IDL_RAISED;",
             *(f"  {type} v_{each};" for each, type in outs.items()),
             *(f"  memset(&v_{each}, 0, sizeof v_{each});" for each in outs),
             "  if (opened(relay) < 0) return failed(_call);",
             *(copied(mine[each], each) for each in outs if each in mine),
             f"  int64_t done = {function}({', '.join(passed)});",
             f"  if (done == LR_OK) return {function}__answer({', '.join(told)});"]
    for each in raises:
        found = flat(each)
        lines.append(f"  if ({found}__of(&raised) != NULL) return {found}__raise(_call, {found}__of(&raised));")
    return [*lines, "  return failed(_call);", "}"]


def offered_in_c(at: int, one: Interface, file: Declared, text: str, prototypes: Dict[str, str]) -> Tuple[List[str], str]:
    """The functions in C of a relay, and what puts it on offer."""
    fields = re.search(rf"typedef struct POA_{flat(one.name)} \{{(.*?)^\}}", text, re.M | re.S)[1]
    lines: List[str] = []
    names = ["&all[%d]" % at]
    raises = {each.name: each.raises for each in file.operations(one)}
    for field, given in re.findall(r"int64_t \(\*(\w+)\)\((.*?)\);", fields):
        # (a keyword begins so)
        operation = field.removeprefix("_c_")
        functions = (f"{flat(base.name)}_{operation}" for base in above(one, file.interfaces))
        function = next(each for each in functions if each in prototypes)
        is_octets = "lr_idl_body" in given + prototypes[function]
        names.append("NULL" if is_octets else f"relay_{at}_{field}")
        if not is_octets:
            lines += relayed_in_c(names[-1], function, prototypes, given, raises[operation])
    lines.append(f"static const POA_{flat(one.name)} servant_{at} = {{{', '.join(names)}}};")
    return lines, f"  offers[{at}] = POA_{flat(one.name)}__offer(&servant_{at}, keys[{at}], strlen(keys[{at}]));"


def in_c(files: List[Declared], folder: str, name: str) -> str:
    """A relay by what is made of files in C in a folder, compiled."""
    headers = sorted(glob.glob(os.path.join(folder, "*_idl.h")))
    text = ""
    for header in headers:
        with open(header, encoding="ascii") as file:
            text += re.sub(r"\n +(?!int64_t|void)", " ", file.read())
    prototypes = dict(re.findall(r"^int64_t (\w+)\((.*?)\);", text, re.M))
    made = [offered_in_c(at, one, file, text, prototypes)
            for at, (file, one) in enumerate((file, one) for file in files for one in file.here)]
    source = os.path.join(folder, "relay.c")
    with open(source, "w", encoding="ascii") as file:
        file.write(C.format(headers="\n".join(f'#include "{os.path.basename(header)}"' for header in headers),
                            relays="\n".join(line for lines, _ in made for line in lines), count=len(made),
                            served="\n".join(line for _, line in made)))
    return compiled("gcc", name, source, *glob.glob(os.path.join(folder, "*_idl.c")), os.path.join(EXAMPLES, "loop.c"),
                    flags=["-pthread", f"-I{folder}", f"-I{EXAMPLES}"])


# ---- the exchange ----

class Answer:
    """What servants in Python answer next, and what they were asked."""

    def __init__(self) -> None:
        self.due: Any = None
        self.asked: Any = None
        self.was_asked = asyncio.Event()

    def servant(self, values: Values, one: Interface) -> Any:
        """A servant that answers each operation of an interface so."""

        def method(own: Any, *given: Any) -> Any:
            self.asked = given
            self.was_asked.set()
            if isinstance(self.due, Exception):
                raise self.due
            return self.due

        base = values.made(one.file, f"_POA_{flat(one.name)}")
        return type("Servant", (base,), {each.method: method for each in values.file.operations(one)})()


class Exchange:
    """Calls of all operations with types of all interfaces, through relays to servants in Python: each with random
    arguments, results and exceptions, which are the same at the other end. calls: how many there were."""

    def __init__(self, test: unittest.TestCase, files: List[Declared], seed: int) -> None:
        self.test, self.answer, self.calls, self.operations = test, Answer(), 0, 0
        self.values = [Values(file, random.Random(f"{seed} {file.base}")) for file in files]

    async def through(self, *relays: List[str]) -> None:
        """Makes all calls through relays, the last of which is called."""
        served = [(values, one) for values in self.values for one in values.file.here]
        async with lr.Server() as server:
            for number, (values, one) in enumerate(served):
                lr.idl.add(server, f"object {number}", self.answer.servant(values, one))
            await server.listen("127.0.0.1")
            found = [str(server.reference(f"object {number}")) for number in range(len(served))]
            with behind(found, *relays) as references:
                for (values, one), reference in zip(served, references):
                    async with values.made(one.file, one.name)._of(reference) as stub:
                        await self.interface(values, stub, one)

    async def interface(self, values: Values, stub: Any, one: Interface) -> None:
        """Calls all operations of an interface."""
        for operation in values.file.operations(one):
            with self.test.subTest(f"{values.file.base}: {one.name}::{operation.name}"):
                await self.operation(values, stub, operation)

    async def operation(self, values: Values, stub: Any, operation: Operation) -> None:
        """Calls an operation, which is one with types where these can be made."""
        made = stub._interface.operations[operation.name]
        if values.file.is_raw(operation):
            return
        self.test.assertNotIsInstance(made, lr.idl.OfOctets)
        self.operations += 1
        await self.call(values, stub, operation, None)
        for name in operation.raises:
            await self.call(values, stub, operation, name)

    async def call(self, values: Values, stub: Any, operation: Operation, raised: Optional[str]) -> None:
        """A call that ends by results, or by an exception."""
        given = [values.of(type) for type in operation.arguments]
        results = tuple(values.of(type) for type in operation.results)
        self.answer.due = values.exception(raised) if raised else results[0] if len(results) == 1 else results or None
        self.answer.was_asked.clear()
        self.calls += 1
        try:
            came = await getattr(stub, operation.method)(*given)
        except lr.idl.UserException as exception:
            came = exception
        await asyncio.wait_for(self.answer.was_asked.wait(), SECONDS)
        self.test.assertEqual(plain(self.answer.asked), plain(given))
        self.test.assertEqual(plain(came), plain(self.answer.due))
