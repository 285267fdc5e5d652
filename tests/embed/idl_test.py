"""Tests what omniidl makes of IDL by the backend of idl/lemonrudder, against omniORB and Combat.

Values of random types go to a server of omniORB and come back, and go through a client of omniORB to a servant in
Python; the bank of examples/bank.idl is served and called in each language.
"""
from __future__ import annotations

import asyncio
import atexit
import contextlib
import functools
import importlib
import os
import random
import re
import signal
import struct
import subprocess
import sys
import tempfile
import time
import tracemalloc
import unittest
from collections.abc import AsyncIterator, Iterable, Iterator
from typing import Any

from tests import base
from tests.embed import idl_types
from tests.programs import ROOT, library, needs, tool

if "LEMONRUDDER_LIBRARY" not in os.environ:
    os.environ["LEMONRUDDER_LIBRARY"] = os.path.join(library(), "lib", "liblemonrudder.so")
sys.path.insert(0, os.path.join(ROOT, "bindings", "python"))

import lemonrudder as lr  # noqa: E402
from lemonrudder import idl  # noqa: E402
from tests.embed import idl_roads  # noqa: E402

# how many seconds a compiler or a program may take on a busy machine
SECONDS = 600
TYPES, VALUES = 24, 12
# .. and of those that go through C++, which compiles slowly
CPP_TYPES = 4
LANGUAGES = ("python", "cpp", "c", "rust", "types")
ORB = ["-lomniDynamic4", "-lomniORB4", "-lomnithread"]
EMBED = os.path.join(ROOT, "tests", "embed")
EXAMPLES = os.path.join(ROOT, "examples")
FOLDER = tempfile.TemporaryDirectory(prefix="idl")
atexit.register(FOLDER.cleanup)
sys.path.insert(0, FOLDER.name)


def run(*words: str, seconds: int = SECONDS, **options: Any) -> str:
    """What a program prints, which has to end well."""
    ended = subprocess.run(words, capture_output=True, text=True, timeout=seconds, check=False, **options)
    if ended.returncode != 0:
        raise AssertionError(f"{' '.join(words)}: status {ended.returncode}\n{ended.stdout}{ended.stderr}")
    return ended.stdout


def omniidl(name: str, text: str, *languages: str, folder: str = FOLDER.name) -> subprocess.CompletedProcess[str]:
    """A run of the backend on a file of this name and text."""
    path = os.path.join(folder, name)
    if text:
        with open(path, "w", encoding="ascii") as file:
            file.write(text)
    words = [tool("omniidl"), "-p", os.path.join(ROOT, "idl"), "-blemonrudder", *(f"-Wb{one}" for one in languages)]
    return subprocess.run([*words, f"-C{folder}", path], capture_output=True, text=True, timeout=SECONDS, check=False)


def backend(idl_file: str, language: str) -> None:
    """Has the backend write what it makes of a file in a language into the folder."""
    words = [tool("omniidl"), "-p", os.path.join(ROOT, "idl"), "-blemonrudder", f"-Wb{language}"]
    run(*words, f"-C{FOLDER.name}", idl_file)


def compiled(compiler: str, name: str, *sources: str, flags: Iterable[str] = ()) -> str:
    """A program in C or C++ over the library, compiled in the folder, without a warning."""
    program = os.path.join(FOLDER.name, name)
    standard = ["-std=c++17"] if "++" in compiler else ["-std=c11", "-Wpedantic", "-Wconversion"]
    archive = os.path.join(library(), "lib", "liblemonrudder.a")
    run(tool(compiler), *standard, "-Wall", "-Wextra", "-Werror", *flags, f"-I{FOLDER.name}",
        f"-I{os.path.join(ROOT, 'embed', 'include')}", *sources, archive, "-o", program)
    return program


@functools.lru_cache(maxsize=None)
def made(name: str, text: str) -> Any:
    """The module in Python that is made of a text of IDL, whose file has this name."""
    ran = omniidl(f"{name}.idl", text, "python")
    if ran.returncode != 0:
        raise AssertionError(ran.stderr)
    importlib.invalidate_caches()
    return importlib.import_module(f"{name}_idl")


@contextlib.contextmanager
def serving(*words: str, **options: Any) -> Iterator[str]:
    """A server, by the reference that it prints first. It ends well by SIGTERM."""
    process = subprocess.Popen(words, stdout=subprocess.PIPE, text=True, **options)
    try:
        yield process.stdout.readline().strip()
        process.send_signal(signal.SIGTERM)
        if process.wait(30) != 0:
            raise AssertionError(f"{words}: status {process.returncode}")
    finally:
        process.kill()
        process.wait()
        process.stdout.close()


def omniorb_program(name: str, idl_file: str, source: str) -> str:
    """A program over omniORB, compiled in the folder."""
    program = os.path.join(FOLDER.name, name)
    run(tool("omniidl"), "-bcxx", f"-C{FOLDER.name}", idl_file)
    stub = os.path.splitext(os.path.basename(idl_file))[0] + "SK.cc"
    run("g++", "-w", "-O0", f"-I{FOLDER.name}", source, os.path.join(FOLDER.name, stub), *ORB, "-o", program)
    return program


# ---- random types ----

ECHO = """
// Echoes of {interface}, and the same by another object, whose reference is given.
#include <csignal>
#include <iostream>
#include "{base}.hh"

static CORBA::ORB_ptr the_orb;

static {interface}_ptr at(const char* reference) {{
  CORBA::Object_var object = the_orb->string_to_object(reference);
  return {interface}::_unchecked_narrow(object);
}}

#define OF(W, X) \\
  W* echo_##W(const W& one) override {{ return new W(one); }} \\
  void turn_##W(W& one, W##_out two) override {{ two = new W(one); }} \\
  void fail_##W(const W& one) override {{ throw X(one); }} \\
  W* echo_by_##W(const char* reference, const W& one) override {{ \\
    {interface}_var other = at(reference); \\
    return other->echo_##W(one); \\
  }} \\
  void turn_by_##W(const char* reference, W& one, W##_out two) override {{ \\
    {interface}_var other = at(reference); \\
    other->turn_##W(one, two); \\
  }} \\
  W* fail_by_##W(const char* reference, const W& one) override {{ \\
    {interface}_var other = at(reference); \\
    try {{ other->fail_##W(one); }} catch (const X& raised) {{ return new W(raised.held); }} \\
    throw CORBA::UNKNOWN(); \\
  }}

class Servant : public POA_{interface}, public PortableServer::RefCountServantBase {{
 public:
{lines}
  CORBA::Object_ptr self() override {{ return _this(); }}
  CORBA::Object_ptr other(CORBA::Object_ptr one) override {{ return CORBA::Object::_duplicate(one); }}
}};

int main(int argc, char** argv) {{
  sigset_t stop;
  sigemptyset(&stop);
  sigaddset(&stop, SIGTERM);
  pthread_sigmask(SIG_BLOCK, &stop, nullptr);
  CORBA::ORB_var orb = the_orb = CORBA::ORB_init(argc, argv);
  CORBA::Object_var root = orb->resolve_initial_references("RootPOA");
  PortableServer::POA_var poa = PortableServer::POA::_narrow(root);
  PortableServer::Servant_var<Servant> servant = new Servant;
  PortableServer::ObjectId_var id = poa->activate_object(servant);
  {interface}_var object = servant->_this();
  CORBA::String_var text = orb->object_to_string(object);
  std::cout << text << std::endl;
  PortableServer::POAManager_var manager = poa->the_POAManager();
  manager->activate();
  int number = 0;
  sigwait(&stop, &number);
  orb->destroy();
}}
"""
CPP = """
// The same by what is made of {interface} in C++.
#include <csignal>
#include <cstdio>
#include "{base}_idl.hpp"

namespace lr = lemonrudder;
static std::string own;

template <class Call, class Outcome>
static lr::Done passed(Call& call, const Outcome& outcome) {{
  return outcome ? call.answer(*outcome) : call.system(lr::SystemException::unknown, lr::Completed::maybe);
}}

#define ASKING(NAME) lr::idl::Asking<{interface}::_ops::NAME>& call
#define OF(W, X) \\
  lr::Done echo_##W(ASKING(echo_##W), const W& one) override {{ return call.answer(one); }} \\
  lr::Done turn_##W(ASKING(turn_##W), const W& one) override {{ return call.answer(one, one); }} \\
  lr::Done fail_##W(ASKING(fail_##W), const W& one) override {{ return call.raise(X{{one}}); }} \\
  lr::Done echo_by_##W(ASKING(echo_by_##W), const std::string& reference, const W& one) override {{ \\
    auto caller = *lr::idl::Caller::of(reference); \\
    return passed(call, {interface}(caller).echo_##W(one)); \\
  }} \\
  lr::Done turn_by_##W(ASKING(turn_by_##W), const std::string& reference, const W& one) override {{ \\
    auto caller = *lr::idl::Caller::of(reference); \\
    const auto outcome = {interface}(caller).turn_##W(one); \\
    if (!outcome) return call.system(lr::SystemException::unknown, lr::Completed::maybe); \\
    return call.answer(std::get<0>(*outcome), std::get<1>(*outcome)); \\
  }} \\
  lr::Done fail_by_##W(ASKING(fail_by_##W), const std::string& reference, const W& one) override {{ \\
    auto caller = *lr::idl::Caller::of(reference); \\
    const auto outcome = {interface}(caller).fail_##W(one); \\
    if (const X* const raised = outcome.raised<X>()) return call.answer(raised->held); \\
    return call.system(lr::SystemException::unknown, lr::Completed::maybe); \\
  }}

class Servant : public POA_{interface} {{
 public:
{lines}
  lr::Done self(ASKING(self)) override {{ return call.answer(*lr::idl::ObjectReference::parse(own)); }}
  lr::Done other(ASKING(other), const lr::idl::ObjectReference& one) override {{ return call.answer(one); }}
}};

int main() {{
  Servant servant;
  lr::Loop loop;
  if (!servant._offer(loop, "echo") || !loop.open() || loop.listen("127.0.0.1", 0) || loop.stop_at(SIGTERM)) return 1;
  own = *loop.reference("echo");
  std::printf("%s\\n", own.c_str());
  std::fflush(stdout);
  return loop.serve() ? 1 : 0;
}}
"""
OPERATIONS = """
  {w} echo_{w}(in {w} one);
  void turn_{w}(inout {w} one, out {w} two);
  void fail_{w}(in {w} one) raises ({x});
  {w} echo_by_{w}(in string reference, in {w} one);
  void turn_by_{w}(in string reference, inout {w} one, out {w} two);
  {w} fail_by_{w}(in string reference, in {w} one);
"""


class Echoes:
    """An interface that echoes values of random types, in Python and over omniORB."""

    def __init__(self, seed: int, count: int) -> None:
        self.kinds, lines = idl_types.random_types(seed, count)
        self.base = f"echoes{seed}_{count}"
        self.interface = f"Echo{seed}_{count}"
        operations = []
        for kind in self.kinds:
            w, x = f"W{kind.idl}", f"X{kind.idl}"
            lines += [f"struct {w} {{ string<20> tag; {kind.idl} value; }};", f"exception {x} {{ {w} held; }};"]
            operations.append(OPERATIONS.format(w=w, x=x))
        operations += ["  Object self();", "  Object other(in Object one);"]
        self.text = "\n".join([*lines, f"interface {self.interface} {{", *operations, "};", ""])
        self.module = made(self.base, self.text)
        self.idl_file = os.path.join(FOLDER.name, f"{self.base}.idl")
        self.program = omniorb_program(self.base, self.idl_file, self.source("_server.cc", ECHO))

    def source(self, end: str, text: str) -> str:
        """A source of a program, whose file has the name of the IDL with an end."""
        path = os.path.join(FOLDER.name, self.base + end)
        lines = "\n".join(f"  OF(W{kind.idl}, X{kind.idl})" for kind in self.kinds)
        with open(path, "w", encoding="ascii") as file:
            file.write(text.format(interface=self.interface, base=self.base, lines=lines))
        return path

    def cpp(self) -> list[str]:
        """The words that run the echoes in C++."""
        backend(self.idl_file, "cpp")
        return [compiled("g++", self.base + "_cpp", self.source("_echo.cpp", CPP))]

    def values(self, dice: random.Random) -> Iterator[tuple[str, Any, type]]:
        """Values of each type: its name, and the exception of it."""
        for kind in self.kinds:
            for _ in range(VALUES):
                w = getattr(self.module, f"W{kind.idl}")
                yield f"W{kind.idl}", w("t" * dice.randrange(8), kind.value(dice, self.module)), getattr(
                    self.module, f"X{kind.idl}")

    def servant(self) -> Any:
        """A servant in Python: each method returns or raises what it is given, one in two as a coroutine."""
        methods: dict[str, Any] = {"self": lambda own: None, "other": lambda own, one: one}

        def of(name: str, exception: type) -> dict[str, Any]:
            async def echo(own: Any, one: Any) -> Any:
                return one

            async def fail(own: Any, one: Any) -> Any:
                raise exception(one)

            def fail_plain(own: Any, one: Any) -> Any:
                raise exception(one)

            return {f"echo_{name}": echo if len(name) % 2 else lambda own, one: one,
                    f"turn_{name}": lambda own, one: (one, one), f"fail_{name}": fail if len(name) % 2 else fail_plain,
                    f"echo_by_{name}": lambda own, reference, one: one,
                    f"turn_by_{name}": lambda own, reference, one: (one, one),
                    f"fail_by_{name}": lambda own, reference, one: one}

        for kind in self.kinds:
            methods.update(of(f"W{kind.idl}", getattr(self.module, f"X{kind.idl}")))
        return type("EchoServant", (getattr(self.module, f"_POA_{self.interface}"),), methods)()


@functools.lru_cache(maxsize=None)
def echoes_of(seed: int, count: int) -> Echoes:
    """The echoes of a seed, compiled once."""
    return Echoes(seed, count)


async def exchanged(test: unittest.TestCase, echoes: Echoes, seed: int, reference: str, behind: str = "") -> None:
    """Each value comes back from an object, and through it from another one, or from a servant in Python."""
    dice = random.Random(seed)
    stub = getattr(echoes.module, echoes.interface)
    async with lr.Server() as server, stub._of(reference) as there:
        idl.add(server, "echo", echoes.servant())
        await server.listen()
        here = behind or str(server.reference("echo"))
        for name, value, exception in echoes.values(dice):
            with test.subTest(name):
                test.assertEqual(await getattr(there, f"echo_{name}")(value), value)
                test.assertEqual(await getattr(there, f"turn_{name}")(value), (value, value))
                with test.assertRaises(exception) as caught:
                    await getattr(there, f"fail_{name}")(value)
                test.assertEqual(caught.exception.held, value)
                test.assertEqual(await getattr(there, f"echo_by_{name}")(here, value), value)
                test.assertEqual(await getattr(there, f"turn_by_{name}")(here, value), (value, value))
                test.assertEqual(await getattr(there, f"fail_by_{name}")(here, value), value)
        own = await getattr(there, "self")()
        test.assertEqual(own.addresses[0].key, there._reference.addresses[0].key)
        test.assertIsNone(await there.other(None))
        test.assertEqual((await there.other(server.reference("echo"))).addresses, server.reference("echo").addresses)


@needs("g++", "omniidl")
class RandomTypes(unittest.TestCase):
    """Values of random types, between Python and omniORB."""

    @base.each_seed(1, 1)
    def test_exchange(self, seed: int) -> None:
        """What goes comes back, in either direction, and by exceptions."""
        echoes = echoes_of(seed, TYPES)
        with serving(echoes.program, "-ORBendPoint", "giop:tcp:127.0.0.1:") as reference:
            asyncio.run(exchanged(self, echoes, seed, reference))

    @base.each_seed(5, 1)
    def test_cpp(self, seed: int) -> None:
        """So do a servant and a stub in C++, before and behind omniORB."""
        echoes = Echoes(seed, CPP_TYPES)
        with serving(echoes.program, "-ORBendPoint", "giop:tcp:127.0.0.1:") as reference, \
                serving(*echoes.cpp()) as other:
            asyncio.run(exchanged(self, echoes, seed, other, reference))
            asyncio.run(exchanged(self, echoes, seed, reference, other))


# ---- names and values in Python ----

SHAPES = """
module Shapes {
  const long FEW = 3;
  const string HELLO = "hel\\"lo";
  enum Colour { red, green, None_ };
  typedef sequence<string<4>, FEW> Names;
  typedef octet Key[4];
  struct Point { short x; short y; };
  typedef Point Line[2];
  union Mark switch (Colour) { case red: Point at; case green: string text; };
  union Any_ switch (boolean) { case TRUE: long id; default: double from; };
  struct Held { Names some; Key its_key; Line a_line; Colour its_colour; unsigned long long number; };
  exception Full { long id; string args; Colour its_colour; };
  exception Lost { Mark where; };
  exception Never {};
  module class {
    interface Base { readonly attribute long size; attribute string name; };
    typedef sequence<Point> Points;
  };
  interface Desk : class::Base {
    struct Inner { long self; };
    Held keep(in Held what) raises (Full);
    Mark draw(in Mark what) raises (Full, Lost);
    Names say(inout Names some, out long count);
    void pass(in long _in, in Inner self);
    oneway void tell(in string what);
    oneway void show(in Mark what);
    double real(in float one, in char two, in boolean three, in octet four);
    class::Points listed(in class::Points some);
  };
  interface Other { long f(); };
};
module More { interface Other { string f(); }; };
interface Other { octet f(); };
"""


class Desk:
    """What the servants of a desk do; a subclass is one of the interface."""

    def __init__(self) -> None:
        self.heard: list[Any] = []
        self.answer: Any = None
        self.title = "a"

    def _get_size(self) -> int:
        return 7

    async def _get_name(self) -> str:
        return self.title

    def _set_name(self, value: str) -> None:
        self.title = value

    def said(self, *values: Any) -> Any:
        """Notes what was asked, and returns or raises what is due, or the first value."""
        self.heard.append(values)
        if isinstance(self.answer, BaseException):
            raise self.answer
        return values[0] if self.answer is None else self.answer

    def keep(self, what: Any) -> Any:
        return self.said(what)

    async def draw(self, what: Any) -> Any:
        return self.said(what)

    def say(self, some: Any) -> Any:
        return self.said(some, some, len(some)) if self.answer is not None else (some, some[:1], len(some))

    def _pass(self, _in: int, _self: Any) -> Any:
        self.said(_in, _self)

    async def tell(self, what: str) -> None:
        self.heard.append(what)

    def show(self, what: Any) -> None:
        self.heard.append(what)

    def real(self, one: float, two: str, three: bool, four: int) -> Any:
        return self.said(one)

    def listed(self, some: Any) -> Any:
        return self.said(some)


@contextlib.asynccontextmanager
async def desk(**options: Any) -> AsyncIterator[tuple[Any, Any, Any]]:
    """The module of the desk, a servant that listens, and a stub for it."""
    made("shapes", SHAPES)
    names = importlib.import_module("Shapes")
    servant = type("Servant", (Desk, importlib.import_module("Shapes__POA").Desk), {})()
    async with lr.Server() as server:
        idl.add(server, "desk", servant)
        await server.listen()
        async with names.Desk._of(server.reference("desk"), timeout=SECONDS, **options) as stub:
            yield names, servant, stub


def held(names: Any, **others: Any) -> Any:
    """A value of Shapes::Held, in which some members are others."""
    values = {"some": ["a", "bc"], "its_key": b"four", "a_line": [names.Point(1, -2), names.Point(0, 3)],
              "its_colour": names.green, "number": 1 << 63, **others}
    return names.Held(**values)


# arguments that are none of their types: what is called, by which values, and what is raised and said
NONE_OF_ITS_TYPE = {
    "a short beyond its range": (lambda n: ("keep", held(n, a_line=[n.Point(1 << 15, 0), n.Point(0, 0)])),
                                 ValueError, "keep: what: a_line: [0]: x: 32768 is no short"),
    "a bound of a sequence": (lambda n: ("keep", held(n, some=["a"] * 4)),
                              ValueError, "keep: what: some: a sequence of 4, and the bound is 3"),
    "a bound of a string": (lambda n: ("keep", held(n, some=["a", "abcde"])),
                            ValueError, "keep: what: some: [1]: a string of 5, and the bound is 4"),
    "the size of an array": (lambda n: ("keep", held(n, its_key=b"five5")),
                             ValueError, "keep: what: its_key: an array of 4, not 5"),
    "octets as a str": (lambda n: ("keep", held(n, its_key="four")),
                        TypeError, "keep: what: its_key: 'four' is no array: it is to be bytes"),
    "a number in place of an enum": (lambda n: ("keep", held(n, its_colour=1)),
                                     TypeError, "keep: what: its_colour: 1 is no Shapes.Colour"),
    "an enum in place of a number": (lambda n: ("keep", held(n, number=n.red)),
                                     TypeError, "keep: what: number: Shapes.Colour.red is no unsigned long long"),
    "a tuple in place of a struct": (lambda n: ("keep", (1, 2)), TypeError, "keep: what: (1, 2) is no Shapes.Held"),
    "below 0": (lambda n: ("keep", held(n, number=-1)), ValueError, "keep: what: number: -1 is no unsigned long long"),
    "a member of another type": (lambda n: ("draw", n.Mark(n.red, "text")),
                                 TypeError, "draw: what: at: 'text' is no Shapes.Point"),
    "a value of no member": (lambda n: ("draw", n.Mark(n.None_, "t")), ValueError,
                             "draw: what: Shapes.Colour.None_ has no member, and there is a value: 't'"),
    "a discriminator of another type": (lambda n: ("draw", n.Mark(True, "text")),
                                        TypeError, "draw: what: _d: True is no Shapes.Colour"),
    "a member's range": (lambda n: ("draw", n.Mark(at=n.Point(0, -32769))),
                         ValueError, "draw: what: at: y: -32769 is no short"),
    "a NUL in a string": (lambda n: ("tell", "a\0b"), ValueError, "tell: what: a NUL in the string 'a\\x00b'"),
    "a wide character": (lambda n: ("tell", "\u20ac"),
                         ValueError, "tell: what: '\u20ac' has characters beyond ISO 8859-1"),
    "a float too large": (lambda n: ("real", 1e39, "c", True, 1), ValueError, "real: one: 1e+39 is no float"),
    "two characters": (lambda n: ("real", 1.0, "cc", True, 1),
                       ValueError, "real: two: 'cc' is no char: one character of ISO 8859-1"),
    "a number as a boolean": (lambda n: ("real", 1.0, "c", 1, 1), TypeError, "real: three: 1 is no boolean"),
    "an octet of 256": (lambda n: ("real", 1.0, "c", True, 256), ValueError, "real: four: 256 is no octet"),
    "what a oneway operation is given": (lambda n: ("show", n.Mark(at=n.Point(1, 70000))),
                                         ValueError, "show: what: at: y: 70000 is no short"),
}
# what a servant returns or raises that is no outcome of its operation
NO_OUTCOME = {
    "a result of another type": (lambda n: n.Point(0, 0), lambda n: ("keep", held(n)), "INTERNAL"),
    "a bound that is passed": (lambda n: held(n, some=["a"] * 4), lambda n: ("keep", held(n)), "INTERNAL"),
    ".. of a raw operation": (lambda n: n.Mark(text="a\0"), lambda n: ("draw", n.Mark(text="")), "INTERNAL"),
    "another number of results": (lambda n: (["a"], ["b"]), lambda n: ("say", ["c"]), "INTERNAL"),
    "an exception that is not declared": (lambda n: n.Never(), lambda n: ("keep", held(n)), "UNKNOWN"),
    ".. by a raw operation": (lambda n: n.Never(), lambda n: ("draw", n.Mark(text="")), "UNKNOWN"),
    "members that are none": (lambda n: n.Full(1 << 31, "", n.red), lambda n: ("keep", held(n)), "INTERNAL"),
    ".. of a raw operation's exception": (lambda n: n.Lost(n.Mark(n.red, 1)), lambda n: ("draw", n.Mark(text="")),
                                          "INTERNAL"),
    "a fault": (lambda n: ZeroDivisionError(), lambda n: ("draw", n.Mark(text="")), "UNKNOWN"),
}


@needs("omniidl")
class Python(unittest.TestCase):
    """What is made of IDL in Python."""

    def test_names(self) -> None:
        """Names are those of the mapping: keywords behind _, the same in two modules, and none of a module."""
        made("shapes", SHAPES)
        names, poa = (importlib.import_module(name) for name in ("Shapes", "Shapes__POA"))
        for where, name, id in ((names, "Other", "IDL:Shapes/Other:1.0"),
                                (names._class, "Base", "IDL:Shapes/class/Base:1.0"),
                                (importlib.import_module("More"), "Other", "IDL:More/Other:1.0"),
                                (importlib.import_module("_GlobalIDL"), "Other", "IDL:Other:1.0")):
            self.assertEqual(getattr(where, name)._interface.ids, (id,))
        self.assertEqual(names.Desk._interface.ids, ("IDL:Shapes/Desk:1.0", "IDL:Shapes/class/Base:1.0"))
        self.assertTrue(issubclass(poa.Desk, poa._class.Base) and issubclass(names.Desk, names._class.Base))
        self.assertTrue(importlib.import_module("More__POA").Other and importlib.import_module("_GlobalIDL__POA").Other)
        self.assertEqual((names.FEW, names.HELLO, names.red, names.Colour.green._v, names.Colour.None_._n),
                         (3, 'hel"lo', names.Colour.red, 1, "None_"))
        self.assertEqual(names.Desk.Inner(5)._self, 5)
        self.assertEqual(names.Any_(_from=1.5), names.Any_(False, 1.5))
        mark = names.Mark(text="a")
        mark.at = names.Point(1, 2)
        self.assertEqual((mark._d, mark._v, mark.at.y), (names.red, names.Point(1, 2), 2))
        self.assertRaises(AttributeError, getattr, mark, "text")
        self.assertRaises(AttributeError, setattr, mark, "other", 1)
        self.assertRaises(TypeError, names.Mark)
        self.assertRaises(TypeError, poa.Desk)

    def test_names_of_python(self) -> None:
        """Names that Python's enums and exceptions have themselves."""
        odd = made("odd", "enum Odd { name, value, mro, items };\nstruct Own { Odd name; long value; long fields; };\n"
                   "exception Raised { long with_traceback; long add_note; };")
        self.assertEqual([one._n for one in odd.Odd], ["_name", "_value", "_mro", "items"])
        own = odd.Own(odd.Odd._value, 1, 2)
        self.assertEqual((own.name, list(own)), (odd.value, [odd.Odd._value, 1, 2]))
        self.assertEqual(str(odd.Raised(1, 2)), "Raised(_with_traceback=1, _add_note=2)")

    def test_repr(self) -> None:
        """What is printed of a value makes it anew, where the modules are there."""
        made("shapes", SHAPES)
        names = importlib.import_module("Shapes")
        made("marks", "module Marks { union lambda switch (short) {"
             " case 1: case 2: long id; default: string text; }; };")
        marks = importlib.import_module("Marks")
        scope = {"Shapes": names, "Marks": marks}
        for value, text in (
                (names.Point(1, -2), "Shapes.Point(x=1, y=-2)"),
                (names.green, "Shapes.Colour.green"),
                (names.Mark(at=names.Point(1, 2)), "Shapes.Mark(at=Shapes.Point(x=1, y=2))"),
                (names.Mark(names.None_, None), "Shapes.Mark(Shapes.Colour.None_, None)"),
                (names.Any_(_from=0.5), "Shapes.Any_(_from=0.5)"),
                (names.Desk.Inner(5), "Shapes.Desk.Inner(_self=5)"),
                (names.Full(7, "x", names.red), "Shapes.Full(id=7, _args='x', its_colour=Shapes.Colour.red)"),
                (marks._lambda(id=5), "Marks._lambda(id=5)"),
                (marks._lambda(2, 5), "Marks._lambda(2, id=5)"),
                (marks._lambda(9, text="a"), "Marks._lambda(9, text='a')")):
            with self.subTest(text):
                self.assertEqual(repr(value), text)
                self.assertEqual(eval(text, scope), value)
        self.assertEqual(str(names.Full(7, "x", names.red)), repr(names.Full(7, "x", names.red)))
        self.assertRaises(ValueError, marks._lambda, 1, text="a")

    def test_many_values(self) -> None:
        """Numbers are read and written at once, of arrays that no format spells too; what takes its time is bounded."""
        names = made("many", """
            typedef long Row[1000]; typedef sequence<Row> Rows; typedef sequence<boolean> Flags;
            union Some switch (char) { case 'a': Row numbers; }; typedef sequence<Some> Somes;
            struct Kinds { sequence<char> chars; double reals[300]; sequence<octet> octets; float few[2]; };
            interface Many {
              long sum(in Rows all, in Flags those); long count(in Somes all); Kinds keep(in Kinds one);
            };
        """)

        class Servant(names._POA_Many):
            def sum(self, all: Any, those: Any) -> int:
                return sum(map(sum, all)) + sum(those)

            def count(self, all: Any) -> int:
                return len(all)

            def keep(self, one: Any) -> Any:
                return one

        async def calls() -> None:
            async with lr.Server() as server:
                idl.add(server, "many", Servant())
                await server.listen()
                async with names.Many._of(server.reference("many"), timeout=SECONDS) as stub:
                    rows = [list(range(row, row + 1000)) for row in range(60)]
                    flags = [bool(one % 3) for one in range(700000)]
                    begun = time.process_time()
                    self.assertEqual(await stub.sum(rows, flags), sum(map(sum, rows)) + sum(flags))
                    self.assertLess(time.process_time() - begun, 0.5)
                    kinds = names.Kinds("a\xff\0", [one / 2 for one in range(300)], b"\0\xff", [0.5, 2])
                    self.assertEqual(await stub.keep(kinds), kinds)
                    for member, value, kind, text in (
                            ("reals", [0.5] * 299 + ["x"], TypeError, "reals: [299]: 'x' is no double"),
                            ("few", [1.0, 1e39], ValueError, "few: [1]: 1e+39 is no float"),
                            ("chars", "a\u20ac", ValueError, "chars: [1]: '\u20ac' is no char")):
                        with self.assertRaisesRegex(kind, "keep: one: " + re.escape(text)):
                            await stub.keep(names.Kinds(**{**vars(kinds), member: value}))
                    for value, text in ((1 << 31, "2147483648 is no long"), (True, "True is no long")):
                        wanted = re.escape(f"sum: all: [0]: [999]: {text}")
                        with self.assertRaisesRegex((TypeError, ValueError), wanted):
                            await stub.sum([[0] * 999 + [value]], [])
                    with self.assertRaisesRegex(TypeError, re.escape("sum: those: [1]: 1 is no boolean")):
                        await stub.sum([], [True, 1])
                    nothing = [names.Some("b", None)]
                    self.assertEqual(await stub.count(nothing * 65536), 65536)
                    with self.assertRaises(lr.SystemException) as caught:
                        await stub.count(nothing * 65537)
                    self.assertEqual(str(caught.exception), "MARSHAL, minor 0, COMPLETED_NO")

        asyncio.run(calls())

    def test_what_is_made_of_a_request(self) -> None:
        """It takes 25 times its octets and 256 for each element at most, whatever the types; beyond it is refused."""
        names = made("grown", """
            struct One { octet x; }; typedef One Many[250]; struct Deep { Many some; };
            union Either switch (char) { case 'a': long big[1000]; case 'b': One first; };
            typedef sequence<One> Ones; typedef sequence<Deep> Deeps; typedef sequence<Either> Eithers;
            typedef sequence<short> Shorts; typedef sequence<boolean> Flags; typedef sequence<string> Texts;
            typedef sequence<octet> Octets; typedef sequence<Octets> Pieces;
            interface Grown {
              void put_ones(in Ones all); void put_deeps(in Deeps all); void put_eithers(in Eithers all);
              void put_shorts(in Shorts all); void put_flags(in Flags all); void put_texts(in Texts all);
              void put_pieces(in Pieces all);
            };
        """)
        most, all_of = 1 << 18, 16384

        def kept(name: str, count: int, octets: bytes) -> Any:
            """What is made of so many elements, and of how many octets; the memory that it took."""
            operation = names._i_Grown.operations[name]
            body = lr.Body(struct.pack(">L", count) + octets, max_elements=all_of)
            tracemalloc.start()
            try:
                plain = (body,) if operation.is_raw else body.unpack(operation.signature.arguments)
                found = operation.values(plain)
                return found, len(body.octets), tracemalloc.get_traced_memory()[1]
            finally:
                tracemalloc.stop()

        text = struct.pack(">L", 11) + b"abcdefghij\0\0"
        for name, count, octets in (("put_ones", all_of, bytes(all_of)), ("put_deeps", 65, bytes(250 * 65)),
                                    ("put_eithers", all_of, b"c" * all_of), ("put_eithers", 8192, b"b\1" * 8192),
                                    ("put_shorts", most // 2, b"\x7f\1" * (most // 2)),
                                    ("put_flags", most, bytes(most)),
                                    ("put_texts", all_of, text * all_of), ("put_pieces", all_of, bytes(4 * all_of))):
            with self.subTest(name=name, count=count):
                (found,), size, memory = kept(name, count, octets)
                self.assertEqual(len(found), count)
                self.assertLess(memory, 25 * size + 256 * all_of)
        for name, count, octets in (("put_deeps", 66, bytes(250 * 66)), ("put_ones", all_of + 1, bytes(all_of + 1)),
                                    ("put_eithers", 8193, b"b\1" * 8193)):
            with self.subTest(name=name, count=count), self.assertRaises((lr.LemonrudderError, lr.Refuse)):
                kept(name, count, octets)

    def test_packages(self) -> None:
        """Two files may have parts of one module; a package of another origin stays as it is."""
        first = made("parts1", "module Parts { struct One { long x; }; };")
        made("parts2", '#include "parts1.idl"\n'
             "module Parts { struct Two { One x; }; module Deep { enum E { e1 }; }; };")
        omniidl("parts1.idl", "", "python")
        parts = importlib.import_module("Parts")
        self.assertIs(parts.One, first.Parts_One)
        self.assertEqual((parts.Two(parts.One(1)).x.x, parts.Deep.e1), (1, parts.Deep.E.e1))
        with tempfile.TemporaryDirectory() as folder:
            os.mkdir(os.path.join(folder, "Parts"))
            with open(os.path.join(folder, "Parts", "__init__.py"), "w", encoding="ascii") as file:
                file.write("mine = 1\n")
            ran = omniidl("parts1.idl", "module Parts { struct One { long x; }; };", "python", folder=folder)
            self.assertEqual((ran.returncode, ran.stderr.strip()),
                             (1, "Parts/__init__.py: it is there, and was not made by omniidl -blemonrudder"))

    def test_calls(self) -> None:
        """Calls with results, attributes, exceptions, and none."""
        async def calls() -> None:
            async with desk() as (names, servant, stub):
                self.assertEqual(await stub.keep(held(names)), held(names))
                for mark in (names.Mark(at=names.Point(-1, 2)), names.Mark(text="t"), names.Mark(names.None_, None)):
                    self.assertEqual(await stub.draw(mark), mark)
                self.assertEqual(await stub.say(["a", "b"]), (["a", "b"], ["a"], 2))
                self.assertIsNone(await stub._pass(3, names.Desk.Inner(4)))
                self.assertEqual(await stub.real(0.5, "c", True, 255), 0.5)
                self.assertEqual(await stub.listed([names.Point(5, 6)]), [names.Point(5, 6)])
                self.assertEqual((await stub._get_size(), await stub._get_name()), (7, "a"))
                self.assertIsNone(await stub._set_name("b"))
                self.assertEqual(await stub._timed(timeout=SECONDS)._get_name(), "b")
                self.assertTrue(await stub._is_a("IDL:Shapes/class/Base:1.0"))
                self.assertFalse(await stub._non_existent())
                self.assertEqual(await (await stub._narrow(names._class.Base))._get_size(), 7)
                self.assertIsNone(await stub._narrow(names.Other))
                servant.answer = names.Full(9, "x", names.green)
                for name, value in (("keep", held(names)), ("draw", names.Mark(text=""))):
                    with self.assertRaises(names.Full) as caught:
                        await getattr(stub, name)(value)
                    self.assertEqual((caught.exception, caught.exception.id, caught.exception._args),
                                     (servant.answer, 9, "x"))
                servant.answer = names.Lost(names.Mark(text="here"))
                with self.assertRaises(names.Lost) as caught:
                    await stub.draw(names.Mark(text=""))
                self.assertEqual(caught.exception.where.text, "here")
                servant.answer, servant.heard = None, []
                await stub.tell("hi")
                await stub.show(names.Mark(text="ho"))
                while len(servant.heard) < 2:
                    await stub._get_size()
                # (one is performed by a task)
                self.assertIn("hi", servant.heard)
                self.assertIn(names.Mark(text="ho"), servant.heard)

        asyncio.run(calls())

    @base.each(NONE_OF_ITS_TYPE.items)
    def test_no_values(self, given: Any) -> None:
        """A value that is none of its type is refused by the stub, and nothing is sent."""
        made_of, kind, text = given
        made("shapes", SHAPES)
        names = importlib.import_module("Shapes")

        async def calls() -> int:
            came: list[Any] = []
            listener = await asyncio.start_server(lambda reader, writer: came.append(writer), "127.0.0.1", 0)
            client = lr.Client("127.0.0.1", listener.sockets[0].getsockname()[1])
            name, *values = made_of(names)
            with self.assertRaises(kind) as caught:
                await getattr(names.Desk(client, "desk"), name)(*values)
            self.assertEqual(str(caught.exception), text)
            await client.close()
            listener.close()
            return len(came)

        self.assertEqual(asyncio.run(calls()), 0)

    @base.each(NO_OUTCOME.items)
    def test_no_outcome(self, given: Any) -> None:
        """What is no outcome of an operation is a system exception, and the log says why."""
        answer, made_of, wanted = given

        async def calls() -> None:
            async with desk() as (names, servant, stub):
                servant.answer = answer(names)
                name, *values = made_of(names)
                with self.assertLogs("lemonrudder", "ERROR"), self.assertRaises(lr.SystemException) as caught:
                    await getattr(stub, name)(*values)
                self.assertEqual((caught.exception.name, caught.exception.completed), (wanted, lr.Completed.MAYBE))

        asyncio.run(calls())

    def test_arguments_of_a_peer(self) -> None:
        """Arguments that pass a bound, or are none of their types, are answered MARSHAL: nothing is asked."""
        point = [(1, 2), (3, 4)]
        rows = {
            "a bound": ("keep", lr.pack("([s]o(hh)(hh)LQ)", (["a"] * 4, b"four", *point, 0, 1))),
            "an enum": ("draw", lr.pack("L", 3)),
            "a union that is short": ("draw", lr.pack("Lh", 0, 1)),
            "a bound of a string": ("say", lr.pack("[s]", ["abcde"])),
        }

        async def calls() -> None:
            async with desk() as (names, servant, stub):
                for row, (name, body) in rows.items():
                    with self.subTest(row), self.assertRaises(lr.SystemException) as caught:
                        await stub._client.call_raw("desk", name, body)
                    self.assertEqual((caught.exception.name, caught.exception.completed), ("MARSHAL", lr.Completed.NO))
                self.assertEqual(servant.heard, [])

        asyncio.run(calls())

    def test_replies_of_a_peer(self) -> None:
        """Results that pass a bound, are none of their types, or more than these are an error of the library."""
        bodies = {"say": lr.pack("[s][s]l", ["abcde"], [], 0), "draw": lr.pack("Ls", 5, "a"),
                  "listed": lr.pack("[(hh)]l", [(1, 2)], 0)}

        async def calls() -> None:
            made("shapes", SHAPES)
            names = importlib.import_module("Shapes")
            async with lr.Server() as server:
                for name, body in {**bodies, "keep": b""}.items():
                    server.add(name, (), {name: lambda asked, body=body: lr.RawReply(body)})
                server.add("more", (), {"draw": lambda asked: lr.RawReply(lr.pack("Lsl", 1, "a", 0))})
                await server.listen()
                async with lr.Client(*server._addresses[0]) as client:
                    for key, name, value in (("say", "say", []), ("draw", "draw", names.Mark(text="")),
                                             ("listed", "listed", []), ("keep", "keep", held(names)),
                                             ("more", "draw", names.Mark(text=""))):
                        with self.subTest(key), self.assertRaises(lr.LemonrudderError) as caught:
                            await getattr(names.Desk(client, key), name)(value)
                        self.assertIn(caught.exception.number, (lr.Error.VALUE, lr.Error.SHORT))

        asyncio.run(calls())

    def test_catalogue(self) -> None:
        """An engine serves the operations of an interface, raw ones among them."""
        made("shapes", SHAPES)
        names = importlib.import_module("Shapes")
        with lr.Catalogue() as catalogue:
            names.Desk._interface.put(catalogue, "desk")
            with self.assertRaises(lr.LemonrudderError):
                catalogue.add_operation("desk", "keep")
            catalogue.add_operation("desk", "another")


# ---- the bank ----

# how each language's bank is run: as a server, and for a deposit
@functools.lru_cache(maxsize=None)
def bank_python() -> list[str]:
    """The bank in Python, made of examples/bank.idl."""
    made_in = os.path.join(FOLDER.name, "bank_python")
    os.makedirs(made_in, exist_ok=True)
    run(tool("omniidl"), "-p", os.path.join(ROOT, "idl"), "-blemonrudder", "-Wbpython", f"-C{made_in}",
        os.path.join(EXAMPLES, "bank.idl"))
    run(sys.executable, "-m", "compileall", "-q", made_in)
    path = os.pathsep.join([made_in, os.path.join(ROOT, "bindings", "python")])
    return ["env", f"PYTHONPATH={path}", sys.executable, os.path.join(EXAMPLES, "idl", "bank.py")]


@functools.lru_cache(maxsize=None)
def bank_cpp(compiler: str = "g++") -> list[str]:
    """The bank in C++."""
    backend(os.path.join(EXAMPLES, "bank.idl"), "cpp")
    return [compiled(compiler, f"bank_{compiler}", os.path.join(EXAMPLES, "idl", "bank.cpp"))]


def dialogue(server: list[str], client: list[str]) -> list[str]:
    """What a client prints that makes some deposits at a server, each in a process of its own."""
    rows = [("alice", "5"), ("alice", "-7"), ("bob", str((1 << 63) - 1)), ("alice", "-5")]
    with serving(*server) as reference:
        return [run(*client, "deposit", reference, *row).strip() for row in rows]


# a client over Combat, and what it takes: one of the programs of its package
COMBAT, OF_COMBAT = ["tclsh", os.path.join(EMBED, "combat_bank.tcl")], ("tclsh", "idl2tcl")
DEPOSITS = ["5", "overdrawn: 5", str((1 << 63) - 1), "0"]
BANKS = {"Python": bank_python, "C++": bank_cpp, "C++ by clang": functools.partial(bank_cpp, "clang++")}


@needs("g++", "clang++", "omniidl")
class Cpp(unittest.TestCase):
    """What is made of IDL in C++."""

    @base.each(lambda: [(name, name) for name in ("g++", "clang++")])
    def test_values(self, compiler: str) -> None:
        """Each kind of declaration compiles without a warning; a value that is none of its type is an error."""
        made("shapes", SHAPES)
        backend(os.path.join(FOLDER.name, "shapes.idl"), "cpp")
        self.assertEqual(run(compiled(compiler, f"shapes_{compiler}", os.path.join(EMBED, "idl_values.cpp"))), "")


@needs("g++", "clang++", "omniidl")
class Bank(unittest.TestCase):
    """The bank of examples/bank.idl, in each language, and over omniORB."""

    @classmethod
    def setUpClass(cls) -> None:
        """The bank over omniORB."""
        cls.omniorb = omniorb_program("omniorb_bank", os.path.join(EXAMPLES, "bank.idl"),
                                      os.path.join(EMBED, "omniorb_bank.cc"))

    @base.each(BANKS.items)
    def test_served(self, bank: Any) -> None:
        """A client of omniORB calls it."""
        self.assertEqual(dialogue([*bank(), "serve"], [self.omniorb]), DEPOSITS)

    @needs(*OF_COMBAT)
    @base.each(BANKS.items)
    def test_served_to_combat(self, bank: Any) -> None:
        """A client of Combat calls it."""
        self.assertEqual(dialogue([*bank(), "serve"], COMBAT), DEPOSITS)

    @base.each(BANKS.items)
    def test_called(self, bank: Any) -> None:
        """It calls a server of omniORB."""
        self.assertEqual(dialogue([self.omniorb, "serve", "-ORBendPoint", "giop:tcp:127.0.0.1:"], bank()), DEPOSITS)

    @base.each(idl_roads.ROADS.items)
    def test_roads(self, road: Any) -> None:
        """Its client goes over all addresses of a reference and over forwards, and acts once."""
        for name, bank in BANKS.items():
            with self.subTest(name):
                idl_roads.crossed(self, bank(), road)


# ---- refusals ----

LEFT_OUT = "it is left out; by -Wbpartial an operation with it is a raw one, which is served and called by its octets"
# an IDL text, and the lines of standard error: what stands behind the name of the file
REFUSED = {
    "a wide character": ("interface I {\n  void f(in wchar x);\n};", [f":2: wchar: {LEFT_OUT}"]),
    "a wide one in a struct": ("struct S {\n  long a;\n  wchar b;\n};", [f":3: wchar: {LEFT_OUT}"]),
    "a wide one in a sequence": ("typedef sequence<wchar> S;", [f":1: wchar: {LEFT_OUT}"]),
    "a wide attribute": ("interface I {\n  attribute wchar x;\n};", [f":2: wchar: {LEFT_OUT}"]),
    "wide characters": ("typedef wchar W;", [f":1: wchar: {LEFT_OUT}"]),
    "wide strings": ("interface I {\n  wstring f();\n};", [f":2: wstring: {LEFT_OUT}"]),
    "a wide constant": ('const wstring W = L"x";', [f":1: wstring: {LEFT_OUT}"]),
    "fixed": ("typedef fixed<5,2> F;", [f":1: fixed: {LEFT_OUT}"]),
    "long double": ("struct S { long double d; };", [f":1: long double: {LEFT_OUT}"]),
    "TypeCode": ("interface I {\n  void f(in CORBA::TypeCode t);\n};", [f":2: TypeCode: {LEFT_OUT}"]),
    "a valuetype": ("valuetype V { public long x; };", [f":1: a valuetype: {LEFT_OUT}"]),
    "a boxed value": ("valuetype V string;", [f":1: a valuetype: {LEFT_OUT}"]),
    "native": ("native N;", [f":1: a native type: {LEFT_OUT}"]),
    "an abstract interface": ("abstract interface I {};", [f":1: an abstract interface: {LEFT_OUT}"]),
    "a local interface": ("local interface I {};", [f":1: a local interface: {LEFT_OUT}"]),
    "a wide one in a union": ("union U switch (long) {\n  case 1: wchar b;\n};", [f":2: wchar: {LEFT_OUT}"]),
    "a wide one in an exception": ("exception E {\n  wchar b;\n};", [f":2: wchar: {LEFT_OUT}"]),
    "a wide one in a struct that holds itself": (
        "struct S;\ntypedef sequence<S> Some;\nstruct S { Some inner;\n  wchar x; };\nstruct T { Some more; };",
        [f":4: wchar: {LEFT_OUT}", f":5: Some: S: wchar: {LEFT_OUT}"]),
    "a context clause": ('interface I {\n  void f() context ("a");\n};', [f":2: a context clause: {LEFT_OUT}"]),
    "two at once": ("interface I {\n  void f(in wstring x);\n  void g(in wchar x);\n};",
                    [f":2: wstring: {LEFT_OUT}", f":3: wchar: {LEFT_OUT}"]),
    "what is refused in a module": ("module M {\n  struct S {\n    wchar x;\n  };\n  interface I {\n"
                                    "    void f(in S one);\n  };\n};",
                                    [f":3: wchar: {LEFT_OUT}", f":6: M::S: wchar: {LEFT_OUT}"]),
    "a base that is refused": ("interface I {\n  void f(in wchar x);\n};\ninterface J : I {};",
                               [f":2: wchar: {LEFT_OUT}", f":4: I: wchar: {LEFT_OUT}"]),
}
# .. by Python alone
ALIKE = {
    "names that are one": ("module A { struct B { long x; }; };\nstruct A_B { long x; };",
                           [":2: A_B and A::B are both A_B in Python"]),
}


@needs("omniidl")
class Refused(unittest.TestCase):
    """IDL that is refused, with its file and line, and nothing written."""

    def refuses(self, text: str, lines: list[str], *languages: str) -> None:
        with tempfile.TemporaryDirectory() as folder:
            ran = omniidl("refused.idl", text, *languages, folder=folder)
            path = os.path.join(folder, "refused.idl")
            found = [line for line in ran.stderr.splitlines() if "arning" not in line]
            self.assertEqual((ran.returncode, found), (1, [path + line for line in lines]))
            self.assertEqual(os.listdir(folder), ["refused.idl"])

    @base.each(REFUSED.items)
    def test_left_out(self, given: tuple[str, list[str]]) -> None:
        """What the product leaves out; then nothing is written of any language."""
        self.refuses(*given, *LANGUAGES)

    @base.each(ALIKE.items)
    def test_alike(self, given: tuple[str, list[str]]) -> None:
        """Names that would be one in Python."""
        self.refuses(*given, "python")

    def test_languages(self) -> None:
        """A language that is none."""
        ran = omniidl("unknown.idl", "interface I {};", "cobol")
        self.assertEqual(ran.returncode, 1)
        self.assertIn("no language: cobol", ran.stderr)

    def test_included(self) -> None:
        """What is left out in a file that is included counts only where it is used."""
        omniidl("inner.idl", "typedef wchar A;\ninterface B { attribute long n; };")
        self.assertEqual(omniidl("outer.idl", '#include "inner.idl"\ninterface C : B {};', "types").returncode, 0)
        ran = omniidl("outer.idl", '#include "inner.idl"\ninterface C { void f(in A one); };', "types")
        self.assertEqual(ran.returncode, 1)
        self.assertIn(f"outer.idl:2: A: wchar: {LEFT_OUT}", ran.stderr)


# ---- the table of types ----

TYPES_OF = {
    "interface I { long f(in string s, inout octet o, out boolean b);\n  oneway void g(in short s); };":
    """interface IDL:I:1.0
operation f
in s string
in o octet
out - long
out o octet
out b boolean
operation g
oneway
in s short
""",
    "module M { typedef sequence<string<3>, 5> S; typedef S A[2][4];\nexception E { A one; Object other; };\n"
    "interface I { attribute S some; void f() raises (E); }; interface J : I {}; };": """exception IDL:M/E:1.0
member one string:3 sequence:5 array:4 array:2
member other object
interface IDL:M/I:1.0
operation _get_some
out - string:3 sequence:5
operation _set_some
in value string:3 sequence:5
operation f
raises IDL:M/E:1.0
interface IDL:M/J:1.0
base IDL:M/I:1.0
""",
    "enum E { p, q }; union U switch (E) { case p: case q: long x; };\nunion V switch (char) { case 'a': U one; "
    "default: struct W { unsigned long long y; } other; };\n#pragma ID V \"IDL:other/V:2.1\"\n"
    "union X switch (boolean) { case TRUE: V one; };": """enum IDL:E:1.0
name p
name q
union IDL:U:1.0 @IDL:E:1.0
case 0 x long
case 1 x long
struct IDL:V/W:1.0
member y ulonglong
union IDL:other/V:2.1 char
case 97 one @IDL:U:1.0
default other @IDL:V/W:1.0
union IDL:X:1.0 boolean
case 1 one @IDL:other/V:2.1
""",
}


@needs("omniidl")
class Types(unittest.TestCase):
    """The table of types."""

    @base.each(TYPES_OF.items)
    def test_lines(self, lines: str) -> None:
        """Each declaration has its lines."""
        text, = (text for text, wanted in TYPES_OF.items() if wanted == lines)
        self.assertEqual(omniidl("table.idl", text, "types").returncode, 0)
        with open(os.path.join(FOLDER.name, "table.types"), encoding="ascii") as file:
            self.assertEqual(file.read(), "giop-types 1\n# of table.idl\n" + lines)


if __name__ == "__main__":
    unittest.main()
