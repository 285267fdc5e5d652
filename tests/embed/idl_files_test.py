"""Tests what the backend of idl/lemonrudder makes of IDL as systems have it: all of omniORB's files, and random ones.

What is made compiles in each language without a warning. A store with interfaces that inherit over several levels, a
type that holds itself, and an operation by octets is served and called in each language, against omniORB.
"""
from __future__ import annotations

import asyncio
import glob
import os
import random
import re
import subprocess
import sys
import tempfile
import unittest
from collections.abc import Callable, Iterable
from typing import Any

from scripts.library import VERSION
from tests import base
from tests.embed import idl_random, idl_test
from tests.embed.idl_c_test import words_of
from tests.embed.idl_rust_test import KIT, MANIFEST
from tests.embed.idl_test import EMBED, FOLDER, LANGUAGES, compiled, lr, made, omniorb_program, run, serving
from tests.programs import NEEDS, ROOT, needs, tool

# where Debian's package omniorb-idl puts omniORB's files
OMNIORB = "/usr/share/idl/omniORB"
FOLDERS = (OMNIORB, os.path.join(OMNIORB, "COS"))
# how many of them the front end of omniidl takes
TAKEN = 61
# .. what declares all that another one declares, so that it is made in a folder of its own
TWICE = "Naming.idl"
# how many random files a seed stands for, how many declarations each of their modules has at most, and how many of them
# each compiler of C++ and that of Rust are shown, which take most of the time, and with these mypy as packages; with
# ALL_FILES=1 in the environment all are shown, to g++ so many at once
COUNT, SIZE, FEW, AT_ONCE = 300, 2, 4, 10
# mypy keeps here what it knows of what all stand on
KNOWN = os.path.join(FOLDER.name, "mypy")
OF_C = ["-std=c11", "-Wall", "-Wextra", "-Wpedantic", "-Wshadow", "-Wconversion"]
OF_CPP = ["-std=c++17", "-Wall", "-Wextra"]
OF_HEADERS = ["-std=c++11", "-Wall", "-Wextra", "-Wpedantic"]
STRICT = "#![allow(dead_code)]\n#![deny(warnings, unsafe_code)]\n"


def omniidl(paths: Iterable[str], folder: str, *words: str) -> subprocess.CompletedProcess[str]:
    """A run of the backend on files, which may include omniORB's and each other. (It finds no rustfmt.)"""
    found = [f"-I{each}" for each in (*FOLDERS, os.path.dirname(folder))]
    command = [tool("omniidl"), *found, "-p", os.path.join(ROOT, "idl"), "-blemonrudder", *words, f"-Wbfolder={folder}"]
    return subprocess.run([*command, *paths], capture_output=True, text=True, timeout=idl_test.SECONDS, check=False,
                          env={**os.environ, "PATH": "/nowhere"})


def taken(paths: Iterable[str]) -> list[str]:
    """The files of omniORB that the front end takes. (Two of them end it by a signal.)"""
    words = [tool("omniidl"), *(f"-I{folder}" for folder in FOLDERS)]
    return [path for path in paths if subprocess.run(
        [*words, path], capture_output=True, check=False, timeout=idl_test.SECONDS).returncode == 0]


def number_of(name: str) -> str:
    """The number of a random file, which its modules have."""
    return "".join(re.findall(r"\d+", name)[:1])


def rust_name(name: str) -> str:
    """The module in Rust of a random file."""
    return re.sub(r"(?<=[a-z])(?=[A-Z])", "_", name).lower() + "_idl.rs"


def want_files() -> None:
    """Skips where omniORB's files are not there."""
    if not os.path.isdir(OMNIORB):
        raise unittest.SkipTest(NEEDS + "omniorb-idl")


class Judge:
    """What a compiler says of all that was made in a folder: nothing."""

    def __init__(self, folder: str) -> None:
        self.folder = folder

    def names(self, end: str) -> list[str]:
        found = (os.path.basename(path) for path in glob.glob(os.path.join(self.folder, f"*_idl{end}")))
        return sorted(name for name in found if name != f"lemonrudder_idl{end}")

    def whole(self, header: str) -> set[str]:
        """A header in C++, and those that it includes."""
        with open(os.path.join(self.folder, header), encoding="ascii") as file:
            found = re.findall(r'^#include "(\w+_idl\.hpp)"', file.read(), re.M)
        return {header}.union(*(self.whole(one) for one in found if one != "lemonrudder_idl.hpp"))

    def halves(self, seed: int) -> list[list[str]]:
        """The headers in C++ in two parts, of which few include the same."""
        names = self.names(".hpp")
        random.Random(seed).shuffle(names)
        halves: list[list[str]] = [[], []]
        seen: list[set[str]] = [set(), set()]
        for name in sorted(names, key=lambda name: -len(self.whole(name))):
            open_ones = [at for at in (0, 1) if len(halves[at]) <= len(names) // 2]
            at = min(open_ones, key=lambda at: (len(self.whole(name) - seen[at]), len(seen[at])))
            halves[at].append(name)
            seen[at] |= self.whole(name)
        return halves

    def compiles(self, compiler: str, end: str, flags: list[str], some: Iterable[str] | None = None) -> None:
        """One source includes sources or headers: all, where none are given."""
        source = os.path.join(self.folder, f"all{end.replace('h', 'c')}")
        with open(source, "w", encoding="ascii") as file:
            file.writelines(f'#include "{name}"\n' for name in some or self.names(end))
        run(tool(compiler), *flags, "-Werror", f"-I{os.path.join(ROOT, 'embed', 'include')}", "-fsyntax-only", source)

    def python(self, is_seen: Callable[[str], bool] = lambda package: True) -> None:
        """Each module and package is imported, and mypy has nothing to say of modules, and of packages, which say what is
        in modules, as far as it is to see them."""
        found = glob.glob(os.path.join(self.folder, "**", "__init__.py"), recursive=True)
        packages = [os.path.relpath(os.path.dirname(path), self.folder).replace(os.sep, ".") for path in found]
        modules = [name[:-3] for name in self.names(".py")]
        path = os.path.join(ROOT, "bindings", "python")
        each = "import importlib, sys\nfor name in sys.argv[1:]: importlib.import_module(name)"
        run(sys.executable, "-c", each, *packages, *modules, cwd=self.folder, env={
            **os.environ, "PYTHONPATH": os.pathsep.join([self.folder, path])})
        run(tool("mypy"), "--strict", "--no-error-summary", "--cache-dir", KNOWN,
            *(word for module in (*filter(is_seen, packages), *modules) for word in ("-m", module)), cwd=self.folder,
            env={**os.environ, "MYPYPATH": path})

    def rust(self, name: str, some: Iterable[str] | None = None) -> None:
        """A crate of modules, all where none are given, compiles without a warning."""
        folder = os.path.join(self.folder, "crate")
        os.makedirs(os.path.join(folder, "src"))
        for source in some or self.names(".rs"):
            os.rename(os.path.join(self.folder, source), os.path.join(folder, "src", source))
        with open(os.path.join(folder, "Cargo.toml"), "w", encoding="ascii") as file:
            file.write(MANIFEST.format(name=name, root=ROOT))
        modules = (os.path.basename(path)[:-3] for path in sorted(glob.glob(os.path.join(folder, "src", "*.rs"))))
        with open(os.path.join(folder, "src", "lib.rs"), "w", encoding="ascii") as file:
            file.write(STRICT + "".join(f"pub mod {module};\n" for module in modules))
        KIT.cargo(folder, "check")


@needs("omniidl", "gcc", "g++", "clang++", "mypy", "cargo-clippy")
class OmniOrb(unittest.TestCase):
    """All files of omniORB that the front end takes, with -Wbpartial."""

    @classmethod
    def setUpClass(cls) -> None:
        want_files()
        top = tempfile.TemporaryDirectory(prefix="idl_files")
        cls.addClassCleanup(top.cleanup)
        cls.judge, cls.apart = (Judge(os.path.join(top.name, name)) for name in ("made", "apart"))
        paths = [path for folder in FOLDERS for path in sorted(glob.glob(os.path.join(folder, "*.idl")))]
        cls.taken = taken(paths)
        words = "-Wbpartial," + ",".join(LANGUAGES)
        twice = [path for path in cls.taken if os.path.basename(path) == TWICE]
        cls.ran = omniidl([path for path in cls.taken if path not in twice], cls.judge.folder, words)
        cls.ran_apart = omniidl(twice, cls.apart.folder, words)

    def test_taken(self) -> None:
        """Each is taken, and of what is left out there is a line."""
        self.assertEqual(len(self.taken), TAKEN)
        for ran in (self.ran, self.ran_apart):
            self.assertEqual(ran.returncode, 0, ran.stderr)
            self.assertEqual([line for line in ran.stderr.splitlines() if " any: " in line
                              and not line.endswith(" any: the table leaves it out")], [])
        self.assertEqual(len(self.judge.names(".py") + self.apart.names(".py")), TAKEN)
        with open(os.path.join(self.judge.folder, "CosEventComm_idl.py"), encoding="ascii") as file:
            self.assertIn("async def push(self, data: _idl.Any) -> None:", file.read())

    def test_c(self) -> None:
        """All sources in C compile."""
        for judge in (self.judge, self.apart):
            judge.compiles("gcc", ".c", OF_C)

    @base.each_seed(1, 1)
    def test_cpp(self, seed: int) -> None:
        """All headers in C++ compile, by either compiler about a half of them, which the seed says."""
        for compiler, names in zip(random.Random(seed).sample(("g++", "clang++"), 2), self.judge.halves(seed)):
            self.judge.compiles(compiler, ".hpp", OF_CPP, names)
        self.apart.compiles("g++", ".hpp", OF_CPP)

    def test_python(self) -> None:
        """All modules of Python are imported, and have their types."""
        for judge in (self.judge, self.apart):
            judge.python()

    def test_rust(self) -> None:
        """All modules of Rust compile."""
        for judge, name in ((self.judge, "omniorb-files"), (self.apart, "omniorb-naming")):
            judge.rust(name)


def shown(files: list[idl_random.File], seed: int) -> tuple[list[idl_random.File], list[tuple[str, list[idl_random.File]]]]:
    """The files of these that C++ and Rust are shown, and those that a compiler of C++ is shown at once."""
    if os.environ.get("ALL_FILES"):
        return files, [("g++", files[at:at + AT_ONCE]) for at in range(0, len(files), AT_ONCE)]
    some = random.Random(seed).sample(files, 3 * FEW)
    return some, [("g++", some[:FEW]), ("clang++", some[FEW:2 * FEW])]


@needs("omniidl", "gcc", "g++", "clang++", "mypy", "cargo-clippy")
class Random(unittest.TestCase):
    """Random files, with -Wbpartial: interfaces of five levels, all kinds of types, words of each language."""

    @base.each_seed(1, 1)
    def test_random(self, seed: int) -> None:
        """They are taken, and compile in each language, of which C++ and Rust are shown a few."""
        want_files()
        with tempfile.TemporaryDirectory(prefix="idl_random") as top:
            files, folder = idl_random.random_files(seed, COUNT, SIZE), os.path.join(top, "made")
            ran = omniidl(idl_random.written(files, top), folder, "-Wbpartial," + ",".join(LANGUAGES))
            self.assertEqual(ran.returncode, 0, ran.stderr)
            judge, (some, parts) = Judge(folder), shown(files, seed)
            numbers = {"", *(number_of(file.name) for file in some)}
            judge.python(lambda package: number_of(package) in numbers)
            judge.compiles("gcc", ".c", OF_C)
            judge.compiles("g++", ".h", OF_HEADERS)
            for compiler, few in parts:
                with self.subTest(compiler, files=[file.name for file in few]):
                    judge.compiles(compiler, ".hpp", OF_CPP, [f"{file.name}_idl.hpp" for file in few])
            judge.rust("random-files", {rust_name(one.name) for file in some for one in file.whole()})


# ---- the store ----

STORE = """
module Store {
  struct Node;
  typedef sequence<Node> Nodes;
  struct Node { string name; Nodes children; };
  exception Missing { string name; };
  interface Named { readonly attribute string name; };
  interface Box : Named { Node keep(in Node tree) raises (Missing); };
  interface Deep : Named, Box {
    CORBA::TypeCode put(in CORBA::TypeCode value) raises (Missing);
    long call(in long call);
  };
};
"""
PYTHON = '''"""The store in Python: a server, and a client that prints what it is answered."""
import asyncio
import signal
import sys

import lemonrudder as lr
from Store import Deep, Missing, Node
from Store__POA import Deep as DeepServant
from lemonrudder import idl

TK_STRING = 18


class Own(DeepServant):
    def _get_name(self) -> str:
        return "deep"

    async def keep(self, tree: Node) -> Node:
        if not tree.name:
            raise Missing("none")
        return Node(tree.name + "!", tree.children)

    def put(self, body: idl.Body) -> idl.RawReply:
        kind, number = body.unpack("Ll")
        if kind != TK_STRING:
            raise lr.Refuse("MARSHAL")
        if number < 0:
            octets = lr.pack("ss", Missing._id, "below")
            return idl.RawReply(octets, status=lr.ReplyStatus.USER_EXCEPTION)
        return idl.RawReply(lr.pack("Ll", TK_STRING, number + 1))

    def call(self, call: int) -> int:
        return call + 1


async def serve() -> None:
    stop = asyncio.Event()
    asyncio.get_running_loop().add_signal_handler(signal.SIGTERM, stop.set)
    async with lr.Server() as server:
        idl.add(server, "deep", Own())
        await server.listen("127.0.0.1")
        print(server.reference("deep"), flush=True)
        await stop.wait()


async def put(deep: Deep, number: int) -> None:
    try:
        print((await deep.put(lr.pack("Ll", TK_STRING, number))).unpack("Ll")[1])
    except lr.UserException as raised:
        assert raised.body is not None
        print("missing", raised.body.unpack("s")[0])


async def ask(reference: str) -> None:
    async with Deep._of(reference) as deep:
        print(await deep._get_name())
        kept = await deep.keep(Node("a", [Node("", []), Node("b", [Node("c", [])])]))
        print(kept.name, len(kept.children), kept.children[1].children[0].name)
        try:
            await deep.keep(Node("", []))
        except Missing as raised:
            print("missing", raised.name)
        await put(deep, 5)
        await put(deep, -1)
        print(await deep.call(4))


asyncio.run(ask(sys.argv[2]) if len(sys.argv) == 3 else serve())
'''
SAID = ["deep", "a! 2 c", "missing none", "6", "missing below", "5"]
ENDPOINT = ("-ORBendPoint", "giop:tcp:127.0.0.1:")


def source(name: str) -> str:
    return os.path.join(EMBED, f"idl_store{name}")


def in_python() -> list[str]:
    """The words that run the store in Python."""
    path = os.path.join(FOLDER.name, "store.py")
    with open(path, "w", encoding="ascii") as file:
        file.write(PYTHON)
    found = os.pathsep.join([FOLDER.name, os.path.join(ROOT, "bindings", "python")])
    run(tool("mypy"), "--strict", "--cache-dir", KNOWN, path, env={**os.environ, "MYPYPATH": found})
    return ["env", f"PYTHONPATH={found}", sys.executable, path]


def in_cpp() -> list[str]:
    return [compiled("g++", "store_cpp", source(".cpp"))]


def in_c() -> list[str]:
    return words_of("gcc, sanitized", "store_c", source(".c"), flags=[os.path.join(FOLDER.name, "store_idl.c")])


def in_rust() -> list[str]:
    """.. in Rust, whose program a shell ends."""
    with open(source(".rs"), encoding="utf-8") as file:
        folder = KIT.package("store", file.read())
    os.rename(os.path.join(FOLDER.name, "store_idl.rs"), os.path.join(folder, "src", "store_idl.rs"))
    return ["sh", "-c", '"$0" "$@" & trap "kill $!" TERM; wait; exit 0', KIT.built(folder, "store")]


WAYS = {"Python": in_python, "C++": in_cpp, "C": in_c, "Rust": in_rust}


@needs("omniidl", "g++", "gcc", "mypy", "cargo-clippy")
class Store(unittest.TestCase):
    """A store in each language, and over omniORB."""

    @classmethod
    def setUpClass(cls) -> None:
        path = os.path.join(FOLDER.name, "store.idl")
        with open(path, "w", encoding="ascii") as file:
            file.write(STORE)
        ran = omniidl([path], FOLDER.name, "-Wbpartial,python,cpp,c,rust")
        if ran.returncode != 0:
            raise AssertionError(ran.stderr)
        cls.omniorb = omniorb_program("omniorb_store", path, source(".cc"))

    @base.each(WAYS.items)
    def test_store(self, way: Any) -> None:
        """It is called by omniORB, calls omniORB, and itself; what holds itself too deep is refused."""
        words = way()
        with serving(*words, "serve") as reference:
            self.assertEqual(run(self.omniorb, "ask", reference).splitlines(), SAID)
            self.assertEqual(run(*words, "ask", reference).splitlines(), SAID)
            asyncio.run(self.depth(reference))
        with serving(self.omniorb, *ENDPOINT) as reference:
            self.assertEqual(run(*words, "ask", reference).splitlines(), SAID)

    async def depth(self, reference: str) -> None:
        """Sequences stand in each other 64 deep, and no deeper."""
        async with lr.Client.of(lr.Ior.parse(reference)) as client:
            for depth, wanted in ((63, None), (64, "MARSHAL"), (50000, "MARSHAL")):
                # (a text, and a sequence of one; in big endian, which is what a call of octets is in)
                body = b"\0\0\0\2a\0\0\0\0\0\0\1" * depth + b"\0\0\0\2b\0\0\0\0\0\0\0"
                try:
                    self.assertEqual(len((await client.call_raw(client.key, "keep", body)).octets), len(body))
                    found = None
                except lr.SystemException as raised:
                    found = raised.name
                self.assertEqual(found, wanted, depth)


# ---- by themselves ----

# what was once made into what no compiler takes
PLAIN = """#include <orb.idl>
// a grandparent, bases that others have, and in two orders
interface A { void first(); };
interface B : A { void second(); };
interface C : B { void third(); };
interface D : A, B, C { void fourth(); };
interface E {};
interface AE : A, E {};
interface EA : E, A {};
interface Both : AE, EA {};
// words of the languages, and of what is made
interface Phone { void dial(in string call, in long caller, in long key); };
struct Classes { long mro; };
enum Numbers { real, imag, numerator, denominator, conjugate, name, value, to_bytes, from_bytes, bit_length, bit_count,
               as_integer_ratio, is_integer, mro };
struct Macros { long errno; long assert; short SIGTERM; };
enum More { POLLIN, EOF };
interface lemonrudder { string f(); };
struct std { string s; };
struct Names { std inner; string s; };
struct _in { long value; };
struct one { _in two; };
union _out switch (long) { case 1: one label; };
interface Traits { void into(in long x); void from(in long x); void new(in long x); void clone(); };
interface Shadows { void f(in long POLLIN, out More Numbers); void g(in long name); };
module Offers {
  interface loop { void f(); };
  interface key : loop { void g(); };
  interface prefix { void f(); };
  interface done { void f(); };
  interface servant_of { void f(); };
  interface servant { void f(); };
  interface call { void f(); };
  interface caller { void f(); };
};
// types that hold themselves
struct S;
typedef sequence<S> Some;
struct S { Some few; sequence<S> more; };
union U switch (long) { case 1: sequence<U> few; case 2: S tree; };
interface I { U f(inout S tree); };
"""


@needs("omniidl", "gcc", "g++", "clang++", "mypy", "cargo-clippy")
class Plain(unittest.TestCase):
    """What is made without -Wbpartial, and its options."""

    def test_plain(self) -> None:
        """What was once made into what no compiler takes compiles in each language."""
        want_files()
        with tempfile.TemporaryDirectory(prefix="idl_plain") as top:
            path, folder = os.path.join(top, "plain.idl"), os.path.join(top, "made")
            with open(path, "w", encoding="ascii") as file:
                file.write(PLAIN)
            ran = omniidl([path], folder, *(f"-Wb{one}" for one in LANGUAGES))
            self.assertEqual(ran.returncode, 0, ran.stderr)
            judge = Judge(folder)
            for name, judged in (("Python", judge.python), ("C", lambda: judge.compiles("gcc", ".c", OF_C)),
                                 ("headers in C", lambda: judge.compiles("g++", ".h", OF_HEADERS)),
                                 ("C++", lambda: judge.compiles("g++", ".hpp", OF_CPP)),
                                 ("Rust", lambda: judge.rust("plain"))):
                with self.subTest(name):
                    judged()

    def test_macros(self) -> None:
        """The list of macros has those of the headers here."""
        with open(os.path.join(ROOT, "idl", "lemonrudder", "macros.py"), encoding="ascii") as file:
            words = re.findall(r"\w+", file.read())
        for compiler in ("g++", "clang++"):
            header = os.path.join(ROOT, "idl", "lemonrudder", "lemonrudder_idl.hpp")
            said = run(tool(compiler), "-std=gnu++17", "-x", "c++", "-dM", "-E", header,
                       f"-I{os.path.join(ROOT, 'embed', 'include')}")
            found = set(re.findall(r"^#define ([A-Za-z]\w*)", said, re.M))
            lacking = {name for name in found - set(words) if not name.startswith(("LR_", "LEMONRUDDER"))}
            self.assertEqual(lacking, set())

    def test_version(self) -> None:
        """What is made is of the version of this library, and no other is taken."""
        with tempfile.TemporaryDirectory(prefix="idl_version") as folder:
            path = os.path.join(folder, "of.idl")
            with open(path, "w", encoding="ascii") as file:
                file.write("struct S { long x; };")
            self.assertEqual(omniidl([path], folder, "-Wbpython,c,cpp").returncode, 0)
            major, minor, patch = map(int, VERSION.split("."))
            with open(os.path.join(folder, "of_idl.py"), encoding="ascii") as file:
                self.assertIn(f"_idl.made_for({major}, {minor}, {patch})\n", file.read())
            for ours in ((major, minor + 1, 0), (major + 1, 0, 0)):
                self.assertRaises(ImportError, lr.idl.made_for, *ours)
            include = f"-I{os.path.join(ROOT, 'embed', 'include')}"
            for compiler, name in (("gcc", "of_idl.h"), ("g++", "of_idl.hpp")):
                with open(os.path.join(folder, name), encoding="ascii") as file:
                    text = file.read()
                self.assertIn(f"LR_VERSION_NUMBER < {major << 16 | minor << 8 | patch} ", text)
                with open(os.path.join(folder, name), "w", encoding="ascii") as file:
                    other = f"#undef LR_VERSION_NUMBER\n#define LR_VERSION_NUMBER {major << 16 | (minor + 1) << 8}\n"
                    file.write(text.replace("#if LR_VERSION", other + "#if LR_VERSION"))
                ran = subprocess.run([compiler, include, "-fsyntax-only", os.path.join(folder, name)],
                                     capture_output=True, text=True, check=False)
                self.assertIn("make it anew by omniidl", ran.stderr)

    def test_table(self) -> None:
        """The table of types leaves out what it can't say, with a line."""
        with tempfile.TemporaryDirectory(prefix="idl_table") as folder:
            path = os.path.join(folder, "table.idl")
            with open(path, "w", encoding="ascii") as file:
                file.write("struct S;\ntypedef sequence<S> Some;\nstruct S { Some few; };\nstruct T { S one; };"
                           " struct A { any x; };\ninterface I { void f(in T x);\n  void g(in A x);\n  long h(); };\n")
            ran = omniidl([path], folder, "-Wbpartial,types")
            self.assertEqual(ran.stderr.splitlines(), [
                f"{path}:5: Warning: I::f: types that hold themselves: the table leaves it out",
                f"{path}:6: Warning: I::g: any: the table leaves it out"])
            with open(os.path.join(folder, "table.types"), encoding="ascii") as file:
                self.assertEqual(file.read().splitlines()[2:], ["interface IDL:I:1.0", "operation h", "out - long"])

    def test_partial(self) -> None:
        """Of each thing that is left out there is a line, and what uses it is by octets."""
        with tempfile.TemporaryDirectory(prefix="idl_partial") as folder:
            path = os.path.join(folder, "partial.idl")
            with open(path, "w", encoding="ascii") as file:
                file.write("struct S {\n  wchar x; };\ntypedef sequence<S> Some;\nexception E { S x; };\n"
                           "interface I {\n  void f(in Some x);\n  void g() raises (E);\n  void h() context (\"a\");\n"
                           "  attribute wstring w;\n  void j(in I x); };\n"
                           "abstract interface A { void o(); };\nlocal interface L { enum M { n }; };\n"
                           "interface K : A { void p(in A x);\n  L::M q(); };\n")
            ran = omniidl([path], folder, "-Wbpartial,python")
            self.assertEqual([line.replace(path, "") for line in ran.stderr.splitlines()], [
                ":2: Warning: wchar: it is left out", ":3: Warning: S: wchar: it is left out",
                ":4: Warning: S: wchar: it is left out", ":6: Warning: Some: S: wchar: the operation is a raw one",
                ":7: Warning: E: S: wchar: the operation is a raw one",
                ":8: Warning: a context clause: the operation is a raw one",
                ":9: Warning: wstring: the operation is a raw one", ":12: Warning: a local interface: it is left out",
                ":13: Warning: an abstract interface: the operation is a raw one"])
            with open(os.path.join(folder, "partial_idl.py"), encoding="ascii") as file:
                text = file.read()
            self.assertEqual(re.findall(r'OfOctets\("(\w+)"', text), ["f", "g", "h", "_get_w", "_set_w", "p"])
            self.assertEqual(re.findall(r'Operation\("(\w+)"', text), ["j", "o", "q"])


if __name__ == "__main__":
    unittest.main()
