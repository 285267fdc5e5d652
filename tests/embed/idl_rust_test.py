"""Tests what omniidl makes of IDL in Rust by the backend of idl/lemonrudder, against omniORB.

Values of random types go through a servant and a stub in Rust, before and behind omniORB; the bank of examples/idl/bank
is served and called; and what is made passes clippy and rustfmt, and has no unsafe code.
"""
from __future__ import annotations

import asyncio
import glob
import os
import random
import re
import shutil
import tempfile
import unittest
from typing import Any

from tests import base
from tests.embed import idl_test, rust_test
from tests.embed import idl_roads
from tests.embed.idl_test import (
    COMBAT, DEPOSITS, EMBED, EXAMPLES, OF_COMBAT, dialogue, exchanged, omniidl, omniorb_program, run, serving,
)
from tests.programs import NEEDS, ROOT, library, needs

TYPES = 8
# names that Rust has itself, and unions of each kind
ODD = """
enum Odd { name, value, self, Items_1, Items_1_2, RED_GREEN };
struct Own { Odd name; long type; long self; };
struct Result { long a; };
struct Vec { Result r; };
struct type { struct Inner { long x; } held; };
exception Ok { sequence<Own> Some; };
module A { exception Ok { long y; }; };
interface impl { void use(in long call, in long servant, in long fn) raises (Ok, A::Ok); };
#pragma ID impl "IDL:odd/Impl:3.1"
interface Str {};
struct C { long x; };
struct S { C inner; };
exception Arguments { C value; };
exception Results { S lent; };
interface Generic { C f(in C one, in S two) raises (Arguments, Results); };
union Associated switch (long) { case 1: C value; case 2: S lent; };
union OnlyDefault switch (long) { default: octet x; };
union Charred switch (char) { case 'a': case '\\'': long one; case 'b': string two; };
union Negative switch (long) { case -5: boolean below; };
union Inline switch (enum Kind { first, second }) { case first: struct Held { Kind inner; } one; };
union Both switch (boolean) { case TRUE: Own a; case FALSE: string b; };
union Yes switch (boolean) { case TRUE: long x; };
union No switch (boolean) { case FALSE: long x; };
union Always switch (boolean) { case TRUE: case FALSE: long x; };
union Any_odd switch (Odd) { case name: case value: case self: case Items_1: case Items_1_2: case RED_GREEN: long x; };
union One_odd switch (Odd) { case name: default: long x; };
union Big switch (unsigned long long) {
  case 18446744073709551615: short last;
  case 2: case 3: string some;
  default: sequence<octet, 4> rest;
};
interface Many : impl {
  typedef long Grid[2][3];
  struct Inner { long x; };
  const long maxSize = 5;
  const double PI = 3.14159265358979;
  const float F = 0.5;
  const char C = '\\'';
  const string S = "a\\"\\\\\\n\\xe9";
  const long long LEAST = -9223372036854775807;
  const boolean isSo = TRUE;
  const Odd O = value;
  void lots(in long a, in long b, in long c, in long d, in long e, in long f, in long g, in long h, in long i,
            out long j, out Inner k, inout Grid l);
  boolean is_it(in string s);
  long to_it();
  long add(in long a);
  long next();
  long len();
  long new();
  long from(in Own x);
  long perform(in Both x);
  Many clone(in Many x);
  attribute Big bigger;
  readonly attribute Object one, two;
  void keys(in type some);
  Own getHTTPThing(in Negative anHTTPThing);
};
"""
# the words that Rust keeps for itself (The Rust Reference, Keywords) and its primitive types, which IDL lets be names
WORDS = """as async await become box break continue crate do dyn else extern fn for gen if impl let loop macro
macro_rules match mod move mut override priv pub ref return self static super trait try type typeof unsafe unsized use
virtual where while yield safe raw auto bool f32 f64 i8 i16 i32 i64 i128 isize str u8 u16 u32 u64 u128 usize core std
alloc lemonrudder idl ops some none ok err clone debug option result vec reader writer value read write call
servant""".split()
# IDL that has two names that would be one in Rust: what stands behind the name of the file
ALIKE = {
    "types": ("struct Ab_cd { long x; };\nstruct AbCd { long x; };", [":2: AbCd and Ab_cd are both AbCd in Rust"]),
    "a servant": ("interface I {};\nstruct I_servant { long x; };", [":2: I_servant and I are both IServant in Rust"]),
    "members": ("struct S {\n  long a_b;\n  long aB;\n};", [":1: S::aB and S::a_b are both S's a_b in Rust"]),
    "enumerators": ("enum E { a_b, aB };", [":1: E::aB and E::a_b are both E's AB in Rust"]),
    "constants": ("const long a_b = 1;\nconst long aB = 2;", [":2: aB and a_b are both A_B in Rust"]),
    "parameters": ("interface I {\n  void f(in long a_b, in long aB);\n};",
                   [":2: I::f::aB and I::f::a_b are both I::f's a_b in Rust"]),
    "an attribute and an operation": ("interface I {\n  attribute long x;\n  void set_x(in long y);\n};",
                                      [":1: I::set_x and I::_set_x are both I's set_x in Rust"]),
    "operations of two bases": ("interface A { void f_g(); };\ninterface B { void fG(); };\ninterface C : A, B {};",
                                [":3: C::f_g and C::fG are both C's f_g in Rust"]),
    "modules": ("module A_B { struct S { long x; }; };\nmodule AB_ { struct T { long x; }; };\n"
                "module a__b { struct U { long x; }; };", [":3: a__b and A_B are both a_b in Rust"]),
}
# the echoes of tests/embed/idl_test.py: the head of the program, what stands for each type, and the end
HEAD = """//! Echoes in Rust of what is made of {interface}.
#![forbid(unsafe_code)]

mod {base}_idl;

use {base}_idl::*;
use {module}::ops;
use lemonrudder::idl::{{Asking, Caller, Failure, Object, Operation, Reference}};
use lemonrudder::*;
use tokio::net::TcpListener;
use tokio_bank::{{serve, share, Servant, Shared}};

struct Echo {{
    server: Server,
    own: Own,
}}

struct Own(Reference);

fn at(reference: &str) -> Result<{stub}<Caller>, Error> {{
    Ok(Object::of(reference)?.into())
}}

fn passed<O: Operation, P: Operation<Results = O::Results>>(
    call: Asking<'_, '_, O>,
    outcome: Result<O::Results, Failure<P>>,
) -> Result<(), Error> {{
    match outcome {{
        Ok(results) => call.answer(&results),
        Err(_) => call.system(SystemName::Unknown, Completed::Maybe),
    }}
}}

impl {stub}Servant for Own {{
    fn self_(&mut self, call: Asking<'_, '_, ops::Self_>) -> Result<(), Error> {{
        call.answer(&self.0)
    }}

    fn other(&mut self, call: Asking<'_, '_, ops::Other>, one: Reference) -> Result<(), Error> {{
        call.answer(&one)
    }}
"""
EACH = """
    fn echo_wtN(&mut self, call: Asking<'_, '_, ops::EchoWtN>, one: WtN) -> Result<(), Error> {
        call.answer(&one)
    }

    fn turn_wtN(&mut self, call: Asking<'_, '_, ops::TurnWtN>, one: WtN) -> Result<(), Error> {
        call.answer(&(one.clone(), one))
    }

    fn fail_wtN(&mut self, call: Asking<'_, '_, ops::FailWtN>, one: WtN) -> Result<(), Error> {
        call.raise(XtN { held: one })
    }

    fn echo_by_wtN(
        &mut self,
        call: Asking<'_, '_, ops::EchoByWtN>,
        reference: String,
        one: WtN,
    ) -> Result<(), Error> {
        passed(call, at(&reference)?.echo_wtN(&one))
    }

    fn turn_by_wtN(
        &mut self,
        call: Asking<'_, '_, ops::TurnByWtN>,
        reference: String,
        one: WtN,
    ) -> Result<(), Error> {
        passed(call, at(&reference)?.turn_wtN(&one))
    }

    fn fail_by_wtN(
        &mut self,
        call: Asking<'_, '_, ops::FailByWtN>,
        reference: String,
        one: WtN,
    ) -> Result<(), Error> {
        match at(&reference)?.fail_wtN(&one) {
            Err(Failure::Raised(ops::FailWtN::XtN(raised))) => call.answer(&raised.held),
            _ => call.system(SystemName::Unknown, Completed::Maybe),
        }
    }
"""
END = """}}

impl Servant for Echo {{
    fn server(&mut self) -> &mut Server {{
        &mut self.server
    }}

    fn feed(&mut self, _: &Shared<Echo>, connection: u64, came: &[u8]) -> Result<usize, Error> {{
        let Echo {{ server, own }} = self;
        server.serve(connection, Moment::now(), came, |request| {module}::perform(own, request))
    }}
}}

#[tokio::main(flavor = "current_thread")]
async fn main() -> Result<(), Box<dyn std::error::Error>> {{
    let mut catalogue = Catalogue::open()?;
    {module}::offer(&mut catalogue, "echo")?;
    let server = Server::open(catalogue, &Settings::default())?;
    let listener = TcpListener::bind("127.0.0.1:0").await?;
    let port = listener.local_addr()?.port();
    let mut ior = Ior::iiop({module}::ids()[0], Version::V12, "127.0.0.1", port, b"echo")?;
    println!("{{}}", ior.to_text()?);
    let own = Own(Reference::try_from(&mut ior)?);
    serve(listener, &share(Echo {{ server, own }})).await
}}
"""
# a module for each word, and in it all kinds of things with that name
EACH_WORD = """module in_{word} {{
  module {word} {{ struct S {{ long {word}_; }}; }};
  module alias {{ typedef long {word}; }};
  module record {{ struct {word} {{ enum inner {{ {word}_ }} one; }}; }};
  module choice {{
    union {word} switch (long) {{ case 1: ::words::in_{word}::{word}::S {word}_; default: long other; }};
  }};
  module number {{ const long {word} = 1; }};
  module raised {{ exception {word} {{ long x; }}; }};
  module face {{ interface {word} {{ struct S {{ long x; }}; }}; }};
  module calls {{ interface I {{ long {word}(in long {word}_) raises (raised::{word}); }}; }};
}};"""
UNDECLARED = """mod raises_idl;

use lemonrudder::idl::Asking;
use lemonrudder::Error;
use raises_idl::{{i::ops, IServant, {raised}}};

struct Servant;

impl IServant for Servant {{
    fn f(&mut self, call: Asking<'_, '_, ops::F>) -> Result<(), Error> {{
        call.raise({raised} {{ x: 1 }})
    }}
}}

fn main() {{
    let _: &dyn IServant = &Servant;
}}
"""
MANIFEST = """[workspace]

[package]
name = "{name}"
version = "0.0.0"
edition = "2021"

[dependencies]
lemonrudder = {{ path = "{root}/bindings/rust" }}
"""
TOKIO = """tokio = {{ version = "1.24", features = ["macros", "net", "rt"] }}
tokio-bank = {{ path = "{root}/bindings/rust/examples/tokio" }}
"""
STRICT = ["--", "-D", "warnings", "-D", "unsafe-code"]
# what is built once needs nothing for a debugger, or for the next build
LIGHT = {"CARGO_PROFILE_DEV_DEBUG": "0", "CARGO_INCREMENTAL": "0"}


def want_tokio() -> None:
    """Skips what is built over tokio where Debian's crates are not there."""
    if not glob.glob(os.path.join(rust_test.REGISTRY, "tokio-1.*")):
        raise unittest.SkipTest(NEEDS + "librust-tokio-dev")


def made_of(folder: str, texts: dict[str, str]) -> None:
    """Writes what is made of texts of IDL by their names."""
    for name, text in texts.items():
        ran = omniidl(f"{name}.idl", text, "rust", folder=folder)
        if ran.returncode != 0:
            raise AssertionError(ran.stderr)


class Kit:
    """Builds packages of Rust in a folder."""

    def __init__(self) -> None:
        self.folder = tempfile.TemporaryDirectory(prefix="idl_rust")
        self.target = os.path.join(self.folder.name, "target")

    def cargo(self, folder: str, command: str, *words: str) -> None:
        """Runs a command of cargo that is to succeed in a package."""
        # (clippy calls cargo again with what stands behind it)
        status, said = rust_test.cargo(self.target, os.path.join(library(), "lib"), command, "--offline",
                                       *rust_test.OF_REGISTRY, *words, cwd=folder, **LIGHT)
        if status != 0:
            raise AssertionError(said)

    def package(self, name: str, main: str, dependencies: str = "", **idl: str) -> str:
        """A package of a program, and of what is made of texts of IDL by their names."""
        folder = os.path.join(self.folder.name, name)
        source = os.path.join(folder, "src")
        os.makedirs(source)
        for path, text in ((os.path.join(folder, "Cargo.toml"), (MANIFEST + dependencies).format(name=name, root=ROOT)),
                           (os.path.join(source, "main.rs"), main)):
            with open(path, "w", encoding="utf-8") as file:
                file.write(text)
        made_of(source, idl)
        return folder

    def built(self, folder: str, name: str) -> str:
        """The program of a package, which has nothing that clippy speaks of."""
        self.cargo(folder, "clippy", *STRICT)
        self.cargo(folder, "build")
        return os.path.join(self.target, "debug", name)

    def faults(self, folder: str) -> list[str]:
        """The numbers of the errors for which a package does not compile."""
        _, said = rust_test.cargo(self.target, os.path.join(library(), "lib"), "check", "--offline", cwd=folder, **LIGHT)
        return re.findall(r"^error\[(\w+)\]", said, re.M)

    def bank(self) -> list[str]:
        """The words that run the bank in Rust: its package, beside what it takes of this repository."""
        top = os.path.join(self.folder.name, "bank")
        folder = os.path.join(top, "examples", "idl", "bank")
        if not os.path.isdir(folder):
            made = shutil.ignore_patterns("Cargo.lock", "target")
            shutil.copytree(os.path.join(EXAMPLES, "idl", "bank"), folder, ignore=made)
            for name in ("idl", "bindings", "examples/bank.idl"):
                os.symlink(os.path.join(ROOT, name), os.path.join(top, name))
        return [self.built(folder, "idl-bank")]


KIT = Kit()


def source_of(echoes: idl_test.Echoes) -> str:
    """The program of echoes."""
    names = {"interface": echoes.interface, "base": echoes.base, "stub": echoes.interface,
             "module": echoes.interface.lower()}
    each = "".join(EACH.replace("tN", kind.idl.lower()) for kind in echoes.kinds)
    return HEAD.format(**names) + each + END.format(**names)


@needs("cargo", "cargo-clippy", "rustfmt", "omniidl")
class Rust(unittest.TestCase):
    """What is made of IDL in Rust."""

    def test_values(self) -> None:
        """Each kind of declaration passes clippy; calls, values, unions and names are as they are to be."""
        with open(os.path.join(EMBED, "idl_values.rs"), encoding="utf-8") as file:
            folder = KIT.package("values", file.read(), shapes=idl_test.SHAPES, odd=ODD)
        self.assertEqual(run(KIT.built(folder, "values")), "")

    def test_format(self) -> None:
        """What is made is in the form of rustfmt, by what is set where it is written; without rustfmt it is the same in
        another form."""
        with tempfile.TemporaryDirectory() as folder:
            path = os.path.join(folder, "shapes_idl.rs")
            for text in ("", 'use_small_heuristics = "Max"\nmax_width = 80\n'):
                with open(os.path.join(folder, "rustfmt.toml"), "w", encoding="ascii") as file:
                    file.write(text)
                self.assertEqual(omniidl("shapes.idl", idl_test.SHAPES, "rust", folder=folder).returncode, 0)
                run("rustfmt", "--check", "--edition", "2021", path)
            with open(path, encoding="utf-8") as file:
                formatted = file.read()
            words = [shutil.which("omniidl"), "-p", os.path.join(ROOT, "idl"), "-blemonrudder", "-Wbrust"]
            run(*words, f"-C{folder}", os.path.join(folder, "shapes.idl"), env={**os.environ, "PATH": "/nowhere"})
            with open(path, encoding="utf-8") as file:
                self.assertNotEqual(file.read(), formatted)
            run("rustfmt", "--edition", "2021", path)
            with open(path, encoding="utf-8") as file:
                self.assertEqual(file.read(), formatted)

    def test_included(self) -> None:
        """What a file includes is in the module of that file, which stands beside it."""
        inner = "module M { struct S { long x; }; interface B { S f(in S one); }; };"
        outer = '#include "inner.idl"\nmodule M { struct T { S one; }; interface I : B { T g(in T one) ; }; };'
        main = ("mod inner_idl;\nmod outer_idl;\nuse inner_idl::m::S;\nuse outer_idl::m::{i, T};\n"
                'fn main() {\n    assert_eq!(T { one: S { x: 1 } }.one.x, 1);\n'
                '    assert_eq!(i::ids(), ["IDL:M/I:1.0", "IDL:M/B:1.0"]);\n}\n')
        folder = KIT.package("included", main, inner=inner, outer=outer)
        self.assertEqual(run(KIT.built(folder, "included")), "")

    def test_words(self) -> None:
        """Each word of Rust may be the name of anything in IDL."""
        idl = "\n".join(["module words {", *(EACH_WORD.format(word=word) for word in WORDS), "};", "struct All {",
                         *(f"long {word};" for word in WORDS), "};", "enum Every {",
                         ", ".join(f"{word}_" for word in WORDS), "};", "interface Calls {", "void all(",
                         ", ".join(f"in long {word}" for word in WORDS), ");", "};", ""])
        folder = KIT.package("words", "mod words_idl;\n\nfn main() {}\n", words=idl)
        KIT.cargo(folder, "clippy", *STRICT)

    def test_undeclared(self) -> None:
        """A servant that raises an exception which its operation does not declare does not compile."""
        idl = "exception A { long x; };\nexception B { long x; };\ninterface I { void f() raises (A); };"
        for name, raised, wanted in (("declared", "A", []), ("undeclared", "B", ["E0277"])):
            folder = KIT.package(name, UNDECLARED.format(raised=raised), raises=idl)
            with self.subTest(name):
                self.assertEqual(KIT.faults(folder), wanted)

    @base.each(ALIKE.items)
    def test_alike(self, given: tuple[str, list[str]]) -> None:
        """Names that would be one in Rust are refused, and nothing is written."""
        text, lines = given
        with tempfile.TemporaryDirectory() as folder:
            ran = omniidl("alike.idl", text, "rust", folder=folder)
            path = os.path.join(folder, "alike.idl")
            self.assertEqual((ran.returncode, ran.stderr.splitlines()), (1, [path + line for line in lines]))
            self.assertEqual(os.listdir(folder), ["alike.idl"])

    def test_example(self) -> None:
        """The bank is in the form of rustfmt."""
        for name in ("build.rs", "src/main.rs"):
            run("rustfmt", "--check", "--edition", "2021", os.path.join(EXAMPLES, "idl", "bank", name))


@needs("cargo", "cargo-clippy", "g++", "omniidl")
class RandomTypes(unittest.TestCase):
    """Values of random types, by a servant and a stub in Rust."""

    @classmethod
    def setUpClass(cls) -> None:
        want_tokio()

    @base.each_seed(9, 1)
    def test_exchange(self, seed: int) -> None:
        """What goes comes back, before and behind omniORB, and by exceptions."""
        echoes = idl_test.Echoes(seed, TYPES)
        name = f"{echoes.base}_{random.getrandbits(32):x}"
        folder = KIT.package(name, source_of(echoes), TOKIO, **{echoes.base: echoes.text})
        with serving(echoes.program, "-ORBendPoint", "giop:tcp:127.0.0.1:") as reference, \
                serving(KIT.built(folder, name)) as other:
            asyncio.run(exchanged(self, echoes, seed, other, reference))
            asyncio.run(exchanged(self, echoes, seed, reference, other))


@needs("cargo", "cargo-clippy", "g++", "omniidl")
class Bank(unittest.TestCase):
    """The bank of examples/idl/bank."""

    @classmethod
    def setUpClass(cls) -> None:
        """The bank over omniORB."""
        want_tokio()
        cls.bank = KIT.bank()
        cls.omniorb = omniorb_program("omniorb_bank", os.path.join(EXAMPLES, "bank.idl"),
                                      os.path.join(EMBED, "omniorb_bank.cc"))

    def test_served(self) -> None:
        """A client of omniORB calls it."""
        self.assertEqual(dialogue([*self.bank, "serve"], [self.omniorb]), DEPOSITS)

    @needs(*OF_COMBAT)
    def test_served_to_combat(self) -> None:
        """A client of Combat calls it."""
        self.assertEqual(dialogue([*self.bank, "serve"], COMBAT), DEPOSITS)

    def test_called(self) -> None:
        """It calls a server of omniORB."""
        self.assertEqual(dialogue([self.omniorb, "serve", "-ORBendPoint", "giop:tcp:127.0.0.1:"], self.bank), DEPOSITS)

    @base.each(idl_roads.ROADS.items)
    def test_roads(self, road: Any) -> None:
        """Its client goes over all addresses of a reference and over forwards, and acts once."""
        idl_roads.crossed(self, self.bank, road)


if __name__ == "__main__":
    unittest.main()
