"""Makes the packages of what is built, and uses each as one who has nothing else: from a folder that it was unpacked or
installed to.
"""
from __future__ import annotations

import functools
import glob
import hashlib
import os
import re
import shutil
import subprocess
import sys
import tarfile
import tempfile
import unittest

from scripts import packages
from tests import programs
from tests.relay import relays
from tests.embed.first_programs import PRINTED, SECONDS, STRICT, path, run

LIB = f"usr/lib/{packages.TRIPLET}"
# deposits at a bank, one after another, and what is printed of each
ROWS = [("alice", "5"), ("alice", "-7"), ("alice", "-5")]
DEPOSITS = ["5", "overdrawn: 5", "0"]
LANGUAGES = ("python", "cpp", "c", "rust")
# the bank over the crates alone: it serves a connection at a time
BANK = """
mod bank_idl;

use bank_idl::bank::{self, ops, Overdrawn};
use bank_idl::{Bank, BankServant};
use lemonrudder::idl::{Asking, Failure, Object};
use lemonrudder::*;
use std::io::{Read, Write};
use std::net::{TcpListener, TcpStream};
use std::{collections::HashMap, env};

#[derive(Default)]
struct Accounts(HashMap<String, i64>);

impl BankServant for Accounts {
    fn deposit(&mut self, call: Asking<'_, '_, ops::Deposit>, name: String, amount: i64) -> Result<(), Error> {
        let balance = self.0.get(&name).copied().unwrap_or(0);
        if balance + amount < 0 {
            return call.raise(Overdrawn { balance });
        }
        self.0.insert(name, balance + amount);
        call.answer(&(balance + amount))
    }

    fn balance(&mut self, call: Asking<'_, '_, ops::Balance>, name: String) -> Result<(), Error> {
        call.answer(&self.0.get(&name).copied().unwrap_or(0))
    }
}

fn answer(server: &mut Server, accounts: &mut Accounts, id: u64, mut stream: TcpStream) -> Result<(), Error> {
    server.connect(id)?;
    let mut room = [0; 4096];
    while let Ok(size @ 1..) = stream.read(&mut room) {
        server.serve(id, Moment::now(), &room[..size], |request| bank::perform(accounts, request))?;
        if stream.write_all(&server.take_output(id)).is_err() {
            break;
        }
    }
    server.lost(id)
}

fn serve() -> Result<(), Box<dyn std::error::Error>> {
    let mut catalogue = Catalogue::open()?;
    bank::offer(&mut catalogue, "bank")?;
    let mut server = Server::open(catalogue, &Settings::default())?;
    let mut accounts = Accounts::default();
    let listener = TcpListener::bind("127.0.0.1:0")?;
    let port = listener.local_addr()?.port();
    println!("{}", Ior::iiop(bank::ids()[0], Version::V12, "127.0.0.1", port, b"bank")?.to_text()?);
    for (id, stream) in (1..).zip(listener.incoming()) {
        answer(&mut server, &mut accounts, id, stream?)?;
    }
    Ok(())
}

fn main() -> Result<(), Box<dyn std::error::Error>> {
    let words: Vec<String> = env::args().skip(1).collect();
    let [_, reference, account, amount] = &words[..] else { return serve() };
    let mut bank = Bank::from(Object::of(reference)?);
    match bank.deposit(account, amount.parse()?) {
        Err(Failure::Raised(ops::Deposit::Overdrawn(raised))) => println!("overdrawn: {}", raised.balance),
        balance => println!("{}", balance?),
    }
    Ok(())
}
"""


@functools.lru_cache(maxsize=None)
def made(number: int) -> str:
    """The folder of all packages, made for the so-many-th time."""
    folder = tempfile.mkdtemp(prefix=f"packages-{number}-")
    packages.make(programs.library(), folder, given(), is_unproved=True)
    return folder


def given() -> dict[str, str]:
    """The programs that are packed."""
    made = {"giop": programs.path_of("GIOP"), "lemonrudder": relays.program()}
    return {name: path for name, path in made.items() if os.path.exists(path)}


def version() -> str:
    """The version of the packages, which says so where the library is not proved."""
    return packages.Made(programs.library(), {}).version


def octets_of(name: str) -> bytes:
    """What is in a file."""
    with open(name, "rb") as file:
        return file.read()


def sum_of(name: str) -> str:
    return hashlib.sha256(octets_of(name)).hexdigest()


def outside() -> dict[str, str]:
    """The environment, with nothing of the repository on its paths."""
    return {name: value for name, value in os.environ.items() if not name.startswith(("LEMONRUDDER", "PYTHON"))}


@functools.lru_cache(maxsize=None)
def unpacked() -> str:
    """The folder to which the tarball was unpacked."""
    folder = tempfile.mkdtemp(prefix="packages-tarball-")
    with tarfile.open(named("*.tar.gz")) as tar:
        tar.extractall(folder, filter="data")
    top, = glob.glob(os.path.join(folder, "lemonrudder-*"))
    return top


def backend() -> list[str]:
    """The words that run the backend of the tarball."""
    return [programs.tool("omniidl"), "-p", f"{unpacked()}/share/lemonrudder/idl"]


def named(pattern: str) -> str:
    """The one package whose name has a form; the test is skipped where none was made."""
    found = glob.glob(os.path.join(made(1), pattern))
    if not found:
        raise unittest.SkipTest(f"{programs.NEEDS}what makes {pattern}")
    name, = found
    return name


class Packages(unittest.TestCase):
    """Each package."""

    def setUp(self):
        folder = tempfile.TemporaryDirectory()
        self.addCleanup(folder.cleanup)
        self.folder = folder.name

    def prints(self, words, **environment):
        """What is run, with nothing of the repository on its paths, prints the line of the first programs."""
        self.assertEqual(run(words, cwd=self.folder, env={**outside(), **environment}), PRINTED)

    def generates(self, omniidl, *languages, **environment):
        """What omniidl makes of the bank by some words, in a folder; the programs that stand on it are beside that."""
        made_in = os.path.join(self.folder, "made")
        os.makedirs(made_in, exist_ok=True)
        for name in ("bank.idl", "loop.c", "loop.h", "loop_remove.h", "idl/bank.c", "idl/bank.cpp", "idl/bank.py"):
            shutil.copy(path(f"examples/{name}"), self.folder)
        run([*omniidl, "-blemonrudder", *(f"-Wb{one}" for one in languages), f"-C{made_in}", f"{self.folder}/bank.idl"],
            cwd=self.folder, env={**outside(), **environment})
        return made_in

    def compiles(self, made_in, source, *flags):
        """The words that run the banks in C and C++ over what omniidl made, a source and flags."""
        found = []
        for compiler, standard, sources in (("gcc", "c11", ["bank.c", "loop.c", f"{made_in}/bank_idl.c", source]),
                                            ("g++", "c++17", ["bank.cpp"])):
            program = os.path.join(self.folder, f"bank-{compiler}")
            run([programs.tool(compiler), f"-std={standard}", "-pthread", *STRICT, f"-I{made_in}", "-I.", *sources, *flags,
                 "-o", program], cwd=self.folder)
            found.append([program])
        return found

    def deposits(self, *banks, **environment):
        """Each of some banks, by the words that run it, is called by the next one."""
        env = {**outside(), **environment}
        for server, client in zip(banks, [*banks[1:], banks[0]]):
            with self.subTest(server=server, client=client), \
                    subprocess.Popen([*server, "serve"], stdout=subprocess.PIPE, text=True, env=env) as process:
                try:
                    calls = [*client, "deposit", process.stdout.readline().strip()]
                    self.assertEqual([run([*calls, *row], env=env).strip() for row in ROWS], DEPOSITS)
                finally:
                    process.terminate()

    def links(self, include, lib):
        """The first programs in C and C++ are compiled over headers and libraries of two folders."""
        for compiler, standard, source in (("gcc", "c99", "examples/first.c"), ("g++", "c++17", "examples/first.cpp")):
            program = os.path.join(self.folder, compiler)
            words = [programs.tool(compiler), f"-std={standard}", *STRICT, f"-I{include}", path(source), "-o", program]
            for libraries in ([f"{lib}/liblemonrudder.a"], [f"-L{lib}", "-llemonrudder"]):
                with self.subTest(source, libraries=libraries):
                    run([*words, *libraries])
                    self.prints([program], LD_LIBRARY_PATH=lib)

    def test_twice_the_same_octets(self):
        """What is made again has the same octets, and SHA256SUMS their sums."""
        names = sorted(os.listdir(made(1)))
        self.assertEqual(sorted(os.listdir(made(2))), names)
        for name in names:
            with self.subTest(name):
                self.assertEqual(*(octets_of(os.path.join(made(number), name)) for number in (1, 2)))
        names.remove("SHA256SUMS")
        lines = octets_of(f"{made(1)}/SHA256SUMS").decode("ascii").splitlines()
        self.assertEqual(sorted(lines), sorted(f"{sum_of(os.path.join(made(1), name))}  {name}" for name in names))

    def test_tarball(self):
        """It may be unpacked anywhere; pkg-config finds what it has."""
        top = unpacked()
        self.links(f"{top}/include", f"{top}/lib")
        flags = run([programs.tool("pkg-config"), "--cflags", "--libs", "lemonrudder"],
                    env={**os.environ, "PKG_CONFIG_PATH": f"{top}/lib/pkgconfig"}).split()
        run([programs.tool("gcc"), path("examples/first.c"), *flags, "-o", f"{self.folder}/found"])
        self.prints([f"{self.folder}/found"], LD_LIBRARY_PATH=f"{top}/lib")
        for name in given():
            self.assertTrue(run([f"{top}/bin/{name}", "--version"]).startswith(name))
            self.assertTrue(os.path.exists(f"{top}/share/man/man1/{name}.1.gz"), name)
            self.assertTrue(os.path.exists(f"{top}/share/bash-completion/completions/{name}"), name)

    def test_tarball_idl(self):
        """Its backend makes the bank in each language; the banks in C and C++ stand on what it has."""
        top, made_in = unpacked(), self.generates(backend(), *LANGUAGES)
        self.assertEqual(sorted(os.listdir(made_in)),
                         ["_GlobalIDL", "_GlobalIDL__POA", "bank_idl.c", "bank_idl.h", "bank_idl.hpp", "bank_idl.py",
                          "bank_idl.rs", "lemonrudder_idl.c", "lemonrudder_idl.h", "lemonrudder_idl.hpp"])
        self.deposits(*self.compiles(made_in, f"{made_in}/lemonrudder_idl.c", f"-I{top}/include",
                                     f"{top}/lib/liblemonrudder.a"))

    def root(self, pattern="*.deb"):
        """A root into which Debian packages are unpacked."""
        root = os.path.join(self.folder, "root")
        for name in sorted(glob.glob(os.path.join(made(1), pattern))):
            run(["dpkg-deb", "-x", name, root])
        return root

    @programs.needs("dpkg-deb")
    def test_debian(self):
        """All of them, unpacked into one root."""
        root = self.root()
        self.links(f"{root}/usr/include", f"{root}/{LIB}")
        found = {"PKG_CONFIG_PATH": f"{root}/{LIB}/pkgconfig"}
        flags = run([programs.tool("pkg-config"), "--cflags", "--libs", "lemonrudder"], env={**os.environ, **found}).split()
        run([programs.tool("gcc"), path("examples/first.c"), *flags, "-o", f"{self.folder}/found"])
        self.prints([f"{self.folder}/found"], LD_LIBRARY_PATH=f"{root}/{LIB}")
        shared = f"{root}/{LIB}/{packages.library.SONAME}"
        self.prints([sys.executable, shutil.copy(path("examples/first.py"), self.folder)],
                    PYTHONPATH=f"{root}/usr/lib/python3/dist-packages", LEMONRUDDER_LIBRARY=shared)
        self.keeps(sys.executable, PYTHONPATH=f"{root}/usr/lib/python3/dist-packages", LEMONRUDDER_LIBRARY=shared)
        for name in given():
            self.assertTrue(run([f"{root}/usr/bin/{name}", "--version"]).startswith(name))
            for each in (f"man/man1/{name}.1.gz", f"bash-completion/completions/{name}"):
                self.assertTrue(os.path.exists(f"{root}/usr/share/{each}"), each)

    def omniidl_below(self, root):
        """The words that run Debian's omniidl from a root that it is copied to."""
        if programs.tool("omniidl") != "/usr/bin/omniidl":
            raise unittest.SkipTest(f"{programs.NEEDS}Debian's omniidl")
        for name in run(["dpkg", "-L", "omniidl"]).splitlines():
            if name.startswith(("/usr/lib/", "/usr/bin/")) and not os.path.isdir(name):
                os.makedirs(os.path.dirname(root + name), exist_ok=True)
                shutil.copy(name, root + name, follow_symlinks=False)
        return ["/usr/bin/python3", f"{root}/usr/bin/omniidl"]

    @programs.needs("dpkg", "dpkg-deb", "pkg-config")
    def test_debian_idl(self):
        """Beside them in that root, omniidl finds the backend by itself. The banks in C and C++ stand on the package for
        developers alone, that in Python on its own one."""
        root = self.root()
        made_in = self.generates(self.omniidl_below(root), *LANGUAGES, PYTHONPATH=f"{root}/usr/lib/omniidl")
        for name in glob.glob(f"{made_in}/lemonrudder_idl.*"):
            os.remove(name)
        found = {**os.environ, "PKG_CONFIG_PATH": f"{root}/{LIB}/pkgconfig"}
        source, flags = (run(["pkg-config", *words, "lemonrudder"], env=found).split()
                         for words in (["--variable=idl_source"], ["--cflags", "--libs"]))
        banks = self.compiles(made_in, *source, *flags)
        self.deposits(*banks, [sys.executable, f"{self.folder}/bank.py"], LD_LIBRARY_PATH=f"{root}/{LIB}",
                      PYTHONPATH=f"{made_in}:{root}/usr/lib/python3/dist-packages",
                      LEMONRUDDER_LIBRARY=f"{root}/{LIB}/{packages.library.SONAME}")

    @programs.needs("dpkg-deb", "pkg-config")
    def test_debian_outcomes(self):
        """A program that keeps outcomes in SQLite or PostgreSQL stands on the package for developers alone."""
        root = self.root("liblemonrudder*.deb")
        found = {**os.environ, "PKG_CONFIG_PATH": f"{root}/{LIB}/pkgconfig"}
        if subprocess.run(["pkg-config", "--exists", "sqlite3", "libpq"], check=False).returncode != 0:
            self.skipTest(f"{programs.NEEDS}libsqlite3-dev, libpq-dev")
        sources = [run(["pkg-config", f"--variable={kind}_source", "lemonrudder"], env=found).strip()
                   for kind in ("sqlite", "postgres")]
        flags = run(["pkg-config", "--cflags", "--libs", "lemonrudder", "sqlite3", "libpq"], env=found).split()
        run([programs.tool("gcc"), "-std=c99", *STRICT, path("tests/embed/stored.c"), *sources, *flags, "-o",
             f"{self.folder}/stored"])
        said = run([f"{self.folder}/stored", "sqlite", f"{self.folder}/some.db"], env={"LD_LIBRARY_PATH": f"{root}/{LIB}"})
        self.assertIn("find 1 1 1 one", said.splitlines())

    def keeps(self, python, **environment):
        """A store in Python finds its tables in what is installed."""
        words = f"import asyncio, lemonrudder; asyncio.run(lemonrudder.SqliteStore('{self.folder}/its.db').open())"
        run([python, "-c", words], cwd=self.folder, env={**outside(), **environment})

    @programs.needs("dpkg-deb", "cmake", "make")
    def test_debian_with_cmake(self):
        """find_package finds the library of the package for developers."""
        root = self.root("liblemonrudder*.deb")
        with open(os.path.join(self.folder, "CMakeLists.txt"), "w", encoding="ascii") as file:
            file.write("cmake_minimum_required(VERSION 3.13)\nproject(first C)\nfind_package(lemonrudder REQUIRED)\n"
                       f"add_executable(first {path('examples/first.c')})\n"
                       "target_link_libraries(first lemonrudder::lemonrudder)\n")
        run(["cmake", "-S", self.folder, "-B", f"{self.folder}/made", f"-DCMAKE_PREFIX_PATH={root}/usr",
             f"-DCMAKE_LIBRARY_ARCHITECTURE={packages.TRIPLET}"])
        run(["cmake", "--build", f"{self.folder}/made"])
        self.prints([f"{self.folder}/made/first"])

    @programs.needs("lintian")
    def test_lintian(self):
        """It finds no error."""
        ran = subprocess.run(["lintian", "--allow-root", "--tag-display-limit", "0", *glob.glob(f"{made(1)}/*.deb")],
                             stdout=subprocess.PIPE, stderr=subprocess.STDOUT, text=True, check=False)
        self.assertEqual(re.findall("^E: .*", ran.stdout, re.M), [])

    def test_wheel(self):
        """pip installs it into an empty environment, and it brings its library; the bank in Python stands on it."""
        wheel = named("*.whl")
        home = os.path.join(self.folder, "home")
        run([sys.executable, "-m", "venv", home])
        run([f"{home}/bin/python", "-m", "pip", "install", "-q", "--no-index", "--disable-pip-version-check", wheel])
        self.prints([f"{home}/bin/python", shutil.copy(path("examples/first.py"), self.folder)])
        self.keeps(f"{home}/bin/python")
        made_in = self.generates(backend(), "python")
        self.deposits([f"{home}/bin/python", f"{self.folder}/bank.py"], PYTHONPATH=made_in)

    @programs.needs("cargo")
    def test_crates(self):
        """Programs over the crates alone, and the library of the tarball."""
        registry = os.path.join(self.folder, "registry")
        os.makedirs(registry)
        for name in (named("lemonrudder-sys-*.crate"), named("lemonrudder-[0-9]*.crate")):
            with tarfile.open(name) as tar:
                tar.extractall(registry, filter="data")
            with open(os.path.join(registry, os.path.basename(name)[:-6], ".cargo-checksum.json"), "w",
                      encoding="ascii") as file:
                file.write('{"files": {}, "package": "%s"}' % sum_of(name))
        shutil.copy(path("bindings/rust/examples/first.rs"), self.package("first"))
        self.builds("first", registry)
        self.prints([f"{self.folder}/target/debug/first"])
        main = self.package("bank")
        shutil.copy(f"{self.generates(backend(), 'rust')}/bank_idl.rs", os.path.dirname(main))
        with open(main, "w", encoding="ascii") as file:
            file.write(BANK)
        self.builds("bank", registry)
        self.deposits([f"{self.folder}/target/debug/bank"])

    def package(self, name):
        """A package over the crates, by the path of its program's source."""
        run(["cargo", "new", "-q", "--vcs", "none", "--name", name, f"{self.folder}/{name}"])
        with open(f"{self.folder}/{name}/Cargo.toml", "a", encoding="ascii") as file:
            file.write(f'lemonrudder = "{packages.VERSION}"\n')
        return f"{self.folder}/{name}/src/main.rs"

    def builds(self, name, registry):
        """The package is built over the crates of a folder."""
        run(["cargo", "build", "-q", "--offline", "--config", 'source.crates-io.replace-with = "packed"', "--config",
             f'source.packed.directory = "{registry}"'], cwd=f"{self.folder}/{name}",
            env={**os.environ, "LEMONRUDDER_LIB_DIR": f"{unpacked()}/lib", "CARGO_TARGET_DIR": f"{self.folder}/target"})


if __name__ == "__main__":
    unittest.main()
