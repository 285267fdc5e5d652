"""Compiles and runs the first programs of docs/EMBEDDING.md, in the way that it says.

The programs in C and C++ are linked with the shared library, and with the archive. Each program must print the line
that docs/EMBEDDING.md shows.
"""
import os
import subprocess
import sys
import tempfile
import unittest

from tests import programs

PRINTED = "add returned 7, the total is 7\n"
SECONDS = 300
STRICT = ["-Wall", "-Wextra", "-Wpedantic", "-Werror"]


def path(name):
    """The path of a file of the repository."""
    return os.path.join(programs.ROOT, name)


def run(words, **options):
    """Runs words, and answers what they print; raises an error where their status is not 0."""
    ran = subprocess.run(words, stdin=subprocess.DEVNULL, stdout=subprocess.PIPE, stderr=subprocess.PIPE, text=True,
                         timeout=SECONDS, **options)
    if ran.returncode != 0:
        raise AssertionError(f"{' '.join(words)}: status {ran.returncode}\n{ran.stderr}")
    return ran.stdout


class FirstPrograms(unittest.TestCase):
    """The first program of each language."""

    @classmethod
    def setUpClass(cls):
        cls.prefix = programs.library()
        cls.lib = os.path.join(cls.prefix, "lib")

    def setUp(self):
        folder = tempfile.TemporaryDirectory()
        self.addCleanup(folder.cleanup)
        self.folder = folder.name

    def prints(self, words, **options):
        """What is run prints the line."""
        self.assertEqual(run(words, **options), PRINTED)

    def links(self, how, words, **environment):
        """The program that is compiled and linked by these words prints the line."""
        program = os.path.join(self.folder, how)
        run([*words, "-o", program])
        self.prints([program], env={name: value for name, value in {**os.environ, **environment}.items() if value})

    def compiles(self, compiler, standard, source):
        """A program prints the line with either library."""
        programs.tool(compiler)
        words = [compiler, f"-std={standard}", *STRICT, path(source)]
        with self.subTest("static"):
            archive = os.path.join(self.lib, "liblemonrudder.a")
            self.links("static", [*words, f"-I{self.prefix}/include", archive], LD_LIBRARY_PATH="")
        with self.subTest("shared"):
            programs.tool("pkg-config")
            found = dict(os.environ, PKG_CONFIG_PATH=os.path.join(self.lib, "pkgconfig"))
            flags = run(["pkg-config", "--cflags", "--libs", "lemonrudder"], env=found).split()
            self.links("shared", [*words, *flags], LD_LIBRARY_PATH=self.lib)

    def test_c(self):
        """In C."""
        self.compiles("cc", "c99", "examples/first.c")

    def test_cpp(self):
        """In C++."""
        self.compiles("c++", "c++17", "examples/first.cpp")

    def test_python(self):
        """In Python."""
        found = dict(os.environ, PYTHONPATH=path("bindings/python"),
                     LEMONRUDDER_LIBRARY=os.path.join(self.lib, "liblemonrudder.so"))
        self.prints([sys.executable, "-W", "error", path("examples/first.py")], env=found)

    @programs.needs("cargo")
    def test_rust(self):
        """In Rust."""
        built = dict(os.environ, LEMONRUDDER_LIB_DIR=self.lib, CARGO_TARGET_DIR=self.folder)
        self.prints(["cargo", "run", "--quiet", "--offline", "--locked", "--example", "first"],
                    cwd=path("bindings/rust"), env=built)
