"""Runs the tests of the crates for Rust, their examples among them.

They are built in a folder of their own, and no warning is let pass. Each test of the crates and of their documents is a
part. The bank over tokio is built over the crates that Debian packages, and tested as the banks in C and C++ are.
"""
import glob
import json
import os
import re
import shutil
import subprocess
import tempfile
import unittest

from scripts import library
from scripts.relay import QUICK
from tests import programs
from tests.embedding import (
    BANKS, of_functions, slow_bank_says_goodbye, slow_deposits_act_once, slow_deposits_are_answered_in_any_order,
    slow_deposits_are_made_at_once)

CRATE = os.path.join(programs.ROOT, "bindings", "rust")
REGISTRY = "/usr/share/cargo/registry"
# the crates of crates.io are those of that folder
OF_REGISTRY = ["--config", 'source.crates-io.replace-with = "debian"',
               "--config", f"source.debian.directory = {json.dumps(REGISTRY)}"]
SECONDS = 60


def folder_of(tests):
    """A folder for what a class of tests builds."""
    folder = tempfile.TemporaryDirectory()
    tests.addClassCleanup(folder.cleanup)
    return folder.name


def cargo(target, lib, *words, cwd=CRATE, **environment):
    """Runs cargo over the libraries of a folder, and answers its status and what it printed."""
    found = {**os.environ, **QUICK, "LEMONRUDDER_LIB_DIR": lib, "CARGO_TARGET_DIR": target, "RUSTFLAGS": "-D warnings",
             "RUSTDOCFLAGS": "-D warnings", **environment}
    ran = subprocess.run(["cargo", *words], cwd=cwd, env=found, stdin=subprocess.DEVNULL, stdout=subprocess.PIPE,
                         stderr=subprocess.STDOUT, text=True, check=False)
    return ran.returncode, ran.stdout


def package(example, target, lib, *words, change=lambda folder: None):
    """Builds an example that is a package of its own, whose copy is changed first, and answers the program."""
    packages = os.path.join(target, "packages")
    folder = os.path.join(packages, example)
    # (copies, since cargo writes beside a manifest which crates it took)
    made = shutil.ignore_patterns("Cargo.lock", "target")
    shutil.copytree(os.path.join(CRATE, "examples"), packages, ignore=made)
    for manifest in glob.glob(os.path.join(packages, "*", "Cargo.toml")):
        with open(manifest, encoding="utf-8") as file:
            text = file.read().replace('path = "../.."', f"path = {json.dumps(CRATE)}")
        with open(manifest, "w", encoding="utf-8") as file:
            file.write(text)
    change(folder)
    with open(os.path.join(folder, "Cargo.toml"), encoding="utf-8") as file:
        text = file.read()
    status, said = cargo(target, lib, *words, "build", "--offline", cwd=folder)
    if status != 0:
        raise AssertionError(said)
    return os.path.join(target, "debug", re.search(r'^name = "(.*)"$', text, re.M)[1])


@programs.needs("cargo")
class Crate(unittest.TestCase):
    """The crates over the library for C."""

    @classmethod
    def setUpClass(cls):
        cls.lib = os.path.join(programs.library(), "lib")
        cls.target = folder_of(cls)

    def succeeds(self, command, *words, **environment):
        """Runs a command of cargo that is to succeed, and answers what it printed."""
        status, said = cargo(self.target, self.lib, command, "--offline", "--locked", *words, **environment)
        self.assertEqual(status, 0, said)
        return said

    def passes(self, *words, **environment):
        """Runs tests that are to pass."""
        words = ["test", "--offline", "--locked", "--workspace", "--no-fail-fast", *words]
        status, said = cargo(self.target, self.lib, *words, **environment)
        tests = re.findall(r"^test (.+) \.\.\. (\w+)", said, re.M)
        for name, ended in tests:
            with self.subTest(name):
                self.assertEqual(ended, "ok", said)
        self.assertEqual(status, 0, said)
        self.assertTrue(tests, said)

    def test_crate(self):
        """All tests that `cargo test` runs."""
        self.passes()

    def test_without_std(self):
        """The tests that want no std, where the crate has none."""
        self.passes("--no-default-features", "--lib", "--tests")

    def test_bare(self):
        """A program without std, which brings its heap, calls and serves."""
        program = package("bare", self.target, self.lib)
        self.assertEqual(subprocess.run([program], check=False, timeout=SECONDS).returncode, 0)

    def test_shared(self):
        """With LEMONRUDDER_STATIC=0 the shared library is linked, and else the archive."""
        program = os.path.join(self.target, "debug", "examples", "first")
        for static, elsewhere in (("0", 127), ("1", 0)):
            self.succeeds("build", "--example", "first", LEMONRUDDER_STATIC=static)
            for folder, status in ((self.lib, 0), (self.target, elsewhere)):
                with self.subTest(static=static, folder=folder):
                    ran = subprocess.run([program], env={"LD_LIBRARY_PATH": folder}, capture_output=True, check=False)
                    self.assertEqual(ran.returncode, status, ran)

    def test_versions(self):
        """The build ends where the library is of another series; it says where it can't tell."""
        major, minor, patch = map(int, library.VERSION.split("."))
        with tempfile.TemporaryDirectory() as folder:
            lib = os.path.join(folder, "lib")
            shutil.copytree(self.lib, lib, symlinks=True)
            for version, status, text in ((f"Version: {major}.{minor}.{patch + 1}", 0, ""),
                                          (f"Version: {major + 1}.{minor}.{patch}", 101, f"wants {library.VERSION}"),
                                          ("", 0, "does not say which version")):
                with open(os.path.join(lib, "pkgconfig", "lemonrudder.pc"), "w", encoding="ascii") as file:
                    file.write(f"Name: lemonrudder\n{version}\n")
                with self.subTest(version):
                    ended, said = cargo(self.target, lib, "check", "--offline", "--locked")
                    self.assertEqual(ended, status, said)
                    self.assertIn(text, said)

    def test_documents(self):
        """The documents of the crates are built."""
        self.succeeds("doc", "--workspace", "--no-deps")

    @programs.needs("cargo-clippy")
    def test_lints(self):
        """Clippy has nothing to say."""
        self.succeeds("clippy", "--workspace", "--all-targets", "--", "-D", "warnings")

    @programs.needs("rustfmt")
    def test_format(self):
        """The sources are in the form of rustfmt."""
        for folder in (CRATE, *glob.glob(os.path.join(CRATE, "examples", "*", ""))):
            with self.subTest(folder):
                self.assertEqual(cargo(self.target, self.lib, "fmt", "--check", cwd=folder), (0, ""))
        self.assertEqual(cargo(self.target, self.lib, "fmt", "--package", "lemonrudder-sys", "--check"), (0, ""))


# what does not tell how many are made at once, and which
SLOW_BANKS = [slow_deposits_are_made_at_once, slow_deposits_act_once, slow_deposits_are_answered_in_any_order,
              slow_bank_says_goodbye]


@programs.needs("cargo")
@of_functions([*BANKS, *SLOW_BANKS])
class BankTokio(unittest.TestCase):
    """The bank over tokio."""

    @classmethod
    def setUpClass(cls):
        lib = os.path.join(programs.library(), "lib")
        if not glob.glob(os.path.join(REGISTRY, "tokio-1.*")):
            raise unittest.SkipTest(programs.NEEDS + "librust-tokio-dev")
        cls.subject = package("tokio", folder_of(cls), lib, *OF_REGISTRY)


if __name__ == "__main__":
    unittest.main()
