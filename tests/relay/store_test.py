"""Runs the tests that stand in the sources of the relay, among them those of its stores, and judges its sources.

Each test of Rust is a part. Those over PostgreSQL start one; where it is missing they are left out by their name.
"""
from __future__ import annotations

import atexit
import functools
import glob
import os
import re
import shutil
import subprocess
import tempfile
import tomllib
import unittest

from scripts import relay
from tests.programs import NEEDS, ROOT, library, needs
from tests.relay import relays

RELAY = os.path.join(ROOT, "relay")
# longer than a build from nothing takes on a busy machine
SECONDS = 1800
# the variables that name points
POINTS = (b"LEMONRUDDER_KILL", b"LEMONRUDDER_STOP")
HAS_POSTGRES = bool(glob.glob("/usr/lib/postgresql/*/bin/initdb")) and (
    os.geteuid() != 0 or shutil.which("runuser") is not None)


def octets_of(name: str) -> bytes:
    with open(name, "rb") as file:
        return file.read()


@functools.lru_cache(maxsize=None)
def target() -> str:
    """A folder for builds, which has what the program under test was built of: in that one's others would have to wait."""
    relays.pointed()
    made = os.path.join(relay.target_of(library()), "debug")
    folder = tempfile.TemporaryDirectory()
    atexit.register(folder.cleanup)
    os.mkdir(os.path.join(folder.name, "debug"))
    parts = [os.path.join(made, name) for name in ("build", "deps", ".fingerprint")]
    subprocess.run(["cp", "-a", *parts, os.path.join(folder.name, "debug")], check=True)
    return folder.name


def cargo(*words: str, then: tuple[str, ...]) -> tuple[int, str]:
    """Runs cargo in the relay's folder, and answers its status and what it printed."""
    ran = relay.cargo(os.path.join(library(), "lib"), *words, then=then, target=target(), stdout=subprocess.PIPE,
                      stderr=subprocess.STDOUT, text=True, timeout=SECONDS)
    return ran.returncode, ran.stdout


@needs("cargo")
class Crate(unittest.TestCase):
    """The sources of the relay."""

    def passes(self, *words: str) -> None:
        """Tests of the crate pass."""
        status, said = cargo("test", *relay.TESTED, then=words)
        tests = [(name, ended) for name, ended in re.findall(r"^test (\S+) \.\.\. (\w+)", said, re.M)
                 if ended != "ignored"]
        for name, ended in tests:
            with self.subTest(name):
                self.assertEqual(ended, "ok", said)
        self.assertEqual(status, 0, said)
        self.assertTrue(tests, said)

    def test_crate(self) -> None:
        """All tests but those over PostgreSQL."""
        self.passes("--skip", "postgres")

    def test_postgres(self) -> None:
        """Those over PostgreSQL, among them two guards of which one is stopped past its lease and goes on."""
        if not HAS_POSTGRES:
            self.skipTest(NEEDS + "postgresql")
        self.passes("postgres")

    @needs("cargo-clippy")
    def test_lints(self) -> None:
        """Clippy has nothing to say, of what is installed and of what is tested."""
        for words in ([], relay.TESTED):
            status, said = cargo("clippy", "--all-targets", *words, then=("-D", "warnings"))
            self.assertEqual(status, 0, said)

    def test_points(self) -> None:
        """What is installed or packed has no points at which the environment has it end: no feature is switched on by
        itself or for it, and only a file of that feature names the variables. The program that is tested has them."""
        with open(os.path.join(RELAY, "Cargo.toml"), "rb") as file:
            features = tomllib.load(file)["features"]
        self.assertEqual((features, relay.RELEASE), ({"points": []}, ["--release"]))
        sources = {name: octets_of(name) for name in glob.glob(os.path.join(RELAY, "src", "**", "*.rs"), recursive=True)}
        fatal = os.path.join(RELAY, "src", "points", "fatal.rs")
        self.assertEqual([name for name, text in sources.items() if any(word in text for word in POINTS)], [fatal])
        self.assertEqual([line for line in sources[os.path.join(RELAY, "src", "points", "mod.rs")].decode().splitlines()
                          if not line.startswith("//")],
                         ["", '#[cfg(feature = "points")]', "mod fatal;", "", '#[cfg(feature = "points")]',
                          "pub use fatal::point;", "", '#[cfg(not(feature = "points"))]', "pub fn point(_: &str) {}"])
        released = os.path.join(relay.TARGET, "release", relay.PROGRAM)
        for path, has_points in ((relays.pointed(), True), (relays.program(), relays.program() == relays.pointed()),
                                 *[(released, False)] * os.path.exists(released)):
            self.assertEqual([word in octets_of(path) for word in POINTS], [has_points] * len(POINTS), path)

    @needs("rustfmt")
    def test_format(self) -> None:
        """The sources are in the form of rustfmt."""
        ran = subprocess.run(["cargo", "fmt", "--check"], cwd=RELAY, capture_output=True, text=True, check=False)
        self.assertEqual((ran.returncode, ran.stdout), (0, ""))


if __name__ == "__main__":
    unittest.main()
