"""Makes the program `lemonrudder` of relay/, over the library for C and the crates that Debian packages, without the
network."""
import glob
import json
import os
import shutil
import subprocess
import sys

from scripts.crates import ROOT

SOURCES = os.path.join(ROOT, "relay")
TARGET = os.path.join(ROOT, "out", "relay")


def target_of(prefix):
    """Where the program is built over a library below a folder."""
    return os.path.join(prefix, "relay")


PROGRAM = "lemonrudder"
# where Debian's packages put crates, and the packages of those that relay/Cargo.toml names
REGISTRY = "/usr/share/cargo/registry"
PACKAGES = {
    name: f"librust-{name}-dev" for name in (
        "clap", "futures-util", "openssl", "prometheus", "rusqlite", "rustix", "serde", "socket2", "tokio", "tokio-openssl",
        "tokio-postgres", "toml", "tracing", "tracing-subscriber")
}
# the crates of crates.io are those of that folder
OF_REGISTRY = ["--config", 'source.crates-io.replace-with = "debian"',
               "--config", f"source.debian.directory = {json.dumps(REGISTRY)}"]

# how cargo builds what is tested, once: with lines alone for a debugger, and nothing that is for the next build
QUICK = {"CARGO_INCREMENTAL": "0", "CARGO_PROFILE_DEV_DEBUG": "line-tables-only"}


def lacking():
    """The packages of Debian that are missing on this machine."""
    return [package for crate, package in PACKAGES.items() if not glob.glob(f"{REGISTRY}/{crate}-[0-9]*")]


def cargo(lib, *words, then=(), target=TARGET, **options):
    """Runs a command of cargo on the relay, over the library in a folder, with words for what it runs behind `--`, and
    answers what `subprocess.run` does."""
    env = {**os.environ, **QUICK, "LEMONRUDDER_LIB_DIR": lib, "CARGO_TARGET_DIR": target}
    behind = ["--", *then] if then else []
    return subprocess.run(["cargo", *words, "--offline", *OF_REGISTRY, *behind], cwd=SOURCES, env=env,
                          stdin=subprocess.DEVNULL, check=False, **options)


# what cargo is told of the program that is installed or packed, and of the one for tests, which has points at which it ends
RELEASE, TESTED = ["--release"], ["--features", "points"]


def build(lib, target=TARGET, is_release=True, **options):
    """Builds the program over the library in a folder, and answers its path, or None where that failed."""
    words = RELEASE if is_release else TESTED
    if cargo(lib, "build", "--quiet", *words, target=target, **options).returncode != 0:
        return None
    return os.path.join(target, "release" if is_release else "debug", PROGRAM)


def install(program, prefix, destdir=""):
    """Puts the program below a folder, which is itself below another one where that is given, and answers its path."""
    path = os.path.join(destdir + os.path.abspath(prefix), "bin", PROGRAM)
    os.makedirs(os.path.dirname(path), exist_ok=True)
    shutil.copy2(program, path)
    return path


def main(prefix):
    """Builds the program for tests over the library below a folder, and answers the status. Without what it wants it says
    so: then the tests of it are not run."""
    lacks = lacking() if shutil.which("cargo") else ["cargo"]
    if lacks:
        print(f"the relay wants {', '.join(lacks)}")
        return 0
    return 0 if build(os.path.join(prefix, "lib"), target_of(prefix), is_release=False) else 1


if __name__ == "__main__":
    sys.exit(main(os.path.abspath(sys.argv[1])))
